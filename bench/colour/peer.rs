// The same colours through the same profiles in plain Rust, by the same formulas, with the same sums.
// Each number has the narrowest type that holds it for every profile.
use std::time::Instant;

/// The entries of a curve, and whether none is below the one before it.
struct Curve {
    entries: Vec<u16>,
    rises: bool,
}

/// A lut of 16 bits with four channels.
struct Lut {
    grid: usize,
    before_count: usize,
    after_count: usize,
    before: Vec<u16>,
    nodes: Vec<u16>,
    after: Vec<u16>,
}

struct Matrix {
    columns: [i32; 9],
    curves: [Curve; 3],
}

enum Source {
    Matrix(Matrix),
    Lab(Lut),
}

fn table_at(entries: &[u16], v: u16) -> u16 {
    let step = u64::from(v) * (entries.len() as u64 - 1);
    let (place, distance) = ((step / 65535) as usize, step % 65535);
    if distance == 0 {
        return entries[place];
    }
    let (low, high) = (u64::from(entries[place]), u64::from(entries[place + 1]));
    (((low * (65535 - distance) + high * distance) * 2 + 65535) / 131070) as u16
}

fn curve_back(curve: &Curve, v: u16) -> u16 {
    let reaches = |code: u16| v <= table_at(&curve.entries, code);
    if !curve.rises {
        return (0..65535).find(|&code| reaches(code)).unwrap_or(65535);
    }
    let (mut low, mut high) = (0u32, 65535u32);
    while low < high {
        let middle = (low + high) / 2;
        if reaches(middle as u16) {
            high = middle;
        } else {
            low = middle + 1;
        }
    }
    low as u16
}

/// The nearest whole number of a quotient, a tie going up.
fn div_round(n: i64, d: i64) -> i64 {
    (2 * n + d).div_euclid(2 * d)
}

fn wide_div_round(n: i128, d: i128) -> i128 {
    (2 * n + d).div_euclid(2 * d)
}

fn matrix_source(matrix: &Matrix, code: [u8; 4]) -> [i64; 3] {
    let linear = [0, 1, 2].map(|k| i64::from(table_at(&matrix.curves[k].entries, 257 * u16::from(code[k]))));
    [0, 1, 2].map(|row| {
        let part = |k: usize| i64::from(matrix.columns[3 * k + row]) * linear[k];
        div_round(part(0) + part(1) + part(2), 65535).clamp(0, 131070)
    })
}

/// Adds the corners of the channels `at`, from a weight and a place of the channels before.
fn add_corners(lut: &Lut, at: &[u16], weight: u64, place: usize, sums: &mut [u128; 3]) {
    if weight == 0 {
        return;
    }
    let Some((v, rest)) = at.split_first() else {
        for (sum, node) in sums.iter_mut().zip(&lut.nodes[place * 3..place * 3 + 3]) {
            *sum += u128::from(weight) * u128::from(*node);
        }
        return;
    };
    let step = u64::from(*v) * (lut.grid as u64 - 1);
    let (first, distance) = (place * lut.grid + (step / 65535) as usize, step % 65535);
    add_corners(lut, rest, weight * (65535 - distance), first, sums);
    add_corners(lut, rest, weight * distance, first + 1, sums);
}

fn table(entries: &[u16], count: usize, channel: usize, v: u16) -> u16 {
    table_at(&entries[channel * count..(channel + 1) * count], v)
}

fn lut_source(lut: &Lut, code: [u8; 4]) -> [i64; 3] {
    lab_of(lut, [0, 1, 2, 3].map(|k| table(&lut.before, lut.before_count, k, 257 * u16::from(code[k]))))
}

/// Lab of a point of the lattice.
fn lab_of(lut: &Lut, at: [u16; 4]) -> [i64; 3] {
    let mut sums = [0; 3];
    add_corners(lut, &at, 1, 0, &mut sums);
    const WHOLE: u64 = 65535 * 65535 * 65535 * 65535;
    let values = sums.map(|sum| ((sum + u128::from(WHOLE / 2)) / u128::from(WHOLE)) as u16);
    let [l, a, b] = [0, 1, 2].map(|k| i64::from(table(&lut.after, lut.after_count, k, values[k])));
    let chroma = |v: i64| ((v - 32768) * 256).clamp(-8388608, 8388352);
    [div_round(l * 6553600, 65280).clamp(0, 6553600), chroma(a), chroma(b)]
}

fn xyz_of_f(white: i64, f: i64) -> i64 {
    let number = if f * 29 > 6 << 20 {
        wide_div_round(i128::from(white) * i128::from(f * f * f), 1 << 60) as i64
    } else {
        div_round(white * 108 * (f * 29 - (4 << 20)), 24389 << 20)
    };
    number.clamp(0, 131070)
}

fn lab_to_xyz(lab: [i64; 3]) -> [i64; 3] {
    let fy = div_round((lab[0] + 1048576) * 16, 116);
    let fx = fy + div_round(lab[1] * 16, 500);
    let fz = fy - div_round(lab[2] * 16, 200);
    [xyz_of_f(63190, fx), xyz_of_f(65536, fy), xyz_of_f(54061, fz)]
}

fn cross(u: [i32; 3], v: [i32; 3]) -> [i128; 3] {
    let product = |a: i32, b: i32| i128::from(i64::from(a) * i64::from(b));
    let minor = |k: usize, l: usize| product(u[k], v[l]) - product(u[l], v[k]);
    [minor(1, 2), minor(2, 0), minor(0, 1)]
}

fn dot(u: [i128; 3], v: [i64; 3]) -> i128 {
    u[0] * i128::from(v[0]) + u[1] * i128::from(v[1]) + u[2] * i128::from(v[2])
}

fn matrix_target(matrix: &Matrix, xyz: [i64; 3]) -> [u16; 3] {
    let c = &matrix.columns;
    let (red, green, blue) = ([c[0], c[1], c[2]], [c[3], c[4], c[5]], [c[6], c[7], c[8]]);
    let rows = [cross(green, blue), cross(blue, red), cross(red, green)];
    let determinant = dot(rows[0], red.map(i64::from));
    [0, 1, 2].map(|k| {
        let (mut n, mut d) = (dot(rows[k], xyz) * 65535, determinant);
        if d < 0 {
            (n, d) = (-n, -d);
        }
        curve_back(&matrix.curves[k], wide_div_round(n, d).clamp(0, 65535) as u16)
    })
}

/// A colour through two profiles. It isn't inlined, so that nothing is worked out once for all codes.
#[inline(never)]
fn direct(source: &Source, target: &Matrix, code: [u8; 4]) -> [u8; 3] {
    let xyz = match source {
        Source::Matrix(matrix) => matrix_source(matrix, code),
        Source::Lab(lut) => lab_to_xyz(lut_source(lut, code)),
    };
    matrix_target(target, xyz).map(|v| ((u32::from(v) * 510 + 65535) / 131070) as u8)
}

/// What is worked out before a code is met: for a matrix source the shares of its columns in XYZ, for a lut the values
/// of its input tables; of the target its adjugate, its determinant, and its curves read backwards.
enum Prepared {
    Shares([Vec<[i64; 3]>; 3]),
    Entries([Vec<u16>; 4]),
}

struct Link<'a> {
    source: &'a Source,
    prepared: Prepared,
    rows: [[i64; 3]; 3],
    determinant: i64,
    codes: [Vec<u16>; 3],
}

/// A curve read backwards at each value, by one pass over its codes.
fn back_of(curve: &Curve) -> Vec<u16> {
    let mut codes = Vec::with_capacity(65536);
    for code in 0..65535u16 {
        let value = usize::from(table_at(&curve.entries, code));
        while codes.len() <= value {
            codes.push(code);
        }
    }
    codes.resize(65536, 65535);
    codes
}

fn build<'a>(source: &'a Source, target: &Matrix) -> Link<'a> {
    let all = |f: &dyn Fn(u16) -> u16| (0..256u16).map(|c| f(257 * c)).collect::<Vec<u16>>();
    let prepared = match source {
        Source::Matrix(matrix) => Prepared::Shares([0, 1, 2].map(|k| {
            let linear = all(&|v| table_at(&matrix.curves[k].entries, v));
            linear.iter().map(|l| [0, 1, 2].map(|row| i64::from(matrix.columns[3 * k + row]) * i64::from(*l))).collect()
        })),
        Source::Lab(lut) => Prepared::Entries([0, 1, 2, 3].map(|k| {
            let count = lut.before_count;
            all(&|v| table_at(&lut.before[k * count..(k + 1) * count], v))
        })),
    };
    let c = &target.columns;
    let (red, green, blue) = ([c[0], c[1], c[2]], [c[3], c[4], c[5]], [c[6], c[7], c[8]]);
    let rows = [cross(green, blue), cross(blue, red), cross(red, green)];
    let determinant = dot(rows[0], red.map(i64::from));
    Link {
        source,
        prepared,
        rows: rows.map(|row| row.map(|n| n as i64)),
        determinant: determinant as i64,
        codes: [0, 1, 2].map(|k| back_of(&target.curves[k])),
    }
}

/// A colour by a link.
#[inline(never)]
fn convert(link: &Link, code: [u8; 4]) -> [u8; 3] {
    let xyz = match (&link.prepared, link.source) {
        (Prepared::Shares(shares), _) => {
            let [r, g, b] = [0, 1, 2].map(|k| shares[k][usize::from(code[k])]);
            [0, 1, 2].map(|row| div_round(r[row] + g[row] + b[row], 65535).clamp(0, 131070))
        }
        (Prepared::Entries(entries), Source::Lab(lut)) => {
            lab_to_xyz(lab_of(lut, [0, 1, 2, 3].map(|k| entries[k][usize::from(code[k])])))
        }
        _ => unreachable!(),
    };
    [0, 1, 2].map(|k| {
        let (row, d) = (link.rows[k], link.determinant);
        let sum = row[0] * xyz[0] + row[1] * xyz[1] + row[2] * xyz[2];
        let (n, d) = if d < 0 { (-sum, -d) } else { (sum, d) };
        let linear = if n <= 0 {
            0
        } else if n >= d {
            65535
        } else {
            (n as u64 * 131070 + d as u64) / (2 * d as u64)
        };
        let v = link.codes[k][linear as usize];
        ((u32::from(v) * 510 + 65535) / 131070) as u8
    })
}

struct Words {
    state: u64,
}

impl Words {
    fn word(&mut self) -> u16 {
        self.state = self
            .state
            .wrapping_mul(6364136223846793005)
            .wrapping_add(1442695040888963407);
        (self.state >> 48) as u16
    }

    fn byte(&mut self) -> u8 {
        (self.word() / 256) as u8
    }

    fn values(&mut self, count: usize) -> Vec<u16> {
        (0..count).map(|_| self.word()).collect()
    }
}

fn squares() -> Curve {
    let entries: Vec<u16> = (0..1024u32).map(|k| (k * k / 16) as u16).collect();
    let rises = entries.is_sorted();
    Curve { entries, rises }
}

fn matrix_of(columns: [i32; 9]) -> Matrix {
    Matrix { columns, curves: [squares(), squares(), squares()] }
}

fn case(name: &str, colour: impl Fn([u8; 4]) -> [u8; 3], codes: &[[u8; 4]]) {
    let start = Instant::now();
    let mut sum = 0u64;
    for code in codes {
        let [red, green, blue] = colour(*code).map(u64::from);
        sum = sum.wrapping_mul(31).wrapping_add(red).wrapping_add(green * 256).wrapping_add(blue * 65536);
    }
    let time = start.elapsed();
    println!("colour, {name}: {} colours, sum {sum}", codes.len());
    eprintln!("colour, {name}: {} ns", time.as_nanos());
}

/// The colours straight through two profiles, and by their link.
fn both(name: &str, source: &Source, target: &Matrix, codes: &[[u8; 4]]) {
    case(name, |code| direct(source, target, code), codes);
    let start = Instant::now();
    let link = build(source, target);
    eprintln!("colour, {name} by a link, build: {} ns", start.elapsed().as_nanos());
    case(&format!("{name} by a link"), |code| convert(&link, code), codes);
}

fn main() {
    let mut words = Words { state: 1 };
    let matrix = Source::Matrix(matrix_of([28579, 14582, 913, 25236, 46981, 6364, 9377, 3973, 46804]));
    let lattice = Source::Lab(Lut {
        grid: 9,
        before_count: 33,
        after_count: 2,
        before: words.values(132),
        nodes: words.values(19683),
        after: vec![0, 65535, 0, 65535, 0, 65535],
    });
    let target = matrix_of([39960, 20389, 1276, 13453, 41004, 3989, 9777, 4143, 48796]);
    let codes: Vec<[u8; 4]> =
        (0..200_000).map(|_| [words.byte(), words.byte(), words.byte(), words.byte()]).collect();
    both("matrix to matrix", &matrix, &target, &codes);
    both("lattice to matrix", &lattice, &target, &codes);
}
