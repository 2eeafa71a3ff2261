// A plain writer of band lists: the same marks, the same bytes, the same sums.
use std::sync::Arc;
use std::time::Instant;

const WIDTH: u16 = 612;
const HEIGHT: u16 = 792;

struct Words {
    state: u64,
}

impl Words {
    fn next(&mut self, most: u16) -> u16 {
        self.state = self
            .state
            .wrapping_mul(6364136223846793005)
            .wrapping_add(1442695040888963407);
        ((self.state >> 33) % u64::from(most)) as u16
    }
}

#[derive(Clone, Copy)]
struct Point {
    x: i64,
    y: i64,
}

type Ring = Vec<Point>;

enum Shape {
    Poly(Vec<Ring>),
    #[allow(dead_code)]
    Disc(i64, i64, u64),
}

#[derive(Clone, Copy, PartialEq)]
struct Code {
    n: u8,
    c: [u8; 4],
}

#[derive(Clone, Copy, PartialEq)]
enum Ink {
    Plain(Code),
    #[allow(dead_code)]
    Linked(u32, Code),
}

struct Region {
    rule: u8,
    rings: Arc<Vec<Ring>>,
}

struct Mark {
    rule: u8,
    clip_number: Option<u32>,
    shapes: Arc<Vec<Shape>>,
    clip: Arc<Vec<Region>>,
    ink: Ink,
}

fn put_number(to: &mut Vec<u8>, mut n: u64) {
    while n >= 128 {
        to.push((n % 128 + 128) as u8);
        n /= 128;
    }
    to.push(n as u8);
}

fn put_signed(to: &mut Vec<u8>, v: i64) {
    put_number(to, if v < 0 { (-2 * v - 1) as u64 } else { (2 * v) as u64 });
}

fn put_rings(to: &mut Vec<u8>, rings: &[Ring]) {
    put_number(to, rings.len() as u64);
    for ring in rings {
        put_number(to, ring.len() as u64);
        let mut before = Point { x: 0, y: 0 };
        for point in ring {
            put_signed(to, point.x - before.x);
            put_signed(to, point.y - before.y);
            before = *point;
        }
    }
}

fn put_draw(to: &mut Vec<u8>, mark: &Mark) {
    to.push(3);
    to.push(mark.rule);
    put_number(to, mark.shapes.len() as u64);
    for shape in mark.shapes.iter() {
        match shape {
            Shape::Poly(rings) => {
                to.push(0);
                put_rings(to, rings);
            }
            Shape::Disc(x, y, r) => {
                to.push(1);
                put_signed(to, *x);
                put_signed(to, *y);
                put_number(to, *r);
            }
        }
    }
}

fn put_flat(to: &mut Vec<u8>, ink: Ink) {
    let (place, code) = match ink {
        Ink::Plain(code) => (0, code),
        Ink::Linked(source, code) => (u64::from(source) + 1, code),
    };
    to.push(1);
    to.push(code.n);
    put_number(to, place);
    to.extend_from_slice(&code.c[..code.n as usize]);
}

fn put_clip(to: &mut Vec<u8>, clip: &[Region]) {
    to.push(2);
    put_number(to, clip.len() as u64);
    for region in clip {
        to.push(region.rule);
        put_rings(to, &region.rings);
    }
}

fn reach(mark: &Mark, height: u32) -> (u32, u32) {
    let mut extent: Option<(i64, i64)> = None;
    let mut grow = |top: i64, bottom: i64| {
        extent = Some(match extent {
            None => (top, bottom),
            Some((t, b)) => (t.min(top), b.max(bottom)),
        });
    };
    for shape in mark.shapes.iter() {
        match shape {
            Shape::Poly(rings) => {
                for point in rings.iter().flatten() {
                    grow(point.y, point.y);
                }
            }
            Shape::Disc(_, y, r) => grow(y - *r as i64, y + *r as i64),
        }
    }
    let Some((top, bottom)) = extent else {
        return (0, 0);
    };
    let first = ((top + 127).div_euclid(256)).clamp(0, i64::from(height)) as u32;
    let end = ((bottom - 128).div_euclid(256) + 1).clamp(0, i64::from(height)) as u32;
    if first < end { (first, end) } else { (0, 0) }
}

struct Draft {
    bytes: Vec<u8>,
    needs: Vec<u32>,
    ink: Ink,
    clip_number: Option<u32>,
    cuts: bool,
}

impl Draft {
    fn new() -> Draft {
        Draft {
            bytes: Vec::new(),
            needs: Vec::new(),
            ink: Ink::Plain(Code { n: 1, c: [0; 4] }),
            clip_number: None,
            cuts: false,
        }
    }

    fn add(&mut self, mark: &Mark, painted: &[u8]) {
        if mark.ink != self.ink {
            put_flat(&mut self.bytes, mark.ink);
            self.ink = mark.ink;
        }
        let is_said = !self.cuts && mark.clip.is_empty()
            || self.clip_number.is_some() && self.clip_number == mark.clip_number;
        if !is_said {
            put_clip(&mut self.bytes, &mark.clip);
            self.clip_number = mark.clip_number;
            self.cuts = !mark.clip.is_empty();
        }
        self.bytes.extend_from_slice(painted);
        if let Ink::Linked(source, _) = mark.ink {
            if self.needs.last() != Some(&source) {
                self.needs.push(source);
            }
        }
    }
}

fn split(marks: &[Mark], height: u32, rows: u32) -> Vec<Draft> {
    let mut drafts: Vec<Draft> = (0..height.div_ceil(rows)).map(|_| Draft::new()).collect();
    let mut painted = Vec::new();
    for mark in marks {
        painted.clear();
        put_draw(&mut painted, mark);
        let (first, end) = reach(mark, height);
        if first < end {
            for draft in &mut drafts[(first / rows) as usize..=((end - 1) / rows) as usize] {
                draft.add(mark, &painted);
            }
        }
    }
    drafts
}

fn dots(x: u16, y: u16) -> Point {
    Point {
        x: 256 * i64::from(x),
        y: 256 * i64::from(y),
    }
}

fn page(count: u32, most: u16) -> Vec<Mark> {
    let mut words = Words { state: 1 };
    let mut code = Code { n: 1, c: [0; 4] };
    (0..count)
        .map(|k| {
            let ring = if k % 10 == 9 {
                (0..3)
                    .map(|_| {
                        let x = words.next(WIDTH);
                        dots(x, words.next(HEIGHT))
                    })
                    .collect()
            } else {
                let (r, g) = (words.next(256) as u8, words.next(256) as u8);
                code = Code { n: 3, c: [r, g, words.next(256) as u8, 0] };
                let (left, top) = (words.next(WIDTH), words.next(HEIGHT));
                let right = left + 1 + words.next(most);
                let bottom = top + 1 + words.next(most);
                vec![dots(left, bottom), dots(right, bottom), dots(right, top), dots(left, top)]
            };
            Mark {
                rule: 0,
                clip_number: None,
                shapes: Arc::new(vec![Shape::Poly(vec![ring])]),
                clip: Arc::new(Vec::new()),
                ink: Ink::Plain(code),
            }
        })
        .collect()
}

fn case(name: &str, marks: &[Mark], rows: u32) {
    let start = Instant::now();
    let drafts = split(marks, u32::from(HEIGHT), rows);
    let time = start.elapsed().as_nanos();
    let (mut bytes, mut sum) = (0u64, 0u64);
    for draft in &drafts {
        bytes += draft.bytes.len() as u64 + draft.needs.len() as u64;
        for byte in &draft.bytes {
            sum = sum.wrapping_mul(31).wrapping_add(u64::from(*byte));
        }
    }
    println!("split, {name}: {} bands, {bytes} bytes, sum {sum}", drafts.len());
    eprintln!("split, {name}: {time}");
}

fn main() {
    let is_short = std::env::args().nth(1).as_deref() == Some("short");
    let (large, small) = if is_short { (100, 1_000) } else { (2_000, 100_000) };
    let sample = page(large, 200);
    case("64 rows a band", &sample, 64);
    case("1 row a band", &sample, 1);
    case("small marks, 64 rows a band", &page(small, 8), 64);
}
