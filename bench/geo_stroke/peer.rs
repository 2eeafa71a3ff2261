// The same dashed curves outlined by plain Rust, by the same formulas, with the same sums.

mod outline;

use outline::{Cap, Pen, Shape, Spot, div_round, outline};
use std::time::{Duration, Instant};

const PATHS: i64 = 10;
const CURVES: i64 = 1_000;

/// Dashes and gaps in turn, in 1/65536 of a dot.
const DASHES: [u64; 4] = [6 << 16, 3 << 16, 1 << 16, 3 << 16];

fn flattened(k: i64) -> Vec<Spot> {
    let controls = [(k, 0), (10_000 + k, k), (k, 20_000), (15_000 - k, 15_000 + 2 * k)];
    let apart = |p: Spot, q: Spot| (q.0 - p.0).abs() + (q.1 - p.1).abs();
    let n = match controls.windows(2).map(|two| apart(two[0], two[1])).sum() {
        ..=4096 => 8,
        ..=65536 => 16,
        ..=1048576 => 32,
        _ => 64i64,
    };
    let at = |i: i64, axis: fn(Spot) -> i64| {
        let [a, b, c, d] = controls.map(|p| i128::from(axis(p)));
        let (i, j, n) = (i128::from(i), i128::from(n - i), i128::from(n));
        let sum = j * j * j * a + 3 * j * j * i * b + 3 * j * i * i * c + i * i * i * d;
        div_round(sum, n * n * n)
    };
    (0..=n).map(|i| (at(i, |p| p.0), at(i, |p| p.1))).collect()
}

#[derive(Default)]
struct Sums {
    polygons: u64,
    discs: u64,
    sum: i64,
}

impl Sums {
    fn add_point(&mut self, (x, y): Spot) {
        self.sum = self.sum.wrapping_mul(31).wrapping_add(x).wrapping_add(y.wrapping_mul(7));
    }

    fn add(&mut self, shape: &Shape) {
        match shape {
            Shape::Poly(rings) => {
                self.polygons += 1;
                rings.iter().flatten().for_each(|p| self.add_point(*p));
            }
            Shape::Disc(centre, r) => {
                self.discs += 1;
                self.add_point(*centre);
                self.sum = self.sum.wrapping_add(*r as i64);
            }
        }
    }
}

fn main() {
    let mut sums = Sums::default();
    let mut time = Duration::ZERO;
    for path in 0..PATHS {
        let lines: Vec<_> = (path * CURVES..(path + 1) * CURVES).map(flattened).collect();
        let cap = if path % 2 == 0 { Cap::Round } else { Cap::Square };
        let pen = Pen { half: 256, cap, miter: 10 << 16, dashes: DASHES.to_vec(), offset: 0 };
        let start = Instant::now();
        let shapes = outline(std::hint::black_box(&lines), &pen).expect("too many dashes");
        time += start.elapsed();
        shapes.iter().for_each(|shape| sums.add(shape));
    }
    println!("{} polygons, {} discs, sum {}", sums.polygons, sums.discs, sums.sum);
    eprintln!("{}", time.as_micros());
}
