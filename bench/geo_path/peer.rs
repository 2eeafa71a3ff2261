// The same curves flattened by plain Rust, with the same sums: in 64 bits as they come, or in 128 bits.

use std::time::Instant;

const CURVES: i64 = 10_000;
const ROUNDS: u32 = 20;

type Spot = (i64, i64);

macro_rules! flattener {
    ($name:ident, $n:ty) => {
        fn $name(controls: &[[Spot; 4]]) -> Vec<Spot> {
            let mut points = Vec::new();
            points.push(controls[0][0]);
            for [p0, p1, p2, p3] in controls {
                let apart = |p: &Spot, q: &Spot| (q.0 - p.0).abs() + (q.1 - p.1).abs();
                let length = apart(p0, p1) + apart(p1, p2) + apart(p2, p3);
                let n: $n = match length {
                    ..=4096 => 8,
                    ..=65536 => 16,
                    ..=1048576 => 32,
                    _ => 64,
                };
                for i in 1..=n {
                    let j = n - i;
                    let at = |a: i64, b: i64, c: i64, d: i64| {
                        let sum = j * j * j * a as $n
                            + 3 * j * j * i * b as $n
                            + 3 * j * i * i * c as $n
                            + i * i * i * d as $n;
                        let d = n * n * n;
                        (2 * sum + d).div_euclid(2 * d) as i64
                    };
                    points.push((at(p0.0, p1.0, p2.0, p3.0), at(p0.1, p1.1, p2.1, p3.1)));
                }
            }
            points
        }
    };
}

flattener!(flat_64, i64);
flattener!(flat_128, i128);

fn timed(flat: fn(&[[Spot; 4]]) -> Vec<Spot>, controls: &[[Spot; 4]]) -> (u128, Vec<Spot>) {
    let start = Instant::now();
    let mut last = Vec::new();
    for _ in 0..ROUNDS {
        last = flat(std::hint::black_box(controls));
    }
    (start.elapsed().as_micros() / u128::from(ROUNDS), last)
}

fn main() {
    let mut controls = Vec::new();
    let mut at = (150_000, 150_000);
    for k in 0..CURVES {
        let end = (150_000 - k, 150_000 - 2 * k);
        controls.push([at, (100_000 + k, 3 * k), (k, 150_000), end]);
        at = end;
    }
    let (wide, points) = timed(flat_128, &controls);
    let (narrow, same) = timed(flat_64, &controls);
    assert_eq!(points, same);
    let sum = points.iter().fold(0i64, |sum, p| {
        sum.wrapping_mul(31).wrapping_add(p.0).wrapping_add(p.1.wrapping_mul(7))
    });
    println!("{} points, sum {sum}", points.len());
    eprintln!("{narrow} {wide}");
}
