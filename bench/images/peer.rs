// The same rows of dots and the same data in plain Rust, with the same sums: the samples of a row by quotients that are carried from
// dot to dot, rows of bytes by a copying loop, and a mask bit by bit.
use std::time::Instant;

const ROWS: u32 = 200;
const SIDE: u32 = 4096;

#[derive(Clone, Copy)]
enum Pick {
    Outside,
    At(u32),
}

struct Map {
    a: i128,
    b: i128,
    c: i128,
    d: i128,
    tx: i128,
    ty: i128,
    den: i128,
}

/// A quotient, rounded down, and what is left.
#[derive(Clone, Copy)]
struct Division {
    quotient: i128,
    remainder: i128,
}

fn divide(n: i128, d: i128) -> Division {
    Division { quotient: n.div_euclid(d), remainder: n.rem_euclid(d) }
}

impl Division {
    fn next(&self, step: &Division, den: i128) -> Division {
        let quotient = self.quotient + step.quotient;
        let remainder = self.remainder + step.remainder;
        if remainder < den {
            Division { quotient, remainder }
        } else {
            Division { quotient: quotient + 1, remainder: remainder - den }
        }
    }
}

/// The first number at which what grows has come to a bound.
fn first_from(place: i128, growth: i128, bound: i128, count: usize) -> usize {
    (-(place - bound).div_euclid(growth)).clamp(0, count as i128) as usize
}

/// The numbers at which what grows by so much is from 0 on and below an end.
fn run_within(place: i128, growth: i128, whole: i128, count: usize) -> (usize, usize) {
    if growth > 0 {
        (first_from(place, growth, 0, count), first_from(place, growth, whole, count))
    } else if growth < 0 {
        run_within(whole - 1 - place, -growth, whole, count)
    } else if 0 <= place && place < whole {
        (0, count)
    } else {
        (0, 0)
    }
}

#[inline(never)]
fn row_samples(map: &Map, width: u32, rows: u32, row: u32, from: u32, out: &mut [Pick]) {
    out.fill(Pick::Outside);
    let centre = |k: u32| 2 * i128::from(k) + 1;
    let across = |col: u32| map.a * centre(col) + map.c * centre(row) + map.tx;
    let down = |col: u32| map.b * centre(col) + map.d * centre(row) + map.ty;
    let columns = run_within(across(from), 2 * map.a, map.den * i128::from(width), out.len());
    let lines = run_within(down(from), 2 * map.b, map.den * i128::from(rows), out.len());
    let (first, end) = (columns.0.max(lines.0), columns.1.min(lines.1));
    if first >= end {
        return;
    }
    let (u_step, v_step) = (divide(2 * map.a, map.den), divide(2 * map.b, map.den));
    let mut u = divide(across(from + first as u32), map.den);
    let mut v = divide(down(from + first as u32), map.den);
    for pick in &mut out[first..end] {
        *pick = Pick::At(v.quotient as u32 * width + u.quotient as u32);
        u = u.next(&u_step, map.den);
        v = v.next(&v_step, map.den);
    }
}

fn map_rows() {
    const UNIT: i128 = 0x100_0000_0000;
    let map = Map {
        a: 14 * UNIT,
        b: -8 * UNIT,
        c: 8 * UNIT,
        d: 14 * UNIT,
        tx: 12_345,
        ty: 500_000 * UNIT,
        den: 131 * UNIT,
    };
    let mut picks = vec![Pick::Outside; 16384];
    let (mut sum, mut nanos) = (0u64, 0u128);
    for row in 0..ROWS {
        let start = Instant::now();
        row_samples(std::hint::black_box(&map), SIDE, SIDE, row, 0, &mut picks);
        nanos += start.elapsed().as_nanos();
        for pick in &picks {
            let number = match pick {
                Pick::Outside => 4_294_967_295,
                Pick::At(number) => u64::from(*number),
            };
            sum = sum.wrapping_mul(31).wrapping_add(number);
        }
    }
    print("row samples", picks.len(), sum, nanos);
}

fn print(name: &str, count: usize, sum: u64, nanos: u128) {
    println!("{name}: {count}, sum {sum}");
    eprintln!("{name}: {nanos} ns");
}

fn sum_of(codes: &[u8]) -> u64 {
    codes.iter().fold(0u64, |sum, code| sum.wrapping_mul(31).wrapping_add(u64::from(*code)))
}

fn feed(name: &str, piece: &[u8], times: u32, add: fn(&mut Vec<u8>, &[u8])) {
    let start = Instant::now();
    let mut codes = Vec::new();
    for _ in 0..times {
        add(&mut codes, std::hint::black_box(piece));
    }
    let nanos = start.elapsed().as_nanos();
    print(name, codes.len(), sum_of(&codes), nanos);
}

fn copied(codes: &mut Vec<u8>, piece: &[u8]) {
    codes.extend_from_slice(piece);
}

fn bit_by_bit(codes: &mut Vec<u8>, piece: &[u8]) {
    codes.reserve(8 * piece.len());
    for byte in piece {
        for bit in (0..8).rev() {
            codes.push(if byte >> bit & 1 == 1 { 255 } else { 0 });
        }
    }
}

fn main() {
    let mut state = 1u64;
    let piece: Vec<u8> = (0..65536)
        .map(|_| {
            state = state.wrapping_mul(6364136223846793005).wrapping_add(1442695040888963407);
            (state >> 56) as u8
        })
        .collect();
    map_rows();
    feed("bytes", &piece, 256, copied);
    feed("mask", &piece, 32, bit_by_bit);
}
