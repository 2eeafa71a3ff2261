// A plain active-edge sweep of the same arithmetic, the same points, the same sums.
use std::time::Instant;
#[derive(Clone, Copy, PartialEq)]
enum Kind {
    Scattered,
    Steep,
    Gentle,
}
#[derive(Clone, Copy)]
struct Plan {
    corners: u16,
    left: u16,
    top: u16,
    width: u16,
    height: u16,
    kind: Kind,
}
struct Words {
    state: u64,
}
impl Words {
    fn next(&mut self, most: u16) -> u32 {
        self.state = self
            .state
            .wrapping_mul(6364136223846793005)
            .wrapping_add(1442695040888963407);
        ((self.state >> 33) % most as u64) as u32
    }
}
fn corner(w: &mut Words, p: &Plan, k: u16) -> (i64, i64) {
    let x = w.next(p.width);
    let y = w.next(p.height);
    let sub = w.next(256);
    let (left, top, width, height) = (p.left as u32, p.top as u32, p.width as u32, p.height as u32);
    let (dx, dy) = match p.kind {
        Kind::Scattered => (x * 256 + sub, y * 256 + sub),
        Kind::Steep => (x * 256 + sub, if k % 2 == 0 { 0 } else { height * 256 }),
        Kind::Gentle => {
            let half = p.corners as u32 / 2 + 1;
            let at = k as u32;
            if at < half {
                (x * 64 + sub, at * (height * 256 / half))
            } else {
                (
                    width * 256 - x * 64,
                    (half - (at - half).min(half)) * (height * 256 / half),
                )
            }
        }
    };
    ((left * 256 + dx) as i64, (top * 256 + dy) as i64)
}
#[derive(Clone, Copy)]
struct Edge {
    col: i64,
    step: i64,
    over: u64,
    part: u64,
    span: u64,
    row: u32,
    last: u32,
    rises: bool,
}
struct Sums {
    spans: u64,
    sum: u64,
}
impl Sums {
    fn add(&mut self, row: u32, spans: &[(u32, u32)]) {
        for &(a, b) in spans {
            self.spans = self.spans.wrapping_add(1);
            self.sum = self
                .sum
                .wrapping_mul(31)
                .wrapping_add(row as u64)
                .wrapping_add((a as u64).wrapping_mul(7))
                .wrapping_add((b as u64).wrapping_mul(11));
        }
    }
}
fn place_from(y: i64, from: i64, to: i64) -> i64 {
    (y + 127).div_euclid(256).clamp(from, to)
}
fn make(points: &[(i64, i64)], first: u32, rows: u32) -> Vec<Edge> {
    let mut edges = Vec::new();
    let (f, e) = (first as i64, first as i64 + rows as i64);
    for i in 0..points.len() {
        let (a, b) = (points[i], points[(i + 1) % points.len()]);
        let (lo, hi, rises) = if a.1 < b.1 {
            (a, b, true)
        } else if b.1 < a.1 {
            (b, a, false)
        } else {
            continue;
        };
        let (begin, stop) = (place_from(lo.1, f, e), place_from(hi.1, f, e));
        if stop <= begin {
            continue;
        }
        let (rise, run) = (hi.1 - lo.1, hi.0 - lo.0);
        let span = rise * 256;
        let place = lo.0 as i128 * rise as i128 + (256 * begin + 128 - lo.1) as i128 * run as i128
            - rise as i128 * 128;
        let q = (-place).div_euclid(span as i128);
        let r = (-place).rem_euclid(span as i128);
        edges.push(Edge {
            col: (-q) as i64,
            step: run.div_euclid(rise),
            over: r as u64,
            part: run.rem_euclid(rise) as u64 * 256,
            span: span as u64,
            row: begin as u32,
            last: (stop - 1) as u32,
            rises,
        });
    }
    edges.sort_unstable_by_key(|e| e.row);
    edges
}
#[inline(never)]
fn walk(
    edges: &mut Vec<Edge>,
    first: u32,
    rows: u32,
    width: u32,
    out: &mut Vec<(u32, u32)>,
    crossings: &mut Vec<(u32, bool)>,
    sums: &mut Sums,
) {
    let (mut active, mut next) = (0usize, 0usize);
    for row in first..first + rows {
        while next < edges.len() && edges[next].row == row {
            edges[active] = edges[next];
            active += 1;
            next += 1;
        }
        out.clear();
        crossings.clear();
        for e in &edges[..active] {
            crossings.push((e.col.clamp(0, width as i64) as u32, e.rises));
        }
        crossings.sort_unstable_by_key(|c| c.0);
        let mut begun: Option<u32> = None;
        let mut winding = 0i64;
        let mut at = 0;
        for &(col, rises) in crossings.iter() {
            if at != col {
                let covered = winding != 0;
                match begun {
                    None => {
                        if covered {
                            begun = Some(at)
                        }
                    }
                    Some(f) => {
                        if !covered {
                            out.push((f, at));
                            begun = None
                        }
                    }
                }
            }
            at = col;
            winding += if rises { 1 } else { -1 };
        }
        if at != width {
            let covered = winding != 0;
            match begun {
                None => {
                    if covered {
                        begun = Some(at)
                    }
                }
                Some(f) => {
                    if !covered {
                        out.push((f, at));
                        begun = None
                    }
                }
            }
        }
        if let Some(f) = begun {
            out.push((f, width));
        }
        sums.add(row, out);
        let mut kept = 0;
        for i in 0..active {
            let mut e = edges[i];
            if row < e.last {
                e.row += 1;
                e.col += e.step;
                if e.over < e.part {
                    e.col += 1;
                    e.over += e.span;
                }
                e.over -= e.part;
                edges[kept] = e;
                kept += 1;
            }
        }
        active = kept;
    }
}
fn case(name: &str, count: u16, plan: Plan, width: u32) {
    let mut w = Words { state: 1 };
    let mut sums = Sums { spans: 0, sum: 0 };
    let (mut made, mut walked) = (0u128, 0u128);
    let (mut out, mut crossings) = (Vec::new(), Vec::new());
    for k in 0..count {
        let p = Plan {
            left: k % 37 * 30,
            top: k / 37 * 30,
            ..plan
        };
        let pts: Vec<_> = (0..p.corners).map(|k| corner(&mut w, &p, k)).collect();
        let t = Instant::now();
        let mut edges = make(&pts, p.top as u32, p.height as u32);
        made += t.elapsed().as_nanos();
        let t = Instant::now();
        walk(
            &mut edges,
            p.top as u32,
            p.height as u32,
            width,
            &mut out,
            &mut crossings,
            &mut sums,
        );
        walked += t.elapsed().as_nanos();
    }
    println!("fill, {name}: {} spans, sum {}", sums.spans, sums.sum);
    eprintln!("fill, {name}: make {made} walk {walked}");
}
fn main() {
    let eight = Plan {
        corners: 8,
        left: 0,
        top: 0,
        width: 5100,
        height: 6600,
        kind: Kind::Scattered,
    };
    let small = Plan {
        corners: 12,
        left: 0,
        top: 0,
        width: 20,
        height: 20,
        kind: Kind::Gentle,
    };
    let page = Plan {
        corners: 4000,
        left: 0,
        top: 0,
        width: 1240,
        height: 1754,
        kind: Kind::Gentle,
    };
    case("eight edges", 1, eight, 5100);
    case("a thousand small", 1000, small, 1240);
    case("four thousand gentle", 1, page, 1240);
    case(
        "four thousand scattered",
        1,
        Plan {
            kind: Kind::Scattered,
            ..page
        },
        1240,
    );
    case(
        "four thousand steep",
        1,
        Plan {
            kind: Kind::Steep,
            ..page
        },
        1240,
    );
}
