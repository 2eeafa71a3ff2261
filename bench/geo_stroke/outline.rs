// Outlines of open lines under a pen with dashes and miter joins.

pub type Spot = (i64, i64);

fn plus(p: Spot, v: Spot) -> Spot {
    (p.0 + v.0, p.1 + v.1)
}

fn minus(p: Spot, v: Spot) -> Spot {
    (p.0 - v.0, p.1 - v.1)
}

fn turned(v: Spot) -> Spot {
    (-v.0, -v.1)
}

/// n / d, rounded to the nearest; a tie goes up.
pub fn div_round(n: i128, d: i128) -> i64 {
    (2 * n + d).div_euclid(2 * d) as i64
}

pub enum Shape {
    Poly(Vec<Vec<Spot>>),
    Disc(Spot, u64),
}

fn polygon(points: &[Spot]) -> Shape {
    Shape::Poly(vec![points.to_vec()])
}

#[derive(Clone, Copy, PartialEq)]
pub enum Cap {
    Round,
    Square,
}

pub struct Pen {
    pub half: i64,
    pub cap: Cap,
    pub miter: i64,
    pub dashes: Vec<u64>,
    pub offset: i64,
}

#[derive(Clone, Copy)]
struct Segment {
    from: Spot,
    to: Spot,
    x: i64,
    y: i64,
    /// In 1/65536 of a dot.
    length: u64,
}

impl Segment {
    fn new(from: Spot, to: Spot) -> Option<Segment> {
        let (x, y) = minus(to, from);
        (x != 0 || y != 0).then(|| {
            let length = (square(x, y) * 65536).isqrt() as u64;
            Segment { from, to, x, y, length }
        })
    }

    /// In sub-dots.
    fn whole_length(&self) -> i128 {
        square(self.x, self.y).isqrt() as i128
    }

    fn share(&self, half: i64, step: i64) -> i64 {
        div_round(i128::from(step) * i128::from(half) * 256, i128::from(self.length))
    }

    fn along(&self, half: i64) -> Spot {
        (self.share(half, self.x), self.share(half, self.y))
    }

    fn across(&self, half: i64) -> Spot {
        (self.share(half, -self.y), self.share(half, self.x))
    }

    fn point_at(&self, distance: u64) -> Spot {
        let (distance, length) = (i128::from(distance), i128::from(self.length));
        let way = |step: i64| div_round(i128::from(step) * distance, length);
        plus(self.from, (way(self.x), way(self.y)))
    }
}

fn square(x: i64, y: i64) -> u128 {
    let (x, y) = (u128::from(x.unsigned_abs()), u128::from(y.unsigned_abs()));
    x * x + y * y
}

fn product(p: i64, q: i64) -> i128 {
    i128::from(p) * i128::from(q)
}

fn segments_of(points: &[Spot]) -> Vec<Segment> {
    points.windows(2).filter_map(|two| Segment::new(two[0], two[1])).collect()
}

/// The way to a miter's tip; none where the corner has a bevel.
fn miter_tip(pen: &Pen, a: &Segment, b: &Segment, n: Spot, o: Spot) -> Option<Spot> {
    let m = i128::from(pen.miter.min(1024 << 16));
    let lengths = a.whole_length() * b.whole_length();
    let scalar = product(a.x, b.x) + product(a.y, b.y);
    if (2i128 << 32) * lengths > m * m * (lengths + scalar) {
        return None;
    }
    let half = product(pen.half, pen.half);
    let spread = half + product(n.0, o.0) + product(n.1, o.1);
    if spread <= 0 {
        return None;
    }
    let meet = |sum: i64| div_round(i128::from(sum) * half, spread);
    let tip = (meet(n.0 + o.0), meet(n.1 + o.1));
    (tip.0.abs() <= 2048 * pen.half && tip.1.abs() <= 2048 * pen.half).then_some(tip)
}

fn push_join(shapes: &mut Vec<Shape>, pen: &Pen, a: &Segment, b: &Segment) {
    let cross = product(a.x, b.y) - product(a.y, b.x);
    if cross == 0 {
        return;
    }
    let outward = |v: Spot| if cross > 0 { turned(v) } else { v };
    let (n, o) = (a.across(pen.half), b.across(pen.half));
    let (first, second) = (plus(a.to, outward(n)), plus(a.to, outward(o)));
    shapes.push(match miter_tip(pen, a, b, n, o) {
        Some(tip) => polygon(&[a.to, first, plus(a.to, outward(tip)), second]),
        None => polygon(&[a.to, first, second]),
    });
}

fn square_end(q: Spot, n: Spot, e: Spot) -> Shape {
    polygon(&[plus(q, n), plus(q, plus(n, e)), plus(q, minus(e, n)), minus(q, n)])
}

fn square_start(p: Spot, n: Spot, e: Spot) -> Shape {
    polygon(&[plus(p, n), plus(p, minus(n, e)), minus(p, plus(n, e)), minus(p, n)])
}

/// The shapes of an open line.
fn push_line(shapes: &mut Vec<Shape>, pen: &Pen, points: &[Spot]) {
    let segments = segments_of(points);
    let half = pen.half;
    let disc = |p: Spot| Shape::Disc(p, half.unsigned_abs());
    let (Some(first), Some(last)) = (segments.first(), segments.last()) else {
        if points.len() > 1 && pen.cap == Cap::Round {
            shapes.push(disc(points[0]));
        }
        return;
    };
    for s in &segments {
        let n = s.across(half);
        shapes.push(polygon(&[plus(s.from, n), plus(s.to, n), minus(s.to, n), minus(s.from, n)]));
    }
    for two in segments.windows(2) {
        push_join(shapes, pen, &two[0], &two[1]);
    }
    match pen.cap {
        Cap::Round => shapes.extend([disc(last.to), disc(first.from)]),
        Cap::Square => {
            shapes.push(square_end(last.to, last.across(half), last.along(half)));
            shapes.push(square_start(first.from, first.across(half), first.along(half)));
        }
    }
}

/// What a dash of length 0 paints.
fn push_dot(shapes: &mut Vec<Shape>, pen: &Pen, s: &Segment, distance: u64) {
    let point = s.point_at(distance);
    match pen.cap {
        Cap::Round => shapes.push(Shape::Disc(point, pen.half.unsigned_abs())),
        Cap::Square => {
            let (n, e) = (s.across(pen.half), s.along(pen.half));
            shapes.push(square_end(point, n, e));
            shapes.push(square_start(point, n, e));
        }
    }
}

/// A dash by its distances from the start of a line, and whether its length in the pattern is 0.
struct Dash {
    from: u64,
    to: u64,
    is_dot: bool,
}

/// Hands the dashes of a line that goes from `phase` to `end` to `found`, in order.
fn each_dash(pattern: &[u64], phase: u64, end: u64, mut found: impl FnMut(Dash)) {
    let turns = if pattern.len() % 2 == 0 { 1 } else { 2 };
    let cycle = turns * pattern.iter().sum::<u64>();
    for k in 0..=end / cycle {
        let mut at = k * cycle;
        for (i, size) in pattern.iter().cycle().take(turns as usize * pattern.len()).enumerate() {
            let next = at + size;
            let is_dot = *size == 0;
            let is_made = if is_dot { phase <= at && at <= end } else { phase < next && at < end };
            if i % 2 == 0 && is_made {
                found(Dash { from: at.saturating_sub(phase), to: next.min(end) - phase, is_dot });
            }
            at = next;
        }
    }
}

fn phase_of(pen: &Pen) -> u64 {
    let turns = if pen.dashes.len() % 2 == 0 { 1 } else { 2 };
    let cycle = turns * pen.dashes.iter().sum::<u64>() as i64;
    pen.offset.rem_euclid(cycle) as u64
}

fn push_dashes(shapes: &mut Vec<Shape>, pen: &Pen, segments: &[Segment]) {
    let phase = phase_of(pen);
    let total: u64 = segments.iter().map(|s| s.length).sum();
    let (mut here, mut passed) = (0, 0);
    let mut points = Vec::new();
    each_dash(&pen.dashes, phase, phase + total, |dash| {
        while dash.from > passed + segments[here].length && here + 1 < segments.len() {
            passed += segments[here].length;
            here += 1;
        }
        if dash.is_dot {
            return push_dot(shapes, pen, &segments[here], dash.from - passed);
        }
        let (mut at, mut before) = (here, passed);
        points.clear();
        points.push(segments[here].point_at(dash.from - passed));
        while dash.to > before + segments[at].length && at + 1 < segments.len() {
            before += segments[at].length;
            if dash.from < before {
                points.push(segments[at].to);
            }
            at += 1;
        }
        points.push(segments[at].point_at(dash.to - before));
        push_line(shapes, pen, &points);
    });
}

/// The shapes of open lines under a pen with dashes; none where there are more than 65,536 dashes.
pub fn outline(lines: &[Vec<Spot>], pen: &Pen) -> Option<Vec<Shape>> {
    let lines: Vec<_> = lines.iter().map(|points| segments_of(points)).collect();
    let phase = phase_of(pen);
    let mut count = 0;
    for segments in &lines {
        let total: u64 = segments.iter().map(|s| s.length).sum();
        each_dash(&pen.dashes, phase, phase + total, |_| count += 1);
    }
    if count > 65536 {
        return None;
    }
    let mut shapes = Vec::new();
    for segments in &lines {
        push_dashes(&mut shapes, pen, segments);
    }
    Some(shapes)
}
