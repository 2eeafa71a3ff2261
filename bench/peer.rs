// A plain Rust program that renders the language of the first path, to compare times with. It asks the same question of each
// dot: which is the last mark whose winding number at the dot's centre isn't zero?

use std::io::Write;

struct Mark {
    rings: Vec<Vec<(i64, i64)>>,
    colour: [u8; 3],
}

fn turn(a: (i64, i64), b: (i64, i64), px: i64, py: i64) -> i32 {
    let crosses = |low: (i64, i64), high: (i64, i64)| {
        low.0 * (high.1 - low.1) + (py - low.1) * (high.0 - low.0) <= px * (high.1 - low.1)
    };
    if a.1 <= py && py < b.1 && crosses(a, b) {
        1
    } else if b.1 <= py && py < a.1 && crosses(b, a) {
        -1
    } else {
        0
    }
}

fn winding(ring: &[(i64, i64)], px: i64, py: i64) -> i32 {
    (0..ring.len())
        .map(|k| turn(ring[k], ring[(k + 1) % ring.len()], px, py))
        .sum()
}

impl Mark {
    fn covers(&self, row: i64, col: i64) -> bool {
        let (px, py) = (256 * col + 128, 256 * row + 128);
        self.rings.iter().map(|ring| winding(ring, px, py)).sum::<i32>() != 0
    }
}

fn main() {
    let words: Vec<String> = std::env::args().collect();
    let (width, height): (i64, i64) = (words[1].parse().unwrap(), words[2].parse().unwrap());
    let program = std::fs::read_to_string(&words[3]).unwrap();
    let mut operands: Vec<i64> = Vec::new();
    let mut colour = [0u8; 3];
    let mut marks: Vec<Mark> = Vec::new();
    for word in program.split_ascii_whitespace() {
        match word {
            "setrgbcolor" => {
                let at = operands.len() - 3;
                for (place, value) in operands.drain(at..).enumerate() {
                    colour[place] = if value >= 1 { 255 } else { 0 };
                }
            }
            "rectfill" => {
                let at = operands.len() - 4;
                let sides: Vec<i64> = operands.drain(at..).collect();
                let (x, y, w, h) = (sides[0], sides[1], sides[2], sides[3]);
                let corner = |x: i64, y: i64| (256 * x, 256 * (height - y));
                let ring = vec![corner(x, y), corner(x + w, y), corner(x + w, y + h), corner(x, y + h)];
                marks.push(Mark { rings: vec![ring], colour });
            }
            "showpage" => {
                let mut dots = Vec::with_capacity((3 * width * height) as usize);
                for row in 0..height {
                    for col in 0..width {
                        let last = marks.iter().rev().find(|mark| mark.covers(row, col));
                        dots.extend_from_slice(&last.map_or([255; 3], |mark| mark.colour));
                    }
                }
                let mut out = std::io::stdout();
                write!(out, "P6\n{width} {height}\n255\n").unwrap();
                out.write_all(&dots).unwrap();
                marks.clear();
                colour = [0; 3];
            }
            number => operands.push(number.parse().unwrap()),
        }
    }
}
