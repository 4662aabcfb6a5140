// A plain Rust reader of particle texts and a plain writer of the same lines, for comparison: no limits but those of i64, no proof.
use std::fmt::Write;
use std::time::Instant;

enum Kind {
    Charge(i64),
    Dipole(i64, i64),
    Vortex(i64),
    Target,
}

struct Point {
    x: i64,
    y: i64,
    kind: Kind,
}

fn line(text: &str) -> Option<Point> {
    let mut words = text.split(' ');
    let name = words.next()?;
    let mut number = || words.next()?.parse::<i64>().ok();
    let (x, y) = (number()?, number()?);
    let kind = match name {
        "charge" => Kind::Charge(number()?),
        "dipole" => Kind::Dipole(number()?, number()?),
        "vortex" => Kind::Vortex(number()?),
        "target" => Kind::Target,
        _ => return None,
    };
    Some(Point { x, y, kind })
}

fn parse(text: &str) -> Option<Vec<Point>> {
    let mut lines = text.lines();
    if lines.next()? != "fmm 1 field" {
        return None;
    }
    lines.map(line).collect()
}

fn print(points: &[Point]) -> String {
    let mut text = String::from("fmm 1 field\n");
    for p in points {
        match p.kind {
            Kind::Charge(q) => writeln!(text, "charge {} {} {}", p.x, p.y, q),
            Kind::Dipole(a, b) => writeln!(text, "dipole {} {} {} {}", p.x, p.y, a, b),
            Kind::Vortex(g) => writeln!(text, "vortex {} {} {}", p.x, p.y, g),
            Kind::Target => writeln!(text, "target {} {}", p.x, p.y),
        }
        .unwrap();
    }
    text
}

fn measure(lines: usize) {
    let mut text = String::from("fmm 1 field\n");
    for _ in 0..lines {
        text.push_str("charge -12345 23456 -54321\n");
    }
    let start = Instant::now();
    let points = parse(&text).unwrap();
    let read = start.elapsed().as_micros();
    let start = Instant::now();
    let printed = print(&points);
    let wrote = start.elapsed().as_micros();
    println!("parse {} bytes in {read} us, {} MB/s", text.len(), text.len() as u128 / read);
    println!("print {} bytes in {wrote} us, {} MB/s", printed.len(), printed.len() as u128 / wrote);
}

fn main() {
    measure(8_192);
    measure(65_536);
}
