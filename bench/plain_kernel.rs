// The kernel's table of order 24 in plain Rust, for comparison: the same rounded powers and entries in i128, no proof.
mod plain_box;

use plain_box::{CBox, Interval};
use std::time::Instant;

const ORDER: usize = 24;

fn next_power(p: CBox, re: i128, im: i128, norm: i128) -> CBox {
    CBox {
        re: p.re.scale(re).add(p.im.scale(-im)).quotient(norm),
        im: p.re.scale(im).add(p.im.scale(re)).quotient(norm),
    }
}

fn binomial(n: u128, k: u128) -> i128 {
    (0..k).fold(1u128, |ways, i| ways * (n - i) / (i + 1)) as i128
}

fn table() -> Vec<CBox> {
    let ways: Vec<i128> = (0..ORDER * ORDER).map(|i| binomial((i % ORDER + i / ORDER) as u128, (i % ORDER) as u128)).collect();
    let mut entries = Vec::with_capacity(40 * ORDER * ORDER);
    let far = [-3i128, -2, 2, 3];
    let mut distances = Vec::new();
    for re in far {
        for im in -3..=3 {
            distances.push((re, im));
        }
    }
    for re in -1..=1 {
        for im in far {
            distances.push((re, im));
        }
    }
    for (re, im) in distances {
        let norm = re * re + im * im;
        let point = |n: i128| Interval { lo: n, hi: n }.quotient(norm);
        let mut power = CBox { re: point(re << 60), im: point(-(im << 60)) };
        let mut powers = Vec::with_capacity(2 * ORDER - 1);
        for _ in 0..2 * ORDER - 1 {
            powers.push(power);
            power = next_power(power, 2 * re, -2 * im, norm);
        }
        for i in 0..ORDER * ORDER {
            let (k, l) = (i % ORDER, i / ORDER);
            let (p, w, bits) = (powers[k + l], ways[i], (k + l + 20) as u32);
            entries.push(CBox {
                re: p.re.scale(w).shifted(bits).signed(l % 2 == 1),
                im: p.im.scale(w).shifted(bits).signed(l % 2 == 1),
            });
        }
    }
    entries
}

fn main() {
    let first = table();
    // The distance 2 has the index 17, and `(0, 1)` the place 24 in it.
    let entry = first[17 * ORDER * ORDER + ORDER];
    println!("kernel 24 at 2: {} {} {} {}", entry.re.lo, entry.re.hi, entry.im.lo, entry.im.hi);
    let start = Instant::now();
    let mut made = 0;
    for _ in 0..40 {
        if std::hint::black_box(table()).len() == first.len() {
            made += 1;
        }
    }
    println!("{made} tables in {} us", start.elapsed().as_micros());
}
