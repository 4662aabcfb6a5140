// The loops of `benches arithmetic` in plain Rust with i128 and the plain formulas, for comparison.
// rustc -O bench/plain_arithmetic.rs -o plain_arithmetic && ./plain_arithmetic
mod plain_box;

use plain_box::{CBox, Interval};
use std::time::Instant;

fn mixed(k: u64) -> u64 {
    k.wrapping_mul(6_364_136_223_846_793_005).wrapping_add(1_442_695_040_888_963_407)
}

fn number(k: u64) -> i128 {
    i128::from(mixed(k) >> 3) - (1 << 60)
}

fn interval(k: u64) -> Interval {
    let lo = number(k);
    Interval { lo, hi: lo + i128::from(k % 8) }
}

fn wide_interval(k: u64) -> Interval {
    let lo = number(k) * 0x2_0000;
    Interval { lo, hi: lo + i128::from(k % 8) }
}

fn part(k: u64) -> Interval {
    let lo = i128::from(mixed(k) >> 16) - (1 << 47);
    Interval { lo, hi: lo + i128::from(k % 8) }
}

fn boxed(k: u64) -> CBox {
    CBox { re: part(k), im: part(k.wrapping_add(1)) }
}

fn folded(i: Interval) -> i128 {
    i.lo ^ i.hi.wrapping_mul(3)
}

fn measure(name: &str, count: u64, each: impl Fn(u64) -> i128) {
    let start = Instant::now();
    let mut all = 0;
    for k in 0..count {
        all ^= each(k);
    }
    report(name, all, start);
}

fn report(name: &str, all: i128, start: Instant) {
    let tenths = start.elapsed().as_nanos() / 1_000_000;
    println!("{name} {all} {}.{} ns a call", tenths / 10, tenths % 10);
}

fn main() {
    let count = 10_000_000;
    measure("samples", count, |k| folded(interval(k)) ^ folded(interval(k + 1)));
    measure("times", count, |k| folded(interval(k).times(interval(k + 1))));
    measure("scale", count, |k| folded(interval(k).scale(number(k + 1))));
    measure("quot", count, |k| folded(interval(k).quotient(1_000_000_007 + i128::from(k % 1024))));
    measure("wide_quot", count, |k| folded(wide_interval(k).quotient(1_000_000_007 + i128::from(k % 1024))));
    measure("quot_shift", count, |k| folded(interval(k).shifted((k % 32) as u32 + 1)));
    measure("box_samples", count, |k| {
        let (one, other) = (boxed(k), boxed(k + 1));
        folded(one.re) ^ folded(one.im) ^ folded(other.re) ^ folded(other.im)
    });
    let start = Instant::now();
    let zero = Interval { lo: 0, hi: 0 };
    let mut sum = CBox { re: zero, im: zero };
    for k in 0..count {
        sum = sum.add(boxed(k).times(boxed(k + 1)));
    }
    report("add_product", folded(sum.re.quotient(1 << 40)) ^ folded(sum.im.quotient(1 << 40)), start);
}
