// The calls on rows of order 16 in plain Rust, for comparison: `i128` with no proof, in the loops of `benches rows`. First by the formulas, with the four
// products of a product of intervals and a division for each end of a quotient, whose divisors the compiler doesn't know; then some of them in the steps
// of the proved calls: sums of the parts and shifts, and two products where the sign is definite.
mod plain_box;

use plain_box::{CBox, Interval};
use std::hint::black_box;
use std::time::Instant;

const ORDER: usize = 16;
const SIDE: i128 = 1024;

type Row = [CBox; ORDER];

const ZERO: CBox = CBox { re: Interval { lo: 0, hi: 0 }, im: Interval { lo: 0, hi: 0 } };

impl Interval {
    fn product_by_sign(self, other: Interval) -> Interval {
        let low = |lo: i128, hi: i128, factor: i128| if factor < 0 { hi * factor } else { lo * factor };
        let high = |lo: i128, hi: i128, factor: i128| if factor < 0 { lo * factor } else { hi * factor };
        if self.lo >= 0 {
            Interval { lo: low(self.lo, self.hi, other.lo), hi: high(self.lo, self.hi, other.hi) }
        } else if self.hi <= 0 {
            Interval { lo: low(self.lo, self.hi, other.hi), hi: high(self.lo, self.hi, other.lo) }
        } else {
            self.times(other)
        }
    }
}

impl CBox {
    fn point(re: i128, im: i128) -> CBox {
        CBox { re: Interval { lo: re, hi: re }, im: Interval { lo: im, hi: im } }
    }
    fn neg(self) -> CBox {
        CBox { re: self.re.neg(), im: self.im.neg() }
    }
    fn scale(self, s: i128) -> CBox {
        CBox { re: self.re.scale(s), im: self.im.scale(s) }
    }
    fn times_gaussian(self, re: i128, im: i128) -> CBox {
        CBox { re: self.re.scale(re).sub(self.im.scale(im)), im: self.re.scale(im).add(self.im.scale(re)) }
    }
    fn product_by_sign(self, other: CBox) -> CBox {
        CBox {
            re: self.re.product_by_sign(other.re).sub(self.im.product_by_sign(other.im)),
            im: self.re.product_by_sign(other.im).add(self.im.product_by_sign(other.re)),
        }
    }
    fn quotient(self, d: i128) -> CBox {
        CBox { re: self.re.quotient(d), im: self.im.quotient(d) }
    }
    fn shifted(self, bits: u32) -> CBox {
        CBox { re: self.re.shifted(bits), im: self.im.shifted(bits) }
    }
    fn signed(self, odd: bool) -> CBox {
        CBox { re: self.re.signed(odd), im: self.im.signed(odd) }
    }
    fn turned(self, right: bool, top: bool) -> CBox {
        let (sum, difference) = (self.re.add(self.im), self.re.sub(self.im));
        match (right, top) {
            (true, true) => CBox { re: difference, im: sum },
            (true, false) => CBox { re: sum, im: self.im.sub(self.re) },
            (false, true) => CBox { re: sum.neg(), im: difference },
            (false, false) => CBox { re: self.im.sub(self.re), im: sum.neg() },
        }
    }
}

// ---- the kernel's table

fn binomial(n: u128, k: u128) -> i128 {
    (0..k).fold(1u128, |ways, i| ways * (n - i) / (i + 1)) as i128
}

fn table() -> Vec<CBox> {
    let far = [-3i128, -2, 2, 3];
    let mut distances: Vec<(i128, i128)> = far.iter().flat_map(|&re| (-3..=3).map(move |im| (re, im))).collect();
    distances.extend((-1..=1).flat_map(|re| far.iter().map(move |&im| (re, im))));
    let mut entries = Vec::with_capacity(40 * ORDER * ORDER);
    for (re, im) in distances {
        let norm = re * re + im * im;
        let mut power = CBox::point(re << 60, -(im << 60)).quotient(norm);
        let mut powers = Vec::with_capacity(2 * ORDER - 1);
        for _ in 0..2 * ORDER - 1 {
            powers.push(power);
            power = power.times_gaussian(2 * re, -2 * im).quotient(norm);
        }
        for i in 0..ORDER * ORDER {
            let (k, l) = (i % ORDER, i / ORDER);
            entries.push(powers[k + l].scale(binomial((k + l) as u128, k as u128)).shifted((k + l + 20) as u32).signed(l % 2 == 1));
        }
    }
    entries
}

/// Where the entries of a distance begin.
fn start_of(re: i64, im: i64) -> usize {
    let far = |n: i64| if n < 0 { n + 3 } else { n } as usize;
    let index = if re.abs() >= 2 { 7 * far(re) + (im + 3) as usize } else { 28 + 4 * (re + 1) as usize + far(im) };
    index * ORDER * ORDER
}

// ---- by the formulas

#[inline(never)]
fn shift_up(child: &Row, (right, top): (bool, bool), into: &mut Row, four: i128) {
    let (re, im) = (if right { 1 } else { -1 }, if top { 1 } else { -1 });
    let mut row = *child;
    for r in 0..ORDER {
        into[r] = into[r].add(row[0]);
        for i in 0..ORDER - 1 - r {
            row[i] = row[i + 1].scale(2).add(row[i].times_gaussian(re, im)).quotient(four);
        }
    }
}

#[inline(never)]
fn convert(kernel: &[CBox], row: &Row, (re, im): (i64, i64), into: &mut Row, unit: i128) {
    let start = start_of(re, im);
    for l in 0..ORDER {
        let mut sum = ZERO;
        for k in 0..ORDER {
            sum = sum.add(kernel[start + l * ORDER + k].times(row[k]));
        }
        into[l] = into[l].add(sum.quotient(unit));
    }
}

#[inline(never)]
fn shift_down(parent: &Row, (right, top): (bool, bool), into: &mut Row, four: i128) {
    let (re, im) = (if right { 1 } else { -1 }, if top { 1 } else { -1 });
    let mut moved = [ZERO; ORDER];
    for n in 0..ORDER {
        for k in (1..ORDER).rev() {
            moved[k] = moved[k].times_gaussian(re, im).add(moved[k - 1].scale(2)).quotient(four);
        }
        moved[0] = parent[ORDER - 1 - n].add(moved[0].times_gaussian(re, im).quotient(four));
    }
    for k in 0..ORDER {
        into[k] = into[k].add(moved[k].quotient(four / 2));
    }
}

#[derive(Clone, Copy)]
enum Source {
    Charge(i128),
    Dipole(i128, i128),
}

/// Twice the offset of a place from the centre of the cell.
fn offset(x: i64, y: i64) -> (i128, i128) {
    (2 * i128::from(x) - SIDE, 2 * i128::from(y) - SIDE)
}

#[inline(never)]
fn add_source(into: &mut Row, (x, y): (i64, i64), source: Source, side: i128) {
    let (re, im) = offset(x, y);
    match source {
        Source::Charge(q) => {
            let mut power = CBox::point(q << 40, 0);
            for k in 0..ORDER {
                into[k] = into[k].add(power);
                power = power.times_gaussian(re, im).quotient(2 * side);
            }
        }
        Source::Dipole(a, b) => {
            let mut power = CBox::point(a << 40, b << 40).quotient(side);
            for k in 1..ORDER {
                into[k] = into[k].add(power.scale(k as i128));
                power = power.times_gaussian(re, im).quotient(2 * side);
            }
        }
    }
}

#[inline(never)]
fn add_far_source(into: &mut Row, (x, y): (i64, i64), source: Source, side: i128) {
    let (re, im) = offset(x, y);
    let norm = re * re + im * im;
    let next = |power: CBox| power.times_gaussian(2 * side * re, -2 * side * im).quotient(norm);
    match source {
        Source::Charge(q) => {
            let mut power = CBox::point(q << 40, 0);
            for l in 0..ORDER {
                power = next(power);
                into[l] = into[l].add(power.neg());
            }
        }
        Source::Dipole(a, b) => {
            let mut power = next(CBox::point(a << 40, b << 40).quotient(side));
            for l in 0..ORDER {
                power = next(power);
                into[l] = into[l].add(power.scale(l as i128 + 1));
            }
        }
    }
}

#[inline(never)]
fn at_local(row: &Row, (x, y): (i64, i64), side: i128) -> CBox {
    let (re, im) = offset(x, y);
    let mut value = ZERO;
    for n in 0..ORDER {
        value = value.times_gaussian(re, im).quotient(2 * side).add(row[ORDER - 1 - n]);
    }
    value.quotient(side)
}

#[inline(never)]
fn at_multipole(row: &Row, (x, y): (i64, i64), side: i128) -> CBox {
    let (re, im) = offset(x, y);
    let norm = re * re + im * im;
    let mut value = ZERO;
    for n in 0..ORDER {
        value = value.add(row[ORDER - 1 - n]).times_gaussian(2 * side * re, -2 * side * im).quotient(norm);
    }
    value.quotient(side)
}

// ---- in the steps of the proved calls

#[inline(never)]
fn shift_up_by_shifts(child: &Row, (right, top): (bool, bool), into: &mut Row) {
    let mut row = *child;
    for r in 0..ORDER {
        for at in (r + 1..ORDER).rev() {
            row[at] = row[at].add(row[at]).add(row[at - 1].turned(right, top)).shifted(2);
        }
    }
    for k in 0..ORDER {
        into[k] = into[k].add(row[k]);
    }
}

#[inline(never)]
fn convert_by_sign(kernel: &[CBox], row: &Row, (re, im): (i64, i64), into: &mut Row) {
    let start = start_of(re, im);
    for l in 0..ORDER {
        let mut sum = ZERO;
        for k in 0..ORDER {
            sum = sum.add(kernel[start + l * ORDER + k].product_by_sign(row[k]));
        }
        into[l] = into[l].add(sum.shifted(40));
    }
}

#[inline(never)]
fn shift_down_by_shifts(parent: &Row, (right, top): (bool, bool), into: &mut Row) {
    let mut moved = [ZERO; ORDER];
    for n in 0..ORDER {
        let mut lower = moved[0];
        moved[0] = parent[ORDER - 1 - n].add(lower.turned(right, top).shifted(2));
        for k in 1..=n {
            let own = moved[k];
            moved[k] = own.turned(right, top).add(lower.add(lower)).shifted(2);
            lower = own;
        }
    }
    for k in 0..ORDER {
        into[k] = into[k].add(moved[k].shifted(1));
    }
}

// ---- the loops

fn folded(b: CBox) -> i128 {
    b.re.lo ^ b.re.hi.wrapping_mul(3) ^ b.im.lo.wrapping_mul(5) ^ b.im.hi.wrapping_mul(7)
}

fn sample_row() -> Row {
    let mut row = [ZERO; ORDER];
    for (k, cell) in row.iter_mut().enumerate() {
        let n = 1_000_000_007_000_003 - 61_000_000_000_001 * k as i128;
        *cell = CBox { re: Interval { lo: n, hi: n + 2 }, im: Interval { lo: -n, hi: 3 - n } };
    }
    row
}

fn quadrant(n: u32) -> (bool, bool) {
    (n % 2 == 0, n % 4 < 2)
}

fn distance(n: u32) -> (i64, i64) {
    (if n % 2 == 0 { -2 } else { 3 }, i64::from(n % 7) - 3)
}

fn inside(n: u32) -> (i64, i64) {
    (i64::from(n % 1024), i64::from(n % 613))
}

fn outside(n: u32) -> (i64, i64) {
    (2048 + i64::from(n % 1024), i64::from(n % 613))
}

fn into_row(count: u32, mut call: impl FnMut(u32, &mut Row)) -> i128 {
    let mut into = [ZERO; ORDER];
    for n in 0..count {
        call(n, &mut into);
    }
    into.iter().fold(0i128, |all, &b| all.wrapping_mul(31) ^ folded(b))
}

fn values(count: u32, mut call: impl FnMut(u32) -> CBox) -> i128 {
    (0..count).fold(0i128, |all, n| all.wrapping_add(folded(call(n))))
}

fn tell(name: &str, timed: bool, many: u32, run: impl FnOnce(u32) -> i128) {
    let count = if timed { many } else { 1_000 };
    let start = Instant::now();
    let folded = run(count);
    let nanos = start.elapsed().as_nanos() / u128::from(count);
    if timed {
        println!("{name} {folded} {nanos} ns a call, {} a sixteenth", nanos / 16);
    } else {
        println!("{name} {folded}");
    }
}

fn main() {
    let timed = std::env::args().any(|word| word == "time");
    let (four, unit, side) = (black_box(4), black_box(1 << 40), black_box(SIDE));
    let (row, kernel) = (sample_row(), table());
    let (charge, dipole) = (Source::Charge(1000), Source::Dipole(300, -400));
    tell("shift_up", timed, 300_000, |count| into_row(count, |n, into| shift_up(&row, quadrant(n), into, four)));
    tell("convert", timed, 50_000, |count| into_row(count, |n, into| convert(&kernel, &row, distance(n), into, unit)));
    tell("shift_down", timed, 300_000, |count| into_row(count, |n, into| shift_down(&row, quadrant(n), into, four)));
    tell("add_source charge", timed, 500_000, |count| into_row(count, |n, into| add_source(into, inside(n), charge, side)));
    tell("add_source dipole", timed, 500_000, |count| into_row(count, |n, into| add_source(into, inside(n), dipole, side)));
    tell("add_far_source charge", timed, 150_000, |count| into_row(count, |n, into| add_far_source(into, outside(n), charge, side)));
    tell("add_far_source dipole", timed, 150_000, |count| into_row(count, |n, into| add_far_source(into, outside(n), dipole, side)));
    tell("at_local", timed, 150_000, |count| values(count, |n| at_local(&row, inside(n), side)));
    tell("at_multipole", timed, 150_000, |count| values(count, |n| at_multipole(&row, outside(n), side)));
    tell("shift_up by shifts", timed, 300_000, |count| into_row(count, |n, into| shift_up_by_shifts(&row, quadrant(n), into)));
    tell("convert by sign", timed, 50_000, |count| into_row(count, |n, into| convert_by_sign(&kernel, &row, distance(n), into)));
    tell("shift_down by shifts", timed, 300_000, |count| into_row(count, |n, into| shift_down_by_shifts(&row, quadrant(n), into)));
}
