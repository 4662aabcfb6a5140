//! The direct sums of a sample in floating point, each target with each source: what the solver's time is compared with.
//!
//! `plain_sum SEED N [TIMES]` makes the points of `fmm sample SEED N ..`, and prints the sum of all fields and the shortest time of a double sum.
//! The sources lie in one array for each number, and eight of them are summed side by side, so that the compiler uses the processor's vectors.

use std::hint::black_box;
use std::time::Instant;

const LANES: usize = 8;

#[derive(Clone, Copy)]
struct Complex {
    re: f64,
    im: f64,
}

/// Places and strengths of the sources, filled up with sources of no strength to a multiple of the lanes.
#[derive(Default)]
struct Sources {
    count: usize,
    x: Vec<f64>,
    y: Vec<f64>,
    pole: Vec<f64>,
    dipole_re: Vec<f64>,
    dipole_im: Vec<f64>,
}

impl Sources {
    fn push(&mut self, x: f64, y: f64, pole: f64, dipole: (f64, f64)) {
        self.x.push(x);
        self.y.push(y);
        self.pole.push(pole);
        self.dipole_re.push(dipole.0);
        self.dipole_im.push(dipole.1);
    }
}

struct Generator(u32);

impl Generator {
    fn draw(&mut self) -> u32 {
        self.0 = self.0.wrapping_mul(1_664_525).wrapping_add(1_013_904_223);
        self.0 >> 16
    }
}

fn points(seed: u32, count: usize) -> (Sources, Vec<(f64, f64)>) {
    let mut generator = Generator(seed);
    let mut sources = Sources::default();
    let mut targets = Vec::new();
    for _ in 0..count {
        let first = generator.draw();
        let second = generator.draw();
        let choice = generator.draw();
        let strength = generator.draw();
        let other = generator.draw();
        let scale = 2 * (choice / 4 % 4);
        let x = f64::from((first >> scale) as i32 - 32_768);
        let y = f64::from((second >> scale) as i32 - 32_768);
        let part = |draw: u32, most: u32| f64::from((draw % (2 * most + 1)) as i32 - most as i32);
        match choice % 4 {
            0 | 1 => sources.push(x, y, part(strength, 1000), (0.0, 0.0)),
            2 => sources.push(x, y, 0.0, (part(strength, 100), part(other, 100))),
            _ => targets.push((x, y)),
        }
    }
    sources.count = sources.x.len();
    while sources.x.len() % LANES != 0 {
        sources.push(0.0, 0.0, 0.0, (0.0, 0.0));
    }
    (sources, targets)
}

/// The sum of `a/(t - z)` and `b/(t - z)^2` over the sources at other places.
fn field(sources: &Sources, x: f64, y: f64) -> Complex {
    let mut re = [0.0; LANES];
    let mut im = [0.0; LANES];
    for start in (0..sources.x.len()).step_by(LANES) {
        let at = start..start + LANES;
        let (xs, ys) = (&sources.x[at.clone()], &sources.y[at.clone()]);
        let poles = &sources.pole[at.clone()];
        let (dipole_res, dipole_ims) = (&sources.dipole_re[at.clone()], &sources.dipole_im[at]);
        for k in 0..LANES {
            let (dx, dy) = (x - xs[k], y - ys[k]);
            let norm = dx * dx + dy * dy;
            let inverse = if norm == 0.0 { 0.0 } else { 1.0 / norm };
            let (u, v) = (dx * inverse, -dy * inverse);
            let (square_re, square_im) = (u * u - v * v, 2.0 * u * v);
            re[k] += poles[k] * u + dipole_res[k] * square_re - dipole_ims[k] * square_im;
            im[k] += poles[k] * v + dipole_res[k] * square_im + dipole_ims[k] * square_re;
        }
    }
    Complex { re: re.iter().sum(), im: im.iter().sum() }
}

fn main() {
    let words: Vec<u32> = std::env::args().skip(1).map(|word| word.parse().expect("a number")).collect();
    let times = words.get(2).copied().unwrap_or(3);
    let (sources, targets) = points(words[0], words[1] as usize);
    let mut best = f64::INFINITY;
    let mut whole = Complex { re: 0.0, im: 0.0 };
    for _ in 0..times {
        let start = Instant::now();
        whole = Complex { re: 0.0, im: 0.0 };
        for &(x, y) in black_box(&targets) {
            let one = field(black_box(&sources), x, y);
            whole.re += one.re;
            whole.im += one.im;
        }
        best = best.min(start.elapsed().as_secs_f64() * 1e3);
    }
    println!("sources {} targets {} sum {:.6e} {:.6e} time {best:.1} ms", sources.count, targets.len(), whole.re, whole.im);
}
