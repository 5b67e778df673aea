//! Holds the converter's sine and cosine (docs/FORMAT.md 16) against the host's in f64, and times both. README.md beside
//! says how to run it.

// The module is that of the comparison, which uses more of it.
#[allow(dead_code)]
mod rng;
#[path = "../../hosts/sitemesh.rs"]
mod sitemesh;

use std::hint::black_box;
use std::process::ExitCode;
use std::time::Instant;

use rng::Rng;
use sitemesh::{SinCos, sin_cos};

const LARGEST: f32 = 1024.0;
const BOUND: f64 = 1.0 / (1 << 20) as f64;

/// Angles within reach: every second by its bits, so that small ones are met, the others spread evenly.
fn angle(rng: &mut Rng, k: u64) -> f32 {
    let bits = rng.bits();
    if k % 2 == 0 {
        f32::from_bits(bits & 0x8000_0000 | (bits & 0x7fff_ffff) % (LARGEST.to_bits() + 1))
    } else {
        (bits as f64 / u32::MAX as f64 * 2048.0 - 1024.0) as f32
    }
}

/// The largest difference so far, and the angle that has it.
#[derive(Default)]
struct Most {
    by: f64,
    at: f32,
}

impl Most {
    fn meet(&mut self, mine: f32, theirs: f64, at: f32) {
        let by = (mine as f64 - theirs).abs();
        if !(by <= self.by) {
            *self = Most { by, at };
        }
    }

    fn told(&self) -> String {
        format!("{:.3e} at {} ({:08x})", self.by, self.at, self.at.to_bits())
    }
}

/// Angles beyond reach give 0 and 1.
fn others(rng: &mut Rng) -> u64 {
    let first = LARGEST.to_bits() + 1;
    let near = [first, first | 0x8000_0000, 0x7f80_0000, 0xff80_0000, 0x7fc0_0000, 0xffff_ffff, 0x7f80_0001, 0x7f7f_ffff];
    let any = (0..100_000).map(|_| {
        let bits = rng.bits();
        bits & 0x8000_0000 | (first + (bits & 0x7fff_ffff) % (0x8000_0000 - first))
    });
    let wrong = |bits: u32| {
        let r = sin_cos(f32::from_bits(bits));
        (r.sin.to_bits(), r.cos.to_bits()) != (0, 1f32.to_bits())
    };
    near.into_iter().chain(any).filter(|&bits| wrong(bits)).count() as u64
}

/// Nanoseconds of a call, over many angles.
fn time(angles: &[f32], f: impl Fn(f32) -> SinCos) -> f64 {
    let rounds = 20;
    let start = Instant::now();
    for _ in 0..rounds {
        for &x in angles {
            black_box(f(black_box(x)));
        }
    }
    start.elapsed().as_nanos() as f64 / (rounds * angles.len()) as f64
}

fn main() -> ExitCode {
    let number = |k: usize, otherwise: u64| std::env::args().nth(k).and_then(|w| w.parse().ok()).unwrap_or(otherwise);
    let (count, mut rng) = (number(1, 1_000_000), Rng::new(number(2, 1), 0));
    let (mut sines, mut cosines) = (Most::default(), Most::default());
    for k in 0..count {
        let x = angle(&mut rng, k);
        let r = sin_cos(x);
        let (sin, cos) = (x as f64).sin_cos();
        sines.meet(r.sin, sin, x);
        cosines.meet(r.cos, cos, x);
    }
    let wrong = others(&mut rng);
    println!("{count} angles, the largest differences: sine {}, cosine {}", sines.told(), cosines.told());
    let angles: Vec<f32> = (0..65_536).map(|k| angle(&mut rng, k)).collect();
    let host = |x: f32| SinCos { sin: x.sin(), cos: x.cos() };
    println!("a call: {:.1} ns, the host's sine and cosine in f32 {:.1} ns", time(&angles, sin_cos), time(&angles, host));
    let far = [&sines, &cosines].into_iter().filter(|m| !(m.by <= BOUND)).count();
    println!("{wrong} angles beyond reach wrong, {far} of the two beyond 2^-20");
    if wrong == 0 && far == 0 { ExitCode::SUCCESS } else { ExitCode::FAILURE }
}
