//! Holds the proved square root, on the bits of f32, against the machine's own. README.md beside says how to run it.

// The module is one of the comparison, which uses more of it.
#[allow(dead_code)]
mod rng;

use std::process::ExitCode;

use rng::Rng;

const MOST_SHOWN: usize = 10;
const INFINITY: u32 = 0x7f80_0000;
const NAN: u32 = 0x7fc0_0000;
const BINADE: u32 = 1 << 23;

unsafe extern "C" {
    safe fn sitemesh_root(bits: u32) -> u32;
}

/// The machine's root; every NaN is one (FORMAT 9.1).
fn machine_root(bits: u32) -> u32 {
    let root = f32::from_bits(bits).sqrt();
    if root.is_nan() { NAN } else { root.to_bits() }
}

#[derive(Default)]
struct Tally {
    patterns: u64,
    differ: usize,
}

impl Tally {
    fn look(&mut self, bits: u32) {
        self.patterns += 1;
        let (ours, machine) = (sitemesh_root(bits), machine_root(bits));
        if ours != machine {
            self.differ += 1;
            if self.differ <= MOST_SHOWN {
                println!("the root of {bits:08x} is {ours:08x}, by the machine {machine:08x}");
            }
        }
    }

    fn look_around(&mut self, bits: u32) {
        (bits.saturating_sub(1)..=bits.saturating_add(1)).for_each(|b| self.look(b));
    }
}

/// The squares that an f32 can have exactly, of every number of 12 binary digits at every place, and what is next to them.
fn squares(tally: &mut Tally) {
    for power in -86..=53 {
        for k in 2048..4096_u32 {
            let square = f64::from(k * k) * 4_f64.powi(power);
            let near = square as f32;
            if f64::from(near) == square && near.is_finite() {
                tally.look_around(near.to_bits());
            }
        }
    }
}

/// The numbers next to the square of a halfway point between two roots, where rounding turns.
fn halfway(tally: &mut Tally, rng: &mut Rng) {
    for _ in 0..1_000_000 {
        let root = f32::from_bits((64 << 23) + rng.bits() % (127 << 23));
        let next = f32::from_bits(root.to_bits() + 1);
        let half = (f64::from(root) + f64::from(next)) / 2.0;
        tally.look_around(((half * half) as f32).to_bits());
    }
}

/// Two binades whole, since the place of a number counts by being even or odd; all subnormals; the ends of every binade.
fn binades(tally: &mut Tally) {
    (127 * BINADE..129 * BINADE).for_each(|bits| tally.look(bits));
    (0..BINADE).for_each(|bits| tally.look(bits));
    (0..=255).for_each(|k| tally.look_around(k * BINADE));
}

/// Below 0, infinities and NaN of any bits, and any words.
fn others(tally: &mut Tally, rng: &mut Rng) {
    for bits in [INFINITY, NAN, 0] {
        tally.look_around(bits);
        tally.look_around(bits | 1 << 31);
    }
    for _ in 0..1_000_000 {
        tally.look(rng.bits());
        tally.look(INFINITY | rng.bits());
    }
}

fn main() -> ExitCode {
    let mut tally = Tally::default();
    if std::env::args().nth(1).as_deref() == Some("all") {
        (0..=u32::MAX).for_each(|bits| tally.look(bits));
    } else {
        let mut rng = Rng::new(1, 0);
        binades(&mut tally);
        squares(&mut tally);
        halfway(&mut tally, &mut rng);
        others(&mut tally, &mut rng);
    }
    println!("{} patterns, {} differ", tally.patterns, tally.differ);
    if tally.differ == 0 { ExitCode::SUCCESS } else { ExitCode::FAILURE }
}
