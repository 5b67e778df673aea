//! Angles and the words that stand for them. A block holds sines and cosines, the reference computes them with
//! the host's functions: so a block can be followed only where its words are the host's for some angle.

use std::collections::HashMap;
use std::f32::consts::PI;

/// Angles by the bits of their sine and cosine.
#[derive(Default)]
pub struct Angles(HashMap<(u32, u32), f32>);

fn pair(angle: f32) -> (u32, u32) {
    let (sine, cosine) = angle.sin_cos();
    (sine.to_bits(), cosine.to_bits())
}

/// The floats next to x, up to k steps either way.
fn near(x: f32, k: i32) -> impl Iterator<Item = f32> {
    (-k..=k).map(move |step| f32::from_bits((x.to_bits() as i32).wrapping_add(step) as u32))
}

impl Angles {
    /// The words of sine and cosine of an angle, remembered.
    pub fn words(&mut self, angle: f32) -> (u32, u32) {
        let found = pair(angle);
        self.0.insert(found, angle);
        found
    }

    /// An angle with this sine and cosine. For words that are not finite it is NaN, which the reference reads as
    /// no turn, as FORMAT 2.3 and 9.5 do.
    pub fn angle(&self, sine: u32, cosine: u32) -> Option<f32> {
        let (s, c) = (f32::from_bits(sine), f32::from_bits(cosine));
        if !s.is_finite() || !c.is_finite() {
            return Some(f32::NAN);
        }
        let known = self.0.get(&(sine, cosine)).copied();
        known.or_else(|| near(s.atan2(c), 4).find(|&a| pair(a) == (sine, cosine)))
    }
}

/// A crease angle under which the reference makes the normals that FORMAT 10.2 asks for an angle and a cosine word.
pub fn crease(angle: f32, cosine: u32) -> Option<f32> {
    let between = |a: f32| a > 0.0 && a < PI;
    if !between(angle) || angle.cos().to_bits() == cosine {
        return Some(angle);
    }
    let bound = f32::from_bits(cosine);
    // No dot product of unit normals is above such a bound: each face is left alone.
    if bound.is_nan() || bound > 1.001 {
        return Some(0.0);
    }
    let same = |&a: &f32| between(a) && a.cos().to_bits() == cosine;
    near(bound.acos(), 64).chain([1e-4]).find(same)
}
