//! The five functions for parts, called through their C interface, and what is lent to them.

use crate::ours::Lent;
use crate::part::Part;
#[cfg(ours)]
use crate::part::{BOX, CYLINDER, POINT_SET, SPHERE};

/// The slices of a call: positions, normals, colours, texture, sources, indices and the result, which has two words to a
/// number; and what is only read: points, listed colours, transform, pairs.
#[derive(Default)]
pub struct Lending {
    pub made: [Lent; 7],
    pub given: [Lent; 4],
}

fn bytes_of(words: impl Iterator<Item = u32>) -> Vec<u8> {
    words.flat_map(u32::to_ne_bytes).collect()
}

impl Lending {
    /// Lends what a part is given and slices of these lengths. The bits of the salt say which stand at the end of their pages,
    /// and it parts what they hold.
    pub fn lend(&mut self, part: &Part, lengths: &[usize; 6], result: usize, salt: u32) {
        let all = lengths.iter().copied().chain([2 * result]);
        for (k, (slice, len)) in self.made.iter_mut().zip(all).enumerate() {
            slice.lend(4 * len, salt.wrapping_add(0x1357_9bdf * k as u32), salt >> k & 1 == 1, &[]);
        }
        let bits = |list: &[f32]| bytes_of(list.iter().map(|x| x.to_bits()));
        let words = |list: &[u32]| bytes_of(list.iter().copied());
        let held = [words(&part.points), words(&part.colours), bits(&part.transform), bits(&part.pairs)];
        for (k, (slice, held)) in self.given.iter_mut().zip(held).enumerate() {
            slice.lend(held.len(), salt, salt >> (7 + k) & 1 == 1, &held);
        }
    }
}

#[cfg(ours)]
type Floats = *const f32;
#[cfg(ours)]
type Words = *mut u32;
#[cfg(ours)]
type Numbers = *mut usize;

/// Declares functions that take numbers, and then slices, each as a pointer and a number of elements.
#[cfg(ours)]
macro_rules! functions {
    ($($name:ident($($number:ty),*; $($slice:ty),*);)*) => {
        unsafe extern "C" {
            $(fn $name($(_: $number,)* $(_: $slice, _: usize),*) -> u32;)*
        }
    };
}

// Of the PointSet the first slice, the points, stands among the numbers.
#[cfg(ours)]
functions! {
    sitemesh_point_set(*const u32, usize, u32, u32; *const u32, Words, Words, Words, Numbers);
    sitemesh_box(f32, f32, f32, u32; Floats, Words, Words, Words, Words, Numbers);
    sitemesh_sphere(f32, u32, u32, u32; Floats, Floats, Words, Words, Words, Words, Numbers);
    sitemesh_cylinder(f32, f32, u32, u32, u32, u32, u32; Floats, Floats, Words, Words, Words, Words, Numbers);
    sitemesh_cone(f32, f32, u32, u32, u32, u32; Floats, Floats, Words, Words, Words, Words, Numbers);
}

/// Calls such a function; the last slice is the result.
#[cfg(ours)]
macro_rules! with {
    ($name:ident($($number:expr),*; $($slice:expr),*), $result:expr) => {
        $name($($number,)* $($slice.pointer(), $slice.len(),)* $result.pointer(), $result.len() / 2)
    };
}

/// One call: the refusal's number, or 0.
#[cfg(ours)]
pub fn call(part: &Part, lending: &mut Lending) -> u32 {
    let Lending { made: [p, n, c, t, s, i, r], given: [points, listed, m, pairs] } = lending;
    let ([x, y, z], [side, top, bottom]) = (part.size, part.shown);
    let (slices, stacks, uvs) = (part.slices, part.stacks, part.texture_wanted);
    // SAFETY: each pointer and length is of pages that nothing else uses; the result slice has two words to a number.
    unsafe {
        match part.kind {
            POINT_SET => {
                let (at, len) = (points.pointer::<u32>().cast_const(), points.len());
                with!(sitemesh_point_set(at, len, part.has_colors, part.alpha; listed, p, c, s), r)
            }
            BOX => with!(sitemesh_box(x, y, z, uvs; m, p, n, t, i), r),
            SPHERE => with!(sitemesh_sphere(x, slices, stacks, uvs; m, pairs, p, n, t, i), r),
            CYLINDER => with!(sitemesh_cylinder(x, y, side, top, bottom, slices, uvs; m, pairs, p, n, t, i), r),
            _ => with!(sitemesh_cone(x, y, side, bottom, slices, uvs; m, pairs, p, n, t, i), r),
        }
    }
}

#[cfg(not(ours))]
pub fn call(_: &Part, _: &mut Lending) -> u32 {
    unreachable!("there is no archive to call")
}
