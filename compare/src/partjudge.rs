//! Holds what the call of a part did against what was expected.

use crate::ours::{Lent, NAMES};
use crate::outline::{Verdict, no, told_in, untouched};
use crate::part::Part;
use crate::partcall::Lending;

const GIVEN: [&str; 4] = ["points", "listed colours", "transform", "pairs"];
const RESULT: usize = 6;

/// The words that a call has to make: positions, normals, colours, texture, sources, indices.
pub type Lists = [Vec<u32>; 6];

pub fn name(k: usize) -> &'static str {
    if k == RESULT { "result" } else { NAMES[k] }
}

fn is_nan(word: u32) -> bool {
    word & 0x7fff_ffff > 0x7f80_0000
}

/// The words made in front, what was lent beyond them. Where floats are worked out, one NaN is as good as another.
fn holds(k: usize, slice: &Lent, made: &[u32], any_nan: bool) -> Verdict {
    let found = slice.elements();
    no(found.len() < made.len(), || format!("{}: {} are not enough", name(k), found.len()))?;
    let same = |a: u32, b: u32| a == b || (any_nan && is_nan(a) && is_nan(b));
    match found.iter().zip(made).position(|(&a, &b)| !same(a, b)) {
        Some(at) => Err(format!("{}: element {at} is {:08x}, expected {:08x}", name(k), found[at], made[at])),
        None => untouched(name(k), slice, made.len()),
    }
}

/// The answer's number, what is only read as it was, nothing outside a slice changed, and in a refused call nothing at all.
pub fn answered(want: u32, number: u32, lending: &Lending) -> Verdict {
    for (name, slice) in GIVEN.iter().zip(&lending.given) {
        no(!slice.stays(), || format!("the {name}: written to"))?;
    }
    for (k, slice) in lending.made.iter().enumerate() {
        no(slice.overrun(), || format!("{}: written outside", name(k)))?;
    }
    no(number != want, || format!("answer {number}, expected {want}"))?;
    if want == 0 {
        return Ok(());
    }
    lending.made.iter().enumerate().try_for_each(|(k, slice)| untouched(name(k), slice, 0))
}

/// The result and the six slices of an accepted call. A PointSet's words are copied, so there a NaN keeps its bits.
pub fn made(part: &Part, lists: &Lists, lending: &Lending) -> Verdict {
    told_in(&lending.made[RESULT], part.head())?;
    // Indices and sources first: they say most about what went wrong.
    for k in [5, 4, 0, 1, 2, 3] {
        holds(k, &lending.made[k], &lists[k], part.is_solid() && k < 4)?;
    }
    Ok(())
}

/// What can be said of an accepted call without the reference: the result, what was lent beyond what is made, and indices that
/// name vertices.
pub fn outlined(part: &Part, lending: &Lending) -> Verdict {
    told_in(&lending.made[RESULT], part.head())?;
    let lengths = part.lengths();
    for (k, from) in lengths.into_iter().enumerate() {
        untouched(name(k), &lending.made[k], from)?;
    }
    let vertices = part.sizes().vertices as u32;
    for (k, len) in [4, 5].map(|k| (k, lengths[k])) {
        let words = &lending.made[k].elements()[..len];
        no(words.iter().any(|&word| word >= vertices), || format!("{}: one names no vertex", name(k)))?;
    }
    Ok(())
}

/// What an accepted call made.
pub fn lists(part: &Part, lending: &Lending) -> Lists {
    let lengths = part.lengths();
    std::array::from_fn(|k| lending.made[k].elements()[..lengths[k]].to_vec())
}
