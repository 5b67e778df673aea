//! What can be said of a call without the reference.

use crate::format::{Block, LINES, Sizes, flag};
use crate::ours::{INDICES, Lent, NAMES, RESULT, SOURCES, Slices};

pub type Verdict = Result<(), String>;

/// What is known of an accepted block's mesh: its sizes, its bits and which attributes it has.
pub struct Outline {
    pub sizes: Sizes,
    pub solid: bool,
    pub unlit: bool,
    pub has_colors: bool,
    pub normals: bool,
    pub texture: bool,
}

/// The outline of an accepted block (FORMAT 5).
pub fn outline(block: &Block, sizes: Sizes) -> Outline {
    let lines = block.kind == LINES;
    Outline {
        sizes,
        solid: lines || block.flag(flag::SOLID),
        unlit: lines,
        has_colors: block.makes_colours(),
        normals: !lines,
        texture: block.makes_texture(),
    }
}

impl Outline {
    /// How many words each of the six slices has of so many vertices.
    pub fn made(&self, v: usize) -> [usize; 6] {
        let words = |made, width| if made { width * v } else { 0 };
        [3 * v, words(self.normals, 3), words(self.has_colors, 4), words(self.texture, 2), v, self.sizes.indices]
    }
}

pub fn no(condition: bool, say: impl FnOnce() -> String) -> Verdict {
    if condition { Err(say()) } else { Ok(()) }
}

pub fn untouched(name: &str, slice: &Lent, from: usize) -> Verdict {
    match slice.changed(from) {
        Some(k) => Err(format!("{name}: element {k} is {:08x} and should be as lent", slice.elements()[k])),
        None => Ok(()),
    }
}

/// The elements made in front, what was lent beyond them.
pub fn holds(name: &str, slice: &Lent, made: &[u32]) -> Verdict {
    let found = slice.elements();
    no(found.len() < made.len(), || format!("{name}: {} are not enough", found.len()))?;
    match (0..made.len()).find(|&k| found[k] != made[k]) {
        Some(k) => Err(format!("{name}: element {k} is {:08x}, expected {:08x}", found[k], made[k])),
        None => untouched(name, slice, made.len()),
    }
}

/// The result as far as it goes: vertices, indices and the three bits, each two words.
pub fn told_in(slice: &Lent, head: [u32; 5]) -> Verdict {
    let words = head.map(|n| [n, 0]);
    holds(NAMES[RESULT], slice, &words.as_flattened()[..slice.len().min(10)])
}

pub fn told(slices: &Slices, head: [u32; 5]) -> Verdict {
    told_in(&slices.0[RESULT], head)
}

pub fn zeros(slices: &Slices) -> Verdict {
    for k in [6, 7] {
        if let Some(i) = slices.0[k].elements().iter().position(|&w| w != 0) {
            return Err(format!("{}: element {i} is not 0", NAMES[k]));
        }
    }
    Ok(())
}

/// The answer's number, the block as it was, nothing outside a slice changed, and in a refused call nothing at all.
pub fn answered(want: u32, number: u32, slices: &Slices) -> Verdict {
    no(!slices.block_stays(), || "the block: written to".into())?;
    for (name, slice) in NAMES.iter().zip(&slices.0) {
        no(slice.overrun(), || format!("{name}: written outside"))?;
    }
    no(number != want, || format!("answer {number}, expected {want}"))?;
    if want == 0 {
        return Ok(());
    }
    NAMES.iter().zip(&slices.0).try_for_each(|(name, slice)| untouched(name, slice, 0))
}

/// The result and slices of a mesh of which no more is known. A result slice that is too short for it tells nothing.
pub fn outlined(o: &Outline, slices: &Slices) -> Verdict {
    let result = slices.0[RESULT].elements();
    if result.len() < 10 {
        return zeros(slices);
    }
    told(slices, [result[0], o.sizes.indices as u32, o.solid as u32, o.unlit as u32, o.has_colors as u32])?;
    let v = result[0] as usize;
    no(v > o.sizes.corners, || format!("{v} vertices of {} corners", o.sizes.corners))?;
    let made = o.made(v);
    for (k, from) in made.into_iter().enumerate() {
        untouched(NAMES[k], &slices.0[k], from)?;
    }
    // One more than the greatest number. Each corner of a face is in a triangle, so the last vertex is named by an index.
    let end = |k: usize| slices.0[k].elements()[..made[k]].iter().max().map_or(0, |&n| n as usize + 1);
    let last = end(INDICES);
    no(last > v || (last < v && !o.unlit), || format!("the indices name {last} vertices of {v}"))?;
    no(end(SOURCES) > o.sizes.points, || "a source names no point".into())?;
    zeros(slices)
}
