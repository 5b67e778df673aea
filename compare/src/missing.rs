//! The rule of a missing colour (FORMAT 7.1, 7.2) for any colour of the call, as a scene for the reference, which knows
//! white alone: the colour is listed after the others, and every entry that was missing names it.

use crate::format::{Block, GRID, flag, runs};
use crate::ours::Colour;
use reference::scene::Given;

/// Which value stands at a place of a list, or at a number where there is no list; none where it is missing.
fn value(list: &[i32], place: usize, values: usize) -> Option<usize> {
    let entry = if list.is_empty() { place } else { usize::try_from(*list.get(place)?).ok()? };
    (entry < values).then_some(entry)
}

/// The places at which the colours of a block are read, each with its value: of a grid its points or quads, else the
/// entries of coordIndex or the runs.
fn places(block: &Block, values: usize) -> Vec<Option<usize>> {
    let by_vertex = block.flag(flag::COLOUR_PER_VERTEX);
    if block.kind == GRID {
        let less = if by_vertex { 0 } else { 1 };
        let count = (block.counts[0] - less) * (block.counts[1] - less);
        return (0..count).map(|k| value(&[], k, values)).collect();
    }
    let (coord, own) = (block.coord_index(), block.entries(3));
    if by_vertex {
        let list = if own.is_empty() { &coord } else { &own };
        return (0..coord.len()).map(|k| value(list, k, values)).collect();
    }
    (0..runs(&coord).len()).map(|k| value(&own, k, values)).collect()
}

/// The scene with the colour at every place where one is missing; a block without colours has none to miss.
pub fn filled(block: &Block, given: Given, colour: Colour) -> Given {
    if given.colours.is_none() {
        return given;
    }
    let mut colours = block.colours();
    let places = places(block, colours.len());
    let mut colour_index = Vec::new();
    if block.kind == GRID {
        colours = places.iter().map(|v| v.map_or(colour, |k| colours[k])).collect();
    } else {
        colour_index = places.iter().map(|v| v.unwrap_or(colours.len()) as i32).collect();
        colours.push(colour);
    }
    let floats = colours.into_flattened().into_iter().map(f32::from_bits).collect();
    Given { colours: Some((4, floats)), colour_index, ..given }
}
