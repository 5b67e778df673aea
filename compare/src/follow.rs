//! From a block to the fields that the reference reads.

use crate::angles::{Angles, crease};
use crate::format::{Block, EXTRUSION, FACES, GRID, LINES, flag};
use reference::scene::Given;

fn float(block: &Block, k: usize) -> f32 {
    f32::from_bits(block.word(k))
}

fn transform(block: &Block, angles: &Angles) -> Option<[f32; 7]> {
    let turn = angles.angle(block.word(6), block.word(7))?;
    let w = |k| float(block, k);
    Some([w(4), w(5), turn, w(8), w(9), w(10), w(11)])
}

/// Axes and angles of an extrusion's orientations. Those that no spine point uses need no angle.
fn orientations(block: &Block, angles: &Angles) -> Option<Vec<f32>> {
    let mut list = Vec::new();
    for (k, o) in block.list(3).chunks(5).enumerate() {
        let axis = [o[0], o[1], o[2]].map(f32::from_bits);
        let length = (axis[0] * axis[0] + axis[1] * axis[1] + axis[2] * axis[2]).sqrt();
        let idle = k >= block.counts[0] || !length.is_finite() || length <= 1e-20;
        let half = if idle { 0.0 } else { angles.angle(o[3], o[4])? };
        list.extend(axis);
        list.push(2.0 * half);
    }
    Some(list)
}

/// coordIndex for the reference, which ends a run at every negative entry: a value below -1 becomes the largest number,
/// which no list of points reaches.
fn beyond(entries: Vec<i32>) -> Vec<i32> {
    entries.into_iter().map(|v| if v < -1 { i32::MAX } else { v }).collect()
}

/// The reference's fields, or none where its sines and cosines cannot be the block's.
pub fn given(block: &Block, angles: &Angles) -> Option<Given> {
    let on = |k| block.flag(k);
    let colours = || (if on(flag::ALPHA) { 4 } else { 3 }, block.floats(2));
    let generated = block.kind != LINES && !block.supplies_normals();
    let angle = float(block, 0);
    let mut g = Given {
        kind: if block.is_primitives() { FACES } else { block.kind },
        ccw: on(flag::CCW),
        convex: on(flag::CONVEX) || block.is_primitives(),
        solid: on(flag::SOLID),
        colour_per_vertex: on(flag::COLOUR_PER_VERTEX),
        normal_per_vertex: on(flag::NORMAL_PER_VERTEX),
        texture_wanted: on(flag::TEXTURE_WANTED),
        begin_cap: on(flag::BEGIN_CAP),
        end_cap: on(flag::END_CAP),
        crease: if generated { crease(angle, block.word(1))? } else { angle },
        spacing: [float(block, 2), float(block, 3)],
        ..Given::default()
    };
    if on(flag::TRANSFORM) && block.makes_texture() {
        g.transform = Some(transform(block, angles)?);
    }
    if block.kind == EXTRUSION {
        g.points = block.floats(0);
        g.section = block.floats(1);
        g.scales = block.floats(2);
        g.orientations = orientations(block, angles)?;
        return Some(g);
    }
    g.colours = on(flag::COLOURS).then(colours);
    g.normals = on(flag::NORMALS).then(|| block.floats(4));
    g.texture = on(flag::TEXTURE).then(|| block.floats(6));
    if block.kind == GRID {
        g.sides = [block.counts[0] as i32, block.counts[1] as i32];
        g.heights = block.floats(3);
        return Some(g);
    }
    debug_assert!(block.is_face_set() || block.kind == LINES);
    g.points = block.floats(0);
    g.coord_index = beyond(block.coord_index());
    g.colour_index = block.entries(3);
    g.normal_index = block.entries(5);
    g.texture_index = block.entries(7);
    Some(g)
}
