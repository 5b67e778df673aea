//! Holds what a call did against what was expected.

use crate::expected::Expected;
use crate::ours::{NAMES, Slices};
use crate::outline::{Verdict, answered, holds, outlined, told, zeros};
use reference::scene::Mesh;

fn made(mesh: &Mesh, slices: &Slices) -> Verdict {
    let head = [
        mesh.sources.len() as u32,
        mesh.indices.len() as u32,
        mesh.solid as u32,
        mesh.unlit as u32,
        mesh.has_colors as u32,
    ];
    told(slices, head)?;
    let nothing = Vec::new();
    let lists = [
        &mesh.positions,
        mesh.normals.as_ref().unwrap_or(&nothing),
        mesh.colours.as_ref().unwrap_or(&nothing),
        mesh.texture.as_ref().unwrap_or(&nothing),
        &mesh.sources,
        &mesh.indices,
    ];
    // Indices and sources first: they say most about what went wrong.
    for k in [5, 4, 0, 1, 2, 3] {
        holds(NAMES[k], &slices.0[k], lists[k])?;
    }
    zeros(slices)
}

/// Ok where the call did what was expected, else the first difference.
pub fn judge(expected: &Expected, number: u32, slices: &Slices) -> Verdict {
    let want = match expected {
        Expected::Refused(n) => *n,
        _ => 0,
    };
    answered(want, number, slices)?;
    match expected {
        Expected::Refused(_) => Ok(()),
        Expected::Made(mesh, _) => made(mesh, slices),
        Expected::Outlined(o) => outlined(o, slices),
    }
}
