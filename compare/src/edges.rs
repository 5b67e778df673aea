//! Closed stays closed: between any two points, the edges of the triangles one way less those back are as many as round
//! the kept faces. Corners are points' numbers; no position is looked at but the ends of a cross-section. The faces are written from docs/FORMAT.md alone.

use crate::format::{Block, EXTRUSION, FACES, GRID, LINES, flag, runs};
use crate::ours::{INDICES, POSITIONS, SOURCES, Slices};

/// What a comparison has to have met.
pub const MET: [&str; 5] = [
    "edges counted, ccw off and an edge open",
    "edges counted, every edge closed",
    "edges counted, a NaN among the positions",
    "edges counted, a face that names a point twice",
    "edges counted, a run skipped",
];

/// From one point to another.
type Step = (u32, u32);
type Face = Vec<u32>;

/// The steps round a face: each corner to the next, the last to the first.
fn around(face: &[u32]) -> impl Iterator<Item = Step> {
    (0..face.len()).map(move |k| (face[k], face[(k + 1) % face.len()]))
}

/// The quads between rows of points (FORMAT 8.3, 8.4): (i, j), (i, j + 1), (i + 1, j + 1), (i + 1, j).
fn quads(n: usize, m: usize, number: impl Fn(usize, usize) -> usize) -> Vec<Face> {
    let corners = |i, j| [number(i, j), number(i, j + 1), number(i + 1, j + 1), number(i + 1, j)];
    let quad = |i, j| corners(i, j).map(|p| p as u32).to_vec();
    (0..n - 1).flat_map(|i| (0..m - 1).map(move |j| (i, j))).map(|(i, j)| quad(i, j)).collect()
}

/// Sides and caps (FORMAT 8.4).
fn extruded(block: &Block) -> Vec<Face> {
    let (n, m, cap) = (block.counts[0], block.counts[1], block.cap() as u32);
    let mut list = quads(n, m, |i, j| i * m + j);
    if block.flag(flag::BEGIN_CAP) && cap >= 3 {
        list.push((0..cap).rev().collect());
    }
    if block.flag(flag::END_CAP) && cap >= 3 {
        list.push((0..cap).map(|j| ((n - 1) * m) as u32 + j).collect());
    }
    list
}

/// Whether a run is a kept face (FORMAT 6.2).
fn is_kept(block: &Block, run: &[i32]) -> bool {
    run.len() >= 3 && run.iter().all(|&v| v >= 0 && (v as usize) < block.counts[0])
}

/// The kept faces of an accepted block, each as the points round it.
fn kept(block: &Block) -> Vec<Face> {
    let face = |run: &[i32]| run.iter().map(|&v| v as u32).collect();
    match block.kind {
        LINES => Vec::new(),
        GRID => quads(block.counts[0], block.counts[1], |i, j| i + j * block.counts[0]),
        EXTRUSION => extruded(block),
        _ => runs(&block.coord_index()).into_iter().filter(|run| is_kept(block, run)).map(face).collect(),
    }
}

/// The first pair of points, if there is one, between which there are not as many steps as back.
fn open(mut steps: Vec<Step>) -> Option<Step> {
    let pair = |&(p, q): &Step| (p.min(q), p.max(q));
    let closed = |ways: &[Step]| 2 * ways.iter().filter(|(p, q)| p < q).count() == ways.len();
    steps.retain(|(p, q)| p != q);
    steps.sort_unstable_by_key(pair);
    steps.chunk_by(|a, b| pair(a) == pair(b)).find(|ways| !closed(ways)).map(|ways| pair(&ways[0]))
}

/// The edges of the triangles, named by the sources of their vertices; none where an index is beyond the lent sources.
fn edges(indices: &[u32], sources: &[u32]) -> Option<Vec<Step>> {
    let points: Option<Vec<u32>> = indices.iter().map(|&v| sources.get(v as usize).copied()).collect();
    Some(points?.chunks(3).flat_map(around).collect())
}

/// Whether a face names a point more than once.
fn repeats(face: &Face) -> bool {
    let mut points = face.clone();
    points.sort_unstable();
    points.windows(2).any(|pair| pair[0] == pair[1])
}

/// Whether a corner of a triangle has a NaN coordinate.
fn has_nan(indices: &[u32], positions: &[u32]) -> bool {
    let of = |v: u32| positions.iter().skip(3 * v as usize).take(3);
    indices.iter().any(|&v| of(v).any(|&word| f32::from_bits(word).is_nan()))
}

/// Looks at the mesh that a call made of a block other than a line set, with so many indices: its edges, together with
/// the steps round the kept faces the other way (the same way where ccw is off), have to be closed. Answers which of
/// `MET` it shows.
pub fn look(block: &Block, indices: usize, slices: &Slices) -> Result<[bool; 5], String> {
    let faces = kept(block);
    let mut steps: Vec<Step> = faces.iter().flat_map(|face| around(face)).collect();
    let (ccw, is_open) = (block.flag(flag::CCW), open(steps.clone()).is_some());
    if ccw {
        steps.iter_mut().for_each(|(p, q)| std::mem::swap(p, q));
    }
    let indices = &slices.0[INDICES].elements()[..indices];
    steps.extend(edges(indices, slices.0[SOURCES].elements()).ok_or("edges: an index names no vertex")?);
    if let Some((p, q)) = open(steps) {
        return Err(format!("edges: from point {p} to point {q} less back is not what it is round the faces"));
    }
    let skipped = || runs(&block.entries(1)).into_iter().any(|run| !run.is_empty() && !is_kept(block, run));
    Ok([
        !ccw && is_open,
        !is_open && !faces.is_empty(),
        has_nan(indices, slices.0[POSITIONS].elements()),
        faces.iter().any(repeats),
        block.kind == FACES && !faces.is_empty() && skipped(),
    ])
}
