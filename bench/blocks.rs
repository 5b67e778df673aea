//! The blocks of the benchmark. Each is made for a number of entries of its index list, or of corners where it has none.

use crate::format::{EXTRUSION, FACES, FANS, GRID, LINES, QUADS, STRIPS, TRIANGLES, flag};
use crate::maker::{Maker, Taste};
use crate::outlines::{self, Outline};
use crate::shape::Shape;

pub const CREASE: f32 = 0.7;
/// Own face alone, the faces within the crease angle, every face (FORMAT 10.2).
pub const OWN: f32 = 0.0;
pub const EVERY: f32 = 4.0;

fn level(outline: &Outline) -> Vec<f32> {
    outline.iter().flat_map(|p| [p[0], 0.0, -p[1]]).collect()
}

/// A face set with the crease angle.
fn faces(crease: f32, points: &[f32], index: &[i32]) -> Shape {
    let mut shape = Shape::new(FACES);
    shape.crease(crease);
    shape.set_floats(0, points);
    shape.set_entries(1, index);
    shape
}

/// An index list of the runs, without a last separator.
fn listed(runs: impl Iterator<Item = Vec<i32>>) -> Vec<i32> {
    let mut index: Vec<i32> = runs.flat_map(|run| run.into_iter().chain([-1])).collect();
    index.pop();
    index
}

/// The side of a grid of no more than so many corners.
fn side(corners: usize) -> usize {
    ((corners / 4) as f64).sqrt() as usize + 1
}

/// Concave faces, each with points of its own.
pub fn plates(outlines: &[Outline]) -> Shape {
    let points: Vec<f32> = outlines.iter().flat_map(level).collect();
    let mut first = 0;
    let index = listed(outlines.iter().map(|outline| {
        first += outline.len() as i32;
        (first - outline.len() as i32..first).collect()
    }));
    let mut shape = faces(CREASE, &points, &index);
    shape.flags[flag::CONVEX] = false;
    shape
}

pub fn stars(entries: usize) -> Shape {
    plates(&vec![outlines::star(127); entries / 128])
}

pub fn grid(maker: &mut Maker, corners: usize) -> Shape {
    let n = side(corners);
    let mut shape = Shape::new(GRID);
    shape.crease(CREASE);
    shape.flags[flag::TEXTURE_WANTED] = true;
    shape.counts[..2].copy_from_slice(&[n, n]);
    let heights = maker.values(n * n, Taste::Real);
    shape.set_floats(3, &heights);
    shape
}

/// Triangles over a rolling ground.
pub fn triangles(maker: &mut Maker, entries: usize) -> Shape {
    let side = ((entries / 8) as f64).sqrt().ceil() as usize + 1;
    let (points, index) = maker.ground(side, Taste::Real);
    faces(CREASE, &points, &index[..index.len().min(entries) - 1])
}

/// Faces of four corners over heights, half as many again along x as along z.
pub fn quads(maker: &mut Maker, entries: usize) -> Shape {
    let down = ((entries as f64 / 7.5).sqrt()) as usize;
    let across = 3 * down / 2;
    let heights = maker.values((across + 1) * (down + 1), Taste::Real);
    let wide = across + 1;
    let points: Vec<f32> =
        (0..heights.len()).flat_map(|k| [(k % wide) as f32, heights[k], (k / wide) as f32]).collect();
    let firsts = (0..down).flat_map(|j| (0..across).map(move |i| (i + wide * j) as i32));
    let wide = wide as i32;
    faces(CREASE, &points, &listed(firsts.map(|k| vec![k, k + wide, k + wide + 1, k + 1])))
}

/// One strip along a ribbon of two rows of heights, of no more than so many corners.
pub fn strip(maker: &mut Maker, corners: usize) -> Shape {
    let entries = corners / 3 + 2;
    let heights = maker.values(entries, Taste::Real);
    let points: Vec<f32> = (0..entries).flat_map(|k| [(k / 2) as f32, heights[k], (k % 2) as f32]).collect();
    let mut shape = faces(CREASE, &points, &(0..entries as i32).collect::<Vec<_>>());
    shape.kind = STRIPS;
    shape
}

/// One fan of a ring of heights round its first point, of no more than so many corners.
pub fn fan(maker: &mut Maker, crease: f32, corners: usize) -> Shape {
    let entries = corners / 3 + 2;
    let heights = maker.values(entries, Taste::Real);
    let ring = outlines::circle(entries);
    let points: Vec<f32> = (0..entries).flat_map(|k| [ring[k][0], heights[k], ring[k][1]]).collect();
    let mut shape = faces(crease, &points, &(0..entries as i32).collect::<Vec<_>>());
    shape.kind = FANS;
    shape
}

/// The face set's entries without what ends its runs, all as many corners each.
fn without_ends(mut shape: Shape, kind: u32, entries: usize) -> Shape {
    let mut index: Vec<u32> = shape.lists[1].iter().copied().filter(|&v| v != u32::MAX).collect();
    index.truncate(entries);
    shape.kind = kind;
    shape.set(1, index);
    shape
}

/// A triangle set over a rolling ground.
pub fn triangle_set(maker: &mut Maker, entries: usize) -> Shape {
    let side = ((entries / 6) as f64).sqrt().ceil() as usize + 1;
    let (points, index) = maker.ground(side, Taste::Real);
    without_ends(faces(CREASE, &points, &index), TRIANGLES, entries)
}

/// A quad set over heights.
pub fn quad_set(maker: &mut Maker, entries: usize) -> Shape {
    without_ends(quads(maker, entries / 4 * 5 + 600), QUADS, entries)
}

/// A bent duct with a concave cross-section and caps.
pub fn duct(corners: usize) -> Shape {
    let n = side(corners).min(45);
    let mut shape = Shape::new(EXTRUSION);
    shape.crease(CREASE);
    shape.flags[flag::TEXTURE_WANTED] = true;
    shape.flags[flag::CONVEX] = false;
    let bend = outlines::circle(2 * n);
    let spine: Vec<f32> = (0..n).flat_map(|k| [bend[k][0], 0.1 * k as f32, bend[k][1]]).collect();
    let mut section = outlines::star(n - 1);
    section.push(section[0]);
    shape.set_floats(0, &spine);
    shape.set_floats(1, section.as_flattened());
    shape
}

pub fn lines(maker: &mut Maker, entries: usize) -> Shape {
    let mut shape = Shape::new(LINES);
    shape.flags[flag::COLOURS] = true;
    let count = entries / 2;
    let points = maker.values(3 * count, Taste::Real);
    shape.set_floats(0, &points);
    shape.set_floats(2, &points);
    let index: Vec<i32> = (0..entries).map(|k| if k % 64 == 63 { -1 } else { (k * 5 % count) as i32 }).collect();
    shape.set_entries(1, &index);
    shape
}

/// Faces of four corners that all meet at point 0.
pub fn hub(crease: f32, entries: usize) -> Shape {
    let count = entries / 5;
    let rim = outlines::circle(2 * count);
    let mut points = vec![0.0, 2.0, 0.0];
    points.extend(level(&rim));
    let last = 2 * count as i32;
    let index = listed((0..count as i32).map(|k| vec![0, 2 * k + 1, 2 * k + 2, (2 * k + 2) % last + 1]));
    faces(crease, &points, &index)
}

/// One run that names point 0 again and again, each time with another colour.
pub fn one_point(kind: u32, crease: f32, entries: usize) -> Shape {
    let mut shape = Shape::new(kind);
    shape.crease(crease);
    shape.flags[flag::COLOURS] = true;
    shape.set_floats(0, &[0.0; 3]);
    shape.set_entries(1, &vec![0; entries]);
    let colours: Vec<f32> = (0..entries).flat_map(|k| [(k % 256) as f32, (k / 256) as f32, 0.0].map(|c| c / 255.0)).collect();
    shape.set_floats(2, &colours);
    shape.set_entries(3, &(0..entries as i32).collect::<Vec<_>>());
    shape
}

/// The converter's hash of a vertex at point 0, of the words of its normal, colour and texture, 0 where none is made
/// (vertices/specs/Hash.antt).
fn hash_of(normal: [u32; 3], colour: [u32; 4], texture: [u32; 2]) -> u32 {
    let normals = [0xb52_97a5, 0x85e_bca7, 0xc2b_2ae3];
    let colours = [0xd6e_8feb, 0xa13_6aaf, 0xe2d_0b4d, 0x8f1_bbcd];
    let textures = [0xca6_2c1d, 0x94d_049b];
    let words = normal.into_iter().chain(colour).chain(texture);
    let weights = normals.into_iter().chain(colours).chain(textures);
    let sum: u64 = words.zip(weights).map(|(word, weight): (u32, u64)| word as u64 * weight).sum();
    (sum as u32 ^ (sum >> 32) as u32).wrapping_mul(0xb529_7a4d)
}

/// Whether the hash is one of the first bucket, of those for so many corners at one point.
fn is_first(hash: u32, corners: usize) -> bool {
    let buckets = corners as u64 / 3 + 2 + 1;
    hash as u64 * buckets >> 32 == 0
}

/// The line set of one point, made against the hash: the keys of all vertices are in the first bucket. They differ in the
/// first word that is held against another.
pub fn against_the_hash(maker: &mut Maker, entries: usize) -> Shape {
    let first = |colour: &[f32; 3]| {
        let words = [colour[0], colour[1], colour[2], 1.0].map(f32::to_bits);
        is_first(hash_of([0; 3], words, [0; 2]), entries)
    };
    let any = || Some(std::array::from_fn(|_| maker.rng.real()));
    let colours: Vec<f32> = std::iter::from_fn(any).filter(first).take(entries).flatten().collect();
    let mut shape = one_point(LINES, OWN, entries);
    shape.set_floats(2, &colours);
    shape
}

/// The face set of one point with every attribute, made against the hash as well. Its keys differ in the last word alone.
pub fn against_the_hash_at_the_end(entries: usize) -> Shape {
    let (normal, colour, s) = ([0.0, 1.0, 0.0], [0.5, 0.25, 0.75, 1.0], 0.5_f32);
    let first = |t: &u32| is_first(hash_of(normal.map(f32::to_bits), colour.map(f32::to_bits), [s.to_bits(), *t]), entries);
    let ends = (0.5_f32.to_bits()..).filter(first).take(entries);
    // The vertex has 1 - t, which is exact from 0.5 on.
    let textures: Vec<f32> = ends.flat_map(|t| [s, 1.0 - f32::from_bits(t)]).collect();
    let mut shape = faces(OWN, &[0.0; 3], &vec![0; entries]);
    shape.flags[flag::ALPHA] = true;
    for present in [flag::COLOURS, flag::NORMALS, flag::TEXTURE] {
        shape.flags[present] = true;
    }
    shape.set_floats(2, &colour);
    shape.set_floats(4, &normal);
    shape.set_floats(6, &textures);
    shape.set_entries(7, &(0..entries as i32).collect::<Vec<_>>());
    shape
}

/// Faces of nine corners over three points, the worst that `search` found: all corners meet at three points, and many faces
/// have no unit normal.
pub fn three_points(maker: &mut Maker, entries: usize) -> Shape {
    let points = maker.values(9, Taste::Coarse);
    let any = |_| (0..9).map(|_| maker.rng.below(3) as i32).collect();
    let index = listed((0..entries / 10).map(any));
    faces(CREASE, &points, &index)
}

/// Faces of a hundred corners over 47 points, not said to be convex, as `search` found them: a face names points again and
/// again and crosses itself, so that most of its corners are blocked at once and few are ears.
pub fn tangled(maker: &mut Maker, entries: usize) -> Shape {
    let points = maker.values(3 * 47, Taste::Real);
    let any = |_| (0..100).map(|_| maker.rng.below(47) as i32).collect();
    let index = listed((0..entries / 101).map(any));
    let mut shape = faces(OWN, &points, &index);
    shape.flags[flag::CONVEX] = false;
    shape
}

/// Triangles of any points, with colours, normals and texture at each corner.
pub fn soup(maker: &mut Maker, entries: usize) -> Shape {
    let count = entries / 4;
    let values = maker.values(3 * count, Taste::Real);
    let mut any = || (0..3).map(|_| maker.rng.below(count) as i32).collect::<Vec<_>>();
    let lists: [Vec<i32>; 4] = std::array::from_fn(|_| listed((0..count).map(|_| any())));
    let mut shape = faces(CREASE, &values, &lists[0]);
    for (k, present) in [(2, flag::COLOURS), (4, flag::NORMALS), (6, flag::TEXTURE)] {
        shape.flags[present] = true;
        shape.set_floats(k, &values[..if k == 6 { 2 * count } else { 3 * count }]);
        shape.set_entries(k + 1, &lists[k / 2]);
    }
    shape
}

/// The same as a triangle set, which has its attributes by the point's number.
pub fn soup_set(maker: &mut Maker, entries: usize) -> Shape {
    let count = entries / 3;
    let values = maker.values(3 * count, Taste::Real);
    let index: Vec<i32> = (0..3 * count).map(|_| maker.rng.below(count) as i32).collect();
    let mut shape = faces(CREASE, &values, &index);
    shape.kind = TRIANGLES;
    for (k, present) in [(2, flag::COLOURS), (4, flag::NORMALS), (6, flag::TEXTURE)] {
        shape.flags[present] = true;
        shape.set_floats(k, &values[..if k == 6 { 2 * count } else { 3 * count }]);
    }
    shape
}
