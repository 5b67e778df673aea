//! Blocks that are tried in every run: each refusal and its boundary, and the sizes at the limits.

use std::f32::consts::PI;

use crate::format::{EXTRUSION, FACES, FANS, GRID, LIMIT, LINES, QUADS, STRIPS, TRIANGLES, flag, widths};
use crate::maker::{Maker, Taste};
use crate::outlines;
use crate::seams;
use crate::shape::Shape;

pub type Named = (String, Vec<u8>);

/// A small accepted shape of each kind, with every attribute that the kind has.
pub fn samples(maker: &mut Maker) -> Vec<Shape> {
    let mut list = Vec::new();
    for kind in [FACES, LINES, GRID, EXTRUSION, TRIANGLES, FANS, STRIPS, QUADS] {
        let mut shape = Shape::new(kind);
        for k in [flag::TEXTURE_WANTED, flag::TRANSFORM, flag::COLOURS, flag::ALPHA, flag::NORMALS] {
            shape.flags[k] = true;
        }
        shape.set_floats(2, &[0.5; 16]);
        match kind {
            FACES | LINES => {
                shape.set_floats(0, &[0.0, 0.0, 0.0, 1.0, 0.0, 0.0, 1.0, 1.0, 0.0, 0.0, 1.0, 0.5]);
                shape.set_entries(1, &[0, 1, 2, -1, 0, 2, 3, -1, 9, 1]);
            }
            TRIANGLES..=QUADS => {
                shape.set_floats(0, &[0.0, 0.0, 0.0, 1.0, 0.0, 0.0, 1.0, 1.0, 0.0, 0.0, 1.0, 0.5]);
                shape.set_entries(1, &[0, 1, 2, 3, -1, 0, 2, 9, 3, 1, 2, 0, 3, 1]);
            }
            GRID => {
                shape.counts[..2].copy_from_slice(&[3, 2]);
                shape.set_floats(3, &[0.0, 1.0, 0.0, 0.5, 0.0, 0.25]);
            }
            _ => {
                shape.set_floats(0, &[0.0, 0.0, 0.0, 0.0, 1.0, 0.0, 1.0, 2.0, 0.0]);
                shape.set_floats(1, &[1.0, 1.0, 1.0, -1.0, -1.0, -1.0, -1.0, 1.0, 1.0, 1.0]);
                let (s, c) = maker.angles.words(0.5);
                shape.set(3, vec![0, 0x3f80_0000, 0, s, c]);
            }
        }
        if kind != EXTRUSION {
            shape.set_floats(4, &[0.0, 1.0, 0.0, 0.0, 0.0, 0.0]);
        }
        list.push(shape);
    }
    list
}

fn heads(sample: &Shape, out: &mut Vec<Named>) {
    let mut put = |name: String, edit: &dyn Fn(&mut Shape)| {
        let mut shape = sample.clone();
        edit(&mut shape);
        out.push((name, shape.block()));
    };
    for edition in 0..16 {
        put(format!("edition {edition}"), &|s| s.edition = edition);
    }
    for kind in 0..8 {
        put(format!("kind {kind}"), &|s| s.kind = kind);
    }
    for bit in 0..28 {
        put(format!("tail bit {bit}"), &|s| s.tail = 1 << bit);
    }
    for k in 0..8 {
        for n in [LIMIT + 1, 16383] {
            put(format!("count {k} of {n}"), &|s| s.counts[k] = n);
        }
    }
    for k in 0..13 {
        put(format!("flag {k}"), &|s| s.flags[k] = !s.flags[k]);
    }
    for k in 0..12 {
        for word in [0x7f80_0000, 0xff80_0000, 0x7fc0_0000, 0x8000_0000, 0x40a0_0000] {
            put(format!("word {k} {word:08x}"), &|s| s.words[k] = word);
        }
    }
}

/// The ends of a block.
fn ends(sample: &Shape, out: &mut Vec<Named>) {
    let block = sample.block();
    let n = block.len();
    for cut in (0..24).chain([67, 68, 69, n - 4, n - 1]) {
        out.push((format!("cut at {cut}"), block[..cut].to_vec()));
    }
    for more in [1, 3, 4] {
        let mut longer = block.clone();
        longer.extend(vec![0; more]);
        out.push((format!("{more} bytes more"), longer));
    }
}

/// Each list as long as it may be.
fn full_lists(sample: &Shape, out: &mut Vec<Named>) {
    for (k, width) in widths(sample.kind, sample.flags[flag::ALPHA]).into_iter().enumerate() {
        let mut shape = sample.clone();
        // A spine or a cross-section of that length is refused by 7, a grid's side by 6.
        shape.counts[k] = LIMIT;
        shape.lists[k].resize(LIMIT * width, 0x3f00_0000);
        out.push((format!("list {k} of {LIMIT}"), shape.block()));
    }
}

fn no_shapes(out: &mut Vec<Named>) {
    for x in 0..4usize {
        for z in 0..4usize {
            for missing in 0..2 {
                let mut grid = Shape::new(GRID);
                grid.counts[..2].copy_from_slice(&[x, z]);
                grid.set_floats(3, &vec![1.0; (x * z).saturating_sub(missing)]);
                out.push((format!("grid {x} by {z} without {missing}"), grid.block()));
            }
            let mut duct = Shape::new(EXTRUSION);
            duct.set_floats(0, &[0.0, 0.0, 0.0, 0.0, 1.0, 0.0, 0.0, 2.0, 0.5][..3 * x.min(3)]);
            duct.set_floats(1, &[1.0, 0.0, 0.0, 1.0, -1.0, 0.5][..2 * z.min(3)]);
            out.push((format!("extrusion {x} by {z}"), duct.block()));
        }
    }
    out.push(("grid 200 by 200".into(), {
        let mut grid = Shape::new(GRID);
        grid.counts[..2].copy_from_slice(&[200, 200]);
        grid.set_floats(3, &vec![1.0; LIMIT]);
        grid.block()
    }));
    for kind in [FACES, LINES] {
        out.push((format!("nothing of kind {kind}"), Shape::new(kind).block()));
    }
}

/// Grids and extrusions around the limit of corners.
fn corners(maker: &mut Maker, out: &mut Vec<Named>) {
    for (x, z) in [(46, 46), (46, 47), (47, 46), (2, 2049), (2, 2050), (2049, 2), (33, 65), (65, 33)] {
        let shape = maker.grid_of(x, z);
        out.push((format!("grid {x} by {z}"), shape.block()));
    }
    for (n, m) in [(45, 45), (46, 46), (46, 47), (2, 1366), (2, 1367), (2049, 2), (2050, 2), (4097, 2), (2, 4097)] {
        for open in [false, true] {
            let mut shape = maker.extrusion_of(n, m);
            shape.flags[flag::BEGIN_CAP] = true;
            shape.flags[flag::END_CAP] = true;
            shape.flags[flag::CONVEX] = true;
            let mut section = outlines::circle(if open { m } else { m - 1 });
            if !open {
                section.push(section[0]);
            }
            shape.set_floats(1, section.as_flattened());
            out.push((format!("extrusion {n} by {m}, open {open}"), shape.block()));
        }
    }
}

/// Face and line sets at the limits.
fn great(maker: &mut Maker, out: &mut Vec<Named>) {
    for corners in [4095, 4096, 4097, 8192] {
        for points in [corners, 64] {
            let mut shape = maker.great_face(corners, points, false);
            shape.flags[flag::CCW] = points == 64;
            out.push((format!("face of {corners} over {points}"), shape.block()));
        }
    }
    let (points, index) = maker.ground(64, Taste::Real);
    for crease in [0.0, 0.7, PI] {
        let mut shape = Shape::new(FACES);
        shape.set_floats(0, &points);
        shape.set_entries(1, &index[..LIMIT]);
        shape.crease(crease);
        shape.flags[flag::TEXTURE_WANTED] = true;
        out.push((format!("ground, crease {crease}"), shape.block()));
        // All corners at one point: the most that the crease rule can meet.
        shape.set_floats(0, &[1.0, 2.0, 3.0, 4.0, 5.0, 6.0, 0.0, 1.0, 0.0]);
        let around: Vec<i32> = (0..LIMIT).map(|k| [0, 1, 2, -1][k % 4]).collect();
        shape.set_entries(1, &around);
        out.push((format!("2048 faces at a point, crease {crease}"), shape.block()));
        shape.set_entries(1, &vec![0; LIMIT]);
        out.push((format!("a face of one point, crease {crease}"), shape.block()));
    }
    for kind in [FACES, LINES] {
        let mut shape = Shape::new(kind);
        shape.set_floats(0, &vec![0.5; 3 * LIMIT]);
        shape.set_entries(1, &vec![-1; LIMIT]);
        out.push((format!("kind {kind}: {LIMIT} empty runs"), shape.block()));
        let index: Vec<i32> = (0..LIMIT).map(|k| (k * 37 % LIMIT) as i32).collect();
        shape.set_entries(1, &index);
        out.push((format!("kind {kind}: one run of {LIMIT}"), shape.block()));
        shape.flags[flag::COLOURS] = true;
        shape.flags[flag::COLOUR_PER_VERTEX] = false;
        shape.set_floats(2, &vec![0.25; 3 * 40]);
        let index: Vec<i32> = (0..LIMIT).map(|k| if k % 5 == 4 { -1 } else { (k % 100) as i32 }).collect();
        shape.set_entries(1, &index);
        out.push((format!("kind {kind}: runs of four, colour by face"), shape.block()));
    }
}

/// Short lists of which one entry names no point, at each place; some end in a part that is not full.
fn spoiled(kind: u32, out: &mut Vec<Named>) {
    for n in 0..14usize {
        for bad in 0..=n {
            for entry in [5, -1, i32::MIN, i32::MAX] {
                let mut shape = Shape::new(kind);
                shape.flags[flag::CONVEX] = entry != -1;
                shape.flags[flag::CCW] = bad % 2 == 0;
                shape.flags[flag::TEXTURE_WANTED] = true;
                shape.set_floats(0, &[0.0, 0.0, 0.0, 1.0, 0.0, 0.5, 1.0, 1.0, 0.0, 0.0, 1.0, 0.25, 2.0, 0.5, 1.0]);
                let index: Vec<i32> = (0..n).map(|k| if k == bad { entry } else { (k % 5) as i32 }).collect();
                shape.set_entries(1, &index);
                out.push((format!("kind {kind}: {n} entries, {entry} at {bad}"), shape.block()));
            }
        }
    }
}

/// Sets at the limits, and the grounds of refusal 9, each also where it meets refusal 7.
fn primitives(maker: &mut Maker, out: &mut Vec<Named>) {
    for kind in [TRIANGLES, FANS, STRIPS, QUADS] {
        out.push((format!("nothing of kind {kind}"), Shape::new(kind).block()));
        spoiled(kind, out);
        for n in [2731, 2732, 2733, 8189, 8190, 8191, LIMIT] {
            for crease in [0.0, 0.7, PI] {
                let mut shape = Shape::new(kind);
                shape.crease(crease);
                let points = maker.values(3 * 3000, Taste::Coarse);
                shape.set_floats(0, &points);
                let index: Vec<i32> = (0..n).map(|k| (k % 3000) as i32).collect();
                shape.set_entries(1, &index);
                out.push((format!("kind {kind}: {n} entries, crease {crease}"), shape.block()));
                let mut bad = shape.clone();
                bad.lists[1][n / 2] = 9000;
                out.push((format!("kind {kind}: {n} entries, a bad one, crease {crease}"), bad.block()));
            }
        }
        for n in [4, 2733] {
            let mut shape = Shape::new(kind);
            shape.set_floats(0, &[0.0, 0.0, 0.0, 1.0, 0.0, 0.5, 1.0, 1.0, 0.0, 0.0, 1.0, 0.25]);
            shape.set_entries(1, &(0..n).map(|k| k % 4).collect::<Vec<i32>>());
            out.push((format!("kind {kind}: {n} entries over 4 points"), shape.block()));
            for k in [flag::COLOUR_PER_VERTEX, flag::NORMAL_PER_VERTEX] {
                for present in [false, true] {
                    let mut other = shape.clone();
                    other.flags[k] = false;
                    other.flags[flag::COLOURS] = present;
                    other.flags[flag::NORMALS] = present;
                    out.push((format!("kind {kind}: {n} entries, flag {k} off, present {present}"), other.block()));
                }
            }
            for k in [3, 5, 7] {
                let mut other = shape.clone();
                other.set_entries(k, &[0]);
                out.push((format!("kind {kind}: {n} entries, list {k}"), other.block()));
            }
        }
    }
}

/// Colours of which some are missing: an own index list with entries that are negative, too large and not there, or a
/// list of colours that is too short. A listed grey and a listed white stand beside them at the same points.
pub fn colourless() -> Vec<Named> {
    let mut out = Vec::new();
    let (grey, white, red) = ([0.8, 0.8, 0.8, 1.0], [1.0; 4], [1.0, 0.0, 0.0, 0.5]);
    let listed = [grey, white, red, grey, white, red];
    for (kind, alpha, by_vertex) in [FACES, LINES, GRID, TRIANGLES, FANS, STRIPS, QUADS].into_iter().flat_map(|kind| {
        [(kind, false, false), (kind, false, true), (kind, true, false), (kind, true, true)]
    }) {
        let mut shape = Shape::new(kind);
        shape.flags[flag::COLOURS] = true;
        shape.flags[flag::ALPHA] = alpha;
        shape.flags[flag::COLOUR_PER_VERTEX] = by_vertex;
        let own: &[&[i32]] = if kind == GRID {
            shape.counts[..2].copy_from_slice(&[3, 3]);
            shape.set_floats(3, &[0.0; 9]);
            &[&[]]
        } else if kind >= TRIANGLES {
            shape.set_floats(0, &[0.0, 0.0, 0.0, 1.0, 0.0, 0.0, 1.0, 1.0, 0.0, 0.0, 1.0, 0.0]);
            shape.set_entries(1, &[0, 1, 2, 3, 0, 2, 3, 1, -1, 1, 2, 3, 0, 0, 1, 3]);
            &[&[]]
        } else {
            shape.set_floats(0, &[0.0, 0.0, 0.0, 1.0, 0.0, 0.0, 1.0, 1.0, 0.0, 0.0, 1.0, 0.0]);
            shape.set_entries(1, &[0, 1, 2, -1, 0, 2, 3, -1, -1, 1, 2, 3, -1, 0, 1, 3]);
            &[&[], &[0, -1, 6, -1, -7, 0, 1, -1, 0, 1, 1, i32::MAX], &[-1, 0, i32::MIN, 6, 1], &[0, 1]]
        };
        for (n, index) in [0, 1, 3, 6].iter().flat_map(|&n| own.iter().map(move |&index| (n, index))) {
            let colours: Vec<f32> = listed[..n].iter().flat_map(|c| c[..if alpha { 4 } else { 3 }].to_vec()).collect();
            shape.set_floats(2, &colours);
            if kind != GRID {
                shape.set_entries(3, index);
            }
            let name = format!("kind {kind}, {n} colours, alpha {alpha}, by vertex {by_vertex}, index {index:?}");
            out.push((name, shape.block()));
        }
    }
    out
}

/// Values below -1 in coordIndex, at the ends of a run and inside one: no run ends there, and faces and lines count on.
fn below(out: &mut Vec<Named>) {
    for (kind, by_vertex) in [(FACES, false), (FACES, true), (LINES, false), (LINES, true)] {
        let mut shape = Shape::new(kind);
        shape.flags[flag::COLOURS] = true;
        shape.flags[flag::COLOUR_PER_VERTEX] = by_vertex;
        shape.set_floats(0, &[0.0, 0.0, 0.0, 1.0, 0.0, 0.0, 1.0, 1.0, 0.0, 0.0, 1.0, 0.5]);
        shape.set_floats(2, &[1.0, 0.0, 0.0, 0.0, 1.0, 0.0, 0.0, 0.0, 1.0, 0.5, 0.5, 0.5]);
        for v in [-2, -7, i32::MIN + 1, i32::MIN] {
            let lists = [
                [v, 0, 1, 2, -1, 0, 2, 3, -1, 1],
                [0, 1, 2, v, -1, 0, 2, 3, -1, 1],
                [0, 1, 2, v, 0, 2, 3, -1, 0, 1],
                [0, 1, 2, -1, v, -1, 0, 2, 3, -1],
                [0, 1, 2, -1, 0, 2, 3, -1, 1, v],
                [v; 10],
            ];
            for list in lists {
                shape.set_entries(1, &list);
                out.push((format!("kind {kind}, by vertex {by_vertex}, coordIndex {list:?}"), shape.block()));
            }
        }
    }
}

pub fn blocks(maker: &mut Maker) -> Vec<Named> {
    let mut out = Vec::new();
    let samples = samples(maker);
    for sample in &samples {
        out.push((format!("sample of kind {}", sample.kind), sample.block()));
        heads(sample, &mut out);
        ends(sample, &mut out);
        full_lists(sample, &mut out);
    }
    below(&mut out);
    no_shapes(&mut out);
    corners(maker, &mut out);
    great(maker, &mut out);
    primitives(maker, &mut out);
    seams::blocks(&mut out);
    out
}
