//! The mode `record`: stored answers of the reference, as the text of FORMAT 14, for the program `replay`.
//!
//! A case is a number, how many corners slices are lent for (that many points too: FORMAT 4), then the length of
//! the block and its bytes, then the length of the text and its bytes. Numbers are four bytes, most significant first.

use std::collections::BTreeMap;
use std::f32::consts::PI;

use crate::angles::Angles;
use crate::cases;
use crate::expected::{Expected, expected};
use crate::fixed;
use crate::format::{Block, EXTRUSION, FACES, GRID, LIMIT, LINES, Sizes, accept, flag, runs};
use crate::maker::{Maker, Taste};
use crate::ours::WHITE;
use crate::outlines;
use crate::rng::Rng;
use crate::shape::Shape;
use crate::text;
use reference::scene::Mesh;

/// The room that `replay` has for a block and for a text.
const BLOCK_ROOM: usize = 40_960;
const TEXT_ROOM: usize = 131_072;
/// The longest block and text of a generated case, so that the file stays small.
const SMALL: usize = 12_288;

/// The example of FORMAT 14: a 2 by 2 grid with heights 0.
const EXAMPLE: &str = "mesh 4 6 1 0 0
v 0 00000000 00000000 00000000 n 00000000 3f800000 00000000
v 2 00000000 00000000 3f800000 n 00000000 3f800000 00000000
v 3 3f800000 00000000 3f800000 n 00000000 3f800000 00000000
v 1 3f800000 00000000 00000000 n 00000000 3f800000 00000000
t 0 1 2
t 0 2 3
";

struct Store {
    bytes: Vec<u8>,
    cases: u64,
    /// Of the blocks and of the texts.
    longest: [usize; 2],
    /// What the cases show, and how often.
    shown: BTreeMap<String, u64>,
    /// Meshes taken, by kind, and how many of them are empty.
    taken: [u64; 8],
    empty: u64,
}

impl Store {
    fn new() -> Self {
        Self { bytes: Vec::new(), cases: 0, longest: [0; 2], shown: BTreeMap::new(), taken: [0; 8], empty: 0 }
    }

    fn number(&mut self, n: usize) {
        self.bytes.extend((n as u32).to_be_bytes());
    }

    fn put(&mut self, corners: usize, block: &[u8], text: &str) {
        self.number(corners);
        for (k, part) in [block, text.as_bytes()].into_iter().enumerate() {
            self.number(part.len());
            self.bytes.extend(part);
            self.longest[k] = self.longest[k].max(part.len());
        }
        self.cases += 1;
    }

    fn count(&mut self, what: &str) {
        *self.shown.entry(what.into()).or_default() += 1;
    }

    fn shows(&self, what: &str) -> u64 {
        self.shown.get(what).copied().unwrap_or(0)
    }

    /// Says what the cases show, and writes them; the answer is whether that went well.
    fn write(&self, file: &str) -> bool {
        for (what, n) in &self.shown {
            println!("{n:>7} {what}");
        }
        let [block, text] = self.longest;
        println!("{} cases, {} bytes, longest block {block}, longest text {text}", self.cases, self.bytes.len());
        let written = std::fs::write(file, &self.bytes);
        if let Err(why) = &written {
            println!("{file}: {why}");
        }
        written.is_ok()
    }
}

/// The lengths of slices for so many corners and as many points (FORMAT 4).
fn lent(corners: usize) -> [usize; 8] {
    let k = corners;
    [3 * k, 3 * k, 4 * k, 2 * k, k, 3 * k, 16 * k + 8, 16 * k + 8]
}

/// The fewest corners whose slices are long enough.
fn fewest(sizes: Sizes) -> usize {
    sizes.corners.max((sizes.corners + sizes.points).div_ceil(2))
}

fn is_nan(word: &u32) -> bool {
    word & 0x7fff_ffff > 0x7f80_0000
}

fn has_nan(mesh: &Mesh) -> bool {
    let lists = [Some(&mesh.positions), mesh.normals.as_ref(), mesh.colours.as_ref(), mesh.texture.as_ref()];
    lists.into_iter().flatten().flatten().any(is_nan)
}

/// Whether the least of two zeros is asked for, which Rust leaves open.
fn open_zeros(block: &Block) -> bool {
    let list = match block.kind {
        _ if block.is_face_set() && !block.flag(flag::TEXTURE) => 0,
        EXTRUSION => 1,
        _ => return false,
    };
    block.makes_texture() && block.list(list).contains(&0x8000_0000)
}

/// What a mesh shows of the format.
fn features(block: &Block, mesh: &Mesh) -> Vec<&'static str> {
    let on = |k| block.flag(k);
    let names = ["face set", "line set", "grid", "extrusion", "triangle set", "fan set", "strip set", "quad set"];
    let mut list = vec![names[block.kind as usize]];
    let mut put = |yes: bool, name| {
        if yes {
            list.push(name);
        }
    };
    let angle = f32::from_bits(block.word(0));
    let generated = block.kind != LINES && !block.supplies_normals();
    let every = angle.is_finite() && angle >= PI;
    let own = !angle.is_finite() || angle <= 0.0;
    put(generated && own, "crease: own face");
    put(generated && every, "crease: every face");
    put(generated && !own && !every, "crease: cosine");
    let normals = block.supplies_normals();
    put(normals && on(flag::NORMAL_PER_VERTEX), "normals by vertex");
    put(normals && !on(flag::NORMAL_PER_VERTEX), "normals by face");
    put(block.makes_colours() && on(flag::COLOUR_PER_VERTEX), "colours by vertex");
    put(block.makes_colours() && !on(flag::COLOUR_PER_VERTEX), "colours by face");
    let indexed = block.kind < GRID;
    put(indexed && block.makes_colours() && block.counts[3] > 0, "own colour index");
    put(block.kind == FACES && normals && block.counts[5] > 0, "own normal index");
    let listed = block.kind != EXTRUSION && on(flag::TEXTURE);
    put(block.kind == FACES && listed && block.counts[7] > 0, "own texture index");
    put(block.makes_texture() && listed, "texture points");
    put(block.makes_texture() && !listed, "default texture");
    put(block.makes_texture() && on(flag::TRANSFORM), "texture transform");
    let ears = block.kind == FACES || block.kind == EXTRUSION;
    put(ears && !on(flag::CONVEX), "not convex");
    put(!on(flag::CCW) && block.kind != LINES, "clockwise");
    let caps = block.kind == EXTRUSION;
    put(caps && on(flag::BEGIN_CAP) && on(flag::END_CAP), "both caps");
    put(caps && on(flag::BEGIN_CAP) != on(flag::END_CAP), "one cap");
    put(block.joins_columns(), "joined columns");
    let largest = largest_face(block);
    put(largest > 4096, "face above 4096 corners");
    put(largest == 4096 && !on(flag::CONVEX), "face of 4096 corners, not convex");
    put(has_nan(mesh), "NaN of a list");
    list
}

/// The corners of the largest kept face of a face set.
fn largest_face(block: &Block) -> usize {
    if block.kind != FACES {
        return 0;
    }
    let kept = |run: &&[i32]| run.iter().all(|&v| (v as usize) < block.counts[0]);
    runs(&block.entries(1)).into_iter().filter(kept).map(<[i32]>::len).max().unwrap_or(0)
}

/// How the lent slices stand to what is asked for.
fn lending(block: &Block, corners: usize) -> &'static str {
    match block.sizes() {
        Ok(sizes) if fewest(sizes) == corners => "slices just long enough",
        _ if corners == LIMIT => "full slices",
        _ => "part of the slices",
    }
}

/// The reference's answer; none where the definition settles what the Rust leaves open. A NaN that is left was
/// copied from a list, bits and all.
fn answer(bytes: &[u8], corners: usize, angles: &Angles) -> Option<Result<Mesh, u32>> {
    match expected(bytes, &lent(corners), angles, WHITE) {
        Expected::Refused(n) => Some(Err(n)),
        Expected::Made(mesh, false) => {
            let block = Block::read(bytes).ok()?;
            let computed = block.kind == EXTRUSION && mesh.positions.iter().any(is_nan);
            (!computed && !open_zeros(&block)).then_some(Ok(mesh))
        }
        _ => None,
    }
}

/// Puts a block with its answer, if the reference can give one.
fn put(store: &mut Store, bytes: &[u8], corners: usize, angles: &Angles) -> bool {
    let Some(answer) = answer(bytes, corners, angles) else {
        return false;
    };
    let text = match &answer {
        Ok(mesh) => text::mesh(mesh),
        Err(number) => text::refusal(*number),
    };
    if bytes.len() > BLOCK_ROOM || text.len() > TEXT_ROOM {
        return false;
    }
    match (&answer, Block::read(bytes)) {
        (Ok(mesh), Ok(block)) => {
            store.count(lending(&block, corners));
            for name in features(&block, mesh) {
                store.count(name);
            }
        }
        _ => store.count(text.trim()),
    }
    store.put(corners, bytes, &text);
    true
}

/// Puts a block with full slices, with slices just long enough, and with slices for one corner less.
fn put_thrice(store: &mut Store, bytes: &[u8], angles: &Angles) {
    let (_, sizes) = accept(bytes, &lent(LIMIT)).expect("a block that is not refused");
    for corners in [LIMIT, fewest(sizes), fewest(sizes) - 1] {
        assert!(put(store, bytes, corners, angles), "a block that the reference follows");
    }
}

/// Shapes of 256 corners, some more, some less.
fn edges(maker: &mut Maker) -> Vec<Shape> {
    let mut list = Vec::new();
    for (x, z) in [(9, 9), (2, 66)] {
        let mut grid = maker.grid_of(x, z);
        let heights = maker.values(x * z, Taste::Coarse);
        grid.set_floats(3, &heights);
        list.push(grid);
    }
    for (n, m) in [(8, 9), (12, 6), (2, 40)] {
        let mut duct = maker.extrusion_of(n, m);
        let section = outlines::star(m);
        duct.set_floats(1, section.as_flattened());
        list.push(duct);
    }
    for (corners, points) in [(255, 255), (256, 16), (257, 16), (256, 257)] {
        let mut face = maker.great_face(corners, points, corners == 255);
        face.set_floats(0, &outlines::placed(&mut maker.rng, &outlines::star(points)));
        list.push(face.clone());
        face.kind = LINES;
        list.push(face);
    }
    list
}

fn example() -> Shape {
    let mut grid = Shape::new(GRID);
    grid.counts[..2].copy_from_slice(&[2, 2]);
    grid.set_floats(3, &[0.0; 4]);
    grid
}

/// A face once around a star, and then at its first point again and again: many corners with few vertices, and
/// ears all the same.
fn long_face(maker: &mut Maker, corners: usize, points: usize) -> Shape {
    let mut face = Shape::new(FACES);
    face.flags[flag::CONVEX] = false;
    face.set_floats(0, &outlines::placed(&mut maker.rng, &outlines::star(points)));
    let index: Vec<i32> = (0..corners).map(|k| if k < points { k as i32 } else { 0 }).collect();
    face.set_entries(1, &index);
    face
}

/// Large faces: clipped by ears, one corner too many for it, as many as there may be.
fn large(maker: &mut Maker) -> Vec<Shape> {
    let mut list = Vec::new();
    for corners in [4096, 4097] {
        for ccw in [true, false] {
            let mut face = long_face(maker, corners, 100);
            face.flags[flag::CCW] = ccw;
            list.push(face.clone());
            face.lists[1].reverse();
            list.push(face);
        }
    }
    let mut face = long_face(maker, 4096, 100);
    face.flags[flag::CONVEX] = true;
    list.push(face);
    list.push(long_face(maker, 1500, 1500));
    let mut face = maker.great_face(LIMIT, 64, false);
    face.flags[flag::TEXTURE_WANTED] = true;
    list.push(face);
    list
}

/// How many cases of one refusal are taken, of `count` in all.
fn few(count: u64) -> u64 {
    (count / 40).max(4)
}

/// Whether a block adds something: few refusals, few empty meshes, all kinds.
fn wanted(store: &mut Store, bytes: &[u8], corners: usize, angles: &Angles, count: u64) -> bool {
    match answer(bytes, corners, angles) {
        _ if bytes.len() > SMALL => false,
        Some(Err(n)) => store.shows(&format!("no {n}")) < few(count),
        Some(Ok(mesh)) => {
            let kind = Block::read(bytes).map_or(0, |b| b.kind as usize);
            let sets = count / 4;
            let share = [count * 9 / 20, count / 8, count / 5, count / 4, sets, sets, sets, sets][kind];
            let empty = mesh.indices.is_empty();
            let long = text::mesh(&mesh).len() > SMALL;
            if long || store.taken[kind] >= share || (empty && store.empty >= few(count)) {
                return false;
            }
            store.taken[kind] += 1;
            store.empty += empty as u64;
            true
        }
        None => false,
    }
}

/// Refused blocks among the fixed ones, in any order.
fn refused(maker: &mut Maker, store: &mut Store, count: u64) {
    let mut list = fixed::blocks(maker);
    while !list.is_empty() {
        let (_, block) = list.swap_remove(maker.rng.below(list.len()));
        let refused = accept(&block, &lent(LIMIT)).is_err();
        if refused && wanted(store, &block, LIMIT, &maker.angles, count) {
            put(store, &block, LIMIT, &maker.angles);
        }
    }
}

/// For how many corners slices are lent: mostly all, at times 256, just enough, or one too few.
fn corners_for(maker: &mut Maker, block: &[u8]) -> usize {
    let least = accept(block, &lent(LIMIT)).map_or(LIMIT, |(_, sizes)| fewest(sizes));
    match maker.rng.below(8) {
        0 => least,
        1 => least.saturating_sub(1),
        2 => 256,
        _ => LIMIT,
    }
}

/// Generated blocks of these shapes, until there are `most` cases.
fn generated(maker: &mut Maker, store: &mut Store, shape: fn(&mut Maker) -> Shape, seed: u64, count: u64, most: u64) {
    let mut case = 0;
    while store.cases < most && case < 1000 * count {
        maker.rng = Rng::new(seed, case);
        let block = cases::block_of(maker, shape);
        let corners = corners_for(maker, &block);
        if wanted(store, &block, corners, &maker.angles, count) {
            put(store, &block, corners, &maker.angles);
        }
        case += 1;
    }
}

/// Writes the cases, `count` and a third more of triangle, fan, strip and quad sets; the answer is whether that went well.
pub fn record(count: u64, seed: u64, file: &str) -> bool {
    let mut maker = Maker { rng: Rng::new(seed, u64::MAX), angles: Default::default() };
    let mut store = Store::new();
    let first = example().block();
    let told = answer(&first, LIMIT, &maker.angles).and_then(Result::ok).map(|mesh| text::mesh(&mesh));
    assert_eq!(told.as_deref(), Some(EXAMPLE), "the example of FORMAT 14");
    put_thrice(&mut store, &first, &maker.angles);
    for sample in fixed::samples(&mut maker) {
        put_thrice(&mut store, &sample.block(), &maker.angles);
    }
    for shape in edges(&mut maker) {
        put(&mut store, &shape.block(), 256, &maker.angles);
    }
    for shape in large(&mut maker) {
        assert!(put(&mut store, &shape.block(), LIMIT, &maker.angles), "a large face with a short text");
    }
    refused(&mut maker, &mut store, count);
    generated(&mut maker, &mut store, cases::others, seed, count, count);
    generated(&mut maker, &mut store, cases::primitives, seed, count, count + count / 3);
    store.write(file)
}

/// The angles that a generated block may have.
fn drawn_angles() -> Angles {
    let mut maker = Maker { rng: Rng::new(0, 0), angles: Default::default() };
    for _ in 0..100_000 {
        let angle = maker.angle();
        maker.angles.words(angle);
        maker.angles.words(angle / 2.0);
    }
    maker.angles
}

/// The next part of the bytes, which begins with its length.
fn take_part<'a>(bytes: &mut &'a [u8]) -> &'a [u8] {
    let (len, rest) = bytes.split_first_chunk::<4>().expect("a whole case");
    let (part, rest) = rest.split_at(u32::from_be_bytes(*len) as usize);
    *bytes = rest;
    part
}

/// Keeps the blocks of a file and works out their texts anew. Where coordIndex has no value below -1 and no columns are joined
/// the text has to stay; the answer is whether it did.
pub fn again(file: &str) -> bool {
    let old = std::fs::read(file).unwrap_or_else(|why| panic!("{file}: {why}"));
    let (angles, mut store, mut rest) = (drawn_angles(), Store::new(), &old[..]);
    let (mut below, mut joined, mut changed, mut wrong) = (0, 0, 0, 0);
    while let Some((corners, after)) = rest.split_first_chunk::<4>() {
        rest = after;
        let (block, text) = (take_part(&mut rest), take_part(&mut rest));
        let corners = u32::from_be_bytes(*corners) as usize;
        let start = store.bytes.len();
        assert!(put(&mut store, block, corners, &angles), "a block that the reference follows");
        let other = &store.bytes[start + 12 + block.len()..] != text;
        let [has_below, joins] = Block::read(block).map_or([false; 2], |b| [b.has_below(), b.joins_columns()]);
        below += has_below as usize;
        joined += (joins && text.starts_with(b"mesh")) as usize;
        changed += other as usize;
        wrong += (other && !has_below && !joins) as usize;
    }
    println!("{below} cases with a value below -1, {joined} with joined columns, {changed} texts changed, {wrong} of other cases");
    wrong == 0 && store.write(file)
}
