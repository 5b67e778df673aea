//! The mode `search`: a random search over generated blocks for the largest ratio of our time to the reference's, and for
//! our largest time.

use std::time::{Duration, Instant};

use crate::bench::{Timed, ms, timed};
use crate::blocks::{CREASE, EVERY, OWN};
use crate::format::{EXTRUSION, FACES, FANS, GRID, LIMIT, LINES, QUADS, STRIPS, TRIANGLES, flag};
use crate::maker::{Maker, Taste};
use crate::ours::Slices;
use crate::rng::Rng;
use crate::shape::Shape;

/// Shortest time of the reference for which a ratio counts; below it the clock says little.
const FLOOR: Duration = Duration::from_micros(20);
/// How many blocks the search goes on from.
const KEPT: usize = 8;

/// The kinds, some of them more often than others.
const KINDS: [u32; 12] = [FACES, FACES, FACES, FACES, LINES, LINES, GRID, EXTRUSION, TRIANGLES, FANS, STRIPS, QUADS];

/// How a block is made.
#[derive(Clone, Debug)]
struct Recipe {
    /// A grid and an extrusion are made as the comparison makes them.
    kind: u32,
    seed: u64,
    entries: usize,
    points: usize,
    /// Corners of a face or entries of a line, a fan or a strip; every other one is shorter where `uneven`.
    run: usize,
    uneven: bool,
    /// One of so many entries names point 0 and no other.
    hub: usize,
    crease: f32,
    convex: bool,
    taste: Taste,
    /// For colours, normals and texture: 0 none, 1 by vertex, 2 by face, 3 each corner its own. Of primitive sets all but
    /// 0 are by vertex, as they have no other.
    attributes: [u8; 3],
    /// How many different values an attribute has.
    values: usize,
}

/// About as many small numbers as large ones.
fn scaled(rng: &mut Rng, most: usize) -> usize {
    let bits = rng.below(usize::BITS as usize - most.leading_zeros() as usize + 1);
    rng.between(1, (1 << bits).min(most))
}

impl Recipe {
    fn any(rng: &mut Rng) -> Self {
        let mut recipe = Self {
            kind: FACES,
            seed: 0,
            entries: LIMIT,
            points: 1,
            run: 3,
            uneven: false,
            hub: 1,
            crease: OWN,
            convex: true,
            taste: Taste::Real,
            attributes: [0; 3],
            values: 1,
        };
        (0..12).for_each(|k| recipe.change(rng, k));
        recipe
    }

    /// Part k made anew.
    fn change(&mut self, rng: &mut Rng, k: usize) {
        match k {
            0 => self.kind = rng.pick(&KINDS),
            1 => self.seed = rng.bits() as u64,
            2 => self.entries = if rng.coin() { LIMIT } else { scaled(rng, LIMIT) },
            3 => self.points = scaled(rng, LIMIT),
            4 => self.run = if rng.coin() { rng.between(3, 9) } else { scaled(rng, LIMIT) },
            5 => self.uneven = rng.one_in(4),
            6 => self.hub = if rng.coin() { LIMIT } else { scaled(rng, 64) },
            7 => self.crease = rng.pick(&[OWN, CREASE, 3.1, EVERY]),
            8 => self.convex = !rng.one_in(4),
            9 => self.taste = rng.pick(&[Taste::Real, Taste::Coarse, Taste::Mixed, Taste::Odd, Taste::Bits]),
            10 => self.attributes = std::array::from_fn(|_| rng.below(4) as u8),
            _ => self.values = scaled(rng, LIMIT),
        }
    }

    fn index(&self, rng: &mut Rng, below: usize) -> Vec<i32> {
        let (entries, run) = match self.kind {
            // Nothing ends a primitive.
            TRIANGLES | QUADS => (self.entries, usize::MAX),
            // Each entry of a run but two makes three corners.
            FANS | STRIPS => (self.entries / 3 + 2, self.run),
            // The reference takes minutes for long faces with convex off.
            _ => (self.entries, if self.convex { self.run } else { self.run.min(300) }),
        };
        let mut left = run;
        let mut short = false;
        let mut one = || {
            if left == 0 {
                short = self.uneven && !short;
                left = if short { run.div_ceil(2) } else { run };
                return -1;
            }
            left -= 1;
            if rng.one_in(self.hub) { 0 } else { rng.below(below) as i32 }
        };
        (0..entries).map(|_| one()).collect()
    }

    fn attribute(&self, maker: &mut Maker, shape: &mut Shape, k: usize, index: &[i32]) {
        let mut how = self.attributes[k];
        if self.kind >= TRIANGLES {
            how = how.min(1);
        }
        if how == 0 {
            return;
        }
        let list = 2 + 2 * k;
        shape.flags[[flag::COLOURS, flag::NORMALS, flag::TEXTURE][k]] = true;
        if k < 2 {
            shape.flags[[flag::COLOUR_PER_VERTEX, flag::NORMAL_PER_VERTEX][k]] = how != 2;
        }
        let values = maker.values(shape.width(list) * self.values, self.taste);
        shape.set_floats(list, &values);
        if how == 3 {
            let own: Vec<i32> = (0..index.len()).map(|j| (j % self.values) as i32).collect();
            shape.set_entries(list + 1, &own);
        }
    }

    fn shape(&self, maker: &mut Maker) -> Shape {
        maker.rng = Rng::new(self.seed, 0);
        let mut shape = match self.kind {
            GRID => maker.grid(self.points.clamp(3, 90)),
            EXTRUSION => maker.extrusion(self.points.clamp(3, 90)),
            _ => {
                let mut shape = Shape::new(self.kind);
                let points = maker.values(3 * self.points, self.taste);
                shape.set_floats(0, &points);
                let index = self.index(&mut maker.rng, self.points);
                shape.set_entries(1, &index);
                (0..3).for_each(|k| self.attribute(maker, &mut shape, k, &index));
                shape
            }
        };
        shape.flags[flag::CONVEX] = self.convex;
        shape.crease(self.crease);
        shape
    }
}

/// The recipes with the largest of some number, largest first.
#[derive(Default)]
struct Best(Vec<(f64, Recipe, String)>);

impl Best {
    fn least(&self) -> f64 {
        if self.0.len() < KEPT { 0.0 } else { self.0[KEPT - 1].0 }
    }

    fn put(&mut self, number: f64, recipe: &Recipe, t: &Timed) {
        let line = format!("{:.2} ({:.3} ms, {:.3} ms there), {} corners", t.ratio(), ms(t.mine), ms(t.theirs), t.sizes.corners);
        self.0.push((number, recipe.clone(), line));
        self.0.sort_by(|a, b| b.0.total_cmp(&a.0));
        self.0.truncate(KEPT);
    }

    fn any(&self, rng: &mut Rng) -> Option<Recipe> {
        (!self.0.is_empty()).then(|| self.0[rng.below(self.0.len())].1.clone())
    }

    fn print(&self, what: &str) {
        println!("{what}");
        self.0.iter().for_each(|(_, recipe, line)| println!("  {line}: {recipe:?}"));
    }
}

/// A recipe of the search: any, or one of the best with a part or two changed.
fn next(rng: &mut Rng, ratios: &Best, times: &Best) -> Recipe {
    let from = if rng.coin() { ratios } else { times };
    match from.any(rng) {
        Some(mut recipe) if !rng.one_in(3) => {
            for _ in 0..rng.between(1, 2) {
                let part = rng.below(12);
                recipe.change(rng, part);
            }
            recipe
        }
        _ => Recipe::any(rng),
    }
}

/// Searches for so many seconds; the answer is whether all agreed.
pub fn search(seconds: u64, seed: u64) -> bool {
    let end = Instant::now() + Duration::from_secs(seconds);
    let mut rng = Rng::new(seed, 1);
    let mut maker = Maker { rng: Rng::new(seed, 2), angles: Default::default() };
    let mut slices = Slices::default();
    let (mut ratios, mut times) = (Best::default(), Best::default());
    let (mut tried, mut slower, mut differing) = (0, 0, 0);
    while Instant::now() < end {
        let recipe = next(&mut rng, &ratios, &times);
        let shape = recipe.shape(&mut maker);
        let Some(quick) = timed(&shape, &maker, &mut slices, Duration::from_millis(2)) else { continue };
        tried += 1;
        differing += quick.differs.is_some() as u32;
        if quick.theirs < FLOOR {
            continue;
        }
        if quick.ratio() > ratios.least() || ms(quick.mine) > times.least() || quick.ratio() > 1.0 {
            let t = timed(&shape, &maker, &mut slices, Duration::from_millis(200)).expect("a mesh as before");
            ratios.put(t.ratio(), &recipe, &t);
            times.put(ms(t.mine), &recipe, &t);
            slower += (t.ratio() > 1.0) as u32;
        }
    }
    ratios.print("largest ratios");
    times.print("longest times");
    println!("{tried} blocks tried, {slower} slower than the reference, {differing} differ");
    differing == 0
}
