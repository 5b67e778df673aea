//! Parts for the comparison and the fuzzing: generated ones, and fixed ones at the edges.

use crate::maker::{Maker, Taste};
use crate::part::{BOX, CONE, CYLINDER, POINT_SET, POINTS, Part, SPHERE};

/// Sizes: none, of either sign, subnormal, tiny, ordinary, huge, infinite, NaN; those whose square is near 1e-40 or overflows.
const SIZES: [u32; 24] = [
    0x0000_0000,
    0x8000_0000,
    0x3f80_0000,
    0xbf80_0000,
    0x4020_0000,
    0x3dcc_cccd,
    0x0000_0001,
    0x8000_0001,
    0x007f_ffff,
    0x0080_0000,
    0x0080_0001,
    0x1e3c_e508,
    0x1e3c_e507,
    0x2000_0000,
    0x5f00_0000,
    0x60ad_78ec,
    0x7f00_0000,
    0x7f7f_ffff,
    0xff7f_ffff,
    0x7f80_0000,
    0xff80_0000,
    0x7fc0_0000,
    0x7f80_0001,
    0xffff_ffff,
];

/// Slices and stacks at which something changes.
const EDGES: [u32; 15] = [0, 1, 2, 3, 4, 5, 16, 255, 256, 257, 1023, 1024, 1025, 1 << 31, u32::MAX];

/// A sphere of more vertices is rare.
pub const LARGE: usize = 1 << 15;

impl Maker {
    /// A flag as a word: any that is not 0 is on.
    fn word_flag(&mut self) -> u32 {
        let on = self.rng.pick(&[1, 1, 2, 256, 1 << 31, u32::MAX]);
        if self.rng.coin() { on } else { 0 }
    }

    fn size(&mut self) -> f32 {
        match self.rng.below(8) {
            0..=2 => f32::from_bits(self.rng.pick(&SIZES)),
            3 => f32::from_bits(self.rng.bits()),
            _ => self.rng.real().abs() * 10.0,
        }
    }

    /// Slices or stacks: mostly few, now and then many.
    fn tessellation(&mut self) -> u32 {
        match self.rng.below(400) {
            0..=3 => self.rng.pick(&EDGES),
            4..=7 => self.rng.below(1026) as u32,
            8..=39 => self.rng.below(130) as u32,
            _ => self.rng.below(20) as u32,
        }
    }

    /// The floats of a texture transform but for sine and cosine, which come with the pairs; fewer than eight, which are none;
    /// or more.
    fn part_transform(&mut self) -> Vec<f32> {
        let n = match self.rng.below(16) {
            0..=4 => 0,
            5 => self.rng.below(8),
            6 => 7,
            7 => 9,
            _ => 8,
        };
        let taste = self.taste();
        self.values(n, taste)
    }

    /// Sine and cosine of the transform's rotation, by an angle that the reference is given.
    pub fn turn_by_angle(&mut self, part: &mut Part) {
        part.turn = match self.rng.below(8) {
            0 => self.rng.pick(&[f32::NAN, f32::INFINITY, f32::NEG_INFINITY]),
            1 => self.rng.pick(&[0.0, -0.0, 1e-40, 3.0e38]),
            _ => self.rng.real() * 8.0,
        };
        let (mut sine, mut cosine) = part.turn.sin_cos();
        // One of the two that is not finite is enough.
        match self.rng.below(4) {
            0 if !part.turn.is_finite() => sine = 0.5,
            1 if !part.turn.is_finite() => cosine = 0.5,
            _ => {}
        }
        if part.transform.len() > 3 {
            part.transform[2..4].copy_from_slice(&[sine, cosine]);
        }
    }

    /// Sine and cosine of the transform's rotation that need be no angle's.
    pub fn turn_by_any(&mut self, part: &mut Part) {
        let taste = self.taste();
        for k in 2..part.transform.len().min(4) {
            part.transform[k] = self.value(taste);
        }
    }

    /// Floats for pairs: all distinct, odd ones, any bits, or within -1 and 1.
    pub fn any_pairs(&mut self, n: usize) -> Vec<f32> {
        match self.rng.below(6) {
            0 | 1 => {
                let signs = self.rng.bits();
                (0..n)
                    .map(|k| (1.0 + k as f32 / 4_194_304.0) * if signs >> (k % 31) & 1 == 1 { -1.0 } else { 1.0 })
                    .collect()
            }
            2 => self.values(n, Taste::Odd),
            3 => self.values(n, Taste::Bits),
            4 => self.values(n, Taste::Mixed),
            _ => (0..n).map(|_| if self.rng.one_in(32) { self.odd() } else { self.rng.real() }).collect(),
        }
    }

    /// Points and colours of a PointSet: so many words, and colours beside as many.
    fn listed(&mut self, part: &mut Part, words: usize) {
        let taste = self.taste();
        part.points = self.values(words, taste).into_iter().map(f32::to_bits).collect();
        let (points, width) = (words / 3, part.width());
        let colours = match self.rng.below(8) {
            0 => self.rng.below(6),
            k => (points + k % 3).saturating_sub(1),
        };
        let taste = self.taste();
        let words = width * colours + self.rng.below(width);
        part.colours = self.values(words, taste).into_iter().map(f32::to_bits).collect();
    }

    /// A generated part, without pairs.
    pub fn part(&mut self, kind: usize) -> Part {
        let mut part = Part { kind, texture_wanted: self.word_flag(), slices: self.tessellation(), ..Part::default() };
        part.stacks = self.tessellation();
        if kind == SPHERE && part.sizes().vertices > LARGE && !self.rng.one_in(20) {
            part.stacks = self.rng.below(20) as u32;
        }
        part.size = std::array::from_fn(|_| self.size());
        part.shown = std::array::from_fn(|_| self.word_flag());
        part.transform = self.part_transform();
        if kind == POINT_SET {
            part.has_colors = if self.rng.one_in(4) { 0 } else { self.rng.pick(&[1, 2, u32::MAX]) };
            part.alpha = self.word_flag();
            let words = match self.rng.below(30) {
                0 => 3 * POINTS - 3 + self.rng.below(9),
                1 | 2 => self.rng.below(1000),
                _ => self.rng.below(40),
            };
            self.listed(&mut part, words);
        }
        part
    }

    fn round(&mut self, kind: usize, slices: u32, stacks: u32) -> Part {
        Part { slices, stacks, size: [1.5, 2.5, 0.0], ..self.part(kind) }
    }

    /// Every number of slices and stacks up to 1,025, and some beyond.
    fn tessellated(&mut self) -> Vec<Part> {
        let mut parts = Vec::new();
        for n in (0..=1025).chain([1026, 4096, 65_535, 65_536, 1 << 31, u32::MAX]) {
            let few = self.rng.below(6) as u32;
            parts.extend([self.round(SPHERE, n, few), self.round(SPHERE, few, n)]);
            parts.extend([self.round(CYLINDER, n, few), self.round(CONE, n, few)]);
        }
        for n in EDGES {
            for k in EDGES {
                let part = self.round(SPHERE, n, k);
                let largest = [(1024, 1024), (1023, 1025)].contains(&(n, k));
                if part.sizes().vertices <= LARGE || largest {
                    parts.push(part);
                }
            }
            for bits in 0..8 {
                let shown = std::array::from_fn(|k| bits >> k & 1);
                parts.push(Part { shown, ..self.round(CYLINDER, n, 0) });
                parts.push(Part { shown, ..self.round(CONE, n, 0) });
            }
        }
        parts
    }

    /// Each size with each other.
    fn sized(&mut self) -> Vec<Part> {
        let mut parts = Vec::new();
        let sizes = SIZES.map(f32::from_bits);
        for x in sizes {
            parts.push(Part { size: [x, 1.0, 1.0], slices: 3, stacks: 2, ..self.part(SPHERE) });
            for y in sizes {
                for kind in [CYLINDER, CONE] {
                    parts.push(Part { size: [x, y, 1.0], slices: 3, ..self.part(kind) });
                }
                for size in [[x, y, 3.0], [3.0, x, y], [y, 3.0, x]] {
                    parts.push(Part { size, ..self.part(BOX) });
                }
            }
        }
        parts
    }

    /// PointSets with too few colours, just enough and one more, with and without a last one that is not full.
    fn point_sets(&mut self) -> Vec<Part> {
        let mut parts = Vec::new();
        for points in [0, 1, 2, 3, 64, POINTS - 1, POINTS, POINTS + 1] {
            for bits in 0..4 {
                for colours in [points.saturating_sub(1), points, points + 1, 0] {
                    for half in [0, 1, 2] {
                        let mut part = Part { has_colors: bits & 1, alpha: bits & 2, ..Part::default() };
                        part.points = (0..3 * points + half).map(|_| self.rng.bits()).collect();
                        let words = part.width() * colours + if half == 1 { part.width() - 1 } else { 0 };
                        part.colours = (0..words).map(|_| self.rng.bits() | 0x7f80_0000).collect();
                        parts.push(part);
                    }
                }
            }
        }
        parts
    }

    pub fn fixed_parts(&mut self) -> Vec<Part> {
        [self.tessellated(), self.sized(), self.point_sets()].concat()
    }
}
