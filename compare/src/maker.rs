//! Values for generated shapes: numbers, angles, attributes.

use std::f32::consts::{FRAC_PI_2, PI};

use crate::angles::Angles;
use crate::format::{LIMIT, flag};
use crate::rng::Rng;
use crate::shape::Shape;

/// What the numbers of a shape are like.
#[derive(Clone, Copy, Debug, PartialEq)]
pub enum Taste {
    /// Halves of small whole numbers: points coincide, edges are parallel, sums are exact.
    Coarse,
    Real,
    /// Mostly coarse, some odd.
    Mixed,
    /// Infinities, NaN, zeros of either sign, subnormal and huge numbers.
    Odd,
    /// Any bits.
    Bits,
}

const ODD: [u32; 30] = [
    0x0000_0000,
    0x8000_0000,
    0x8000_0000,
    0x8000_0000,
    0x7f80_0000,
    0xff80_0000,
    0x7fc0_0000,
    0xffc0_0000,
    0x7f80_0001,
    0xffff_ffff,
    0x7fc1_2345,
    0x0000_0001,
    0x8000_0001,
    0x007f_ffff,
    0x0080_0000,
    0x7f7f_ffff,
    0xff7f_ffff,
    0x3f80_0000,
    0xbf80_0000,
    0x3f80_0001,
    0x3f7f_ffff,
    0x60ad_78ec,
    0x1e3c_e508,
    0x9e3c_e508,
    0x4f95_02f9,
    0x5015_02f9,
    0x2edb_e6ff,
    0x5f00_0000,
    0x2000_0000,
    0x4b80_0000,
];

pub struct Maker {
    pub rng: Rng,
    pub angles: Angles,
}

impl Maker {
    pub fn odd(&mut self) -> f32 {
        f32::from_bits(self.rng.pick(&ODD))
    }

    pub fn taste(&mut self) -> Taste {
        match self.rng.below(20) {
            0..=9 => Taste::Coarse,
            10..=13 => Taste::Real,
            14..=17 => Taste::Mixed,
            18 => Taste::Odd,
            _ => Taste::Bits,
        }
    }

    pub fn value(&mut self, taste: Taste) -> f32 {
        match taste {
            Taste::Coarse => (self.rng.below(9) as f32 - 4.0) * 0.5,
            Taste::Real => self.rng.real() * 10.0,
            Taste::Mixed if self.rng.one_in(8) => self.odd(),
            Taste::Mixed => (self.rng.below(9) as f32 - 4.0) * 0.5,
            Taste::Odd => self.odd(),
            Taste::Bits => f32::from_bits(self.rng.bits()),
        }
    }

    pub fn values(&mut self, n: usize, taste: Taste) -> Vec<f32> {
        (0..n).map(|_| self.value(taste)).collect()
    }

    /// Numbers of two kinds that are alike and have different bits.
    fn twins(&mut self, n: usize) -> Vec<f32> {
        let pair = self.rng.pick(&[
            [0x0000_0000, 0x8000_0000],
            [0x7fc0_0000, 0x7fc1_2345],
            [0x7f80_0001, 0xffc0_0000],
            [0x3f80_0000, 0x3f80_0001],
        ]);
        (0..n).map(|_| f32::from_bits(self.rng.pick(&pair))).collect()
    }

    /// Makes the least numbers of a list zeros of either sign.
    pub fn least_zeros(&mut self, list: &mut [f32]) {
        for x in list {
            *x = x.abs();
            if *x == 0.0 || self.rng.one_in(3) {
                *x = if self.rng.coin() { 0.0 } else { -0.0 };
            }
        }
    }

    /// An angle of a rotation. Few different ones, so that the remembered angles stay few.
    pub fn angle(&mut self) -> f32 {
        match self.rng.below(12) {
            0 => 0.0,
            1 => self.rng.pick(&[FRAC_PI_2, PI, -FRAC_PI_2, 2.0 * PI]),
            2 => self.rng.pick(&[-0.0, 1e-30, 100.0, 1e10, f32::MAX, f32::NAN, f32::INFINITY]),
            _ => (self.rng.below(1400) as f32 - 700.0) * 0.01,
        }
    }

    /// The crease angle and its cosine, at times with another cosine.
    pub fn crease(&mut self, shape: &mut Shape) {
        let below = f32::from_bits(PI.to_bits() - 1);
        let angle = match self.rng.below(12) {
            0..=2 => 0.0,
            3 => self.rng.pick(&[-0.0, -1.0, f32::NAN, f32::INFINITY, f32::NEG_INFINITY, f32::MIN]),
            4 => self.rng.pick(&[1e-4, 1e-30, 0.01]),
            5 => self.rng.pick(&[PI, 4.0, f32::MAX, f32::from_bits(PI.to_bits() + 1)]),
            6 => self.rng.pick(&[FRAC_PI_2, below, 3.0]),
            _ => (1 + self.rng.below(313)) as f32 * 0.01,
        };
        shape.crease(angle);
        if self.rng.one_in(20) {
            let other = (1 + self.rng.below(313)) as f32 * 0.01;
            shape.words[1] = self.rng.pick(&[f32::NAN, 2.0, f32::INFINITY, other.cos()]).to_bits();
        }
    }

    /// The eight words of the texture transform.
    pub fn transform(&mut self, shape: &mut Shape) {
        shape.flags[flag::TRANSFORM] = self.rng.one_in(3);
        for k in [4, 5, 8, 9, 10, 11] {
            if self.rng.coin() {
                let taste = if self.rng.one_in(6) { Taste::Odd } else { Taste::Coarse };
                shape.words[k] = self.value(taste).to_bits();
            }
        }
        if self.rng.coin() {
            let angle = self.angle();
            (shape.words[6], shape.words[7]) = self.angles.words(angle);
        }
        if self.rng.one_in(40) {
            let place = self.rng.between(6, 7);
            shape.words[place] = self.rng.pick(&[0x7f80_0000, 0x7fc0_0000]);
        }
    }

    /// The single bits and words that all kinds have.
    pub fn common(&mut self, shape: &mut Shape) {
        for k in [flag::CCW, flag::CONVEX, flag::SOLID, flag::COLOUR_PER_VERTEX, flag::NORMAL_PER_VERTEX] {
            shape.flags[k] = self.rng.coin();
        }
        shape.flags[flag::TEXTURE_WANTED] = self.rng.one_in(3);
        for k in [flag::BEGIN_CAP, flag::END_CAP] {
            shape.flags[k] = !self.rng.one_in(3);
        }
        self.crease(shape);
        self.transform(shape);
    }

    /// An index list of an attribute: mostly none, else whole, short, long or bad.
    fn own_index(&mut self, places: usize, values: usize) -> Vec<i32> {
        let style = self.rng.below(8);
        let n = match style {
            0..=3 => 0,
            4 => self.rng.below(places + 1),
            5 => places + self.rng.below(4),
            _ => places,
        };
        let mut list: Vec<i32> = (0..n.min(LIMIT)).map(|_| self.rng.below(values.max(1)) as i32).collect();
        if style == 7 {
            for _ in 0..self.rng.between(1, 3) {
                if n > 0 {
                    let k = self.rng.below(list.len());
                    list[k] = self.rng.pick(&[-1, -7, i32::MIN, i32::MAX, values as i32, values as i32 + 1]);
                }
            }
        }
        list
    }

    /// How many values a list has for so many things that ask for one.
    fn count(&mut self, wanted: usize) -> usize {
        let n = match self.rng.below(10) {
            0 => 0,
            1 => self.rng.below(wanted + 1),
            2 => wanted + self.rng.below(4),
            3 => self.rng.below(4),
            _ => wanted,
        };
        n.min(LIMIT)
    }

    fn colour_values(&mut self, words: usize) -> Vec<f32> {
        if self.rng.one_in(12) {
            return self.twins(words);
        }
        let odd = self.rng.one_in(12);
        (0..words)
            .map(|_| if odd && self.rng.one_in(6) { self.odd() } else { self.rng.below(3) as f32 * 0.5 })
            .collect()
    }

    /// Supplied normals: axes, lengths around 1, zeros, odd ones.
    fn normal_values(&mut self, n: usize) -> Vec<f32> {
        if self.rng.one_in(12) {
            return self.twins(3 * n);
        }
        let mut list = Vec::with_capacity(3 * n);
        for _ in 0..n {
            let axis = self.rng.below(3);
            let mut v = [0.0f32; 3];
            match self.rng.below(10) {
                0..=3 => v[axis] = self.rng.pick(&[1.0, -1.0]),
                4 => {
                    v[axis] = self.rng.pick(&[1.000_01, 0.999_99, 1.000_011, 0.999_989, 2.0, 1e-19, 1e-21, 1e19, 2e19])
                }
                5 => v = [0.6, 0.0, 0.8],
                6 => v = std::array::from_fn(|_| self.rng.real()),
                7 => v = std::array::from_fn(|_| self.value(Taste::Mixed)),
                8 => v[axis] = self.odd(),
                _ => {}
            }
            list.extend(v);
        }
        list
    }

    /// Colours, normals and texture points of a set or grid. `ask` is how many values a list by
    /// vertex and one by face would have, `places` the length of coordIndex.
    pub fn attributes(&mut self, shape: &mut Shape, ask: [usize; 2], places: usize, faces: usize) {
        for (k, present, by_vertex) in [
            (2, flag::COLOURS, flag::COLOUR_PER_VERTEX),
            (4, flag::NORMALS, flag::NORMAL_PER_VERTEX),
            (6, flag::TEXTURE, usize::MAX),
        ] {
            let chance = if k == 2 { 2 } else { 3 };
            shape.flags[present] = self.rng.one_in(chance);
            if k == 2 {
                shape.flags[flag::ALPHA] = self.rng.one_in(3);
            }
            if !shape.flags[present] && !self.rng.one_in(12) {
                continue;
            }
            let vertex = by_vertex == usize::MAX || shape.flags[by_vertex];
            let n = self.count(ask[if vertex { 0 } else { 1 }]);
            let list = match k {
                2 => self.colour_values(n * shape.width(2)),
                4 => self.normal_values(n),
                _ if self.rng.one_in(12) => self.twins(2 * n),
                _ => {
                    let taste = if self.rng.one_in(8) { Taste::Odd } else { Taste::Coarse };
                    self.values(2 * n, taste)
                }
            };
            shape.set_floats(k, &list);
            if shape.width(k + 1) == 1 && shape.kind < 2 {
                let list = self.own_index(if vertex { places } else { faces }, n);
                shape.set_entries(k + 1, &list);
            }
        }
    }
}
