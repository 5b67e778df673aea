//! Generated elevation grids and extrusions.

use crate::format::{EXTRUSION, GRID, LIMIT};
use crate::maker::{Maker, Taste};
use crate::outlines;
use crate::shape::Shape;

impl Maker {
    pub fn grid(&mut self, size: usize) -> Shape {
        let x = self.rng.between(2, size);
        let z = self.rng.between(2, size);
        self.grid_of(x, z)
    }

    pub fn grid_of(&mut self, x: usize, z: usize) -> Shape {
        let taste = self.taste();
        let mut shape = Shape::new(GRID);
        self.common(&mut shape);
        let quads = x.saturating_sub(1) * z.saturating_sub(1);
        self.attributes(&mut shape, [x * z, quads], 0, 0);
        shape.counts[0] = x;
        shape.counts[1] = z;
        let extra = if self.rng.one_in(8) { self.rng.below(4) } else { 0 };
        let heights = self.values((x * z + extra).min(LIMIT), taste);
        shape.set_floats(3, &heights);
        for k in [2, 3] {
            let taste = if self.rng.one_in(6) { Taste::Odd } else { Taste::Coarse };
            shape.words[k] = self.value(taste).to_bits();
        }
        // Lists without words carry any count.
        if self.rng.one_in(10) {
            shape.counts[5] = self.rng.below(LIMIT + 1);
            shape.counts[7] = self.rng.below(LIMIT + 1);
        }
        shape
    }

    /// A line through space: straight, bent, closed, with points that coincide.
    fn spine(&mut self, n: usize) -> Vec<[f32; 3]> {
        let taste = self.taste();
        let mut list: Vec<[f32; 3]> = match self.rng.below(7) {
            0 => {
                let step: [f32; 3] = std::array::from_fn(|_| self.value(taste));
                (0..n).map(|k| step.map(|d| d * k as f32)).collect()
            }
            1 => (0..n).map(|k| [0.0, k as f32, 0.0]).collect(),
            2 => (0..n).map(|k| [0.0, -(k as f32), 0.0]).collect(),
            3 => {
                let circle = outlines::circle(n);
                (0..n).map(|k| [circle[k][0], 0.1 * k as f32, circle[k][1]]).collect()
            }
            4 => {
                let circle = outlines::circle(n.max(2) - 1);
                (0..n).map(|k| circle[k % circle.len()]).map(|[a, b]| [a, 0.0, b]).collect()
            }
            _ => (0..n).map(|_| std::array::from_fn(|_| self.value(taste))).collect(),
        };
        if self.rng.one_in(4) {
            let k = self.rng.below(n);
            list[k] = list[self.rng.below(n)];
        }
        if self.rng.one_in(6) {
            list[n - 1] = list[0];
        }
        if self.rng.one_in(12) {
            let k = self.rng.below(n);
            list[k][self.rng.below(3)] = self.odd();
        }
        list
    }

    fn section(&mut self, m: usize) -> Vec<[f32; 2]> {
        let taste = self.taste();
        let mut list = match self.rng.below(4) {
            0 => (0..m).map(|_| std::array::from_fn(|_| self.value(taste))).collect(),
            1 => vec![[1.0, 1.0], [1.0, -1.0], [-1.0, -1.0], [-1.0, 1.0], [1.0, 1.0]],
            _ => outlines::any(&mut self.rng, m),
        };
        list.truncate(m);
        while list.len() < m {
            list.push([self.value(taste), self.value(taste)]);
        }
        if self.rng.coin() {
            list[m - 1] = list[0];
            let k = self.rng.below(2);
            match self.rng.below(16) {
                // Zeros of either sign are equal, a NaN is not itself, and numbers next to each other are not equal.
                0 | 1 => {
                    list[0][k] = 0.0;
                    list[m - 1][k] = -0.0;
                }
                2 => {
                    list[0][k] = f32::NAN;
                    list[m - 1][k] = f32::NAN;
                }
                3 => list[m - 1][k] = f32::from_bits(list[0][k].to_bits() ^ 1),
                _ => {}
            }
        }
        match self.rng.below(16) {
            0 => {
                let k = self.rng.below(m);
                list[k][self.rng.below(2)] = self.odd();
            }
            1 => self.least_zeros(list.as_flattened_mut()),
            _ => {}
        }
        list
    }

    /// How long a list of scales or orientations is.
    fn along(&mut self, n: usize) -> usize {
        match self.rng.below(6) {
            0 => 0,
            1 => 1,
            2 => self.rng.below(n + 1),
            3 => n + self.rng.below(3),
            _ => n,
        }
    }

    fn orientation(&mut self) -> Vec<u32> {
        let axis: [f32; 3] = match self.rng.below(6) {
            0 => [0.0, 1.0, 0.0],
            1 => [0.0, 0.0, 1.0],
            2 => [0.0; 3],
            3 => std::array::from_fn(|_| self.value(Taste::Mixed)),
            _ => std::array::from_fn(|_| self.rng.real()),
        };
        let angle = self.angle();
        let (sine, cosine) = self.angles.words(angle * 0.5);
        let mut words: Vec<u32> = axis.iter().map(|x| x.to_bits()).collect();
        words.extend([sine, cosine]);
        if self.rng.one_in(30) {
            let place = self.rng.between(3, 4);
            words[place] = self.rng.pick(&[0x7f80_0000, 0xff80_0000, 0x7fc0_0000]);
        }
        words
    }

    pub fn extrusion(&mut self, size: usize) -> Shape {
        let n = self.rng.between(2, size);
        let m = self.rng.between(2, size);
        self.extrusion_of(n, m)
    }

    pub fn extrusion_of(&mut self, n: usize, m: usize) -> Shape {
        let mut shape = Shape::new(EXTRUSION);
        self.common(&mut shape);
        let spine = self.spine(n);
        let section = self.section(m);
        shape.set_floats(0, spine.as_flattened());
        shape.set_floats(1, section.as_flattened());
        let k = self.along(n);
        let taste = if self.rng.one_in(6) { Taste::Mixed } else { Taste::Coarse };
        let scales = self.values(2 * k, taste);
        shape.set_floats(2, &scales);
        let k = self.along(n);
        let turns = (0..k).flat_map(|_| self.orientation()).collect();
        shape.set(3, turns);
        if self.rng.one_in(10) {
            for k in 4..8 {
                shape.counts[k] = self.rng.below(LIMIT + 1);
            }
        }
        // Bits of attributes that an extrusion does not have.
        for k in 7..11 {
            shape.flags[k] = self.rng.one_in(4);
        }
        shape
    }
}
