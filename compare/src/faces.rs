//! Generated face sets, line sets, and triangle, fan, strip and quad sets.

use crate::format::{FACES, LIMIT, LINES, TRIANGLES, flag, runs};
use crate::maker::{Maker, Taste};
use crate::outlines;
use crate::shape::Shape;

/// Points (flat) and an index list.
struct Soup {
    points: Vec<f32>,
    index: Vec<i32>,
}

impl Soup {
    fn count(&self) -> usize {
        self.points.len() / 3
    }
}

impl Maker {
    /// What ends a run and, at times, what does not: a value below -1.
    fn separator(&mut self) -> i32 {
        match self.rng.below(30) {
            0 => -7,
            1 => i32::MIN,
            2 => -2 - self.rng.below(100_000) as i32,
            _ => -1,
        }
    }

    /// Runs of any entries.
    fn loose(&mut self, points: usize, entries: usize) -> Soup {
        let taste = self.taste();
        let mut index = Vec::with_capacity(entries);
        let often = self.rng.between(3, 7);
        for _ in 0..entries {
            let v = if self.rng.one_in(often) { self.separator() } else { self.rng.below(points.max(1)) as i32 };
            index.push(v);
        }
        Soup { points: self.values(3 * points, taste), index }
    }

    /// Outlines of their own, each a face.
    fn plates(&mut self, faces: usize, corners: usize) -> Soup {
        let mut soup = Soup { points: Vec::new(), index: Vec::new() };
        for _ in 0..faces {
            let outline = outlines::any(&mut self.rng, corners);
            let first = soup.count() as i32;
            soup.points.extend(outlines::placed(&mut self.rng, &outline));
            soup.index.extend((0..outline.len() as i32).map(|k| first + k));
            let end = self.separator();
            soup.index.push(end);
        }
        soup
    }

    /// A hospital block: floor, roof and walls over a footprint.
    fn building(&mut self) -> Soup {
        let plan = outlines::footprint(&mut self.rng);
        let k = plan.len() as i32;
        let high = 1.0 + self.rng.below(4) as f32;
        let mut points = Vec::new();
        for level in [0.0, high] {
            points.extend(plan.iter().flat_map(|p| [p[0], level, -p[1]]));
        }
        let mut index: Vec<i32> = (0..k).rev().chain([-1]).chain(k..2 * k).chain([-1]).collect();
        for a in 0..k {
            let b = (a + 1) % k;
            index.extend([a, b, k + b, k + a, -1]);
        }
        Soup { points, index }
    }

    /// Triangles over a rolling ground, with shared points.
    pub fn ground(&mut self, side: usize, taste: Taste) -> (Vec<f32>, Vec<i32>) {
        let mut points = Vec::new();
        for k in 0..side * side {
            points.extend([(k % side) as f32, self.value(taste), (k / side) as f32]);
        }
        let mut index = Vec::new();
        for j in 0..side - 1 {
            for i in 0..side - 1 {
                let a = (i + j * side) as i32;
                let b = a + side as i32;
                index.extend([a, b, b + 1, -1, a, b + 1, a + 1, -1]);
            }
        }
        (points, index)
    }

    /// Spoils an index list in one of the ways that a scene may have it.
    fn spoil(&mut self, soup: &mut Soup) {
        let n = soup.count() as i32;
        for _ in 0..self.rng.between(1, 3) {
            let k = self.rng.below(soup.index.len() + 1);
            match self.rng.below(6) {
                0 => soup.index.splice(k..k, [-1, -1]).for_each(drop),
                1 => soup.index.splice(k..k, [-1, 0, 1, -1]).for_each(drop),
                2 if k < soup.index.len() => {
                    soup.index[k] = self.rng.pick(&[n, n + 1, i32::MAX, 8192, 65536, -1, -2, i32::MIN]);
                }
                3 => soup.index.truncate(k),
                4 if k < soup.index.len() => soup.index[k] = self.rng.below(n.max(1) as usize) as i32,
                _ => {
                    let end = self.separator();
                    soup.index.splice(k..k, [end]).for_each(drop);
                }
            }
        }
    }

    /// Zeros of either sign as the least coordinates, one axis odd in all points, or odd numbers here and there.
    fn roughen(&mut self, soup: &mut Soup) {
        match self.rng.below(4) {
            0 => self.least_zeros(&mut soup.points),
            1 => {
                let (axis, x) = (self.rng.below(3), self.odd());
                soup.points.iter_mut().skip(axis).step_by(3).for_each(|p| *p = x);
            }
            _ if soup.points.is_empty() => {}
            _ => {
                for _ in 0..self.rng.between(1, 4) {
                    let k = self.rng.below(soup.points.len());
                    soup.points[k] = self.odd();
                }
            }
        }
    }

    fn soup(&mut self, size: usize) -> Soup {
        let mut soup = match self.rng.below(8) {
            0..=2 => {
                let (points, entries) = (self.rng.below(size + 1), self.rng.below(4 * size + 1));
                self.loose(points, entries)
            }
            3 | 4 => {
                let (faces, corners) = (self.rng.between(1, 3), self.rng.between(3, size.max(4)));
                self.plates(faces, corners)
            }
            5 => self.building(),
            6 => {
                let taste = self.taste();
                let side = ((size as f32).sqrt() as usize).max(2);
                let (points, index) = self.ground(side, taste);
                Soup { points, index }
            }
            _ => {
                let points = self.rng.between(1, 5);
                self.loose(points, 3 * size)
            }
        };
        if self.rng.one_in(3) {
            self.spoil(&mut soup);
        }
        if self.rng.one_in(6) {
            self.roughen(&mut soup);
        }
        if self.rng.one_in(300) {
            let empty = self.rng.between(1000, 4000);
            let k = self.rng.below(soup.index.len() + 1);
            soup.index.splice(k..k, vec![-1; empty]).for_each(drop);
        }
        soup.points.truncate(3 * LIMIT);
        soup.index.truncate(LIMIT);
        soup
    }

    fn indexed(&mut self, kind: u32, size: usize) -> Shape {
        let soup = self.soup(size);
        let mut shape = Shape::new(kind);
        self.common(&mut shape);
        let faces = runs(&soup.index).len();
        let ask = [soup.count(), faces];
        self.attributes(&mut shape, ask, soup.index.len(), faces);
        shape.set_floats(0, &soup.points);
        shape.set_entries(1, &soup.index);
        shape
    }

    pub fn face_set(&mut self, size: usize) -> Shape {
        self.indexed(FACES, size)
    }

    pub fn line_set(&mut self, size: usize) -> Shape {
        self.indexed(LINES, size)
    }

    /// A ribbon: points in two rows, and an index list that goes along it, with entries that name no point here and there.
    fn ribbon(&mut self, entries: usize) -> Soup {
        let taste = self.taste();
        let mut points = Vec::new();
        for k in 0..entries.max(3) {
            points.extend([(k / 2) as f32, self.value(taste), (k % 2) as f32]);
        }
        let mut index: Vec<i32> = (0..entries as i32).collect();
        for _ in 0..self.rng.below(4) {
            if entries > 0 {
                let k = self.rng.below(entries);
                index[k] = self.rng.pick(&[entries as i32 + 3, i32::MAX, -1, -7, i32::MIN, 0, 1]);
            }
        }
        Soup { points, index }
    }

    /// A triangle, fan, strip or quad set. Its attributes are per vertex and have no index; a few are refused for that.
    pub fn primitive_set(&mut self, size: usize) -> Shape {
        let kind = TRIANGLES + self.rng.below(4) as u32;
        let soup = match self.rng.below(4) {
            0 => self.soup(size),
            1 => {
                let entries = self.rng.below(6 * size + 1);
                self.loose(size, entries)
            }
            _ => {
                let entries = self.rng.below(3 * size + 3);
                self.ribbon(entries)
            }
        };
        let mut shape = Shape::new(kind);
        self.common(&mut shape);
        for k in [flag::COLOUR_PER_VERTEX, flag::NORMAL_PER_VERTEX] {
            shape.flags[k] = !self.rng.one_in(40);
        }
        self.attributes(&mut shape, [soup.count(); 2], 0, 0);
        shape.set_floats(0, &soup.points[..soup.points.len().min(3 * LIMIT)]);
        shape.set_entries(1, &soup.index[..soup.index.len().min(LIMIT)]);
        if self.rng.one_in(30) {
            let k = self.rng.pick(&[3, 5, 7]);
            shape.set_entries(k, &[0]);
        }
        shape
    }

    /// One face of many corners.
    pub fn great_face(&mut self, corners: usize, points: usize, convex: bool) -> Shape {
        let mut shape = Shape::new(FACES);
        shape.flags[flag::CONVEX] = convex;
        let outline = outlines::circle(points);
        shape.set_floats(0, &outlines::placed(&mut self.rng, &outline));
        let index: Vec<i32> = (0..corners).map(|k| (k % points) as i32).collect();
        shape.set_entries(1, &index);
        shape
    }
}
