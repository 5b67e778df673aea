//! A part and its call by docs/FORMAT.md 17, apart from the converter's own code: sizes, pairs, refusals.

use std::f32::consts::{PI, TAU};

pub const POINT_SET: usize = 0;
pub const BOX: usize = 1;
pub const SPHERE: usize = 2;
pub const CYLINDER: usize = 3;
pub const CONE: usize = 4;
pub const KINDS: [&str; 5] = ["PointSet", "box", "sphere", "cylinder", "cone"];

/// The most points of a PointSet (FORMAT 17.10).
pub const POINTS: usize = 8192;

/// What a call is given. What a kind does not take is not looked at.
#[derive(Clone, Debug, Default)]
pub struct Part {
    pub kind: usize,
    /// A box's size; radius and height of a round part.
    pub size: [f32; 3],
    /// Side, top and bottom, as words: 0 is off.
    pub shown: [u32; 3],
    pub slices: u32,
    pub stacks: u32,
    pub texture_wanted: u32,
    /// Eight floats, or fewer for none.
    pub transform: Vec<f32>,
    /// The angle of its rotation, for the reference.
    pub turn: f32,
    pub points: Vec<u32>,
    pub has_colors: u32,
    pub alpha: u32,
    pub colours: Vec<u32>,
    pub pairs: Vec<f32>,
}

#[derive(Clone, Copy, Debug, Default, PartialEq, Eq)]
pub struct Sizes {
    pub vertices: usize,
    pub indices: usize,
    pub pairs: usize,
}

impl Part {
    /// Slices and stacks, held to their ranges (FORMAT 17.2).
    pub fn held(&self) -> (usize, usize) {
        (self.slices.clamp(3, 1024) as usize, self.stacks.clamp(2, 1024) as usize)
    }

    pub fn is_round(&self) -> bool {
        self.kind >= SPHERE
    }

    /// Whether it has floats that are worked out.
    pub fn is_solid(&self) -> bool {
        self.kind != POINT_SET
    }

    pub fn width(&self) -> usize {
        if self.alpha == 0 { 3 } else { 4 }
    }

    pub fn makes_colours(&self) -> bool {
        self.kind == POINT_SET && self.has_colors != 0 && self.colours.len() / self.width() >= self.points.len() / 3
    }

    /// Vertices, indices and pairs (FORMAT 17.3 to 17.9).
    pub fn sizes(&self) -> Sizes {
        let (n, k) = self.held();
        let [side, top, bottom] = self.shown.map(|word| (word != 0) as usize);
        let caps = top + bottom;
        let (vertices, indices, pairs) = match self.kind {
            POINT_SET => (self.points.len() / 3, 0, 0),
            BOX => (24, 36, 0),
            SPHERE => ((k + 1) * (n + 1), 6 * n * (k - 1), (k + 1) * (n + 2)),
            CYLINDER => ((2 * side + caps) * (n + 1), (2 * side + caps) * 3 * n, side * (n + 1) + caps * n),
            _ => (side * 3 * n + bottom * (n + 1), (side + bottom) * 3 * n, (5 * side + bottom) * n),
        };
        Sizes { vertices, indices, pairs }
    }

    /// How many words are made for positions, normals, colours, texture, sources and indices.
    pub fn lengths(&self) -> [usize; 6] {
        let Sizes { vertices, indices, .. } = self.sizes();
        if self.kind == POINT_SET {
            return [3 * vertices, 0, if self.makes_colours() { 4 * vertices } else { 0 }, 0, vertices, 0];
        }
        let texture = if self.texture_wanted == 0 { 0 } else { 2 * vertices };
        [3 * vertices, 3 * vertices, 0, texture, 0, indices]
    }

    /// Which of the six slices the call lends.
    pub fn lends(&self) -> [bool; 6] {
        let points = self.kind == POINT_SET;
        [true, !points, points, !points, points, !points]
    }

    /// The refusal's number, or 0 (FORMAT 17.10).
    pub fn refusal(&self, lent: &[usize; 6]) -> u32 {
        let Sizes { vertices, pairs, .. } = self.sizes();
        if self.kind == POINT_SET && vertices > POINTS {
            return 7;
        }
        if self.is_round() && self.pairs.len() / 2 < pairs {
            return 10;
        }
        if self.lengths().iter().zip(lent).any(|(made, lent)| lent < made) { 8 } else { 0 }
    }

    /// Vertices, indices, solid, unlit and has_colors (FORMAT 17.11).
    pub fn head(&self) -> [u32; 5] {
        let Sizes { vertices, indices, .. } = self.sizes();
        [vertices as u32, indices as u32, 1, (self.kind == POINT_SET) as u32, self.makes_colours() as u32]
    }

    /// The angles of the pairs, in their order (FORMAT 17.3).
    pub fn angles(&self) -> Vec<f32> {
        let (n, k) = self.held();
        let share = |i: usize| i as f32 / n as f32;
        let ring = |count: usize| (0..count).map(move |i| TAU * share(i));
        let [side, top, bottom] = self.shown.map(|word| word != 0);
        let mut angles = Vec::with_capacity(self.sizes().pairs);
        match self.kind {
            SPHERE => (0..=k).for_each(|j| {
                angles.push(PI * (j as f32 / k as f32));
                angles.extend(ring(n + 1));
            }),
            CYLINDER => {
                for (there, count) in [(side, n + 1), (top, n), (bottom, n)] {
                    angles.extend(ring(if there { count } else { 0 }));
                }
            }
            CONE => {
                for i in 0..if side { n } else { 0 } {
                    let (s0, s1) = (share(i), share(i + 1));
                    angles.extend([s0, s1, s0, s1, (s0 + s1) / 2.0].map(|s| TAU * s));
                }
                angles.extend(ring(if bottom { n } else { 0 }));
            }
            _ => {}
        }
        angles
    }

    /// The pairs as the host's functions have them.
    pub fn host_pairs(&self) -> Vec<f32> {
        self.angles().into_iter().flat_map(|angle| [angle.sin(), angle.cos()]).collect()
    }

    /// In a line, without the lists.
    pub fn told(&self) -> String {
        let bits: Vec<String> = self.size.iter().map(|x| format!("{:08x}", x.to_bits())).collect();
        let transform: Vec<String> = self.transform.iter().map(|x| format!("{:08x}", x.to_bits())).collect();
        format!(
            "{} of {bits:?}, shown {:?}, {} slices, {} stacks, texture {}, transform {transform:?}, {} words of points, \
             colours {} with alpha {}, {} words, {} words of pairs",
            KINDS[self.kind],
            self.shown,
            self.slices,
            self.stacks,
            self.texture_wanted,
            self.points.len(),
            self.has_colors,
            self.alpha,
            self.colours.len(),
            self.pairs.len()
        )
    }
}
