//! The block as docs/FORMAT.md has it: header, lists, refusals and sizes. Written from that page alone.

pub const LIMIT: usize = 8192;
pub const FACES: u32 = 0;
pub const LINES: u32 = 1;
pub const GRID: u32 = 2;
pub const EXTRUSION: u32 = 3;
pub const TRIANGLES: u32 = 4;
pub const FANS: u32 = 5;
pub const STRIPS: u32 = 6;
pub const QUADS: u32 = 7;

/// Places of the thirteen flags of the header (FORMAT 2.2).
pub mod flag {
    pub const CCW: usize = 0;
    pub const CONVEX: usize = 1;
    pub const SOLID: usize = 2;
    pub const COLOUR_PER_VERTEX: usize = 3;
    pub const NORMAL_PER_VERTEX: usize = 4;
    pub const TEXTURE_WANTED: usize = 5;
    pub const TRANSFORM: usize = 6;
    pub const COLOURS: usize = 7;
    pub const ALPHA: usize = 8;
    pub const NORMALS: usize = 9;
    pub const TEXTURE: usize = 10;
    pub const BEGIN_CAP: usize = 11;
    pub const END_CAP: usize = 12;
}

/// A block that passed refusals 1 to 5 and 9.
pub struct Block<'a> {
    bytes: &'a [u8],
    pub kind: u32,
    pub flags: [bool; 13],
    pub counts: [usize; 8],
}

/// Points, corners and indices (FORMAT 1).
#[derive(Clone, Copy, Debug, PartialEq, Eq)]
pub struct Sizes {
    pub points: usize,
    pub corners: usize,
    pub indices: usize,
}

fn bits(bytes: &[u8], at: usize, n: usize) -> u32 {
    (at..at + n).fold(0, |sum, k| sum << 1 | (bytes[k / 8] >> (7 - k % 8) & 1) as u32)
}

/// Words of an entry of each list (FORMAT 2.4).
pub fn widths(kind: u32, alpha: bool) -> [usize; 8] {
    let colour = if alpha { 4 } else { 3 };
    match kind {
        GRID => [0, 0, colour, 1, 3, 0, 2, 0],
        EXTRUSION => [3, 2, 2, 5, 0, 0, 0, 0],
        _ => [3, 1, colour, 1, 3, 1, 2, 1],
    }
}

impl<'a> Block<'a> {
    /// Refusals 1 to 5 and 9.
    pub fn read(bytes: &'a [u8]) -> Result<Self, u32> {
        if bytes.len() < 20 {
            return Err(1);
        }
        if bits(bytes, 0, 4) != 1 {
            return Err(2);
        }
        let kind = bits(bytes, 4, 3);
        if bits(bytes, 132, 28) != 0 {
            return Err(3);
        }
        let flags = std::array::from_fn(|k| bits(bytes, 7 + k, 1) == 1);
        let counts: [usize; 8] = std::array::from_fn(|k| bits(bytes, 20 + 14 * k, 14) as usize);
        if counts.iter().any(|&n| n > LIMIT) {
            return Err(4);
        }
        let block = Self { bytes, kind, flags, counts };
        if bytes.len() != 4 * block.start(8) {
            return Err(5);
        }
        if block.is_primitives() && !block.by_point() {
            return Err(9);
        }
        Ok(block)
    }

    /// Whether it is a triangle, fan, strip or quad set.
    pub fn is_primitives(&self) -> bool {
        self.kind >= TRIANGLES
    }

    /// Whether it has faces over listed points: a face set, or one of the sets that list as one (FORMAT 6.4).
    pub fn is_face_set(&self) -> bool {
        self.kind == FACES || self.is_primitives()
    }

    /// Whether each attribute is read at the point's number (FORMAT 3, 9).
    fn by_point(&self) -> bool {
        self.flag(flag::COLOUR_PER_VERTEX)
            && self.flag(flag::NORMAL_PER_VERTEX)
            && [3, 5, 7].iter().all(|&k| self.counts[k] == 0)
    }

    /// coordIndex of the face set: the block's own, or the list that has the primitives one by one (FORMAT 6.4).
    pub fn coord_index(&self) -> Vec<i32> {
        let entries = self.entries(1);
        if self.is_primitives() { listing(self.kind, self.counts[0], &entries) } else { entries }
    }

    /// The words before list k.
    fn start(&self, k: usize) -> usize {
        let widths = widths(self.kind, self.flags[flag::ALPHA]);
        17 + (0..k).map(|i| widths[i] * self.counts[i]).sum::<usize>()
    }

    fn word_at(&self, place: usize) -> u32 {
        u32::from_be_bytes(self.bytes[4 * place..4 * place + 4].try_into().unwrap())
    }

    /// One of the twelve words (FORMAT 2.3), as it stands there.
    pub fn word(&self, k: usize) -> u32 {
        self.word_at(5 + k)
    }

    /// The words of list k.
    pub fn list(&self, k: usize) -> Vec<u32> {
        (self.start(k)..self.start(k + 1)).map(|p| self.word_at(p)).collect()
    }

    pub fn floats(&self, k: usize) -> Vec<f32> {
        self.list(k).into_iter().map(f32::from_bits).collect()
    }

    pub fn entries(&self, k: usize) -> Vec<i32> {
        self.list(k).into_iter().map(|w| w as i32).collect()
    }

    /// The colours, each with its alpha (FORMAT 7.2); none where they are absent or the kind has none.
    pub fn colours(&self) -> Vec<[u32; 4]> {
        if !self.makes_colours() {
            return Vec::new();
        }
        let width = if self.flag(flag::ALPHA) { 4 } else { 3 };
        let alpha = |c: &[u32]| c.get(3).copied().unwrap_or(0x3f80_0000);
        self.list(2).chunks(width).map(|c| [c[0], c[1], c[2], alpha(c)]).collect()
    }

    pub fn flag(&self, which: usize) -> bool {
        self.flags[which]
    }

    /// Whether the mesh has texture (FORMAT 5).
    pub fn makes_texture(&self) -> bool {
        match self.kind {
            LINES => false,
            EXTRUSION => self.flag(flag::TEXTURE_WANTED),
            _ => self.flag(flag::TEXTURE_WANTED) || self.flag(flag::TEXTURE),
        }
    }

    /// Whether the mesh has colours (FORMAT 5).
    pub fn makes_colours(&self) -> bool {
        self.kind != EXTRUSION && self.flag(flag::COLOURS)
    }

    /// Whether the block supplies the normals (FORMAT 8.1).
    pub fn supplies_normals(&self) -> bool {
        (self.is_face_set() || self.kind == GRID) && self.flag(flag::NORMALS)
    }

    /// Refusals 6 and 7 (FORMAT 3, 4).
    pub fn sizes(&self) -> Result<Sizes, u32> {
        let sizes = match self.kind {
            FACES | TRIANGLES..=QUADS => self.face_sizes(),
            LINES => self.line_sizes(),
            GRID => self.grid_sizes()?,
            _ => self.extrusion_sizes()?,
        };
        if sizes.points > LIMIT || sizes.corners > LIMIT {
            return Err(7);
        }
        Ok(sizes)
    }

    /// Whether a list of runs has a value below -1: a point that is not there (FORMAT 6.1).
    pub fn has_below(&self) -> bool {
        !matches!(self.kind, GRID | EXTRUSION | TRIANGLES | QUADS) && self.entries(1).iter().any(|&v| v < -1)
    }

    /// Whether the cross-section of an extrusion closes (FORMAT 8.4).
    fn closes(&self) -> bool {
        let (m, section) = (self.counts[1], self.floats(1));
        m > 2 && section[..2] == section[2 * m - 2..]
    }

    /// Whether the first and the last column of an extrusion are one point to generated normals: its cross-section closes,
    /// and the crease angle as read is above 0 (FORMAT 10.2).
    pub fn joins_columns(&self) -> bool {
        let crease = f32::from_bits(self.word(0));
        self.kind == EXTRUSION && crease.is_finite() && crease > 0.0 && self.closes()
    }

    fn face_sizes(&self) -> Sizes {
        let (mut corners, mut indices) = (0, 0);
        for run in runs(&self.coord_index()) {
            if run.len() >= 3 && run.iter().all(|&v| (v as usize) < self.counts[0]) {
                corners += run.len();
                indices += 3 * (run.len() - 2);
            }
        }
        Sizes { points: self.counts[0], corners, indices }
    }

    fn line_sizes(&self) -> Sizes {
        let named = |v: i32| v >= 0 && (v as usize) < self.counts[0];
        let entries = self.entries(1);
        Sizes {
            points: self.counts[0],
            corners: entries.iter().filter(|&&v| named(v)).count(),
            indices: 2 * entries.windows(2).filter(|w| named(w[0]) && named(w[1])).count(),
        }
    }

    fn grid_sizes(&self) -> Result<Sizes, u32> {
        let (x, z) = (self.counts[0], self.counts[1]);
        if x < 2 || z < 2 || self.counts[3] < x * z {
            return Err(6);
        }
        let quads = (x - 1) * (z - 1);
        Ok(Sizes { points: x * z, corners: 4 * quads, indices: 6 * quads })
    }

    /// Corners of a cap: the cross-section of 2 points or more without its closing point (FORMAT 8.4).
    pub fn cap(&self) -> usize {
        let m = self.counts[1];
        if self.closes() { m - 1 } else { m }
    }

    fn extrusion_sizes(&self) -> Result<Sizes, u32> {
        let (n, m) = (self.counts[0], self.counts[1]);
        if n < 2 || m < 2 {
            return Err(6);
        }
        let cap = self.cap();
        let caps = [flag::BEGIN_CAP, flag::END_CAP].iter().filter(|&&k| self.flag(k)).count();
        let caps = if cap >= 3 { caps } else { 0 };
        let quads = (n - 1) * (m - 1);
        Ok(Sizes {
            points: n * m,
            corners: 4 * quads + caps * cap,
            indices: 6 * quads + caps * 3 * cap.saturating_sub(2),
        })
    }
}

/// Runs of an index list (FORMAT 6.1): -1 ends one.
pub fn runs(entries: &[i32]) -> Vec<&[i32]> {
    let mut all: Vec<&[i32]> = entries.split(|&v| v == -1).collect();
    if all.last().is_some_and(|run| run.is_empty()) {
        all.pop();
    }
    all
}

/// Where the corners of primitive k stand in its stretch, and how many a stretch of n entries has (FORMAT 6.4).
fn places(kind: u32, n: usize) -> Vec<Vec<usize>> {
    match kind {
        TRIANGLES => (0..n / 3).map(|k| (3 * k..3 * k + 3).collect()).collect(),
        QUADS => (0..n / 4).map(|k| (4 * k..4 * k + 4).collect()).collect(),
        FANS => (2..n).map(|k| vec![0, k - 1, k]).collect(),
        _ => (2..n).map(|k| if k % 2 == 0 { vec![k - 2, k - 1, k] } else { vec![k - 1, k - 2, k] }).collect(),
    }
}

/// The index list of the face set that has the primitives one by one, without those that name a point that is not there.
fn listing(kind: u32, points: usize, entries: &[i32]) -> Vec<i32> {
    let stretches = if kind == FANS || kind == STRIPS { runs(entries) } else { vec![entries] };
    let mut list = Vec::new();
    for stretch in stretches {
        for places in places(kind, stretch.len()) {
            let face: Vec<i32> = places.into_iter().map(|k| stretch[k]).collect();
            if face.iter().all(|&v| v >= 0 && (v as usize) < points) {
                list.extend(face.into_iter().chain([-1]));
            }
        }
    }
    list
}

/// The lengths asked for (FORMAT 4): positions, normals, colours, texture, sources, indices, both working slices.
pub fn lengths(s: Sizes) -> [usize; 8] {
    let working = 8 * (s.corners + s.points) + 8;
    [3 * s.corners, 3 * s.corners, 4 * s.corners, 2 * s.corners, s.corners, s.indices, working, working]
}

/// The refusal of a block and lent lengths, or the block and its sizes.
pub fn accept<'a>(bytes: &'a [u8], lent: &[usize; 8]) -> Result<(Block<'a>, Sizes), u32> {
    let block = Block::read(bytes)?;
    let sizes = block.sizes()?;
    if lent.iter().zip(lengths(sizes)).any(|(&have, ask)| have < ask) {
        return Err(8);
    }
    Ok((block, sizes))
}
