//! The converter for Rust (docs/FORMAT.md 15; tried with rustc 1.95, in every edition): link target/staticlib/libhost.a, on x86-64 Linux.
//! hosts/example.rs is a program that calls it. Borrows keep the slices apart; what hosts/sitemesh.h says of floats,
//! stack and threads holds here too.
#![allow(dead_code)] // a program need not use all of it

/// Lengths that serve every block; hosts/sitemesh.h says how they come about.
pub const MOST_POSITIONS: usize = 3 * 8192;
pub const MOST_NORMALS: usize = 3 * 8192;
pub const MOST_COLOURS: usize = 4 * 8192;
pub const MOST_TEXTURES: usize = 2 * 8192;
pub const MOST_SOURCES: usize = 8192;
pub const MOST_INDICES: usize = 3 * (8192 - 2);
pub const MOST_WORDS: usize = 8 * (8192 + 8192) + 8;
pub const MOST_FLOATS: usize = 8 * (8192 + 8192) + 8;
pub const MOST_BLOCK: usize = 68 + 4 * 16 * 8192;

/// Why a block (docs/FORMAT.md 3) or a part (17.10) is refused.
#[derive(Clone, Copy, Debug, PartialEq, Eq)]
pub enum Refusal {
    Stub = 1,
    Edition = 2,
    ZeroBits = 3,
    ListLimit = 4,
    Length = 5,
    NoShape = 6,
    Corners = 7,
    Buffer = 8,
    Attributes = 9,
    Pairs = 10,
}

impl Refusal {
    fn of(number: u32) -> Self {
        match number {
            1 => Self::Stub,
            2 => Self::Edition,
            3 => Self::ZeroBits,
            4 => Self::ListLimit,
            5 => Self::Length,
            6 => Self::NoShape,
            7 => Self::Corners,
            8 => Self::Buffer,
            9 => Self::Attributes,
            10 => Self::Pairs,
            _ => unreachable!("the converter answers 0 to 10"),
        }
    }
}

/// A colour: red, green, blue and alpha, each the bits of an f32; they are copied as they are, those of a NaN too.
#[repr(C)]
#[derive(Clone, Copy, Debug, PartialEq, Eq)]
pub struct Colour {
    pub r: u32,
    pub g: u32,
    pub b: u32,
    pub a: u32,
}

/// What terminals pass, (0.8, 0.8, 0.8, 1) (docs/FORMAT.md 7.2). No colour is passed by itself.
pub const GREY: Colour = Colour { r: 0x3f4c_cccd, g: 0x3f4c_cccd, b: 0x3f4c_cccd, a: 0x3f80_0000 };
/// The survey desk's, (1, 1, 1, 1).
pub const WHITE: Colour = Colour { r: 0x3f80_0000, g: 0x3f80_0000, b: 0x3f80_0000, a: 0x3f80_0000 };

/// What the caller chooses: the colour where a block has colours and a corner's is missing.
#[repr(C)]
#[derive(Clone, Copy, Debug, PartialEq, Eq)]
pub struct Call {
    pub colour: Colour,
}

/// The slices that a call is lent; docs/FORMAT.md 4 has the lengths asked for.
pub struct Lent<'a> {
    pub positions: &'a mut [f32],
    pub normals: &'a mut [f32],
    pub colours: &'a mut [f32],
    pub textures: &'a mut [f32],
    pub sources: &'a mut [u32],
    pub indices: &'a mut [u32],
    pub words: &'a mut [u32],
    pub floats: &'a mut [f32],
}

/// What was made, from the start of each slice.
#[derive(Debug, PartialEq)]
pub struct Mesh {
    pub vertices: usize,
    pub indices: usize,
    pub solid: bool,
    pub unlit: bool,
    pub has_colors: bool,
}

/// Sine and cosine of an angle.
#[repr(C)]
#[derive(Clone, Copy, Debug, PartialEq)]
pub struct SinCos {
    pub sin: f32,
    pub cos: f32,
}

// A slice is handed over as a pointer and a length, two arguments each.
unsafe extern "C" {
    fn sitemesh_convert(
        call: Call,
        block: *const u8, block_length: usize,
        positions: *mut f32, positions_length: usize,
        normals: *mut f32, normals_length: usize,
        colours: *mut f32, colours_length: usize,
        textures: *mut f32, textures_length: usize,
        sources: *mut u32, sources_length: usize,
        indices: *mut u32, indices_length: usize,
        words: *mut u32, words_length: usize,
        floats: *mut f32, floats_length: usize,
        result: *mut usize, result_length: usize,
    ) -> u32;
    fn sitemesh_sin_cos(angle: f32) -> SinCos;
    fn sitemesh_point_set(
        points: *const f32, points_length: usize,
        has_colors: u32, alpha: u32,
        listed: *const f32, listed_length: usize,
        positions: *mut f32, positions_length: usize,
        colours: *mut f32, colours_length: usize,
        sources: *mut u32, sources_length: usize,
        result: *mut usize, result_length: usize,
    ) -> u32;
    fn sitemesh_box(
        x: f32, y: f32, z: f32,
        need_uvs: u32, transform: *const f32, transform_length: usize,
        positions: *mut f32, positions_length: usize,
        normals: *mut f32, normals_length: usize,
        textures: *mut f32, textures_length: usize,
        indices: *mut u32, indices_length: usize,
        result: *mut usize, result_length: usize,
    ) -> u32;
    fn sitemesh_sphere(
        radius: f32, slices: u32, stacks: u32,
        need_uvs: u32, transform: *const f32, transform_length: usize,
        pairs: *const f32, pairs_length: usize,
        positions: *mut f32, positions_length: usize,
        normals: *mut f32, normals_length: usize,
        textures: *mut f32, textures_length: usize,
        indices: *mut u32, indices_length: usize,
        result: *mut usize, result_length: usize,
    ) -> u32;
    fn sitemesh_cylinder(
        radius: f32, height: f32, side: u32, top: u32, bottom: u32, slices: u32,
        need_uvs: u32, transform: *const f32, transform_length: usize,
        pairs: *const f32, pairs_length: usize,
        positions: *mut f32, positions_length: usize,
        normals: *mut f32, normals_length: usize,
        textures: *mut f32, textures_length: usize,
        indices: *mut u32, indices_length: usize,
        result: *mut usize, result_length: usize,
    ) -> u32;
    fn sitemesh_cone(
        bottom_radius: f32, height: f32, side: u32, bottom: u32, slices: u32,
        need_uvs: u32, transform: *const f32, transform_length: usize,
        pairs: *const f32, pairs_length: usize,
        positions: *mut f32, positions_length: usize,
        normals: *mut f32, normals_length: usize,
        textures: *mut f32, textures_length: usize,
        indices: *mut u32, indices_length: usize,
        result: *mut usize, result_length: usize,
    ) -> u32;
}

/// What a call returned: the mesh, or the refusal.
fn answer(number: u32, result: [usize; 5]) -> Result<Mesh, Refusal> {
    if number != 0 {
        return Err(Refusal::of(number));
    }
    let [vertices, indices, solid, unlit, has_colors] = result;
    Ok(Mesh { vertices, indices, solid: solid != 0, unlit: unlit != 0, has_colors: has_colors != 0 })
}

/// Converts a block into the lent slices, or says why it is refused and leaves every lent element as it was.
pub fn convert(call: Call, block: &[u8], lent: Lent) -> Result<Mesh, Refusal> {
    let mut result = [0usize; 5];
    // SAFETY: the slices are of distinct borrows, so none overlaps another or the block.
    let number = unsafe {
        sitemesh_convert(
            call,
            block.as_ptr(), block.len(),
            lent.positions.as_mut_ptr(), lent.positions.len(),
            lent.normals.as_mut_ptr(), lent.normals.len(),
            lent.colours.as_mut_ptr(), lent.colours.len(),
            lent.textures.as_mut_ptr(), lent.textures.len(),
            lent.sources.as_mut_ptr(), lent.sources.len(),
            lent.indices.as_mut_ptr(), lent.indices.len(),
            lent.words.as_mut_ptr(), lent.words.len(),
            lent.floats.as_mut_ptr(), lent.floats.len(),
            result.as_mut_ptr(), result.len(),
        )
    };
    answer(number, result)
}

/// Sine and cosine of an angle in radians, from a table (docs/FORMAT.md 16): the same bits on every machine, within 2^-20 where
/// the angle is at most 1024 in size; any other angle, an infinite one and a NaN give 0 and 1.
pub fn sin_cos(angle: f32) -> SinCos {
    // SAFETY: a number goes in and two come out.
    unsafe { sitemesh_sin_cos(angle) }
}

/// Word 1 of the twelve (docs/FORMAT.md 2.3): the cosine of the crease angle.
pub fn crease_cosine(angle: f32) -> f32 {
    sin_cos(angle).cos
}

/// Words 6 and 7 of the twelve (docs/FORMAT.md 2.3): sine and cosine of a texture's rotation.
pub fn texture_rotation(angle: f32) -> [f32; 2] {
    let r = sin_cos(angle);
    [r.sin, r.cos]
}

/// An orientation of an extrusion (docs/FORMAT.md 2.4): the axis, then sine and cosine of half the angle.
pub fn orientation(axis: [f32; 3], angle: f32) -> [f32; 5] {
    let r = sin_cos(angle / 2.0);
    [axis[0], axis[1], axis[2], r.sin, r.cos]
}

// Parts (docs/FORMAT.md 17): PointSet, Box, Sphere, Cylinder and Cone of VRML97. What hosts/sitemesh.h says of them holds here too.

/// How many vertices and indices a part has, and how many pairs it takes, two f32 each.
#[derive(Clone, Copy, Debug, PartialEq, Eq)]
pub struct Sizes {
    pub vertices: usize,
    pub indices: usize,
    pub pairs: usize,
}

/// Those of a box.
pub const BOX: Sizes = Sizes { vertices: 24, indices: 36, pairs: 0 };

/// Whether texture is wanted, and the transform: centre s and t, sine and cosine of the rotation, scale s and t, translation s and t.
#[derive(Clone, Copy, Debug)]
pub struct Texture {
    pub need_uvs: bool,
    pub transform: Option<[f32; 8]>,
}

/// No texture is made.
pub const NO_TEXTURE: Texture = Texture { need_uvs: false, transform: None };

/// The slices that a part is lent: 3, 3 and, where texture is wanted, 2 elements for each vertex, and the indices.
pub struct LentPart<'a> {
    pub positions: &'a mut [f32],
    pub normals: &'a mut [f32],
    pub textures: &'a mut [f32],
    pub indices: &'a mut [u32],
}

/// The slices that a PointSet is lent: 3 elements for each point, 4 where colours are made, and 1.
pub struct LentPoints<'a> {
    pub positions: &'a mut [f32],
    pub colours: &'a mut [f32],
    pub sources: &'a mut [u32],
}

/// The colours of a PointSet, of four f32 with alpha, else three. Too few for the points, and none are made.
#[derive(Clone, Copy, Debug)]
pub struct Colors<'a> {
    pub values: &'a [f32],
    pub alpha: bool,
}

/// The full points, at most 8,192 of them, as they are.
pub fn point_set(points: &[f32], colors: Option<Colors>, lent: LentPoints) -> Result<Mesh, Refusal> {
    let listed = colors.map_or(&[][..], |c| c.values);
    let mut result = [0usize; 5];
    // SAFETY: the slices are of distinct borrows, so none that is written overlaps another.
    let number = unsafe {
        sitemesh_point_set(
            points.as_ptr(), points.len(),
            colors.is_some() as u32, colors.is_some_and(|c| c.alpha) as u32,
            listed.as_ptr(), listed.len(),
            lent.positions.as_mut_ptr(), lent.positions.len(),
            lent.colours.as_mut_ptr(), lent.colours.len(),
            lent.sources.as_mut_ptr(), lent.sources.len(),
            result.as_mut_ptr(), result.len(),
        )
    };
    answer(number, result)
}

/// A box of these sides.
pub fn box_prim(size: [f32; 3], texture: Texture, lent: LentPart) -> Result<Mesh, Refusal> {
    let transform = texture.transform.as_ref().map_or(&[][..], |t| t);
    let mut result = [0usize; 5];
    // SAFETY: as in point_set.
    let number = unsafe {
        sitemesh_box(
            size[0], size[1], size[2],
            texture.need_uvs as u32, transform.as_ptr(), transform.len(),
            lent.positions.as_mut_ptr(), lent.positions.len(),
            lent.normals.as_mut_ptr(), lent.normals.len(),
            lent.textures.as_mut_ptr(), lent.textures.len(),
            lent.indices.as_mut_ptr(), lent.indices.len(),
            result.as_mut_ptr(), result.len(),
        )
    };
    answer(number, result)
}

/// Slices are held to 3 to 1,024, stacks to 2 to 1,024.
fn held(n: u32, least: u32) -> u32 {
    n.clamp(least, 1024)
}

/// Puts pairs one behind the other, as far as the list goes, and counts them.
struct Filling<'a, F> {
    pairs: &'a mut [f32],
    count: usize,
    sin_cos: F,
}

impl<F: FnMut(f32) -> SinCos> Filling<'_, F> {
    fn put(&mut self, angle: f32) {
        if let Some(pair) = self.pairs.get_mut(2 * self.count..2 * self.count + 2) {
            let r = (self.sin_cos)(angle);
            pair.copy_from_slice(&[r.sin, r.cos]);
        }
        self.count += 1;
    }

    /// The place of a circle at this part of a turn.
    fn ring(&mut self, s: f32) {
        self.put(std::f32::consts::TAU * s);
    }

    /// So many places of a circle of n slices.
    fn rings(&mut self, places: u32, n: u32) {
        for i in 0..places {
            self.ring(i as f32 / n as f32);
        }
    }
}

/// A sphere. Of each round part: `sizes` has how much to lend; `fill` puts its pairs in their order (docs/FORMAT.md 17.3) and
/// returns how many it takes, by `sin_cos`, the same on every machine, or by f32's own, with which the mesh is the
/// reference's on that host, bit for bit; `convert` makes the mesh.
#[derive(Clone, Copy, Debug)]
pub struct Sphere {
    pub radius: f32,
    pub slices: u32,
    pub stacks: u32,
}

impl Sphere {
    pub fn sizes(&self) -> Sizes {
        let (n, k) = (held(self.slices, 3) as usize, held(self.stacks, 2) as usize);
        Sizes { vertices: (k + 1) * (n + 1), indices: 6 * n * (k - 1), pairs: (k + 1) * (n + 2) }
    }

    pub fn fill(&self, pairs: &mut [f32], sin_cos: impl FnMut(f32) -> SinCos) -> usize {
        let (n, k) = (held(self.slices, 3), held(self.stacks, 2));
        let mut filling = Filling { pairs, count: 0, sin_cos };
        for j in 0..=k {
            filling.put(std::f32::consts::PI * (j as f32 / k as f32));
            filling.rings(n + 1, n);
        }
        filling.count
    }

    pub fn convert(&self, texture: Texture, pairs: &[f32], lent: LentPart) -> Result<Mesh, Refusal> {
        let transform = texture.transform.as_ref().map_or(&[][..], |t| t);
        let mut result = [0usize; 5];
        // SAFETY: as in point_set.
        let number = unsafe {
            sitemesh_sphere(
                self.radius, self.slices, self.stacks,
                texture.need_uvs as u32, transform.as_ptr(), transform.len(),
                pairs.as_ptr(), pairs.len(),
                lent.positions.as_mut_ptr(), lent.positions.len(),
                lent.normals.as_mut_ptr(), lent.normals.len(),
                lent.textures.as_mut_ptr(), lent.textures.len(),
                lent.indices.as_mut_ptr(), lent.indices.len(),
                result.as_mut_ptr(), result.len(),
            )
        };
        answer(number, result)
    }
}

/// A cylinder.
#[derive(Clone, Copy, Debug)]
pub struct Cylinder {
    pub radius: f32,
    pub height: f32,
    pub side: bool,
    pub top: bool,
    pub bottom: bool,
    pub slices: u32,
}

impl Cylinder {
    pub fn sizes(&self) -> Sizes {
        let n = held(self.slices, 3) as usize;
        let (sides, caps) = (self.side as usize, self.top as usize + self.bottom as usize);
        let pairs = sides * (n + 1) + caps * n;
        Sizes { vertices: (2 * sides + caps) * (n + 1), indices: (6 * sides + 3 * caps) * n, pairs }
    }

    pub fn fill(&self, pairs: &mut [f32], sin_cos: impl FnMut(f32) -> SinCos) -> usize {
        let n = held(self.slices, 3);
        let mut filling = Filling { pairs, count: 0, sin_cos };
        for (is_there, places) in [(self.side, n + 1), (self.top, n), (self.bottom, n)] {
            if is_there {
                filling.rings(places, n);
            }
        }
        filling.count
    }

    pub fn convert(&self, texture: Texture, pairs: &[f32], lent: LentPart) -> Result<Mesh, Refusal> {
        let transform = texture.transform.as_ref().map_or(&[][..], |t| t);
        let mut result = [0usize; 5];
        // SAFETY: as in point_set.
        let number = unsafe {
            sitemesh_cylinder(
                self.radius, self.height, self.side as u32, self.top as u32, self.bottom as u32, self.slices,
                texture.need_uvs as u32, transform.as_ptr(), transform.len(),
                pairs.as_ptr(), pairs.len(),
                lent.positions.as_mut_ptr(), lent.positions.len(),
                lent.normals.as_mut_ptr(), lent.normals.len(),
                lent.textures.as_mut_ptr(), lent.textures.len(),
                lent.indices.as_mut_ptr(), lent.indices.len(),
                result.as_mut_ptr(), result.len(),
            )
        };
        answer(number, result)
    }
}

/// A cone.
#[derive(Clone, Copy, Debug)]
pub struct Cone {
    pub bottom_radius: f32,
    pub height: f32,
    pub side: bool,
    pub bottom: bool,
    pub slices: u32,
}

impl Cone {
    pub fn sizes(&self) -> Sizes {
        let n = held(self.slices, 3) as usize;
        let (sides, caps) = (self.side as usize, self.bottom as usize);
        let vertices = 3 * sides * n + caps * (n + 1);
        Sizes { vertices, indices: 3 * (sides + caps) * n, pairs: (5 * sides + caps) * n }
    }

    /// For each slice of the side five: its two ends for the positions, both again and the middle for the normals.
    pub fn fill(&self, pairs: &mut [f32], sin_cos: impl FnMut(f32) -> SinCos) -> usize {
        let n = held(self.slices, 3);
        let mut filling = Filling { pairs, count: 0, sin_cos };
        for i in 0..if self.side { n } else { 0 } {
            let (s0, s1) = (i as f32 / n as f32, (i + 1) as f32 / n as f32);
            for s in [s0, s1, s0, s1, (s0 + s1) / 2.0] {
                filling.ring(s);
            }
        }
        if self.bottom {
            filling.rings(n, n);
        }
        filling.count
    }

    pub fn convert(&self, texture: Texture, pairs: &[f32], lent: LentPart) -> Result<Mesh, Refusal> {
        let transform = texture.transform.as_ref().map_or(&[][..], |t| t);
        let mut result = [0usize; 5];
        // SAFETY: as in point_set.
        let number = unsafe {
            sitemesh_cone(
                self.bottom_radius, self.height, self.side as u32, self.bottom as u32, self.slices,
                texture.need_uvs as u32, transform.as_ptr(), transform.len(),
                pairs.as_ptr(), pairs.len(),
                lent.positions.as_mut_ptr(), lent.positions.len(),
                lent.normals.as_mut_ptr(), lent.normals.len(),
                lent.textures.as_mut_ptr(), lent.textures.len(),
                lent.indices.as_mut_ptr(), lent.indices.len(),
                result.as_mut_ptr(), result.len(),
            )
        };
        answer(number, result)
    }
}
