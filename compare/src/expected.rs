//! What a call has to answer: the refusal by docs/FORMAT.md, the mesh by the reference.

use std::collections::HashMap;

use crate::angles::Angles;
use crate::follow::given;
use crate::format::{Block, EXTRUSION, accept, flag};
use crate::missing::filled;
use crate::ours::{Colour, WHITE};
use crate::outline::{Outline, outline};
use crate::seam;
use reference::scene::{Given, Mesh, Scene};

const NAN: u32 = 0x7fc0_0000;
const MINUS_ZERO: u32 = 0x8000_0000;

pub enum Expected {
    Refused(u32),
    /// The mesh, and whether the definition settled something that the Rust leaves open.
    Made(Mesh, bool),
    /// Taken out: only the sizes and the flags are known.
    Outlined(Outline),
}

fn is_nan(word: u32) -> bool {
    word & 0x7fff_ffff > 0x7f80_0000
}

/// Puts 7fc00000 for a NaN that was made by arithmetic (FORMAT 9.1).
fn one_nan(word: &mut u32) -> bool {
    let change = is_nan(*word) && *word != NAN;
    if change {
        *word = NAN;
    }
    change
}

/// Settles what the Rust leaves open in texture: the bits of a NaN, and the sign of a zero that is a coordinate
/// less the least one (FORMAT 9.4: never -0). Answers whether a word changed.
fn settle_texture(block: &Block, texture: &mut [u32]) -> bool {
    let listed = block.kind != EXTRUSION && block.flag(flag::TEXTURE);
    let moved = block.flag(flag::TRANSFORM);
    let mut changed = false;
    for point in texture.chunks_mut(2) {
        if !listed || moved {
            changed |= one_nan(&mut point[0]);
        }
        if !listed && !moved && point[0] == MINUS_ZERO {
            point[0] = 0;
            changed = true;
        }
        changed |= one_nan(&mut point[1]);
    }
    changed
}

/// Whether the sign of a least zero could show through the texture transform: a -0 in the list, and -0 added to it twice.
fn sign_shows(block: &Block) -> bool {
    let (list, made) = match block.kind {
        _ if block.is_face_set() => (0, !block.flag(flag::TEXTURE)),
        EXTRUSION => (1, true),
        _ => return false,
    };
    let zeros = |k| block.word(k) == MINUS_ZERO && block.word(k + 6) == MINUS_ZERO;
    made && block.makes_texture()
        && block.flag(flag::TRANSFORM)
        && (zeros(4) || zeros(5))
        && block.list(list).contains(&MINUS_ZERO)
}

type Key = (u32, [u32; 3], [u32; 4], [u32; 2]);

fn part<const N: usize>(list: &Option<Vec<u32>>, v: usize) -> [u32; N] {
    list.as_ref().map_or([0; N], |l| l[N * v..N * v + N].try_into().unwrap())
}

fn key(mesh: &Mesh, v: usize) -> Key {
    (mesh.sources[v], part(&mesh.normals, v), part(&mesh.colours, v), part(&mesh.texture, v))
}

/// Makes one of vertices that agree after `settle_texture`.
fn merge(mesh: Mesh) -> Mesh {
    let mut met: HashMap<Key, u32> = HashMap::new();
    let mut number = Vec::new();
    let mut kept = Vec::new();
    for v in 0..mesh.sources.len() {
        let next = kept.len() as u32;
        let n = *met.entry(key(&mesh, v)).or_insert(next);
        if n == next {
            kept.push(v);
        }
        number.push(n);
    }
    let pick = |list: &[u32], width: usize| -> Vec<u32> {
        kept.iter().flat_map(|&v| list[width * v..width * v + width].to_vec()).collect()
    };
    Mesh {
        positions: pick(&mesh.positions, 3),
        normals: mesh.normals.as_ref().map(|l| pick(l, 3)),
        colours: mesh.colours.as_ref().map(|l| pick(l, 4)),
        texture: mesh.texture.as_ref().map(|l| pick(l, 2)),
        sources: pick(&mesh.sources, 1),
        indices: mesh.indices.iter().map(|&i| number[i as usize]).collect(),
        ..mesh
    }
}

/// Whether two vertices agree in source and colour, and in texture only once it is settled: with supplied normals
/// only the definition can say whether they become one vertex.
fn could_merge(mesh: &Mesh, raw: &Option<Vec<u32>>) -> bool {
    let mut met = HashMap::new();
    (0..mesh.sources.len()).any(|v| {
        let (source, _, colour, texture) = key(mesh, v);
        let bits = part::<2>(raw, v);
        *met.entry((source, colour, texture)).or_insert(bits) != bits
    })
}

fn converted(given: Given) -> Mesh {
    Scene::new(given).convert().expect("the reference made no mesh of an accepted block").mesh()
}

/// The reference's mesh; of an extrusion, which has no colours, that of `seam`. White the reference has by itself. For another
/// colour it is given a scene that lists that colour where one is missing; with white listed there, the scene has to give
/// what the block's own gives.
fn reference_mesh(block: &Block, given: Given, colour: Colour) -> Mesh {
    if block.kind == EXTRUSION {
        return seam::mesh(block, &given);
    }
    if colour == WHITE {
        return converted(given);
    }
    let white = converted(filled(block, given.clone(), WHITE));
    assert_eq!(white, converted(given.clone()), "the missing entries are not those that the reference fills with white");
    converted(filled(block, given, colour))
}

/// The reference's mesh of an accepted block, or none where it cannot be followed.
fn mesh_of(block: &Block, angles: &Angles, colour: Colour) -> Option<(Mesh, bool)> {
    if sign_shows(block) {
        return None;
    }
    let mut mesh = reference_mesh(block, given(block, angles)?, colour);
    if block.kind == EXTRUSION {
        for word in &mut mesh.positions {
            one_nan(word);
        }
    }
    let raw = mesh.texture.clone();
    let changed = match &mut mesh.texture {
        Some(texture) => settle_texture(block, texture),
        None => false,
    };
    if changed && block.supplies_normals() {
        return if could_merge(&mesh, &raw) { None } else { Some((mesh, true)) };
    }
    Some((if changed { merge(mesh) } else { mesh }, changed))
}

/// The answer to a call with these lent lengths (FORMAT 4 has their order) and this colour.
pub fn expected(bytes: &[u8], lent: &[usize; 8], angles: &Angles, colour: Colour) -> Expected {
    match accept(bytes, lent) {
        Err(number) => Expected::Refused(number),
        Ok((block, sizes)) => match mesh_of(&block, angles, colour) {
            Some((mesh, settled)) => {
                assert_eq!(mesh.indices.len(), sizes.indices, "N is not the reference's");
                Expected::Made(mesh, settled)
            }
            None => Expected::Outlined(outline(&block, sizes)),
        },
    }
}
