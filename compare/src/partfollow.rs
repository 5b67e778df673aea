//! From a part to the fields that the reference reads: macros, since the changed copy of the reference has types of its own.

/// The scene of a part in an edition of the reference, with this angle of the texture rotation.
macro_rules! part_scene {
    ($edition:ident, $part:expr, $turn:expr) => {{
        let part: &crate::part::Part = $part;
        let t = &part.transform;
        let floats = |words: &[u32]| words.iter().map(|&word| f32::from_bits(word)).collect::<Vec<f32>>();
        $edition::scene::Scene::new($edition::scene::Given {
            kind: part.kind as u32 + 4,
            texture_wanted: part.texture_wanted != 0,
            transform: (t.len() >= 8).then(|| [t[0], t[1], $turn, t[4], t[5], t[6], t[7]]),
            points: floats(&part.points),
            colours: (part.has_colors != 0).then(|| (part.width(), floats(&part.colours))),
            size: part.size,
            sides_shown: part.shown.map(|word| word != 0),
            tessellation: [part.slices, part.stacks],
            ..Default::default()
        })
    }};
}

/// The words that a call of the reference made, in the order of the lent slices, and its result.
macro_rules! part_mesh {
    ($converted:expr) => {{
        let mesh = $converted.expect("the reference makes every part").mesh();
        let vertices = mesh.positions.len() / 3;
        let bits = [mesh.solid, mesh.unlit, mesh.has_colors].map(u32::from);
        let head = [vertices as u32, mesh.indices.len() as u32, bits[0], bits[1], bits[2]];
        let or_none = |list: Option<Vec<u32>>| list.unwrap_or_default();
        let (normals, colours, texture) = (or_none(mesh.normals), or_none(mesh.colours), or_none(mesh.texture));
        (head, [mesh.positions, normals, colours, texture, mesh.sources, mesh.indices])
    }};
}

pub(crate) use {part_mesh, part_scene};
