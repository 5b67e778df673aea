//! Extrusions. Where the cross-section closes and the crease angle is above 0, the first and the last column count as one point
//! for generated normals (FORMAT 10.2), which the reference does not know: there a copy of it that is changed in this alone
//! makes the mesh (compare/run makes the copy).

use crate::format::Block;
use reference::scene::{Given, Mesh, Scene};

/// What the reference makes of the fields, unchanged.
fn own(given: &Given) -> Mesh {
    Scene::new(given.clone()).convert().expect("the reference made no mesh of an accepted block").mesh()
}

/// What the changed copy makes of them.
fn changed(given: &Given) -> Mesh {
    let g = given.clone();
    let scene = seamless::scene::Scene::new(seamless::scene::Given {
        kind: g.kind,
        ccw: g.ccw,
        convex: g.convex,
        solid: g.solid,
        texture_wanted: g.texture_wanted,
        begin_cap: g.begin_cap,
        end_cap: g.end_cap,
        crease: g.crease,
        transform: g.transform,
        points: g.points,
        section: g.section,
        scales: g.scales,
        orientations: g.orientations,
        ..Default::default()
    });
    let m = scene.convert().expect("the changed copy made no mesh of an accepted block").mesh();
    Mesh {
        positions: m.positions,
        normals: m.normals,
        colours: m.colours,
        texture: m.texture,
        sources: m.sources,
        indices: m.indices,
        solid: m.solid,
        unlit: m.unlit,
        has_colors: m.has_colors,
    }
}

/// What the triangles show, corner by corner: the source, then positions and texture, then the normals. The bits of a NaN are
/// left open, here too.
type Shown = Vec<(u32, Vec<u32>, Vec<u32>)>;

fn shown(mesh: &Mesh) -> Shown {
    let part = |list: &[u32], width: usize, v: usize| -> Vec<u32> {
        let words = list.iter().skip(width * v).take(width);
        words.map(|&word| if f32::from_bits(word).is_nan() { 0x7fc0_0000 } else { word }).collect()
    };
    let at = |v: usize| {
        let mut words = part(&mesh.positions, 3, v);
        words.extend(mesh.texture.iter().flat_map(|list| part(list, 2, v)));
        (mesh.sources[v], words, part(mesh.normals.as_deref().unwrap_or(&[]), 3, v))
    };
    mesh.indices.iter().map(|&v| at(v as usize)).collect()
}

/// The mesh of an extrusion. Where no columns are joined the copy has to show what the reference shows, elsewhere all but
/// the normals.
pub fn mesh(block: &Block, given: &Given) -> Mesh {
    let (own, changed) = (own(given), changed(given));
    let (mut theirs, mut copys) = (shown(&own), shown(&changed));
    if block.joins_columns() {
        theirs.iter_mut().chain(&mut copys).for_each(|(_, _, normal)| normal.clear());
    }
    assert!(theirs == copys, "the changed copy shows something else than the reference");
    if block.joins_columns() { changed } else { own }
}

/// Whether joined columns show: the reference's own normals are others.
pub fn shows(given: &Given) -> bool {
    shown(&own(given)) != shown(&changed(given))
}
