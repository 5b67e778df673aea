//! Reads a block on standard input, converts it as a terminal does, with grey for missing colours, and says how much was
//! made and where its first corner is.
#[path = "sitemesh.rs"] // from this file's folder
mod sitemesh;

use sitemesh::{Call, Lent};
use std::io::Read;

fn main() {
    let mut block = Vec::new();
    std::io::stdin().read_to_end(&mut block).expect("a block");
    let (mut positions, mut normals) = (vec![0.0; sitemesh::MOST_POSITIONS], vec![0.0; sitemesh::MOST_NORMALS]);
    let (mut colours, mut textures) = (vec![0.0; sitemesh::MOST_COLOURS], vec![0.0; sitemesh::MOST_TEXTURES]);
    let (mut sources, mut indices) = (vec![0; sitemesh::MOST_SOURCES], vec![0; sitemesh::MOST_INDICES]);
    let (mut words, mut floats) = (vec![0; sitemesh::MOST_WORDS], vec![0.0; sitemesh::MOST_FLOATS]);
    let lent = Lent {
        positions: &mut positions,
        normals: &mut normals,
        colours: &mut colours,
        textures: &mut textures,
        sources: &mut sources,
        indices: &mut indices,
        words: &mut words,
        floats: &mut floats,
    };
    match sitemesh::convert(Call { colour: sitemesh::GREY }, &block, lent) {
        Err(refusal) => println!("refused: {refusal:?}"),
        Ok(mesh) => {
            println!("{} vertices, {} indices", mesh.vertices, mesh.indices);
            if let Some(&v) = indices[..mesh.indices].first() {
                let p = &positions[3 * v as usize..];
                println!("first corner at {:.3} {:.3} {:.3}", p[0], p[1], p[2]);
            }
        }
    }
}
