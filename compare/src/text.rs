//! The text of an answer (FORMAT 14).

use std::fmt::Write;

use reference::scene::Mesh;

fn words(out: &mut String, mark: &str, list: &[u32]) {
    out.push_str(mark);
    for word in list {
        write!(out, " {word:08x}").unwrap();
    }
}

pub fn mesh(mesh: &Mesh) -> String {
    let count = mesh.sources.len();
    let bit = |b: bool| b as u32;
    let head = [bit(mesh.solid), bit(mesh.unlit), bit(mesh.has_colors)];
    let mut out = format!("mesh {count} {} {} {} {}\n", mesh.indices.len(), head[0], head[1], head[2]);
    for v in 0..count {
        write!(out, "v {}", mesh.sources[v]).unwrap();
        words(&mut out, "", &mesh.positions[3 * v..3 * v + 3]);
        let parts = [(" n", 3, &mesh.normals), (" c", 4, &mesh.colours), (" u", 2, &mesh.texture)];
        for (mark, width, list) in parts {
            if let Some(list) = list {
                words(&mut out, mark, &list[width * v..width * v + width]);
            }
        }
        out.push('\n');
    }
    let (mark, width) = if mesh.unlit { ('l', 2) } else { ('t', 3) };
    for numbers in mesh.indices.chunks(width) {
        out.push(mark);
        for n in numbers {
            write!(out, " {n}").unwrap();
        }
        out.push('\n');
    }
    out
}

pub fn refusal(number: u32) -> String {
    format!("no {number}\n")
}
