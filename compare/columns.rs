//! Stands beside the changed copy of the reference that smooths the seam of an extrusion (compare/run makes the copy). Written
//! from the rule alone: where the cross-section has more than 2 points and its first equals its last in f32, corners of the
//! first and the last column at one spine point count as one point, as if all bore the first's number, when faces are
//! gathered for normals.

use crate::convert::mesh::PolyMesh;

/// How many columns an extrusion has whose first and last are joined; 0 where they are not.
pub(crate) fn joined(section: &[[f32; 2]]) -> usize {
    match section {
        [[a, b], _, .., [c, d]] if a == c && b == d => section.len(),
        _ => 0,
    }
}

/// The soup that the normals are made of: its faces bear, in place of a point of the last column, that of the first.
pub(crate) fn gathered(soup: &PolyMesh) -> PolyMesh {
    let columns = soup.columns as u32;
    let number = |point: u32| if columns > 0 && point % columns == columns - 1 { point + 1 - columns } else { point };
    PolyMesh {
        coords: soup.coords.clone(),
        faces: soup.faces.iter().map(|face| face.iter().map(|&point| number(point)).collect()).collect(),
        crease_angle: soup.crease_angle,
        ..PolyMesh::default()
    }
}
