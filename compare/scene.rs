//! Stands beside the reference's files in one crate: builds their nodes and calls their `convert`.

use crate::ast::{Document, FieldType, FieldValue, Node, NodeId};
use crate::convert::geometry::{GeomCtx, GeomOut, Tessellation, TexTransform, convert};

/// The fields of one shape as its block has them. Lists are flat.
#[derive(Clone, Debug, Default)]
pub struct Given {
    /// 0 face set, 1 line set, 2 elevation grid, 3 extrusion, 4 PointSet, 5 box, 6 sphere, 7 cylinder, 8 cone.
    pub kind: u32,
    pub ccw: bool,
    pub convex: bool,
    pub solid: bool,
    pub colour_per_vertex: bool,
    pub normal_per_vertex: bool,
    pub texture_wanted: bool,
    pub begin_cap: bool,
    pub end_cap: bool,
    /// The crease angle.
    pub crease: f32,
    /// xSpacing and zSpacing.
    pub spacing: [f32; 2],
    /// Centre (2), angle of rotation, scale (2), translation (2).
    pub transform: Option<[f32; 7]>,
    /// The points of a face or line set, the spine of an extrusion.
    pub points: Vec<f32>,
    pub coord_index: Vec<i32>,
    /// Words of a colour, and the colours.
    pub colours: Option<(usize, Vec<f32>)>,
    pub colour_index: Vec<i32>,
    pub normals: Option<Vec<f32>>,
    pub normal_index: Vec<i32>,
    pub texture: Option<Vec<f32>>,
    pub texture_index: Vec<i32>,
    /// xDimension and zDimension.
    pub sides: [i32; 2],
    pub heights: Vec<f32>,
    pub section: Vec<f32>,
    pub scales: Vec<f32>,
    /// Axis (3) and angle.
    pub orientations: Vec<f32>,
    /// A box's size; radius and height of a round part.
    pub size: [f32; 3],
    /// Whether a round part has side, top and bottom.
    pub sides_shown: [bool; 3],
    /// Slices and stacks.
    pub tessellation: [u32; 2],
}

/// A mesh as words, lists flat; what is not made is `None`.
#[derive(Clone, Debug, Default, PartialEq, Eq)]
pub struct Mesh {
    pub positions: Vec<u32>,
    pub normals: Option<Vec<u32>>,
    pub colours: Option<Vec<u32>>,
    pub texture: Option<Vec<u32>>,
    pub sources: Vec<u32>,
    pub indices: Vec<u32>,
    pub solid: bool,
    pub unlit: bool,
    pub has_colors: bool,
}

/// A document with one node, ready for `convert`.
pub struct Scene {
    document: Document,
    node: NodeId,
    context: GeomCtx,
}

/// What `convert` gave.
pub struct Converted(GeomOut);

fn flag(node: &mut Node, name: &str, value: bool) {
    node.set_field(name, FieldValue::sf_bool(value));
}

fn floats(node: &mut Node, name: &str, of: FieldType, list: Vec<f32>) {
    node.set_field(name, FieldValue::floats(of, list));
}

fn child(doc: &mut Document, node: &mut Node, field: &str, made: Node) {
    let id = doc.add_node(made);
    node.set_field(field, FieldValue::sf_node(Some(id)));
}

fn transform_of(t: [f32; 7]) -> TexTransform {
    let mut node = Node::new("TextureTransform");
    floats(&mut node, "center", FieldType::SFVec2f, vec![t[0], t[1]]);
    node.set_field("rotation", FieldValue::sf_float(t[2]));
    floats(&mut node, "scale", FieldType::SFVec2f, vec![t[3], t[4]]);
    floats(&mut node, "translation", FieldType::SFVec2f, vec![t[5], t[6]]);
    TexTransform::from_node(&node)
}

fn colours(doc: &mut Document, node: &mut Node, g: &mut Given) {
    if let Some((words, list)) = g.colours.take() {
        let (name, of) = match words {
            4 => ("ColorRGBA", FieldType::MFColorRGBA),
            _ => ("Color", FieldType::MFColor),
        };
        let mut colour = Node::new(name);
        floats(&mut colour, "color", of, list);
        child(doc, node, "color", colour);
    }
}

fn coordinates(doc: &mut Document, node: &mut Node, g: &mut Given) {
    let mut points = Node::new("Coordinate");
    floats(&mut points, "point", FieldType::MFVec3f, std::mem::take(&mut g.points));
    child(doc, node, "coord", points);
}

/// Fields that several kinds have.
fn attributes(doc: &mut Document, node: &mut Node, g: &mut Given) {
    colours(doc, node, g);
    if let Some(list) = g.normals.take() {
        let mut normal = Node::new("Normal");
        floats(&mut normal, "vector", FieldType::MFVec3f, list);
        child(doc, node, "normal", normal);
    }
    if let Some(list) = g.texture.take() {
        let mut texture = Node::new("TextureCoordinate");
        floats(&mut texture, "point", FieldType::MFVec2f, list);
        child(doc, node, "texCoord", texture);
    }
    flag(node, "colorPerVertex", g.colour_per_vertex);
    flag(node, "normalPerVertex", g.normal_per_vertex);
}

fn indexed(doc: &mut Document, node: &mut Node, g: &mut Given) {
    coordinates(doc, node, g);
    let lists = [
        ("coordIndex", &mut g.coord_index),
        ("colorIndex", &mut g.colour_index),
        ("normalIndex", &mut g.normal_index),
        ("texCoordIndex", &mut g.texture_index),
    ];
    for (name, list) in lists {
        node.set_field(name, FieldValue::mf_int32(std::mem::take(list)));
    }
}

fn grid(node: &mut Node, g: &mut Given) {
    node.set_field("xDimension", FieldValue::sf_int32(g.sides[0]));
    node.set_field("zDimension", FieldValue::sf_int32(g.sides[1]));
    node.set_field("xSpacing", FieldValue::sf_float(g.spacing[0]));
    node.set_field("zSpacing", FieldValue::sf_float(g.spacing[1]));
    node.set_field("height", FieldValue::mf_float(std::mem::take(&mut g.heights)));
}

fn extrusion(node: &mut Node, g: &mut Given) {
    floats(node, "spine", FieldType::MFVec3f, std::mem::take(&mut g.points));
    floats(node, "crossSection", FieldType::MFVec2f, std::mem::take(&mut g.section));
    floats(node, "scale", FieldType::MFVec2f, std::mem::take(&mut g.scales));
    floats(node, "orientation", FieldType::MFRotation, std::mem::take(&mut g.orientations));
    flag(node, "beginCap", g.begin_cap);
    flag(node, "endCap", g.end_cap);
}

fn point_set(doc: &mut Document, node: &mut Node, g: &mut Given) {
    coordinates(doc, node, g);
    colours(doc, node, g);
}

/// A box, a sphere, a cylinder or a cone.
fn solid(node: &mut Node, g: &Given) {
    if g.kind == 5 {
        floats(node, "size", FieldType::SFVec3f, g.size.to_vec());
        return;
    }
    let radius = if g.kind == 8 { "bottomRadius" } else { "radius" };
    node.set_field(radius, FieldValue::sf_float(g.size[0]));
    node.set_field("height", FieldValue::sf_float(g.size[1]));
    for (name, shown) in ["side", "top", "bottom"].into_iter().zip(g.sides_shown) {
        flag(node, name, shown);
    }
}

/// The fields of what is no part.
fn shape(doc: &mut Document, node: &mut Node, g: &mut Given) {
    flag(node, "ccw", g.ccw);
    flag(node, "convex", g.convex);
    flag(node, "solid", g.solid);
    node.set_field("creaseAngle", FieldValue::sf_float(g.crease));
    attributes(doc, node, g);
    match g.kind {
        0 | 1 => indexed(doc, node, g),
        2 => grid(node, g),
        _ => extrusion(node, g),
    }
}

const NAMES: [&str; 9] =
    ["IndexedFaceSet", "IndexedLineSet", "ElevationGrid", "Extrusion", "PointSet", "Box", "Sphere", "Cylinder", "Cone"];

impl Scene {
    pub fn new(mut g: Given) -> Self {
        let mut document = Document::new();
        let mut node = Node::new(NAMES[g.kind as usize]);
        match g.kind {
            0..=3 => shape(&mut document, &mut node, &mut g),
            4 => point_set(&mut document, &mut node, &mut g),
            _ => solid(&mut node, &g),
        }
        let node = document.add_node(node);
        let [slices, stacks] = g.tessellation;
        let context = GeomCtx {
            need_uvs: g.texture_wanted,
            tex_transform: g.transform.map(transform_of),
            tess: Tessellation::default().with_slices(slices).with_stacks(stacks),
            max_generated: 1 << 24,
        };
        Self { document, node, context }
    }

    /// One call of the reference.
    pub fn convert(&self) -> Option<Converted> {
        let node = self.document.node(self.node)?;
        convert(&self.document, node, &self.context).map(Converted)
    }
}

fn words<const N: usize>(list: &[[f32; N]]) -> Vec<u32> {
    list.iter().flatten().map(|x| x.to_bits()).collect()
}

impl Converted {
    pub fn mesh(&self) -> Mesh {
        let prim = &self.0.built.prim;
        Mesh {
            positions: words(&prim.positions),
            normals: prim.normals.as_ref().map(|n| words(n)),
            colours: prim.colors.first().map(|c| words(c)),
            texture: prim.uvs.first().map(|t| words(t)),
            sources: self.0.built.source_coord.clone(),
            indices: prim.index_list(),
            solid: self.0.solid,
            unlit: self.0.unlit,
            has_colors: self.0.has_colors,
        }
    }
}
