//! Stand-in for the crate `oxideav_mesh3d`: what the reference's files use of it, and no more.

#[derive(Clone, Copy, Debug, PartialEq, Eq)]
pub enum Topology {
    Points,
    Lines,
    Triangles,
}

#[derive(Clone, Debug)]
pub enum Indices {
    U16(Vec<u16>),
    U32(Vec<u32>),
}

#[derive(Clone, Debug)]
pub struct Primitive {
    pub topology: Topology,
    pub positions: Vec<[f32; 3]>,
    pub normals: Option<Vec<[f32; 3]>>,
    pub colors: Vec<Vec<[f32; 4]>>,
    pub uvs: Vec<Vec<[f32; 2]>>,
    pub indices: Option<Indices>,
}

impl Primitive {
    pub fn new(topology: Topology) -> Self {
        Self { topology, positions: Vec::new(), normals: None, colors: Vec::new(), uvs: Vec::new(), indices: None }
    }

    /// The indices, whatever their width.
    pub fn index_list(&self) -> Vec<u32> {
        match &self.indices {
            Some(Indices::U16(v)) => v.iter().map(|&i| i as u32).collect(),
            Some(Indices::U32(v)) => v.clone(),
            None => Vec::new(),
        }
    }

    /// The triangles: the indices in threes (FORMAT 10.3).
    pub fn triangle_indices(&self) -> Vec<[u32; 3]> {
        self.index_list().as_chunks::<3>().0.to_vec()
    }
}
