//! Tries the parts of the wrapper (docs/FORMAT.md 17): prints the lines that hosts/parts.c prints, a part, the result and a sum
//! of the words made, and the angles that are filled, as bits; looks at the refusals by name and at what is beyond.
mod sitemesh;

use sitemesh::{box_prim, point_set, sin_cos, Colors, Cone, Cylinder, LentPart, LentPoints, Mesh, Refusal, SinCos, Sizes};
use sitemesh::{Sphere, Texture, BOX, NO_TEXTURE};

const WORD: u32 = 0x5a5a_5a5a;

/// What is lent, as vectors: positions, normals, colours, textures, sources and indices.
struct Slices {
    floats: [Vec<f32>; 4],
    whole: [Vec<u32>; 2],
}

impl Slices {
    fn new(lengths: [usize; 6]) -> Self {
        let [p, n, c, t, s, i] = lengths;
        let floats = [p, n, c, t].map(|k| vec![f32::from_bits(WORD); k]);
        Slices { floats, whole: [s, i].map(|k| vec![WORD; k]) }
    }

    fn part(&mut self) -> LentPart<'_> {
        let [positions, normals, _, textures] = &mut self.floats;
        LentPart { positions, normals, textures, indices: &mut self.whole[1] }
    }

    fn points(&mut self) -> LentPoints<'_> {
        let [positions, _, colours, _] = &mut self.floats;
        LentPoints { positions, colours, sources: &mut self.whole[0] }
    }

    fn words(&self) -> impl Iterator<Item = u32> + '_ {
        let floats = self.floats.iter().flatten().map(|x| x.to_bits());
        floats.chain(self.whole.iter().flatten().copied())
    }

    fn is_untouched(&self) -> bool {
        self.words().all(|x| x == WORD)
    }
}

fn tell(name: &str, mesh: Mesh, slices: &Slices) {
    let sum = slices.words().fold(2166136261u32, |from, x| (from ^ x).wrapping_mul(16777619));
    let bits = [mesh.solid, mesh.unlit, mesh.has_colors].map(u8::from);
    println!("{name} {} {} {} {} {} {sum:08x}", mesh.vertices, mesh.indices, bits[0], bits[1], bits[2]);
}

fn lend(sizes: Sizes, texture: Texture) -> Slices {
    let v = sizes.vertices;
    Slices::new([3 * v, 3 * v, 0, if texture.need_uvs { 2 * v } else { 0 }, 0, sizes.indices])
}

/// The mesh of a part, and the refusals with a pair fewer and with an index fewer.
fn try_part<F>(name: String, sizes: Sizes, texture: Texture, pairs: Vec<f32>, convert: F)
where
    F: Fn(Texture, &[f32], LentPart) -> Result<Mesh, Refusal>,
{
    let mut slices = lend(sizes, texture);
    let mesh = convert(texture, &pairs, slices.part()).expect("a mesh");
    assert_eq!((mesh.vertices, mesh.indices), (sizes.vertices, sizes.indices));
    tell(&name, mesh, &slices);
    for fewer in 1..=2.min(pairs.len()) {
        let mut slices = lend(sizes, texture);
        assert_eq!(convert(texture, &pairs[..pairs.len() - fewer], slices.part()), Err(Refusal::Pairs));
        assert!(slices.is_untouched());
    }
    if sizes.indices > 0 {
        let mut slices = lend(sizes, texture);
        slices.whole[1].pop();
        assert_eq!(convert(texture, &pairs, slices.part()), Err(Refusal::Buffer));
        assert!(slices.is_untouched());
    }
}

fn flag(on: bool) -> u8 {
    on as u8
}

fn try_sphere(sphere: Sphere, texture: Texture) {
    let mut pairs = vec![0.0; 2 * sphere.sizes().pairs];
    assert_eq!(sphere.fill(&mut pairs, sin_cos), sphere.sizes().pairs);
    let name = format!("sphere 000 {} {} {}", sphere.slices, sphere.stacks, flag(texture.need_uvs));
    try_part(name, sphere.sizes(), texture, pairs, |t, p, l| sphere.convert(t, p, l));
}

fn try_cylinder(c: Cylinder, texture: Texture, name: Option<&str>) {
    let mut pairs = vec![0.0; 2 * c.sizes().pairs];
    assert_eq!(c.fill(&mut pairs, sin_cos), c.sizes().pairs);
    let [side, top, bottom] = [c.side, c.top, c.bottom].map(flag);
    let numbers = format!("cylinder {side}{top}{bottom} {} 0 {}", c.slices, flag(texture.need_uvs));
    try_part(name.map_or(numbers, str::to_string), c.sizes(), texture, pairs, |t, p, l| c.convert(t, p, l));
}

fn try_cone(c: Cone, texture: Texture) {
    let mut pairs = vec![0.0; 2 * c.sizes().pairs];
    assert_eq!(c.fill(&mut pairs, sin_cos), c.sizes().pairs);
    let name = format!("cone {}0{} {} 0 {}", flag(c.side), flag(c.bottom), c.slices, flag(texture.need_uvs));
    try_part(name, c.sizes(), texture, pairs, |t, p, l| c.convert(t, p, l));
}

fn try_points(n: usize, m: usize, has_colors: bool, alpha: bool) {
    let mut points: Vec<f32> = (0..3 * n + 2).map(|i| i as f32).collect();
    points[1] = f32::from_bits(0xffa0_0001);
    let width = if alpha { 4 } else { 3 };
    let values: Vec<f32> = (0..width * m + 2).map(|i| i as f32 / 64.0).collect();
    let colors = has_colors.then_some(Colors { values: &values, alpha });
    let lengths = [3 * n, 0, if has_colors && m >= n { 4 * n } else { 0 }, 0, n, 0];
    let mut slices = Slices::new(lengths);
    let mesh = point_set(&points, colors, slices.points()).expect("a mesh");
    tell(&format!("points {n} {m} {} {}", flag(has_colors), flag(alpha)), mesh, &slices);
    let mut slices = Slices::new([0; 6]);
    assert_eq!(point_set(&points, colors, slices.points()), Err(Refusal::Buffer));
    assert_eq!(point_set(&[0.0; 3 * 8193], colors, slices.points()), Err(Refusal::Corners));
}

/// The angles in the order in which they are filled, and pairs numbered in this order.
fn tell_angles(name: &str, pairs: usize, fill: impl Fn(&mut [f32], &mut dyn FnMut(f32) -> SinCos) -> usize) {
    let (mut angles, mut made) = (Vec::new(), vec![99.0; 2 * pairs + 1]);
    let count = fill(&mut made[..2 * pairs], &mut |angle| {
        angles.push(angle);
        SinCos { sin: angles.len() as f32, cos: -(angles.len() as f32) }
    });
    assert_eq!((count, angles.len(), made[2 * pairs]), (pairs, pairs, 99.0));
    for (k, pair) in made.chunks_exact(2).enumerate() {
        assert_eq!(pair, [k as f32 + 1.0, -(k as f32 + 1.0)]);
    }
    let words: Vec<String> = angles.iter().map(|a| format!("{:08x}", a.to_bits())).collect();
    println!("angles of a {name} {}", words.join(" "));
    let mut short = [99.0; 5];
    assert_eq!(fill(&mut short, &mut |_| SinCos { sin: 0.0, cos: 1.0 }), pairs);
    assert_eq!(short, [0.0, 1.0, 0.0, 1.0, 99.0]);
}

fn try_round(texture: Texture) {
    for k in 0..12 {
        try_sphere(Sphere { radius: 1.5, slices: k, stacks: k / 2 }, texture);
    }
    for k in 0..27 {
        let (side, top, bottom, slices) = (k % 3 > 0, k / 3 % 3 > 0, k / 9 > 0, 3 + k % 4);
        try_cylinder(Cylinder { radius: 1.5, height: 3.0, side, top, bottom, slices }, texture, None);
        try_cone(Cone { bottom_radius: 1.5, height: 3.0, side, bottom, slices }, texture);
    }
}

fn main() {
    let wanted = Texture { need_uvs: true, transform: None };
    for texture in [NO_TEXTURE, wanted] {
        let name = format!("box 000 0 0 {}", flag(texture.need_uvs));
        try_part(name, BOX, texture, Vec::new(), |t, _, l| box_prim([2.0, 4.0, 6.0], t, l));
        try_round(texture);
    }
    let all = Cylinder { radius: 1.0, height: 1.0, side: true, top: true, bottom: true, slices: u32::MAX };
    try_cylinder(all, wanted, None);
    try_cone(Cone { bottom_radius: 1.0, height: 1.0, side: false, bottom: true, slices: 1025 }, wanted);
    for (radius, height) in [(-1.0, f32::NAN), (1.0, 2.0)] {
        try_cylinder(Cylinder { radius, height, slices: 8, ..all }, NO_TEXTURE, None);
    }
    let turned = Texture { need_uvs: true, transform: Some([0.5, 0.25, 0.6, 0.8, 2.0, 3.0, 0.125, 1.0]) };
    try_cylinder(Cylinder { height: 2.0, top: false, slices: 5, ..all }, turned, Some("transform"));
    for m in 11..14 {
        for k in 0..4 {
            try_points(12, m, k % 2 > 0, k / 2 > 0);
        }
    }
    let (sphere, cylinder) = (Sphere { radius: 1.0, slices: 3, stacks: 2 }, Cylinder { slices: 3, ..all });
    let cone = Cone { bottom_radius: 1.0, height: 1.0, side: true, bottom: true, slices: 3 };
    tell_angles("sphere", sphere.sizes().pairs, |p, f| sphere.fill(p, f));
    tell_angles("cylinder", cylinder.sizes().pairs, |p, f| cylinder.fill(p, f));
    tell_angles("cone", cone.sizes().pairs, |p, f| cone.fill(p, f));
}
