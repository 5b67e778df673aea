//! Outlines in the plane, for faces, footprints and cross-sections.

use std::f32::consts::TAU;

use crate::rng::Rng;

pub type Outline = Vec<[f32; 2]>;

pub fn circle(n: usize) -> Outline {
    (0..n)
        .map(|k| {
            let (s, c) = (k as f32 / n as f32 * TAU).sin_cos();
            [c, s]
        })
        .collect()
}

/// Every second corner pulled in.
pub fn star(n: usize) -> Outline {
    let mut list = circle(n);
    for p in list.iter_mut().skip(1).step_by(2) {
        *p = [p[0] * 0.4, p[1] * 0.4];
    }
    list
}

/// A comb: teeth up, one back below.
pub fn comb(n: usize) -> Outline {
    let teeth = n.saturating_sub(2);
    let mut list: Outline = (0..teeth).map(|k| [(teeth - k) as f32, if k % 2 == 0 { 1.0 } else { 8.0 }]).collect();
    list.extend([[0.0, 0.0], [teeth as f32 + 1.0, 0.0]]);
    list
}

/// Two combs whose teeth reach into each other, so that only the ends have ears. The order begins in the middle of
/// one: the reference looks at a quarter of the corners before it finds an ear.
pub fn zipper(n: usize) -> Outline {
    let half = n / 2;
    let below = (0..half).map(|k| [k as f32, if k % 2 == 0 { 0.0 } else { -8.0 }]);
    let above = (0..n - half).rev().map(|k| [k as f32 + 0.25, if k % 2 == 0 { 8.0 } else { -1.0 }]);
    let mut list: Outline = below.chain(above).collect();
    list.rotate_left(n / 4);
    list
}

/// A band that winds inwards and comes back beside itself.
pub fn spiral(n: usize) -> Outline {
    let half = n / 2;
    let turn = |k: usize, out: f32| {
        let a = k as f32 * 0.35;
        let (s, c) = a.sin_cos();
        let r = 1.0 + a * 0.2 + out;
        [r * c, r * s]
    };
    let out = (0..n - half).map(|k| turn(k, 0.3));
    let back = (0..half).rev().map(|k| turn(k, -0.3));
    out.chain(back).collect()
}

/// The footprints of buildings: an L, a U, a court with a slit.
pub fn footprint(rng: &mut Rng) -> Outline {
    let plan: &[[f32; 2]] = match rng.below(4) {
        0 => &[[0.0, 0.0], [4.0, 0.0], [4.0, 1.0], [1.0, 1.0], [1.0, 3.0], [0.0, 3.0]],
        1 => &[[0.0, 0.0], [5.0, 0.0], [5.0, 4.0], [4.0, 4.0], [4.0, 1.0], [1.0, 1.0], [1.0, 4.0], [0.0, 4.0]],
        2 => &[
            [0.0, 0.0],
            [2.0, 0.0],
            [2.0, 1.0],
            [1.0, 1.0],
            [1.0, 2.0],
            [3.0, 2.0],
            [3.0, 1.0],
            [2.0, 1.0],
            [2.0, 0.0],
            [4.0, 0.0],
            [4.0, 3.0],
            [0.0, 3.0],
        ],
        _ => &[[0.0, 0.0], [3.0, 0.0], [3.0, 2.0], [0.0, 2.0]],
    };
    plan.to_vec()
}

/// Any of them, at times crossing itself, with equal or collinear corners.
pub fn any(rng: &mut Rng, n: usize) -> Outline {
    let n = n.max(3);
    let mut list = match rng.below(8) {
        0 => circle(n),
        1 => star(n),
        2 => comb(n.max(5)),
        3 => spiral(n.max(6)),
        4 => footprint(rng),
        5 => zipper(n.max(6)),
        6 => (0..n).map(|_| [rng.below(6) as f32, rng.below(6) as f32]).collect(),
        _ => (0..n).map(|_| [rng.real(), rng.real()]).collect(),
    };
    if rng.one_in(6) {
        let k = rng.below(list.len());
        list.insert(k, list[k]);
    }
    if rng.coin() {
        list.reverse();
    }
    list
}

/// Puts an outline into space: an upright or level plane, or a slanting one.
pub fn placed(rng: &mut Rng, outline: &Outline) -> Vec<f32> {
    let plane = rng.below(4);
    let level = rng.below(5) as f32 - 2.0;
    let mut list = Vec::with_capacity(3 * outline.len());
    for &[a, b] in outline {
        list.extend(match plane {
            0 => [a, b, level],
            1 => [level, a, b],
            2 => [b, level, a],
            _ => [a, b + 0.5 * a, level + 0.25 * a - b],
        });
    }
    list
}
