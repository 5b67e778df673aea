//! Fixed blocks of the seam of an extrusion: cross-sections that close in each way and that do not, under every crease rule.

use std::f32::consts::{FRAC_PI_2, PI};

use crate::fixed::Named;
use crate::format::{EXTRUSION, flag};
use crate::outlines;
use crate::shape::Shape;

type Section = (&'static str, Vec<[f32; 2]>);

/// A closed outline.
fn round(sides: usize) -> Vec<[f32; 2]> {
    let mut list = outlines::circle(sides);
    list.push(list[0]);
    list
}

/// The square with another first and last point.
fn square(first: [f32; 2], last: [f32; 2]) -> Vec<[f32; 2]> {
    vec![first, [1.0, -1.0], [-1.0, -1.0], [-1.0, 1.0], last]
}

fn closed() -> Vec<Section> {
    vec![
        ("square", square([1.0, 1.0], [1.0, 1.0])),
        ("round", round(16)),
        ("m 3", vec![[1.0, 0.0], [0.0, 1.0], [1.0, 0.0]]),
        ("m 4", round(3)),
        ("0 and -0", square([0.0, 1.5], [-0.0, 1.5])),
        ("-0 and 0", square([1.5, -0.0], [1.5, 0.0])),
        ("zeros of either sign in both", square([-0.0, 0.0], [0.0, -0.0])),
        ("infinite", square([f32::INFINITY, 1.0], [f32::INFINITY, 1.0])),
        ("a NaN elsewhere", vec![[1.0, 1.0], [1.0, f32::NAN], [-1.0, -1.0], [-1.0, 1.0], [1.0, 1.0]]),
        ("through its first point", vec![[1.0, 1.0], [2.0, 0.0], [1.0, 1.0], [0.0, 2.0], [1.0, 1.0]]),
        ("one point", vec![[1.0, 1.0]; 4]),
    ]
}

fn open() -> Vec<Section> {
    let next = f32::from_bits(1.0f32.to_bits() + 1);
    vec![
        ("m 2", vec![[1.0, 1.0]; 2]),
        ("open", square([1.0, 1.0], [0.5, 1.0])),
        ("another second", square([1.0, 1.0], [1.0, 0.5])),
        ("the next number", square([1.0, 1.0], [next, 1.0])),
        ("a subnormal and 0", square([f32::from_bits(1), 1.5], [0.0, 1.5])),
        ("NaN first in both", square([f32::NAN, 1.0], [f32::NAN, 1.0])),
        ("NaN second in both", square([1.0, f32::NAN], [1.0, f32::NAN])),
        ("infinities of either sign", square([f32::INFINITY, 1.0], [f32::NEG_INFINITY, 1.0])),
    ]
}

fn spines() -> [(&'static str, &'static [f32]); 5] {
    [
        ("straight", &[0.0, 0.0, 0.0, 0.0, 5.0, 0.0]),
        ("of three", &[0.0, 0.0, 0.0, 0.0, 2.0, 0.0, 0.0, 3.0, 0.0]),
        ("bent", &[0.0, 0.0, 0.0, 0.0, 3.0, 0.0, 1.0, 5.0, 0.0, 4.0, 6.0, 1.0]),
        ("closed", &[9.0, 0.0, 0.0, 0.0, 0.0, 9.0, -9.0, 0.0, 0.0, 0.0, 0.0, -9.0, 9.0, 0.0, 0.0]),
        ("with a point twice", &[0.0, 0.0, 0.0, 0.0, 1.0, 0.0, 0.0, 1.0, 0.0, 1.0, 2.0, 0.0]),
    ]
}

fn duct(section: &[[f32; 2]], spine: &[f32], crease: f32) -> Shape {
    let mut shape = Shape::new(EXTRUSION);
    shape.set_floats(0, spine);
    shape.set_floats(1, section.as_flattened());
    shape.crease(crease);
    shape
}

/// Each cross-section along each spine, with and without each cap, by the cosine and with every face; with both caps by the
/// own face too.
fn products(out: &mut Vec<Named>) {
    for (name, section) in closed().into_iter().chain(open()) {
        for (along, spine) in spines() {
            for caps in 0..4 {
                for &crease in if caps == 3 { &[0.0, 1.8, PI][..] } else { &[1.8, PI] } {
                    let mut shape = duct(&section, spine, crease);
                    shape.flags[flag::BEGIN_CAP] = caps & 1 == 1;
                    shape.flags[flag::END_CAP] = caps & 2 == 2;
                    shape.flags[flag::TEXTURE_WANTED] = caps == 1;
                    out.push((format!("section {name}, spine {along}, caps {caps}, crease {crease}"), shape.block()));
                }
            }
        }
    }
}

/// Each crease angle, and cosines that are not its own.
fn creases(out: &mut Vec<Named>) {
    let below = f32::from_bits(PI.to_bits() - 1);
    let odd = [-0.0, -1.0, f32::NAN, f32::INFINITY, f32::NEG_INFINITY, 1e-30, 0.3, 0.4, 1.0, FRAC_PI_2, 3.0, below, 4.0, f32::MAX];
    for (name, section) in closed().into_iter().take(2).chain(open().into_iter().take(2)) {
        for crease in odd {
            for (ccw, convex) in [(true, true), (false, true), (true, false), (false, false)] {
                let mut shape = duct(&section, spines()[2].1, crease);
                shape.flags[flag::CCW] = ccw;
                shape.flags[flag::CONVEX] = convex;
                // Narrower, then a spire.
                shape.set_floats(2, &[1.0, 1.0, 0.7, 0.5, 0.5, 0.5, 0.0, 0.0]);
                out.push((format!("section {name}, crease {crease}, ccw {ccw}, convex {convex}"), shape.block()));
            }
        }
        for cosine in [f32::NAN, 2.0, 0.5, -0.9, -2.0] {
            let mut shape = duct(&section, spines()[0].1, 1.0);
            shape.words[1] = cosine.to_bits();
            out.push((format!("section {name}, cosine {cosine}"), shape.block()));
        }
    }
}

pub fn blocks(out: &mut Vec<Named>) {
    products(out);
    creases(out);
}
