//! Reads angles, each the bits of an f32 as hexadecimal digits on a line, and prints the bits of their sines and cosines;
//! looks that the words of a block that are made of them are these.
mod sitemesh;

use sitemesh::{crease_cosine, orientation, sin_cos, texture_rotation};

fn main() {
    for line in std::io::stdin().lines() {
        let bits = u32::from_str_radix(&line.expect("a line"), 16).expect("a word");
        let angle = f32::from_bits(bits);
        let r = sin_cos(angle);
        println!("{:08x} {:08x}", r.sin.to_bits(), r.cos.to_bits());
        assert_eq!(crease_cosine(angle), r.cos);
        assert_eq!(texture_rotation(angle), [r.sin, r.cos]);
        let half = sin_cos(angle / 2.0);
        assert_eq!(orientation([1.0, 2.0, 3.0], angle), [1.0, 2.0, 3.0, half.sin, half.cos]);
    }
}
