//! Blocks for the fuzzing: good ones of all sizes up to the limits, damaged ones, random ones.

use crate::cases;
use crate::format::{LIMIT, TRIANGLES, flag};
use crate::maker::{Maker, Taste};
use crate::shape::Shape;

/// A number from 2 to `most`; each power of two as often as the next.
fn spread(maker: &mut Maker, most: usize) -> usize {
    let bits = maker.rng.between(1, most.ilog2() as usize + 1);
    maker.rng.between(2, most.min(1 << bits))
}

/// Two sides whose quads have at most 8,192 corners, or just more.
fn sides(maker: &mut Maker) -> [usize; 2] {
    let a = spread(maker, LIMIT / 4 + 1);
    let b = spread(maker, LIMIT / 4 / (a - 1) + 2);
    if maker.rng.coin() { [a, b] } else { [b, a] }
}

/// A good shape of any size.
fn sized(maker: &mut Maker) -> Shape {
    match maker.rng.below(5) {
        0 => {
            let size = spread(maker, LIMIT);
            maker.face_set(size)
        }
        1 => {
            let size = spread(maker, LIMIT);
            maker.line_set(size)
        }
        2 => {
            let size = spread(maker, LIMIT / 3);
            maker.primitive_set(size)
        }
        3 => {
            let [x, z] = sides(maker);
            maker.grid_of(x, z)
        }
        _ => {
            let [n, m] = sides(maker);
            maker.extrusion_of(n, m)
        }
    }
}

/// A whole block of any words: odd numbers, numbers that may be indices, any bits.
fn words(maker: &mut Maker) -> Vec<u8> {
    let mut shape = Shape::new(maker.rng.below(8) as u32);
    shape.flags = std::array::from_fn(|_| maker.rng.coin());
    let by_point = shape.kind >= TRIANGLES && !maker.rng.one_in(8);
    if by_point {
        shape.flags[flag::COLOUR_PER_VERTEX] = true;
        shape.flags[flag::NORMAL_PER_VERTEX] = true;
    }
    shape.words = std::array::from_fn(|_| maker.value(Taste::Mixed).to_bits());
    for k in 0..8 {
        shape.counts[k] = if by_point && [3, 5, 7].contains(&k) { 0 } else { maker.rng.below(10) };
        let word = |maker: &mut Maker| match maker.rng.below(8) {
            0 => maker.rng.bits(),
            1 => maker.odd().to_bits(),
            2 => u32::MAX,
            3 => maker.value(Taste::Coarse).to_bits(),
            _ => maker.rng.below(10) as u32,
        };
        shape.lists[k] = (0..shape.counts[k] * shape.width(k)).map(|_| word(maker)).collect();
    }
    shape.block()
}

/// Any bytes, mostly with a first one that is good.
fn bytes(maker: &mut Maker) -> Vec<u8> {
    let n = maker.rng.below(400);
    let mut block: Vec<u8> = (0..n).map(|_| maker.rng.bits() as u8).collect();
    if let (Some(byte), false) = (block.first_mut(), maker.rng.one_in(8)) {
        *byte = 0x10 | *byte & 0x07;
    }
    // Counts are below the limit only where the bits above are 0.
    if n > 19 && maker.rng.coin() {
        block[3..20].fill(0);
        block[3 + maker.rng.below(14)] = 1 << maker.rng.below(8);
    }
    block
}

/// A good shape with a count that is not its list's.
fn miscounted(maker: &mut Maker) -> Vec<u8> {
    let mut shape = cases::shape(maker);
    let k = maker.rng.below(8);
    let n = shape.counts[k];
    shape.counts[k] = match maker.rng.below(4) {
        0 => n + 1,
        1 => n.saturating_sub(1),
        2 => maker.rng.pick(&[0, LIMIT, LIMIT + 1, 16_383]),
        _ => maker.rng.below(16_384),
    };
    shape.block()
}

/// The block of a case.
pub fn block(maker: &mut Maker) -> Vec<u8> {
    match maker.rng.below(16) {
        0 => sized(maker).block(),
        1 => bytes(maker),
        2..=4 => words(maker),
        5 => miscounted(maker),
        6..=9 => {
            let mut block = cases::shape(maker).block();
            cases::damage(maker, &mut block);
            block
        }
        _ => cases::block(maker),
    }
}
