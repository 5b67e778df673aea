//! Generated blocks: shapes of all kinds and sizes, reshaped and damaged ones.

use crate::format::{EXTRUSION, LIMIT, TRIANGLES};
use crate::maker::Maker;
use crate::shape::Shape;

/// A size: nearly always small.
fn size(maker: &mut Maker) -> usize {
    match maker.rng.below(2000) {
        0 => maker.rng.between(200, 1500),
        1..=30 => maker.rng.between(30, 60),
        31..=200 => maker.rng.between(10, 30),
        _ => maker.rng.between(3, 9),
    }
}

/// A triangle, fan, strip or quad set.
pub fn primitives(maker: &mut Maker) -> Shape {
    let size = size(maker);
    maker.primitive_set(size)
}

pub fn shape(maker: &mut Maker) -> Shape {
    if maker.rng.one_in(4) { primitives(maker) } else { others(maker) }
}

/// A shape of one of the kinds 0 to 3.
pub fn others(maker: &mut Maker) -> Shape {
    let size = size(maker);
    match maker.rng.below(8) {
        0..=2 => maker.face_set(size),
        3 => maker.line_set(size),
        4 | 5 => maker.grid(size.clamp(3, 50)),
        _ => maker.extrusion(size.clamp(3, 48)),
    }
}

/// Makes the lists as long as the counts and the kind say, so that the block is whole again.
fn refit(maker: &mut Maker, shape: &mut Shape) {
    for k in 0..8 {
        let words = shape.width(k) * shape.counts[k].min(LIMIT);
        if words > 4096 {
            shape.counts[k] = maker.rng.below(9);
        }
        let words = shape.width(k) * shape.counts[k];
        while shape.lists[k].len() < words {
            let word = match maker.rng.below(4) {
                0 => maker.rng.below(9) as u32,
                1 => u32::MAX,
                _ => (maker.rng.below(9) as f32 * 0.5 - 2.0).to_bits(),
            };
            shape.lists[k].push(word);
        }
        shape.lists[k].truncate(words);
    }
}

/// Another kind, other counts or other bits over the same words.
fn reshape(maker: &mut Maker, shape: &mut Shape) {
    match maker.rng.below(4) {
        0 => shape.kind = maker.rng.below(if shape.kind < TRIANGLES { 4 } else { 8 }) as u32,
        1 => {
            let k = maker.rng.below(8);
            shape.counts[k] = maker.rng.below(12);
        }
        2 => {
            let k = maker.rng.below(13);
            shape.flags[k] = !shape.flags[k];
        }
        _ => {
            let (a, b) = (maker.rng.below(8), maker.rng.below(8));
            shape.counts.swap(a, b);
        }
    }
    if shape.kind == EXTRUSION && maker.rng.coin() {
        for k in 0..2 {
            shape.counts[k] = shape.counts[k].clamp(2, 20);
        }
    }
    refit(maker, shape);
}

/// Bytes changed, cut off or added.
pub fn damage(maker: &mut Maker, block: &mut Vec<u8>) {
    let rng = &mut maker.rng;
    let part = match rng.below(6) {
        0 => 0..20,
        1 => 0..3,
        2 => 20..68,
        3 | 4 => 68.min(block.len())..block.len(),
        _ => 0..block.len(),
    };
    for _ in 0..rng.between(1, 4) {
        if !part.is_empty() && part.end <= block.len() {
            let k = part.start + rng.below(part.len());
            match rng.below(3) {
                0 => block[k] ^= 1 << rng.below(8),
                1 => block[k] = rng.pick(&[0, 0xff, 0x7f, 0x80]),
                _ => block[k] = rng.bits() as u8,
            }
        }
    }
    match rng.below(12) {
        0 => block.truncate(rng.below(block.len() + 1)),
        1 => block.truncate(block.len().saturating_sub(rng.between(1, 4))),
        2 => block.extend((0..rng.between(1, 8)).map(|k| k as u8)),
        _ => {}
    }
}

/// The block of a case.
pub fn block(maker: &mut Maker) -> Vec<u8> {
    block_of(maker, shape)
}

/// The block of a case whose shape is made so.
pub fn block_of(maker: &mut Maker, shape: fn(&mut Maker) -> Shape) -> Vec<u8> {
    if maker.rng.one_in(200) {
        let n = maker.rng.below(120);
        let first = maker.rng.pick(&[0x10, 0x11, 0x12, 0x16, 0x1e, 0xff]);
        return (0..n).map(|k| if k == 0 { first } else { maker.rng.bits() as u8 }).collect();
    }
    let mut shape = shape(maker);
    if maker.rng.one_in(8) {
        reshape(maker, &mut shape);
    }
    if maker.rng.one_in(200) {
        shape.edition = maker.rng.below(16) as u32;
    }
    if maker.rng.one_in(200) {
        shape.tail = 1 << maker.rng.below(28);
    }
    let mut block = shape.block();
    if maker.rng.one_in(8) {
        damage(maker, &mut block);
    }
    block
}
