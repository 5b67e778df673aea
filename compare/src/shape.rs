//! A shape as the generator builds it, and its block.

use crate::format::{flag, widths};

#[derive(Clone)]
pub struct Shape {
    pub edition: u32,
    pub kind: u32,
    pub flags: [bool; 13],
    /// The 28 bits that should be 0.
    pub tail: u32,
    pub words: [u32; 12],
    /// The counts as written, and the words of the lists as written: a wrong block is one where they part.
    pub counts: [usize; 8],
    pub lists: [Vec<u32>; 8],
}

pub fn words(list: &[f32]) -> Vec<u32> {
    list.iter().map(|x| x.to_bits()).collect()
}

impl Shape {
    /// An empty shape with the defaults of the standard.
    pub fn new(kind: u32) -> Self {
        let mut flags = [false; 13];
        for k in [
            flag::CCW,
            flag::CONVEX,
            flag::SOLID,
            flag::COLOUR_PER_VERTEX,
            flag::NORMAL_PER_VERTEX,
            flag::BEGIN_CAP,
            flag::END_CAP,
        ] {
            flags[k] = true;
        }
        let plain = [0.0, 1.0, 1.0, 1.0, 0.0, 0.0, 0.0, 1.0, 1.0, 1.0, 0.0, 0.0f32];
        Self {
            edition: 1,
            kind,
            flags,
            tail: 0,
            words: plain.map(f32::to_bits),
            counts: [0; 8],
            lists: Default::default(),
        }
    }

    /// Words of an entry of list k.
    pub fn width(&self, k: usize) -> usize {
        widths(self.kind, self.flags[flag::ALPHA])[k]
    }

    /// Sets list k and its count.
    pub fn set(&mut self, k: usize, list: Vec<u32>) {
        self.counts[k] = list.len() / self.width(k).max(1);
        self.lists[k] = list;
    }

    pub fn set_floats(&mut self, k: usize, list: &[f32]) {
        self.set(k, words(list));
    }

    pub fn set_entries(&mut self, k: usize, list: &[i32]) {
        self.set(k, list.iter().map(|&v| v as u32).collect());
    }

    /// The crease angle and the host's cosine of it.
    pub fn crease(&mut self, angle: f32) {
        self.words[0] = angle.to_bits();
        self.words[1] = angle.cos().to_bits();
    }

    /// The block (FORMAT 2).
    pub fn block(&self) -> Vec<u8> {
        let mut bits = Bits::default();
        bits.put(self.edition, 4);
        bits.put(self.kind, 3);
        for on in self.flags {
            bits.put(on as u32, 1);
        }
        for n in self.counts {
            bits.put(n as u32, 14);
        }
        bits.put(self.tail, 28);
        let mut bytes = bits.0;
        let lists = self.lists.iter().flatten();
        bytes.extend(self.words.iter().chain(lists).flat_map(|w| w.to_be_bytes()));
        bytes
    }
}

/// Bits put one after the other, most significant first.
#[derive(Default)]
struct Bits(Vec<u8>, usize);

impl Bits {
    fn put(&mut self, value: u32, n: usize) {
        for k in (0..n).rev() {
            if self.1 % 8 == 0 {
                self.0.push(0);
            }
            let last = self.0.len() - 1;
            self.0[last] |= ((value >> k & 1) as u8) << (7 - self.1 % 8);
            self.1 += 1;
        }
    }
}
