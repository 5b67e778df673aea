//! The project's converter, called through its C interface, and the slices lent to it.

use crate::pages::Pages;

/// Names of the lent slices, in the order of the call. The result slice has numbers of the machine's size, two words each.
pub const NAMES: [&str; 9] =
    ["positions", "normals", "colours", "texture", "sources", "indices", "working numbers", "working floats", "result"];
pub const POSITIONS: usize = 0;
pub const SOURCES: usize = 4;
pub const INDICES: usize = 5;
pub const RESULT: usize = 8;

/// The colour of the call: the words of red, green, blue and alpha.
pub type Colour = [u32; 4];
pub const WHITE: Colour = [0x3f80_0000; 4];
pub const GREY: Colour = [0x3f4c_cccd, 0x3f4c_cccd, 0x3f4c_cccd, 0x3f80_0000];

/// The same as the call takes it.
#[cfg(ours)]
#[repr(C)]
struct Call {
    colour: Colour,
}

/// One lent slice, at the start or at the end of its pages: there the next byte outside may not be touched at all, and
/// what is left of the pages may not change.
#[derive(Default)]
pub struct Lent {
    pages: Pages,
    /// In bytes, from the start of the pages.
    first: usize,
    bytes: usize,
    /// Whether it is empty and has no place at all.
    nowhere: bool,
    /// What the pages held before the call.
    before: Vec<u32>,
}

impl Lent {
    /// Makes a slice of so many bytes; all its pages are filled by the salt, and what it is to hold is put into it.
    pub fn lend(&mut self, bytes: usize, salt: u32, at_end: bool, held: &[u8]) {
        self.pages.fit(bytes);
        self.bytes = bytes;
        self.nowhere = bytes == 0 && !at_end;
        self.first = if at_end { self.pages.bytes() - bytes } else { 0 };
        let words = self.pages.words_mut().iter_mut().enumerate();
        words.for_each(|(k, word)| *word = (k as u32).wrapping_mul(0x9e37_79b1) ^ salt);
        self.pages.bytes_mut()[self.first..][..held.len()].copy_from_slice(held);
        self.before.clear();
        self.before.extend_from_slice(self.pages.words());
    }

    /// The number of words.
    pub fn len(&self) -> usize {
        self.bytes / 4
    }

    pub fn elements(&self) -> &[u32] {
        &self.pages.words()[self.first / 4..][..self.len()]
    }

    pub fn elements_mut(&mut self) -> &mut [u32] {
        let (first, len) = (self.first / 4, self.len());
        &mut self.pages.words_mut()[first..][..len]
    }

    #[cfg(ours)]
    pub fn pointer<T>(&self) -> *mut T {
        if self.nowhere { std::ptr::null_mut() } else { self.pages.start().wrapping_add(self.first).cast() }
    }

    /// The first element from `from` on that is not as lent.
    pub fn changed(&self, from: usize) -> Option<usize> {
        let before = &self.before[self.first / 4..];
        (from..self.len()).find(|&k| self.elements()[k] != before[k])
    }

    /// Whether all its pages are what they were.
    pub fn stays(&self) -> bool {
        self.pages.words() == self.before
    }

    /// Whether something of the pages beside the slice changed.
    pub fn overrun(&self) -> bool {
        let (now, end) = (self.pages.words(), self.first / 4 + self.len());
        now[..self.first / 4] != self.before[..self.first / 4] || now[end..] != self.before[end..]
    }
}

/// The nine slices of a call, and its block.
#[derive(Default)]
pub struct Slices(pub [Lent; 9], Lent);

impl Slices {
    /// Lends memory for a block and slices of these lengths. The bits of the salt say which stand at the end of their
    /// pages, and it parts what they hold.
    pub fn lend(&mut self, block: &[u8], lengths: &[usize; 8], result: usize, salt: u32) {
        let all = lengths.iter().copied().chain([2 * result]);
        for (k, (slice, len)) in self.0.iter_mut().zip(all).enumerate() {
            slice.lend(4 * len, salt.wrapping_add(0x1357_9bdf * k as u32), salt >> k & 1 == 1, &[]);
        }
        self.1.lend(block.len(), salt, salt >> 9 & 1 == 1, block);
    }

    /// Whether the block is what it was.
    pub fn block_stays(&self) -> bool {
        self.1.stays()
    }
}

#[cfg(ours)]
unsafe extern "C" {
    fn sitemesh_convert(
        call: Call,
        block: *const u8,
        block_len: usize,
        positions: *mut u32,
        positions_len: usize,
        normals: *mut u32,
        normals_len: usize,
        colours: *mut u32,
        colours_len: usize,
        textures: *mut u32,
        textures_len: usize,
        sources: *mut u32,
        sources_len: usize,
        indices: *mut u32,
        indices_len: usize,
        words: *mut u32,
        words_len: usize,
        floats: *mut f32,
        floats_len: usize,
        result: *mut usize,
        result_len: usize,
    ) -> u32;
}

/// Whether the archive was there when this program was built.
pub fn present() -> bool {
    cfg!(ours)
}

/// One call: the refusal's number, or 0.
#[cfg(ours)]
pub fn convert(colour: Colour, slices: &mut Slices) -> u32 {
    let Slices(lent, block) = slices;
    let n: [usize; 9] = std::array::from_fn(|k| lent[k].len());
    // SAFETY: each pointer and length is of pages that nothing else uses; the result slice has two words to a number.
    unsafe {
        sitemesh_convert(
            Call { colour },
            block.pointer(),
            block.bytes,
            lent[0].pointer(),
            n[0],
            lent[1].pointer(),
            n[1],
            lent[2].pointer(),
            n[2],
            lent[3].pointer(),
            n[3],
            lent[4].pointer(),
            n[4],
            lent[5].pointer(),
            n[5],
            lent[6].pointer(),
            n[6],
            lent[7].pointer(),
            n[7],
            lent[8].pointer(),
            n[8] / 2,
        )
    }
}

#[cfg(not(ours))]
pub fn convert(_: Colour, _: &mut Slices) -> u32 {
    unreachable!("there is no archive to call")
}
