//! Fuzzes the project's converter, without the reference: blocks of all kinds and sizes, good, damaged and random, each
//! with slices that are exact, longer and one short, next to pages that may not be touched; and the calls for parts likewise.
//! README.md beside says how to run it.

// The modules are those of the comparison, which uses more of them.
#![allow(dead_code)]

mod angles;
mod cases;
mod edges;
mod faces;
mod fixed;
mod format;
mod maker;
mod ours;
mod outline;
mod outlines;
mod pages;
mod part;
mod partcall;
mod partfuzz;
mod partjudge;
mod partmaker;
mod rng;
mod seams;
mod shape;
mod solids;
mod stack;
mod wild;

use std::collections::BTreeMap;
use std::process::ExitCode;
use std::time::Instant;

use format::{Block, LIMIT, LINES, Sizes, accept, lengths};
use maker::Maker;
use ours::{Colour, GREY, NAMES, RESULT, Slices, WHITE};
use outline::{Outline, Verdict, answered, holds, outline, outlined, told, zeros};
use rng::Rng;
use stack::Stack;

const MOST_SHOWN: usize = 10;
const BELOW: &str = "meshes with a value below -1 in coordIndex";
const ANY: [usize; 8] = [usize::MAX; 8];
/// The most that a block can have: one face of all corners has the most indices.
const MOST: Sizes = Sizes { points: LIMIT, corners: LIMIT, indices: 3 * (LIMIT - 2) };
/// The stack that a call is given; hosts/sitemesh.h says that it is enough.
const STACK: usize = 8192;

/// What the first call on a block made: the result and the words of the six slices.
struct Made {
    head: [u32; 5],
    lists: [Vec<u32>; 6],
}

impl Made {
    fn read(o: &Outline, slices: &Slices) -> Self {
        let words = slices.0[RESULT].elements();
        let head: [u32; 5] = std::array::from_fn(|k| words[2 * k]);
        let made = o.made(head[0] as usize);
        Self { head, lists: std::array::from_fn(|k| slices.0[k].elements()[..made[k]].to_vec()) }
    }

    /// Another call makes the same, whatever its slices held and wherever they stand.
    fn again(&self, slices: &Slices) -> Verdict {
        told(slices, self.head)?;
        for (k, list) in self.lists.iter().enumerate() {
            holds(NAMES[k], &slices.0[k], list)?;
        }
        zeros(slices)
    }
}

struct Run {
    rng: Rng,
    slices: Slices,
    stack: Stack,
    blocks: usize,
    calls: usize,
    counts: BTreeMap<String, usize>,
    /// The colour of the calls on a block that makes colours; every other call has one of its own.
    colour: Colour,
    colour_counts: bool,
    /// The most stack that a call used.
    deepest: usize,
    wrong: usize,
    /// The block's name, and the folder for blocks that go wrong.
    name: String,
    folder: String,
}

impl Run {
    fn new(seed: u64, folder: &str) -> Self {
        Self {
            rng: Rng::new(seed, u64::MAX),
            slices: Slices::default(),
            stack: Stack::default(),
            blocks: 0,
            calls: 0,
            counts: BTreeMap::new(),
            colour: WHITE,
            colour_counts: false,
            deepest: 0,
            wrong: 0,
            name: String::new(),
            folder: folder.into(),
        }
    }

    fn count(&mut self, what: String) {
        *self.counts.entry(what).or_default() += 1;
    }

    fn any_colour(&mut self) -> Colour {
        match self.rng.below(4) {
            0 => WHITE,
            1 => GREY,
            _ => std::array::from_fn(|_| self.rng.bits()),
        }
    }

    /// One call; the answer is whether all was as it should be. `look` is asked where the call is to be accepted.
    fn call(&mut self, block: &[u8], lent: &[usize; 8], result: usize, look: impl Fn(&Slices) -> Verdict) -> bool {
        let colour = if self.colour_counts { self.colour } else { self.any_colour() };
        self.calls += 1;
        let want = accept(block, lent).err().unwrap_or(0);
        if want != 0 {
            self.count(format!("calls refused by {want}"));
        }
        self.slices.lend(block, lent, result, self.rng.bits());
        let (mut number, slices) = (0, &mut self.slices);
        let depth = self.stack.run(STACK, || number = ours::convert(colour, slices));
        self.deepest = self.deepest.max(depth);
        let mut verdict = answered(want, number, &self.slices);
        if verdict.is_ok() && want == 0 {
            verdict = look(&self.slices);
        }
        if let Err(what) = &verdict {
            self.wrong += 1;
            if self.wrong <= MOST_SHOWN {
                let file = format!("{}/wrong-{}.block", self.folder, self.wrong);
                let given = format!("lent {lent:?}, result {result}, colour {colour:x?}");
                println!("{}, {given}: {what} ({} bytes in {file})", self.name, block.len());
                let _ = std::fs::write(file, block);
            }
        }
        verdict.is_ok()
    }

    /// A block that has a mesh: exact slices, then longer ones, each slice one short (one of them where the block is
    /// large), and any lengths up to the exact ones.
    fn accepted(&mut self, block: &[u8], read: &Block, o: &Outline) {
        let asked = lengths(o.sizes);
        let whole = self.rng.between(5, 6);
        let look = |slices: &Slices| -> Verdict {
            outlined(o, slices)?;
            if read.kind == LINES { Ok(()) } else { edges::look(read, o.sizes.indices, slices).map(drop) }
        };
        if !self.call(block, &asked, whole, look) {
            return;
        }
        let made = Made::read(o, &self.slices);
        let mut longer = asked.map(|n| n + self.rng.below(70));
        if self.rng.one_in(50) {
            longer = lengths(MOST);
        }
        let least = asked.map(|n| self.rng.between(n - n.min(2), n));
        let mut lendings = vec![longer, least];
        let short = self.rng.below(8);
        for k in (0..8).filter(|&k| asked[k] > 0 && (k == short || o.sizes.corners <= 64)) {
            let mut lent = if self.rng.coin() { asked } else { longer };
            lent[k] = asked[k] - 1;
            lendings.push(lent);
        }
        for lent in lendings {
            let result = self.rng.below(7);
            self.call(block, &lent, result, |slices| made.again(slices));
        }
    }

    fn block(&mut self, name: String, block: &[u8]) {
        stack::name_call(&name);
        self.name = name;
        self.blocks += 1;
        self.colour = self.any_colour();
        self.colour_counts = Block::read(block).is_ok_and(|read| read.makes_colours());
        match accept(block, &ANY) {
            Ok((read, sizes)) => {
                self.count(format!("meshes of kind {}", read.kind));
                if read.has_below() {
                    self.count(BELOW.into());
                }
                self.accepted(block, &read, &outline(&read, sizes));
            }
            Err(_) => {
                let some = std::array::from_fn(|_| self.rng.below(70));
                for (lent, result) in [(some, 5), ([0; 8], 0)] {
                    self.call(block, &lent, result, |_| Ok(()));
                }
            }
        }
    }

    /// Whether every kind, every refusal and a value below -1 was met.
    fn met_all(&self) -> bool {
        let kinds = (0..8).all(|k| self.counts.contains_key(&format!("meshes of kind {k}")));
        kinds && self.counts.contains_key(BELOW) && (1..10).all(|n| self.counts.contains_key(&format!("calls refused by {n}")))
    }
}

/// Fuzzes; the answer is whether nothing was wrong.
fn fuzz(count: u64, seed: u64, first: u64, folder: &str) -> bool {
    let start = Instant::now();
    let mut run = Run::new(seed, folder);
    let mut maker = Maker { rng: Rng::new(seed, u64::MAX), angles: Default::default() };
    if first == 0 {
        for (name, block) in fixed::blocks(&mut maker).into_iter().chain(fixed::colourless()) {
            run.block(name, &block);
        }
    }
    for case in first..first + count {
        maker.rng = Rng::new(seed, case);
        let block = wild::block(&mut maker);
        run.rng = Rng::new(seed, !case);
        run.block(format!("case {case} of seed {seed}"), &block);
    }
    for (what, n) in &run.counts {
        println!("{n:>9} {what}");
    }
    let (seconds, depth) = (start.elapsed().as_secs_f32(), run.deepest);
    println!("{} blocks, {} calls, {depth} bytes of stack, {} wrong, {seconds:.1} s", run.blocks, run.calls, run.wrong);
    run.wrong == 0 && (first > 0 || run.met_all())
}

fn main() -> ExitCode {
    let words: Vec<String> = std::env::args().skip(1).collect();
    let number = |k: usize, otherwise| words.get(k).and_then(|w| w.parse().ok()).unwrap_or(otherwise);
    let folder = words.first().expect("the folder for what goes wrong");
    let (count, seed, first) = (number(1, 2000), number(2, 1), number(3, 0));
    stack::tell_faults();
    let right = [partfuzz::fuzz(count, seed, first), fuzz(count, seed, first, folder)];
    if right == [true; 2] { ExitCode::SUCCESS } else { ExitCode::FAILURE }
}
