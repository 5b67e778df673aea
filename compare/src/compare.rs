//! The mode `compare`: fixed and generated blocks, each given to both.

use std::cmp::Ordering;
use std::collections::BTreeMap;
use std::time::Instant;

use crate::cases;
use crate::edges;
use crate::expected::{Expected, expected};
use crate::fixed;
use crate::follow::given;
use crate::format::{Block, LINES, accept, lengths};
use crate::judge::judge;
use crate::maker::Maker;
use crate::ours::{self, Colour, GREY, Slices, WHITE};
use crate::outline::Verdict;
use crate::rng::Rng;
use crate::seam;

const MOST_SHOWN: usize = 10;
const ANY: [usize; 8] = [usize::MAX; 8];
const NANS: [u32; 6] = [0x7fc0_0000, 0xffc0_0000, 0x7f80_0001, 0xff80_0001, 0xffff_ffff, 0x7fc1_2345];

/// Vertices that the colour joins, and vertices that white joined.
const FEWER: &str = "with another colour, fewer vertices than with white";
const MORE: &str = "with another colour, more vertices than with white";
/// coordIndex is not the reference's own there (follow.rs).
const BELOW: &str = "meshes with a value below -1 in coordIndex";
/// The changed copy judges these (seam.rs).
const JOINED: &str = "meshes with joined columns";
const SMOOTHED: &str = "meshes with joined columns and other normals than the reference's own";

#[derive(Default)]
struct Run {
    slices: Slices,
    blocks: usize,
    calls: usize,
    counts: BTreeMap<String, usize>,
    differ: usize,
    /// Meshes whose edges were counted (edges.rs), and those that are not closed as their faces are.
    edged: usize,
    exceptions: usize,
    /// Where blocks that differ, and exceptions, are written.
    folder: String,
    /// Name each call before it is made, for one that does not come back.
    trace: bool,
}

impl Run {
    fn count(&mut self, what: String) {
        *self.counts.entry(what).or_default() += 1;
    }

    fn call(&mut self, name: &str, block: &[u8], lent: &[usize; 8], result: usize, colour: Colour, base: &Expected) {
        self.calls += 1;
        let accepted = accept(block, lent);
        let refused;
        let want = match accepted {
            Err(n) => {
                self.count(format!("calls refused by {n}"));
                refused = Expected::Refused(n);
                &refused
            }
            Ok(_) => base,
        };
        let given = || format!("lent {lent:?}, result {result}, colour {colour:x?}");
        if self.trace {
            println!("{name}, {} bytes, {}", block.len(), given());
        }
        self.slices.lend(block, lent, result, self.calls as u32);
        let number = ours::convert(colour, &mut self.slices);
        if let Err(what) = judge(want, number, &self.slices) {
            self.differ += 1;
            self.show("differs", self.differ, block, format!("{name}, {}: {what}", given()));
        }
        if let (Ok((read, sizes)), 0) = (accepted, number)
            && read.kind != LINES
            && let Err(what) = self.count_edges(&read, sizes.indices)
        {
            self.exceptions += 1;
            self.show("exception", self.exceptions, block, format!("{name}, {}: {what}", given()));
        }
    }

    fn count_edges(&mut self, block: &Block, indices: usize) -> Verdict {
        self.edged += 1;
        let met = edges::look(block, indices, &self.slices)?;
        for (what, _) in edges::MET.iter().zip(met).filter(|(_, is_met)| *is_met) {
            self.count(what.to_string());
        }
        Ok(())
    }

    /// Tells what is wrong with a call, and writes its block, as long as there are few.
    fn show(&self, kind: &str, n: usize, block: &[u8], what: String) {
        if n <= MOST_SHOWN {
            let file = format!("{}/{kind}-{n}.block", self.folder);
            println!("{what} ({} bytes in {file})", block.len());
            let _ = std::fs::write(file, block);
        }
    }

    /// Counts accepted blocks of which the reference alone is not the judge.
    fn count_judges(&mut self, block: &Block, made: bool, maker: &Maker) {
        if block.has_below() {
            self.count(BELOW.into());
        }
        if made && block.joins_columns() {
            self.count(JOINED.into());
            if given(block, &maker.angles).is_some_and(|fields| seam::shows(&fields)) {
                self.count(SMOOTHED.into());
            }
        }
    }

    fn base(&mut self, block: &[u8], maker: &Maker) -> Expected {
        self.blocks += 1;
        let base = expected(block, &ANY, &maker.angles, WHITE);
        let read = Block::read(block);
        let kind = read.as_ref().map_or(9, |b| b.kind);
        if let (Ok(read), false) = (&read, matches!(base, Expected::Refused(_))) {
            self.count_judges(read, matches!(base, Expected::Made(..)), maker);
        }
        self.count(match &base {
            Expected::Refused(n) => format!("blocks refused by {n}"),
            Expected::Made(_, false) => format!("meshes of kind {kind}"),
            Expected::Made(_, true) => format!("meshes of kind {kind}, settled by the definition"),
            Expected::Outlined(_) => format!("meshes of kind {kind}, taken out"),
        });
        base
    }

    /// A call with a colour that is not white; `base` is the answer with white.
    fn coloured(&mut self, name: &str, block: &[u8], colour: Colour, maker: &Maker, base: &Expected) {
        let want = expected(block, &ANY, &maker.angles, colour);
        if let (Expected::Made(white, _), Expected::Made(mesh, _)) = (base, &want) {
            self.count("meshes with another colour than white".into());
            if white.colours != mesh.colours {
                self.count("with another colour, where one is missing".into());
            }
            match mesh.sources.len().cmp(&white.sources.len()) {
                Ordering::Less => self.count(FEWER.into()),
                Ordering::Equal => {}
                Ordering::Greater => self.count(MORE.into()),
            }
        }
        self.call(name, block, &Self::asked(block), 5, colour, &want);
    }

    /// Lengths that serve a block: those asked for, or any for a refused one.
    fn asked(block: &[u8]) -> [usize; 8] {
        accept(block, &ANY).map_or([24; 8], |(_, sizes)| lengths(sizes))
    }

    /// A generated block: one call that lends enough, at times one that lends too little.
    fn generated(&mut self, name: &str, block: &[u8], maker: &mut Maker) {
        let base = self.base(block, maker);
        let asked = Self::asked(block);
        let rng = &mut maker.rng;
        let mut lent = asked;
        if rng.coin() {
            lent = lent.map(|n| n + rng.below(5));
        }
        let result = if rng.one_in(8) { rng.below(9) } else { 5 };
        let short = rng.below(8);
        let less = if rng.one_in(3) { 1 + rng.below(asked[short]) } else { 1 };
        let again = rng.one_in(4);
        self.call(name, block, &lent, result, WHITE, &base);
        let colour = some_colour(block, &mut maker.rng);
        self.coloured(name, block, colour, maker, &base);
        if again && asked[short] > 0 {
            lent[short] = asked[short].saturating_sub(less);
            self.call(name, block, &lent, result, colour, &base);
        }
    }

    /// A fixed block: each slice one short and one long too.
    fn fixed(&mut self, name: &str, block: &[u8], maker: &Maker) {
        let base = self.base(block, maker);
        let asked = Self::asked(block);
        self.call(name, block, &asked, 5, WHITE, &base);
        self.call(name, block, &[0; 8], 5, GREY, &base);
        self.call(name, block, &asked.map(|n| n + 7), 8, WHITE, &base);
        for colour in [GREY, [0x7fa1_2345, 0xffc0_0001, 0x8000_0000, 0x7fff_ffff]] {
            self.coloured(name, block, colour, maker, &base);
        }
        let small = asked[4] <= 64;
        for k in 0..8 {
            let mut lent = asked;
            if asked[k] > 0 {
                lent[k] -= 1;
                self.call(name, block, &lent, 5, WHITE, &base);
                lent[k] += 1;
            }
            lent[k] += 1;
            if small {
                self.call(name, block, &lent, k, WHITE, &base);
            }
        }
    }
}

/// Grey, a colour that the block lists, NaN of any bits, alpha other than 1, or any bits; never white.
fn some_colour(bytes: &[u8], rng: &mut Rng) -> Colour {
    let mut colour = GREY;
    match rng.below(8) {
        0 | 1 => {}
        2..=4 => {
            let listed = Block::read(bytes).map_or(Vec::new(), |block| block.colours());
            if !listed.is_empty() {
                colour = rng.pick(&listed);
            }
        }
        5 => colour = std::array::from_fn(|_| rng.pick(&NANS)),
        6 => colour[3] = rng.pick(&[0, 0x8000_0000, 0x3f00_0000, 0x7fc0_0000]),
        _ => colour = std::array::from_fn(|_| rng.bits()),
    }
    if colour == WHITE { GREY } else { colour }
}

/// Compares; the answer is whether all agreed.
pub fn compare(count: u64, seed: u64, first: u64, folder: &str) -> bool {
    let start = Instant::now();
    let trace = std::env::var_os("COMPARE_TRACE").is_some();
    let mut run = Run { folder: folder.into(), trace, ..Run::default() };
    let mut maker = Maker { rng: Rng::new(seed, u64::MAX), angles: Default::default() };
    if first == 0 {
        for (name, block) in fixed::blocks(&mut maker).into_iter().chain(fixed::colourless()) {
            run.fixed(&name, &block, &maker);
        }
        println!("{} fixed blocks, {:.1} s", run.blocks, start.elapsed().as_secs_f32());
    }
    for case in first..first + count {
        maker.rng = Rng::new(seed, case);
        let block = cases::block(&mut maker);
        run.generated(&format!("case {case} of seed {seed}"), &block, &mut maker);
    }
    for (what, n) in &run.counts {
        println!("{n:>9} {what}");
    }
    let seconds = start.elapsed().as_secs_f32();
    println!("edges of {} meshes counted, {} exceptions", run.edged, run.exceptions);
    println!("{} blocks, {} calls, {} differ, {seconds:.1} s", run.blocks, run.calls, run.differ);
    let asked = [FEWER, MORE, BELOW, JOINED, SMOOTHED];
    let met = asked.iter().chain(&edges::MET).all(|&what| run.counts.contains_key(what));
    run.differ == 0 && run.exceptions == 0 && (first > 0 || met)
}
