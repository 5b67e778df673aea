//! Compares the calls for parts with the reference, and with a changed copy of it that takes its sines and cosines from a list.
//! README.md beside says how to run it.

// The modules are those of the comparison, which uses more of them.
#![allow(dead_code)]

mod angles;
mod format;
mod maker;
mod ours;
mod outline;
mod pages;
mod part;
mod partcall;
mod partfollow;
mod partjudge;
mod partmaker;
mod rng;
mod shape;

use std::collections::BTreeMap;
use std::process::ExitCode;
use std::time::Instant;

use maker::Maker;
use outline::{Verdict, no};
use part::{KINDS, POINT_SET, Part};
use partcall::Lending;
use partfollow::{part_mesh, part_scene};
use partjudge::{Lists, answered, made};
use partmaker::LARGE;
use rng::Rng;

const MOST_SHOWN: usize = 10;
const NAN: u32 = 0x7fc0_0000;

#[derive(Default)]
struct Run {
    lending: Lending,
    parts: usize,
    calls: usize,
    pairs: usize,
    /// NaN that were made and are not 7fc00000 (FORMAT 9.1).
    other_nan: usize,
    counts: BTreeMap<String, usize>,
    differ: usize,
    /// Name each call before it is made, for one that does not come back.
    trace: bool,
}

impl Run {
    fn count(&mut self, what: String) {
        *self.counts.entry(what).or_default() += 1;
    }

    fn differs(&mut self, part: &Part, given: &str, what: &str) {
        self.differ += 1;
        if self.differ <= MOST_SHOWN {
            println!("{}, {given}: {what}", part.told());
        }
    }

    fn call(&mut self, part: &Part, lent: &[usize; 6], result: usize, lists: &Lists) {
        self.calls += 1;
        let given = format!("lent {lent:?}, result {result}");
        if self.trace {
            println!("{}, {given}", part.told());
        }
        let want = part.refusal(lent);
        if want != 0 {
            self.count(format!("calls refused by {want}"));
        }
        self.lending.lend(part, lent, result, (self.calls as u32).wrapping_mul(0x9e37_79b1));
        let number = partcall::call(part, &mut self.lending);
        let mut verdict = answered(want, number, &self.lending);
        if want == 0 {
            verdict = verdict.and_then(|()| made(part, lists, &self.lending));
        }
        if let Err(what) = verdict {
            self.differs(part, &given, &what);
        } else if want == 0 && part.is_solid() {
            let words = (0..4).flat_map(|k| &self.lending.made[k].elements()[..lists[k].len()]);
            self.other_nan += words.filter(|&&word| f32::from_bits(word).is_nan() && word != NAN).count();
        }
    }

    /// Calls that lend just enough and more, with surplus pairs, and calls that are refused: each slice one short or one of them;
    /// the pairs one short, with all slices and with none. Of most large parts only the first.
    fn calls(&mut self, part: &Part, lists: &Lists, rng: &mut Rng, each: bool) {
        let (asked, lends) = (part.lengths(), part.lends());
        self.call(part, &asked, 5, lists);
        if part.sizes().vertices > LARGE && !rng.one_in(8) {
            return;
        }
        let longer = std::array::from_fn(|k| if lends[k] { asked[k] + rng.below(9) } else { 0 });
        let mut more = part.clone();
        if part.is_round() {
            more.pairs.extend((0..rng.below(6)).map(|_| f32::from_bits(rng.bits())));
        }
        self.call(&more, &longer, rng.below(9), lists);
        self.call(part, &[0; 6], 5, lists);
        let short = rng.below(6);
        for k in (0..6).filter(|&k| asked[k] > 0 && (each || k == short)) {
            let mut lent = if rng.coin() { asked } else { longer };
            lent[k] = asked[k] - 1;
            self.call(part, &lent, 5, lists);
        }
        let pairs = part.sizes().pairs;
        if pairs > 0 {
            let mut fewer = part.clone();
            fewer.pairs.truncate(2 * pairs - rng.between(1, 2));
            self.call(&fewer, &asked, 5, lists);
            self.call(&fewer, &[0; 6], 5, lists);
        }
    }

    /// Whether the result and the lengths are the format's.
    fn as_the_format(&mut self, part: &Part, head: [u32; 5], lists: &Lists) {
        let lengths = std::array::from_fn(|k| lists[k].len());
        let checks: Verdict = no(head != part.head(), || format!("the reference's result is {head:?}"))
            .and_then(|()| no(lengths != part.lengths(), || format!("the reference's lengths are {lengths:?}")));
        if let Err(what) = checks {
            self.differs(part, "by the format", &what);
        }
    }

    /// The reference as it is, with the host's pairs.
    fn unchanged(&mut self, part: &mut Part, maker: &mut Maker, each: bool) {
        maker.turn_by_angle(part);
        part.pairs = part.host_pairs();
        let (head, lists) = part_mesh!(part_scene!(reference, part, part.turn).convert());
        self.as_the_format(part, head, &lists);
        self.count(format!("meshes, {}", KINDS[part.kind]));
        self.calls(part, &lists, &mut maker.rng, each);
    }

    /// The changed copy, with any pairs. It has to take as many as the format says, at the format's angles.
    fn listed(&mut self, part: &mut Part, maker: &mut Maker, each: bool) {
        maker.turn_by_any(part);
        part.pairs = maker.any_pairs(2 * part.sizes().pairs);
        let turn = if part.transform.len() < 8 { [0.0; 2] } else { [part.transform[2], part.transform[3]] };
        let finite = turn.iter().all(|x| x.is_finite());
        let scene = part_scene!(listed, part, if finite { listed::pairs::TURN } else { f32::NAN });
        listed::pairs::give(&part.pairs, turn);
        let converted = scene.convert();
        let taken = listed::pairs::taken();
        let (head, lists) = part_mesh!(converted);
        self.as_the_format(part, head, &lists);
        let angles = part.angles();
        let same = taken.iter().map(|x| x.to_bits()).eq(angles.iter().map(|x| x.to_bits()));
        if taken.len() != part.sizes().pairs || !same {
            self.differs(
                part,
                "by the format",
                &format!("the reference takes {} pairs, or at other angles", taken.len()),
            );
        }
        self.pairs += taken.len();
        self.count(format!("meshes with listed pairs, {}", KINDS[part.kind]));
        self.calls(part, &lists, &mut maker.rng, each);
    }

    fn part(&mut self, mut part: Part, maker: &mut Maker) {
        self.parts += 1;
        let each = part.sizes().vertices <= 200;
        if part.refusal(&[usize::MAX; 6]) == 7 {
            for lent in [[3 * 8193, 0, 4 * 8193, 0, 8193, 0], [0; 6]] {
                self.call(&part, &lent, 5, &Lists::default());
            }
            return;
        }
        self.unchanged(&mut part, maker, each);
        if part.kind != POINT_SET {
            self.listed(&mut part, maker, each);
        }
    }

    /// Whether every kind and every refusal was met.
    fn met_all(&self) -> bool {
        let met = |what: String| self.counts.contains_key(&what);
        let listed = KINDS[1..].iter().all(|kind| met(format!("meshes with listed pairs, {kind}")));
        listed
            && met(format!("meshes, {}", KINDS[POINT_SET]))
            && [7, 8, 10].iter().all(|n| met(format!("calls refused by {n}")))
    }
}

/// Compares; the answer is whether all agreed.
fn compare(count: u64, seed: u64, first: u64) -> bool {
    let start = Instant::now();
    let mut run = Run { trace: std::env::var_os("COMPARE_TRACE").is_some(), ..Run::default() };
    let mut maker = Maker { rng: Rng::new(seed, u64::MAX), angles: Default::default() };
    if first == 0 {
        for part in maker.fixed_parts() {
            run.part(part, &mut maker);
        }
        println!("{} fixed parts, {:.1} s", run.parts, start.elapsed().as_secs_f32());
    }
    for case in first..first + count {
        for kind in 0..KINDS.len() {
            maker.rng = Rng::new(seed, 5 * case + kind as u64);
            let part = maker.part(kind);
            run.part(part, &mut maker);
        }
    }
    for (what, n) in &run.counts {
        println!("{n:>9} {what}");
    }
    println!(
        "{:>9} pairs taken by the changed copy, {} NaN other than 7fc00000 made by ours",
        run.pairs, run.other_nan
    );
    let seconds = start.elapsed().as_secs_f32();
    println!("{} parts, {} calls, {} differ, {seconds:.1} s", run.parts, run.calls, run.differ);
    run.differ == 0 && run.other_nan == 0 && (first > 0 || run.met_all())
}

fn main() -> ExitCode {
    let words: Vec<String> = std::env::args().skip(1).collect();
    let number = |k: usize, otherwise| words.get(k).and_then(|w| w.parse().ok()).unwrap_or(otherwise);
    if compare(number(0, 300), number(1, 1), number(2, 0)) { ExitCode::SUCCESS } else { ExitCode::FAILURE }
}
