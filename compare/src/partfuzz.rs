//! Fuzzes the calls for parts, without the reference: any numbers, any pairs, slices that are exact, longer and shorter.

use std::collections::BTreeMap;
use std::time::Instant;

use crate::maker::Maker;
use crate::outline::Verdict;
use crate::part::{KINDS, Part};
use crate::partcall::{self, Lending};
use crate::partjudge::{answered, lists, made, outlined};
use crate::rng::Rng;
use crate::stack::{self, Stack};

const MOST_SHOWN: usize = 10;

#[derive(Default)]
struct Run {
    lending: Lending,
    stack: Stack,
    calls: usize,
    counts: BTreeMap<String, usize>,
    /// The most stack that a call used.
    deepest: usize,
    wrong: usize,
}

impl Run {
    /// One call; the answer is whether all was as it should be. `look` is asked where the call is to be accepted.
    fn call(&mut self, part: &Part, lent: &[usize; 6], rng: &mut Rng, look: impl Fn(&Lending) -> Verdict) -> bool {
        self.calls += 1;
        let (want, result) = (part.refusal(lent), rng.below(7));
        *self.counts.entry(format!("{}, answer {want}", KINDS[part.kind])).or_default() += 1;
        self.lending.lend(part, lent, result, rng.bits());
        let (mut number, lending) = (0, &mut self.lending);
        let depth = self.stack.run(crate::STACK, || number = partcall::call(part, lending));
        self.deepest = self.deepest.max(depth);
        let mut verdict = answered(want, number, &self.lending);
        if want == 0 {
            verdict = verdict.and_then(|()| look(&self.lending));
        }
        if let Err(what) = &verdict {
            self.wrong += 1;
            if self.wrong <= MOST_SHOWN {
                println!("{}, lent {lent:?}, result {result}: {what}", part.told());
            }
        }
        verdict.is_ok()
    }

    /// Exact slices; then longer ones, one short, some shorter, any lengths, with these pairs and with fewer.
    fn part(&mut self, part: &mut Part, rng: &mut Rng) {
        let (asked, lends) = (part.lengths(), part.lends());
        let exact = self.call(part, &asked, rng, |lending| outlined(part, lending));
        if !exact || part.refusal(&asked) != 0 {
            return;
        }
        let first = lists(part, &self.lending);
        let any = |rng: &mut Rng, below: usize, above: usize| {
            std::array::from_fn(|k| {
                if lends[k] { rng.between(asked[k] - asked[k].min(below), asked[k] + above) } else { 0 }
            })
        };
        let mut one_short = any(rng, 0, 70);
        let k = rng.below(6);
        one_short[k] = asked[k].saturating_sub(1);
        for lent in [any(rng, 0, 70), one_short, any(rng, 1, 1), any(rng, usize::MAX, 70)] {
            self.call(part, &lent, rng, |lending| made(part, &first, lending));
        }
        let enough = 2 * part.sizes().pairs;
        for pairs in [enough, enough.saturating_sub(1), rng.below(enough + 1)] {
            part.pairs.truncate(pairs);
            for lent in [any(rng, 0, 70), any(rng, usize::MAX, 70)] {
                self.call(part, &lent, rng, |lending| made(part, &first, lending));
            }
        }
    }

    /// Whether each part was made and refused by what it can be refused by.
    fn met_all(&self) -> bool {
        let refusals = [&[0, 7, 8][..], &[0, 8], &[0, 8, 10], &[0, 8, 10], &[0, 8, 10]];
        let met = |kind: &str, n: u32| self.counts.contains_key(&format!("{kind}, answer {n}"));
        KINDS.iter().zip(refusals).all(|(kind, numbers)| numbers.iter().all(|&n| met(kind, n)))
    }
}

/// Fuzzes; the answer is whether nothing was wrong.
pub fn fuzz(count: u64, seed: u64, first: u64) -> bool {
    let start = Instant::now();
    let mut run = Run::default();
    let mut maker = Maker { rng: Rng::new(seed, u64::MAX), angles: Default::default() };
    for case in first..first + count {
        stack::name_call(&format!("part {case} of seed {seed}"));
        maker.rng = Rng::new(seed, case);
        let mut part = maker.part(case as usize % KINDS.len());
        maker.turn_by_any(&mut part);
        let extra = maker.rng.below(4);
        part.pairs = maker.any_pairs(2 * part.sizes().pairs + extra);
        run.part(&mut part, &mut maker.rng);
    }
    for (what, n) in &run.counts {
        println!("{n:>9} {what}");
    }
    let seconds = start.elapsed().as_secs_f32();
    println!("{count} parts, {} calls, {} bytes of stack, {} wrong, {seconds:.1} s", run.calls, run.deepest, run.wrong);
    run.wrong == 0 && (first > 0 || run.met_all())
}
