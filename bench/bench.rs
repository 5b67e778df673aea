//! The mode `bench`: times of the reference's `convert` and of ours on the same blocks.

use std::time::{Duration, Instant};

use crate::blocks;
use crate::expected::expected;
use crate::follow::given;
use crate::format::{Block, FACES, LIMIT, LINES, Sizes, lengths};
use crate::judge::judge;
use crate::maker::Maker;
use crate::ours::{self, Slices, WHITE};
use crate::outlines;
use crate::rng::Rng;
use crate::shape::Shape;
use reference::scene::Scene;

/// The shortest of several runs, and what the last gave: at least one, then as many as fit into the time, 50 at most.
pub fn best<T>(time: Duration, mut run: impl FnMut() -> T) -> (Duration, T) {
    let start = Instant::now();
    let mut least = Duration::MAX;
    let mut runs = 0;
    loop {
        let one = Instant::now();
        let made = run();
        least = least.min(one.elapsed());
        runs += 1;
        if runs == 50 || start.elapsed() > time {
            return (least, made);
        }
    }
}

pub struct Timed {
    pub sizes: Sizes,
    pub theirs: Duration,
    pub mine: Duration,
    /// What differs, if something does.
    pub differs: Option<String>,
}

impl Timed {
    pub fn ratio(&self) -> f64 {
        self.mine.as_secs_f64() / self.theirs.as_secs_f64()
    }
}

pub fn ms(d: Duration) -> f64 {
    d.as_secs_f64() * 1000.0
}

/// The reference's time and ours for a shape, each within `time`; none where one of them takes no such block.
pub fn timed(shape: &Shape, maker: &Maker, slices: &mut Slices, time: Duration) -> Option<Timed> {
    let bytes = shape.block();
    let block = Block::read(&bytes).ok()?;
    let sizes = block.sizes().ok()?;
    let scene = Scene::new(given(&block, &maker.angles)?);
    let (theirs, made) = best(time, || scene.convert());
    made?;
    slices.lend(&bytes, &lengths(sizes), 5, 0);
    let (mine, number) = best(time, || ours::convert(WHITE, slices));
    let differs = judge(&expected(&bytes, &lengths(sizes), &maker.angles, WHITE), number, slices).err();
    Some(Timed { sizes, theirs, mine, differs })
}

/// A block of the table, for so many entries.
type Made = Box<dyn Fn(&mut Maker, usize) -> Shape>;

fn rows() -> Vec<(&'static str, Made)> {
    vec![
        ("grid", Box::new(blocks::grid)),
        ("faces of 3 corners", Box::new(blocks::triangles)),
        ("faces of 4 corners over heights", Box::new(blocks::quads)),
        ("strip set", Box::new(blocks::strip)),
        ("fan set, own face", Box::new(|maker, n| blocks::fan(maker, blocks::OWN, n))),
        ("fan set, faces within the crease angle", Box::new(|maker, n| blocks::fan(maker, blocks::CREASE, n))),
        ("fan set, every face", Box::new(|maker, n| blocks::fan(maker, blocks::EVERY, n))),
        ("triangle set", Box::new(blocks::triangle_set)),
        ("quad set", Box::new(blocks::quad_set)),
        ("concave faces of 127 corners", Box::new(|_, n| blocks::stars(n))),
        ("extrusion", Box::new(|_, n| blocks::duct(n))),
        ("lines", Box::new(blocks::lines)),
        ("hub, own face", Box::new(|_, n| blocks::hub(blocks::OWN, n))),
        ("hub, faces within the crease angle", Box::new(|_, n| blocks::hub(blocks::CREASE, n))),
        ("hub, every face", Box::new(|_, n| blocks::hub(blocks::EVERY, n))),
        ("one point with other colours, face set", Box::new(|_, n| blocks::one_point(FACES, blocks::OWN, n))),
        ("one point with other colours, every face", Box::new(|_, n| blocks::one_point(FACES, blocks::EVERY, n))),
        ("one point with other colours, line set", Box::new(|_, n| blocks::one_point(LINES, blocks::OWN, n))),
        ("one point, colours made against the hash", Box::new(blocks::against_the_hash)),
        ("one point, texture made against the hash", Box::new(|_, n| blocks::against_the_hash_at_the_end(n))),
        ("three points, the worst found", Box::new(blocks::three_points)),
        ("soup with every attribute", Box::new(blocks::soup)),
        ("soup as a triangle set with every attribute", Box::new(blocks::soup_set)),
        ("comb", Box::new(|_, n| blocks::plates(&[outlines::comb(n / 2)]))),
        ("combs in each other", Box::new(|_, n| blocks::plates(&[outlines::zipper(n / 2)]))),
        ("spiral", Box::new(|_, n| blocks::plates(&[outlines::spiral(n / 2)]))),
        ("faces of 100 corners over 47 points, own face", Box::new(blocks::tangled)),
    ]
}

/// The sizes of the growth, up to what a block may list.
const SIZES: [usize; 4] = [LIMIT / 8, LIMIT / 4, LIMIT / 2, LIMIT];

/// A number with a comma before each three digits.
fn grouped(n: usize) -> String {
    if n < 1000 { n.to_string() } else { format!("{},{:03}", grouped(n / 1000), n % 1000) }
}

/// Prints the tables of the rows whose names have the part; the answer is whether all agreed.
pub fn bench(part: &str) -> bool {
    let mut maker = Maker { rng: Rng::new(1, 0), angles: Default::default() };
    let mut slices = Slices::default();
    let mut agreed = true;
    let mut grown = Vec::new();
    let rows: Vec<_> = rows().into_iter().filter(|(name, _)| name.contains(part)).collect();
    if rows.is_empty() {
        return true;
    }
    println!("| block | corners | reference, ms | ours, ms | ours / reference |");
    println!("|---|---|---|---|---|");
    for (name, make) in rows {
        let mut cells = Vec::new();
        for size in SIZES.into_iter().rev() {
            let shape = make(&mut maker, size);
            let t = timed(&shape, &maker, &mut slices, Duration::from_secs(1)).expect("a mesh");
            if size == LIMIT {
                let (theirs, mine) = (ms(t.theirs), ms(t.mine));
                println!("| {name} | {} | {theirs:.3} | {mine:.3} | {:.2} |", t.sizes.corners, t.ratio());
            }
            if let Some(what) = &t.differs {
                println!("{name} of {size} differs: {what}");
                agreed = false;
            }
            cells.insert(0, format!("{:.3} ({:.2})", ms(t.mine), t.ratio()));
        }
        grown.push(format!("| {name} | {} |", cells.join(" | ")));
    }
    println!("\n| block | {} |", SIZES.map(grouped).join(" | "));
    println!("|---{}|", "|---".repeat(SIZES.len()));
    grown.iter().for_each(|row| println!("{row}"));
    agreed
}
