//! The rows of parts in the mode `bench`: the reference's `convert` beside our calls.

use std::f32::consts::{PI, TAU};
use std::hint::black_box;
use std::time::Duration;

use crate::bench::best;
use crate::part::{BOX, CONE, CYLINDER, POINT_SET, POINTS, Part, SPHERE};
use crate::partcall::{self, Lending};
use crate::partfollow::{part_mesh, part_scene};
use crate::partjudge::{answered, made};
use crate::rng::Rng;

const MOST: u32 = 1024;

struct Row {
    name: &'static str,
    part: Part,
    /// Whether our time has the filling of the pairs in it.
    filling: bool,
    /// Calls that are timed together.
    calls: usize,
}

fn rows() -> Vec<Row> {
    let round = |kind, texture_wanted| {
        let mut part = Part { kind, texture_wanted, size: [1.5, 2.5, 3.5], shown: [1; 3], ..Part::default() };
        (part.slices, part.stacks) = (MOST, MOST);
        part.pairs = part.host_pairs();
        part
    };
    let mut rng = Rng::new(1, 0);
    let mut words = |n: usize| (0..n).map(|_| rng.real().to_bits()).collect::<Vec<u32>>();
    let points = Part { has_colors: 1, points: words(3 * POINTS), colours: words(3 * POINTS), ..round(POINT_SET, 0) };
    let row = |name, part, calls| Row { name, part, filling: false, calls };
    let sphere = round(SPHERE, 1);
    vec![
        row("sphere of 1,024 by 1,024", round(SPHERE, 0), 1),
        row("sphere of 1,024 by 1,024 with texture", sphere.clone(), 1),
        Row { filling: true, ..row("the same, our time with the filling of the pairs", sphere, 1) },
        row("cylinder of 1,024 with texture", round(CYLINDER, 1), 10),
        row("cone of 1,024 with texture", round(CONE, 1), 10),
        row("PointSet of 8,192 with colours", points, 10),
        row("box with texture", round(BOX, 1), 100),
    ]
}

/// Fills the pairs of a sphere by the host's `sin_cos` (FORMAT 17.3).
fn fill(words: &mut [u32]) {
    let mut pairs = words.as_chunks_mut::<2>().0.iter_mut();
    let mut put = |angle: f32| {
        let (sine, cosine) = angle.sin_cos();
        *pairs.next().expect("a pair") = [sine.to_bits(), cosine.to_bits()];
    };
    for j in 0..=MOST {
        put(PI * (j as f32 / MOST as f32));
        (0..=MOST).for_each(|i| put(TAU * (i as f32 / MOST as f32)));
    }
}

/// The time of one of so many calls, in microseconds. What they gave is dropped outside of it.
fn micros<T>(calls: usize, mut run: impl FnMut() -> T) -> f64 {
    let all = || (0..calls).map(|_| black_box(run())).collect::<Vec<T>>();
    best(Duration::from_secs(1), all).0.as_secs_f64() * 1e6 / calls as f64
}

/// Prints the table of the rows whose names have the part, or of all for `parts`; the answer is whether all agreed.
pub fn bench(part: &str) -> bool {
    let rows: Vec<Row> = rows().into_iter().filter(|row| part == "parts" || row.name.contains(part)).collect();
    if rows.is_empty() {
        return true;
    }
    let mut lending = Lending::default();
    let mut agreed = true;
    println!(
        "\nFor the reference only the call is timed; our pairs are filled beforehand, but in the row that says otherwise.\n"
    );
    println!("| part | vertices | reference, µs | ours, µs | ours / reference |");
    println!("|---|---|---|---|---|");
    for Row { name, part, filling, calls } in rows {
        let scene = part_scene!(reference, &part, 0.0);
        let theirs = micros(calls, || scene.convert());
        lending.lend(&part, &part.lengths(), 5, 0);
        let mut number = 0;
        let mine = micros(calls, || {
            if filling {
                fill(lending.given[3].elements_mut());
            }
            number = partcall::call(&part, &mut lending);
        });
        println!("| {name} | {} | {theirs:.2} | {mine:.2} | {:.2} |", part.sizes().vertices, mine / theirs);
        let (_, lists) = part_mesh!(scene.convert());
        if let Err(what) = answered(0, number, &lending).and_then(|()| made(&part, &lists, &lending)) {
            println!("{name} differs: {what}");
            agreed = false;
        }
    }
    agreed
}
