//! Stands beside the changed copy of the reference, in which `ring`, a sphere's `phi` and the texture rotation take sine and
//! cosine from here (compare/run makes the copy).

use std::cell::RefCell;

/// The angle of a texture rotation whose sine and cosine are to be those given.
pub const TURN: f32 = 1.0;

#[derive(Default)]
struct List {
    pairs: Vec<f32>,
    turn: [f32; 2],
    /// The angles for which a pair was taken.
    angles: Vec<f32>,
}

thread_local! {
    static LIST: RefCell<List> = RefCell::default();
}

/// Begins a call with these pairs, the sine first, and with this sine and cosine of the texture rotation.
pub fn give(pairs: &[f32], turn: [f32; 2]) {
    LIST.set(List { pairs: pairs.to_vec(), turn, angles: Vec::new() });
}

/// Ends it: the angles for which pairs were taken, in the order of the calls.
pub fn taken() -> Vec<f32> {
    LIST.take().angles
}

/// The next pair; NaN where there is none.
pub(crate) fn take(angle: f32) -> (f32, f32) {
    LIST.with_borrow_mut(|list| {
        let k = 2 * list.angles.len();
        list.angles.push(angle);
        let at = |k: usize| list.pairs.get(k).copied().unwrap_or(f32::NAN);
        (at(k), at(k + 1))
    })
}

/// Sine and cosine of a texture rotation.
pub(crate) fn turn(angle: f32) -> (f32, f32) {
    LIST.with_borrow(|list| if angle == TURN { list.turn.into() } else { angle.sin_cos() })
}
