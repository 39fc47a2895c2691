//! Named changes of a table of bones.

use crate::rng::Rng;
use crate::rows::{Place, BONE};
use crate::words::{word, Temper};

/// A change of the row given, and its name.
pub type RowChange = (&'static str, fn(&mut [u32], usize, &mut Rng));

/// Every change.
pub const ROW_CHANGES: [RowChange; 13] = [
    ("parent", |rows, at, rng| {
        let to = near(rows.len() / BONE, rng);
        set_half(&mut rows[at + 10], 1, to);
    }),
    ("any_parent", |rows, at, rng| set_half(&mut rows[at + 10], 1, rng.next() as u16)),
    ("sibling", |rows, at, rng| set_half(&mut rows[at + 10], 0, rng.next() as u16)),
    ("index", |rows, at, rng| {
        let to = near(rows.len() / BONE, rng);
        set_half(&mut rows[at + 11], 1, to);
    }),
    ("flags", |rows, at, rng| set_half(&mut rows[at + 11], 0, rng.next() as u16)),
    ("tag", |rows, at, rng| set_half(&mut rows[at + 12], 0, (rng.next() as u16) >> rng.below(16))),
    ("spare_half", |rows, at, rng| set_half(&mut rows[at + 12], 1, rng.next() as u16)),
    ("float", |rows, at, rng| rows[at + rng.below(10)] = word(rng, Temper::Wild)),
    ("kept_word", |rows, at, rng| rows[at + 13 + rng.below(4)] = word(rng, Temper::Wild)),
    ("no_name", |rows, at, _| set_place(rows, at, |_| Place::default())),
    ("name_of_another", |rows, at, rng| {
        let other = BONE * rng.below(rows.len() / BONE);
        let place = Place::of(&rows[other..]);
        set_place(rows, at, |_| place);
    }),
    ("name_cut", |rows, at, rng| set_place(rows, at, |p| Place { size: p.size.min(rng.below(4) as u64), ..p })),
    ("rows_exchanged", |rows, at, rng| {
        let other = BONE * rng.below(rows.len() / BONE);
        (0..BONE).for_each(|word| rows.swap(at + word, other + word));
    }),
];

/// Makes one to three changes of a table, which has at least a row.
pub fn change_rows(rows: &mut [u32], rng: &mut Rng) {
    for _ in 0..1 + rng.below(3) {
        let row = BONE * rng.below(rows.len() / BONE);
        rng.pick(&ROW_CHANGES).1(rows, row, rng);
    }
}

/// A number from -1 to one behind the positions.
fn near(n: usize, rng: &mut Rng) -> u16 {
    (rng.below(n + 2) as u16).wrapping_sub(1)
}

fn set_half(word: &mut u32, upper: u32, to: u16) {
    let shift = 16 * upper;
    *word = *word & !(0xFFFF << shift) | (to as u32) << shift;
}

fn set_place(rows: &mut [u32], at: usize, to: impl FnOnce(Place) -> Place) {
    let words = to(Place::of(&rows[at..])).words();
    rows[at + 17..at + BONE].copy_from_slice(&words);
}
