//! The methods of a cursor: our library against the published Rust, from every position of small sections and random ones.

use crate::difference::{compare, hex, Difference, Input, Place};
use crate::extent::Extent;
use crate::lent::Lent;
use crate::smaller::smaller_bytes;
use cases::Rng;
use link::Cursor;
use oracle::{cursor_in_turn, GRAPHICS_BASE, SYSTEM_BASE};
use std::path::Path;

/// The bytes that all reads take, and the numbers that they come to.
const BYTES: usize = 49;
const NUMBERS: usize = 15;

/// A cursor over a section at a position, the bytes that it skips, and how many words are lent for its numbers.
#[derive(Clone)]
struct At {
    section: Vec<u8>,
    pos: usize,
    base: u64,
    skip: usize,
    room: usize,
}

impl Input for At {
    fn smaller(&self) -> impl Iterator<Item = Self> {
        let sections = smaller_bytes(&self.section).map(|section| At { section, ..self.clone() });
        let positions = [self.pos / 2, self.pos.saturating_sub(1)].into_iter().filter(|&pos| pos < self.pos);
        let skips = [0, self.skip / 2].into_iter().filter(|&skip| skip < self.skip);
        sections.chain(positions.map(|pos| At { pos, ..self.clone() })).chain(skips.map(|skip| At { skip, ..self.clone() }))
    }

    fn text(&self) -> String {
        let At { section, pos, base, skip, room } = self;
        format!("bytes {}\npos {pos}\nbase {base:x}\nskip {skip}\nroom {room}\n", hex(section))
    }
}

/// What is there before a call.
const DIRT: u64 = 0xA5A5_A5A5_A5A5_A5A5;

/// Whether the numbers fit, the words lent, and whether the section and the guards are as they were.
fn ours(library: &dyn Cursor, at: &At) -> (bool, Vec<u64>, bool) {
    let (mut section, mut out, mut intact) = (Lent::of(&at.section), Lent::of(&vec![DIRT; at.room]), true);
    let fit = library.in_turn(section.slice(), at.pos, at.base, at.skip, out.slice());
    section.kept(&at.section, &mut intact);
    (fit, out.back(&mut intact), intact)
}

fn rust(at: &At) -> (bool, Vec<u64>, bool) {
    let mut out = vec![DIRT; at.room];
    let fit = at.room >= NUMBERS;
    if fit {
        out[..NUMBERS].copy_from_slice(&cursor_in_turn(&at.section, at.pos, at.base, at.skip));
    }
    (fit, out, true)
}

/// Every position of sections of up to 60 bytes, with skips of up to 12; each room for the numbers; positions at the greatest
/// number; then random ones. Left out are sums in `skip` and `va` that leave 64 bits, for which the Rust panics. Gives the
/// number of cursors.
pub fn run(library: &dyn Cursor, folder: &Path, seed: u64, extent: Extent) -> Result<u64, Difference> {
    let mut rng = Rng::new(seed);
    let mut cursors = 0;
    let mut one = |at: At| {
        cursors += 1;
        compare(&Place { folder, name: "cursor", seed }, &at, |a| ours(library, a), rust).map(drop)
    };
    let bases = [SYSTEM_BASE, GRAPHICS_BASE];
    for length in 0..=BYTES + 11 {
        let section = rng.bytes(length);
        for pos in 0..=length + 1 {
            for skip in 0..=12 {
                one(At { section: section.clone(), pos, base: bases[skip % 2], skip, room: NUMBERS + 1 })?;
            }
        }
    }
    for room in 0..=NUMBERS + 2 {
        one(At { section: rng.bytes(BYTES), pos: 0, base: SYSTEM_BASE, skip: 0, room })?;
    }
    for below in 0..=BYTES {
        one(At { section: rng.bytes(BYTES), pos: usize::MAX - below, base: 0, skip: 0, room: NUMBERS })?;
    }
    for _ in 0..extent.of([300, 200_000, 4_000_000]) {
        let length = rng.below(200);
        let (pos, skip) = (rng.below(length + 10), if rng.one_in(3) { rng.below(100) } else { 0 });
        one(At { section: rng.bytes(length), pos, base: bases[rng.below(2)], skip, room: NUMBERS + rng.below(3) })?;
    }
    Ok(cursors)
}
