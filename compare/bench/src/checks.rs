//! Check and lookup.

use crate::lent::Lent;
use crate::rigs::{named, thousands, SEED};
use crate::skeletons::{ReadLent, RIGS};
use crate::timing::{timed, Row, Table};
use cases::Rng;
use link::{Checks, Halves, WriteTables, DONE};
use oracle::{derive_read, Bone, PreparedRig, PreparedSection, SYSTEM_BASE};
use std::collections::HashMap;
use std::time::Duration;

/// The check against the published reading and the three derivations from the bones read; lookups of the bones' tags, in any
/// order, against a map from tag to position.
pub fn rigs(table: &Table, library: &dyn Checks) {
    for (shape, drawn, n) in RIGS {
        let bones = named(drawn, n);
        let input = format!("{shape}, {} bones", thousands(n));
        let system = PreparedRig::new(&bones).write().0;
        let (mut read, mut derived) = (ReadLent::new(&system, 2), Lent::new(&bones));
        let rust = || {
            let prepared = PreparedSection::new(&system);
            timed(|| derive_read(prepared.read(SYSTEM_BASE).0))
        };
        let row = Row { call: "check", input: &input, units: n, unit: "a bone" };
        table.both(&row, || check_once(library, &system, &mut read, &mut derived), rust);
        lookups(table, library, &input, &system, &bones);
    }
}

/// The time of one check.
pub fn check_once(library: &dyn Checks, system: &[u8], read: &mut ReadLent, derived: &mut Lent) -> Duration {
    let Lent { buckets, entries, inverse, local, parents, children, pending, n, .. } = derived;
    let tables = WriteTables { buckets, entries, inverse, local, parents, children, pending };
    let (section, mut count) = (Halves { system, graphics: &[] }, 0);
    let time = timed(|| assert_eq!(library.check(section, SYSTEM_BASE, read.tables(), tables, &mut count), DONE));
    assert_eq!(count, *n);
    time
}

fn lookups(table: &Table, library: &dyn Checks, input: &str, system: &[u8], bones: &[Bone]) {
    let map: HashMap<u16, usize> = bones.iter().enumerate().map(|(position, b)| (b.tag, position)).collect();
    let mut tags: Vec<u16> = bones.iter().map(|b| b.tag).collect();
    Rng::new(SEED).shuffle(&mut tags);
    let section = Halves { system, graphics: &[] };
    let ours = |tag: u16| {
        let mut position = 0;
        assert_eq!(library.lookup(section, SYSTEM_BASE, tag, &mut position), DONE);
        position
    };
    assert!(tags.iter().all(|&tag| ours(tag) == map[&tag]), "the positions of {input}");
    let sum = |find: &dyn Fn(u16) -> usize| timed(|| tags.iter().fold(0usize, |sum, &tag| sum.wrapping_add(find(tag))));
    let row = Row { call: "lookup against a map", input, units: tags.len(), unit: "a call" };
    table.both(&row, || sum(&ours), || sum(&|tag| *map.get(&tag).expect("a tag of a bone")));
}
