//! Searches for a name's hash.

use crate::difference::Input;
use crate::hash::hash_of;
use crate::lent::Lent;
use crate::lent_tables::{LentReading, LentSection};
use crate::skeletons::read::{Asked, ReadInput};
use cases::Rng;
use link::{Checks, DONE, NONE};
use oracle::{Answer, Bone};

/// A section, the words of each lent table, and the key.
#[derive(Clone)]
pub struct SearchInput {
    pub read: ReadInput,
    pub key: u32,
}

impl Input for SearchInput {
    fn smaller(&self) -> impl Iterator<Item = Self> {
        self.read.smaller().map(|read| SearchInput { read, key: self.key })
    }

    fn text(&self) -> String {
        format!("{}key {:x}\n", self.read.text(), self.key)
    }
}

/// What came back, and every word lent afterwards.
#[derive(Debug, PartialEq, Eq)]
pub struct SearchAnswer {
    pub status: u32,
    pub position: usize,
    /// All tables but the pool, 16-bit words widened.
    tables: [Vec<u32>; 7],
    pool: Vec<u64>,
    /// Both halves and the guards are as they were.
    intact: bool,
}

/// Makes the call on dirty tables between guards.
pub fn ours(library: &dyn Checks, i: &SearchInput) -> SearchAnswer {
    let (mut rng, mut intact) = (Rng::new(i.read.dirt), true);
    let (mut section, mut read) = (LentSection::of(&i.read.section), LentReading::dirty(&i.read.lengths, &mut rng));
    let mut found = Lent::<usize>::dirty(1, &mut rng);
    let [position] = found.array();
    let status = library.search(section.halves(), i.read.section.root, i.key, read.tables(), position);
    section.kept(&mut intact);
    let (tables, pool) = read.back(&mut intact);
    SearchAnswer { status, position: found.back(&mut intact)[0], tables, pool, intact }
}

/// The first of the bones read whose stored name bytes hash to the key; reading's refusals, and its tables.
pub fn wanted(asked: &Asked, i: &SearchInput) -> SearchAnswer {
    let read = asked.lent(&i.read.lengths);
    let named = |b: &Bone| b.name.as_deref().is_some_and(|name| hash_of(name) == i.key);
    let (status, position) = match &asked.answer {
        Answer::Read(reading) if read.status == DONE => {
            reading.bones.iter().flatten().position(named).map_or((NONE, 0), |position| (DONE, position))
        }
        _ => (read.status, 0),
    };
    SearchAnswer { status, position, tables: read.tables, pool: vec![0; i.read.lengths[7]], intact: true }
}

pub fn rust(i: &SearchInput) -> SearchAnswer {
    wanted(&ReadInput::exact(i.read.section.clone(), 0).1, i)
}
