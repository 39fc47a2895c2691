//! Check, lookup and name search by the published code, with a fault.

use super::skeleton_read as read;
use crate::checks::check::{CheckInput, Judged};
use crate::hash::hash_of;
use crate::skeletons::read::ReadInput;
use cases::records::skeleton as s;
use cases::Section;
use link::{Checks, Halves, ReadTables, WriteTables, DONE, NONE};
use oracle::{lookup, Answer, Bone, Found, Verdict};

#[derive(Clone, Copy, Debug, PartialEq)]
pub enum Fault {
    /// The check accepts all that reads.
    AcceptsAll,
    /// The check accepts nothing.
    AcceptsNone,
    /// Reading's tables are kept after 21 to 25.
    TablesKept,
    /// Reading's tables are lost after an acceptance.
    TablesLost,
    /// The pool is left as it was.
    PoolLeft,
    /// Root 0 leaves the tables as they were.
    NoneDirty,
    /// The last table for deriving is left as it was.
    PendingLeft,
    /// Tables for deriving may be too short.
    OneForgotten,
    /// 1 of deriving after 21.
    OneLate,
    /// A table for child entries that lacks the last one.
    ChildrenShort,
    /// The bone count is the stored one.
    StoredCount,
    /// A refusal counts the bones.
    RefusalCount,
    /// 22 before 21.
    ParentsFirst,
    /// The last matrix list is not compared.
    LocalForgotten,
    /// A lookup finds nothing.
    FindsNothing,
    /// A lookup gives the least position.
    LeastPosition,
    /// 14 is none.
    FourteenNone,
    /// Tags are compared in 16 bits.
    ShortTag,
    /// A lookup that finds nothing leaves the position as it was.
    PositionLeft,
    /// One tag of all is not found.
    LastTag,
    /// A search gives the last bone.
    LastBone,
    /// A search hashes mended names.
    Mended,
    /// A bone without a name has an empty one.
    NoNameEmpty,
    /// A bone with an empty name is skipped.
    EmptySkipped,
    /// A search that finds nothing leaves no rows.
    NothingLeft,
}
use Fault::*;

pub const FAULTS: [Fault; 25] = [
    AcceptsAll,
    AcceptsNone,
    TablesKept,
    TablesLost,
    PoolLeft,
    NoneDirty,
    PendingLeft,
    OneForgotten,
    OneLate,
    ChildrenShort,
    StoredCount,
    RefusalCount,
    ParentsFirst,
    LocalForgotten,
    FindsNothing,
    LeastPosition,
    FourteenNone,
    ShortTag,
    PositionLeft,
    LastTag,
    LastBone,
    Mended,
    NoNameEmpty,
    EmptySkipped,
    NothingLeft,
];

/// Those of the check.
pub const OF_CHECK: [Fault; 14] = [
    AcceptsAll,
    AcceptsNone,
    TablesKept,
    TablesLost,
    PoolLeft,
    NoneDirty,
    PendingLeft,
    OneForgotten,
    OneLate,
    ChildrenShort,
    StoredCount,
    RefusalCount,
    ParentsFirst,
    LocalForgotten,
];

pub struct Faulty(pub Option<Fault>);

impl Faulty {
    fn is(&self, fault: Fault) -> bool {
        self.0 == Some(fault)
    }

    /// Leaves what reading at the root leaves, zeros at root 0.
    fn lay(&self, section: Halves, root: u64, tables: ReadTables) -> u32 {
        let fault = match self.0 {
            Some(PoolLeft) => Some(read::Fault::PoolLeft),
            Some(NoneDirty) => Some(read::Fault::NoneDirty),
            _ => None,
        };
        read::read(fault, section, root, tables, &mut [0; 20])
    }

    /// The number and the count that the check gives, the faults of the tables apart.
    fn verdict(&self, judged: &Judged, input: &CheckInput) -> (u32, usize) {
        let (answer, n) = (judged.lent(input), judged.bones().len());
        let lent = (answer.status, answer.count);
        let one = answer.status == 1 && judged.short(&input.derived);
        match (self.0, judged.verdict, answer.status) {
            (Some(AcceptsAll | LocalForgotten), Some(_), 25) | (Some(AcceptsAll), Some(_), 21..=24) => (DONE, n),
            (Some(AcceptsNone), _, DONE) => (21, 0),
            (Some(OneForgotten), Some(Verdict::Accepted(n)), 1) if one => (DONE, n),
            (Some(OneForgotten | OneLate), Some(Verdict::Refused(number)), 1) if one => (number as u32, 0),
            (Some(ParentsFirst), _, 21) if !judged.parents_agree() => (22, 0),
            (Some(StoredCount), _, DONE) => (DONE, input.read.section.count(s::BONE_COUNT) as usize),
            (Some(RefusalCount), _, 21..=25) => (answer.status, n),
            _ => lent,
        }
    }
}

impl Judged {
    fn parents_agree(&self) -> bool {
        let Answer::Read(reading) = &self.reading.answer else { return true };
        reading.parents.iter().flatten().eq(self.bones().iter().map(|b| &b.parent))
    }
}

fn owned(halves: Halves, root: u64) -> Section {
    Section { system: halves.system.to_vec(), graphics: halves.graphics.to_vec(), root }
}

impl Checks for Faulty {
    fn lookup(&self, halves: Halves, root: u64, tag: u16, position: &mut usize) -> u32 {
        let find = |tag: u32| lookup(halves.system, halves.graphics, root, tag);
        let bones = || CheckInput::exact(owned(halves, root), 0).1.bones().to_vec();
        let least = |tag| bones().iter().position(|b| b.tag == tag).map(|p| p as u32);
        let upper = if self.is(ShortTag) { find(tag as u32 + 65_536) } else { Found::None };
        let found = match find(tag as u32) {
            _ if matches!(upper, Found::At(_)) => upper,
            Found::At(_) if self.is(FindsNothing) || self.is(LastTag) && tag == u16::MAX => Found::None,
            Found::At(at) if self.is(LeastPosition) => Found::At(least(tag).unwrap_or(at)),
            Found::Refused(14) if self.is(FourteenNone) => Found::None,
            found => found,
        };
        let (status, at) = match found {
            Found::None => (NONE, 0),
            Found::Refused(number) => (number as u32, 0),
            Found::At(at) => (DONE, at as usize),
        };
        if !(self.is(PositionLeft) && status == NONE) {
            *position = at;
        }
        status
    }

    fn search(&self, halves: Halves, root: u64, key: u32, tables: ReadTables, position: &mut usize) -> u32 {
        let judged = CheckInput::exact(owned(halves, root), 0).1;
        let named = |b: &Bone| match &b.name {
            None => self.is(NoNameEmpty) && key == 0,
            Some(name) if name.is_empty() && self.is(EmptySkipped) => false,
            Some(name) if self.is(Mended) => hash_of(String::from_utf8_lossy(name).as_bytes()) == key,
            Some(name) => hash_of(name) == key,
        };
        let bones = judged.bones();
        let found = if self.is(LastBone) { bones.iter().rposition(named) } else { bones.iter().position(named) };
        let nothing = self.is(NothingLeft) && found.is_none() && matches!(judged.reading.answer, Answer::Read(_));
        let status = self.lay(halves, if nothing { 0 } else { root }, tables);
        *position = if status == DONE { found.unwrap_or(0) } else { 0 };
        if status == DONE && found.is_none() {
            return NONE;
        }
        status
    }

    fn check(&self, halves: Halves, root: u64, tables: ReadTables, derived: WriteTables, count: &mut usize) -> u32 {
        let t = &tables;
        let [b, u, e] = [&t.bones, &t.buckets, &t.entries].map(|table| table.len());
        let lengths = [b, u, e, t.inverse.len(), t.local.len(), t.parents.len(), t.children.len(), t.pool.len()];
        let WriteTables { buckets, entries, inverse, local, parents, children, pending } = derived;
        let words = [buckets, entries, inverse, local, pending];
        let [u, e, i, l, w] = words.each_ref().map(|table| table.len());
        let spare = self.is(ChildrenShort) as usize;
        let (exact, judged) = CheckInput::exact(owned(halves, root), 0);
        let read = ReadInput { lengths, ..exact.read };
        let input = CheckInput { read, derived: [u, e, i, l, parents.len(), children.len() + spare, w] };
        let (status, counted) = self.verdict(&judged, &input);
        let kept = status == DONE && !self.is(TablesLost) || self.is(TablesKept) && (21..=25).contains(&status);
        self.lay(halves, if kept { root } else { 0 }, tables);
        words.into_iter().take(if self.is(PendingLeft) { 4 } else { 5 }).for_each(|table| table.fill(0));
        [parents, children].into_iter().for_each(|table| table.fill(0));
        *count = counted;
        status
    }
}
