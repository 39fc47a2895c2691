//! Reading by the published code, with a fault.

use crate::skeletons::read::{ReadAnswer, ReadInput};
use cases::records::skeleton as s;
use cases::rows;
use cases::tables::WIDTHS;
use cases::Section;
use link::{Halves, ReadTables, SkeletonFields, DONE, NONE};

#[derive(Clone, Copy, Debug, PartialEq)]
pub enum Fault {
    /// One row more than the pool has.
    PoolRow,
    /// A row of which a word is missing.
    WordMissing,
    /// The pool is left as it was.
    PoolLeft,
    /// None leaves the tables as they were.
    NoneDirty,
    /// A refusal leaves the tables as they were.
    RefusalDirty,
    /// A refusal leaves the kind word.
    RefusalKind,
    /// A word behind the bones.
    WordBehind,
    /// No kept words.
    KeptLost,
    /// A chain that meets an entry already read ends before it.
    SharedLost,
    /// A name with the zero behind it.
    NameSize,
    /// The stored child count for the number of child entries.
    StoredCount,
    /// Local matrices at the inverse ones are not copied.
    NotCopied,
    /// 13 before the chains.
    ThirteenFirst,
    /// 12 after 11.
    TwelveLate,
    /// The block's own count of bones.
    BlockCount,
}
use Fault::*;

pub const FAULTS: [Fault; 15] = [
    PoolRow,
    WordMissing,
    PoolLeft,
    NoneDirty,
    RefusalDirty,
    RefusalKind,
    WordBehind,
    KeptLost,
    SharedLost,
    NameSize,
    StoredCount,
    NotCopied,
    ThirteenFirst,
    TwelveLate,
    BlockCount,
];

/// Reads into the lent tables, with the fault.
pub fn read(fault: Option<Fault>, halves: Halves, root: u64, tables: ReadTables, fields: &mut SkeletonFields) -> u32 {
    let is = |f: Fault| fault == Some(f);
    let section = Section { system: halves.system.to_vec(), graphics: halves.graphics.to_vec(), root };
    let ReadTables { bones, buckets, entries, inverse, local, parents, children, pool } = tables;
    let words = [bones, buckets, entries, inverse, local];
    let [b, u, e, i, l] = words.each_ref().map(|table| table.len());
    let lengths = room(fault, [b, u, e, i, l, parents.len(), children.len(), pool.len()]);
    let (_, asked) = ReadInput::exact(asked_section(fault, &section), 0);
    let mut answer = asked.lent(&lengths);
    spoil(fault, &section, &mut answer);
    if !is(PoolLeft) {
        pool.fill(0);
    }
    let kept = is(NoneDirty) && answer.status == NONE || is(RefusalDirty) && is_refusal(answer.status);
    if !kept {
        words.into_iter().zip(&answer.tables).for_each(|(table, rows)| lay(table, rows, |word| word));
        lay(parents, &answer.tables[5], |word| word as u16);
        lay(children, &answer.tables[6], |word| word as u16);
    }
    fields.copy_from_slice(&answer.fields);
    answer.status
}

fn is_refusal(status: u32) -> bool {
    ![DONE, NONE].contains(&status)
}

/// As many of the rows' words as the table has.
fn lay<T>(table: &mut [T], rows: &[u32], word: impl Fn(u32) -> T) {
    table.iter_mut().zip(rows).for_each(|(place, &row)| *place = word(row));
}

/// The lengths that are seen.
fn room(fault: Option<Fault>, mut lengths: [usize; 8]) -> [usize; 8] {
    match fault {
        Some(PoolRow) => lengths[7] += rows::POOL,
        Some(WordMissing) => lengths.iter_mut().zip(WIDTHS).for_each(|(length, width)| *length = length.next_multiple_of(width)),
        _ => {}
    }
    lengths
}

/// The section that is read.
fn asked_section(fault: Option<Fault>, section: &Section) -> Section {
    let mut asked = section.clone();
    let bones = section.pointer(s::BONES);
    match fault {
        Some(BlockCount) => asked.set_count(s::BONE_COUNT, section.u32(bones.wrapping_sub(16)).unwrap_or(0) as u16),
        Some(ThirteenFirst) if (1..16).contains(&bones) => asked.set_pointer(s::BUCKETS, 0),
        _ => {}
    }
    asked
}

/// The answer with the fault.
fn spoil(fault: Option<Fault>, section: &Section, answer: &mut ReadAnswer) {
    let (done, refused) = (answer.status == DONE, is_refusal(answer.status));
    let bones = if done { answer.fields[11] } else { 0 };
    let rows = answer.tables[0].chunks_exact_mut(rows::BONE).take(bones);
    match fault {
        Some(RefusalKind) if refused => answer.fields[0] = s::KIND_WORD as usize,
        Some(WordBehind) if done => answer.tables[0].iter_mut().skip(rows::BONE * bones).take(1).for_each(|word| *word = 1),
        Some(KeptLost) => rows.for_each(|row| row[13..17].fill(0)),
        Some(SharedLost) => (1..).zip(answer.tables[2].chunks_exact_mut(rows::ENTRY)).for_each(|(row, entry)| {
            if entry[2] <= row {
                entry[2] = 0;
            }
        }),
        Some(NameSize) => rows.filter(|row| row[17] != 0).for_each(|row| row[19] += 1),
        Some(StoredCount) if done && answer.fields[18] == 1 => answer.fields[19] = answer.fields[7],
        Some(NotCopied) if section.pointer(s::LOCAL) == section.pointer(s::INVERSE) => answer.tables[4].fill(0),
        Some(TwelveLate) if answer.status == 12 => answer.status = 11,
        _ => {}
    }
}
