//! Writing by the published code, with a fault.

use crate::skeletons::write::{sizes, WriteInput};
use cases::records::skeleton as s;
use cases::rows::{self, Place};
use link::{WriteTables, WrittenBones, DONE};

#[derive(Clone, Copy, Debug, PartialEq)]
pub enum Fault {
    /// The working table of pending bones is left as it was.
    PendingLeft,
    /// A refusal leaves the working tables as they were.
    RefusalDirty,
    /// A byte behind the section.
    ByteBehind,
    /// The last byte is left as it was.
    LastByte,
    /// Two of the free words exchanged.
    FreeWords,
    /// The bone count at 26, not the lesser of the two counts.
    BoneCount,
    /// The number of bytes stands after a refusal.
    RefusalCount,
    /// A buffer that is too short takes what it can.
    RefusalBytes,
    /// A name of 256 bytes is taken.
    LongName,
    /// A name of 255 bytes is refused.
    ShortName,
    /// A name that does not lie in the lent bytes is empty.
    NameOutside,
    /// Names in the graphics half are not found.
    GraphicsName,
    /// 1 for a working table before 4.
    TablesFirst,
    /// 4 before 1 for the table of bones.
    NamesFirst,
    /// 65,536 bones are taken.
    TwoForgotten,
    /// 65,536 child entries are taken.
    ThreeForgotten,
    /// A buffer one byte short is taken.
    FiveForgotten,
}
use Fault::*;

/// All but `ThreeForgotten`, which no bones show that could be made fewer.
pub const FAULTS: [Fault; 16] = [
    PendingLeft,
    RefusalDirty,
    ByteBehind,
    LastByte,
    FreeWords,
    BoneCount,
    RefusalCount,
    RefusalBytes,
    LongName,
    ShortName,
    NameOutside,
    GraphicsName,
    TablesFirst,
    NamesFirst,
    TwoForgotten,
    FiveForgotten,
];

/// Writes into the buffer, with the fault.
pub fn write(fault: Option<Fault>, bones: WrittenBones, tables: WriteTables, out: &mut [u8], count: &mut usize) -> u32 {
    let is = |f: Fault| fault == Some(f);
    let WriteTables { buckets, entries, inverse, local, parents, children, pending } = tables;
    let words = [buckets, entries, inverse, local, pending];
    let shorts = [parents, children];
    let [b, e, i, l, w] = words.each_ref().map(|table| table.len());
    let [p, c] = shorts.each_ref().map(|table| table.len());
    let mut answer = section(fault, &input(fault, bones, [b, e, i, l, p, c, w]));
    if let Some(section) = answer.as_mut().ok().filter(|section| section.len() > out.len()) {
        if is(RefusalBytes) {
            out.copy_from_slice(&section[..out.len()]);
        }
        if is(FiveForgotten) && section.len() == out.len() + 1 {
            section.pop();
        } else {
            answer = Err(5);
        }
    }
    if !(is(RefusalDirty) && answer.is_err()) {
        words.into_iter().take(if is(PendingLeft) { 4 } else { 5 }).for_each(|table| table.fill(0));
        shorts.into_iter().for_each(|table| table.fill(0));
    }
    *count = if is(RefusalCount) { 1 } else { 0 };
    match answer {
        Err(number) => number,
        Ok(section) => {
            let written = section.len() - (is(LastByte) && !section.is_empty()) as usize;
            out[..written].copy_from_slice(&section[..written]);
            out[section.len()..].iter_mut().take(is(ByteBehind) as usize).for_each(|byte| *byte ^= 1);
            *count = section.len();
            DONE
        }
    }
}

/// The input of the call, in which a fault of the tests on names is made a change of the names.
fn input(fault: Option<Fault>, lent: WrittenBones, lengths: [usize; 7]) -> WriteInput {
    let n = if fault == Some(TwoForgotten) { lent.n.min(65_535) } else { lent.n };
    let sized = sizes(if n <= 65_536 { n } else { 0 });
    let mut names = [lent.names.system.to_vec(), lent.names.graphics.to_vec()];
    let mut bones = lent.table.to_vec();
    for row in bones.chunks_exact_mut(rows::BONE).take(n) {
        let place = Place::of(row);
        let size = match fault {
            Some(LongName) if place.size == 256 => 255,
            Some(ShortName) if place.size == 255 => 256,
            Some(NameOutside) if place.address == 1 => 0,
            _ => continue,
        };
        let address = if place.address == 1 { oracle::SYSTEM_BASE } else { place.address };
        row[17..].copy_from_slice(&Place { address, size }.words());
    }
    if fault == Some(GraphicsName) {
        names[1].clear();
    }
    let [x, y, z, w] = *lent.free;
    let free = if fault == Some(FreeWords) { [x, z, y, w] } else { *lent.free };
    let room = std::array::from_fn(|table| lengths[table] as isize - sized[table] as isize);
    WriteInput { bones, n, names, free, room, out: 0, dirt: 0 }
}

/// The section, or a refusal; 5 apart.
fn section(fault: Option<Fault>, input: &WriteInput) -> Result<Vec<u8>, u32> {
    let short = input.room.iter().any(|&room| room < 0);
    let whole = WriteInput { room: [0; 7], ..input.clone() };
    match (fault, input.section()) {
        (Some(TablesFirst), Err(4)) if short => Err(1),
        (Some(NamesFirst), Err(1)) if input.bones.len() < rows::BONE * input.n => {
            let rows = input.bones.len() / rows::BONE;
            WriteInput { n: rows, ..whole }.section().and(Err(1))
        }
        (Some(ThreeForgotten), Err(3)) => Ok(Vec::new()),
        (Some(BoneCount), Ok(mut section)) => {
            section.copy_within(s::BONE_COUNT..s::BONE_COUNT + 2, s::BUCKET_COUNT + 2);
            Ok(section)
        }
        (_, answer) => answer,
    }
}
