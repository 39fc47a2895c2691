//! One limit by the published code, with a fault.

use crate::joints::limit::Kind::{self, Rotation, Translation};
use cases::rows;
use link::{RotationRecord, RotationRow, TranslationRecord, TranslationRow, DONE};
use oracle::{rotation_limit_read, translation_limit_read};

#[derive(Clone, Copy, Debug, PartialEq)]
pub enum Fault {
    /// A slot that belongs to no field is lost in reading.
    SlotLost,
    /// The id stands in the upper half of the second number's word.
    UpperHalfRead,
    /// The greatest of a translation limit is read right behind the least.
    GreatestMoved,
    /// An id is cut to 16 bits.
    IdCut,
    /// The record is written although its id is refused.
    RefusedWritten,
    /// 5 before 35.
    BufferFirst,
    /// 5 for a buffer that the record just fits.
    ExactRefused,
    /// The second number is not written.
    SecondLost,
    /// The upper half of the second number's word is written into the slot behind.
    UpperHalf,
    /// The slots before and behind the bounds are exchanged.
    SlotsExchanged,
    /// The byte behind the record is another.
    ByteBehind,
    /// The buffer is zero behind the record of a translation limit.
    ZeroBehind,
    /// 35 for a translation limit's id.
    WideTranslation,
    /// 5 comes only where there is no byte.
    FiveForgotten,
}
use Fault::*;

pub const FAULTS: [Fault; 14] = [
    SlotLost,
    UpperHalfRead,
    GreatestMoved,
    IdCut,
    RefusedWritten,
    BufferFirst,
    ExactRefused,
    SecondLost,
    UpperHalf,
    SlotsExchanged,
    ByteBehind,
    ZeroBehind,
    WideTranslation,
    FiveForgotten,
];

/// The word of slot 3, and those of the slots 22 and 29, between which the bounds lie; the second number's.
const SLOT3: usize = 9;
const AROUND_BOUNDS: (usize, usize) = (28, 29);
const SECOND: usize = rows::ROTATION - 1;

pub fn rotation_row(fault: Option<Fault>, record: &RotationRecord) -> RotationRow {
    let mut row = rows::rotation(&rotation_limit_read(record));
    match fault {
        Some(SlotLost) => row[SLOT3] = 0,
        Some(UpperHalfRead) => row[SECOND] |= row[0] << 16,
        _ => {}
    }
    row
}

pub fn translation_row(fault: Option<Fault>, record: &TranslationRecord) -> TranslationRow {
    let limit = translation_limit_read(record);
    let mut row = rows::translation(&limit);
    if fault == Some(GreatestMoved) {
        row[4..7].copy_from_slice(&limit.other[11..14]);
    }
    row
}

pub fn rotation_write(fault: Option<Fault>, row: &RotationRow, out: &mut [u8]) -> u32 {
    let is = |f: Fault| fault == Some(f);
    let (mut row, wide) = (*row, row[0] > 65_535);
    row[0] &= 0xFFFF;
    if wide && is(RefusedWritten) {
        put(fault, Rotation, &row, out);
    }
    if wide && !is(IdCut) && !(is(BufferFirst) && out.len() < Rotation.bytes()) {
        return 35;
    }
    match fault {
        Some(SecondLost) => row[SECOND] = 0,
        Some(UpperHalf) => row[SLOT3] |= row[SECOND] >> 16,
        Some(SlotsExchanged) => row.swap(AROUND_BOUNDS.0, AROUND_BOUNDS.1),
        _ => {}
    }
    let status = put(fault, Rotation, &row, out);
    out.iter_mut().skip(Rotation.bytes()).take(is(ByteBehind) as usize).for_each(|byte| *byte ^= 1);
    status
}

pub fn translation_write(fault: Option<Fault>, row: &TranslationRow, out: &mut [u8]) -> u32 {
    if fault == Some(WideTranslation) && row[0] > 65_535 {
        return 35;
    }
    let status = put(fault, Translation, row, out);
    out.iter_mut().skip(Translation.bytes()).filter(|_| fault == Some(ZeroBehind)).for_each(|byte| *byte = 0);
    status
}

/// The record at the front of the buffer, or 5.
fn put(fault: Option<Fault>, kind: Kind, row: &[u32], out: &mut [u8]) -> u32 {
    let record = kind.record(row).expect("an id that is not refused");
    let wanted = match fault {
        Some(ExactRefused) => record.len() + 1,
        Some(FiveForgotten) => 1,
        _ => record.len(),
    };
    if out.len() < wanted {
        return 5;
    }
    out.iter_mut().zip(record).for_each(|(to, byte)| *to = byte);
    DONE
}
