//! Joints by the published code, with a fault.

use super::limit;
use cases::records::joints as j;
use cases::rows;
use link::{JointFields, Joints, RotationRecord, RotationRow, TranslationRecord, TranslationRow, DONE, NONE};
use oracle::{fresh_rotation_limit, joints_read, joints_write, JointsAnswer, RotationLimit};

pub struct Faulty(pub Option<Fault>);

#[derive(Clone, Copy, Debug, PartialEq)]
pub enum Fault {
    /// A slot that belongs to no field is lost.
    SlotLost,
    /// A list with the pointer 0 stands.
    AlwaysStands,
    /// The stored count for the number of limits.
    StoredCount,
    /// 1 before the bytes are looked at.
    RoomFirst,
    /// A refusal leaves the tables as they were.
    RefusalDirty,
    /// A refusal leaves the kind word.
    RefusalKind,
    /// Root 0 is done.
    RootZero,
    /// The second number stands behind the id too.
    SecondInId,
    /// The buffer is zero behind the section.
    ZeroBehind,
    /// 65,536 limits are too few rows.
    SixForgotten,
    /// 5 before 1.
    BufferFirst,
    /// The number of bytes stands after a refusal.
    RefusalCount,
    /// An id is cut to 16 bits.
    IdCut,
    /// 35 for a translation limit's id.
    WideTranslation,
    /// 5 before 35.
    WideAfterBuffer,
    /// 35 before 6.
    WideBeforeSix,
    /// 35 before 1.
    WideBeforeRows,
    /// 35 for an id behind the rows asked for.
    WideBehind,
    /// The joints' record is written before 35.
    WideLate,
    /// The second number is not written.
    SecondLost,
    /// The upper half of the second number's word is written into the slot behind.
    UpperHalf,
    /// A slot that belongs to no field is not written.
    SlotNotWritten,
    /// A word of the fresh limit.
    FreshWord,
    /// The fresh limit has a named slot among the others.
    FreshNamed,
    /// A fault of one limit's calls.
    One(limit::Fault),
}
use Fault::*;

pub fn faults() -> Vec<Fault> {
    LISTS.into_iter().chain(limit::FAULTS.map(One)).collect()
}

const LISTS: [Fault; 24] = [
    SlotLost,
    AlwaysStands,
    StoredCount,
    RoomFirst,
    RefusalDirty,
    RefusalKind,
    RootZero,
    SecondInId,
    ZeroBehind,
    SixForgotten,
    BufferFirst,
    RefusalCount,
    IdCut,
    WideTranslation,
    WideAfterBuffer,
    WideBeforeSix,
    WideBeforeRows,
    WideBehind,
    WideLate,
    SecondLost,
    UpperHalf,
    SlotNotWritten,
    FreshWord,
    FreshNamed,
];

impl Faulty {
    fn is(&self, fault: Fault) -> bool {
        self.0 == Some(fault)
    }

    /// The fault of one limit's calls.
    fn one(&self) -> Option<limit::Fault> {
        match self.0 {
            Some(One(fault)) => Some(fault),
            _ => None,
        }
    }

    /// Whether an id is refused: one that is too wide, of the limits asked for.
    fn wide(&self, rotation: &[u32], r: usize, translation: &[u32], t: usize) -> bool {
        let wide = |rows: &[u32], width: usize, n: usize| rows.chunks_exact(width).take(n).any(|row| row[0] > 65_535);
        let r = r.saturating_add(self.is(WideBehind) as usize);
        let rotations = wide(rotation, rows::ROTATION, r) && !self.is(IdCut);
        rotations || self.is(WideTranslation) && wide(translation, rows::TRANSLATION, t)
    }

    /// The limit of a row that is written.
    fn limit(&self, row: &[u32]) -> RotationLimit {
        let mut row = row.to_vec();
        row[0] &= if self.is(IdCut) { 0xFFFF } else { u32::MAX };
        let (second, slot3) = (rows::ROTATION - 1, 9);
        row[slot3] |= if self.is(UpperHalf) { row[second] >> 16 } else { 0 };
        row[slot3] &= if self.is(SlotNotWritten) { 0 } else { u32::MAX };
        row[second] &= if self.is(SecondLost) { 0 } else { u32::MAX };
        rows::rotation_limit(&row).expect("an id that is not refused")
    }

    /// The fields and the words of both lists, or a status.
    fn read(&self, system: &[u8], graphics: &[u8], root: u64, room: [usize; 2]) -> Result<(JointFields, [Vec<u32>; 2]), u32> {
        // the rotation list alone: it meets its table before the other list is looked at
        let section = cases::Section { system: system.to_vec(), graphics: graphics.to_vec(), root };
        let mut alone = section.clone();
        alone.set_pointer(j::TRANSLATIONS, 0);
        for (s, lists) in [(&alone, 1), (&section, 2)] {
            let read = match joints_read(&s.system, &s.graphics, root) {
                JointsAnswer::None => return Err(NONE),
                JointsAnswer::Refused(n) => return Err(n as u32),
                JointsAnswer::Read(read) => read,
            };
            let stands = [read.rotations.is_some(), read.translations.is_some()].map(|s| (s || self.is(AlwaysStands)) as u32);
            let (rotations, translations) = (read.rotations.unwrap_or_default(), read.translations.unwrap_or_default());
            let counts = [read.rotation_count, read.translation_count].map(u32::from);
            let limits = if self.is(StoredCount) { counts } else { [rotations.len(), translations.len()].map(|n| n as u32) };
            let words = [rows::ROTATION * rotations.len(), rows::TRANSLATION * translations.len()];
            if words.iter().zip(room).take(lists).any(|(&words, room)| words > room) {
                return Err(1);
            }
            if lists == 2 {
                let fields = [read.kind, counts[0], counts[1], stands[0], limits[0], stands[1], limits[1]];
                let mut rotation: Vec<u32> = rotations.iter().flat_map(rows::rotation).collect();
                if self.is(SecondInId) {
                    rotation.chunks_exact_mut(rows::ROTATION).for_each(|row| row[0] |= row[rows::ROTATION - 1] << 16);
                }
                return Ok((fields, [rotation, translations.iter().flat_map(rows::translation).collect()]));
            }
        }
        unreachable!("the second reading returns")
    }
}

impl Joints for Faulty {
    fn joints_read(
        &self,
        system: &[u8],
        graphics: &[u8],
        root: u64,
        rotation: &mut [u32],
        translation: &mut [u32],
        fields: &mut JointFields,
    ) -> u32 {
        let room = [rotation.len(), translation.len()];
        let answer = self.read(system, graphics, root, room);
        if !(self.is(RefusalDirty) && answer.is_err()) {
            (rotation.fill(0), translation.fill(0));
        }
        *fields = [if self.is(RefusalKind) { j::KIND_WORD } else { 0 }, 0, 0, 0, 0, 0, 0];
        match answer {
            Err(11) if self.is(RoomFirst) && room == [0, 0] => 1,
            Err(NONE) if self.is(RootZero) => DONE,
            Err(status) => status,
            Ok((read, lists)) => {
                *fields = read;
                rotation[..lists[0].len()].copy_from_slice(&lists[0]);
                translation[..lists[1].len()].copy_from_slice(&lists[1]);
                rotation.iter_mut().skip(8).take(self.is(SlotLost) as usize).for_each(|w| *w = 0);
                DONE
            }
        }
    }

    fn joints_write(&self, rotation: &[u32], r: usize, translation: &[u32], t: usize, out: &mut [u8], count: &mut usize) -> u32 {
        *count = if self.is(RefusalCount) { j::SIZE } else { 0 };
        let size =
            r.saturating_mul(j::ROTATION_LIMIT).saturating_add(t.saturating_mul(j::TRANSLATION_LIMIT)).saturating_add(j::SIZE);
        let wide = self.wide(rotation, r, translation, t);
        if wide && self.is(WideBeforeSix) {
            return 35;
        }
        if r.max(t) > 65_535 && !self.is(SixForgotten) {
            return 6;
        }
        if wide && self.is(WideBeforeRows) {
            return 35;
        }
        if self.is(BufferFirst) && out.len() < size {
            return 5;
        }
        let (rotations, translations) = (rotation.chunks_exact(rows::ROTATION), translation.chunks_exact(rows::TRANSLATION));
        if rotations.len() < r || translations.len() < t {
            return 1;
        }
        if wide && !(self.is(WideAfterBuffer) && out.len() < size) {
            out.iter_mut().take(j::SIZE).filter(|_| self.is(WideLate)).for_each(|byte| *byte = 0);
            return 35;
        }
        if out.len() < size {
            return 5;
        }
        let rotations: Vec<_> = rotations.take(r).map(|row| self.limit(row)).collect();
        let translations: Vec<_> = translations.take(t).map(rows::translation_limit).collect();
        let bytes = joints_write(&rotations, &translations).section();
        if self.is(ZeroBehind) {
            out.fill(0);
        }
        out[..bytes.len()].copy_from_slice(&bytes);
        *count = bytes.len();
        DONE
    }

    fn fresh_rotation_limit(&self, row: &mut RotationRow) {
        let fresh = fresh_rotation_limit();
        *row = rows::rotation(&fresh);
        row[rows::ROTATION - 2] ^= self.is(FreshWord) as u32;
        if self.is(FreshNamed) {
            row[7..rows::ROTATION - 1].copy_from_slice(&fresh.other[..rows::ROTATION - 8]);
        }
    }

    fn rotation_limit_read(&self, record: &RotationRecord, row: &mut RotationRow) {
        *row = limit::rotation_row(self.one(), record);
    }

    fn rotation_limit_write(&self, row: &RotationRow, out: &mut [u8]) -> u32 {
        limit::rotation_write(self.one(), row, out)
    }

    fn translation_limit_read(&self, record: &TranslationRecord, row: &mut TranslationRow) {
        *row = limit::translation_row(self.one(), record);
    }

    fn translation_limit_write(&self, row: &TranslationRow, out: &mut [u8]) -> u32 {
        limit::translation_write(self.one(), row, out)
    }
}
