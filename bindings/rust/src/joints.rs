//! Joints: the limits of bones' rotations and translations.

use crate::ffi;
use crate::float::{taken, words, Float};
use crate::refusal::{done, not_refused, Refusal};
use crate::section::Section;

/// The words of a limit's row in front of its other slots: the bone's id, least and greatest.
const NAMED: usize = 7;

/// The other slots of a limit's record.
const ROTATION_OTHERS: usize = 41;
const TRANSLATION_OTHERS: usize = 9;

/// The words of a limit's row. That of a rotation limit ends with the number behind the id.
const ROTATION_WORDS: usize = NAMED + ROTATION_OTHERS + 1;
const TRANSLATION_WORDS: usize = NAMED + TRANSLATION_OTHERS;

/// The bytes of a limit's record.
const ROTATION_BYTES: usize = 192;
const TRANSLATION_BYTES: usize = 64;

/// The bytes of a record of joints.
const JOINTS: usize = 64;

/// Offsets of the counts that a record of joints stores.
const ROTATION_COUNT: u64 = 48;
const TRANSLATION_COUNT: u64 = 50;

/// How far a bone may be rotated. The fields hold all of the record, each bit once: limits are equal exactly when their records are.
#[derive(Clone, Copy, Debug, PartialEq, Eq, Hash)]
pub struct RotationLimit {
    /// The bone's id. The record has 16 bits for it: writing refuses one above 65,535.
    pub bone_id: u32,
    /// The number behind the id, whose meaning is not known.
    pub unknown_a: u16,
    /// The least about each axis.
    pub min: [Float; 3],
    /// The greatest about each axis.
    pub max: [Float; 3],
    /// The 4-byte slots of the record that no field above names, in their order: slots 0, 1, 3 to 22 and 29 to 47.
    pub other: [u32; ROTATION_OTHERS],
}

/// How far a bone may be moved. The fields hold all of the record, each bit once: limits are equal exactly when their records are.
#[derive(Clone, Copy, Debug, Default, PartialEq, Eq, Hash)]
pub struct TranslationLimit {
    /// The bone's id. The record has room for all 32 bits.
    pub bone_id: u32,
    /// The least along each axis.
    pub min: [Float; 3],
    /// The greatest along each axis.
    pub max: [Float; 3],
    /// The 4-byte slots of the record that no field above names, in their order: slots 0, 1, 3 to 7, 11 and 15.
    pub other: [u32; TRANSLATION_OTHERS],
}

/// The joints of a rig. A list that is absent is empty here.
#[derive(Clone, Debug, Default, PartialEq, Eq)]
pub struct Joints {
    /// The rotation limits, in their order.
    pub rotation_limits: Vec<RotationLimit>,
    /// The translation limits, in their order.
    pub translation_limits: Vec<TranslationLimit>,
}

/// A fresh limit, with the constants that the game's own have; the named fields are 0.
impl Default for RotationLimit {
    fn default() -> Self {
        RotationLimit::of_row(&ffi::fresh_rotation_limit())
    }
}

impl RotationLimit {
    /// The limit of a record. Any bytes are one, and it is written as the same bytes.
    ///
    /// ```
    /// use rig::RotationLimit;
    ///
    /// let record: [u8; 192] = std::array::from_fn(|i| i as u8);
    /// let limit = RotationLimit::read(&record);
    /// assert_eq!((limit.bone_id, limit.unknown_a), (0x0908, 0x0B0A));
    /// assert_eq!(limit.min[0].to_bits(), 0x5F5E_5D5C);
    /// assert_eq!(limit.other[1..3], [0x0706_0504, 0x0F0E_0D0C]); // slots 1 and 3
    /// assert_eq!(limit.write(), Ok(record));
    /// ```
    pub fn read(record: &[u8; ROTATION_BYTES]) -> RotationLimit {
        RotationLimit::of_row(&ffi::rotation_limit_read(record))
    }

    /// The record of this limit, which reads back as it is. Refused is a bone's id above 65,535.
    ///
    /// ```
    /// use rig::{floats, Refusal, RotationLimit};
    ///
    /// let head = RotationLimit { bone_id: 31086, max: floats([0.5, 0.0, 0.3]), ..RotationLimit::default() };
    /// assert_eq!(RotationLimit::read(&head.write()?), head);
    ///
    /// let nobody = RotationLimit { bone_id: 65_536, ..head };
    /// assert_eq!(nobody.write(), Err(Refusal::BadLimitId));
    /// # Ok::<(), rig::Refusal>(())
    /// ```
    pub fn write(&self) -> Result<[u8; ROTATION_BYTES], Refusal> {
        let mut record = [0; ROTATION_BYTES];
        done(ffi::rotation_limit_write(&self.row(), &mut record))?;
        Ok(record)
    }

    fn of_row(row: &[u32]) -> RotationLimit {
        RotationLimit {
            bone_id: row[0],
            unknown_a: row[ROTATION_WORDS - 1] as u16,
            min: taken(&row[1..]),
            max: taken(&row[4..]),
            other: others(row),
        }
    }

    fn row(&self) -> [u32; ROTATION_WORDS] {
        let mut row = row_of(self.bone_id, &self.min, &self.max, &self.other);
        row[ROTATION_WORDS - 1] = u32::from(self.unknown_a);
        row
    }
}

impl TranslationLimit {
    /// The limit of a record. Any bytes are one, and it is written as the same bytes.
    ///
    /// ```
    /// use rig::TranslationLimit;
    ///
    /// let record: [u8; 64] = std::array::from_fn(|i| i as u8);
    /// let limit = TranslationLimit::read(&record);
    /// assert_eq!(limit.bone_id, 0x0B0A_0908);
    /// assert_eq!(limit.other[8], 0x3F3E_3D3C); // slot 15
    /// assert_eq!(limit.write(), record);
    /// ```
    pub fn read(record: &[u8; TRANSLATION_BYTES]) -> TranslationLimit {
        TranslationLimit::of_row(&ffi::translation_limit_read(record))
    }

    /// The record of this limit, which reads back as it is. It has room for every id, so that nothing is refused.
    ///
    /// ```
    /// use rig::{floats, TranslationLimit};
    ///
    /// let head = TranslationLimit { bone_id: u32::MAX, max: floats([0.0, 0.1, 0.0]), ..TranslationLimit::default() };
    /// assert_eq!(TranslationLimit::read(&head.write()), head);
    /// ```
    pub fn write(&self) -> [u8; TRANSLATION_BYTES] {
        let mut record = [0; TRANSLATION_BYTES];
        not_refused(ffi::translation_limit_write(&self.row(), &mut record));
        record
    }

    fn of_row(row: &[u32]) -> TranslationLimit {
        TranslationLimit { bone_id: row[0], min: taken(&row[1..]), max: taken(&row[4..]), other: others(row) }
    }

    fn row(&self) -> [u32; TRANSLATION_WORDS] {
        row_of(self.bone_id, &self.min, &self.max, &self.other)
    }
}

fn others<const N: usize>(row: &[u32]) -> [u32; N] {
    std::array::from_fn(|i| row[NAMED + i])
}

/// A row of these, and zeros behind them.
fn row_of<const N: usize>(bone_id: u32, min: &[Float; 3], max: &[Float; 3], other: &[u32]) -> [u32; N] {
    let mut row = [0; N];
    row[0] = bone_id;
    row[1..4].copy_from_slice(&words(min));
    row[4..NAMED].copy_from_slice(&words(max));
    row[NAMED..NAMED + other.len()].copy_from_slice(other);
    row
}

impl Joints {
    /// The joints at a root address; none at root 0.
    pub fn read(system: &[u8], graphics: &[u8], root: u64) -> Result<Option<Joints>, Refusal> {
        let section = Section { system, graphics, root };
        // a list that takes more bytes than there are is refused before its rows are stored, so that these are enough
        let lent = |count, bytes, words| vec![0; section.count(count).min(section.len() / bytes) * words];
        let mut rotation = lent(ROTATION_COUNT, ROTATION_BYTES, ROTATION_WORDS);
        let mut translation = lent(TRANSLATION_COUNT, TRANSLATION_BYTES, TRANSLATION_WORDS);
        let mut fields = [0; 7];
        let status = ffi::joints_read(&section, &mut rotation, &mut translation, &mut fields);
        let [rotations, translations] = [4, 6].map(|field| fields[field] as usize);
        let limits = || Joints {
            rotation_limits: rotation.chunks(ROTATION_WORDS).take(rotations).map(RotationLimit::of_row).collect(),
            translation_limits: translation.chunks(TRANSLATION_WORDS).take(translations).map(TranslationLimit::of_row).collect(),
        };
        Ok(done(status)?.then(limits))
    }

    /// The section of these limits: the system half, its root at [`SYSTEM_BASE`](crate::SYSTEM_BASE). They read back as they are.
    /// Refused are more than 65,535 limits of either kind, then a rotation limit whose bone's id is above 65,535.
    ///
    /// ```
    /// use rig::{floats, Joints, Refusal, RotationLimit, TranslationLimit, SYSTEM_BASE};
    ///
    /// let head: u32 = 31086;
    /// let turned = RotationLimit { bone_id: head, max: floats([0.5, 0.0, 0.3]), ..RotationLimit::default() };
    /// let moved = TranslationLimit { bone_id: head, max: floats([0.0, 0.1, 0.0]), ..TranslationLimit::default() };
    /// let joints = Joints { rotation_limits: vec![turned], translation_limits: vec![moved] };
    /// let section = joints.write()?;
    /// assert_eq!(section.len(), 64 + 192 + 64);
    /// assert_eq!(Joints::read(&section, &[], SYSTEM_BASE)?, Some(joints));
    ///
    /// let nobody = RotationLimit { bone_id: 65_536, ..turned };
    /// let joints = Joints { rotation_limits: vec![turned, nobody], translation_limits: vec![moved] };
    /// assert_eq!(joints.write(), Err(Refusal::BadLimitId));
    /// # Ok::<(), rig::Refusal>(())
    /// ```
    pub fn write(&self) -> Result<Vec<u8>, Refusal> {
        let rotation: Vec<u32> = self.rotation_limits.iter().flat_map(RotationLimit::row).collect();
        let translation: Vec<u32> = self.translation_limits.iter().flat_map(TranslationLimit::row).collect();
        let (r, t) = (self.rotation_limits.len(), self.translation_limits.len());
        let mut out = vec![0; JOINTS + ROTATION_BYTES * r + TRANSLATION_BYTES * t];
        let mut count = 0;
        done(ffi::joints_write(&rotation, r, &translation, t, &mut out, &mut count))?;
        out.truncate(count);
        Ok(out)
    }
}
