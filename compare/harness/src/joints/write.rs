//! One writing of joints.

use crate::difference::Input;
use crate::lent::Lent;
use cases::{rows, Rng};
use link::{Joints, DONE};
use oracle::{joints_write, RotationLimit, TranslationLimit, Written};

/// Two tables, the limits asked for in each, and the buffer's length.
#[derive(Clone)]
pub struct WriteInput {
    pub rotation: Vec<u32>,
    pub r: usize,
    pub translation: Vec<u32>,
    pub t: usize,
    pub out: usize,
    /// The seed of what the buffer holds at entry.
    pub dirt: u64,
}

/// Words one step smaller: half of them, or one of them 0.
fn smaller_words(words: &[u32]) -> Vec<Vec<u32>> {
    const FEW: usize = 1_000;
    let mut out: Vec<Vec<u32>> = words.split_last().map(|(_, front)| front.to_vec()).into_iter().collect();
    out.extend((words.len() > 1).then(|| words[..words.len() / 2].to_vec()));
    for at in (0..words.len().min(FEW)).filter(|&at| words[at] != 0) {
        let mut zeroed = words.to_vec();
        zeroed[at] = 0;
        out.push(zeroed);
    }
    out
}

impl Input for WriteInput {
    fn smaller(&self) -> impl Iterator<Item = Self> {
        let one_less = [(self.r.checked_sub(1), Some(self.t)), (Some(self.r), self.t.checked_sub(1))];
        let asked = one_less.into_iter().filter_map(|(r, t)| Some((r?, t?)));
        let mut out: Vec<Self> = asked.map(|(r, t)| WriteInput { r, t, ..self.clone() }).collect();
        out.extend(smaller_words(&self.rotation).into_iter().map(|rotation| WriteInput { rotation, ..self.clone() }));
        out.extend(smaller_words(&self.translation).into_iter().map(|translation| WriteInput { translation, ..self.clone() }));
        out.extend(self.out.checked_sub(1).map(|out| WriteInput { out, ..self.clone() }));
        out.into_iter()
    }

    fn text(&self) -> String {
        let words = |l: &[u32]| l.iter().map(|w| format!(" {w:x}")).collect::<String>();
        let (rotation, translation) = (words(&self.rotation), words(&self.translation));
        let WriteInput { r, t, out, dirt, .. } = self;
        format!("rotation{rotation}\nr {r}\ntranslation{translation}\nt {t}\nout {out} bytes\ndirt {dirt}\n")
    }
}

/// What came back, and every byte lent afterwards.
#[derive(Debug, PartialEq, Eq)]
pub struct WriteAnswer {
    pub status: u32,
    pub count: usize,
    pub out: Vec<u8>,
    /// Both tables and the guards are as they were.
    intact: bool,
}

impl WriteInput {
    /// What the buffer holds at entry.
    fn dirty(&self) -> Vec<u8> {
        Rng::new(self.dirt).bytes(self.out)
    }
}

/// Makes the call on a dirty buffer between guards.
pub fn ours(library: &dyn Joints, i: &WriteInput) -> WriteAnswer {
    let (mut count, mut intact) = (Lent::<usize>::dirty(1, &mut Rng::new(i.dirt)), true);
    let [mut rotation, mut translation] = [&i.rotation, &i.translation].map(|words| Lent::of(words));
    let mut out = Lent::of(&i.dirty());
    let [counted] = count.array();
    let status = library.joints_write(rotation.slice(), i.r, translation.slice(), i.t, out.slice(), counted);
    rotation.kept(&i.rotation, &mut intact);
    translation.kept(&i.translation, &mut intact);
    let count = count.back(&mut intact)[0];
    WriteAnswer { status, count, out: out.back(&mut intact), intact }
}

/// The published section at the front of the buffer, which is else as it was: 6, then 1 for a table with fewer
/// rows than asked for, then 35 for an id that no record of a rotation limit has room for, then 5.
pub fn rust(i: &WriteInput) -> WriteAnswer {
    let mut out = i.dirty();
    let (status, count) = match section(i) {
        Err(number) => (number, 0),
        Ok(bytes) if bytes.len() > out.len() => (5, 0),
        Ok(bytes) => {
            out[..bytes.len()].copy_from_slice(&bytes);
            (DONE, bytes.len())
        }
    };
    WriteAnswer { status, count, out, intact: true }
}

/// The published section of the limits asked for; where the tables lack some, or the Rust has no such limit, 6 by the numbers,
/// else 1 or 35.
fn section(i: &WriteInput) -> Result<Vec<u8>, u32> {
    let (rotations, translations) = (i.rotation.chunks_exact(rows::ROTATION), i.translation.chunks_exact(rows::TRANSLATION));
    let six_or = |number: u32| if i.r.max(i.t) > 65_535 { 6 } else { number };
    if rotations.len() < i.r || translations.len() < i.t {
        return Err(six_or(1));
    }
    let rotations: Option<Vec<RotationLimit>> = rotations.take(i.r).map(rows::rotation_limit).collect();
    let Some(rotations) = rotations else { return Err(six_or(35)) };
    let translations: Vec<TranslationLimit> = translations.take(i.t).map(rows::translation_limit).collect();
    match joints_write(&rotations, &translations) {
        Written::Section(bytes) => Ok(bytes),
        Written::Refused(number) => Err(number as u32),
    }
}
