//! One reading of joints.

use crate::difference::Input;
use crate::lent::Lent;
use cases::records::joints as j;
use cases::{rows, Rng, Section};
use link::{Joints, DONE, NONE};
use oracle::{joints_read, JointsAnswer};

/// A section and the words of the two lent tables.
#[derive(Clone)]
pub struct ReadInput {
    pub section: Section,
    pub rotation: usize,
    pub translation: usize,
    /// The seed of what the tables hold at entry.
    pub dirt: u64,
}

impl Input for ReadInput {
    fn smaller(&self) -> impl Iterator<Item = Self> {
        let tables = [(0, self.translation), (self.rotation, 0), (self.rotation / 2, self.translation / 2)];
        let less = tables.into_iter().filter(|&(r, t)| r + t < self.rotation + self.translation);
        let less = less.map(|(rotation, translation)| ReadInput { rotation, translation, ..self.clone() });
        self.section.smaller().map(|section| ReadInput { section, ..self.clone() }).chain(less)
    }

    fn text(&self) -> String {
        let ReadInput { section, rotation, translation, dirt } = self;
        format!("{}rotation words {rotation}\ntranslation words {translation}\ndirt {dirt}\n", section.text())
    }
}

/// What came back, and every word lent afterwards.
#[derive(Debug, PartialEq, Eq)]
pub struct ReadAnswer {
    pub status: u32,
    fields: Vec<u32>,
    rotation: Vec<u32>,
    translation: Vec<u32>,
    /// Both halves and the guards are as they were.
    intact: bool,
}

impl ReadAnswer {
    /// How many limits of each kind were read.
    pub fn limits(&self) -> [u64; 2] {
        [self.fields[4], self.fields[6]].map(u64::from)
    }
}

/// Makes the call on dirty tables between guards.
pub fn ours(library: &dyn Joints, i: &ReadInput) -> ReadAnswer {
    let (s, mut rng, mut intact) = (&i.section, Rng::new(i.dirt), true);
    let [mut system, mut graphics] = [&s.system, &s.graphics].map(|half| Lent::of(half));
    let [mut rotation, mut translation] = [i.rotation, i.translation].map(|length| Lent::<u32>::dirty(length, &mut rng));
    let mut fields = Lent::<u32>::dirty(7, &mut rng);
    let (r, t, f) = (rotation.slice(), translation.slice(), fields.array());
    let status = library.joints_read(system.slice(), graphics.slice(), s.root, r, t, f);
    system.kept(&s.system, &mut intact);
    graphics.kept(&s.graphics, &mut intact);
    let [fields, rotation, translation] = [fields, rotation, translation].map(|lent| lent.back(&mut intact));
    ReadAnswer { status, fields, rotation, translation, intact }
}

/// The published reading in the tables that are lent: 1 where a list that was read is longer than its table.
pub fn rust(i: &ReadInput) -> ReadAnswer {
    let s = &i.section;
    let answer = joints_read(&s.system, &s.graphics, s.root);
    let (mut fields, mut lists, mut status) = ([0; 7], [Vec::new(), Vec::new()], DONE);
    match answer {
        JointsAnswer::None => status = NONE,
        _ if rotation_words(s).is_some_and(|words| words > i.rotation) => status = 1,
        JointsAnswer::Refused(n) => status = n as u32,
        JointsAnswer::Read(joints) => {
            let stands = [joints.rotations.is_some(), joints.translations.is_some()].map(u32::from);
            let (rotations, translations) = (joints.rotations.unwrap_or_default(), joints.translations.unwrap_or_default());
            let [r, t] = [joints.rotation_count, joints.translation_count].map(u32::from);
            if rows::TRANSLATION * translations.len() > i.translation {
                status = 1;
            } else {
                fields = [joints.kind, r, t, stands[0], rotations.len() as u32, stands[1], translations.len() as u32];
                lists = [
                    rotations.iter().flat_map(rows::rotation).collect(),
                    translations.iter().flat_map(rows::translation).collect(),
                ];
            }
        }
    }
    let [mut rotation, mut translation] = lists;
    rotation.resize(i.rotation, 0);
    translation.resize(i.translation, 0);
    ReadAnswer { status, fields: fields.to_vec(), rotation, translation, intact: true }
}

/// The words of the rotation list's rows if that list is read, whatever becomes of the other list: the
/// published reading is asked again with the other list's pointer 0.
fn rotation_words(s: &Section) -> Option<usize> {
    let mut alone = s.clone();
    alone.set_pointer(j::TRANSLATIONS, 0);
    match joints_read(&alone.system, &alone.graphics, alone.root) {
        JointsAnswer::Read(joints) => Some(rows::ROTATION * joints.rotations.map_or(0, |l| l.len())),
        _ => None,
    }
}
