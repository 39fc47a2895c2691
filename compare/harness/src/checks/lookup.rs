//! Lookups of tags.

use crate::difference::Input;
use crate::lent::Lent;
use crate::lent_tables::LentSection;
use cases::{Rng, Section};
use link::{Checks, DONE, NONE};
use oracle::{lookup, Bone, Found};

/// A section and a tag.
#[derive(Clone)]
pub struct LookupInput {
    pub section: Section,
    pub tag: u16,
}

impl Input for LookupInput {
    fn smaller(&self) -> impl Iterator<Item = Self> {
        self.section.smaller().map(|section| LookupInput { section, tag: self.tag })
    }

    fn text(&self) -> String {
        format!("{}tag {}\n", self.section.text(), self.tag)
    }
}

/// What came back.
#[derive(Clone, Copy, Debug, PartialEq, Eq)]
pub struct LookupAnswer {
    pub status: u32,
    pub position: usize,
    /// Both halves and the guards are as they were.
    pub intact: bool,
}

impl LookupAnswer {
    fn none() -> Self {
        LookupAnswer { status: NONE, position: 0, intact: true }
    }

    fn at(position: usize) -> Self {
        LookupAnswer { status: DONE, position, intact: true }
    }
}

pub fn ours(library: &dyn Checks, i: &LookupInput) -> LookupAnswer {
    let mut only = LookupAnswer::none();
    let intact = ours_of(library, &i.section, i.tag..=i.tag, |_, answer| only = answer);
    LookupAnswer { intact, ..only }
}

/// Makes the call for each tag, the position dirty at entry; whether both halves and the guards are as they were.
fn ours_of(library: &dyn Checks, s: &Section, tags: impl Iterator<Item = u16>, mut each: impl FnMut(u16, LookupAnswer)) -> bool {
    let (mut section, mut position) = (LentSection::of(s), Lent::<usize>::dirty(1, &mut Rng::new(s.root)));
    for tag in tags {
        let [place] = position.array();
        *place = 0xA5A5_A5A5_A5A5_0000 | tag as usize;
        let status = library.lookup(section.halves(), s.root, tag, place);
        each(tag, LookupAnswer { status, position: *place, intact: true });
    }
    let mut intact = true;
    section.kept(&mut intact);
    position.back::<usize>(&mut intact);
    intact
}

/// The lookup of docs/FORMAT.md over the published reader.
pub fn rust(i: &LookupInput) -> LookupAnswer {
    match lookup(&i.section.system, &i.section.graphics, i.section.root, i.tag as u32) {
        Found::None => LookupAnswer::none(),
        Found::Refused(number) => LookupAnswer { status: number as u32, ..LookupAnswer::none() },
        Found::At(position) => LookupAnswer::at(position as usize),
    }
}

/// The first of all tags whose lookup does not give the greatest position that bears it, with what it must give. Fewer than
/// two bones have no chains: no tag is found.
pub fn all_tags(library: &dyn Checks, section: &Section, bones: &[Bone]) -> Option<(u16, LookupAnswer)> {
    let mut wanted = vec![LookupAnswer::none(); 65_536];
    if bones.len() >= 2 {
        bones.iter().enumerate().for_each(|(position, b)| wanted[b.tag as usize] = LookupAnswer::at(position));
    }
    let mut differing = None;
    let intact = ours_of(library, section, 0..=u16::MAX, |tag, answer| {
        if answer != wanted[tag as usize] {
            differing.get_or_insert((tag, wanted[tag as usize]));
        }
    });
    differing.or_else(|| (!intact).then_some((0, wanted[0])))
}
