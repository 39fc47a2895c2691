//! Random cases: a good section and one to three named changes, all from one seed.

use crate::damage::CHANGES;
use crate::rigs::rig;
use crate::rng::Rng;
use crate::scattered::scattered;
use crate::section::Section;
use oracle::Bone;

/// A damaged section, the changes that made it and its seed.
pub struct Case {
    pub seed: u64,
    pub changes: Vec<&'static str>,
    pub section: Section,
}

/// A good section: written by the layout of docs/FORMAT.md or scattered by hand, with some graphics bytes beside it.
pub fn good(rng: &mut Rng) -> (Vec<Bone>, Section) {
    let bones = rig(rng);
    let section = good_of(rng, &bones);
    (bones, section)
}

/// A good section of these bones.
pub fn good_of(rng: &mut Rng, bones: &[Bone]) -> Section {
    let free = std::array::from_fn(|_| rng.next() as u32);
    if rng.one_in(3) {
        scattered(rng, bones, free)
    } else {
        let n = rng.below(40);
        Section { graphics: rng.bytes(n), ..Section::written(oracle::write(bones, free).section()) }
    }
}

/// The damaged section of a seed.
pub fn damaged(seed: u64) -> Case {
    let mut rng = Rng::new(seed);
    let (_, mut section) = good(&mut rng);
    let changes = damage(&mut section, &mut rng);
    Case { seed, changes, section }
}

/// Makes one to three named changes; gives their names.
pub fn damage(section: &mut Section, rng: &mut Rng) -> Vec<&'static str> {
    let n = 1 + rng.below(6) / 3 + rng.below(6) / 5;
    let mut changes = Vec::new();
    for _ in 0..n {
        let (name, change) = rng.pick(&CHANGES);
        change(section, rng);
        changes.push(name);
    }
    changes
}
