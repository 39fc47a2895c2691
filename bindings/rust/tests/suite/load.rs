//! Many sections, from one thread and from two.

use crate::rigs::rig;
use crate::rng::Rng;
use rig::{check, write, Checked, Refusal, SYSTEM_BASE};
use std::thread;

const SECTIONS: usize = 10_000;

/// A section as it was written, or with a byte set anew.
struct Section {
    bytes: Vec<u8>,
    bones: usize,
    damaged: bool,
}

/// Rigs of 0 to 40 bones, now and then 400; every third section is damaged.
fn sections() -> Vec<Section> {
    let mut rng = Rng::new(6);
    let section = |i: usize| {
        let (bones, damaged) = (if i % 500 == 1 { 400 } else { i % 41 }, i % 3 == 0);
        let mut bytes = write(&rig(&mut rng, bones), [0; 4]).expect("bones that can be written");
        if damaged {
            let at = rng.below(bytes.len());
            bytes[at] = rng.next() as u8;
        }
        Section { bytes, bones, damaged }
    };
    (0..SECTIONS).map(section).collect()
}

fn answer(section: &Section) -> Result<Checked, Refusal> {
    check(&section.bytes, &[], SYSTEM_BASE)
}

/// Two threads check every section at the same time, one from the first on and one from the last, and each gets for each section
/// the answer that a single thread got.
#[test]
fn two_threads_get_one_result() {
    let sections = sections();
    let alone: Vec<_> = sections.iter().map(answer).collect();

    let (forth, back) = thread::scope(|scope| {
        let forth = scope.spawn(|| sections.iter().map(answer).collect::<Vec<_>>());
        let back = scope.spawn(|| sections.iter().rev().map(answer).collect::<Vec<_>>());
        (forth.join().expect("the first thread"), back.join().expect("the second thread"))
    });
    assert_eq!(forth, alone);
    assert!(back.iter().rev().eq(&alone));

    for (section, answer) in sections.iter().zip(&alone).filter(|(section, _)| !section.damaged) {
        assert_eq!(*answer, Ok(Checked::Accepted { bones: section.bones }));
    }
    let refused = alone.iter().filter(|answer| answer.is_err()).count();
    assert!((1000..SECTIONS / 3).contains(&refused), "{refused} are refused");
}
