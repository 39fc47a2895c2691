//! The section of the three control bones and that of no bones, with bytes edited, and the calls on them as terms.

use crate::lent::{self, ReadAnswer, PROGRAM_DERIVED};
use crate::term::{answer, arg, list, Answer};
use cases::tables::PROGRAM;
use cases::{trial, Section};
use oracle::{lookup, write, Bone, Found};

/// Offsets and the bytes put there.
pub type Edits = [(usize, u8)];

fn edited(bones: &[Bone], edits: &Edits) -> Section {
    let mut system = write(bones, [0; 4]).section();
    edits.iter().for_each(|&(at, byte)| system[at] = byte);
    Section::written(system)
}

/// `control_with`
pub fn control(edits: &Edits) -> Section {
    edited(&trial::control_rig(), edits)
}

/// `empty_with`
pub fn empty(edits: &Edits) -> Section {
    edited(&[], edits)
}

/// `shortened`
pub fn shortened(n: usize) -> Section {
    let mut s = empty(&[]);
    s.system.truncate(n);
    s
}

/// The function and the edits.
pub fn with(function: &str, edits: &Edits) -> String {
    format!("{function} {}", arg(&list(edits.iter().map(|(at, byte)| format!("({at}, {byte})")))))
}

/// `read_with`: the refusal, or what is read.
pub fn read(edits: &Edits) -> ReadAnswer {
    lent::read(&control(edits), PROGRAM)
}

/// The refusal of a reading.
pub fn refusal(r: &ReadAnswer) -> String {
    match r {
        Err(number) => format!("refused {number}"),
        Ok(_) => panic!("a section that must not read"),
    }
}

/// `check` in the program's tables.
pub fn check(s: &Section) -> String {
    answer(lent::check(s, PROGRAM, PROGRAM_DERIVED))
}

/// `lookup`
pub fn found(s: &Section, tag: u32) -> String {
    let found: Answer = match lookup(&s.system, &s.graphics, s.root, tag) {
        Found::None => Ok(None),
        Found::Refused(number) => Err(number),
        Found::At(position) => Ok(Some(position as usize)),
    };
    answer(found)
}
