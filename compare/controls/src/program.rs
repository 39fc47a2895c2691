//! `ProgramControls`: the hash, the name search, the program's tables and what it prints.

use crate::lent::{self, PROGRAM_DERIVED};
use crate::section::{control, with, Edits};
use crate::sheet::Sheet;
use crate::term::{answer, list, number, numbers, row, Answer};
use cases::tables::{self, PROGRAM};
use cases::Section;
use oracle::rage_joaat;

pub fn sheet() -> Sheet {
    let mut s = Sheet::new("format/specs/ProgramControls.antt");
    let name = "ÿ";
    s.published("high_bytes", format!("rage_joaat ({})", numbers(name.as_bytes())), number(rage_joaat(name)));
    let keys = [rage_joaat("He"), rage_joaat(""), 1];
    let found = list(keys.map(|key| answer(search(&control(&[]), key))));
    s.joined("searches", format!("map (search (control_with []) program_room base) ({})", numbers(&keys)), found);
    let twice = [(488, 0), (489, 2)];
    let left = format!("search ({}) program_room base {}", with("control_with", &twice), number(keys[0]));
    s.joined("first_of_two", left, answer(search(&control(&twice), keys[0])));
    let nowhere = Section { root: 0, ..control(&[]) };
    s.joined("search_at_zero", "search (control_with []) program_room 0 0", answer(search(&nowhere, 0)));
    rows(&mut s, "program_tables", "program_room", &tables::NAMES, &PROGRAM);
    let derived = [&tables::NAMES[1..7], &["pending"]].concat();
    rows(&mut s, "program_derives", "program_derive_room", &derived, &PROGRAM_DERIVED);
    s.text("prints_ok", "printed control_bytes", row(printed(control(&[]).system).as_bytes()));
    for (name, n) in [("longest", 65_536), ("too_long", 65_537)] {
        s.text(name, format!("printed (replicate {n} 0)"), row(printed(vec![0; n]).as_bytes()));
    }
    let cases: [(&'static str, &Edits); 2] = [("prints_digits", &[(216, 0), (219, 0)]), ("no_graphics", &[(43, 96)])];
    for (name, edits) in cases {
        let left = format!("printed ({} control_bytes)", with("edited", edits));
        s.text(name, left, row(printed(control(edits).system).as_bytes()));
    }
    s.text("prints_refused", "printed []", row(printed(Vec::new()).as_bytes()));
    s
}

/// The rows of each table.
fn rows(s: &mut Sheet, name: &'static str, room: &str, names: &[&str], rows: &[usize]) {
    let left = list(names.iter().map(|table| format!("{room}.{table}")));
    s.text(name, left, row(&rows.iter().map(|&n| n as u64).collect::<Vec<_>>()));
}

/// The first bone of the section whose name hashes to the key.
fn search(s: &Section, key: u32) -> Answer {
    let Some(read) = lent::read(s, PROGRAM)? else { return Ok(None) };
    let hash = |name: &Vec<u8>| rage_joaat(std::str::from_utf8(name).expect("UTF-8"));
    Ok(read.bones.iter().flatten().position(|b| b.name.as_ref().is_some_and(|name| hash(name) == key)))
}

/// The program's line on some bytes.
fn printed(bytes: Vec<u8>) -> String {
    let checked = if bytes.len() > 65_536 { Err(1) } else { lent::check(&Section::written(bytes), PROGRAM, PROGRAM_DERIVED) };
    match checked {
        Ok(count) => format!("ok {}\n", count.expect("a root that is not 0")),
        Err(number) => format!("refused {number}\n"),
    }
}
