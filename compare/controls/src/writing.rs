//! `WritingControls`: the free words, pointers to nothing, the names that are taken, and the order of the writer's refusals.

use crate::lent::{write_refusal, PROGRAM_DERIVED};
use crate::sheet::Sheet;
use crate::term::{applied, list, numbers, truth};
use cases::trial::{plain_bone, NONE};
use oracle::{names_fit, u32_at, u64_at, write, Bone, NameBytes};

const ONE_ROOT: &str = "layout (plain minus_one 0 0 ∷ []) no_free";

pub fn sheet() -> Sheet {
    let mut s = Sheet::new("format/specs/WritingControls.antt");
    let (free, offsets) = ([1u32, 2, 3, 4], [28u32, 80, 84, 88]);
    let bytes = write(&[], free).section();
    let stored: Vec<u32> = offsets.iter().map(|&at| u32_at(&bytes, at as usize)).collect();
    s.published("free_words", format!("map (field 4 (layout [] (words4 1 2 3 4))) ({})", numbers(&offsets)), numbers(&stored));
    let (offsets, bytes) = ([16u32, 64], write(&[plain_bone(0, NONE)], [0; 4]).section());
    let stored: Vec<u64> = offsets.iter().map(|&at| u64_at(&bytes, at as usize)).collect();
    s.published("one_root_pointers", format!("map (field 8 ({ONE_ROOT})) ({})", numbers(&offsets)), numbers(&stored));
    let names: [(&str, Vec<u8>); 3] =
        [("replicate 255 65", vec![65; 255]), ("replicate 256 65", vec![65; 256]), ("65 ∷ 0 ∷ []", vec![65, 0])];
    let fit = |name: &Vec<u8>| truth(names_fit(&[Bone { name: Some(name.clone()), ..plain_bone(0, NONE) }]));
    let left = list(names.iter().map(|(text, _)| format!("({text})")));
    s.text("longest_name", format!("map good_bytes ({left})"), list(names.iter().map(|(_, name)| fit(name))));
    refusals(&mut s);
    s
}

fn refusals(s: &mut Sheet) {
    let lost = NameBytes::new(&[], &[]).at(0x7000_0000, 1).is_none();
    let (unnamed, outside) = ("placed_bone None", "placed_bone (Some (place_at 0x7000_0000 1))");
    let one = |bone: &str| format!("({bone} ∷ [])");
    let many = |n: usize, bone: &str| format!("(replicate {n} ({bone}))");
    let cases = [
        ("two_before_four", "no_deriving", 0, many(65_536, outside), 65_536, lost),
        ("most_bones", "no_deriving", 0, many(65_535, unnamed), 65_535, false),
        ("four_before_one", "no_deriving", 0, one(outside), 1, lost),
        ("second_name", "program_derive_room", 10_000, format!("({unnamed} ∷ {outside} ∷ [])"), 2, lost),
        ("one_before_five", "no_deriving", 0, one(unnamed), 1, false),
        ("just_fits", "program_derive_room", 352, one(unnamed), 1, false),
        ("five", "program_derive_room", 351, one(unnamed), 1, false),
    ];
    let mut bones = vec![Bone { index: 1, ..plain_bone(0, 0) }; 8_191];
    bones[0] = Bone { index: NONE, ..plain_bone(0, NONE) };
    let rows = cases::tables::derived(bones.len());
    let number = write_refusal(&bones, false, rows, 0).expect("a refusal");
    let room = applied("lent_rows", &rows.map(|n| n as u64));
    s.define("many_children", "indexed minus_one minus_one ∷ replicate 8190 (indexed 1 0)".into());
    s.text("three_before_five", format!("written (halves [] []) ({room}) 0 many_children no_free"), format!("refused {number}"));
    for (name, room, size, bones, n, lost) in cases {
        let derived = if room == "no_deriving" { [0; 7] } else { PROGRAM_DERIVED };
        let refusal = write_refusal(&vec![plain_bone(0, NONE); n], lost, derived, size);
        // what is taken is one root
        let answer = refusal.map_or(format!("done ({ONE_ROOT})"), |number| format!("refused {number}"));
        assert!(refusal.is_some() || n == 1, "bones that must not be taken");
        s.text(name, format!("written (halves [] []) {room} {size} {bones} no_free"), answer);
    }
}
