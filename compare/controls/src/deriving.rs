//! `DerivingControls`: chains, children, inverse matrices, and the sizes of the tables.

use crate::control::inverse;
use crate::lent::derives;
use crate::sheet::Sheet;
use crate::term::{applied, list, number, numbers, signed, truth};
use cases::trial::{plain_bone, rig_of_parents, NONE, ONE};
use oracle::{build_bone_tags, build_indices, Bone};

pub fn sheet() -> Sheet {
    let mut s = Sheet::new("format/specs/DerivingControls.antt");
    let counts = [0u32, 1, 2, 10, 11];
    let chains = counts.map(|n| build_bone_tags(&vec![plain_bone(0, NONE); n as usize]).len() as u32);
    s.published("chain_counts", format!("map (λ n. length (chains (replicate n 0))) ({})", numbers(&counts)), numbers(&chains));
    let rigs: [(&'static str, &[i16]); 4] = [
        ("root_minus_two", &[-2, 0]),
        ("root_least", &[i16::MIN, 0]),
        ("greatest_parent", &[i16::MAX, 0]),
        ("two_roots", &[NONE, NONE, 0, 1]),
    ];
    for (name, parents) in rigs {
        let (_, children) = build_indices(&rig_of_parents(parents));
        let indices: Vec<u32> = (0..parents.len() as u32).collect();
        s.published(name, format!("children ({}) ({})", numbers(&indices), signed(parents)), signed(&children));
    }
    matrices(&mut s);
    sizes(&mut s);
    s
}

/// `leaning`: all but the parent.
fn placed(b: &Bone) -> String {
    format!("leaning ({}) ({})", applied("words4", &b.rotation), applied("words3", &b.translation))
}

fn leaning(s: &mut Sheet, name: &'static str, rotation: [f32; 4], translation: [f32; 3], parent: i16) -> Bone {
    let (rotation, translation) = (rotation.map(f32::to_bits), translation.map(f32::to_bits));
    let bone = Bone { rotation, translation, ..plain_bone(0, parent) };
    let parent = if parent == NONE { "minus_one".into() } else { parent.to_string() };
    s.define(name, format!("{} {parent}", placed(&bone)));
    bone
}

fn matrices(s: &mut Sheet) {
    let bone = Bone { translation: [ONE, 0, 0], ..plain_bone(0, NONE) };
    s.define("moved", placed(&bone));
    let moved = |parent: i16| Bone { parent, ..bone.clone() };
    let own = inverse(&[moved(0)], 0);
    s.published("own_parent", "get_or (inverse_of (moved 0 ∷ []) (moved 0)) 12 0", number(own[12]));
    let rig = [NONE, 0, 1, 2].map(moved);
    let left = "get_or (inverse_of (moved minus_one ∷ moved 0 ∷ moved 1 ∷ moved 2 ∷ []) (moved 2)) 12 0";
    s.published("three_steps", left, number(inverse(&rig, 3)[12]));
    let host = leaning(s, "host", [0.4, -0.3, 0.6, 0.5], [1.0, -2.0, 0.1], NONE);
    let guest = leaning(s, "guest", [0.2, -0.6, 0.7, 0.35], [3.0, 0.5, -1.25], 0);
    s.published("turned_otherwise", "inverse_of (host ∷ guest ∷ []) guest", numbers(&inverse(&[host, guest], 1)));
    // a bone at 32,768 that would move bone 0 if -32,768 were that position
    let mut many = vec![plain_bone(0, i16::MIN); 65_535];
    many[32_768] = moved(NONE);
    let climbed = inverse(&many, 0) != inverse(&[plain_bone(0, NONE)], 0);
    s.published("climbs_to_no_negative", format!("within {} {}", many.len(), i16::MIN as u16), truth(climbed));
}

fn sizes(s: &mut Sheet) {
    let wanted = cases::tables::derived(2);
    let short = |table: usize| std::array::from_fn(|t| wanted[t] - (t == table) as usize);
    let lent: Vec<[usize; 7]> = std::iter::once(wanted).chain((0..7).map(short)).collect();
    let rooms = list(lent.iter().map(|rows| applied("lent_rows", &rows.map(|n| n as u64))));
    s.text("sizes", format!("map (λ r. derives r 2) ({rooms})"), list(lent.iter().map(|&rows| truth(derives(rows, 2)))));
    let none = [(0, [0, 0, 0, 0, 0, 8, 4]), (1, [0, 0, 1, 1, 1, 16, 8])];
    for (name, (n, rows)) in ["sizes_of_none", "sizes_of_one"].into_iter().zip(none) {
        let left = format!("derives ({}) {n}", applied("lent_rows", &rows.map(|n| n as u64)));
        s.text(name, left, truth(derives(rows, n)));
    }
}
