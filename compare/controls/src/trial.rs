//! `TrialCases`: docs/FORMAT.md, "Trial rigs".

use crate::control::inverse;
use crate::sheet::{Sheet, Source};
use crate::term::{list, number, numbers, signed};
use cases::trial::{plain_bone, rig_of_parents, NONE};
use oracle::{build_bone_tags, build_indices, num_hash_buckets, u64_at, write, Bone};

/// The most bones of a skeleton.
const MOST: u32 = 65_535;

pub fn sheet() -> Sheet {
    let mut s = Sheet::new("format/specs/TrialCases.antt");
    let buckets = |n: u32| num_hash_buckets(n as usize) as u32;
    let counts = [10, 11, 65_166, 65_167];
    s.published("buckets", format!("map num_hash_buckets ({})", numbers(&counts)), numbers(&counts.map(buckets)));
    // the counts after which there is another number of buckets, or no further count
    let mut least = 0;
    for n in (0..=MOST).filter(|&n| n == MOST || buckets(n) != buckets(n + 1)) {
        s.add(&format!("buckets{}", buckets(n)), Source::Published, format!("Ends {} {least} {n}", buckets(n)));
        least = n + 1;
    }
    let tags = [0u16, 11, 22];
    let bones: Vec<Bone> = tags.iter().enumerate().map(|(i, &tag)| Bone { tag, ..plain_bone(i, NONE) }).collect();
    let chain = list(build_bone_tags(&bones)[0].iter().map(|(tag, position)| format!("entry_of {tag} {position}")));
    s.published("tags", format!("get_or (chains ({})) 0 []", numbers(&tags)), chain);
    for (name, parents) in [("children3", &[NONE, 0, 0][..]), ("children7", &[NONE, 0, 0, 0, 0, 0, 1])] {
        s.published(name, format!("rig_children ({})", signed(parents)), children(&rig_of_parents(parents)));
    }
    let own = Bone { index: NONE, ..plain_bone(0, NONE) };
    s.published("children_of_itself", "children (minus_one ∷ []) (minus_one ∷ [])", children(&[own]));
    let half = Bone { rotation: [0.5f32, 0.5, 0.0, 0.0].map(f32::to_bits), ..plain_bone(0, NONE) };
    s.published("singular", "inverse_of (half ∷ []) half", numbers(&inverse(&[half], 0)));
    let (none, root) = (write(&[], [0; 4]).section(), write(&[plain_bone(0, NONE)], [0; 4]).section());
    s.published("no_bones", "length (layout [] no_free)", number(none.len() as u64));
    s.published("one_root", "length (layout (plain minus_one 0 0 ∷ []) no_free)", number(root.len() as u64));
    s.published("bones_pointer", "field 8 (layout (plain minus_one 0 0 ∷ []) no_free) 32", number(u64_at(&root, 32)));
    s
}

/// The child list that the published function gives.
fn children(bones: &[Bone]) -> String {
    signed(&build_indices(bones).1)
}
