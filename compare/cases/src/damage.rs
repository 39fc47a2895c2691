//! Named changes to a section.

mod chains;
mod pointers;
mod values;

use crate::rng::Rng;
use crate::section::Section;

/// A change and its name.
pub type Change = (&'static str, fn(&mut Section, &mut Rng));

/// Every change. A case draws from them by place: another order makes other cases of the same seeds.
pub const CHANGES: [Change; 36] = [
    ("cut_chain", chains::cut_chain),
    ("link_to_self", chains::link_to_self),
    ("link_to_other_entry", chains::link_to_other_entry),
    ("link_to_bucket_array", chains::link_to_bucket_array),
    ("bucket_to_other_entry", chains::bucket_to_other_entry),
    ("swap_buckets", chains::swap_buckets),
    ("entry_position", chains::entry_position),
    ("entry_tag", chains::entry_tag),
    ("pointer_to_graphics", pointers::pointer_to_graphics),
    ("pointer_to_end", pointers::pointer_to_end),
    ("pointer_past_end", pointers::pointer_past_end),
    ("pointer_in_neither", pointers::pointer_in_neither),
    ("pointer_zero", pointers::pointer_zero),
    ("pointer_anywhere", pointers::pointer_anywhere),
    ("alias_children_to_parents", pointers::alias_children_to_parents),
    ("alias_local_to_inverse", pointers::alias_local_to_inverse),
    ("alias_two_pointers", pointers::alias_two_pointers),
    ("bones_pointer_below_18", pointers::bones_pointer_below_18),
    ("bones_pointer_15", pointers::bones_pointer_15),
    ("bones_pointer_at_base", pointers::bones_pointer_at_base),
    ("name_at_bone", pointers::name_at_bone),
    ("name_at_entry", pointers::name_at_entry),
    ("name_at_root", pointers::name_at_root),
    ("count_plus_one", values::count_plus_one),
    ("count_minus_one", values::count_minus_one),
    ("count_zero", values::count_zero),
    ("count_any", values::count_any),
    ("bone_parent", values::bone_parent),
    ("bone_tag", values::bone_tag),
    ("listed_parent", values::listed_parent),
    ("listed_child", values::listed_child),
    ("inverse_word", values::inverse_word),
    ("local_word", values::local_word),
    ("flip_byte", values::flip_byte),
    ("cut_end", values::cut_end),
    ("root_elsewhere", values::root_elsewhere),
];
