//! What the published Rust does where the words of the format leave room: one named assertion for each reading. What our library
//! exports is asked beside it (`ask`), and must answer alike. docs/DECISIONS.md and docs/DIFFERENCES.md cite these functions
//! by name.

mod addresses;
mod ask;
mod bytes;
mod deriving;
mod floats;
mod numbers;
mod pool;
mod room;
mod section;
mod trial;
mod writing;

use crate::share::each;
use std::panic::catch_unwind;
use std::time::Instant;

/// A reading's name and the assertions that show it.
type Named = (&'static str, fn());

macro_rules! readings {
    ($($module:ident { $($name:ident),* $(,)? })*) => {
        const READINGS: &[Named] = &[$($((stringify!($name), $module::$name)),*),*];
    };
}

readings! {
    bytes {
        skeleton_needs_98_bytes, bone_needs_70_bytes, bones_block_header_needs_0_bytes, tag_entry_needs_16_bytes,
        joints_need_52_bytes, arrays_need_all_their_bytes, name_needs_0_bytes, never_examined, unaligned_address_is_legal,
    }
    addresses {
        bones_pointer_ranges, thirteen_comes_after_chains, each_bone_by_its_own_address, names_and_arrays_lie_in_one_half,
        count_0_is_pooled_unexamined, res_reader_follows_other_rules,
    }
    pool {
        moments_of_pooling, name_at_own_bone_block_or_root, bucket_or_link_at_bucket_array_or_root, arrays_at_root,
        later_kind_replaces_earlier, twelve_before_ten_and_eleven, plain_arrays_never_give_12, pool_is_asked_before_the_count,
        other_kind_is_read_anew_and_left_out, lists_stand_without_bones, local_at_inverse_gives_kept_words,
    }
    room {
        entry_after_its_bytes_and_before_its_link, bucket_after_its_chain, name_pool_row_after_the_name, bone_row_after_its_name,
        bone_pool_row_after_its_row, bucket_array_and_block_after_their_last_element, array_rows_all_or_none_then_its_pool_row,
        skeleton_pool_row_last, list_given_again_takes_rows_of_its_own_table, sizes_are_by_n,
        bones_table_with_fewer_rows_than_asked_for, tables_are_zero_after_none_and_refusals,
    }
    deriving {
        roots_are_all_negative_parents, children_by_index_walk_and_entries_by_position, bone_is_its_own_child,
        children_go_in_front, layers_up_to_n_plus_1, walk_takes_n_steps_in_a_circle,
    }
    floats {
        no_fused_multiply_add, subnormals_are_kept, zero_column_terms_are_kept, minus_zero_occurs,
        determinant_minus_zero_is_singular, doubling_order, local_translation_nan_is_derived,
    }
    writing {
        names_part, empty_name_is_368_bytes, largest_section, child_entries_65528_and_65536, rotation_limit_named_slots_win,
        rotation_id_above_65535_is_35, six_one_thirty_five_five, upper_half_of_the_second_number,
    }
    section {
        chains_are_those_of_the_list_read, bones_read_are_counted, empty_input_is_11, names_are_mended,
    }
    numbers { ladder, rage_joaat_samples, fresh_rotation_limit_words }
    trial {
        trial_buckets, trial_tags, trial_children, trial_own_parent, trial_singular, trial_no_bones, trial_one_root,
        trial_bones_pointer_15_and_16,
    }
}

/// Runs every reading, shared among `threads`, and prints its name; the number of readings, or the names that failed.
pub fn run(threads: u64) -> Result<usize, String> {
    let given = each(READINGS, threads, |(_, shown)| {
        let start = Instant::now();
        Ok::<_, String>((catch_unwind(shown).is_ok(), start.elapsed().as_millis()))
    })?;
    let mut failed = Vec::new();
    for ((name, _), (held, time)) in READINGS.iter().zip(given) {
        println!("  reading {name}: {} ({time} ms)", if held { "shown" } else { "FAILED" });
        if !held {
            failed.push(*name);
        }
    }
    if failed.is_empty() {
        Ok(READINGS.len())
    } else {
        Err(format!("readings not shown: {}", failed.join(", ")))
    }
}
