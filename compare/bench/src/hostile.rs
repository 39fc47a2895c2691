//! Reading of hostile sections.

use crate::rigs::thousands;
use crate::skeletons::{read_both, POOLS};
use crate::timing::{Row, Table};
use cases::hostile::{Hostile, HOSTILE};
use link::Skeletons;

/// Each kind in full, made for the pool that it is read with.
pub fn sections(table: &Table, library: &dyn Skeletons) {
    for hostile in &HOSTILE {
        let [.., entries] = hostile.entries;
        for (call, pool) in POOLS {
            let (section, asked) = hostile.section(entries, pool * Hostile::rows(entries));
            let input = format!("{}, {} addresses", hostile.name, thousands(asked));
            let row = Row { call, input: &input, units: asked, unit: "an address" };
            read_both(table, library, &row, &section.system, pool);
        }
    }
}
