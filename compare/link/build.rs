//! Links librig.a when `RIG_LIBRARY` names it; without it the crate offers no library. A group of exports that
//! the archive does not have is left out.

use std::path::PathBuf;

/// Each group and one of its exports.
const GROUPS: [(&str, &str); 8] = [
    ("rig_fields", "rig_u16_at"),
    ("rig_cursor", "rig_cursor"),
    ("rig_derive", "rig_build_indices"),
    ("rig_hash", "rig_rage_joaat"),
    ("rig_setters", "rig_set_column4"),
    ("rig_joints", "rig_rotation_limit_read"),
    ("rig_skeletons", "rig_read"),
    ("rig_checks", "rig_check"),
];

fn main() {
    println!("cargo::rustc-check-cfg=cfg(rig)");
    for (group, _) in GROUPS {
        println!("cargo::rustc-check-cfg=cfg({group})");
    }
    println!("cargo::rerun-if-env-changed=RIG_LIBRARY");
    let Some(library) = std::env::var_os("RIG_LIBRARY").map(PathBuf::from) else { return };
    let folder = library.parent().expect("RIG_LIBRARY is the path of librig.a");
    println!("cargo::rerun-if-changed={}", library.display());
    println!("cargo::rustc-link-search=native={}", folder.display());
    println!("cargo::rustc-link-lib=static=rig");
    println!("cargo::rustc-cfg=rig");
    let archive = std::fs::read(&library).expect("librig.a can be read");
    for (group, export) in GROUPS {
        // an archive lists its symbols, each ended by a zero
        let symbol = [export.as_bytes(), &[0]].concat();
        if archive.windows(symbol.len()).any(|w| w == symbol) {
            println!("cargo::rustc-cfg={group}");
        }
    }
}
