//! Writes the sections of `examples/` into the folder that is named: a bridled horse as the published Rust lays it, and the same
//! with one chain cut behind its first entry.

use cases::records::{entry, skeleton};
use cases::trial::plain_bone;
use cases::Section;
use oracle::Bone;
use std::path::Path;
use std::{env, fs, io};

/// Name, parent, tag and translation of each bone. The tags of the head, both reins and the tail leave 27 modulo 29, the
/// bucket count of 13 bones: they share a chain. Index and next sibling of a bone follow from its place in the list.
const HORSE: [(&str, i16, u16, [f32; 3]); 13] = [
    ("root", -1, 0, [0.0, 0.0, 0.0]),
    ("pelvis", 0, 11816, [0.0, 1.4, -0.5]),
    ("spine", 1, 23553, [0.0, 0.1, 0.8]),
    ("neck", 2, 39317, [0.0, 0.5, 0.4]),
    ("head", 3, 31086, [0.0, 0.4, 0.3]),
    ("jaw", 4, 46240, [0.0, -0.2, 0.2]),
    ("rein_l", 4, 2057, [-0.1, -0.1, 0.1]),
    ("rein_r", 4, 2086, [0.1, -0.1, 0.1]),
    ("fore_l", 2, 45509, [-0.2, -0.6, 0.2]),
    ("fore_r", 2, 40269, [0.2, -0.6, 0.2]),
    ("hind_l", 1, 58271, [-0.2, -0.6, -0.1]),
    ("hind_r", 1, 51826, [0.2, -0.6, -0.1]),
    ("tail", 1, 839, [0.0, 0.1, -0.4]),
];

/// The tag whose chain is cut.
const HEAD: u64 = 31086;

/// The next bone of the same parent, or -1.
fn next_sibling(position: usize) -> i16 {
    let same = |later: &usize| HORSE[*later].1 == HORSE[position].1;
    (position + 1..HORSE.len()).find(same).map_or(-1, |later| later as i16)
}

fn horse() -> Vec<Bone> {
    let bone = |(i, (name, parent, tag, at)): (usize, &(&str, i16, u16, [f32; 3]))| Bone {
        name: Some(name.as_bytes().to_vec()),
        tag: *tag,
        next_sibling: next_sibling(i),
        translation: at.map(f32::to_bits),
        ..plain_bone(i, *parent)
    };
    HORSE.iter().enumerate().map(bone).collect()
}

fn main() -> io::Result<()> {
    let folder = env::args().nth(1).expect("the folder to write into");
    let folder = Path::new(&folder);
    let good = Section::written(oracle::write(&horse(), [0; 4]).section());
    fs::write(folder.join("horse.section"), &good.system)?;

    let bucket = HEAD % u64::from(good.count(skeleton::BUCKET_COUNT));
    let first = good.u64(good.pointer(skeleton::BUCKETS) + 8 * bucket).expect("a bucket");
    let mut cut = good;
    cut.put_u64(first + entry::NEXT as u64, 0);
    fs::write(folder.join("horse_cut.section"), &cut.system)
}
