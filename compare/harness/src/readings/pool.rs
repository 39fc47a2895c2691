//! The pool.

use super::ask::{bones, read, reading, refusal};
use cases::hand::bone_at;
use cases::trial::{plain_bone, NONE};
use cases::{units, Hand};
use oracle::{Answer, Bone};

fn three() -> Vec<Bone> {
    vec![plain_bone(0, NONE), plain_bone(1, 0), plain_bone(2, 0)]
}

/// A bones block whose names lie at addresses told from the address of bone 0.
fn named(names: impl FnOnce(u64, u64) -> Vec<u64>) -> Hand {
    let mut h = Hand::new();
    let names = names(h.next_bone(), h.root());
    h.add_bones(&three(), &names);
    h
}

/// An entry before its link, the bucket array after its chains, a name before its bone, the block after
/// its bones, the skeleton last.
pub fn moments_of_pooling() {
    // an entry that links to itself is found in the pool
    let mut h = Hand::new();
    let entry = h.end() + 8;
    h.add_buckets(&[entry]);
    h.add(&units::entry(0, 0, entry));
    assert_eq!(reading(&h.section()).entries[0].next, Some(0));
    // bone 0's name at bone 1: the name is pooled when bone 1 is read
    assert_eq!(refusal(&named(|first, _| vec![bone_at(first, 1)]).section()), 12);
    // bone 1's name at bone 0: the bone is pooled when the name is read
    assert_eq!(refusal(&named(|first, _| vec![0, first]).section()), 12);
    // bone 1's name at the bucket array: that was pooled before the bones
    let mut h = Hand::new();
    let buckets = h.add_buckets(&[0]);
    h.add_bones(&three(), &[0, buckets]);
    assert_eq!(refusal(&h.section()), 12);
    // neither the block nor the skeleton is pooled while names are read
    assert_eq!(refusal(&named(|first, root| vec![first - 16, root]).section()), 0);
    // an array after its bytes: the second list at its address is the first
    let mut h = named(|_, _| vec![]);
    h.skeleton.parents = h.add(&units::indices(&[7, 8, 9]));
    h.skeleton.children = h.skeleton.parents;
    let r = reading(&h.section());
    assert_eq!(r.parents, r.children);
}

/// A name at its own bone, at the block and at the root reads; the later kind takes the row.
pub fn name_at_own_bone_block_or_root() {
    let unnamed = reading(&named(|_, _| vec![]).section()).rows.pool;
    for at in [0usize, 1, 2] {
        let h = named(|first, root| vec![[first, first - 16, root][at]]);
        let r = reading(&h.section());
        assert!(r.bones.unwrap()[0].name.is_some());
        assert_eq!(r.rows.pool, unnamed);
    }
}

/// A bucket or a link that leads to the bucket array or to the root reads an entry there.
pub fn bucket_or_link_at_bucket_array_or_root() {
    for at_root in [false, true] {
        let mut h = Hand::new();
        let target = if at_root { h.root() } else { h.end() };
        // two buckets are 16 bytes: as an entry, the second of them is the link
        h.add_buckets(&[target, 0]);
        let s = h.section();
        assert_eq!(reading(&s).entries.len(), 1);
        // the bucket array and the skeleton, whose kinds replaced the entry's or stand beside it
        assert_eq!(reading(&s).rows.pool, 2);
        let mut h = Hand::new();
        let entry = h.end() + 16;
        let target = if at_root { h.root() } else { h.end() };
        h.add_buckets(&[entry, 0]);
        // the bucket array as an entry would link to 0, the root as an entry to the word at 8, which is 0
        h.add(&units::entry(0, 0, target));
        assert_eq!(reading(&h.section()).entries.len(), 2);
    }
}

/// Lists that lie on the skeleton itself read its bytes.
pub fn arrays_at_root() {
    let mut h = named(|_, _| vec![]);
    let root = h.root();
    (h.skeleton.parents, h.skeleton.children, h.skeleton.child_count) = (root, root, 3);
    let s = h.section();
    let kind = [s.u16(root).unwrap() as i16, s.u16(root + 2).unwrap() as i16, 1];
    assert_eq!(reading(&s).parents, Some(kind.to_vec()));
    assert_eq!(reading(&s).children, Some(kind.to_vec()));
}

/// Both names at bone 0: the bone replaced the first name, so the second gives 12.
pub fn later_kind_replaces_earlier() {
    assert_eq!(refusal(&named(|first, _| vec![first]).section()), 0);
    assert_eq!(refusal(&named(|first, _| vec![first, first]).section()), 12);
    assert_eq!(refusal(&named(|first, _| vec![bone_at(first, 2), bone_at(first, 2)]).section()), 12);
}

/// Also where the address was pooled unexamined.
pub fn twelve_before_ten_and_eleven() {
    for address in [0x4000_0000, 1 << 40, 0x5FFF_FFF0] {
        // a bucket array of count 0 there, then a name there
        let mut h = Hand::new();
        h.skeleton.buckets = address;
        h.add_bones(&three(), &[address]);
        assert_eq!(refusal(&h.section()), 12, "{address:#x}");
        // and a bones block there
        let mut h = Hand::new();
        h.skeleton.buckets = address;
        h.skeleton.bones = address + 16;
        assert_eq!(refusal(&h.section()), 12, "{address:#x}");
        // with no bucket array there it is 10 or 11
        h.skeleton.buckets = 0;
        assert!([10, 11].contains(&refusal(&h.section())));
    }
}

/// Each list at the address of an entry, the bucket array, a bone, the block and a name.
pub fn plain_arrays_never_give_12() {
    let mut h = Hand::new();
    let entry = h.end() + 16;
    let buckets = h.add_buckets(&[entry, 0]);
    h.add(&units::entry(0, 0, 0));
    let name = h.add(b"name\0");
    let first = h.add_bones(&three(), &[name]);
    for at in [entry, buckets, first, first - 16, name] {
        for list in 0..4 {
            let s = &mut h.skeleton;
            (s.inverse, s.local, s.parents, s.children) = (0, 0, 0, 0);
            *[&mut s.inverse, &mut s.local, &mut s.parents, &mut s.children][list] = at;
            s.child_count = 2;
            assert_ne!(read(&h.section()), Answer::Refused(12));
        }
    }
}

/// Children at the parents' address are the n parents, whatever child count is stored.
pub fn pool_is_asked_before_the_count() {
    let mut h = named(|_, _| vec![]);
    h.skeleton.parents = h.add(&units::indices(&[7, 8, 9]));
    h.skeleton.children = h.skeleton.parents;
    for count in [0, 1, 3, 4, 65_535] {
        h.skeleton.child_count = count;
        assert_eq!(reading(&h.section()).children, Some(vec![7, 8, 9]), "{count}");
    }
}

/// At another kind's address each list is read with its own count, the second one too.
pub fn other_kind_is_read_anew_and_left_out() {
    let mut h = named(|_, _| vec![]);
    h.skeleton.inverse = h.add(&units::matrices(&[[0x0002_0001; 16]; 3]));
    let alone = reading(&h.section()).rows.pool;
    (h.skeleton.parents, h.skeleton.children, h.skeleton.child_count) = (h.skeleton.inverse, h.skeleton.inverse, 5);
    let r = reading(&h.section());
    assert_eq!((r.parents, r.children), (Some(vec![1, 2, 1]), Some(vec![1, 2, 1, 2, 1])));
    assert_eq!(r.rows.pool, alone);
}

/// Bones pointer 0 or 16 with a stored count: matrices and parents are read with that count.
pub fn lists_stand_without_bones() {
    for pointer in [0, 16] {
        let mut h = Hand::new();
        (h.skeleton.bones, h.skeleton.bone_count) = (pointer, 2);
        h.skeleton.inverse = h.add(&units::matrices(&[[1; 16]; 2]));
        h.skeleton.parents = h.add(&units::indices(&[4, 5]));
        let r = reading(&h.section());
        assert_eq!((r.bones, r.inverse, r.parents), (None, Some(vec![[1; 16]; 2]), Some(vec![4, 5])));
    }
}

/// The kept words are column 4 of the list that the local pointer gives; zeros where there is none.
pub fn local_at_inverse_gives_kept_words() {
    let mut h = named(|_, _| vec![]);
    let matrix = std::array::from_fn(|i| i as u32);
    h.skeleton.inverse = h.add(&units::matrices(&[matrix; 3]));
    assert_eq!(bones(&h.section())[1].kept, [0; 4]);
    h.skeleton.local = h.skeleton.inverse;
    assert_eq!(bones(&h.section())[1].kept, [3, 7, 11, 15]);
}
