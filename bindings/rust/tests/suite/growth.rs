//! Sections that want more rows than their counts tell.

use crate::sections::{
    address, get64, one_chain, put16, put64, BUCKETS, BUCKET_COUNT, CHILDREN, CHILD_COUNT, ENTRY, HORSE, INVERSE, LOCAL, PARENTS,
    SKELETON,
};
use rig::{check, find_by_name, lookup, Checked, Refusal, Skeleton, SYSTEM_BASE};

fn read(section: &[u8]) -> Skeleton<'_> {
    Skeleton::read(section, &[], SYSTEM_BASE).expect("a section that reads").expect("a root that is not 0")
}

#[test]
fn a_chain_longer_than_the_bones() {
    for n in [1, 2, 3, 1000, 70_000] {
        let section = one_chain(n, 0);
        let skeleton = read(&section);
        assert_eq!((skeleton.bone_count, skeleton.bones.len()), (0, 0));
        assert_eq!((skeleton.chains.entries().len(), skeleton.chains.chain(0).count()), (n, n));
        assert_eq!(check(&section, &[], SYSTEM_BASE), Err(Refusal::Chains));
        assert_eq!(find_by_name(&section, &[], SYSTEM_BASE, b"head"), Ok(None));
        assert_eq!(lookup(&section, &[], SYSTEM_BASE, 1), Err(Refusal::ChainTooLong));
    }
}

#[test]
fn a_circle() {
    let section = one_chain(50, address(SKELETON + ENTRY));
    let skeleton = read(&section);
    assert_eq!((skeleton.chains.entries().len(), skeleton.chains.chain(0).count()), (50, 50));
    assert_eq!(check(&section, &[], SYSTEM_BASE), Err(Refusal::Chains));
}

/// Entries that begin every 8 bytes: the link of each is the tag and position of the next.
#[test]
fn entries_that_overlap() {
    let (first, n) = (SKELETON + ENTRY, 5000);
    let mut section = vec![0; first + 8 * n + 16];
    put64(&mut section, BUCKETS, address(SKELETON));
    put16(&mut section, BUCKET_COUNT, 1);
    put64(&mut section, SKELETON, address(first));
    for i in 0..n {
        put64(&mut section, first + 8 * i, address(first + 8 * i));
    }
    assert_eq!(read(&section).chains.chain(0).count(), n);
    assert_eq!(check(&section, &[], SYSTEM_BASE), Err(Refusal::Chains));
}

/// A chain that many buckets share is stored once.
#[test]
fn a_shared_chain() {
    let mut section = one_chain(100, 0);
    let (at, buckets) = (section.len(), 20_000);
    section.resize(at + 8 * buckets, 0);
    put64(&mut section, BUCKETS, address(at));
    put16(&mut section, BUCKET_COUNT, buckets as u16);
    for bucket in 0..buckets {
        put64(&mut section, at + 8 * bucket, address(SKELETON + ENTRY));
    }
    let skeleton = read(&section);
    assert_eq!((skeleton.chains.len(), skeleton.chains.entries().len()), (buckets, 100));
    assert!(skeleton.chains.iter().all(|chain| chain.count() == 100));
    assert_eq!(skeleton.chains.chain(buckets).count(), 0);
}

/// A list at the address of another of its kind is that list, whatever its own count.
#[test]
fn lists_given_again() {
    let mut section = HORSE.to_vec();
    let (parents, inverse) = (get64(HORSE, PARENTS), get64(HORSE, INVERSE));
    put64(&mut section, CHILDREN, parents);
    put16(&mut section, CHILD_COUNT, 0);
    put64(&mut section, LOCAL, inverse);
    let skeleton = read(&section);
    assert_eq!(skeleton.children, skeleton.parents);
    assert_eq!(skeleton.local, skeleton.inverse);
    assert_eq!(check(&section, &[], SYSTEM_BASE), Err(Refusal::Children));
}

/// The record alone, with every count at its greatest: nothing is there to be counted.
#[test]
fn counts_without_lists() {
    let mut section = vec![0; SKELETON];
    for count in [BUCKET_COUNT, crate::sections::BONE_COUNT, CHILD_COUNT] {
        put16(&mut section, count, u16::MAX);
    }
    assert_eq!(check(&section, &[], SYSTEM_BASE), Ok(Checked::Accepted { bones: 0 }));
    assert_eq!(read(&section).bone_count, u16::MAX);
    for pointer in [BUCKETS, INVERSE, LOCAL, PARENTS, CHILDREN] {
        let mut section = section.clone();
        put64(&mut section, pointer, address(SKELETON));
        assert_eq!(check(&section, &[], SYSTEM_BASE), Err(Refusal::PastTheEnd));
    }
}
