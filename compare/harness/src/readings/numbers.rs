//! Numbers confirmed by running.

use super::ask::{fresh_rotation_limit, num_hash_buckets, rage_joaat};
use cases::trial::BUCKET_ENDS;

/// Every count from 0 to 65,535.
pub fn ladder() {
    let mut next = 0;
    for (buckets, least, greatest) in BUCKET_ENDS {
        assert_eq!(least, next);
        assert!((least..=greatest).all(|n| num_hash_buckets(n) == buckets));
        next = greatest + 1;
    }
    assert_eq!(next, 65_536);
}

pub fn rage_joaat_samples() {
    let hashes = ["", "a", "head", "Head"].map(rage_joaat);
    assert_eq!(hashes, [0, 0xCA2E_9442, 0x8453_3F51, 0x8A18_B7B4]);
}

/// Words 0 to 28, then six times (pi, -pi, pi), then 100 hex; the named fields are 0.
pub fn fresh_rotation_limit_words() {
    const ONE: u32 = 0x3F80_0000;
    const PI: u32 = 0x4049_0FDB;
    const MINUS_PI: u32 = 0xC049_0FDB;
    let mut words = vec![0, 0, 0, 1, 3, 0, 0, 0, 0, 0, 0, ONE, 0, 0, 0, 0, ONE, 0, 0, 0, MINUS_PI, PI, ONE, 0, 0, 0, 0, 0, 0];
    words.extend([PI, MINUS_PI, PI].repeat(6));
    words.push(0x100);
    let fresh = fresh_rotation_limit();
    assert_eq!(fresh.other[..], words);
    assert_eq!((fresh.id, fresh.second, fresh.min, fresh.max), (0, 0, [0; 3], [0; 3]));
}
