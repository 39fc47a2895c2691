//! The rigs that are timed.

use cases::trial::plain_bone;
use cases::Rng;
use oracle::Bone;

/// How a rig of so many bones is drawn.
pub type Drawn = fn(&mut Rng, usize) -> Vec<Bone>;

pub const SEED: u64 = 1;
pub const COUNTS: [usize; 4] = [100, 1_000, 10_000, 65_535];

pub fn thousands(n: usize) -> String {
    if n < 1_000 {
        n.to_string()
    } else {
        format!("{},{:03}", n / 1_000, n % 1_000)
    }
}

/// A drawn rig with any tags and rotations of length 1, so that no walk leaves the finite numbers.
pub fn tame(drawn: Drawn, n: usize) -> Vec<Bone> {
    let rng = &mut Rng::new(SEED);
    let mut bones = drawn(rng, n);
    for b in &mut bones {
        let q = b.rotation.map(f32::from_bits);
        let length = q.iter().map(|c| c * c).sum::<f32>().sqrt();
        b.rotation = if length > 0.0 { q.map(|c| (c / length).to_bits()) } else { plain_bone(0, -1).rotation };
        b.tag = rng.next() as u16;
    }
    bones
}

/// The same with a name of 4 to 20 letters for each bone.
pub fn named(drawn: Drawn, n: usize) -> Vec<Bone> {
    let (mut bones, mut rng) = (tame(drawn, n), Rng::new(SEED));
    for b in &mut bones {
        let length = 4 + rng.below(17);
        b.name = Some((0..length).map(|_| b'a' + rng.below(26) as u8).collect());
    }
    bones
}
