//! Random rigs.

use crate::rng::Rng;
use crate::words::{word, words, Temper};
use oracle::Bone;

/// Tags are drawn below one of these.
const TAGS: [usize; 4] = [4, 12, 40, 65_536];

/// How indices and parents are drawn.
#[derive(Clone, Copy)]
enum Shape {
    /// Index is position, each parent lies before its bone.
    Tree,
    /// As `Tree`, and each bone hangs on the one before it.
    Chain,
    /// Few numbers, so that indices repeat and parents circle.
    Small,
    /// As `Small`, negative numbers too.
    Negative,
    /// Any 16-bit number.
    Any,
}

/// A rig of 0 to 12 bones, now and then up to 60.
pub fn rig(rng: &mut Rng) -> Vec<Bone> {
    let n = if rng.one_in(20) { rng.below(61) } else { rng.below(13) };
    rig_of(rng, n)
}

/// A rig of `n` bones.
pub fn rig_of(rng: &mut Rng, n: usize) -> Vec<Bone> {
    let shape = rng.pick(&[Shape::Tree, Shape::Tree, Shape::Tree, Shape::Chain, Shape::Small, Shape::Negative, Shape::Any]);
    let (temper, tags, names) = (Temper::draw(rng), rng.pick(&TAGS), rng.below(4));
    (0..n)
        .map(|i| {
            let at = place(rng, shape, i, n);
            bone(rng, at, temper, tags, names > 0)
        })
        .collect()
}

/// A tree of up to 65,535 bones in which no index comes twice: each parent lies before its bone and below 32,767, or
/// is -1.
pub fn tree(rng: &mut Rng, n: usize) -> Vec<Bone> {
    unlike(rng, n, |rng, i| rng.below(i.min(32_767) + 1) as i16 - 1)
}

/// A chain in which no index comes twice. Parents are signed: from bone 32,769 on they are negative, and those
/// bones are roots.
pub fn chain(rng: &mut Rng, n: usize) -> Vec<Bone> {
    unlike(rng, n, |_, i| (i as i16).wrapping_sub(1))
}

/// The most bones of a chain whose child entries can be written: 65,528 of them.
pub const LONGEST_WRITTEN: usize = 8_192;

/// A rig of up to 65,535 bones: a chain by index of so many, and the other bones the children of nobody. As positions all
/// parents are few steps from bone 0, so that the published walk and child list stay quick.
pub fn broad(rng: &mut Rng, n: usize, chain: usize) -> Vec<Bone> {
    const FIRST: i16 = 20_000;
    let mut bones = unlike(rng, n, |_, _| 0);
    for (i, b) in bones.iter_mut().enumerate() {
        (b.index, b.parent) = match i as i16 {
            _ if i >= chain => (1, 0),
            0 => (FIRST, -1),
            i => (FIRST + i, FIRST + i - 1),
        };
    }
    bones
}

fn unlike(rng: &mut Rng, n: usize, parent: impl Fn(&mut Rng, usize) -> i16) -> Vec<Bone> {
    let tags = rng.pick(&TAGS);
    (0..n)
        .map(|i| {
            let at = (i as i16, parent(rng, i));
            bone(rng, at, Temper::Tame, tags, false)
        })
        .collect()
}

/// A bone of the given index and parent.
fn bone(rng: &mut Rng, (index, parent): (i16, i16), temper: Temper, tags: usize, named: bool) -> Bone {
    Bone {
        rotation: words(rng, temper),
        translation: words(rng, temper),
        scale: words(rng, temper),
        next_sibling: rng.next() as i16,
        parent,
        name: if named { name(rng) } else { None },
        flags: rng.next() as u16,
        index,
        tag: tag(rng, tags),
        kept: std::array::from_fn(|_| word(rng, Temper::Wild)),
    }
}

fn place(rng: &mut Rng, shape: Shape, i: usize, n: usize) -> (i16, i16) {
    let near = |rng: &mut Rng, low: i16| low + rng.below(n + 2) as i16;
    match shape {
        Shape::Tree => (i as i16, rng.below(i + 1) as i16 - 1),
        Shape::Chain => (i as i16, i as i16 - 1),
        Shape::Small => (near(rng, 0), near(rng, -1)),
        Shape::Negative => (near(rng, -3), near(rng, -3)),
        Shape::Any => (rng.next() as i16, if rng.one_in(2) { near(rng, -1) } else { rng.next() as i16 }),
    }
}

/// Below `tags`, or a multiple of 11 above it, so that chains are long.
fn tag(rng: &mut Rng, tags: usize) -> u16 {
    let t = rng.below(tags) as u16;
    if rng.one_in(4) {
        t.wrapping_add(11 * rng.below(3) as u16)
    } else {
        t
    }
}

fn name(rng: &mut Rng) -> Option<Vec<u8>> {
    match rng.below(12) {
        0 => None,
        1 => Some(Vec::new()),
        2 if rng.one_in(4) => Some(vec![b'n'; 255]),
        3 => Some("Ständer_ß".as_bytes().to_vec()),
        // not UTF-8
        4 => Some(vec![b'a', 0xFF, 0xC3, b'b']),
        _ => {
            let n = 1 + rng.below(8);
            Some((0..n).map(|_| b'a' + rng.below(26) as u8).collect())
        }
    }
}
