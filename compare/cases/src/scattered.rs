//! Good sections laid by hand: every part at a place of its own, in either half, in any order and at
//! any alignment.

use crate::records::{bone, bones_block, entry, matrix, skeleton};
use crate::rng::Rng;
use crate::section::Section;
use crate::units;
use oracle::{build_bone_tags, build_indices, build_transformations, settle_nan, Bone, Matrix, GRAPHICS_BASE, SYSTEM_BASE};

/// The lengths of the parts and, once placed, their addresses.
#[derive(Default)]
pub(crate) struct Places {
    lengths: Vec<usize>,
    pub(crate) addresses: Vec<u64>,
}

impl Places {
    /// A new part; an empty one has the address 0.
    pub(crate) fn add(&mut self, length: usize) -> usize {
        self.lengths.push(length);
        self.lengths.len() - 1
    }

    /// Gives every part an address; the lengths of the two halves come back.
    pub(crate) fn scatter(&mut self, rng: &mut Rng) -> (usize, usize) {
        let mut order: Vec<usize> = (0..self.lengths.len()).collect();
        rng.shuffle(&mut order);
        self.addresses = vec![0; self.lengths.len()];
        let (mut system, mut graphics) = (rng.below(20), rng.below(20));
        for part in order.into_iter().filter(|&p| self.lengths[p] > 0) {
            let (base, end) = if rng.one_in(3) { (GRAPHICS_BASE, &mut graphics) } else { (SYSTEM_BASE, &mut system) };
            self.addresses[part] = base + *end as u64;
            *end += self.lengths[part] + rng.below(4);
        }
        (system, graphics)
    }
}

/// A section that holds the bones with the tables derived from them. It is accepted by the check.
pub fn scattered(rng: &mut Rng, bones: &[Bone], free: [u32; 4]) -> Section {
    let n = bones.len();
    let chains = build_bone_tags(bones);
    let (parents, children) = build_indices(bones);
    let (local, inverse) = build_transformations(bones);
    let mut places = Places::default();
    let root = places.add(skeleton::SIZE);
    let buckets = places.add(8 * chains.len());
    let entries: Vec<Vec<usize>> = chains.iter().map(|c| c.iter().map(|_| places.add(entry::SIZE)).collect()).collect();
    let block = places.add(if n == 0 { 0 } else { bones_block::HEADER + bone::SIZE * n });
    let names: Vec<Option<usize>> = bones.iter().map(|b| b.name.as_ref().map(|name| places.add(name.len() + 1))).collect();
    let lists = [matrix::SIZE * n, matrix::SIZE * n, 2 * n, 2 * children.len()].map(|len| places.add(len));
    let (system, graphics) = places.scatter(rng);
    let at = |part: usize| places.addresses[part];
    let mut s = Section { system: rng.bytes(system), graphics: rng.bytes(graphics), root: at(root) };

    let record = units::Skeleton {
        free,
        buckets: at(buckets),
        bucket_count: chains.len() as u16,
        bones: if n == 0 { 0 } else { at(block) + bones_block::HEADER as u64 },
        inverse: at(lists[0]),
        local: at(lists[1]),
        parents: at(lists[2]),
        children: at(lists[3]),
        bone_count: n as u16,
        child_count: children.len() as u16,
    };
    s.put(at(root), &record.bytes());
    s.put(at(buckets), &units::pointers(&entries.iter().map(|c| c.first().map_or(0, |&e| at(e))).collect::<Vec<_>>()));
    for (chain, parts) in chains.iter().zip(&entries) {
        for (i, &(tag, position)) in chain.iter().enumerate() {
            s.put(at(parts[i]), &units::entry(tag, position, parts.get(i + 1).map_or(0, |&e| at(e))));
        }
    }
    s.put(at(block), &units::block_header(n as u32));
    for (i, b) in bones.iter().enumerate() {
        s.put(record.bones + (bone::SIZE * i) as u64, &units::bone(b, names[i].map_or(0, at)));
        if let (Some(part), Some(name)) = (names[i], &b.name) {
            s.put(at(part), &[name, &[0][..]].concat());
        }
    }
    let settled = |l: &[Matrix]| units::matrices(&l.iter().map(settle_nan).collect::<Vec<_>>());
    s.put(at(lists[0]), &settled(&inverse));
    s.put(at(lists[1]), &settled(&local));
    s.put(at(lists[2]), &units::indices(&parents));
    s.put(at(lists[3]), &units::indices(&children));
    s
}
