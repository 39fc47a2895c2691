//! Which derivations are compared.

use super::input::{Call, DeriveInput, MOST};
use super::{ours, rust};
use crate::difference::{compare, Difference, Input, Place};
use crate::extent::Extent;
use crate::share::{share, share_items};
use crate::tally::{status, Tally};
use cases::rigs::{chain, rig, rig_of, tree};
use cases::trial::{plain_bone, BUCKET_ENDS};
use cases::{rows, Rng};
use link::Derive;
use oracle::{num_hash_buckets, Bone};
use std::path::Path;
use Call::*;

const CALLS: [Call; 3] = [Tags, Indices, Matrices];

/// Compares deriving; gives how often each status came.
pub fn run(library: &dyn Derive, folder: &Path, seed: u64, extent: Extent, threads: u64) -> Result<Tally, Difference> {
    let runs = Runs { library, folder, seed };
    let mut tally = Tally::default();
    runs.buckets(&mut tally)?;
    runs.refusals(&mut tally)?;
    runs.room(&mut tally, extent)?;
    runs.trial(&mut tally)?;
    if extent > Extent::Test {
        tally.merge(&runs.sizes(threads)?);
    }
    if extent == Extent::Long {
        runs.exact(&mut tally, Indices, &tree(&mut Rng::new(seed), MOST))?;
    }
    let rigs = extent.of([400, 100_000, 1_000_000]);
    tally.merge(&share(seed, rigs, threads, |tally, seed| Runs { seed, ..runs }.random(tally))?);
    Ok(tally)
}

/// A number of bones.
#[derive(Clone)]
struct Count(usize);

impl Input for Count {
    fn smaller(&self) -> impl Iterator<Item = Self> {
        [self.0 / 2, self.0.saturating_sub(1)].into_iter().filter(|&n| n < self.0).map(Count)
    }

    fn text(&self) -> String {
        format!("n {}\n", self.0)
    }
}

struct Runs<'a> {
    library: &'a dyn Derive,
    folder: &'a Path,
    seed: u64,
}

impl Runs<'_> {
    fn one(&self, tally: &mut Tally, input: &DeriveInput) -> Result<(), Difference> {
        let name = input.call.name();
        let place = Place { folder: self.folder, name, seed: self.seed };
        let answer = compare(&place, input, |i| ours(self.library, i), rust)?;
        tally.count(name, status(answer.status));
        Ok(())
    }

    /// One call with tables exactly as long as they must be.
    fn exact(&self, tally: &mut Tally, call: Call, bones: &[Bone]) -> Result<(), Difference> {
        let bones_table = rows::bones(&mut Rng::new(self.seed), bones);
        self.one(tally, &DeriveInput { call, bones: bones_table, n: bones.len(), room: [0; 3], dirt: self.seed })
    }

    /// The ladder, and counts that no table could hold.
    fn buckets(&self, tally: &mut Tally) -> Result<(), Difference> {
        let place = Place { folder: self.folder, name: "buckets", seed: self.seed };
        for n in (0..=70_000).chain([1 << 31, 1 << 32, 1 << 63, usize::MAX]) {
            tally.count("buckets", "done");
            compare(&place, &Count(n), |c| self.library.num_hash_buckets(c.0), |c| num_hash_buckets(c.0))?;
        }
        Ok(())
    }

    /// More bones than 65,535, with tables that would hold them and with none: 2 before 1.
    fn refusals(&self, tally: &mut Tally) -> Result<(), Difference> {
        for call in CALLS {
            let bones = vec![1; rows::BONE * (MOST + 1)];
            self.one(tally, &DeriveInput { call, bones, n: MOST + 1, room: [0; 3], dirt: 1 })?;
            for n in [MOST + 1, MOST + 2, 1 << 32, 1 << 60, 1 << 63, usize::MAX] {
                self.one(tally, &DeriveInput { call, bones: Vec::new(), n, room: [-1_000_000_000; 3], dirt: 2 })?;
                self.one(tally, &DeriveInput { call, bones: Vec::new(), n, room: [40; 3], dirt: 3 })?;
            }
        }
        Ok(())
    }

    /// Each table as long as it must be, one word longer, one word shorter; all of them shorter; none at all.
    fn room(&self, tally: &mut Tally, extent: Extent) -> Result<(), Difference> {
        let mut counts = vec![0, 1, 2, 3, 10, 11, 12, 28, 29, 60];
        if extent > Extent::Test {
            counts.extend([800, MOST]);
        }
        for n in counts {
            let bones = rows::bones(&mut Rng::new(self.seed), &tree(&mut Rng::new(self.seed), n));
            for call in CALLS {
                let input = DeriveInput { call, bones: bones.clone(), n, room: [0; 3], dirt: self.seed };
                let mut all = vec![
                    input.clone(),
                    DeriveInput { room: [-1; 3], ..input.clone() },
                    DeriveInput { room: [isize::MIN; 3], ..input.clone() },
                    DeriveInput { bones: Vec::new(), room: [isize::MIN; 3], ..input.clone() },
                ];
                all.extend(bones.split_last().map(|(_, short)| DeriveInput { bones: short.to_vec(), ..input.clone() }));
                for (table, more) in (0..3).flat_map(|table| [(table, 1), (table, -1)]) {
                    let mut room = [0; 3];
                    room[table] = more;
                    all.push(DeriveInput { room, ..input.clone() });
                }
                // the published child list of 65,535 bones takes seconds: there refusals alone
                all.retain(|i| !(n == MOST && call == Indices && i.status() == link::DONE));
                all.iter().try_for_each(|i| self.one(tally, i))?;
            }
        }
        Ok(())
    }

    /// The trial rigs of docs/FORMAT.md, those of the least and the greatest count of each number of buckets among them; a bone that
    /// is its own child; a circle and a bone under it; a pending list of more than 4 * n bones.
    fn trial(&self, tally: &mut Tally) -> Result<(), Difference> {
        let by_position = |parents: &[i16]| (0..).zip(parents.iter().copied()).collect::<Vec<(i16, i16)>>();
        let rigs = [
            by_position(&[-1, 0, 0]),
            by_position(&[-1, 0, 0, 0, 0, 0, 1]),
            by_position(&[1, 2, 0, 0]),
            by_position(&[-7, 0, i16::MIN, 2, 32_767]),
            vec![(-1, -1)],
            vec![(-3, -3)],
            vec![(-1, -1); 9],
            vec![(5, -1), (9, 5)],
            [vec![(0, -1); 8], vec![(20, 0); 9]].concat(),
        ];
        for rig in rigs {
            let bone = |(i, &(index, parent))| Bone { index, ..plain_bone(i, parent) };
            let bones: Vec<Bone> = rig.iter().enumerate().map(bone).collect();
            CALLS.iter().try_for_each(|&call| self.exact(tally, call, &bones))?;
        }
        let multiples = [0, 11, 22].map(|tag| Bone { tag, ..plain_bone(0, -1) });
        self.exact(tally, Tags, &multiples)?;
        for n in BUCKET_ENDS.into_iter().flat_map(|(_, least, greatest)| [least, greatest]) {
            self.exact(tally, Tags, &tree(&mut Rng::new(self.seed), n))?;
        }
        let singular = Bone { rotation: [0x3F00_0000, 0x3F00_0000, 0, 0], ..plain_bone(0, -1) };
        self.exact(tally, Matrices, &[singular])
    }

    /// Rigs of the counts at which the ladder or the format turns. Above 2,000 bones no index comes twice: the
    /// published child list would take memory with the square of the count.
    fn sizes(&self, threads: u64) -> Result<Tally, Difference> {
        let mut rng = Rng::new(self.seed);
        let mut rigs: Vec<(&[Call], Vec<Bone>)> = Vec::new();
        for (n, count) in [(0, 2), (1, 50), (2, 50), (10, 50), (11, 50), (28, 50), (29, 50), (800, 30)] {
            rigs.extend((0..count).map(|_| (&CALLS[..], rig_of(&mut rng, n))));
        }
        rigs.extend([tree(&mut rng, 10_000), chain(&mut rng, 10_000)].map(|bones| (&CALLS[..], bones)));
        for n in [MOST - 1, MOST] {
            rigs.push((&[Tags, Matrices], tree(&mut rng, n)));
            rigs.push((&[Tags], (0..n).map(|_| plain_bone(7, -1)).collect()));
        }
        share_items(&rigs, threads, |tally, (calls, bones)| calls.iter().try_for_each(|&call| self.exact(tally, call, bones)))
    }

    /// A random rig in each call, its tables as long as they must be, longer, or one of them too short.
    fn random(&self, tally: &mut Tally) -> Result<(), Difference> {
        let mut rng = Rng::new(self.seed);
        let drawn = rig(&mut rng);
        for call in CALLS {
            let mut bones = rows::bones(&mut rng, &drawn);
            let mut room = [0; 3];
            match rng.below(10) {
                0..4 => {}
                4..8 => {
                    bones.extend((0..rng.below(30)).map(|_| rng.next() as u32));
                    room = room.map(|_| rng.below(20) as isize);
                }
                8 => room[rng.below(3)] = -1 - rng.below(3) as isize,
                _ => bones.truncate(bones.len().saturating_sub(1 + rng.below(3))),
            }
            let dirt = rng.next();
            self.one(tally, &DeriveInput { call, bones, n: drawn.len(), room, dirt })?;
        }
        Ok(())
    }
}
