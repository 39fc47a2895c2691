//! Deriving: our library against the published Rust, every word of every lent table compared.

pub mod input;
mod runs;

pub use runs::run;

use crate::lent::Lent;
use cases::{rows, Rng};
use input::{Call::*, DeriveInput};
use link::{Derive, DONE};
use oracle::{build_bone_tags, build_indices, build_transformations, settle_nan, Bone, Chains, Matrix};

/// What came back, and every word lent afterwards.
#[derive(Debug, PartialEq, Eq)]
pub struct DeriveAnswer {
    status: u32,
    count: usize,
    /// 16-bit entries widened.
    tables: Vec<Vec<u32>>,
    /// The chains, by following the links.
    chains: Chains,
    /// Bones and guards are as they were.
    intact: bool,
}

/// Makes the call on dirty tables between guards.
pub fn ours(library: &dyn Derive, i: &DeriveInput) -> DeriveAnswer {
    let (mut rng, lengths, n) = (Rng::new(i.dirt), i.lengths(), i.n);
    let mut bones = Lent::of(&i.bones);
    let (mut counted, mut intact) = (Lent::<usize>::dirty(1, &mut rng), true);
    let [count] = counted.array();
    let (status, tables) = match i.call {
        Tags => {
            let [mut buckets, mut entries] = [0, 1].map(|t| Lent::<u32>::dirty(lengths[t], &mut rng));
            let status = library.build_bone_tags(bones.slice(), n, buckets.slice(), entries.slice(), count);
            (status, vec![buckets.back(&mut intact), entries.back(&mut intact)])
        }
        Indices => {
            let [mut parents, mut children] = [0, 1].map(|t| Lent::<u16>::dirty(lengths[t], &mut rng));
            let mut pending = Lent::<u32>::dirty(lengths[2], &mut rng);
            let (p, c, w) = (parents.slice(), children.slice(), pending.slice());
            let status = library.build_indices(bones.slice(), n, p, c, w, count);
            (status, vec![parents.back(&mut intact), children.back(&mut intact), pending.back(&mut intact)])
        }
        Matrices => {
            *count = 0;
            let [mut inverse, mut local] = [0, 1].map(|t| Lent::<u32>::dirty(lengths[t], &mut rng));
            let status = library.build_transformations(bones.slice(), n, inverse.slice(), local.slice());
            (status, vec![inverse.back(&mut intact), local.back(&mut intact)])
        }
    };
    bones.kept(&i.bones, &mut intact);
    let count = counted.back(&mut intact)[0];
    let chains = if i.call == Tags { follow(tables[0].get(..count).unwrap_or(&[]), &tables[1]) } else { Vec::new() };
    DeriveAnswer { status, count, tables, chains, intact }
}

/// The tags and positions met along each bucket's links, one entry more than the table has at most.
fn follow(buckets: &[u32], entries: &[u32]) -> Chains {
    let row = |link: u32| entries.chunks_exact(rows::ENTRY).nth((link as usize).checked_sub(1)?);
    let chain = |first: u32| {
        let (mut met, mut at) = (Vec::new(), row(first));
        while let Some(entry) = at {
            met.push((entry[0], entry[1]));
            at = if met.len() * rows::ENTRY <= entries.len() { row(entry[2]) } else { None };
        }
        met
    };
    buckets.iter().map(|&first| chain(first)).collect()
}

/// The published lists in the tables that are lent, zeros behind them; after a refusal zeros alone.
pub fn rust(i: &DeriveInput) -> DeriveAnswer {
    let status = i.status();
    let n = if status == DONE { i.n } else { 0 };
    let bones: Vec<Bone> = i.bones.chunks_exact(rows::BONE).take(n).map(rows::bone).collect();
    let (count, lists, chains) = match i.call {
        _ if status != DONE => (0, Vec::new(), Vec::new()),
        Tags => {
            let chains = build_bone_tags(&bones);
            let (buckets, entries) = rows::chains(&chains, n);
            (chains.len(), vec![buckets, entries], chains)
        }
        Indices => {
            let (parents, children) = build_indices(&bones);
            let widened = |l: Vec<i16>| l.into_iter().map(|v| v as u16 as u32).collect::<Vec<u32>>();
            (children.len(), vec![widened(parents), widened(children)], Vec::new())
        }
        Matrices => {
            let (local, inverse) = build_transformations(&bones);
            let words = |l: Vec<Matrix>| l.iter().flat_map(settle_nan).collect::<Vec<u32>>();
            (0, vec![words(inverse), words(local)], Vec::new())
        }
    };
    let lists = lists.into_iter().chain(std::iter::repeat(Vec::new()));
    let laid = |(mut list, length): (Vec<u32>, usize)| {
        assert!(list.len() <= length, "a list has more rows than docs/FORMAT.md sizes its table for");
        list.resize(length, 0);
        list
    };
    DeriveAnswer { status, count, tables: lists.zip(i.lengths()).map(laid).collect(), chains, intact: true }
}
