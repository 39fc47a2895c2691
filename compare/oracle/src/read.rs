//! `Skeleton::read` on two byte slices, and all that it leaves as plain values (docs/FORMAT.md, "Reading and
//! writing a skeleton").

use crate::bone::{matrix_words, plain, Bone, Matrix};
use crate::refusal::number;
use crate::rows::Rows;
use rage_formats::blocks::base::{PointerArray64, StringBlock, StructArray};
use rage_formats::blocks::skeleton::{self, Skeleton, SkeletonBoneTag, SkeletonBonesBlock};
use rage_formats::blocks::{ydr, BlockId, Graph, Pod, Reader};
use rage_formats::math::Mat4;

/// What reading gives.
#[derive(Clone, Debug, PartialEq, Eq)]
pub enum Answer {
    /// The root is 0.
    None,
    /// 10 to 13.
    Refused(u8),
    Read(Box<Reading>),
}

/// A tag entry; `next` is the row of the entry that it links to.
#[derive(Clone, Copy, Debug, PartialEq, Eq)]
pub struct Entry {
    pub tag: u32,
    pub position: u32,
    pub next: Option<usize>,
}

/// A skeleton as read. A list that is `None` has the pointer 0 (or, for the bones, 16).
#[derive(Clone, Debug, PartialEq, Eq)]
pub struct Reading {
    pub kind: u32,
    /// The stored bucket count.
    pub bucket_count: u16,
    /// The free words at 28, 80, 84 and 88.
    pub free: [u32; 4],
    /// The stored bone count, at 94.
    pub bone_count: u16,
    /// The stored child count, at 96.
    pub child_count: u16,
    /// For each bucket the row of its first entry.
    pub buckets: Option<Vec<Option<usize>>>,
    /// Every entry once, in reading order; chains share and circle by `next`.
    pub entries: Vec<Entry>,
    pub bones: Option<Vec<Bone>>,
    /// Each bone's stored name address, 0 for no name.
    pub name_addresses: Vec<u64>,
    pub inverse: Option<Vec<Matrix>>,
    pub local: Option<Vec<Matrix>>,
    pub parents: Option<Vec<i16>>,
    pub children: Option<Vec<i16>>,
    pub rows: Rows,
}

/// Reads the skeleton at `root` with a fresh pool.
pub fn read(system: &[u8], graphics: &[u8], root: u64) -> Answer {
    let mut r = ydr::reader(system, graphics);
    let mut g = Graph::new();
    match Skeleton::read(&mut r, &mut g, root) {
        Err(e) => Answer::Refused(number(&e.to_string())),
        Ok(None) => Answer::None,
        Ok(Some(id)) => Answer::Read(Box::new(reading(&r, &g, root, g.get(id)))),
    }
}

fn reading(r: &Reader, g: &Graph, root: u64, s: &Skeleton) -> Reading {
    let entry_ids = ydr::ids_of::<SkeletonBoneTag>(g);
    let row = |id: BlockId| entry_ids.binary_search_by_key(&id.0, |e| e.0).expect("an entry of this graph");
    let entries: Vec<Entry> = entry_ids
        .iter()
        .map(|&id| g.get::<SkeletonBoneTag>(id))
        .map(|e| Entry { tag: e.tag, position: e.index, next: e.next.map(row) })
        .collect();
    let buckets = s.bone_tags.map(|id| g.get::<PointerArray64>(id).items.iter().map(|i| i.map(row)).collect::<Vec<_>>());
    let bone_ids = s.bones.map(|id| g.get::<SkeletonBonesBlock>(id).bones.clone());
    let name_addresses: Vec<u64> = (0..bone_ids.as_ref().map_or(0, Vec::len)).map(|i| name_address(r, root, i)).collect();
    let bones = bone_ids.map(|ids| ids.iter().zip(&name_addresses).map(|(&id, &at)| bone(r, g, id, at)).collect::<Vec<_>>());
    let matrices = |id| items::<Mat4>(g, id).map(|l| l.iter().map(matrix_words).collect::<Vec<_>>());
    let (inverse, local) = (matrices(s.transforms_inv), matrices(s.transforms));
    let (parents, children) = (items::<i16>(g, s.parent_indices), items::<i16>(g, s.child_indices));
    fn len<T>(list: &Option<Vec<T>>) -> usize {
        list.as_ref().map_or(0, Vec::len)
    }
    let rows = Rows {
        buckets: len(&buckets),
        entries: entries.len(),
        bones: len(&bones),
        inverse: len(&inverse),
        local: len(&local),
        parents: len(&parents),
        children: len(&children),
        pool: ydr::pool_rows(r),
    };
    Reading {
        kind: s.vft,
        bucket_count: s.bone_tags_capacity,
        free: [s.unknown_1ch, s.unknown_50h, s.unknown_54h, s.unknown_58h],
        bone_count: s.bones_count,
        child_count: s.child_indices_count,
        buckets,
        entries,
        bones,
        name_addresses,
        inverse,
        local,
        parents,
        children,
        rows,
    }
}

fn items<T: Pod + 'static>(g: &Graph, id: Option<BlockId>) -> Option<Vec<T>> {
    id.map(|id| g.get::<StructArray<T>>(id).items.clone())
}

/// The name address stored in bone `i` of the skeleton at `root`.
fn name_address(r: &Reader, root: u64, i: usize) -> u64 {
    const BONES_POINTER: usize = 32;
    const NAME: usize = 56;
    let field = |va: u64, at: usize| {
        let mut c = r.cursor(va).expect("an address that was read");
        c.skip(at);
        c.u64()
    };
    field(field(root, BONES_POINTER) + 80 * i as u64, NAME)
}

/// The bone, with its name's stored bytes: the published string is the same bytes, mended.
fn bone(r: &Reader, g: &Graph, id: BlockId, name_at: u64) -> Bone {
    let b = g.get::<skeleton::Bone>(id);
    let name = b.name.map(|name| {
        let (data, at) = ydr::located(r, name_at).expect("a name that was read");
        let bytes: Vec<u8> = data[at..].iter().copied().take_while(|&c| c != 0).collect();
        assert_eq!(String::from_utf8_lossy(&bytes), g.get::<StringBlock>(name).0, "the name at {name_at:#x}");
        bytes
    });
    plain(b, name)
}
