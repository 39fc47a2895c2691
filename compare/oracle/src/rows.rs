//! The rows that reading uses in each table, up to its end or its refusal: where a table is lent with fewer, 1 is met
//! first (docs/FORMAT.md, "Who can cause a refusal").

use crate::header::header;
use crate::read::{read, Answer};
use rage_formats::blocks::base::{read_struct_array, PointerArray64, StructArray};
use rage_formats::blocks::skeleton::{self, SkeletonBoneTag, SkeletonBonesBlock};
use rage_formats::blocks::{ydr, Graph, Pod, Reader};
use rage_formats::math::Mat4;

#[derive(Clone, Copy, Debug, Default, PartialEq, Eq)]
pub struct Rows {
    pub buckets: usize,
    pub entries: usize,
    pub bones: usize,
    pub inverse: usize,
    pub local: usize,
    pub parents: usize,
    pub children: usize,
    /// Distinct addresses pooled.
    pub pool: usize,
}

/// What reading gives, and the rows that it used until then.
pub fn read_rows(system: &[u8], graphics: &[u8], root: u64) -> (Answer, Rows) {
    let answer = read(system, graphics, root);
    let rows = match &answer {
        Answer::None => Rows::default(),
        Answer::Read(reading) => reading.rows,
        Answer::Refused(_) => rows_before_refusal(ydr::reader(system, graphics), root),
    };
    (answer, rows)
}

/// The parts are read again, each by its published function and in the order of `Skeleton::read`, up to the one that refuses.
fn rows_before_refusal(mut r: Reader, root: u64) -> Rows {
    let (mut g, mut rows) = (Graph::new(), Rows::default());
    let refused = read_parts(&mut r, &mut g, root, &mut rows).is_none();
    assert!(refused, "the parts are read, and the skeleton is not");
    rows.entries = ydr::ids_of::<SkeletonBoneTag>(&g).len();
    rows.bones = ydr::ids_of::<skeleton::Bone>(&g).len();
    rows.pool = ydr::pool_rows(&r);
    rows
}

/// `None` where a part refuses. A bucket is counted after its chain, a list after its bytes.
fn read_parts(r: &mut Reader, g: &mut Graph, root: u64, rows: &mut Rows) -> Option<()> {
    let h = header(r, root).ok()?;
    if h.buckets != 0 {
        let mut items = Vec::new();
        for first in r.u64s(h.buckets, h.bucket_count).ok()? {
            items.push(SkeletonBoneTag::read(r, g, first).ok()?);
            rows.buckets = items.len();
        }
        let id = g.add(PointerArray64 { items });
        r.cache::<PointerArray64>(h.buckets, id);
    }
    if h.bones != 0 {
        SkeletonBonesBlock::read(r, g, h.bones.checked_sub(16)?, h.bone_count).ok()?;
    }
    rows.inverse = list::<Mat4>(r, g, h.inverse, h.bone_count)?;
    rows.local = list::<Mat4>(r, g, h.local, h.bone_count)?;
    rows.parents = list::<i16>(r, g, h.parents, h.bone_count)?;
    rows.children = list::<i16>(r, g, h.children, h.child_count)?;
    Some(())
}

/// The length of the list at an address.
fn list<T: Pod + 'static>(r: &mut Reader, g: &mut Graph, va: u64, n: usize) -> Option<usize> {
    let id = read_struct_array::<T>(r, g, va, n).ok()?;
    Some(id.map_or(0, |id| g.get::<StructArray<T>>(id).items.len()))
}
