//! The pointers and counts of a skeleton's record, over the published `Cursor`.

use rage_formats::blocks::Reader;

pub(crate) struct Header {
    pub buckets: u64,
    pub bucket_count: usize,
    /// The pointer to the first bone.
    pub bones: u64,
    pub inverse: u64,
    pub local: u64,
    pub parents: u64,
    pub children: u64,
    pub bone_count: usize,
    pub child_count: usize,
}

/// The header of the skeleton at `root`, once the fields that reading reads stand.
pub(crate) fn header(r: &Reader, root: u64) -> Result<Header, String> {
    let mut c = r.cursor(root).map_err(|e| e.to_string())?;
    c.skip(16);
    let (buckets, bucket_count) = (c.u64(), c.u16() as usize);
    c.skip(6);
    let [bones, inverse, local, parents, children] = std::array::from_fn(|_| c.u64());
    c.skip(22);
    let (bone_count, child_count) = (c.u16() as usize, c.u16() as usize);
    c.check().map_err(|e| e.to_string())?;
    Ok(Header { buckets, bucket_count, bones, inverse, local, parents, children, bone_count, child_count })
}
