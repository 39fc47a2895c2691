//! The exports as C declares them: a slice is its address, then its length. `crates/rig` says what each gives and leaves.
//! Made by `bindings/exports --write`: not to be edited.

#[rustfmt::skip]
#[allow(dead_code)] // a crate need not call them all
extern "C" {
    pub fn rig_abi() -> u32;
    pub fn rig_check(
        sys: *const u8,
        sys_len: usize,
        gfx: *const u8,
        gfx_len: usize,
        root: u64,
        bones: *mut u32,
        bones_len: usize,
        buckets: *mut u32,
        buckets_len: usize,
        entries: *mut u32,
        entries_len: usize,
        inverse: *mut u32,
        inverse_len: usize,
        local: *mut u32,
        local_len: usize,
        parents: *mut u16,
        parents_len: usize,
        children: *mut u16,
        children_len: usize,
        pool: *mut u64,
        pool_len: usize,
        derived_buckets: *mut u32,
        derived_buckets_len: usize,
        derived_entries: *mut u32,
        derived_entries_len: usize,
        derived_inverse: *mut u32,
        derived_inverse_len: usize,
        derived_local: *mut u32,
        derived_local_len: usize,
        derived_parents: *mut u16,
        derived_parents_len: usize,
        derived_children: *mut u16,
        derived_children_len: usize,
        pending: *mut u32,
        pending_len: usize,
        count: *mut usize,
    ) -> u32;
    pub fn rig_num_hash_buckets(n: usize) -> usize;
    pub fn rig_build_bone_tags(
        bones: *const u32,
        bones_len: usize,
        n: usize,
        buckets: *mut u32,
        buckets_len: usize,
        entries: *mut u32,
        entries_len: usize,
        count: *mut usize,
    ) -> u32;
    pub fn rig_build_indices(
        bones: *const u32,
        bones_len: usize,
        n: usize,
        parents: *mut u16,
        parents_len: usize,
        children: *mut u16,
        children_len: usize,
        pending: *mut u32,
        pending_len: usize,
        count: *mut usize,
    ) -> u32;
    pub fn rig_build_transformations(
        bones: *const u32,
        bones_len: usize,
        n: usize,
        inverse: *mut u32,
        inverse_len: usize,
        local: *mut u32,
        local_len: usize,
    ) -> u32;
    pub fn rig_joints_read(
        sys: *const u8,
        sys_len: usize,
        gfx: *const u8,
        gfx_len: usize,
        root: u64,
        rotation: *mut u32,
        rotation_len: usize,
        translation: *mut u32,
        translation_len: usize,
        fields: *mut [u32; 7],
    ) -> u32;
    pub fn rig_joints_write(
        rotation: *const u32,
        rotation_len: usize,
        r: usize,
        translation: *const u32,
        translation_len: usize,
        t: usize,
        out: *mut u8,
        out_len: usize,
        count: *mut usize,
    ) -> u32;
    pub fn rig_rotation_limit_read(bytes: *const [u8; 192], row: *mut [u32; 49]);
    pub fn rig_rotation_limit_write(row: *const [u32; 49], out: *mut u8, out_len: usize) -> u32;
    pub fn rig_translation_limit_read(bytes: *const [u8; 64], row: *mut [u32; 16]);
    pub fn rig_translation_limit_write(row: *const [u32; 16], out: *mut u8, out_len: usize) -> u32;
    pub fn rig_fresh_rotation_limit(row: *mut [u32; 49]);
    pub fn rig_rage_joaat(s: *const u8, s_len: usize) -> u32;
    pub fn rig_search(
        sys: *const u8,
        sys_len: usize,
        gfx: *const u8,
        gfx_len: usize,
        root: u64,
        key: u32,
        bones: *mut u32,
        bones_len: usize,
        buckets: *mut u32,
        buckets_len: usize,
        entries: *mut u32,
        entries_len: usize,
        inverse: *mut u32,
        inverse_len: usize,
        local: *mut u32,
        local_len: usize,
        parents: *mut u16,
        parents_len: usize,
        children: *mut u16,
        children_len: usize,
        pool: *mut u64,
        pool_len: usize,
        position: *mut usize,
    ) -> u32;
    pub fn rig_u16_at(s: *const u8, s_len: usize, at: usize) -> u16;
    pub fn rig_u32_at(s: *const u8, s_len: usize, at: usize) -> u32;
    pub fn rig_u64_at(s: *const u8, s_len: usize, at: usize) -> u64;
    pub fn rig_put16(d: *mut u8, d_len: usize, at: usize, v: u16) -> u8;
    pub fn rig_put32(d: *mut u8, d_len: usize, at: usize, v: u32) -> u8;
    pub fn rig_put64(d: *mut u8, d_len: usize, at: usize, v: u64) -> u8;
    pub fn rig_cursor(s: *const u8, s_len: usize, pos: usize, base: u64, n: usize, out: *mut u64, out_len: usize) -> u8;
    pub fn rig_read(
        sys: *const u8,
        sys_len: usize,
        gfx: *const u8,
        gfx_len: usize,
        root: u64,
        bones: *mut u32,
        bones_len: usize,
        buckets: *mut u32,
        buckets_len: usize,
        entries: *mut u32,
        entries_len: usize,
        inverse: *mut u32,
        inverse_len: usize,
        local: *mut u32,
        local_len: usize,
        parents: *mut u16,
        parents_len: usize,
        children: *mut u16,
        children_len: usize,
        pool: *mut u64,
        pool_len: usize,
        fields: *mut [usize; 20],
    ) -> u32;
    pub fn rig_write(
        bones: *const u32,
        bones_len: usize,
        n: usize,
        sys: *const u8,
        sys_len: usize,
        gfx: *const u8,
        gfx_len: usize,
        free: *const [u32; 4],
        buckets: *mut u32,
        buckets_len: usize,
        entries: *mut u32,
        entries_len: usize,
        inverse: *mut u32,
        inverse_len: usize,
        local: *mut u32,
        local_len: usize,
        parents: *mut u16,
        parents_len: usize,
        children: *mut u16,
        children_len: usize,
        pending: *mut u32,
        pending_len: usize,
        out: *mut u8,
        out_len: usize,
        count: *mut usize,
    ) -> u32;
    pub fn rig_set_scale_vector(m: *mut [f32; 16], s: *const [f32; 3]);
    pub fn rig_set_column4(m: *mut [f32; 16], v: *const [f32; 4]);
    pub fn rig_lookup(
        sys: *const u8,
        sys_len: usize,
        gfx: *const u8,
        gfx_len: usize,
        root: u64,
        tag: u16,
        position: *mut usize,
    ) -> u32;
}

/// The number of these exports: what `rig_abi` of a library that has them answers.
#[allow(dead_code)]
pub const RIG_ABI: u32 = 2;
