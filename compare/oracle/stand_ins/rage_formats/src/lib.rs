//! Stand-in for the root of the published crate: the modules that the comparison needs.

// The published files are built as they are; some of their items are used only by modules left out here.
#![allow(dead_code, unused_imports)]

pub mod blocks;
pub mod hash;
pub mod math;

#[path = "resource.rs"]
mod published_resource;

/// The published resource.rs and the names of its page packing, which was not published with it.
pub mod resource {
    pub use crate::published_resource::*;

    pub struct Layout {
        pub flags: u32,
        pub size: usize,
        pub offsets: Vec<usize>,
    }

    pub fn pack_pages(_sizes: &[usize], _system: bool, _pages: usize) -> anyhow::Result<Layout> {
        anyhow::bail!("page packing is not part of the comparison")
    }

    pub fn rsc7_page_count(_flags: u32) -> usize {
        0
    }

    pub fn build_rsc7_with_flags(_version: u32, _system_flags: u32, _system: &[u8], _graphics_flags: u32, _graphics: &[u8]) -> Vec<u8> {
        Vec::new()
    }
}
