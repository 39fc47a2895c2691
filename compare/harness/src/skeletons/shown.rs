//! What sections and names show of the places at which things may lie.

use super::write::WriteInput;
use cases::records::{bone, skeleton};
use cases::rows::{self, Place};
use cases::Section;
use oracle::{Reading, GRAPHICS_BASE, SYSTEM_BASE};

/// What a section that reads may show.
pub const READ: [&str; 9] = [
    "an unaligned root",
    "graphics addresses",
    "a shared entry",
    "a circular chain",
    "children at the parents",
    "local at the inverse",
    "lists without bones",
    "a skeleton cut behind its last field",
    "a bone cut behind its last field",
];

/// Which of `READ` the section shows.
pub fn read(section: &Section, r: &Reading) -> impl Iterator<Item = &'static str> {
    let alike = |a: usize, b: usize| section.pointer(a) != 0 && section.pointer(a) == section.pointer(b);
    let in_graphics = |&address: &u64| address & 0xF000_0000 == GRAPHICS_BASE;
    let pointers = skeleton::POINTERS.map(|field| section.pointer(field));
    let found = [
        section.root % 16 != 0,
        pointers.iter().chain(&r.name_addresses).any(in_graphics),
        shared(r),
        circular(r),
        alike(skeleton::CHILDREN, skeleton::PARENTS),
        alike(skeleton::LOCAL, skeleton::INVERSE),
        r.bones.is_none() && (r.inverse.is_some() || r.parents.is_some()),
        section.u8(section.root + skeleton::SIZE as u64 - 1).is_none(),
        r.rows.bones > 0 && section.u8(section.pointer(skeleton::BONES) + (bone::SIZE * r.rows.bones) as u64 - 1).is_none(),
    ];
    READ.into_iter().zip(found).filter_map(|(name, found)| found.then_some(name))
}

/// Whether two buckets or links lead to one entry.
fn shared(r: &Reading) -> bool {
    let mut led_to = vec![false; r.entries.len()];
    let links = r.buckets.iter().flatten().copied().chain(r.entries.iter().map(|e| e.next));
    links.flatten().any(|row| std::mem::replace(&mut led_to[row], true))
}

/// Whether a chain comes back to one of its entries: it then has more links than there are entries.
fn circular(r: &Reading) -> bool {
    r.buckets.iter().flatten().any(|&first| {
        let links = std::iter::successors(first, |&row| r.entries[row].next);
        links.take(r.entries.len() + 1).count() > r.entries.len()
    })
}

/// What the names of bones to be written may show.
pub const NAMES: [&str; 9] = [
    "no name",
    "an empty name",
    "a name of 255 bytes",
    "a name of 256 bytes",
    "a zero in a name",
    "a name at the end of its half",
    "a name past the end of its half",
    "a name in the graphics half",
    "a name in neither half",
];

/// Which of `NAMES` the names show.
pub fn names(input: &WriteInput) -> impl Iterator<Item = &'static str> {
    let mut found = [false; 9];
    for row in input.bones.chunks_exact(rows::BONE) {
        let Place { address, size } = Place::of(row);
        let (half, base) = match address & !0xFFF_FFFF {
            SYSTEM_BASE => (Some(&input.names[0]), SYSTEM_BASE),
            GRAPHICS_BASE => (Some(&input.names[1]), GRAPHICS_BASE),
            _ => (None, 0),
        };
        let (start, named) = ((address - base) as usize, address != 0);
        let end = start.saturating_add(size as usize);
        let past = half.is_some_and(|half| end > half.len());
        let bytes = half.and_then(|half| half.get(start..end)).unwrap_or(&[]);
        let at_end = half.is_some_and(|half| end == half.len());
        let shown = [
            !named,
            named && size == 0,
            bytes.len() == 255,
            bytes.len() == 256,
            bytes.contains(&0),
            at_end,
            past,
            !past && base == GRAPHICS_BASE,
            named && half.is_none(),
        ];
        found.iter_mut().zip(shown).for_each(|(found, shown)| *found |= shown);
    }
    NAMES.into_iter().zip(found).filter_map(|(name, found)| found.then_some(name))
}
