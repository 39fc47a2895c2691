//! `RowsControls`: single fields, and rows of lent tables by docs/FORMAT.md's "Rows of the lent tables".

use crate::joints::{limits, rotation_of, translation_of};
use crate::sheet::Sheet;
use crate::term::{applied, list, number, numbers, row};
use cases::rows::{bone, placed_bones, rotation, rotation_limit, translation, translation_limit, Place, BONE};
use oracle::{put_u16, u16_at, Bone};

pub fn sheet() -> Sheet {
    let mut s = Sheet::new("format/specs/RowsControls.antt");
    fields(&mut s);
    bones(&mut s);
    let entry = [1u32, 2, 3];
    s.text("entry_laid", format!("entry_words ({})", applied("entry_row", &entry)), row(&entry));
    let (r, t) = limits();
    s.text("rotation_laid", "rotation_words rotation1", row(&rotation(&r)));
    s.text("translation_laid", "translation_words translation1", row(&translation(&t)));
    let mut upper = rotation(&r);
    upper[48] |= 0xFFFF_0000;
    assert_eq!(rotation_limit(&upper), Some(r), "a row of this limit");
    let edited = format!("edited ((48, {}) ∷ []) (rotation_words rotation1)", number(upper[48]));
    s.text("rotation_row_back", format!("rotation_row ({edited})"), "rotation1");
    // the published limit has no such id
    let any = u32::MAX;
    assert_eq!((rotation_of(any)[0], rotation_limit(&rotation_of(any))), (any, None));
    let wide = format!("rotation_of {}", number(any));
    s.text("wide_row_back", format!("rotation_row (rotation_words ({wide}))"), wide);
    let back = translation_limit(&translation_of(any));
    assert_eq!((back.id, &translation(&back)[..]), (any, &translation_of(any)[..]));
    let wide = format!("translation_of {}", number(any));
    s.text("translation_row_back", format!("translation_row (translation_words ({wide}))"), wide);
    s
}

/// Reads and stores at each offset of three bytes.
fn fields(s: &mut Sheet) {
    let (bytes, value) = ([1u8, 2, 3], 0x504u16);
    let slice = numbers(&bytes);
    let reads = [0u32, 1, 2, 3];
    let read = reads.map(|at| u16_at(&bytes, at as usize));
    s.published("reads_inside", format!("map (field_at 2 ({slice})) ({})", numbers(&reads)), numbers(&read));
    let stores = [0u32, 1, 2];
    let stored = stores.map(|at| put_u16(&bytes, at as usize, value).unwrap_or(bytes.to_vec()));
    let left = format!("map (λ a. put_at 2 ({slice}) a {value}) ({})", numbers(&stores));
    s.published("stores_inside", left, list(stored.iter().map(|bytes| format!("({})", numbers(bytes)))));
}

fn bones(s: &mut Sheet) {
    let b = Bone {
        rotation: [1, 2, 3, 4],
        translation: [5, 6, 7],
        scale: [8, 9, 10],
        next_sibling: 11,
        parent: 12,
        name: None,
        flags: 13,
        index: 14,
        tag: 15,
        kept: [16, 17, 18, 19],
    };
    let place = Place { address: 0x5_0000_0006, size: 0x7_0000_0008 };
    let words = [applied("words4", &b.rotation), applied("words3", &b.translation), applied("words3", &b.scale)];
    let [rotation, translation, scale] = words;
    let first = format!("rotation = {rotation}; translation = {translation}; scale = {scale}");
    let links = format!("next_sibling = {}; parent = {}", b.next_sibling, b.parent);
    let name = format!("name = Some (place_at {} {})", number(place.address), number(place.size));
    let marks = format!("flags = {}; index = {}; tag = {}; kept = {}", b.flags, b.index, b.tag, applied("words4", &b.kept));
    s.define("row_bone", format!("record {{ {first}; {links}; {name}; {marks}; }}"));
    let laid = placed_bones(std::slice::from_ref(&b), &[place]);
    s.define("row_of_bone", row(&laid));
    s.text("bone_laid", "bone_words row_bone", "row_of_bone");
    let mut table = [&laid[..], &laid].concat();
    table[12] = 0xFFFF_000F;
    assert!(table.chunks(BONE).all(|row| bone(row) == b && Place::of(row) == place), "two rows of this bone");
    let rows = format!("edited ((12, {}) ∷ []) row_of_bone ++ row_of_bone", number(table[12]));
    s.text("bone_rows_back", format!("bones_of 2 ({rows})"), list(table.chunks(BONE).map(|_| "row_bone")));
}
