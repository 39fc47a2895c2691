//! `JointsControls`: what is written and read back, the rows wanted, the bytes that must stand, the order of refusals, one record,
//! the fresh limit.

use crate::section::with;
use crate::sheet::Sheet;
use crate::term::{applied, number, numbers, row};
use cases::rows;
use cases::units::{lay, u16, u64, zeros};
use oracle::{
    fresh_rotation_limit, joints_read, joints_write, rotation_limit_write, translation_limit_write, u32_at, u64_at, JointsAnswer,
    RotationLimit, TranslationLimit, Written, SYSTEM_BASE,
};

/// The rows of `rotation_of` and `translation_of`: limits of an id, whose words are all different.
pub fn rotation_of(id: u32) -> Vec<u32> {
    [id].into_iter().chain(101..=106).chain(200..241).chain([6]).collect()
}

pub fn translation_of(id: u32) -> Vec<u32> {
    [id].into_iter().chain(111..=116).chain(300..309).collect()
}

/// `rotation1` and `translation1`.
pub fn limits() -> (RotationLimit, TranslationLimit) {
    let r = rows::rotation_limit(&rotation_of(5)).expect("an id of 16 bits");
    (r, rows::translation_limit(&translation_of(0x1_0007)))
}

pub fn sheet() -> Sheet {
    let mut s = Sheet::new("format/specs/JointsControls.antt");
    let (r, t) = limits();
    s.define("rotation_of id", format!("record {{ {}; other = up_from 200 41 }}", rotation("id", &r)));
    s.define("rotation1", format!("rotation_of {}", r.id));
    s.define("translation_of id", format!("record {{ {}; other = up_from 300 9 }}", translation("id", &t)));
    s.define("translation1", format!("translation_of {}", t.id));
    let words: Vec<u32> =
        joints_write(&[r], &[t]).section().chunks(4).map(|b| u32::from_le_bytes(b.try_into().expect("four bytes"))).collect();
    s.published("laid", "joints_layout (rotation1 ∷ []) (translation1 ∷ [])", format!("word_bytes 4 ({})", row(&words)));
    let (bytes, offsets) = (joints_write(&[], &[]).section(), [16u32, 24]);
    let stored: Vec<u64> = offsets.iter().map(|&at| u64_at(&bytes, at as usize)).collect();
    s.published("empty_lists", format!("map (field 8 (joints_layout [] [])) ({})", numbers(&offsets)), numbers(&stored));
    back(&mut s, r, t);
    for (name, n) in [("fifty_two", 52), ("fifty_one", 51)] {
        s.published(name, format!("read_joints (halves (replicate {n} 0) []) 0 0 base"), read(&vec![0; n]));
    }
    // one rotation limit at the address 1
    let bytes = lay(&[zeros(16), u64(1), zeros(24), u16(1), zeros(2)]);
    assert_eq!(bytes.len(), 52);
    let term = "replicate 16 0 ++ 1 ∷ replicate 31 0 ++ 1 ∷ replicate 3 0";
    s.published("limit_bytes_first", format!("read_joints (halves ({term}) []) 0 0 base"), read(&bytes));
    // and one translation limit at the end
    let bytes = lay(&[zeros(16), u64(1), u64(SYSTEM_BASE + 52), zeros(16), u16(1), u16(1)]);
    assert_eq!(bytes.len(), 52);
    let edits: Vec<(usize, u8)> = bytes.iter().copied().enumerate().filter(|&(_, byte)| byte != 0).collect();
    let left = format!("read_joints (halves ({} (replicate 52 0)) []) 1 1 base", with("edited", &edits));
    s.published("rotations_first", left, read(&bytes));
    let Written::Refused(number) = joints_write(&vec![r; 65_536], &[]) else { panic!("65,536 limits are too many") };
    s.published("six_before_five", "joints_written 0 (replicate 65536 rotation1) []", format!("refused {number}"));
    let Written::Refused(number) = joints_write(&[], &vec![t; 65_536]) else { panic!("65,536 limits are too many") };
    s.published("six_of_translations", "joints_written 0 [] (replicate 65536 translation1)", format!("refused {number}"));
    // the spec's limits of no slots stand for these
    s.define("rotation0", format!("record {{ {}; other = [] }}", rotation(&r.id.to_string(), &r)));
    s.define("translation0", format!("record {{ {}; other = [] }}", translation(&t.id.to_string(), &t)));
    assert!(!joints_write(&vec![r; 65_535], &vec![t; 65_535]).section().is_empty(), "they are not too many");
    let mut rotations = vec![rotation_of(5); 65_535];
    rotations[0] = rotation_of(65_536);
    let number = refusal(&rotations, &vec![translation_of(0x1_0007); 65_535], 0).expect("a refusal");
    let lists = "(rotation_of 65536 ∷ replicate 65534 rotation0) (replicate 65535 translation0)";
    s.text("most_limits", format!("joints_written 0 {lists}"), format!("refused {number}"));
    let limits = "(rotation1 ∷ []) (translation1 ∷ [])";
    for (name, size) in [("joints_fit", 320), ("joints_short", 319)] {
        let fits = joints_write(&[r], &[t]).section().len() <= size;
        let right = if fits { format!("done (joints_layout {limits})") } else { "refused 5".into() };
        s.text(name, format!("joints_written {size} {limits}"), right);
    }
    ids(&mut s);
    one(&mut s, r, t);
    fresh(&mut s);
    s
}

/// The refusal of a writing of rows into `size` bytes: 6, 35, 5; none where it is taken.
fn refusal(rotations: &[Vec<u32>], translations: &[Vec<u32>], size: usize) -> Option<u8> {
    if rotations.len().max(translations.len()) > 65_535 {
        return Some(6);
    }
    let limits: Option<Vec<RotationLimit>> = rotations.iter().map(|row| rows::rotation_limit(row)).collect();
    let Some(rotations) = limits else { return Some(35) };
    let translations: Vec<TranslationLimit> = translations.iter().map(|row| rows::translation_limit(row)).collect();
    (joints_write(&rotations, &translations).section().len() > size).then_some(5)
}

/// Ids of 16 and of 32 bits, and where 35 stands among the refusals.
fn ids(s: &mut Sheet) {
    let (greatest, wide, any) = (65_535, 65_536, u32::MAX);
    let r = |id: u32| format!("(rotation_of {} ∷ [])", number(id));
    let t = format!("(translation_of {} ∷ [])", number(any));
    let written = |s: &mut Sheet, name: &str, size: usize, terms: [&str; 2], rotations: &[u32], translations: &[Vec<u32>]| {
        let rotations: Vec<Vec<u32>> = rotations.iter().map(|&id| rotation_of(id)).collect();
        let [left, right] = terms;
        let answer = match refusal(&rotations, translations, size) {
            Some(number) => format!("refused {number}"),
            None => format!("done (joints_layout {left} {right})"),
        };
        s.text(name, format!("joints_written {size} {left} {right}"), answer);
    };
    written(s, "greatest_id", 256, [&r(greatest), "[]"], &[greatest], &[]);
    let limit = rows::rotation_limit(&rotation_of(greatest)).expect("an id of 16 bits");
    let stored = u32_at(&joints_write(&[limit], &[]).section(), 72);
    s.published("greatest_id_laid", format!("field 4 (joints_layout {} []) 72", r(greatest)), number(stored));
    written(s, "wide_id", 256, [&r(wide), "[]"], &[wide], &[]);
    written(s, "wide_id_second", 448, [&format!("(rotation1 ∷ rotation_of {wide} ∷ [])"), "[]"], &[5, wide], &[]);
    written(s, "translation_id", 128, ["[]", &t], &[], &[translation_of(any)]);
    let stored = u32_at(&joints_write(&[], &[rows::translation_limit(&translation_of(any))]).section(), 72);
    s.published("translation_id_laid", format!("field 4 (joints_layout [] {t}) 72"), number(stored));
    let many = format!("(replicate 65536 (rotation_of {wide}))");
    written(s, "six_before_wide", 0, [&many, "[]"], &vec![wide; 65_536], &[]);
    let others = "(replicate 65536 translation0)";
    written(s, "six_of_others_before_wide", 0, [&r(wide), others], &[wide], &vec![translation_of(0x1_0007); 65_536]);
    written(s, "wide_before_five", 0, [&r(wide), "[]"], &[wide], &[]);
}

/// One record: the same bytes as in a section.
fn one(s: &mut Sheet, r: RotationLimit, t: TranslationLimit) {
    assert_eq!(rotation_limit_write(&r), joints_write(&[r], &[]).section()[64..], "the record in a section");
    assert_eq!(translation_limit_write(&t), joints_write(&[], &[t]).section()[64..], "the record in a section");
    let rotation_laid = "done (drop 64 (joints_layout (rotation1 ∷ []) []))";
    let translation_laid = "done (drop 64 (joints_layout [] (translation1 ∷ [])))";
    s.published("rotation_one", "rotation_written 192 rotation1", rotation_laid);
    let short = |row: &[u32], size: usize| match rows::rotation_limit(row) {
        None => "refused 35",
        Some(limit) if rotation_limit_write(&limit).len() > size => "refused 5",
        Some(_) => rotation_laid,
    };
    s.text("rotation_short", "rotation_written 191 rotation1", short(&rotation_of(5), 191));
    s.text("rotation_greatest", "rotation_written 191 (rotation_of 65535)", short(&rotation_of(65_535), 191));
    s.text("rotation_wide", "rotation_written 191 (rotation_of 65536)", short(&rotation_of(65_536), 191));
    s.published("translation_one", "translation_written 64 translation1", translation_laid);
    let fits = translation_limit_write(&t).len() <= 63;
    s.text("translation_short", "translation_written 63 translation1", if fits { translation_laid } else { "refused 5" });
}

/// The slots of the fresh limit, and the limit: its row.
fn fresh(s: &mut Sheet) {
    let fresh = fresh_rotation_limit();
    s.published("fresh", "fresh_slots", row(&fresh.other));
    let others: Vec<u32> = rows::rotation_others().map(|slot| fresh.other[slot]).collect();
    let named = rotation(&fresh.id.to_string(), &fresh);
    s.published("fresh_limit", "fresh_rotation_limit", format!("record {{ {named}; other = {}; }}", row(&others)));
}

/// The named fields of a limit, with this id.
fn rotation(id: &str, l: &RotationLimit) -> String {
    format!("id = {id}; second = {}; {}", l.second, bounds(l.min, l.max))
}

fn translation(id: &str, l: &TranslationLimit) -> String {
    format!("id = {id}; {}", bounds(l.min, l.max))
}

fn bounds(least: [u32; 3], greatest: [u32; 3]) -> String {
    format!("least = {}; greatest = {}", applied("words3", &least), applied("words3", &greatest))
}

/// Two rotation limits and one translation limit read back; 1 where a table has fewer rows, by docs/FORMAT.md's text.
fn back(s: &mut Sheet, r: RotationLimit, t: TranslationLimit) {
    let bytes = joints_write(&[r, r], &[t]).section();
    s.define("joints21", "halves (joints_layout (rotation1 ∷ rotation1 ∷ []) (translation1 ∷ [])) []".into());
    let JointsAnswer::Read(j) = joints_read(&bytes, &[], SYSTEM_BASE) else { panic!("joints that must read") };
    let (rotations, translations) = (j.rotations.expect("a list"), j.translations.expect("a list"));
    let ([first, second], [only]) = (&rotations[..], &translations[..]) else { panic!("two limits and one") };
    assert_eq!([first, second].map(rows::rotation), [rows::rotation(&r); 2], "the limits that were written");
    assert_eq!(rows::translation(only), rows::translation(&t), "the limit that was written");
    let counts = format!("kind = {}; rotation_count = {}; translation_count = {}", j.kind, j.rotation_count, j.translation_count);
    let lists = "rotation = Some (rotation1 ∷ rotation1 ∷ []); translation = Some (translation1 ∷ []);";
    let read = format!("done (Some (record {{ {counts}; {lists} }}))");
    s.published("limits_back", "read_joints joints21 2 1 base", &read);
    for (name, rows) in [("no_rotation_row", [1, 1]), ("no_translation_row", [2, 0])] {
        let holds = rotations.len() <= rows[0] && translations.len() <= rows[1];
        let right = if holds { &read } else { "refused 1" };
        s.joined(name, format!("read_joints joints21 {} {} base", rows[0], rows[1]), right);
    }
    assert_eq!(joints_read(&bytes, &[], 0), JointsAnswer::None);
    s.published("joints_at_zero", "read_joints joints21 2 1 0", "done None");
}

fn read(bytes: &[u8]) -> String {
    match joints_read(bytes, &[], SYSTEM_BASE) {
        JointsAnswer::None => "done None".into(),
        JointsAnswer::Refused(number) => format!("refused {number}"),
        JointsAnswer::Read(j) => {
            assert!(j.rotations.is_none() && j.translations.is_none(), "a record with no lists");
            let counts = format!("rotation_count = {}; translation_count = {}", j.rotation_count, j.translation_count);
            format!("done (Some (record {{ kind = {}; {counts}; rotation = None; translation = None }}))", j.kind)
        }
    }
}
