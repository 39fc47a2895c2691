//! The numbers of the refusals from the messages of the published source.

/// The number of what the message says.
///
/// A message that no section, bone list or limit list may cause (a null pointer among them) is a
/// fault of the harness and stops it.
pub fn number(message: &str) -> u8 {
    const NUMBERS: [(&str, u8); 9] = [
        ("is in neither section", 10),
        // `Reader::cursor`, `Reader::string`
        ("is outside its section", 11),
        // `Reader::slice`
        ("run past the section", 11),
        // `Cursor::check`
        ("read past the end of the section", 11),
        // `Reader::cached_as`
        ("was already read as", 12),
        // the bones pointer in `Skeleton::read`
        ("below 16", 13),
        // `count_u16` in `Skeleton::write` and `Joints::write`
        ("child index entries exceeds 65535", 3),
        ("joint rotation limits exceeds 65535", 6),
        ("joint translation limits exceeds 65535", 6),
    ];
    match NUMBERS.iter().find(|(part, _)| message.contains(part)) {
        Some(&(_, number)) => number,
        None => panic!("the published source refused with a message that has no number: {message}"),
    }
}
