//! The program by the published code, with a fault.

use crate::program::{rust, Bytes, LONGEST};

/// What a faulty program prints, given the bytes and the right line.
type Fault = (&'static str, fn(&[u8], String) -> String);

pub const FAULTS: [Fault; 6] = [
    ("no newline", |_, line| line.trim_end().into()),
    ("a word for the bone count", |_, line| if line.starts_with("ok") { "ok\n".into() } else { line }),
    ("a longest section refused", |bytes, line| if bytes.len() == LONGEST { "refused 1\n".into() } else { line }),
    ("a longer section cut", |bytes, line| if bytes.len() > LONGEST { rust(&Bytes(bytes[..LONGEST].to_vec())) } else { line }),
    ("801 bones taken", |bytes, line| if stored_bones(bytes) == 801 { "refused 21\n".into() } else { line }),
    ("one number for all refusals", |_, line| if line.starts_with("ok") { line } else { "refused 11\n".into() }),
];

/// The stored bone count.
fn stored_bones(bytes: &[u8]) -> u16 {
    bytes.get(94..96).map_or(0, |two| u16::from_le_bytes([two[0], two[1]]))
}
