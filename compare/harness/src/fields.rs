//! The single fields of our library against the published `Cursor` and `Writer`.

use crate::difference::{compare, hex, Difference, Input, Place};
use crate::smaller::smaller_bytes;
use cases::Rng;
use link::Fields;
use std::path::Path;

#[derive(Clone, Copy, Debug, PartialEq, Eq)]
pub enum Call {
    U16At,
    U32At,
    U64At,
    Put16,
    Put32,
    Put64,
}
use Call::*;

const CALLS: [Call; 6] = [U16At, U32At, U64At, Put16, Put32, Put64];

/// One call on bytes; `value` is what is put.
#[derive(Clone, Debug)]
pub struct FieldInput {
    pub call: Call,
    pub bytes: Vec<u8>,
    pub at: usize,
    pub value: u64,
}

/// What came back, and every byte afterwards; the bytes around the slice are guards.
#[derive(Debug, PartialEq, Eq)]
pub struct FieldAnswer {
    pub returned: u64,
    pub bytes: Vec<u8>,
    pub guards_intact: bool,
}

impl Input for FieldInput {
    fn smaller(&self) -> impl Iterator<Item = Self> {
        let bytes = smaller_bytes(&self.bytes).map(|bytes| FieldInput { bytes, ..self.clone() });
        let places = [0, self.at / 2, self.at.saturating_sub(1)].into_iter().filter(|&at| at < self.at);
        let values = [0, self.value >> 8, self.value >> 1].into_iter().filter(|&v| v < self.value);
        let less = places.map(|at| FieldInput { at, ..self.clone() });
        bytes.chain(less).chain(values.map(|value| FieldInput { value, ..self.clone() }))
    }

    fn text(&self) -> String {
        format!("call {:?}\nbytes {}\nat {}\nvalue {:x}\n", self.call, hex(&self.bytes), self.at, self.value)
    }
}

const GUARD: [u8; 16] = [0xA5; 16];

/// Makes the call on a slice that lies between two guards.
fn ours(library: &dyn Fields, input: &FieldInput) -> FieldAnswer {
    let mut buffer = [&GUARD, &input.bytes[..], &GUARD].concat();
    let end = GUARD.len() + input.bytes.len();
    let slice = &mut buffer[GUARD.len()..end];
    let (at, value) = (input.at, input.value);
    let returned = match input.call {
        U16At => library.u16_at(slice, at) as u64,
        U32At => library.u32_at(slice, at) as u64,
        U64At => library.u64_at(slice, at),
        Put16 => library.put16(slice, at, value as u16) as u64,
        Put32 => library.put32(slice, at, value as u32) as u64,
        Put64 => library.put64(slice, at, value) as u64,
    };
    let guards_intact = buffer[..GUARD.len()] == GUARD && buffer[end..] == GUARD;
    FieldAnswer { returned, bytes: buffer[GUARD.len()..end].to_vec(), guards_intact }
}

/// The published answer: a read leaves the bytes; a put that does not fit returns 0 and leaves them too.
fn rust(input: &FieldInput) -> FieldAnswer {
    let (bytes, at, value) = (&input.bytes[..], input.at, input.value);
    let read = |returned: u64| FieldAnswer { returned, bytes: bytes.to_vec(), guards_intact: true };
    let put = |after: Option<Vec<u8>>| FieldAnswer {
        returned: after.is_some() as u64,
        bytes: after.unwrap_or_else(|| bytes.to_vec()),
        guards_intact: true,
    };
    match input.call {
        U16At => read(oracle::u16_at(bytes, at) as u64),
        U32At => read(oracle::u32_at(bytes, at) as u64),
        U64At => read(oracle::u64_at(bytes, at)),
        Put16 => put(oracle::put_u16(bytes, at, value as u16)),
        Put32 => put(oracle::put_u32(bytes, at, value as u32)),
        Put64 => put(oracle::put_u64(bytes, at, value)),
    }
}

/// Positions inside and just behind a short slice, and those whose sum with a width overflows.
fn positions() -> Vec<usize> {
    let near = |n: usize| (0..20).flat_map(move |k| [n.wrapping_add(k), n.wrapping_sub(k)]);
    let mut all: Vec<usize> = (0..28).collect();
    all.extend(near(0).chain(near(1 << 32)).chain(near(1 << 63)));
    all
}

/// Every call at every position on slices of 0 to 20 bytes, then random longer ones. Gives the number of
/// calls compared.
pub fn run(library: &dyn Fields, folder: &Path, seed: u64, random: usize) -> Result<usize, Difference> {
    let mut rng = Rng::new(seed);
    let mut calls = 0;
    let mut one = |input: &FieldInput| {
        calls += 1;
        compare(&Place { folder, name: "fields", seed }, input, |i| ours(library, i), rust).map(drop)
    };
    for length in 0..=20 {
        for at in positions() {
            for call in CALLS {
                for _ in 0..4 {
                    let (bytes, value) = (rng.bytes(length), rng.next());
                    one(&FieldInput { call, bytes, at, value })?;
                }
            }
        }
    }
    for _ in 0..random {
        let length = rng.below(300);
        let (bytes, value) = (rng.bytes(length), rng.next());
        let input = FieldInput { call: rng.pick(&CALLS), bytes, at: rng.below(length + 10), value };
        one(&input)?;
    }
    Ok(calls)
}
