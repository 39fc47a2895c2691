//! A stored case and its bytes.

/// What is run, by its number in the file.
#[derive(Clone, Copy, Debug, PartialEq, Eq)]
pub enum Operation {
    Read = 0,
    ReadFull = 1,
    ReadShort = 2,
    Lookup = 3,
    Tags = 4,
    Indices = 5,
    Matrices = 6,
    JointsRead = 7,
    JointsWrite = 8,
    FreshLimit = 9,
    Hash = 10,
    RotationRead = 11,
    RotationWrite = 12,
    TranslationRead = 13,
    TranslationWrite = 14,
}
use Operation::*;

impl Operation {
    pub const ALL: [Operation; 15] = [
        Read,
        ReadFull,
        ReadShort,
        Lookup,
        Tags,
        Indices,
        Matrices,
        JointsRead,
        JointsWrite,
        FreshLimit,
        Hash,
        RotationRead,
        RotationWrite,
        TranslationRead,
        TranslationWrite,
    ];

    pub fn name(self) -> &'static str {
        match self {
            Read => "read",
            ReadFull => "read full",
            ReadShort => "read short",
            Lookup => "lookup",
            Tags => "tags",
            Indices => "indices",
            Matrices => "matrices",
            JointsRead => "joints read",
            JointsWrite => "joints write",
            FreshLimit => "fresh limit",
            Hash => "hash",
            RotationRead => "rotation limit read",
            RotationWrite => "rotation limit write",
            TranslationRead => "translation limit read",
            TranslationWrite => "translation limit write",
        }
    }
}

/// The tables of a run: each exactly as long as it must be, or longer; below, the table of that number is a word shorter.
pub const FULL: u32 = 100;
pub const LONGER: u32 = 101;

/// One run of a case and its answer: done, none, or a refusal's number.
#[derive(Clone, Copy, Debug)]
pub struct Run {
    pub operation: Operation,
    pub tables: u32,
    pub answer: u32,
}

impl Run {
    pub fn longer(operation: Operation, answer: u32) -> Run {
        Run { operation, tables: LONGER, answer }
    }
}

/// A case: what is run, the two numbers that a call is given, and further parts.
#[derive(Clone)]
pub struct Stored {
    /// The seed of a drawn case, else its place among those made by hand.
    pub number: u32,
    pub runs: Vec<Run>,
    pub call: [u64; 2],
    pub parts: Vec<Vec<u8>>,
}

impl Stored {
    /// The parts in front of the further ones: the runs, and the two numbers.
    pub const OWN: usize = 2;

    /// A further part, by its number in the file; where it would be the next, it is made.
    pub fn part(&mut self, k: usize) -> &mut Vec<u8> {
        let at = k - Self::OWN;
        if at == self.parts.len() {
            self.parts.push(Vec::new());
        }
        &mut self.parts[at]
    }

    /// Number and the bytes that follow; then where each part begins and the last one ends; then the parts.
    pub fn bytes(&self) -> Vec<u8> {
        let runs: Vec<u32> = self.runs.iter().flat_map(|r| [r.operation as u32, r.tables, r.answer]).collect();
        let call = self.call.map(u64::to_le_bytes).concat();
        let parts = [&[words(&runs), call][..], &self.parts].concat();
        let mut ends = vec![4 * (parts.len() + 1)];
        for part in &parts {
            ends.push(ends[ends.len() - 1] + part.len());
        }
        let head = [self.number as usize, ends[ends.len() - 1]];
        let numbers: Vec<u32> = head.into_iter().chain(ends).map(|n| n as u32).collect();
        [words(&numbers), parts.concat()].concat()
    }

    /// The operations and the number, as a message names a case.
    pub fn name(&self) -> String {
        self.runs.first().map_or(String::new(), |r| format!("{} {}", r.operation.name(), self.number))
    }
}

pub fn words(list: &[u32]) -> Vec<u8> {
    list.iter().flat_map(|w| w.to_le_bytes()).collect()
}

pub fn halves(list: &[i16]) -> Vec<u8> {
    list.iter().flat_map(|h| h.to_le_bytes()).collect()
}

pub fn numbers(list: &[u64]) -> Vec<u8> {
    list.iter().flat_map(|n| n.to_le_bytes()).collect()
}
