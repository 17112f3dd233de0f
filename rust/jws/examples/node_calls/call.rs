//! A call: how it stands in a file, where its areas lie, and what the archive leaves there.
//!
//! In a file a call is its function (`u32`), its shift (`u32`), the lengths of four areas (`u32` each), `k` (`u64`) and
//! the bytes of the areas that are read, or a record's words. Its outcome is the answer (`u64`) and, of a function that
//! is lent areas, the words with two guards on each side, then the whole arena, as they stand after the call. All
//! numbers have their lowest byte first.

use std::ops::Range;
use std::ptr::null_mut;

use jws::ffi::{self, MEMBER_WORDS, RECORD_WORDS};
use jws::{HEADER_MAX, PAYLOAD_MAX, TOKEN_MAX};
use reference::limits::TABLE_MAX;

use crate::common::GARBAGE;

/// Bytes of garbage before each area and after the last; the shift adds to those before the first.
const GAP: usize = 16;
/// Words of garbage on each side of those that are written.
const GUARDS: usize = 2;
/// No arena is longer: the longest of each area, and 8 KiB for garbage and for what is longer, and refused.
const ARENA_MAX: usize = TOKEN_MAX + TABLE_MAX + HEADER_MAX + PAYLOAD_MAX + 8_192;

/// The areas with the garbage between them.
#[repr(align(16))]
struct Arena([u8; ARENA_MAX]);

/// The function that is called, by its number in a file.
#[derive(Clone, Copy, Debug, PartialEq, Eq, PartialOrd, Ord)]
pub enum Function {
    /// Areas: token, table, header buffer, payload buffer. `k` is 1 if an area of length 0 is passed as null.
    Verify = 1,
    /// Areas: header, payload, table, token buffer. `k` as of `Verify`.
    Sign = 2,
    /// Areas: header. `k` is the member.
    Member = 3,
    /// No areas: a record's words come after `k`, the buffer's length.
    Payload = 4,
    /// No areas.
    Boundary = 5,
}

/// A call, to be written to a file or made.
pub struct Call {
    pub function: Function,
    shift: usize,
    lengths: [usize; 4],
    k: u64,
    bytes: Vec<u8>,
}

impl Call {
    fn new(function: Function, lengths: [usize; 4], k: u64, bytes: Vec<u8>) -> Self {
        Call {
            function,
            shift: 0,
            lengths,
            k,
            bytes,
        }
    }

    pub fn verify(token: &[u8], table: &[u8], header_len: usize, payload_len: usize) -> Self {
        let lengths = [token.len(), table.len(), header_len, payload_len];
        Call::new(Function::Verify, lengths, 0, [token, table].concat())
    }

    pub fn sign(header: &[u8], payload: &[u8], table: &[u8], token_len: usize) -> Self {
        let lengths = [header.len(), payload.len(), table.len(), token_len];
        Call::new(Function::Sign, lengths, 0, [header, payload, table].concat())
    }

    pub fn member(header: &[u8], k: u64) -> Self {
        Call::new(Function::Member, [header.len(), 0, 0, 0], k, header.to_vec())
    }

    pub fn payload(record: &[u64; RECORD_WORDS], buffer_len: u64) -> Self {
        let bytes = record.iter().flat_map(|word| word.to_le_bytes()).collect();
        Call::new(Function::Payload, [0; 4], buffer_len, bytes)
    }

    pub fn boundary() -> Self {
        Call::new(Function::Boundary, [0; 4], 0, Vec::new())
    }

    /// The same call with its areas at other places, by `i`: each shift comes with null and without.
    pub fn placed(mut self, i: usize) -> Self {
        self.shift = i % 16;
        if matches!(self.function, Function::Verify | Function::Sign) {
            self.k = (i / 16 % 2) as u64;
        }
        self
    }

    pub fn write(&self, file: &mut Vec<u8>) {
        file.extend((self.function as u32).to_le_bytes());
        file.extend((self.shift as u32).to_le_bytes());
        for length in self.lengths {
            file.extend((length as u32).to_le_bytes());
        }
        file.extend(self.k.to_le_bytes());
        file.extend(&self.bytes);
    }

    /// Makes the call.
    pub fn outcome(&self) -> Outcome {
        let [a, b, c, d] = self.lengths.map(|length| length as u64);
        match self.function {
            Function::Verify => self.lend(2, RECORD_WORDS, |[token, table, header, payload], record| {
                // SAFETY: `lend` points to areas of these lengths and to aligned words, all apart from each other.
                unsafe { ffi::jws_verify(token, a, table, b, header, c, payload, d, record.cast()) }
            }),
            Function::Sign => self.lend(3, 1, |[header, payload, table, token], length| {
                // SAFETY: as above.
                unsafe { ffi::jws_sign(header, a, payload, b, table, c, token, d, length) }
            }),
            Function::Member => self.lend(1, MEMBER_WORDS, |[header, ..], member| {
                // SAFETY: as above.
                unsafe { ffi::jws_member(header, a, self.k, member.cast()) }
            }),
            // SAFETY: the words are this function's own.
            Function::Payload => Outcome::alone(unsafe { ffi::jws_payload(&self.record(), self.k) }),
            // SAFETY: nothing is lent.
            Function::Boundary => Outcome::alone(u64::from(unsafe { ffi::jws_boundary() })),
        }
    }

    /// The record's words that `bytes` holds.
    fn record(&self) -> [u64; RECORD_WORDS] {
        let mut words = self.bytes.chunks_exact(8).map(|word| word.try_into().unwrap());
        [(); RECORD_WORDS].map(|()| u64::from_le_bytes(words.next().unwrap()))
    }

    /// Where the areas lie in the arena.
    fn areas(&self) -> [Range<usize>; 4] {
        let mut end = self.shift;
        self.lengths.map(|length| {
            let start = end + GAP;
            end = start + length;
            start..end
        })
    }

    /// The arena before the call: the first `read` areas hold `bytes`, and all else is garbage.
    fn arena(&self, read: usize) -> Vec<u8> {
        let areas = self.areas();
        let mut arena = vec![GARBAGE as u8; areas[3].end + GAP];
        let mut bytes = &self.bytes[..];
        for area in &areas[..read] {
            let (these, rest) = bytes.split_at(area.len());
            arena[area.clone()].copy_from_slice(these);
            bytes = rest;
        }
        assert!(bytes.is_empty() && arena.len() <= ARENA_MAX, "{} bytes", arena.len());
        arena
    }

    /// Makes a call that reads the first `read` areas and writes the others and `count` words.
    fn lend(&self, read: usize, count: usize, call: impl FnOnce([*mut u8; 4], *mut u64) -> u8) -> Outcome {
        let before = self.arena(read);
        let mut arena = Arena([0; ARENA_MAX]);
        arena.0[..before.len()].copy_from_slice(&before);
        let mut words = vec![GARBAGE; count + 2 * GUARDS];

        let nulls = self.function != Function::Member && self.k == 1;
        let start = arena.0.as_mut_ptr();
        let pointers = self.areas().map(|area| {
            if area.is_empty() && nulls {
                null_mut()
            } else {
                start.wrapping_add(area.start)
            }
        });
        let answer = call(pointers, words.as_mut_ptr().wrapping_add(GUARDS));

        let outcome = Outcome {
            answer: u64::from(answer),
            words,
            arena: arena.0[..before.len()].to_vec(),
            areas: self.areas(),
        };
        outcome.check(&before, read);
        outcome
    }
}

/// What a call leaves.
pub struct Outcome {
    pub answer: u64,
    /// The words and their guards.
    words: Vec<u64>,
    arena: Vec<u8>,
    areas: [Range<usize>; 4],
}

impl Outcome {
    /// Of a function that is lent no areas.
    fn alone(answer: u64) -> Self {
        Outcome {
            answer,
            words: Vec::new(),
            arena: Vec::new(),
            areas: Default::default(),
        }
    }

    /// The words without their guards.
    pub fn words(&self) -> &[u64] {
        &self.words[GUARDS..self.words.len() - GUARDS]
    }

    pub fn area(&self, i: usize) -> &[u8] {
        &self.arena[self.areas[i].clone()]
    }

    /// Asserts that garbage and the areas that are read are as before, and that a refusal left zeros in the others.
    fn check(&self, before: &[u8], read: usize) {
        let (mut words, mut arena) = (self.words.clone(), self.arena.clone());
        words[GUARDS..self.words.len() - GUARDS].fill(GARBAGE);
        for area in &self.areas[read..] {
            arena[area.clone()].fill(GARBAGE as u8);
        }
        assert!(words.iter().all(|&word| word == GARBAGE), "the guards stay");
        assert!(arena == before, "what is read, and what isn't lent, stays");
        if self.answer != 0 {
            assert!(self.words().iter().all(|&word| word == 0), "a refusal leaves zeros");
            let zeros = (read..4).all(|i| self.area(i).iter().all(|&byte| byte == 0));
            assert!(zeros, "a refusal leaves zeros");
        }
    }

    pub fn write(&self, file: &mut Vec<u8>) {
        file.extend(self.answer.to_le_bytes());
        file.extend(self.words.iter().flat_map(|word| word.to_le_bytes()));
        file.extend(&self.arena);
    }
}
