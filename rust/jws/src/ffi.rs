//! The functions of `include/jws.h`, as they are. A `*const u8` goes with the length after it and may be null where
//! that is 0. Lengths and `k` are 64 bits wide whatever the processor: each is a `u64`, and none a `usize`.
//!
//! # Safety
//!
//! Each pointer is valid for its length, or for the words that it points to; words (`record`, `member`, `length`) are
//! aligned as `u64`, that is, at a multiple of 8, while bytes need no alignment; what is lent for writing overlaps
//! nothing else that is lent to the same call; a length times the size of what it counts is below 2^63, as of every
//! object of Rust. There is no other precondition.

/// Words of a record: `JWS_RECORD_WORDS`.
pub const RECORD_WORDS: usize = 9;
/// Words of a member: `JWS_MEMBER_WORDS`.
pub const MEMBER_WORDS: usize = 5;

extern "C" {
    /// The number of the archive's boundary.
    pub fn jws_boundary() -> u32;

    /// Member `k` of a header: kind, name start, name end, value start, value end.
    pub fn jws_member(header: *const u8, header_len: u64, k: u64, member: *mut [u64; MEMBER_WORDS]) -> u8;

    /// Verifies a token: header length, payload length, key index, whether `kid` was there, format, start and length of
    /// `typ`, start and length of `cty`.
    pub fn jws_verify(
        token: *const u8,
        token_len: u64,
        table: *const u8,
        table_len: u64,
        header: *mut u8,
        header_len: u64,
        payload: *mut u8,
        payload_len: u64,
        record: *mut [u64; RECORD_WORDS],
    ) -> u8;

    /// How many bytes of a payload buffer of this length hold the payload.
    pub fn jws_payload(record: *const [u64; RECORD_WORDS], buffer_len: u64) -> u64;

    /// Signs a header and a payload: the token's length.
    pub fn jws_sign(
        header: *const u8,
        header_len: u64,
        payload: *const u8,
        payload_len: u64,
        table: *const u8,
        table_len: u64,
        token: *mut u8,
        token_len: u64,
        length: *mut u64,
    ) -> u8;
}
