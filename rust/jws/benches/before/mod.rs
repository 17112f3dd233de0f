//! The verifier and the signer of an earlier archive, which the build was given in `JWS_BEFORE`. Its boundary is the one of now.

#![allow(unsafe_code)] // calls of the archive

use jws::ffi::RECORD_WORDS;

extern "C" {
    fn before_boundary() -> u32;

    fn before_verify(
        token: *const u8,
        token_len: u64,
        table: *const u8,
        table_len: u64,
        header: *mut u8,
        header_len: u64,
        payload: *mut u8,
        payload_len: u64,
        record: *mut [u64; RECORD_WORDS],
    ) -> u8;

    fn before_sign(
        header: *const u8,
        header_len: u64,
        payload: *const u8,
        payload_len: u64,
        table: *const u8,
        table_len: u64,
        token: *mut u8,
        token_len: u64,
        length: *mut u64,
    ) -> u8;
}

/// The number of its boundary.
pub fn boundary() -> u32 {
    // SAFETY: nothing is lent.
    unsafe { before_boundary() }
}

/// Verifies a token, and says whether it is accepted.
pub fn verify(token: &[u8], table: &[u8], header: &mut [u8], payload: &mut [u8]) -> bool {
    let mut words = [0; RECORD_WORDS];
    // SAFETY: each pointer goes with the length of its own slice; the slices that are written are lent exclusively, and
    // `words` is this function's own.
    let answer = unsafe {
        before_verify(
            token.as_ptr(),
            token.len() as u64,
            table.as_ptr(),
            table.len() as u64,
            header.as_mut_ptr(),
            header.len() as u64,
            payload.as_mut_ptr(),
            payload.len() as u64,
            &mut words,
        )
    };
    answer == 0
}

/// Signs a header and a payload, and gives the token's length, or 0 where that is refused.
pub fn sign(header: &[u8], payload: &[u8], table: &[u8], token: &mut [u8]) -> usize {
    let mut length = 0;
    // SAFETY: each pointer goes with the length of its own slice; the slice that is written is lent exclusively, and
    // `length` is a word of this function's own.
    unsafe {
        before_sign(
            header.as_ptr(),
            header.len() as u64,
            payload.as_ptr(),
            payload.len() as u64,
            table.as_ptr(),
            table.len() as u64,
            token.as_mut_ptr(),
            token.len() as u64,
            &mut length,
        )
    };
    length as usize
}
