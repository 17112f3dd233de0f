//! The proved codecs behind safe functions: strict base64url, SHA-256 and HMAC-SHA-256.
//!
//! Only tests and benchmarks use this crate. The functions below have no precondition, so that every call is safe.

#![allow(unsafe_code)] // calls of the archive

mod ffi {
    extern "C" {
        pub fn codec_decode(text: *const u8, text_len: usize, out: *mut u8, out_len: usize, answer: *mut [u64; 2]);
        pub fn codec_encode(bytes: *const u8, bytes_len: usize, out: *mut u8, out_len: usize, answer: *mut [u64; 2]);
        pub fn codec_sha256(message: *const u8, message_len: usize, digest: *mut [u8; 32]);
        pub fn codec_hmac(key: *const u8, key_len: usize, message: *const u8, message_len: usize, mac: *mut [u8; 32]);
    }
    #[cfg(codec_before)]
    extern "C" {
        pub fn before_decode(text: *const u8, text_len: usize, out: *mut u8, out_len: usize, answer: *mut [u64; 2]);
        pub fn before_encode(bytes: *const u8, bytes_len: usize, out: *mut u8, out_len: usize, answer: *mut [u64; 2]);
        pub fn before_sha256(message: *const u8, message_len: usize, digest: *mut [u8; 32]);
        pub fn before_hmac(key: *const u8, key_len: usize, message: *const u8, message_len: usize, mac: *mut [u8; 32]);
    }
}

/// What decoding or encoding answers.
#[derive(Clone, Copy, Debug, PartialEq, Eq)]
pub enum Answer {
    /// This many bytes were written.
    Written(usize),
    /// The text isn't strict base64url; the place of the fault.
    Fault(usize),
    /// The buffer is shorter than what it must hold.
    Short,
}

/// A decoder or an encoder.
type Coder = unsafe extern "C" fn(*const u8, usize, *mut u8, usize, *mut [u64; 2]);

/// # Safety
///
/// It is a decoder or an encoder of an archive.
unsafe fn call(coder: Coder, input: &[u8], out: &mut [u8]) -> Answer {
    let mut words = [9; 2];
    // SAFETY: each pointer goes with the length of its own slice, and `words` is two words.
    unsafe { coder(input.as_ptr(), input.len(), out.as_mut_ptr(), out.len(), &mut words) };
    match words[0] {
        0 => Answer::Written(words[1] as usize),
        1 => Answer::Fault(words[1] as usize),
        _ => Answer::Short,
    }
}

/// A hash.
type Hash = unsafe extern "C" fn(*const u8, usize, *mut [u8; 32]);

/// # Safety
///
/// It is the hash of an archive.
unsafe fn digest(hash: Hash, message: &[u8]) -> [u8; 32] {
    let mut digest = [0; 32];
    // SAFETY: the pointer goes with the slice's length, and `digest` is 32 bytes.
    unsafe { hash(message.as_ptr(), message.len(), &mut digest) };
    digest
}

/// A hash under a key.
type KeyedHash = unsafe extern "C" fn(*const u8, usize, *const u8, usize, *mut [u8; 32]);

/// # Safety
///
/// It is the hash under a key of an archive.
unsafe fn mac(hash: KeyedHash, key: &[u8], message: &[u8]) -> [u8; 32] {
    let mut mac = [0; 32];
    // SAFETY: each pointer goes with the length of its own slice, and `mac` is 32 bytes.
    unsafe { hash(key.as_ptr(), key.len(), message.as_ptr(), message.len(), &mut mac) };
    mac
}

/// Decodes strict base64url into `out`.
pub fn decode(text: &[u8], out: &mut [u8]) -> Answer {
    // SAFETY: it is the archive's decoder.
    unsafe { call(ffi::codec_decode, text, out) }
}

/// Encodes bytes as base64url into `out`.
pub fn encode(bytes: &[u8], out: &mut [u8]) -> Answer {
    // SAFETY: it is the archive's encoder.
    unsafe { call(ffi::codec_encode, bytes, out) }
}

/// The SHA-256 digest of a message.
pub fn sha256(message: &[u8]) -> [u8; 32] {
    // SAFETY: it is the archive's hash.
    unsafe { digest(ffi::codec_sha256, message) }
}

/// HMAC-SHA-256.
pub fn hmac_sha256(key: &[u8], message: &[u8]) -> [u8; 32] {
    // SAFETY: it is the archive's hash under a key.
    unsafe { mac(ffi::codec_hmac, key, message) }
}

/// The same by an earlier archive, where the build was given one in `CODEC_BEFORE`.
#[cfg(codec_before)]
pub mod before {
    use super::{call, digest, ffi, mac, Answer};

    /// Decodes strict base64url into `out`.
    pub fn decode(text: &[u8], out: &mut [u8]) -> Answer {
        // SAFETY: it is the earlier archive's decoder.
        unsafe { call(ffi::before_decode, text, out) }
    }

    /// Encodes bytes as base64url into `out`.
    pub fn encode(bytes: &[u8], out: &mut [u8]) -> Answer {
        // SAFETY: it is the earlier archive's encoder.
        unsafe { call(ffi::before_encode, bytes, out) }
    }

    /// The SHA-256 digest of a message.
    pub fn sha256(message: &[u8]) -> [u8; 32] {
        // SAFETY: it is the earlier archive's hash.
        unsafe { digest(ffi::before_sha256, message) }
    }

    /// HMAC-SHA-256.
    pub fn hmac_sha256(key: &[u8], message: &[u8]) -> [u8; 32] {
        // SAFETY: it is the earlier archive's hash under a key.
        unsafe { mac(ffi::before_hmac, key, message) }
    }
}
