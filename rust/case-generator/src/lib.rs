//! Deterministic good and damaged input, for comparing implementations of the specification.
//!
//! Each function below is an endless iterator over a seed. Case `i` of a seed depends on the seed and `i` alone, so a
//! failing case is found again by `.nth(i)`.

#![forbid(unsafe_code)]

pub mod bytes;
pub mod call;
pub mod header;
pub mod rng;
pub mod table;
pub mod text;

pub use call::{MemberCase, SignCase, VerifyCase};
use rng::Rng;

fn cases<T>(seed: u64, make: fn(&mut Rng) -> T) -> impl Iterator<Item = T> {
    (0..).map(move |case| make(&mut Rng::of_case(seed, case)))
}

/// Random bytes of lengths around the hash's block edges and others, up to 400.
pub fn messages(seed: u64) -> impl Iterator<Item = Vec<u8>> {
    cases(seed, bytes::message)
}

/// Texts that are strict base64url, and mutations of them.
pub fn base64url_texts(seed: u64) -> impl Iterator<Item = Vec<u8>> {
    cases(seed, text::text)
}

/// Headers: right, wrong by a rule, wrong by the grammar, mutated byte by byte, and around the limits of length and depth.
pub fn headers(seed: u64) -> impl Iterator<Item = Vec<u8>> {
    cases(seed, header::header)
}

/// Key tables, valid and damaged.
pub fn tables(seed: u64) -> impl Iterator<Item = Vec<u8>> {
    cases(seed, table::table)
}

/// Calls of the member reader.
pub fn member_cases(seed: u64) -> impl Iterator<Item = MemberCase> {
    cases(seed, call::member_case)
}

/// Calls of the verifier.
pub fn verify_cases(seed: u64) -> impl Iterator<Item = VerifyCase> {
    cases(seed, call::verify_case)
}

/// Calls of the signer.
pub fn sign_cases(seed: u64) -> impl Iterator<Item = SignCase> {
    cases(seed, call::sign_case)
}
