//! Compact JSON Web Signatures (RFC 7515) with HMAC-SHA-256: the proved library behind safe functions.
//!
//! [`verify`] accepts a token and [`Record::payload`] hands out what it carries; [`sign`] makes one; [`member`] and [`members`]
//! read a header's members. Nothing is allocated and nothing panics, whatever the linked archive answers; a call that refuses
//! says why by a [`Refusal`]. Only `core` is used. What a call leaves in the dead part of the stack isn't cleared: `include/jws.h`
//! says what that may be.
//!
//! ```
//! use jws::{Kind, Refusal, HEADER_MAX, PAYLOAD_MAX, TOKEN_MAX};
//!
//! # let table = include_bytes!(concat!(env!("CARGO_MANIFEST_DIR"), "/../../crates/verify_token/data/table.bin"));
//! let mut token = [0; TOKEN_MAX];
//! let header = br#"{"alg":"HS256","kid":"RFC 7515 A.1"}"#;
//! let length = jws::sign(header, b"setpoint 21.5", table, &mut token)?;
//!
//! let mut header = [0; HEADER_MAX];
//! let mut buffer = [0; PAYLOAD_MAX];
//! let record = jws::verify(&token[..length], table, &mut header, &mut buffer)?;
//! assert_eq!(record.payload(&buffer), b"setpoint 21.5");
//!
//! let header = br#"{"alg":"HS256","kid":"cellar 2","crit":["fmt"],"fmt":2}"#;
//! let fmt = jws::member(header, 3)?;
//! assert_eq!(fmt.kind, Kind::Number);
//! assert_eq!(header[fmt.name], *b"fmt");
//! assert_eq!(header[fmt.value], *b"2");
//! assert_eq!(jws::member(header, 4), Err(Refusal::NoSuchMember));
//! # Ok::<(), Refusal>(())
//! ```

#![no_std]
#![allow(unsafe_code)] // calls of the archive
// What could panic, or lose a part of a word.
#![cfg_attr(
    not(test),
    deny(
        clippy::arithmetic_side_effects,
        clippy::as_conversions,
        clippy::expect_used,
        clippy::indexing_slicing,
        clippy::panic,
        clippy::unreachable,
        clippy::unwrap_used
    )
)]

mod boundary;
pub mod ffi;
mod members;
mod refusal;
mod tokens;
mod words;

pub use boundary::{boundary, BOUNDARY};
pub use members::{member, members, Kind, Member, Members};
pub use refusal::{Refusal, Refused};
pub use tokens::{payload, sign, verify, Record, HEADER_MAX, PAYLOAD_MAX, TOKEN_MAX};

/// The README's examples.
#[cfg(doctest)]
#[doc = include_str!("../../../README.md")]
struct Readme;
