//! An independent reference for signed setpoint tokens, written from `docs/SPECIFICATION.md` (cited below as
//! "the specification") and the RFCs that it names. Plain safe Rust, no dependencies.
//!
//! From the leaves up: [`base64url`], [`sha256`], [`hmac`] and [`json`] know their own document only; [`table`] is the
//! key table; [`rules`] gives the answers 9 to 14; [`token`] verifies and signs.

#![forbid(unsafe_code)]

pub mod answer;
pub mod base64url;
pub mod hmac;
pub mod json;
pub mod limits;
pub mod rules;
pub mod sha256;
pub mod table;
pub mod token;
