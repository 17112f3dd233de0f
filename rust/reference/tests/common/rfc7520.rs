//! The token of RFC 7520 section 4.4, whose header names its key.

/// The token.
pub const TOKEN: &[u8] = b"eyJhbGciOiJIUzI1NiIsImtpZCI6IjAxOGMwYWU1LTRkOWItNDcxYi1iZmQ2LWVlZjMxNGJjNzAzNyJ9\
    .SXTigJlzIGEgZGFuZ2Vyb3VzIGJ1c2luZXNzLCBGcm9kbywgZ29pbmcgb3V0IHlvdXIgZG9vci4gWW91IHN0ZXAgb250byB0aGUgcm9hZCwgYW5k\
    IGlmIHlvdSBkb24ndCBrZWVwIHlvdXIgZmVldCwgdGhlcmXigJlzIG5vIGtub3dpbmcgd2hlcmUgeW91IG1pZ2h0IGJlIHN3ZXB0IG9mZiB0by4\
    .s0h6KThzkfBBBkLspW1h84VsJZFTsPPqMDA7g1Md7p0";

/// Its payload. The first and the third apostrophe are U+2019, and the second is the plain one.
pub const PAYLOAD: &str =
    "It\u{2019}s a dangerous business, Frodo, going out your door. You step onto the road, and if \
    you don't keep your feet, there\u{2019}s no knowing where you might be swept off to.";

/// The id of its key, of section 3.5.
pub const KEY_ID: &str = "018c0ae5-4d9b-471b-bfd6-eef314bc7037";

/// The key's secret as base64url: 32 bytes.
pub const SECRET: &[u8] = b"hJtXIZ2uSN5kbQfbtTNWbpdmhkV8FJG-Onbc6mxCcYg";
