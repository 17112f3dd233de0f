//! The published tokens under HS256, and a published payload under a header that names its key.

use reference::base64url::decode;

use crate::common::{rfc7520, rfc7520_table};

/// The table of the key of RFC 7515 A.1.
pub const A1_TABLE: &[u8] = include_bytes!("../../../../crates/verify_token/data/table.bin");
/// The payload of RFC 7515 A.1 under a header that names this key.
const A1_NAMED: &[u8] = include_bytes!("../../../../crates/verify_token/data/token.txt");
/// The token of RFC 7515 A.1, whose header has no `kid`.
const A1_TOKEN: &[u8] = include_bytes!("../../../../crates/verify_token/data/nameless.txt");
/// The first token of RFC 7797 section 4, by the same key and without `kid` too.
const UNENCODED_TOKEN: &[u8] = b"eyJhbGciOiJIUzI1NiJ9.JC4wMg.5mvfOroL-g7HyqJoozehmsaqmvTYGEq5jTI1gVvoEoQ";

/// A rightly signed token, and a table of its key.
pub struct SignedToken {
    pub token: Vec<u8>,
    pub table: Vec<u8>,
}

impl SignedToken {
    fn of(token: &[u8], table: &[u8]) -> Self {
        SignedToken {
            token: token.to_vec(),
            table: table.to_vec(),
        }
    }

    fn segment(&self, i: usize) -> &[u8] {
        self.token.split(|&byte| byte == b'.').nth(i).expect("three segments")
    }

    pub fn header(&self) -> Vec<u8> {
        decode(self.segment(0)).expect("base64url")
    }

    pub fn payload(&self) -> Vec<u8> {
        decode(self.segment(1)).expect("base64url")
    }

    /// The token with another first character of the signature.
    pub fn forged(&self) -> Vec<u8> {
        let at = self.token.len() - self.segment(2).len();
        let mut token = self.token.clone();
        token[at] = if token[at] == b'A' { b'B' } else { b'A' };
        token
    }
}

/// The payload of RFC 7515 A.1 and the token of RFC 7520 section 4.4, whose headers name their keys.
pub fn named() -> [SignedToken; 2] {
    [
        SignedToken::of(A1_NAMED, A1_TABLE),
        SignedToken::of(rfc7520::TOKEN, &rfc7520_table()),
    ]
}

/// The tokens of RFC 7515 A.1 and RFC 7797 section 4, whose headers name no key.
pub fn nameless() -> [SignedToken; 2] {
    [A1_TOKEN, UNENCODED_TOKEN].map(|token| SignedToken::of(token, A1_TABLE))
}
