//! What several tests build and call.

#![allow(dead_code)] // each test file uses a part of it

pub mod published;
pub mod rfc7520;

use reference::base64url;
use reference::hmac::hmac_sha256;
use reference::limits::{HEADER_MAX, TOKEN_MAX};
use reference::token::{self, Record};

/// The secret of most tests.
pub const SECRET: &[u8] = b"a secret of thirty-two bytes, so";

/// The table of the key of RFC 7515 A.1: its id and, at the end, its secret of 64 bytes.
pub const A1_TABLE: &[u8] = include_bytes!("../../../../crates/verify_token/data/table.bin");
/// The token of RFC 7515 A.1, whose header has no `kid`.
pub const A1_TOKEN: &[u8] = include_bytes!("../../../../crates/verify_token/data/nameless.txt");
/// The same payload under a header that names the key.
pub const A1_NAMED: &[u8] = include_bytes!("../../../../crates/verify_token/data/token.txt");

/// A key for [`table`].
pub struct Entry<'a> {
    pub id: &'a [u8],
    pub secret: &'a [u8],
    pub algorithms: u8,
    pub formats: u8,
}

/// HS256 and the formats of `formats` allowed.
pub fn entry<'a>(id: &'a str, secret: &'a [u8], formats: u8) -> Entry<'a> {
    Entry {
        id: id.as_bytes(),
        secret,
        algorithms: 1,
        formats,
    }
}

/// A table of some keys, its areas one after another.
pub fn table(entries: &[Entry]) -> Vec<u8> {
    let mut areas: Vec<u8> = Vec::new();
    let mut rows: Vec<u8> = Vec::new();
    let first = 8 + 12 * entries.len();
    for entry in entries {
        for area in [entry.id, entry.secret] {
            rows.extend(((first + areas.len()) as u16).to_be_bytes());
            rows.extend((area.len() as u16).to_be_bytes());
            areas.extend(area);
        }
        rows.extend([entry.algorithms, entry.formats, 0, 0]);
    }
    let mut table = vec![0, 1, 0, entries.len() as u8];
    table.extend(((first + areas.len()) as u32).to_be_bytes());
    table.extend(rows);
    table.extend(areas);
    table
}

/// The header of most tests, which names the key of [`one_key`].
pub const HEADER: &str = r#"{"alg":"HS256","kid":"k"}"#;

/// The table of most tests: one key, id `k`, HS256 and format 1.
pub fn one_key() -> Vec<u8> {
    table(&[entry("k", SECRET, 1)])
}

/// A token of any header bytes and payload under a secret, whatever the rules say.
pub fn token(header: impl AsRef<[u8]>, payload: impl AsRef<[u8]>, secret: &[u8]) -> Vec<u8> {
    let signed = format!(
        "{}.{}",
        base64url::encode(header.as_ref()),
        base64url::encode(payload.as_ref())
    );
    let mac = hmac_sha256(secret, signed.as_bytes());
    format!("{signed}.{}", base64url::encode(&mac)).into_bytes()
}

/// What a call of `verify` left.
pub struct Verified {
    pub answer: u8,
    pub record: Record,
    pub header: Vec<u8>,
    pub payload: Vec<u8>,
}

/// Verifies with buffers of the given lengths, filled before; checks that they hold what the specification says.
pub fn verify_with(token: &[u8], table: &[u8], header_len: usize, payload_len: usize) -> Verified {
    let mut header = vec![0xAA; header_len];
    let mut payload = vec![0xBB; payload_len];
    let (answer, record) = token::verify(token, table, &mut header, &mut payload);
    assert!(answer <= 15);
    if answer != 0 {
        assert_eq!(record, Record::default());
    }
    let (_, header_rest) = header.split_at(record.header_length);
    let (_, payload_rest) = payload.split_at(record.payload_length);
    assert!(header_rest.iter().chain(payload_rest).all(|&byte| byte == 0));
    Verified {
        answer,
        record,
        header,
        payload,
    }
}

/// Verifies with long buffers.
pub fn verify(token: &[u8], table: &[u8]) -> Verified {
    verify_with(token, table, HEADER_MAX + 100, TOKEN_MAX)
}

/// The answer to a token of this header, signed rightly with [`SECRET`], under [`one_key`].
pub fn header_answer(header: impl AsRef<[u8]>) -> u8 {
    let header = header.as_ref();
    let answer = verify(&token(header, "payload", SECRET), &one_key()).answer;
    assert_eq!(sign(header, b"payload", &one_key()).0, answer);
    answer
}

/// Signs with a buffer of the given length, filled before; checks that it holds what the specification says.
pub fn sign_with(header: &[u8], payload: &[u8], table: &[u8], token_len: usize) -> (u8, Vec<u8>) {
    let mut buffer = vec![0xCC; token_len];
    let (answer, length) = token::sign(header, payload, table, &mut buffer);
    assert!(answer == 0 || length == 0);
    assert!(buffer[length..].iter().all(|&byte| byte == 0));
    buffer.truncate(length);
    (answer, buffer)
}

/// Signs with a long buffer.
pub fn sign(header: &[u8], payload: &[u8], table: &[u8]) -> (u8, Vec<u8>) {
    sign_with(header, payload, table, TOKEN_MAX + 100)
}
