//! The published vectors: RFC 4648, FIPS 180-4, RFC 4231, RFC 7515, RFC 7520 and RFC 7797.

mod common;

use common::published::{bytes, digests, macs, rows};
use common::{rfc7520, A1_NAMED, A1_TABLE, A1_TOKEN};
use reference::base64url;
use reference::hmac::hmac_sha256;
use reference::sha256::digest;

#[test]
fn base64url_rows() {
    for row in rows("base64url", 9) {
        let decoded = bytes(&row[0]);
        let text = if row[1] == "-" { "" } else { &row[1] };
        assert_eq!(base64url::encode(&decoded), text);
        assert_eq!(base64url::decode(text.as_bytes()), Ok(decoded));
    }
}

#[test]
fn sha256_rows() {
    for [message, expected] in digests() {
        assert_eq!(digest(&message)[..], expected);
    }
}

#[test]
fn hmac_sha256_rows() {
    for [key, message, mac] in macs() {
        assert_eq!(hmac_sha256(&key, &message)[..], mac);
    }
}

/// The token is accepted with this header, payload and record, and signed again to the same bytes.
fn accepted(token: &[u8], table: &[u8], header: &[u8], payload: &[u8], words: [u64; 9]) {
    let verified = common::verify(token, table);
    assert_eq!((verified.answer, verified.record.words()), (0, words));
    assert!(verified.header.starts_with(header) && verified.payload.starts_with(payload));
    assert_eq!([header.len() as u64, payload.len() as u64], words[..2]);
    assert_eq!(common::sign(header, payload, table), (0, token.to_vec()));
}

/// The payload of RFC 7515 A.1.
const A1_PAYLOAD: &[u8] = b"{\"iss\":\"joe\",\r\n \"exp\":1300819380,\r\n \"http://example.com/is_root\":true}";

/// The token is made of its published parts; its header names no key, so that it is neither accepted nor signed.
fn nameless(header: &[u8], payload: &[u8], token: &[u8]) {
    assert_eq!(common::token(header, payload, &A1_TABLE[32..]), token);
    assert_eq!(common::verify(token, A1_TABLE).answer, 12);
    assert_eq!(common::sign(header, payload, A1_TABLE).0, 12);
}

#[test]
fn rfc7515_a1() {
    let row = &rows("jws", 1)[0];
    assert_eq!(base64url::decode(row[0].as_bytes()).unwrap(), A1_TABLE[32..]);
    assert_eq!((row[1].as_bytes(), A1_TOKEN.len()), (A1_TOKEN, 179));
    nameless(b"{\"typ\":\"JWT\",\r\n \"alg\":\"HS256\"}", A1_PAYLOAD, A1_TOKEN);
}

#[test]
fn rfc7515_a1_under_a_header_that_names_its_key() {
    let header = br#"{"typ":"JWT","alg":"HS256","kid":"RFC 7515 A.1"}"#;
    accepted(A1_NAMED, A1_TABLE, header, A1_PAYLOAD, [48, 70, 0, 1, 1, 8, 3, 0, 0]);
    assert_eq!(A1_NAMED.len(), 203);
}

#[test]
fn rfc7520_section_4_4() {
    let secret = base64url::decode(rfc7520::SECRET).unwrap();
    let table = common::table(&[common::entry(rfc7520::KEY_ID, &secret, 1)]);
    let header = format!(r#"{{"alg":"HS256","kid":"{}"}}"#, rfc7520::KEY_ID);
    let (header, payload) = (header.as_bytes(), rfc7520::PAYLOAD.as_bytes());
    accepted(rfc7520::TOKEN, &table, header, payload, [60, 167, 0, 1, 1, 0, 0, 0, 0]);
}

#[test]
fn rfc7797_first_row() {
    let row = &rows("rfc7797", 2)[0];
    assert_eq!(row[0], "{\"alg\":\"HS256\"}");
    let token = format!("eyJhbGciOiJIUzI1NiJ9.JC4wMg.{}", row[1]);
    nameless(row[0].as_bytes(), &[36, 46, 48, 50], token.as_bytes());
}
