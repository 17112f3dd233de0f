//! Calls: what the member reader, the verifier and the signer are given.

use reference::base64url::{decoded_len, encode};
use reference::hmac::hmac_sha256;
use reference::limits::{HEADER_MAX, TOKEN_MAX};
use reference::table::Key;
use reference::{json, rules, token};

use crate::bytes;
use crate::header;
use crate::rng::Rng;
use crate::table;
use crate::text;

/// A call of the member reader.
#[derive(Clone, Debug, PartialEq, Eq)]
pub struct MemberCase {
    /// The header's bytes.
    pub header: Vec<u8>,
    /// The member asked for, from 0.
    pub k: usize,
}

/// A call of the verifier.
#[derive(Clone, Debug, PartialEq, Eq)]
pub struct VerifyCase {
    /// The token's bytes.
    pub token: Vec<u8>,
    /// The table's bytes.
    pub table: Vec<u8>,
    /// Length of the lent header buffer.
    pub header_len: usize,
    /// Length of the lent payload buffer.
    pub payload_len: usize,
}

/// A call of the signer.
#[derive(Clone, Debug, PartialEq, Eq)]
pub struct SignCase {
    /// The header's bytes.
    pub header: Vec<u8>,
    /// The payload.
    pub payload: Vec<u8>,
    /// The table's bytes.
    pub table: Vec<u8>,
    /// Length of the lent token buffer.
    pub token_len: usize,
}

/// A header of any sort; a member of it, the one past its last, or one far beyond.
pub fn member_case(rng: &mut Rng) -> MemberCase {
    let header = header::header(rng);
    let count = json::read(&header).map_or(2, |members| members.len());
    let k = match rng.below(12) {
        0 => rng.pick(&[count, count + 1, 255, 256, HEADER_MAX, usize::MAX / 2, usize::MAX]),
        _ => rng.below(count + 1),
    };
    MemberCase { header, k }
}

/// A token, right or damaged, with its table and buffers.
pub fn verify_case(rng: &mut Rng) -> VerifyCase {
    let table = table_for_call(rng);
    let keys = reference::table::parse(&table).unwrap_or_default();
    let header = header_for_call(rng, &keys);
    let payload = payload_for_call(rng, header.len());
    let mut token = make_token(rng, &header, &payload, &keys);
    if rng.one_in(3) {
        damage(rng, &mut token);
    }
    let (header_len, payload_len) = buffers(rng, &token);
    VerifyCase {
        token,
        table,
        header_len,
        payload_len,
    }
}

/// A header and a payload to sign, with their table and buffer.
pub fn sign_case(rng: &mut Rng) -> SignCase {
    let table = table_for_call(rng);
    let keys = reference::table::parse(&table).unwrap_or_default();
    let header = header_for_call(rng, &keys);
    let payload = payload_for_call(rng, header.len());
    let needed = token::token_len(header.len(), payload.len());
    SignCase {
        token_len: around(rng, needed),
        header,
        payload,
        table,
    }
}

fn table_for_call(rng: &mut Rng) -> Vec<u8> {
    let mut table = table::valid(rng);
    if rng.one_in(12) {
        table::damage(rng, &mut table);
    }
    table
}

fn header_for_call(rng: &mut Rng, keys: &[Key]) -> Vec<u8> {
    let ids: Vec<&[u8]> = keys.iter().map(|key| key.id).collect();
    match rng.below(8) {
        0 => header::header(rng),
        1 | 2 if !ids.is_empty() => {
            let id = rng.pick(&ids);
            header::plain_header_for(rng, id)
        }
        _ => header::header_for(rng, &ids),
    }
}

/// A short payload mostly; at times one that makes about the longest token.
fn payload_for_call(rng: &mut Rng, header_length: usize) -> Vec<u8> {
    let length = match rng.below(40) {
        0 => {
            let characters = rng
                .within(TOKEN_MAX - 4..=TOKEN_MAX + 4)
                .saturating_sub(token::token_len(header_length, 0));
            decoded_len(characters)
        }
        1 => rng.below(2_000),
        2..=5 => rng.below(4),
        _ => rng.below(60),
    };
    rng.bytes(length)
}

/// A token under the key that the rules choose. Where they choose none it is under any key's secret, so that nothing but
/// the rules refuses it.
pub fn make_token(rng: &mut Rng, header: &[u8], payload: &[u8], keys: &[Key]) -> Vec<u8> {
    let chosen = json::read(header).and_then(|members| rules::choose(&members, keys));
    let secret = match chosen {
        Ok(choice) => keys[choice.key].secret.to_vec(),
        Err(_) if !keys.is_empty() => rng.pick(keys).secret.to_vec(),
        Err(_) => rng.bytes(32),
    };
    let signed = format!("{}.{}", encode(header), encode(payload));
    let mac = hmac_sha256(&secret, signed.as_bytes());
    format!("{signed}.{}", encode(&mac)).into_bytes()
}

/// Damages a token of three segments.
fn damage(rng: &mut Rng, token: &mut Vec<u8>) {
    let mut segments: Vec<Vec<u8>> = token.split(|&byte| byte == b'.').map(<[u8]>::to_vec).collect();
    let which = rng.below(segments.len());
    match rng.below(12) {
        0 | 1 => text::damage(rng, &mut segments[which]),
        2 | 3 => {
            let last = segments.len() - 1;
            segments[last] = wrong_signature(rng, &segments[last]);
        }
        4 => rng.shuffle(&mut segments),
        5 => segments.push(Vec::new()),
        6 => drop(segments.remove(which)),
        7 => segments[which].clear(),
        8 => {
            // A byte of the header or the payload changed within the alphabet.
            let at = rng.below(segments[which].len().max(1));
            if let Some(byte) = segments[which].get_mut(at) {
                *byte = rng.pick(b"ABCDEFGHIJKLMNOPQRSTUVWXYZabcdefghijklmnopqrstuvwxyz0123456789-_");
            }
        }
        _ => {}
    }
    *token = segments.join(&b'.');
    match rng.below(24) {
        0 | 1 => bytes::mutate_some(rng, token),
        2 => {
            let length = rng.within(TOKEN_MAX - 1..=TOKEN_MAX + 2);
            if token.len() < length {
                token.resize(length, rng.pick(b"A."));
            }
        }
        3 => {
            *token = rng
                .pick(&[&b""[..], b".", b"..", b"...", b"A", b"e30..", b"\n"])
                .to_vec()
        }
        4 => token.push(rng.pick(b"\n. =")),
        _ => {}
    }
}

/// A strict text of wrong bytes: a bit changed, too short, too long, empty, or of other bytes.
fn wrong_signature(rng: &mut Rng, signature: &[u8]) -> Vec<u8> {
    let mut bytes = reference::base64url::decode(signature).unwrap_or_default();
    let at = rng.below(bytes.len().max(1));
    match rng.below(6) {
        0 | 1 => {
            if let Some(byte) = bytes.get_mut(at) {
                *byte ^= 1 << rng.below(8);
            }
        }
        2 => bytes.truncate(at),
        3 => bytes.push(rng.pick(&[0, 1, 255])),
        4 => bytes.clear(),
        _ => bytes = rng.bytes(32),
    }
    encode(&bytes).into_bytes()
}

/// Lengths of the two buffers around what the token's segments need.
fn buffers(rng: &mut Rng, token: &[u8]) -> (usize, usize) {
    let mut needed = token
        .split(|&byte| byte == b'.')
        .map(|segment| decoded_len(segment.len()));
    let header = needed.next().unwrap_or(0);
    let payload = needed.next().unwrap_or(0);
    (around(rng, header), around(rng, payload))
}

/// `needed`, more, or at times less.
fn around(rng: &mut Rng, needed: usize) -> usize {
    match rng.below(40) {
        0 => needed.saturating_sub(1),
        1 => rng.below(needed + 1),
        2..=15 => needed,
        16..=20 => needed + 1,
        _ => needed + rng.below(40),
    }
}
