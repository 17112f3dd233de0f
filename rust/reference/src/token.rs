//! Compact tokens: RFC 7515 sections 5.1, 5.2 and 7.1 with the rules and the order of answers of the specification.

use crate::answer::{
    BAD_TABLE, BUFFER_TOO_SHORT, DONE, HEADER_TOO_LONG, NOT_BASE64URL, NOT_TWO_PERIODS, SIGNATURE_DIFFERS,
    TOKEN_TOO_LONG,
};
use crate::base64url;
use crate::hmac::hmac_sha256;
use crate::json::{self, Place};
use crate::limits::{HEADER_MAX, MAC_LEN, TOKEN_MAX};
use crate::rules::{self, Choice};
use crate::table::{self, Key};

/// Specification, "Calls", verify: what an accepted token had. All zeros after a refusal.
#[derive(Clone, Copy, Debug, Default, PartialEq, Eq)]
pub struct Record {
    /// Bytes of the decoded header.
    pub header_length: usize,
    /// Bytes of the payload.
    pub payload_length: usize,
    /// The key's index in the table, from 0.
    pub key_index: usize,
    /// Whether `kid` was there: always, since no other token is accepted.
    pub kid_present: bool,
    /// The format, 1 to 8.
    pub format: u8,
    /// Start of the raw text of `typ` in the decoded header; 0 if absent.
    pub typ_start: usize,
    /// Length of the raw text of `typ`; 0 if absent.
    pub typ_length: usize,
    /// Start of the raw text of `cty`; 0 if absent.
    pub cty_start: usize,
    /// Length of the raw text of `cty`; 0 if absent.
    pub cty_length: usize,
}

impl Record {
    fn new(header_length: usize, payload_length: usize, choice: &Choice) -> Self {
        let part = |place: Option<Place>| place.map_or((0, 0), |p| (p.start, p.end - p.start));
        let (typ_start, typ_length) = part(choice.typ);
        let (cty_start, cty_length) = part(choice.cty);
        Record {
            header_length,
            payload_length,
            key_index: choice.key,
            kid_present: choice.kid,
            format: choice.format,
            typ_start,
            typ_length,
            cty_start,
            cty_length,
        }
    }

    /// The record as nine words, in the order of its fields.
    pub fn words(&self) -> [u64; 9] {
        [
            self.header_length as u64,
            self.payload_length as u64,
            self.key_index as u64,
            u64::from(self.kid_present),
            u64::from(self.format),
            self.typ_start as u64,
            self.typ_length as u64,
            self.cty_start as u64,
            self.cty_length as u64,
        ]
    }
}

/// Verifies a compact token: the answer and the record. On success each buffer holds its part of the token, then
/// zeros; after a refusal both are all zeros.
pub fn verify(token: &[u8], table: &[u8], header_buf: &mut [u8], payload_buf: &mut [u8]) -> (u8, Record) {
    match accept(token, table, header_buf.len(), payload_buf.len()) {
        Ok(accepted) => {
            put(header_buf, &accepted.header);
            put(payload_buf, &accepted.payload);
            (DONE, accepted.record)
        }
        Err(answer) => {
            header_buf.fill(0);
            payload_buf.fill(0);
            (answer, Record::default())
        }
    }
}

/// The payload of an accepted token, as a part of the payload buffer; empty if the record's length doesn't fit.
pub fn payload<'b>(record: &Record, payload_buf: &'b [u8]) -> &'b [u8] {
    payload_buf.get(..record.payload_length).unwrap_or(&[])
}

/// Signs a header and a payload: the answer and the token's length. On success the buffer holds the token, then zeros;
/// after a refusal it is all zeros and the length is 0.
pub fn sign(header: &[u8], payload: &[u8], table: &[u8], token_buf: &mut [u8]) -> (u8, usize) {
    match make(header, payload, table, token_buf.len()) {
        Ok(token) => {
            put(token_buf, &token);
            (DONE, token.len())
        }
        Err(answer) => {
            token_buf.fill(0);
            (answer, 0)
        }
    }
}

struct Accepted {
    header: Vec<u8>,
    payload: Vec<u8>,
    record: Record,
}

/// The conditions 1 to 15 in order.
fn accept(token: &[u8], table: &[u8], header_room: usize, payload_room: usize) -> Result<Accepted, u8> {
    if token.len() > TOKEN_MAX {
        return Err(TOKEN_TOO_LONG);
    }
    let keys = table::parse(table).map_err(|_| BAD_TABLE)?;
    let segments = Segments::of(token).ok_or(NOT_TWO_PERIODS)?;
    let decode = |text| base64url::decode(text).map_err(|_| NOT_BASE64URL);
    let header = decode(segments.header)?;
    let payload = decode(segments.payload)?;
    let signature = decode(segments.signature)?;
    if header.len() > HEADER_MAX {
        return Err(HEADER_TOO_LONG);
    }
    if header.len() > header_room || payload.len() > payload_room {
        return Err(BUFFER_TOO_SHORT);
    }
    let choice = choose(&header, &keys)?;
    let mac = hmac_sha256(keys[choice.key].secret, segments.signed);
    if !equal(&mac, &signature) {
        return Err(SIGNATURE_DIFFERS);
    }
    let record = Record::new(header.len(), payload.len(), &choice);
    Ok(Accepted {
        header,
        payload,
        record,
    })
}

/// The conditions 2, 5, 7 to 14, 1 and 6 in order; then the token.
fn make(header: &[u8], payload: &[u8], table: &[u8], room: usize) -> Result<Vec<u8>, u8> {
    let keys = table::parse(table).map_err(|_| BAD_TABLE)?;
    let choice = choose(header, &keys)?;
    let length = token_len(header.len(), payload.len());
    if length > TOKEN_MAX {
        return Err(TOKEN_TOO_LONG);
    }
    if length > room {
        return Err(BUFFER_TOO_SHORT);
    }
    let mut token = String::with_capacity(length);
    token.push_str(&base64url::encode(header));
    token.push('.');
    token.push_str(&base64url::encode(payload));
    let mac = hmac_sha256(keys[choice.key].secret, token.as_bytes());
    token.push('.');
    token.push_str(&base64url::encode(&mac));
    Ok(token.into_bytes())
}

/// The answers 5 and 7 to 14, in order, of a header and a table's keys.
fn choose(header: &[u8], keys: &[Key]) -> Result<Choice, u8> {
    rules::choose(&json::read(header)?, keys)
}

/// Characters of the token of a header and a payload.
pub const fn token_len(header: usize, payload: usize) -> usize {
    let segments = base64url::encoded_len(header).saturating_add(base64url::encoded_len(payload));
    segments.saturating_add(2 + base64url::encoded_len(MAC_LEN))
}

struct Segments<'t> {
    header: &'t [u8],
    payload: &'t [u8],
    signature: &'t [u8],
    /// The token's own bytes before the second period.
    signed: &'t [u8],
}

impl<'t> Segments<'t> {
    /// `None` if the token hasn't exactly two periods.
    fn of(token: &'t [u8]) -> Option<Self> {
        let mut parts = token.split(|&byte| byte == b'.');
        let (header, payload, signature) = (parts.next()?, parts.next()?, parts.next()?);
        if parts.next().is_some() {
            return None;
        }
        Some(Segments {
            header,
            payload,
            signature,
            signed: &token[..header.len() + 1 + payload.len()],
        })
    }
}

/// Equal lengths and bytes, in a time that doesn't depend on where they differ.
fn equal(mac: &[u8; MAC_LEN], signature: &[u8]) -> bool {
    let differing = mac.iter().zip(signature).fold(0, |bits, (a, b)| bits | (a ^ b));
    mac.len() == signature.len() && differing == 0
}

/// `bytes`, which fit, then zeros.
fn put(buffer: &mut [u8], bytes: &[u8]) {
    let (front, rest) = buffer.split_at_mut(bytes.len());
    front.copy_from_slice(bytes);
    rest.fill(0);
}
