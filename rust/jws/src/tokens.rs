//! Verifying and signing compact tokens.

use core::ops::Range;

use crate::ffi::{self, RECORD_WORDS};
use crate::words::{places, size, word};
use crate::{Refusal, Refused};

/// No token has more bytes: a buffer of this length is long enough for any that is signed.
pub const TOKEN_MAX: usize = 32_768;
/// No header has more bytes: a buffer of this length is long enough for that of any token.
pub const HEADER_MAX: usize = 4_096;
/// No payload of a token has more bytes: a buffer of this length is long enough for any.
pub const PAYLOAD_MAX: usize = TOKEN_MAX / 4 * 3;

/// What an accepted token had.
#[derive(Clone, Debug, PartialEq, Eq, Hash)]
#[non_exhaustive]
pub struct Record {
    /// Bytes of the decoded header.
    pub header_length: usize,
    /// Bytes of the payload.
    pub payload_length: usize,
    /// The key's index in the table, from 0.
    pub key_index: usize,
    /// Whether the header has `kid`: always so, since no other token is accepted.
    pub kid_present: bool,
    /// The format, 1 to 8.
    pub format: u8,
    /// The raw text of `typ` in the decoded header, between its quotation marks.
    pub typ: Option<Range<usize>>,
    /// The raw text of `cty`, likewise.
    pub cty: Option<Range<usize>>,
}

impl Record {
    fn of([header, payload, key, kid, format, typ, typ_length, cty, cty_length]: [u64; RECORD_WORDS]) -> Self {
        Record {
            header_length: size(header),
            payload_length: size(payload),
            key_index: size(key),
            kid_present: kid == 1,
            format: u8::try_from(format).unwrap_or(u8::MAX),
            typ: text(typ, typ_length),
            cty: text(cty, cty_length),
        }
    }

    /// The words that it is made of.
    fn words(&self) -> [u64; RECORD_WORDS] {
        let [typ, typ_length] = text_words(&self.typ);
        let [cty, cty_length] = text_words(&self.cty);
        [
            word(self.header_length),
            word(self.payload_length),
            word(self.key_index),
            u64::from(self.kid_present),
            u64::from(self.format),
            typ,
            typ_length,
            cty,
            cty_length,
        ]
    }

    /// The payload of an accepted token, as a part of the buffer that [`verify`] wrote. Empty if the payload's length doesn't fit.
    ///
    /// ```
    /// # use jws::{HEADER_MAX, PAYLOAD_MAX};
    /// # let table = include_bytes!(concat!(env!("CARGO_MANIFEST_DIR"), "/../../crates/verify_token/data/table.bin"));
    /// # let token = include_bytes!(concat!(env!("CARGO_MANIFEST_DIR"), "/../../crates/verify_token/data/token.txt"));
    /// # let (mut header, mut buffer) = ([0; HEADER_MAX], [0; PAYLOAD_MAX]);
    /// let record = jws::verify(token, table, &mut header, &mut buffer)?;
    /// assert_eq!(record.payload(&buffer).len(), 70);
    /// assert_eq!(record.payload(&buffer[..69]), b"");
    /// # Ok::<(), jws::Refusal>(())
    /// ```
    pub fn payload<'b>(&self, buffer: &'b [u8]) -> &'b [u8] {
        // SAFETY: the words are this function's own, and no byte of the buffer is lent.
        let length = unsafe { ffi::jws_payload(&self.words(), word(buffer.len())) };
        buffer.get(..size(length)).unwrap_or(&[])
    }
}

/// Where a text lies. A start is 0 only where the member is absent: a text begins after a brace and a quotation mark.
fn text(start: u64, length: u64) -> Option<Range<usize>> {
    (start != 0).then(|| places(start, start.saturating_add(length)))
}

/// Where a text lies, as its start and its length; 0 and 0 for none.
fn text_words(text: &Option<Range<usize>>) -> [u64; 2] {
    text.as_ref()
        .map_or([0; 2], |text| [word(text.start), word(text.len())])
}

/// What the archive's answer and words say of a token.
fn verified(answer: u8, words: [u64; RECORD_WORDS]) -> Result<Record, Refused> {
    Refused::check(answer)?;
    Ok(Record::of(words))
}

/// What the archive's answer and word say of a signed token.
fn signed(answer: u8, length: u64) -> Result<usize, Refusal> {
    Refusal::check(answer)?;
    Ok(size(length))
}

/// Verifies a compact token against a key table.
///
/// If the token is accepted, `header` holds the decoded header and `payload` the payload, each followed by zeros. If it is
/// refused, both are all zeros. [`HEADER_MAX`] bytes always suffice for the header, and [`PAYLOAD_MAX`] or 3/4 of the token's
/// length for the payload.
///
/// The refusal is the first of [`Refusal::TokenTooLong`] to [`Refusal::SignatureDiffers`], in the order of their numbers.
///
/// The payload of RFC 7515 A.1 under a header that names its key, with this key in the table:
///
/// ```
/// use jws::{Refusal, HEADER_MAX, PAYLOAD_MAX};
///
/// # let table = include_bytes!(concat!(env!("CARGO_MANIFEST_DIR"), "/../../crates/verify_token/data/table.bin"));
/// # let token = include_bytes!(concat!(env!("CARGO_MANIFEST_DIR"), "/../../crates/verify_token/data/token.txt"));
/// let mut header = [0; HEADER_MAX];
/// let mut buffer = [0; PAYLOAD_MAX];
/// let record = jws::verify(token, table, &mut header, &mut buffer)?;
/// assert_eq!((record.key_index, record.format), (0, 1));
/// assert_eq!(header[record.typ.clone().unwrap()], *b"JWT");
/// assert!(record.payload(&buffer).starts_with(br#"{"iss":"joe","#));
///
/// let refused = jws::verify(&token[..202], table, &mut header, &mut buffer).unwrap_err();
/// assert_eq!(refused.refusal, Refusal::NotBase64url);
/// assert_eq!((header, buffer), ([0; HEADER_MAX], [0; PAYLOAD_MAX]));
/// # Ok::<(), Refusal>(())
/// ```
pub fn verify(token: &[u8], table: &[u8], header: &mut [u8], payload: &mut [u8]) -> Result<Record, Refused> {
    let mut words = [0; RECORD_WORDS];
    // SAFETY: each pointer goes with the length of its own slice; the slices that are written are lent exclusively, and
    // `words` is this function's own.
    let answer = unsafe {
        ffi::jws_verify(
            token.as_ptr(),
            word(token.len()),
            table.as_ptr(),
            word(table.len()),
            header.as_mut_ptr(),
            word(header.len()),
            payload.as_mut_ptr(),
            word(payload.len()),
            &mut words,
        )
    };
    verified(answer, words)
}

/// The payload of an accepted token: [`Record::payload`].
pub fn payload<'b>(record: &Record, buffer: &'b [u8]) -> &'b [u8] {
    record.payload(buffer)
}

/// Signs a header and a payload by the key of the table that the header's `kid` names, and returns the token's length.
///
/// If it is signed, `token` holds the token and then zeros. If it is refused, `token` is all zeros. [`TOKEN_MAX`] bytes always
/// suffice.
///
/// The refusal is the first of: [`Refusal::BadTable`], [`Refusal::HeaderTooLong`], [`Refusal::NotDerived`] to
/// [`Refusal::FormatNotAllowed`], [`Refusal::TokenTooLong`], [`Refusal::BufferTooShort`].
///
/// ```
/// use jws::{Refusal, TOKEN_MAX};
///
/// # let table = include_bytes!(concat!(env!("CARGO_MANIFEST_DIR"), "/../../crates/verify_token/data/table.bin"));
/// let mut buffer = [0; TOKEN_MAX];
/// let header = br#"{"alg":"HS256","kid":"RFC 7515 A.1"}"#;
/// let length = jws::sign(header, b"setpoint 21.5", table, &mut buffer)?;
/// assert!(buffer[..length].starts_with(b"eyJhbGciOiJIUzI1NiIsImtpZCI6IlJGQyA3NTE1IEEuMSJ9.c2V0cG9pbnQgMjEuNQ."));
///
/// let refused = jws::sign(br#"{"alg":"HS256"}"#, b"setpoint 21.5", table, &mut buffer);
/// assert_eq!(refused, Err(Refusal::NoKey));
/// assert_eq!(buffer, [0; TOKEN_MAX]);
/// # Ok::<(), Refusal>(())
/// ```
pub fn sign(header: &[u8], payload: &[u8], table: &[u8], token: &mut [u8]) -> Result<usize, Refusal> {
    let mut length = 0;
    // SAFETY: each pointer goes with the length of its own slice; the slice that is written is lent exclusively, and
    // `length` is a word of this function's own.
    let answer = unsafe {
        ffi::jws_sign(
            header.as_ptr(),
            word(header.len()),
            payload.as_ptr(),
            word(payload.len()),
            table.as_ptr(),
            word(table.len()),
            token.as_mut_ptr(),
            word(token.len()),
            &mut length,
        )
    };
    signed(answer, length)
}

#[cfg(test)]
mod tests {
    use super::*;
    use crate::refusal::tests::in_order;

    const LEAST: [u64; RECORD_WORDS] = [0; RECORD_WORDS];
    const GREATEST: [u64; RECORD_WORDS] = [u64::MAX; RECORD_WORDS];
    const GOOD: [u64; RECORD_WORDS] = [30, 70, 2, 1, 8, 8, 3, 20, 0];

    #[test]
    fn every_answer() {
        for number in 1..=u8::MAX {
            let refusal = in_order(number);
            for words in [LEAST, GREATEST, GOOD] {
                assert_eq!(verified(number, words), Err(Refused { refusal }));
            }
            for length in [0, u64::MAX, 179] {
                assert_eq!(signed(number, length), Err(refusal));
            }
        }
    }

    #[test]
    fn every_word() {
        let record = verified(0, GOOD).unwrap();
        let good = Record {
            header_length: 30,
            payload_length: 70,
            key_index: 2,
            kid_present: true,
            format: 8,
            typ: Some(8..11),
            cty: Some(20..20),
        };
        assert_eq!(record, good);
        assert_eq!(record.words(), GOOD);
        let least = verified(0, LEAST).unwrap();
        assert_eq!((&least.typ, &least.cty, least.words()), (&None, &None, LEAST));
        let greatest = verified(0, GREATEST).unwrap();
        assert_eq!((greatest.format, greatest.kid_present), (u8::MAX, false));
        assert_eq!(greatest.typ, Some(usize::MAX..usize::MAX));
        assert_eq!(signed(0, 179), Ok(179));
        assert_eq!(signed(0, u64::MAX), Ok(usize::MAX));
    }

    #[test]
    fn payloads_of_every_record() {
        let buffer = [7; 70];
        let part = |words, room: usize| verified(0, words).unwrap().payload(&buffer[..room]).len();
        assert_eq!([part(GOOD, 70), part(GOOD, 69), part(GOOD, 0)], [70, 0, 0]);
        assert_eq!([part(LEAST, 70), part(LEAST, 0)], [0, 0]);
        assert_eq!([part(GREATEST, 70), part(GREATEST, 0)], [0, 0]);
        let backwards = Record {
            typ: Some(Range { start: 9, end: 3 }),
            ..verified(0, GOOD).unwrap()
        };
        assert_eq!(payload(&backwards, &buffer).len(), 70);
    }
}
