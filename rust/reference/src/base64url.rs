//! Strict base64url without padding: RFC 4648 section 5, with section 3.5 (unused bits) taken strictly.

/// RFC 4648 section 5, table 2.
const ALPHABET: &[u8; 64] = b"ABCDEFGHIJKLMNOPQRSTUVWXYZabcdefghijklmnopqrstuvwxyz0123456789-_";

/// Marks a byte outside the alphabet; every value of the alphabet is below 64.
const OUTSIDE: u8 = 0xFF;

/// The value of each byte, or [`OUTSIDE`].
const VALUES: [u8; 256] = values();

const fn values() -> [u8; 256] {
    let mut table = [OUTSIDE; 256];
    let mut value = 0;
    while value < ALPHABET.len() {
        table[ALPHABET[value] as usize] = value as u8;
        value += 1;
    }
    table
}

/// A text that is not strict base64url, and where: the first byte outside the alphabet; failing that, the text's
/// length if that is 1 modulo 4; failing that, the last character, whose unused bits are not 0.
#[derive(Clone, Copy, Debug, PartialEq, Eq)]
pub struct Fault {
    /// Place in the text, from 0.
    pub place: usize,
}

/// Why [`decode_into`] wrote nothing that counts.
#[derive(Clone, Copy, Debug, PartialEq, Eq)]
pub enum DecodeError {
    /// The text is not strict base64url.
    Fault(Fault),
    /// The buffer is shorter than [`decoded_len`]; judged first, by the lengths alone.
    BufferTooShort,
}

/// The buffer of [`encode_into`] is shorter than [`encoded_len`].
#[derive(Clone, Copy, Debug, PartialEq, Eq)]
pub struct BufferTooShort;

/// Characters that `bytes` bytes take. No slice is longer than `isize::MAX`, so the sum does not overflow for the
/// length of one; it saturates for greater numbers.
pub const fn encoded_len(bytes: usize) -> usize {
    let whole = (bytes / 3).saturating_mul(4);
    match bytes % 3 {
        0 => whole,
        1 => whole.saturating_add(2),
        _ => whole.saturating_add(3),
    }
}

/// Bytes that a strict text of `characters` characters stands for.
pub const fn decoded_len(characters: usize) -> usize {
    characters / 4 * 3
        + match characters % 4 {
            0 | 1 => 0,
            2 => 1,
            _ => 2,
        }
}

/// The bytes that a strict text stands for.
pub fn decode(text: &[u8]) -> Result<Vec<u8>, Fault> {
    let mut bytes = vec![0; decoded_len(text.len())];
    decode_exact(text, &mut bytes)?;
    Ok(bytes)
}

/// Writes the bytes that a strict text stands for to the front of `bytes` and returns their number. After an error the
/// front of `bytes` may have been written.
pub fn decode_into(text: &[u8], bytes: &mut [u8]) -> Result<usize, DecodeError> {
    let length = decoded_len(text.len());
    let front = bytes.get_mut(..length).ok_or(DecodeError::BufferTooShort)?;
    decode_exact(text, front).map_err(DecodeError::Fault)?;
    Ok(length)
}

/// `bytes` has exactly `decoded_len(text.len())` bytes.
fn decode_exact(text: &[u8], bytes: &mut [u8]) -> Result<(), Fault> {
    let mut quads = text.chunks_exact(4);
    let mut triples = bytes.chunks_exact_mut(3);
    for (quad, triple) in quads.by_ref().zip(triples.by_ref()) {
        let [a, b, c, d] = [0, 1, 2, 3].map(|i| VALUES[quad[i] as usize]);
        if (a | b | c | d) & 0x80 != 0 {
            return Err(first_outside(text));
        }
        triple[0] = a << 2 | b >> 4;
        triple[1] = b << 4 | c >> 2;
        triple[2] = c << 6 | d;
    }
    decode_last(text, quads.remainder(), triples.into_remainder())
}

/// The last group, of fewer than four characters.
fn decode_last(text: &[u8], rest: &[u8], bytes: &mut [u8]) -> Result<(), Fault> {
    if rest.iter().any(|&c| VALUES[c as usize] == OUTSIDE) {
        return Err(first_outside(text));
    }
    let value = |i: usize| VALUES[rest[i] as usize];
    let unused_bits = match rest.len() {
        0 => 0,
        1 => return Err(Fault { place: text.len() }),
        2 => {
            bytes[0] = value(0) << 2 | value(1) >> 4;
            value(1) & 0x0F
        }
        _ => {
            bytes[0] = value(0) << 2 | value(1) >> 4;
            bytes[1] = value(1) << 4 | value(2) >> 2;
            value(2) & 0x03
        }
    };
    if unused_bits != 0 {
        return Err(Fault { place: text.len() - 1 });
    }
    Ok(())
}

/// The fault of a text that has a byte outside the alphabet.
fn first_outside(text: &[u8]) -> Fault {
    let outside = |&c: &u8| VALUES[c as usize] == OUTSIDE;
    Fault {
        place: text.iter().position(outside).unwrap_or(text.len()),
    }
}

/// The text of some bytes.
pub fn encode(bytes: &[u8]) -> String {
    let mut text = vec![0; encoded_len(bytes.len())];
    encode_exact(bytes, &mut text);
    String::from_utf8(text).expect("the alphabet is ASCII")
}

/// Writes the text of `bytes` to the front of `text` and returns its length; writes nothing if it doesn't fit.
pub fn encode_into(bytes: &[u8], text: &mut [u8]) -> Result<usize, BufferTooShort> {
    let length = encoded_len(bytes.len());
    let front = text.get_mut(..length).ok_or(BufferTooShort)?;
    encode_exact(bytes, front);
    Ok(length)
}

/// `text` has exactly `encoded_len(bytes.len())` bytes.
fn encode_exact(bytes: &[u8], text: &mut [u8]) {
    let character = |value: u8| ALPHABET[(value & 0x3F) as usize];
    let mut triples = bytes.chunks_exact(3);
    let mut quads = text.chunks_exact_mut(4);
    for (triple, quad) in triples.by_ref().zip(quads.by_ref()) {
        let [a, b, c] = [0, 1, 2].map(|i| triple[i]);
        quad[0] = character(a >> 2);
        quad[1] = character(a << 4 | b >> 4);
        quad[2] = character(b << 2 | c >> 6);
        quad[3] = character(c);
    }
    let rest = quads.into_remainder();
    match *triples.remainder() {
        [a] => {
            rest[0] = character(a >> 2);
            rest[1] = character(a << 4);
        }
        [a, b] => {
            rest[0] = character(a >> 2);
            rest[1] = character(a << 4 | b >> 4);
            rest[2] = character(b << 2);
        }
        _ => {}
    }
}

#[cfg(test)]
mod tests {
    use super::*;

    fn place(text: &[u8]) -> usize {
        decode(text).expect_err("not strict").place
    }

    #[test]
    fn round_trip_at_every_length() {
        let bytes: Vec<u8> = (0..=255).cycle().take(1_000).collect();
        for length in 0..bytes.len() {
            let text = encode(&bytes[..length]);
            assert_eq!(text.len(), encoded_len(length));
            assert_eq!(decoded_len(text.len()), length);
            assert_eq!(decode(text.as_bytes()).as_deref(), Ok(&bytes[..length]));
        }
    }

    #[test]
    fn exactly_the_alphabet() {
        for c in 0..=255u8 {
            let inside = c.is_ascii_alphanumeric() || c == b'-' || c == b'_';
            assert_eq!(decode(&[c, c, c, c]).is_ok(), inside, "{c}");
        }
    }

    #[test]
    fn every_group_of_two_and_three() {
        for (i, &a) in ALPHABET.iter().enumerate() {
            for (j, &b) in ALPHABET.iter().enumerate() {
                let two = decode(&[a, b]);
                if j % 16 == 0 {
                    assert_eq!(two, Ok(vec![(i << 2 | j >> 4) as u8]));
                } else {
                    assert_eq!(two, Err(Fault { place: 1 }));
                }
                let three = decode(&[b'A', a, b]);
                if j % 4 == 0 {
                    let bits = i << 6 | j;
                    assert_eq!(three, Ok(vec![(bits >> 10) as u8, (bits >> 2) as u8]));
                } else {
                    assert_eq!(three, Err(Fault { place: 2 }));
                }
            }
        }
    }

    #[test]
    fn places_of_faults() {
        assert_eq!(place(b"A"), 1);
        assert_eq!(place(b"AAAAA"), 5);
        assert_eq!(place(b"AAAA="), 4);
        assert_eq!(place(b"AA=="), 2);
        assert_eq!(place(b"A A="), 1);
        assert_eq!(place(b"AAA AAA="), 3);
        assert_eq!(place(b"AAAAAA\n"), 6);
        assert_eq!(place(b"AAAAAB"), 5);
        assert_eq!(place(b"AAAAAAB"), 6);
        assert_eq!(place(b"+AAB"), 0);
        assert_eq!(place(b"A/"), 1);
        // The byte outside stands before the unused bits and the length.
        assert_eq!(place(b"*B"), 0);
        assert_eq!(place(b"AAA*A"), 3);
    }

    #[test]
    fn decode_into_buffers() {
        let mut bytes = [7; 5];
        assert_eq!(decode_into(b"JC4wMg", &mut bytes), Ok(4));
        assert_eq!(bytes, [36, 46, 48, 50, 7]);
        assert_eq!(
            decode_into(b"JC4wMg", &mut bytes[..3]),
            Err(DecodeError::BufferTooShort)
        );
        assert_eq!(
            decode_into(b"JC4wMh", &mut bytes),
            Err(DecodeError::Fault(Fault { place: 5 }))
        );
        assert_eq!(decode_into(b"", &mut []), Ok(0));
    }

    #[test]
    fn encode_into_buffers() {
        let mut text = [b'!'; 7];
        assert_eq!(encode_into(&[36, 46, 48, 50], &mut text), Ok(6));
        assert_eq!(&text, b"JC4wMg!");
        assert_eq!(encode_into(&[36, 46, 48, 50], &mut text[..5]), Err(BufferTooShort));
    }
}
