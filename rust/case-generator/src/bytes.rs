//! Random bytes, and mutations of bytes.

use crate::rng::Rng;

/// Lengths around the edges of SHA-256's blocks and padding.
const EDGES: [usize; 12] = [0, 1, 32, 54, 55, 56, 63, 64, 65, 119, 120, 128];

/// Random bytes, up to 400.
pub fn message(rng: &mut Rng) -> Vec<u8> {
    let length = if rng.one_in(3) {
        rng.pick(&EDGES)
    } else {
        rng.below(401)
    };
    rng.bytes(length)
}

/// Bytes that matter somewhere: to JSON, to base64url, to UTF-8, to a table's numbers.
const INTERESTING: &[u8] = b"\"\\{}[]:,. \t\r\n\x00\x01\x07\x08\x0C\x1F\x20\x7F\x80\xBF\xC0\xC2\xE0\xED\xEF\xF0\xF4\xF5\xFF-+0123456789eEuAaFfGgtn=_/";

fn byte(rng: &mut Rng) -> u8 {
    if rng.one_in(3) {
        rng.byte()
    } else {
        rng.pick(INTERESTING)
    }
}

/// Puts a part in at a place.
pub fn insert(bytes: &mut Vec<u8>, at: usize, part: &[u8]) {
    bytes.splice(at..at, part.iter().copied()).for_each(drop);
}

/// Changes some bytes once: a bit flipped, a byte replaced, put in or taken out, the end cut off, two bytes swapped, or
/// a part repeated, taken out or moved over another.
pub fn mutate(rng: &mut Rng, bytes: &mut Vec<u8>) {
    if bytes.is_empty() {
        bytes.push(byte(rng));
        return;
    }
    let at = rng.below(bytes.len());
    let other = rng.below(bytes.len());
    let part = at..(at + rng.within(1..=8)).min(bytes.len());
    match rng.below(10) {
        0 | 1 => bytes[at] ^= 1 << rng.below(8),
        2 => bytes[at] = byte(rng),
        3 | 4 => bytes.insert(at, byte(rng)),
        5 => drop(bytes.remove(at)),
        6 => bytes.truncate(at),
        7 => bytes.swap(at, other),
        8 => drop(bytes.drain(part)),
        _ => {
            let copy = bytes[part].to_vec();
            let replaced = if rng.one_in(2) { 0 } else { copy.len() };
            let end = (other + replaced).min(bytes.len());
            bytes.splice(other..end, copy);
        }
    }
}

/// Changes some bytes one to three times.
pub fn mutate_some(rng: &mut Rng, bytes: &mut Vec<u8>) {
    for _ in 0..rng.within(1..=3) {
        mutate(rng, bytes);
    }
}
