//! base64url texts, strict and otherwise.

use reference::base64url;

use crate::bytes;
use crate::rng::Rng;

/// A text of up to about 100 bytes: strict (half of them), or damaged once or more.
pub fn text(rng: &mut Rng) -> Vec<u8> {
    let length = rng.below(100);
    let mut text = base64url::encode(&rng.bytes(length)).into_bytes();
    if rng.one_in(2) {
        damage(rng, &mut text);
    }
    text
}

/// Damages a strict text; it may come out strict, seldom.
pub fn damage(rng: &mut Rng, text: &mut Vec<u8>) {
    let at = rng.below(text.len() + 1);
    match rng.below(8) {
        0 => text.insert(at, rng.pick(b"=+/ \n\r\t.*\0\x80\xFF")),
        1 => text.push(b'='),
        2 => text.extend(rng.pick(&[&b"\n"[..], b"==", b" ", b"A", b"AA"])),
        3 => drop(text.pop()),
        4 => unused_bits(rng, text),
        5 => text.push(b'A'),
        6 => {
            if let Some(byte) = text.get_mut(at) {
                *byte = rng.byte();
            }
        }
        _ => bytes::mutate_some(rng, text),
    }
}

/// Changes the last character's low bits.
fn unused_bits(rng: &mut Rng, text: &mut [u8]) {
    const ALPHABET: &[u8] = b"ABCDEFGHIJKLMNOPQRSTUVWXYZabcdefghijklmnopqrstuvwxyz0123456789-_";
    if let Some(last) = text.last_mut() {
        if let Some(value) = ALPHABET.iter().position(|c| c == last) {
            *last = ALPHABET[value ^ rng.within(1..=3)];
        }
    }
}
