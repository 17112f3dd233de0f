//! Bytes as text and back: hexadecimal, strict base64url, a JSON string's escapes, and text that is safe on a terminal.

use std::fmt::Write;
use std::str::Chars;

/// The characters of base64url by their values (RFC 4648 section 5).
const ALPHABET: &[u8; 64] = b"ABCDEFGHIJKLMNOPQRSTUVWXYZabcdefghijklmnopqrstuvwxyz0123456789-_";

/// Where an encoded text is wrong, and how.
#[derive(Clone, Debug, PartialEq, Eq)]
pub struct Wrong {
    /// The place of the character, in bytes from 0; the text's length if something is missing at its end.
    pub at: usize,
    /// What is wrong, in words.
    pub says: String,
}

fn wrong<T>(at: usize, says: impl Into<String>) -> Result<T, Wrong> {
    Err(Wrong { at, says: says.into() })
}

/// The bytes of a strict base64url text: no padding, no white space, unused bits 0.
pub fn from_base64url(text: &[u8]) -> Result<Vec<u8>, Wrong> {
    let mut bytes = Vec::with_capacity(text.len() / 4 * 3 + 2);
    let (mut bits, mut held) = (0_u32, 0);
    for (at, &character) in text.iter().enumerate() {
        let Some(value) = ALPHABET.iter().position(|&known| known == character) else {
            return wrong(at, not_base64url(character));
        };
        bits = bits << 6 | value as u32;
        held += 6;
        if held >= 8 {
            held -= 8;
            bytes.push((bits >> held) as u8);
            bits &= (1 << held) - 1;
        }
    }
    if text.len() % 4 == 1 {
        return wrong(
            text.len(),
            "the last character stands alone: the length modulo 4 is 1, so characters are missing or too many",
        );
    }
    if bits != 0 {
        return wrong(text.len() - 1, "the unused low bits of the last character aren't 0");
    }
    Ok(bytes)
}

/// Says of a character that it isn't one of base64url's.
fn not_base64url(character: u8) -> String {
    let shown = safe(&[character]);
    match character {
        b'=' => "`=` isn't base64url: padding isn't allowed".into(),
        b'+' | b'/' => format!("`{shown}` isn't base64url: it has `-` and `_` in place of `+` and `/`"),
        b' ' | b'\t' | b'\r' | b'\n' => format!("white space ({character:02X} hexadecimal) isn't base64url"),
        _ => format!("`{shown}` isn't base64url (letters, digits, `-` and `_`)"),
    }
}

/// The strict base64url text of some bytes.
pub fn base64url(bytes: &[u8]) -> String {
    let mut text = String::with_capacity(bytes.len().div_ceil(3) * 4);
    for group in bytes.chunks(3) {
        let word = group.iter().fold(0, |word, &byte| word << 8 | usize::from(byte)) << (8 * (3 - group.len()));
        for place in 0..=group.len() {
            text.push(char::from(ALPHABET[word >> (18 - 6 * place) & 63]));
        }
    }
    text
}

/// The bytes of a token's first segment, its header.
pub fn header_segment(token: &[u8]) -> Result<Vec<u8>, Wrong> {
    let segment = token.split(|&byte| byte == b'.').next();
    from_base64url(segment.unwrap_or(&[]))
}

/// The text that the raw text of a JSON string stands for. `None` where an escape isn't one, a surrogate stands alone or the bytes
/// aren't UTF-8; what else may not stand in a string isn't looked at.
pub fn resolved(raw: &[u8]) -> Option<String> {
    let mut units: Vec<u16> = Vec::new();
    let mut rest = std::str::from_utf8(raw).ok()?.chars();
    while let Some(character) = rest.next() {
        if character == '\\' {
            units.push(escaped(&mut rest)?);
        } else {
            units.extend(&*character.encode_utf16(&mut [0; 2]));
        }
    }
    // The two escapes of a surrogate pair become one character.
    String::from_utf16(&units).ok()
}

/// What follows a backslash, as a unit of UTF-16.
fn escaped(rest: &mut Chars) -> Option<u16> {
    match rest.next()? {
        'b' => Some(0x08),
        'f' => Some(0x0C),
        'n' => Some(0x0A),
        'r' => Some(0x0D),
        't' => Some(0x09),
        'u' => {
            let digits = [(); 4].map(|()| rest.next().and_then(|digit| digit.to_digit(16)));
            digits
                .iter()
                .try_fold(0, |unit, digit| Some(unit << 4 | (*digit)? as u16))
        }
        same @ ('"' | '\\' | '/') => Some(same as u16),
        _ => None,
    }
}

/// The bytes of a hexadecimal text, two digits each, small or capital.
pub fn from_hex(text: &str) -> Result<Vec<u8>, Wrong> {
    let mut digits = Vec::with_capacity(text.len());
    for (at, character) in text.char_indices() {
        match character.to_digit(16) {
            Some(digit) => digits.push(digit as u8),
            None => {
                return wrong(
                    at,
                    format!("`{}` isn't a hexadecimal digit", safe(character.to_string().as_bytes())),
                )
            }
        }
    }
    if digits.len() % 2 == 1 {
        return wrong(text.len(), "a hexadecimal digit is missing: each byte has two");
    }
    Ok(digits.chunks(2).map(|pair| pair[0] << 4 | pair[1]).collect())
}

/// The hexadecimal text of some bytes.
pub fn hex(bytes: &[u8]) -> String {
    bytes.iter().fold(String::new(), |mut text, byte| {
        // Writing to a string can't fail.
        let _ = write!(text, "{byte:02x}");
        text
    })
}

/// Whether a character shows as itself on a terminal.
fn is_printable(character: char) -> bool {
    matches!(character, '"' | '\'' | '\\') || character.escape_debug().count() == 1
}

/// Bytes as text that is safe on a terminal: what isn't printable UTF-8 is written `\xNN`, byte by byte. Backslashes stay as they
/// are; raw JSON has no `\x`, so nothing is lost there.
pub fn safe(bytes: &[u8]) -> String {
    let mut text = String::new();
    for chunk in bytes.utf8_chunks() {
        for character in chunk.valid().chars() {
            if is_printable(character) {
                text.push(character);
            } else {
                escape(&mut text, character.to_string().as_bytes());
            }
        }
        escape(&mut text, chunk.invalid());
    }
    text
}

fn escape(text: &mut String, bytes: &[u8]) {
    for byte in bytes {
        let _ = write!(text, "\\x{byte:02X}");
    }
}

/// An id in the writing of a keys file: quoted text if it is printable UTF-8, otherwise `hex:`.
pub fn id(bytes: &[u8]) -> String {
    match std::str::from_utf8(bytes) {
        Ok(text) if text.chars().all(is_printable) => {
            format!("\"{}\"", text.replace('\\', "\\\\").replace('"', "\\\""))
        }
        _ => format!("hex:{}", hex(bytes)),
    }
}

/// A number with its noun: `1 key`, `2 keys`.
pub fn counted(count: usize, noun: &str) -> String {
    format!("{count} {noun}{}", if count == 1 { "" } else { "s" })
}

#[cfg(test)]
mod tests {
    use super::*;

    #[test]
    fn base64url_as_the_reference_has_it() {
        let (mut good, mut bad) = (0, 0);
        for text in case_generator::base64url_texts(51).take(20_000) {
            match (from_base64url(&text), reference::base64url::decode(&text)) {
                (Ok(bytes), Ok(expected)) => {
                    assert_eq!(bytes, expected);
                    assert_eq!(base64url(&bytes).as_bytes(), text);
                    good += 1;
                }
                (Err(wrong), Err(_)) => {
                    assert!(wrong.at <= text.len() && !wrong.says.is_empty());
                    bad += 1;
                }
                (given, expected) => panic!("{text:?}: {given:?}, {expected:?}"),
            }
        }
        assert!(good > 1_000 && bad > 1_000, "{good} {bad}");
    }

    #[test]
    fn strings_of_headers_as_the_reference_has_them() {
        let (mut plain, mut with_escapes) = (0, 0);
        for header in case_generator::headers(53).take(5_000) {
            for member in reference::json::read(&header).unwrap_or_default() {
                let mut strings = vec![(member.name_place, &*member.name)];
                if let reference::json::Value::String(text) = &member.value {
                    strings.push((member.value_place, text));
                }
                for (place, text) in strings {
                    let raw = &header[place.start..place.end];
                    assert_eq!(resolved(raw).as_deref(), Some(text), "{raw:?}");
                    *(if raw == text.as_bytes() {
                        &mut plain
                    } else {
                        &mut with_escapes
                    }) += 1;
                }
            }
        }
        assert!(plain > 1_000 && with_escapes > 1_000, "{plain} {with_escapes}");
    }

    #[test]
    fn resolved_escapes() {
        for (raw, text) in [
            ("", ""),
            ("k\\u0069d", "kid"),
            ("\\u006b\\u006B", "kk"),
            ("\\\"\\\\\\/\\b\\f\\n\\r\\t", "\"\\/\u{8}\u{C}\n\r\t"),
            ("\\uD834\\uDD1Eé", "\u{1D11E}é"),
            ("\\u00e9\\ud834\\uDd1e", "é\u{1D11E}"),
        ] {
            assert_eq!(resolved(raw.as_bytes()).as_deref(), Some(text), "{raw}");
        }
        for raw in [
            "\\",
            "\\x",
            "\\u",
            "\\u006",
            "\\u+069",
            "\\u00g9",
            "\\U00E9",
            "\\u00 9",
            "\\uD834",
            "\\uDD1E\\uD834",
        ] {
            assert_eq!(resolved(raw.as_bytes()), None, "{raw}");
        }
        assert_eq!(resolved(b"k\xFF"), None);
    }

    #[test]
    fn hexadecimal() {
        assert_eq!(from_hex("00fFA1"), Ok(vec![0, 255, 0xA1]));
        assert_eq!(hex(&[0, 255, 0xA1]), "00ffa1");
        assert_eq!(from_hex("0g").unwrap_err().at, 1);
        assert_eq!(from_hex("000").unwrap_err().at, 3);
        assert_eq!(from_hex(""), Ok(vec![]));
    }

    #[test]
    fn safe_text() {
        assert_eq!(
            safe("a\"\\é\n\u{1b}[0m\u{202e}".as_bytes()),
            "a\"\\é\\x0A\\x1B[0m\\xE2\\x80\\xAE"
        );
        assert_eq!(safe(b"\xFFa\xC3"), "\\xFFa\\xC3");
        assert_eq!(id(b"a\"\\'"), "\"a\\\"\\\\'\"");
        assert_eq!(id("é".as_bytes()), "\"é\"");
        assert_eq!(id(b"a\n"), "hex:610a");
        assert_eq!(id(b"\xFF"), "hex:ff");
    }
}
