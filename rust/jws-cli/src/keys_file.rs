//! The keys file: one key a line, in words, from which a table is built.
//!
//! ```text
//! # a comment
//! id "cellar 2" secret base64url:AyM1... algorithms HS256 formats 1,2
//! ```

use std::fmt;

use crate::encoding::{self, Wrong};
use crate::table::{Key, HS256, ID, KEYS_MAX, SECRET};

/// A mistake in a keys file.
#[derive(Clone, Debug, PartialEq, Eq)]
pub struct Mistake {
    /// The line, from 1.
    pub line: usize,
    /// The character in the line, from 1.
    pub column: usize,
    /// What is wrong or what was expected.
    pub says: String,
}

impl fmt::Display for Mistake {
    fn fmt(&self, f: &mut fmt::Formatter<'_>) -> fmt::Result {
        write!(f, "line {}, column {}: {}", self.line, self.column, self.says)
    }
}

/// A key, its line, and the column of its id.
struct Found {
    key: Key,
    line: usize,
    column: usize,
}

/// The keys of a keys file in order, or all its mistakes: at most one for each line, in the order of the lines.
pub fn read(bytes: &[u8]) -> Result<Vec<Key>, Vec<Mistake>> {
    let text = std::str::from_utf8(bytes).map_err(|error| vec![not_utf8(bytes, error.valid_up_to())])?;
    let mut found: Vec<Found> = Vec::new();
    let mut mistakes = Vec::new();
    for (line, text) in (1..).zip(text.strip_prefix('\u{FEFF}').unwrap_or(text).lines()) {
        match one_line(text) {
            Ok(None) => {}
            Ok(Some((key, column))) => {
                let new = Found { key, line, column };
                mistakes.extend(clash(&found, &new));
                found.push(new);
            }
            Err((at, says)) => mistakes.push(Mistake {
                line,
                column: column(text, at),
                says,
            }),
        }
    }
    if mistakes.is_empty() {
        Ok(found.into_iter().map(|found| found.key).collect())
    } else {
        Err(mistakes)
    }
}

fn not_utf8(bytes: &[u8], at: usize) -> Mistake {
    let before = String::from_utf8_lossy(&bytes[..at]);
    let line = before.matches('\n').count() + 1;
    let last = before.rsplit('\n').next().unwrap_or("");
    Mistake {
        line,
        column: column(last, last.len()),
        // The byte isn't shown: it may be a secret's, also if this file is a table by mistake.
        says: "this byte isn't UTF-8; in quoted text it is written \\xNN".into(),
    }
}

/// The column of a place in a line.
fn column(line: &str, at: usize) -> usize {
    line[..at].chars().count() + 1
}

/// What is wrong with a key beside the earlier ones.
fn clash(earlier: &[Found], new: &Found) -> Option<Mistake> {
    let mistake = |says| {
        Some(Mistake {
            line: new.line,
            column: new.column,
            says,
        })
    };
    if let Some(same) = earlier.iter().find(|found| found.key.id == new.key.id) {
        return mistake(format!(
            "the id {} is also in line {}",
            encoding::id(&new.key.id),
            same.line
        ));
    }
    if earlier.len() == KEYS_MAX {
        return mistake(format!(
            "this is key {} of the file, and a table has at most {KEYS_MAX}",
            KEYS_MAX + 1
        ));
    }
    None
}

/// A mistake's place in its line, in bytes, and what it is.
type Slip = (usize, String);

/// The key of a line and the column of its id; `None` for a line with no key.
fn one_line(text: &str) -> Result<Option<(Key, usize)>, Slip> {
    let mut line = Line { text, at: 0 };
    if line.at_end() {
        return Ok(None);
    }
    let (id, id_at) = line.area("id", ID)?;
    let (secret, _) = line.area("secret", SECRET)?;
    let algorithms = line.bits("algorithms", algorithm)?;
    let formats = line.bits("formats", formats)?;
    if !line.at_end() {
        return Err((
            line.at,
            "expected the end of the line, or a comment that begins with #".into(),
        ));
    }
    let key = Key {
        id,
        secret,
        algorithms,
        formats,
    };
    Ok(Some((key, column(text, id_at))))
}

/// A line and how far it is read.
struct Line<'t> {
    text: &'t str,
    at: usize,
}

impl<'t> Line<'t> {
    fn rest(&self) -> &'t str {
        &self.text[self.at..]
    }

    fn skip_space(&mut self) {
        let rest = self.rest();
        self.at += rest.len() - rest.trim_start_matches([' ', '\t', '\r']).len();
    }

    /// Whether nothing but white space and a comment is left.
    fn at_end(&mut self) -> bool {
        self.skip_space();
        self.rest().is_empty() || self.rest().starts_with('#')
    }

    /// Takes what comes before the next white space.
    fn word(&mut self) -> &'t str {
        let rest = self.rest();
        let word = &rest[..rest.find([' ', '\t', '\r']).unwrap_or(rest.len())];
        self.at += word.len();
        word
    }

    fn take(&mut self, prefix: &str) -> bool {
        let there = self.rest().starts_with(prefix);
        self.at += if there { prefix.len() } else { 0 };
        there
    }

    /// Takes the name of a field, and stands before its value.
    fn field(&mut self, name: &str) -> Result<(), Slip> {
        let ended = self.at_end();
        let at = self.at;
        if ended || self.word() != name {
            return Err((
                at,
                format!("expected `{name}`; a key is: id .. secret .. algorithms .. formats .."),
            ));
        }
        if self.at_end() {
            return Err((self.at, format!("expected the value of `{name}`")));
        }
        Ok(())
    }

    /// A field whose value is bytes, and the place of the value.
    fn area(&mut self, name: &str, [min, max]: [usize; 2]) -> Result<(Vec<u8>, usize), Slip> {
        self.field(name)?;
        let at = self.at;
        let bytes = self.value()?;
        if !(min..=max).contains(&bytes.len()) {
            return Err((
                at,
                format!(
                    "expected {min} to {max} bytes for `{name}`, and there are {}",
                    bytes.len()
                ),
            ));
        }
        Ok((bytes, at))
    }

    /// Bytes: `"text"`, `text:"text"`, `hex:..` or `base64url:..`.
    fn value(&mut self) -> Result<Vec<u8>, Slip> {
        if self.take("hex:") {
            return self.encoded(encoding::from_hex);
        }
        if self.take("base64url:") {
            return self.encoded(|word| encoding::from_base64url(word.as_bytes()));
        }
        let prefixed = self.take("text:");
        if self.take("\"") {
            return self.quoted();
        }
        let forms = if prefixed {
            "a quotation mark"
        } else {
            "\"text\", text:\"text\", hex:.. or base64url:.."
        };
        Err((self.at, format!("expected {forms}")))
    }

    fn encoded(&mut self, decode: impl Fn(&str) -> Result<Vec<u8>, Wrong>) -> Result<Vec<u8>, Slip> {
        let at = self.at;
        decode(self.word()).map_err(|wrong| (boundary(self.text, at + wrong.at), wrong.says))
    }

    /// Text up to its closing quotation mark, and white space or the line's end after that.
    fn quoted(&mut self) -> Result<Vec<u8>, Slip> {
        let mut bytes = Vec::new();
        loop {
            let at = self.at;
            let Some(character) = self.rest().chars().next() else {
                return Err((at, "expected the closing quotation mark".into()));
            };
            self.at += character.len_utf8();
            match character {
                '"' => break,
                '\\' => bytes.push(self.escape(at)?),
                _ if character.is_control() => {
                    return Err((at, "a control character in quoted text is written \\xNN".into()));
                }
                _ => bytes.extend(character.to_string().as_bytes()),
            }
        }
        match self.rest().chars().next() {
            None | Some(' ' | '\t' | '\r') => Ok(bytes),
            _ => Err((
                self.at,
                "expected white space after the closing quotation mark; inside of text it is written \\\"".into(),
            )),
        }
    }

    /// What follows a backslash at `at`.
    fn escape(&mut self, at: usize) -> Result<u8, Slip> {
        let digits = self.rest().strip_prefix('x').and_then(|rest| rest.get(..2));
        if let Some(byte) = digits.and_then(|digits| encoding::from_hex(digits).ok()) {
            self.at += 3;
            return Ok(byte[0]);
        }
        for (name, byte) in [("\\", b'\\'), ("\"", b'"')] {
            if self.take(name) {
                return Ok(byte);
            }
        }
        Err((at, "expected \\xNN (two hexadecimal digits), \\\\ or \\\"".into()))
    }

    /// A field whose value is a list without white space, as bits; `none` for none.
    fn bits(&mut self, name: &str, item: fn(&str) -> Result<u8, String>) -> Result<u8, Slip> {
        self.field(name)?;
        let mut at = self.at;
        let word = self.word();
        let mut bits = 0;
        if word == "none" {
            return Ok(bits);
        }
        for part in word.split(',') {
            let more = item(part).map_err(|says| (at, says))?;
            if bits & more != 0 {
                return Err((at, format!("{} is in the list twice", short(part))));
            }
            bits |= more;
            at += part.len() + 1;
        }
        Ok(bits)
    }
}

/// The last place of a character that isn't after `at`.
fn boundary(text: &str, at: usize) -> usize {
    (0..=at).rev().find(|&at| text.is_char_boundary(at)).unwrap_or(0)
}

/// A word for a message; a long one isn't shown, as it might be a secret.
fn short(word: &str) -> String {
    if word.len() <= 12 {
        format!("`{}`", encoding::safe(word.as_bytes()))
    } else {
        "this".into()
    }
}

/// The bit of an algorithm.
fn algorithm(word: &str) -> Result<u8, String> {
    match word {
        "HS256" => Ok(HS256),
        "" => Err("expected an algorithm; a list has commas and no white space".into()),
        _ => Err(format!(
            "{} isn't an algorithm that is known: expected HS256 or none",
            short(word)
        )),
    }
}

/// The bits of a format or of a range of formats.
fn formats(word: &str) -> Result<u8, String> {
    let expected = "expected formats from 1 to 8 such as 1,2 or 1-4, or none";
    if word.is_empty() {
        return Err(format!("{expected}; a list has commas and no white space"));
    }
    let (first, last) = word.split_once('-').unwrap_or((word, word));
    let format = |digits: &str| match digits.as_bytes() {
        [digit @ b'1'..=b'8'] => Some(digit - b'0'),
        _ => None,
    };
    match (format(first), format(last)) {
        (Some(first), Some(last)) if first <= last => {
            Ok((first..=last).fold(0, |bits, format| bits | 1 << (format - 1)))
        }
        _ => Err(format!(
            "{} isn't a format or a range of formats: {expected}",
            short(word)
        )),
    }
}
