//! Characters and names, spelled in every way that a header can spell them.

/// How a character is written.
#[derive(Clone, Copy, Debug, PartialEq, Eq)]
pub enum Written {
    Plain,
    /// `\t`, the last of the short escapes: there is but this one.
    Short,
    /// `\uXXXX`
    Escaped,
    /// `\uXXXX\uXXXX`
    Pair,
    /// As UTF-8, from this code point on.
    Utf8(u32),
}

impl Written {
    pub const ALL: [Written; 7] = [
        Written::Plain,
        Written::Short,
        Written::Escaped,
        Written::Pair,
        Written::Utf8(0x80),
        Written::Utf8(0x800),
        Written::Utf8(0x10000),
    ];

    /// The i-th of some characters that differ.
    pub fn character(self, i: usize) -> String {
        match self {
            Written::Plain => {
                let mut plain = (b'#'..=b'~').filter(|byte| *byte != b'\\').cycle().map(char::from);
                plain.nth(i).into_iter().collect()
            }
            Written::Short => "\\t".into(),
            Written::Escaped => format!("\\u{:04X}", 0x1000 + i),
            Written::Pair => format!("\\uD834\\u{:04X}", 0xDC00 + i),
            Written::Utf8(first) => char::from_u32(first + i as u32).into_iter().collect(),
        }
    }

    /// The i-th of some texts that differ, as short as can be.
    pub fn text(self, i: usize) -> String {
        match self {
            Written::Plain if i >= 90 => self.character(1 + i / 90) + &self.character(i),
            Written::Short => self.character(0) + &Written::Plain.text(i),
            _ => self.character(i),
        }
    }

    /// A string of this character, as long as fits.
    pub fn string(self, room: usize) -> String {
        let character = self.character(0);
        format!("\"{}\"", character.repeat((room - 2) / character.len()))
    }
}

/// The names of an object: `equal` characters that all of them have, and a text that no two of them have.
#[derive(Clone, Copy, Debug, PartialEq, Eq)]
pub struct Names {
    pub equal: usize,
    pub of: Written,
    pub text: Written,
    /// Whether the text comes before the equal characters.
    pub text_first: bool,
}

impl Names {
    /// Names as short as can be.
    pub const SHORT: Names = Names::alike(0, Written::Plain, Written::Plain);

    /// Names that differ after some equal characters.
    pub const fn alike(equal: usize, of: Written, text: Written) -> Names {
        Names {
            equal,
            of,
            text,
            text_first: false,
        }
    }

    pub fn name(self, i: usize) -> String {
        let (equal, text) = (self.of.character(0).repeat(self.equal), self.text.text(i));
        if self.text_first {
            text + &equal
        } else {
            equal + &text
        }
    }

    pub fn label(self) -> String {
        let Names {
            equal,
            of,
            text,
            text_first,
        } = self;
        let place = if text_first { "before" } else { "after" };
        match equal {
            0 => format!("names {text:?}"),
            _ => format!("names {text:?} {place} {equal} {of:?}"),
        }
    }
}
