//! The header grammar of the specification over RFC 8259 and RFC 3629, and the member reader.
//!
//! A header that is read yields the members of its top object in order, each with its places in the header's bytes
//! and its resolved value. Answer 7 is decided for the whole text before answer 8.

use std::borrow::Cow;

use crate::answer::{HEADER_TOO_LONG, NAME_TWICE, NOT_DERIVED, NO_SUCH_MEMBER};
use crate::limits::{DEPTH_MAX, HEADER_MAX};

/// A part of the header's bytes: `start` is its first byte's place, `end` the place after its last.
#[derive(Clone, Copy, Debug, PartialEq, Eq)]
pub struct Place {
    /// Place of the first byte.
    pub start: usize,
    /// Place after the last byte.
    pub end: usize,
}

/// Specification, "Calls", member: one of seven kinds of value, numbered in its order.
#[derive(Clone, Copy, Debug, PartialEq, Eq)]
#[repr(u8)]
pub enum Kind {
    /// `"..."`
    String = 1,
    /// `-1.5e3`
    Number = 2,
    /// `true`
    True = 3,
    /// `false`
    False = 4,
    /// `null`
    Null = 5,
    /// `[...]`
    Array = 6,
    /// `{...}`
    Object = 7,
}

/// Specification, "Header": a reading is a tree, strings as code points, numbers as they are spelled, members in their order.
#[derive(Clone, Debug, PartialEq, Eq)]
pub enum Value<'h> {
    /// The code points after the escapes are resolved.
    String(Cow<'h, str>),
    /// The written characters.
    Number(&'h str),
    /// `true`
    True,
    /// `false`
    False,
    /// `null`
    Null,
    /// The elements in order.
    Array(Vec<Value<'h>>),
    /// The members in order.
    Object(Vec<Member<'h>>),
}

impl Value<'_> {
    /// The kind of this value.
    pub fn kind(&self) -> Kind {
        match self {
            Value::String(_) => Kind::String,
            Value::Number(_) => Kind::Number,
            Value::True => Kind::True,
            Value::False => Kind::False,
            Value::Null => Kind::Null,
            Value::Array(_) => Kind::Array,
            Value::Object(_) => Kind::Object,
        }
    }
}

/// A member of an object.
#[derive(Clone, Debug, PartialEq, Eq)]
pub struct Member<'h> {
    /// The name after its escapes are resolved.
    pub name: Cow<'h, str>,
    /// The raw name, between its quotes.
    pub name_place: Place,
    /// The value.
    pub value: Value<'h>,
    /// The raw value: a string between its quotes, any other value whole.
    pub value_place: Place,
}

impl Member<'_> {
    /// The member as five words: kind, name start, name end, value start, value end.
    pub fn words(&self) -> [u64; 5] {
        [
            self.value.kind() as u64,
            self.name_place.start as u64,
            self.name_place.end as u64,
            self.value_place.start as u64,
            self.value_place.end as u64,
        ]
    }
}

/// The members of the top object, or 5, 7 or 8.
pub fn read(header: &[u8]) -> Result<Vec<Member<'_>>, u8> {
    if header.len() > HEADER_MAX {
        return Err(HEADER_TOO_LONG);
    }
    // The rules of RFC 3629 are those of `str`: shortest forms alone, no surrogates, nothing past U+10FFFF.
    let text = std::str::from_utf8(header).map_err(|_| NOT_DERIVED)?;
    let mut reader = Reader {
        text,
        at: 0,
        name_twice: false,
    };
    let members = reader.text().ok_or(NOT_DERIVED)?;
    if reader.name_twice {
        return Err(NAME_TWICE);
    }
    Ok(members)
}

/// Member `k` (from 0) of the top object, or 5, 7, 8 or 16.
pub fn member(header: &[u8], k: usize) -> Result<Member<'_>, u8> {
    read(header)?.into_iter().nth(k).ok_or(NO_SUCH_MEMBER)
}

/// Recursive descent over the bytes of `text` from `at`. Each production consumes what it derives and returns `None`
/// where the text isn't derived.
struct Reader<'h> {
    text: &'h str,
    at: usize,
    /// Some object has had a name twice.
    name_twice: bool,
}

impl<'h> Reader<'h> {
    fn peek(&self) -> Option<u8> {
        self.text.as_bytes().get(self.at).copied()
    }

    fn take(&mut self) -> Option<u8> {
        let byte = self.peek()?;
        self.at += 1;
        Some(byte)
    }

    /// Takes `byte` if it is next.
    fn take_if(&mut self, byte: u8) -> bool {
        let next = self.peek() == Some(byte);
        self.at += usize::from(next);
        next
    }

    fn expect(&mut self, byte: u8) -> Option<()> {
        self.take_if(byte).then_some(())
    }

    /// RFC 8259 section 2: `ws`.
    fn white_space(&mut self) {
        while matches!(self.peek(), Some(b' ' | b'\t' | b'\n' | b'\r')) {
            self.at += 1;
        }
    }

    /// RFC 8259 section 2, with an object for the value: `ws object ws`, and nothing after it.
    fn text(&mut self) -> Option<Vec<Member<'h>>> {
        self.white_space();
        let members = self.object(1)?;
        self.white_space();
        (self.at == self.text.len()).then_some(members)
    }

    /// RFC 8259 section 3; `depth` is that of the arrays and objects around the value.
    fn value(&mut self, depth: usize) -> Option<(Value<'h>, Place)> {
        let start = self.at;
        let value = match self.peek()? {
            b'"' => {
                let (string, place) = self.string()?;
                return Some((Value::String(string), place));
            }
            b'{' => Value::Object(self.object(depth + 1)?),
            b'[' => Value::Array(self.array(depth + 1)?),
            b't' => self.literal("true", Value::True)?,
            b'f' => self.literal("false", Value::False)?,
            b'n' => self.literal("null", Value::Null)?,
            _ => Value::Number(self.number()?),
        };
        let place = Place { start, end: self.at };
        Some((value, place))
    }

    fn literal(&mut self, written: &str, value: Value<'h>) -> Option<Value<'h>> {
        let rest = &self.text.as_bytes()[self.at..];
        if !rest.starts_with(written.as_bytes()) {
            return None;
        }
        self.at += written.len();
        Some(value)
    }

    /// RFC 8259 section 4; the object itself has depth `depth`.
    fn object(&mut self, depth: usize) -> Option<Vec<Member<'h>>> {
        self.expect(b'{')?;
        if depth > DEPTH_MAX {
            return None;
        }
        let mut members = Vec::new();
        self.white_space();
        if self.take_if(b'}') {
            return Some(members);
        }
        loop {
            let member = self.member(depth)?;
            self.name_twice |= members.iter().any(|m: &Member| m.name == member.name);
            members.push(member);
            match self.take()? {
                b',' => self.white_space(),
                b'}' => return Some(members),
                _ => return None,
            }
        }
    }

    /// RFC 8259 section 4, `member`, and the white space after it.
    fn member(&mut self, depth: usize) -> Option<Member<'h>> {
        let (name, name_place) = self.string()?;
        self.white_space();
        self.expect(b':')?;
        self.white_space();
        let (value, value_place) = self.value(depth)?;
        self.white_space();
        Some(Member {
            name,
            name_place,
            value,
            value_place,
        })
    }

    /// RFC 8259 section 5; the array itself has depth `depth`.
    fn array(&mut self, depth: usize) -> Option<Vec<Value<'h>>> {
        self.expect(b'[')?;
        if depth > DEPTH_MAX {
            return None;
        }
        let mut values = Vec::new();
        self.white_space();
        if self.take_if(b']') {
            return Some(values);
        }
        loop {
            let (value, _) = self.value(depth)?;
            values.push(value);
            self.white_space();
            match self.take()? {
                b',' => self.white_space(),
                b']' => return Some(values),
                _ => return None,
            }
        }
    }

    /// RFC 8259 section 6: `[ minus ] int [ frac ] [ exp ]`.
    fn number(&mut self) -> Option<&'h str> {
        let start = self.at;
        self.take_if(b'-');
        if !self.take_if(b'0') {
            self.digits()?;
        }
        if self.take_if(b'.') {
            self.digits()?;
        }
        if self.take_if(b'e') || self.take_if(b'E') {
            if !self.take_if(b'+') {
                self.take_if(b'-');
            }
            self.digits()?;
        }
        Some(&self.text[start..self.at])
    }

    /// One digit or more.
    fn digits(&mut self) -> Option<()> {
        let start = self.at;
        while matches!(self.peek(), Some(b'0'..=b'9')) {
            self.at += 1;
        }
        (self.at > start).then_some(())
    }

    /// RFC 8259 section 7. The value is a part of the text unless it has an escape.
    fn string(&mut self) -> Option<(Cow<'h, str>, Place)> {
        self.expect(b'"')?;
        let text = self.text;
        let start = self.at;
        let mut resolved: Option<String> = None;
        // Where the characters since the last escape begin.
        let mut run = start;
        loop {
            match self.take()? {
                b'"' => {
                    let end = self.at - 1;
                    let last = &text[run..end];
                    let value = match resolved {
                        None => Cow::Borrowed(last),
                        Some(front) => Cow::Owned(front + last),
                    };
                    return Some((value, Place { start, end }));
                }
                b'\\' => {
                    let front = resolved.get_or_insert_with(String::new);
                    front.push_str(&text[run..self.at - 1]);
                    front.push(self.escape()?);
                    run = self.at;
                }
                0x00..=0x1F => return None,
                _ => {}
            }
        }
    }

    /// RFC 8259 section 7: what follows the `\`.
    fn escape(&mut self) -> Option<char> {
        match self.take()? {
            b'"' => Some('"'),
            b'\\' => Some('\\'),
            b'/' => Some('/'),
            b'b' => Some('\u{8}'),
            b'f' => Some('\u{C}'),
            b'n' => Some('\n'),
            b'r' => Some('\r'),
            b't' => Some('\t'),
            b'u' => self.unicode_escape(),
            _ => None,
        }
    }

    /// Specification, "Header": the first half of a surrogate pair needs its second half right behind it, and the second its first.
    fn unicode_escape(&mut self) -> Option<char> {
        let unit = self.four_digits()?;
        if !(0xD800..=0xDBFF).contains(&unit) {
            return char::from_u32(unit); // `None` for a low surrogate
        }
        self.expect(b'\\')?;
        self.expect(b'u')?;
        let low = self.four_digits()?;
        if !(0xDC00..=0xDFFF).contains(&low) {
            return None;
        }
        char::from_u32(0x1_0000 + ((unit - 0xD800) << 10) + (low - 0xDC00))
    }

    /// RFC 8259 section 7: four digits, the letters among them capital or small.
    fn four_digits(&mut self) -> Option<u32> {
        let mut unit = 0;
        for _ in 0..4 {
            let digit = match self.take()? {
                digit @ b'0'..=b'9' => digit - b'0',
                digit @ b'A'..=b'F' => digit - b'A' + 10,
                digit @ b'a'..=b'f' => digit - b'a' + 10,
                _ => return None,
            };
            unit = unit << 4 | u32::from(digit);
        }
        Some(unit)
    }
}

#[cfg(test)]
mod tests {
    use super::*;

    fn answer(header: &[u8]) -> u8 {
        read(header).err().unwrap_or(0)
    }

    /// The answer to a header with `value` as its one member's value.
    fn value_answer(value: impl AsRef<[u8]>) -> u8 {
        answer(&[b"{\"x\":", value.as_ref(), b"}"].concat())
    }

    #[test]
    fn texts() {
        for good in ["{}", " \t\r\n{ \t\r\n} \t\r\n", "{\"\":0}", "{\"\u{FEFF}\":0}"] {
            assert_eq!(answer(good.as_bytes()), 0, "{good}");
        }
        for bad in [
            "",
            " ",
            "{",
            "}",
            "[]",
            "[{}]",
            "0",
            "\"x\"",
            "null",
            "{}{}",
            "{} x",
            "{},",
            "\u{FEFF}{}",
            " \u{FEFF}{}",
            "{}\u{FEFF}",
            "{\u{B}}",
            "{\u{C}}",
            "{\u{A0}}",
            "{\0}",
            "{}\0",
            "{x:0}",
            "{'x':0}",
            "{\"x\"}",
            "{\"x\":}",
            "{\"x\" 0}",
            "{\"x\":0,}",
            "{,}",
            "{\"x\":0 \"y\":0}",
            "{\"x\"::0}",
            "{:0}",
            "{0:0}",
            "{\"x\":0",
            "{\"x\":0,\"y\"",
            "{\"x",
            "{/**/}",
        ] {
            assert_eq!(answer(bad.as_bytes()), 7, "{bad}");
        }
    }

    #[test]
    fn numbers() {
        for good in [
            "0",
            "-0",
            "9",
            "10",
            "1234567890",
            "-12",
            "0.0",
            "0.10",
            "1.5e0",
            "1e5",
            "1E5",
            "1e+5",
            "1e-5",
            "0e0",
            "-0.0E-00",
            "1e05",
            "99999999999999999999999999",
        ] {
            assert_eq!(value_answer(good), 0, "{good}");
        }
        for bad in [
            "",
            "-",
            "+1",
            "01",
            "-01",
            "00",
            "1.",
            ".5",
            "-.5",
            "1.e1",
            "1e",
            "1e+",
            "1e-",
            "1e+-1",
            "1e1.5",
            "0x1",
            "1_000",
            "1,000",
            "NaN",
            "Infinity",
            "-Infinity",
            "1f",
            "--1",
            "1 2",
            "\u{661}",
        ] {
            assert_eq!(value_answer(bad), 7, "{bad}");
        }
    }

    #[test]
    fn literals() {
        for good in ["true", "false", "null"] {
            assert_eq!(value_answer(good), 0, "{good}");
        }
        for bad in ["True", "TRUE", "tru", "truee", "fals", "nul", "nil", "t", "undefined"] {
            assert_eq!(value_answer(bad), 7, "{bad}");
        }
    }

    #[test]
    fn arrays() {
        for good in ["[]", "[ ]", "[0]", "[ 0 , 1 ]", "[[],[]]", "[{},\"\",null]"] {
            assert_eq!(value_answer(good), 0, "{good}");
        }
        for bad in ["[", "]", "[,]", "[0,]", "[,0]", "[0 1]", "[0", "[}", "[0}", "[0:1]"] {
            assert_eq!(value_answer(bad), 7, "{bad}");
        }
    }

    #[test]
    fn depth() {
        let nest = |open: &str, close: &str, n: usize| open.repeat(n) + "0" + &close.repeat(n);
        let nest_empty = |inner: &str, n: usize| "[".repeat(n) + inner + &"]".repeat(n);
        // The top object is one level.
        const INSIDE: usize = DEPTH_MAX - 1;
        assert_eq!(value_answer(nest("[", "]", INSIDE)), 0);
        assert_eq!(value_answer(nest("[", "]", INSIDE + 1)), 7);
        assert_eq!(value_answer(nest("{\"y\":", "}", INSIDE)), 0);
        assert_eq!(value_answer(nest("{\"y\":", "}", INSIDE + 1)), 7);
        assert_eq!(value_answer(nest("[{\"y\":", "}]", INSIDE / 2)), 0);
        assert_eq!(value_answer(nest("[{\"y\":", "}]", INSIDE / 2 + 1)), 7);
        // Empty ones count too.
        assert_eq!(value_answer(nest_empty("[]", INSIDE - 1)), 0);
        assert_eq!(value_answer(nest_empty("{}", INSIDE - 1)), 0);
        assert_eq!(value_answer(nest_empty("[]", INSIDE)), 7);
        assert_eq!(value_answer(nest_empty("{}", INSIDE)), 7);
        // Depth is not the number of brackets.
        assert_eq!(value_answer(format!("[{}[]]", "[],".repeat(50))), 0);
    }

    #[test]
    fn escapes() {
        let header = br#"{"\"\\\/\b\f\n\r\t\u0041\u00E9\uD834\uDD1E\u0000":"a\u0062c"}"#;
        let members = read(header).unwrap();
        assert_eq!(members[0].name, "\"\\/\u{8}\u{C}\n\r\tA\u{E9}\u{1D11E}\0");
        assert_eq!(members[0].value, Value::String("abc".into()));
        let small = br#"{"\u00e9\ud834\uDd1e\uaBcD":"\u000a"}"#;
        let members = read(small).unwrap();
        assert_eq!(members[0].name, "\u{E9}\u{1D11E}\u{ABCD}");
        assert_eq!(members[0].value, Value::String("\n".into()));
        for good in [
            r"\uFFFF",
            r"\uD7FF",
            r"\uE000",
            r"\uD800\uDC00",
            r"\uDBFF\uDFFF",
            r"\\u12",
            r"\\uD834",
            r"\ue000",
            r"\uaBcD",
            r"\ud800\udc00",
            r"\uDBFF\udfff",
            r"\udBfF\uDfFf",
        ] {
            assert_eq!(value_answer(format!("\"{good}\"")), 0, "{good}");
        }
        for bad in [
            r"\U0041",
            r"\u000/",
            r"\u000:",
            r"\u000@",
            r"\u000G",
            r"\u000`",
            r"\u000g",
            r"\u041",
            r"\u",
            r"\u 041",
            r"\u+041",
            r"\x41",
            r"\'",
            r"\0",
            r"\a",
            r"\v",
            r"\ ",
            r"\",
            r"\uD834",
            r"\uDD1E",
            r"\uD834x",
            r"\uD834\n",
            r"\uD834\u0041",
            r"\uD834\uD834",
            r"\uD834\uD834\uDD1E",
            r"\uD834\uDBFF",
            r"\uD834\uE000",
            r"\uDD1E\uD834",
            r"\uD834 \uDD1E",
            r"\uD834\\uDD1E",
            r"\uD834\uDD1",
            r"\ud834",
            r"\udd1e",
            r"\ud834\uD834",
            r"\uD834\Udd1e",
            r"\ud834\ue000",
        ] {
            assert_eq!(value_answer(format!("\"{bad}\"")), 7, "{bad}");
        }
        assert_eq!(value_answer("\"\\\u{E9}\""), 7);
    }

    #[test]
    fn characters_of_strings() {
        for byte in 0..=0x7F {
            let expected = if byte < 0x20 || byte == b'"' || byte == b'\\' {
                7
            } else {
                0
            };
            assert_eq!(value_answer([b'"', byte, b'"']), expected, "{byte}");
        }
    }

    /// RFC 3629 section 4, production by production.
    #[test]
    fn utf8() {
        let string_answer = |bytes: &[u8]| value_answer([b"\"", bytes, b"\""].concat());
        for good in [
            &[0xC2, 0x80][..],
            &[0xDF, 0xBF],
            &[0xE0, 0xA0, 0x80],
            &[0xE1, 0x80, 0x80],
            &[0xED, 0x9F, 0xBF],
            &[0xEE, 0x80, 0x80],
            &[0xEF, 0xBB, 0xBF],
            &[0xEF, 0xBF, 0xBF],
            &[0xF0, 0x90, 0x80, 0x80],
            &[0xF1, 0x80, 0x80, 0x80],
            &[0xF4, 0x8F, 0xBF, 0xBF],
        ] {
            assert_eq!(string_answer(good), 0, "{good:X?}");
        }
        for bad in [
            &[0x80][..],
            &[0xBF],
            &[0xC0, 0x80],
            &[0xC1, 0xBF],
            &[0xC2],
            &[0xC2, 0x41],
            &[0xC2, 0xC0],
            &[0xE0, 0x9F, 0xBF],
            &[0xE1, 0x80],
            &[0xED, 0xA0, 0x80],
            &[0xED, 0xBF, 0xBF],
            &[0xF0, 0x8F, 0xBF, 0xBF],
            &[0xF0, 0x90, 0x80],
            &[0xF4, 0x90, 0x80, 0x80],
            &[0xF5, 0x80, 0x80, 0x80],
            &[0xFE],
            &[0xFF],
        ] {
            assert_eq!(string_answer(bad), 7, "{bad:X?}");
        }
    }

    #[test]
    fn names_twice() {
        for twice in [
            r#"{"a":0,"a":1}"#,
            r#"{"a":0,"b":1,"a":2}"#,
            r#"{"a":0,"\u0061":1}"#,
            r#"{"":0,"":1}"#,
            r#"{"/":0,"\/":1}"#,
            r#"{"x":{"a":0,"a":1}}"#,
            r#"{"x":[[{"a":0,"\u0061":1}]]}"#,
            r#"{"x":{"y":{"a":0,"a":1}}}"#,
            "{\"\u{1D11E}\":0,\"\\uD834\\uDD1E\":1}",
            "{\"\\n\":0,\"\\u000A\":1}",
            r#"{"\u00e9":0,"\u00E9":1}"#,
            "{\"\u{E9}\":0,\"\\u00e9\":1}",
            r#"{"x":[{"\ud834\uDD1E":0,"\uD834\udd1e":1}]}"#,
        ] {
            assert_eq!(answer(twice.as_bytes()), 8, "{twice}");
        }
        for once in [
            r#"{"a":0,"A":1}"#,
            r#"{"\u006a":0,"\u004a":1}"#,
            r#"{"a":{"a":0},"b":{"a":{"a":1}}}"#,
            r#"{"x":[{"a":0},{"a":0}]}"#,
            r#"{"a":0,"aa":0,"":0}"#,
            r#"{"\\u0061":0,"a":0}"#,
            "{\"\u{E9}\":0,\"e\u{301}\":0}",
        ] {
            assert_eq!(answer(once.as_bytes()), 0, "{once}");
        }
    }

    #[test]
    fn seven_stands_before_eight() {
        assert_eq!(answer(br#"{"a":0,"a":1"#), 7);
        assert_eq!(answer(br#"{"a":0,"a":1} x"#), 7);
        assert_eq!(answer(br#"{"a":0,"a":"\uDD1E"}"#), 7);
        assert_eq!(answer(b"{\"a\":0,\"a\":\"\xFF\"}"), 7);
        let deep = "[".repeat(DEPTH_MAX) + &"]".repeat(DEPTH_MAX);
        assert_eq!(answer(format!(r#"{{"x":[{{"a":0,"a":1}},{deep}]}}"#).as_bytes()), 7);
    }

    #[test]
    fn five_stands_before_seven() {
        assert_eq!(answer(&[b' '; HEADER_MAX + 1]), 5);
        assert_eq!(answer(&[b' '; HEADER_MAX]), 7);
        assert_eq!(answer(&[b"{}".to_vec(), vec![b' '; HEADER_MAX - 2]].concat()), 0);
    }

    #[test]
    fn members_by_number() {
        let header =
            b" { \"s\" : \"a\\u0062\" , \"n\":-1.5e3,\"t\":true,\"f\":false,\"0\":null,\"a\":[ 1 ],\"o\": {\"s\":0} } ";
        let expected: [(u8, &str, &str); 7] = [
            (1, "s", "a\\u0062"),
            (2, "n", "-1.5e3"),
            (3, "t", "true"),
            (4, "f", "false"),
            (5, "0", "null"),
            (6, "a", "[ 1 ]"),
            (7, "o", "{\"s\":0}"),
        ];
        let written = |place: Place| std::str::from_utf8(&header[place.start..place.end]).unwrap();
        for (k, (kind, name, value)) in expected.into_iter().enumerate() {
            let member = member(header, k).unwrap();
            assert_eq!(member.value.kind() as u8, kind);
            assert_eq!(written(member.name_place), name);
            assert_eq!(written(member.value_place), value);
        }
        assert_eq!(member(header, 0).unwrap().words(), [1, 4, 5, 10, 17]);
        assert_eq!(member(header, 7).err(), Some(16));
        assert_eq!(member(header, usize::MAX).err(), Some(16));
        assert_eq!(member(b"{}", 0).err(), Some(16));
        assert_eq!(member(b"{", 0).err(), Some(7));
        assert_eq!(member(br#"{"a":0,"a":0}"#, 0).err(), Some(8));
        assert_eq!(member(&[b'{'; 2 * HEADER_MAX], 0).err(), Some(5));
    }

    #[test]
    fn empty_names_and_strings_have_empty_places() {
        assert_eq!(member(br#"{"":""}"#, 0).unwrap().words(), [1, 2, 2, 5, 5]);
    }
}
