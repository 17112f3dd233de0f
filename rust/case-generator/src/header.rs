//! Headers: trees of JSON values written in many ways, known members right and wrong, and damage.

use reference::limits::{DEPTH_MAX, HEADER_MAX};

use crate::bytes;
use crate::rng::Rng;

/// A value to be written.
#[derive(Clone, Debug)]
enum Json {
    String(String),
    Array(Vec<Json>),
    Object(Vec<(String, Json)>),
    /// Written as it is: a number, a literal, or something that is no value.
    Raw(Vec<u8>),
}

fn raw(text: &str) -> Json {
    Json::Raw(text.into())
}

fn string(text: &str) -> Json {
    Json::String(text.into())
}

/// A header of any sort.
pub fn header(rng: &mut Rng) -> Vec<u8> {
    let members = match rng.below(40) {
        0 => crowded(rng),
        1..=20 => known_members(rng, &[b"k"]),
        _ => {
            let count = rng.below(9);
            members(rng, count, 1)
        }
    };
    finish(rng, members)
}

/// Many members of short names that are apart but for one pair at times: 20 to 150 mostly, and at times about as many as fit a header.
fn crowded(rng: &mut Rng) -> Vec<(String, Json)> {
    let count = match rng.below(30) {
        0 => rng.within(HEADER_MAX / 16..=HEADER_MAX / 8),
        _ => rng.within(20..=150),
    };
    let mut list: Vec<(String, Json)> = (0..count).map(|i| (format!("{i:X}"), raw("0"))).collect();
    if rng.one_in(3) {
        list[rng.below(count)].0 = list[rng.below(count)].0.clone();
    }
    if rng.one_in(4) {
        let nested = Json::Object(std::mem::take(&mut list));
        list.push(("in".into(), nested));
    }
    list
}

/// A header for a table of keys with these ids; mostly right.
pub fn header_for(rng: &mut Rng, ids: &[&[u8]]) -> Vec<u8> {
    let members = known_members(rng, ids);
    if rng.one_in(5) {
        finish(rng, members)
    } else {
        write_header(rng, members)
    }
}

/// HS256 and the name of the key with this id, in a random way of writing. No header can name an id that isn't UTF-8:
/// then there is no `kid`.
pub fn plain_header_for(rng: &mut Rng, id: &[u8]) -> Vec<u8> {
    let mut members = vec![("alg".to_string(), string("HS256"))];
    if let Ok(kid) = std::str::from_utf8(id) {
        members.push(("kid".to_string(), string(kid)));
    }
    write_header(rng, members)
}

/// Writes the members, then damages them or not.
fn finish(rng: &mut Rng, mut members: Vec<(String, Json)>) -> Vec<u8> {
    match rng.below(20) {
        0 | 1 => repeat_name(rng, &mut members),
        2 | 3 => {
            let odd = (odd_name(rng), odd_value(rng));
            members.insert(rng.below(members.len() + 1), odd);
        }
        4 => members.push(("deep".into(), deep(rng))),
        _ => {}
    }
    let mut header = write_header(rng, members);
    match rng.below(20) {
        0..=6 => bytes::mutate_some(rng, &mut header),
        7 => {
            let odd = rng.pick(&[&b"\xEF\xBB\xBF"[..], b" \xEF\xBB\xBF", b"\x0B", b"\x00"]);
            bytes::insert(&mut header, 0, odd);
        }
        8 | 9 => around_limit(rng, &mut header),
        10 => {
            let odd = rng.pick(ODD_TEXTS);
            let at = rng.below(header.len() + 1);
            bytes::insert(&mut header, at, odd);
        }
        11 => damage_escape(rng, &mut header),
        12 if rng.one_in(4) => {
            let length = rng.below(HEADER_MAX + 6);
            header = rng.bytes(length);
        }
        _ => {}
    }
    header
}

/// Another byte for one of a `\u` escape's five after its backslash, if there is one.
fn damage_escape(rng: &mut Rng, header: &mut [u8]) {
    let escapes: Vec<usize> = (0..header.len().saturating_sub(5))
        .filter(|&at| header[at..].starts_with(b"\\u"))
        .collect();
    if !escapes.is_empty() {
        let at = rng.pick(&escapes) + rng.within(1..=5);
        header[at] = rng.pick(b"/09:@AFGUZ[`afguz{dDeE");
    }
}

/// White space after the header, or a long member, to about the longest header.
fn around_limit(rng: &mut Rng, header: &mut Vec<u8>) {
    let target = rng.within(HEADER_MAX - 6..=HEADER_MAX + 6);
    if header.len() >= target {
        header.truncate(target);
    } else if rng.one_in(2) {
        header.resize(target, b' ');
    } else if let Some(place) = header.iter().position(|&byte| byte == b'{') {
        let spare = target - header.len();
        let head: &[u8] = b"\"pad\":\"";
        let tail: &[u8] = if header.get(place + 1) == Some(&b'}') {
            b"\""
        } else {
            b"\","
        };
        let fill = vec![b'x'; spare.saturating_sub(head.len() + tail.len())];
        bytes::insert(header, place + 1, &[head, &fill, tail].concat());
    }
}

/// The known members, each right mostly, and some others, in any order.
fn known_members(rng: &mut Rng, ids: &[&[u8]]) -> Vec<(String, Json)> {
    let mut list: Vec<(String, Json)> = Vec::new();
    let mut add = |name: &str, value: Option<Json>| list.extend(value.map(|value| (name.to_string(), value)));
    add("alg", alg(rng));
    add("kid", kid(rng, ids));
    let typ = media_type(rng);
    add("typ", typ);
    let cty = media_type(rng);
    add("cty", cty);
    let (crit, fmt) = crit_and_fmt(rng);
    add("crit", crit);
    add("fmt", fmt);
    let others = rng.pick(&[0, 0, 0, 1, 2, 3]);
    list.extend(members(rng, others, 1));
    for name in ["jku", "jwk", "x5u", "x5t", "x5c", "b64"] {
        if rng.one_in(25) {
            list.push((name.into(), value(rng, 2)));
        }
    }
    rng.shuffle(&mut list);
    list
}

fn alg(rng: &mut Rng) -> Option<Json> {
    match rng.below(40) {
        0 => None,
        1 => Some(value(rng, 2)),
        2 => {
            Some(string(rng.pick(&[
                "none", "HS384", "HS512", "hs256", "HS256 ", "HS25", "RS256", "",
            ])))
        }
        _ => Some(string("HS256")),
    }
}

/// Missing once in 8; otherwise mostly an id, or the text nearest to it where it isn't UTF-8.
fn kid(rng: &mut Rng, ids: &[&[u8]]) -> Option<Json> {
    match rng.below(24) {
        0..=2 => None,
        3 => Some(value(rng, 2)),
        4 => Some(string("")),
        5 => Some(string(&text(rng))),
        _ if ids.is_empty() => Some(string(&text(rng))),
        _ => Some(string(&String::from_utf8_lossy(rng.pick(ids)))),
    }
}

fn media_type(rng: &mut Rng) -> Option<Json> {
    match rng.below(40) {
        0 => Some(value(rng, 2)),
        1 => Some(string("")),
        2..=7 => Some(string("JWT")),
        8..=10 => Some(string(&text(rng))),
        _ => None,
    }
}

fn crit_and_fmt(rng: &mut Rng) -> (Option<Json>, Option<Json>) {
    let listed = || Some(Json::Array(vec![string("fmt")]));
    match rng.below(40) {
        0 => (odd_crit(rng), Some(raw("1"))),
        1 => (odd_crit(rng), None),
        2 => (listed(), None),
        3 => (None, Some(raw(&rng.within(1..=8).to_string()))),
        4 | 5 => (listed(), Some(odd_fmt(rng))),
        6..=15 => (listed(), Some(raw(&rng.within(1..=8).to_string()))),
        _ => (None, None),
    }
}

fn odd_crit(rng: &mut Rng) -> Option<Json> {
    if rng.one_in(3) {
        return Some(value(rng, 2));
    }
    let count = rng.below(4);
    let name = |rng: &mut Rng| match rng.below(8) {
        0 => raw("1"),
        1 => value(rng, 3),
        2 => string("exp"),
        3 => string(rng.pick(&["b64", "alg", "kid", "crit", "FMT", "fmt "])),
        _ => string("fmt"),
    };
    Some(Json::Array((0..count).map(|_| name(rng)).collect()))
}

fn odd_fmt(rng: &mut Rng) -> Json {
    const WRITTEN: [&str; 22] = [
        "0",
        "-0",
        "9",
        "-1",
        "-8",
        "10",
        "255",
        "256",
        "257",
        "1.0",
        "1e0",
        "1E0",
        "-0.0",
        "9223372036854775806",
        "9223372036854775807",
        "9223372036854775808",
        "-9223372036854775807",
        "-9223372036854775808",
        "-9223372036854775809",
        "18446744073709551616",
        "18446744073709551617",
        "99999999999999999999999999999999",
    ];
    if rng.one_in(4) {
        value(rng, 2)
    } else {
        raw(rng.pick(&WRITTEN))
    }
}

/// Members of an object at depth `depth`, their names mostly apart.
fn members(rng: &mut Rng, count: usize, depth: usize) -> Vec<(String, Json)> {
    (0..count)
        .map(|i| {
            let name = if rng.one_in(12) {
                text(rng)
            } else {
                format!("{}{i}", text(rng))
            };
            (name, value(rng, depth + 1))
        })
        .collect()
}

/// A value; arrays and objects in it have depth `depth` or more.
fn value(rng: &mut Rng, depth: usize) -> Json {
    let simple = rng.one_in(2) || depth > DEPTH_MAX;
    match if simple { rng.below(7) } else { rng.below(9) } {
        0 | 1 => Json::String(text(rng)),
        2 | 3 => raw(&number(rng)),
        4 => raw("true"),
        5 => raw("false"),
        6 => raw("null"),
        7 => {
            let count = rng.below(4);
            Json::Array((0..count).map(|_| value(rng, depth + 1)).collect())
        }
        _ => {
            let count = rng.below(4);
            Json::Object(members(rng, count, depth))
        }
    }
}

/// Arrays and objects nested to about the greatest depth: the header goes from two levels less to two levels more.
fn deep(rng: &mut Rng) -> Json {
    let inner = if rng.one_in(2) { raw("0") } else { Json::Array(vec![]) };
    let levels = rng.within(DEPTH_MAX - 3..=DEPTH_MAX);
    (0..levels).fold(inner, |inner, _| nested(rng.one_in(2), inner))
}

/// A value in an array, or in an object.
fn nested(in_array: bool, inner: Json) -> Json {
    if in_array {
        Json::Array(vec![inner])
    } else {
        Json::Object(vec![("d".into(), inner)])
    }
}

fn number(rng: &mut Rng) -> String {
    let mut written = String::new();
    if rng.one_in(3) {
        written.push('-');
    }
    written += &match rng.below(4) {
        0 => "0".to_string(),
        1 => rng.number().to_string(),
        _ => rng.below(1_000).to_string(),
    };
    if rng.one_in(4) {
        written += &format!(".{:0width$}", rng.below(100), width = rng.within(1..=3));
    }
    if rng.one_in(4) {
        written += rng.pick(&["e", "E", "e+", "E-"]);
        written += &rng.below(30).to_string();
    }
    written
}

/// A string's value: up to about twelve code points of all sizes.
fn text(rng: &mut Rng) -> String {
    const EDGES: [char; 16] = [
        '\0',
        '\u{1F}',
        '"',
        '\\',
        '/',
        '\u{7F}',
        '\u{80}',
        '\u{7FF}',
        '\u{800}',
        '\u{D7FF}',
        '\u{E000}',
        '\u{FEFF}',
        '\u{FFFF}',
        '\u{10000}',
        '\u{1D11E}',
        '\u{10FFFF}',
    ];
    let plain = rng.one_in(2);
    let count = rng.pick(&[0, 1, 1, 2, 2, 3, 4, 6, 12]);
    let character = |_| match if plain { 9 } else { rng.below(10) } {
        0 => rng.pick(&EDGES),
        1 => char::from(rng.below(0x80) as u8),
        2 => char::from_u32(rng.within(0x80..=0x7FF) as u32).unwrap_or('?'),
        3 => char::from_u32(rng.within(0x800..=0xFFFF) as u32).unwrap_or('?'),
        4 => char::from_u32(rng.within(0x1_0000..=0x10_FFFF) as u32).unwrap_or('?'),
        // j to o, 6A to 6F, which escapes spell in two ways
        _ => char::from(b'j' + rng.below(6) as u8),
    };
    (0..count).map(character).collect()
}

/// Repeats a name: of the top object, or of one nested in a new member.
fn repeat_name(rng: &mut Rng, members: &mut Vec<(String, Json)>) {
    if members.is_empty() {
        members.push(("a".into(), raw("0")));
    }
    let again = (members[rng.below(members.len())].0.clone(), value(rng, 2));
    if rng.one_in(3) {
        let nested = Json::Object(vec![again.clone(), again]);
        let value = if rng.one_in(2) {
            nested
        } else {
            Json::Array(vec![raw("0"), nested])
        };
        members.push(("nested".into(), value));
    } else {
        members.insert(rng.below(members.len() + 1), again);
    }
}

fn odd_name(rng: &mut Rng) -> String {
    rng.pick(&["", "Alg", "alg ", "\u{FEFF}", "\0", "kıd", "fmt\u{301}"])
        .to_string()
}

/// Values on both sides of the grammar, and of the depth where they stand in the top object.
fn odd_value(rng: &mut Rng) -> Json {
    match rng.below(ODD_VALUES.len() + 4) {
        odd if odd < ODD_VALUES.len() => Json::Raw(ODD_VALUES[odd].to_vec()),
        _ => {
            let (in_arrays, levels) = (rng.one_in(2), DEPTH_MAX - 2 + rng.below(2));
            let empty = if in_arrays { raw("[]") } else { raw("{}") };
            (0..levels).fold(empty, |inner, _| nested(in_arrays, inner))
        }
    }
}

/// Some are derived by the grammar and some are not.
const ODD_VALUES: &[&[u8]] = &[
    b"",
    b"-",
    b"+1",
    b"01",
    b"-01",
    b"-0",
    b"1.",
    b".5",
    b"1.e1",
    b"1e",
    b"1e+",
    b"0e0",
    b"0E-0",
    b"0x10",
    b"NaN",
    b"Infinity",
    b"-Infinity",
    b"True",
    b"nul",
    b"nulll",
    b"truefalse",
    b"'a'",
    b"[",
    b"]",
    b"[,]",
    b"[0,]",
    b"[ ]",
    b"{ }",
    b"{,}",
    b"{\"a\":0,}",
    b"{\"a\"}",
    b"{\"a\":}",
    b"{a:0}",
    b"{\"a\":0,\"\\u0061\":0}",
    b"{\"\\u00e9\":0,\"\\u00E9\":0}",
    b"{\"\\u00e9\":0,\"\xC3\xA9\":0}",
    b"{\"\\ud834\\uDD1E\":0,\"\\uD834\\udd1e\":0}",
    b"{\"\\u006a\":0,\"\\u004a\":0}",
    b"{\"a\":{\"a\":0}}",
    b"[{\"a\":0},{\"a\":0}]",
    b"\"",
    b"\"\\\"",
    b"\"\\u00e9\"",
    b"\"\\u00E9\"",
    b"\"\\U00E9\"",
    b"\"\\u00eg\"",
    b"\"\\u00G9\"",
    b"\"\\uaBcD\"",
    b"\"\\ud834\"",
    b"\"\\udd1e\"",
    b"\"\\ud834\\udd1e\"",
    b"\"\\ud834\\ud834\"",
    b"\"\\udbff\\uDfFf\"",
    b"\"\\u12\"",
    b"\"\\x41\"",
    b"\"\\v\"",
    b"\"\\/\"",
    b"\"\\uD834\"",
    b"\"\\uDD1E\"",
    b"\"\\uD834\\uDD1E\"",
    b"\"\\uD834\\uDD1e\"",
    b"\"\\uDD1E\\uD834\"",
    b"\"\\uD834\\uD834\\uDD1E\"",
    b"\"\\uD834 \\uDD1E\"",
    b"\"\\uD834\\uDBFF\"",
    b"\"\\uD834\\uE000\"",
    b"\"\\uD7FF\\uE000\"",
    b"\"\\uD834\\\\uDD1E\"",
    b"\"\\uDBFF\\uDFFF\"",
    b"\"\\uD800\\uDC00\"",
    b"\"\\uFFFF\\u0000\"",
    b"\"\t\"",
    b"\"\x1F\"",
    b"\"\x7F\"",
    b"\"\x80\"",
    b"\"\xC0\x80\"",
    b"\"\xC1\xBF\"",
    b"\"\xC2\x80\"",
    b"\"\xC2\"",
    b"\"\xE0\x9F\xBF\"",
    b"\"\xE0\xA0\x80\"",
    b"\"\xED\x9F\xBF\"",
    b"\"\xED\xA0\x80\"",
    b"\"\xED\xBF\xBF\"",
    b"\"\xEE\x80\x80\"",
    b"\"\xEF\xBB\xBF\"",
    b"\"\xF0\x8F\xBF\xBF\"",
    b"\"\xF0\x90\x80\x80\"",
    b"\"\xF4\x8F\xBF\xBF\"",
    b"\"\xF4\x90\x80\x80\"",
    b"\"\xF5\x80\x80\x80\"",
    b"\"\xFF\"",
    b"0 0",
    b"0,0",
    b"/**/0",
    b"\x00",
];

/// Put in anywhere.
const ODD_TEXTS: &[&[u8]] = &[
    b",",
    b":",
    b"\"",
    b"\\",
    b"}",
    b"{",
    b"]",
    b"[",
    b"\\u",
    b"\\u0061",
    b"\\uD834",
    b"\\uDD1E",
    b"\\uD834\\uDD1E",
    b"\\u006a",
    b"\xEF\xBB\xBF",
    b"\xED\xA0\x80",
    b"\xC0\xAF",
    b"\xF4\x90\x80\x80",
    b"\xC2\x85",
    b"\x0B",
    b"\x00",
    b"//",
    b"0",
    b"e1",
    b".5",
    b"null",
    b" ",
    b"\r\n\t ",
    b",\"alg\":\"HS256\"",
    b"\"a\":0,",
    b"{\"a\":0,\"a\":0}",
];

/// How a header is written: white space after one place in `space`, an escape for one character in `escape`, and of the letters among
/// the digits of `\u` one in `small` as a small one.
struct Style {
    space: usize,
    escape: usize,
    small: usize,
}

/// All small, both, and all capital.
const SMALL: [usize; 3] = [1, 2, usize::MAX];

fn write_header(rng: &mut Rng, members: Vec<(String, Json)>) -> Vec<u8> {
    let style = Style {
        space: rng.pick(&[2, 10, 1_000_000, 1_000_000]),
        escape: rng.pick(&[2, 10, 1_000_000, 1_000_000]),
        small: rng.pick(&SMALL),
    };
    let mut out = Vec::new();
    space(rng, &style, &mut out);
    write(rng, &style, &Json::Object(members), &mut out);
    space(rng, &style, &mut out);
    out
}

fn space(rng: &mut Rng, style: &Style, out: &mut Vec<u8>) {
    while rng.one_in(style.space) {
        out.push(rng.pick(b" \t\n\r"));
    }
}

fn write(rng: &mut Rng, style: &Style, value: &Json, out: &mut Vec<u8>) {
    match value {
        Json::Raw(bytes) => out.extend(bytes),
        Json::String(text) => write_string(rng, style, text, out),
        Json::Array(values) => write_list(rng, style, b"[]", values, out, write),
        Json::Object(members) => write_list(rng, style, b"{}", members, out, |rng, style, (name, value), out| {
            write_string(rng, style, name, out);
            space(rng, style, out);
            out.push(b':');
            space(rng, style, out);
            write(rng, style, value, out);
        }),
    }
}

fn write_list<T>(
    rng: &mut Rng,
    style: &Style,
    brackets: &[u8; 2],
    things: &[T],
    out: &mut Vec<u8>,
    write_thing: impl Fn(&mut Rng, &Style, &T, &mut Vec<u8>),
) {
    out.push(brackets[0]);
    space(rng, style, out);
    for (i, thing) in things.iter().enumerate() {
        if i > 0 {
            out.push(b',');
            space(rng, style, out);
        }
        write_thing(rng, style, thing, out);
        space(rng, style, out);
    }
    out.push(brackets[1]);
}

/// A text as a JSON string, an escape for one character in `escape`.
pub fn quoted(rng: &mut Rng, text: &str, escape: usize) -> String {
    let style = Style {
        space: usize::MAX,
        escape,
        small: rng.pick(&SMALL),
    };
    let mut out = Vec::new();
    write_string(rng, &style, text, &mut out);
    String::from_utf8(out).expect("a text's UTF-8 and ASCII")
}

fn write_string(rng: &mut Rng, style: &Style, text: &str, out: &mut Vec<u8>) {
    out.push(b'"');
    for c in text.chars() {
        let must = c < ' ' || c == '"' || c == '\\';
        if must || rng.one_in(style.escape) {
            write_escape(rng, style, c, out);
        } else {
            out.extend(c.encode_utf8(&mut [0; 4]).as_bytes());
        }
    }
    out.push(b'"');
}

fn write_escape(rng: &mut Rng, style: &Style, c: char, out: &mut Vec<u8>) {
    let short = match c {
        '"' => Some(b'"'),
        '\\' => Some(b'\\'),
        '/' => Some(b'/'),
        '\u{8}' => Some(b'b'),
        '\u{C}' => Some(b'f'),
        '\n' => Some(b'n'),
        '\r' => Some(b'r'),
        '\t' => Some(b't'),
        _ => None,
    };
    match short {
        Some(letter) if rng.one_in(2) => out.extend([b'\\', letter]),
        _ => {
            for unit in c.encode_utf16(&mut [0; 2]) {
                out.extend(b"\\u");
                for digit in format!("{unit:04X}").bytes() {
                    out.push(if rng.one_in(style.small) {
                        digit.to_ascii_lowercase()
                    } else {
                        digit
                    });
                }
            }
        }
    }
}
