//! `\u` escapes in small and capital letters: all that there are, any byte in the place of one of theirs, names spelled in two ways, and
//! known members spelled by them. The proved code against the reference, and against what Rust's own library makes of the digits.

mod common;

use case_generator::header::quoted;
use case_generator::rng::Rng;
use common::{cases, raw_member, sign, table_of, token_of, verify};
use jws::{HEADER_MAX, TOKEN_MAX};
use reference::limits::DEPTH_MAX;

const SEED: u64 = 37;
const DIGITS: &[u8; 22] = b"0123456789ABCDEFabcdef";
const SECRET: &[u8; 32] = b"a secret of thirty-two bytes, so";

/// The answer to a header, by its first member; the reference agrees on it, on the kind and on the places.
fn answer(header: impl AsRef<[u8]>) -> u8 {
    let header = header.as_ref();
    let given = raw_member(header, 0);
    let expected = match reference::json::member(header, 0) {
        Err(number) => (number, [0; 5]),
        Ok(member) => (0, member.words()),
    };
    assert_eq!(given, expected, "{}", header.escape_ascii());
    given.0
}

/// A character as a JSON string has it: as it is where it may stand, or else by a capital escape.
fn plain(character: char) -> String {
    match character {
        '\0'..='\x1F' | '"' | '\\' => format!("\\u{:04X}", character as u32),
        _ => character.to_string(),
    }
}

/// An escape is this character and not the next one: beside the one a name stands twice, beside the other it does not.
fn means(escape: &str, character: char) {
    assert_eq!(
        answer(format!("{{\"{escape}\":0,\"{}\":0}}", plain(character))),
        8,
        "{escape}"
    );
    let next = char::from_u32(character as u32 + 1).unwrap_or('\0');
    assert_eq!(
        answer(format!("{{\"{escape}\":0,\"{}\":0}}", plain(next))),
        0,
        "{escape}"
    );
}

#[test]
fn every_escape() {
    let mut halves = 0;
    for i in 0..DIGITS.len().pow(4) {
        let digits: String = (0..4)
            .map(|place| DIGITS[i / 22usize.pow(place) % 22] as char)
            .collect();
        let escape = format!("\\u{digits}");
        match char::from_u32(u32::from_str_radix(&digits, 16).unwrap()) {
            Some(character) => means(&escape, character),
            None => {
                halves += 1;
                assert_eq!(answer(format!("{{\"x\":\"{escape}\"}}")), 7, "{escape}");
            }
        }
    }
    // D or d, then 8 to F.
    assert_eq!(halves, 2 * 14 * 22 * 22);
}

/// Two members of json.org's JSON_checker, pattern pass1, whose escapes have letters of both cases.
#[test]
fn published_texts() {
    let hex = r"\u0123\u4567\u89AB\uCDEF\uabcd\uef4A";
    let name = r#"\/\\\"\uCAFE\uBABE\uAB98\uFCDE\ubcda\uef4A\b\f\n\r\t`1~!@#$%^&*()_+-=[]{}|;:',./<>?"#;
    assert_eq!(
        answer(format!(
            "{{\"hex\": \"{hex}\",\n\"{name}\"\n: \"A key can be any string\"}}"
        )),
        0
    );
    for (raw, text) in [
        (hex, "\u{123}\u{4567}\u{89AB}\u{CDEF}\u{ABCD}\u{EF4A}"),
        (
            name,
            "/\\\\\\\"\u{CAFE}\u{BABE}\u{AB98}\u{FCDE}\u{BCDA}\u{EF4A}\\b\\f\\n\\r\\t`1~!@#$%^&*()_+-=[]{}|;:',./<>?",
        ),
    ] {
        assert_eq!(answer(format!("{{\"{raw}\":0,\"{text}\":0}}")), 8, "{raw}");
        assert_eq!(answer(format!("{{\"{raw}\":0,\"{text} \":0}}")), 0, "{raw}");
    }
}

/// Some digits, each letter of them in either case.
fn spelled(rng: &mut Rng, unit: u16) -> String {
    let digits = format!("{unit:04X}");
    let either = |digit: char| {
        if rng.one_in(2) {
            digit.to_ascii_lowercase()
        } else {
            digit
        }
    };
    format!("\\u{}", digits.chars().map(either).collect::<String>())
}

#[test]
fn pairs() {
    for case in 0..cases() {
        let rng = &mut Rng::of_case(SEED, case as u64);
        let character = char::from_u32(rng.within(0x1_0000..=0x10_FFFF) as u32).unwrap();
        let mut units = [0; 2];
        let [high, low] = [0, 1].map(|i| {
            let unit = character.encode_utf16(&mut units)[i];
            spelled(rng, unit)
        });
        means(&format!("{high}{low}"), character);
        for wrong in [
            format!("{low}{high}"),
            format!("{high}{high}"),
            format!("{high} {low}"),
            high,
            low,
        ] {
            assert_eq!(answer(format!("{{\"x\":\"{wrong}\"}}")), 7, "{wrong}");
        }
    }
}

#[test]
fn any_byte_in_an_escape() {
    let read = [&br"\u00e9"[..], br"\ud834\uDd1E"].map(|escape| {
        (0..escape.len())
            .map(|place| {
                let reads = |byte: &u8| {
                    let mut changed = escape.to_vec();
                    changed[place] = *byte;
                    answer([&b"{\"x\":\""[..], &changed, b"\"}"].concat()) == 0
                };
                (0..=u8::MAX).filter(reads).count()
            })
            .collect::<Vec<_>>()
    });
    // For the backslash any character but the quotation mark; for the u what may follow a backslash; then digits.
    assert_eq!(read[0], [95, 9, 22, 22, 22, 22]);
    // Of a pair D, and 8 to B; then D, and C to F; each letter in both cases.
    assert_eq!(read[1], [1, 1, 2, 6, 22, 22, 1, 1, 2, 8, 22, 22]);
}

/// A header in which this object has depth `depth`, in objects and arrays.
fn nested(depth: usize, object: &str) -> String {
    (1..depth).fold(object.to_string(), |inner, level| {
        if level % 2 == 1 && level + 1 < depth {
            format!("[{inner}]")
        } else {
            format!("{{\"x\":{inner}}}")
        }
    })
}

#[test]
fn one_name_spelled_twice_at_every_depth() {
    for (first, second) in [
        (r"\u00e9", r"\u00E9"),
        (r"\u00e9", "é"),
        (r"\ud834\udd1e", r"\uD834\uDD1E"),
        (r"\uD834\udd1e", "\u{1D11E}"),
        (r"a\u006cg", r"a\u006Cg"),
        (r"a\u006cg", "alg"),
    ] {
        for depth in 1..=DEPTH_MAX + 1 {
            let one_name = format!("{{\"{first}\":0,\"y\":0,\"{second}\":1}}");
            assert_eq!(
                answer(nested(depth, &one_name)),
                if depth <= DEPTH_MAX { 8 } else { 7 },
                "{depth}: {one_name}"
            );
            let two_names = format!("{{\"{first}\":0,\"y\":0,\"{second}.\":1}}");
            assert_eq!(
                answer(nested(depth, &two_names)),
                if depth <= DEPTH_MAX { 0 } else { 7 },
                "{depth}: {two_names}"
            );
        }
    }
}

/// Known members, each name and text spelled by escapes in any case.
fn known(rng: &mut Rng, names: [&str; 6]) -> String {
    let [alg, kid, typ, cty, crit, fmt] = names.map(|name| quoted(rng, name, 1));
    let [hs256, id, jwt, text, listed] = ["HS256", "klm-é", "JWT", "𝄞", "fmt"].map(|text| quoted(rng, text, 1));
    let mut members = [
        format!("{alg}:{hs256}"),
        format!("{kid}:{id}"),
        format!("{typ}:{jwt}"),
        format!("{cty}:{text}"),
        format!("{crit}:[{listed}]"),
        format!("{fmt}:1"),
    ];
    rng.shuffle(&mut members);
    format!("{{{}}}", members.join(","))
}

#[test]
fn known_members_by_escapes() {
    const NAMES: [&str; 6] = ["alg", "kid", "typ", "cty", "crit", "fmt"];
    let table = table_of("klm-é".as_bytes(), SECRET);
    for case in 0..cases() / 10 {
        let rng = &mut Rng::of_case(SEED, case as u64);
        let header = known(rng, NAMES);
        let signed = sign(header.as_bytes(), b"p", &table, TOKEN_MAX);
        assert_eq!(signed.answer, 0, "{header}");
        let verified = verify(signed.token(), &table, HEADER_MAX, 1);
        assert_eq!(verified.words[2..5], [0, 1, 1], "{header}");
        assert_eq!([verified.words[6], verified.words[8]], [18, 12], "{header}");
        // With one name in capital letters, it is another name.
        for (i, expected) in [9, 12, 0, 0, 10, 10].into_iter().enumerate() {
            let mut names = NAMES;
            let capital = names[i].to_uppercase();
            names[i] = &capital;
            let header = known(rng, names);
            let token = token_of(&header, b"p", SECRET);
            assert_eq!(verify(&token, &table, HEADER_MAX, 1).answer, expected, "{header}");
            assert_eq!(
                sign(header.as_bytes(), b"p", &table, TOKEN_MAX).answer,
                expected,
                "{header}"
            );
        }
    }
}
