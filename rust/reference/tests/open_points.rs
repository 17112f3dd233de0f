//! The open points of the specification, as `docs/DECISIONS.md` reads them.

mod common;

use common::{
    entry, header_answer, one_key, sign, sign_with, table, token, verify, verify_with, Entry, HEADER, SECRET,
};
use reference::base64url::encode;
use reference::limits::{DEPTH_MAX, TOKEN_MAX};
use reference::token::{payload, Record};
use reference::{json, table as keys};

#[test]
fn p01_six_stands_before_seven() {
    let broken = token("{", "abc", SECRET);
    assert_eq!(verify_with(&broken, &one_key(), 1, 3).answer, 7);
    assert_eq!(verify_with(&broken, &one_key(), 0, 3).answer, 6);
    assert_eq!(verify_with(&broken, &one_key(), 1, 2).answer, 6);
    assert_eq!(verify_with(&token("", "", SECRET), &one_key(), 0, 0).answer, 7);
}

#[test]
fn p02_four_covers_all_segments_and_a_wrong_length_is_fifteen() {
    let good = token(HEADER, "abc", SECRET);
    let text = String::from_utf8(good.clone()).unwrap();
    let (signed, signature) = text.rsplit_once('.').unwrap();
    for place in [0, 36, good.len() - 1] {
        let mut bad = good.clone();
        bad[place] = b'=';
        assert_eq!(verify(&bad, &one_key()).answer, 4);
    }
    let with = |signature: &str| verify(format!("{signed}.{signature}").as_bytes(), &one_key()).answer;
    assert_eq!(with(signature), 0);
    assert_eq!(with(""), 15);
    assert_eq!(with("AA"), 15);
    assert_eq!(with(&signature[..40]), 15); // 30 right bytes
    let bytes = reference::base64url::decode(signature.as_bytes()).unwrap();
    assert_eq!(with(&encode(&bytes[..31])), 15);
    assert_eq!(with(&encode(&[&bytes[..], &[0]].concat())), 15);
    assert_eq!(with(&encode(&bytes[1..])), 15);
}

#[test]
fn p03_a_key_is_found_by_its_name() {
    for (header, answer) in [
        (r#"{"alg":"HS256","kid":"k"}"#, 0),
        (r#"{"alg":"HS256","k\u0069d":"\u006B"}"#, 0),
        (r#"{"alg":"HS256","\u006bid":"\u006b"}"#, 0),
        (r#"{"alg":"HS256","\u004bid":"\u006b"}"#, 12),
        (r#"{"alg":"HS256","kid":"\u004b"}"#, 12),
        (r#"{"alg":"HS256","kid":""}"#, 12),
        (r#"{"alg":"HS256","kid":"K"}"#, 12),
        (r#"{"alg":"HS256","kid":"kk"}"#, 12),
        (r#"{"alg":"HS256","Kid":"k"}"#, 12),
        (r#"{"alg":"HS256","x":{"kid":"k"}}"#, 12),
        (r#"{"alg":"HS256"}"#, 12),
    ] {
        assert_eq!(header_answer(header), answer, "{header}");
    }
    let two = table(&[entry("a", SECRET, 1), entry("b", SECRET, 1)]);
    let verified = verify(&token(r#"{"alg":"HS256","kid":"b"}"#, "", SECRET), &two);
    assert_eq!(verified.record.words(), [25, 0, 1, 1, 1, 0, 0, 0, 0]);
}

/// The answer of verifying a token of this header, signed with [`SECRET`], and of signing it.
fn answers(header: &str, table: &[u8]) -> [u8; 2] {
    let verified = verify(&token(header, "", SECRET), table);
    [verified.answer, sign(header.as_bytes(), b"", table).0]
}

#[test]
fn p03_without_a_name_no_key_is_found() {
    let ids: Vec<String> = (0..32).map(|i| format!("key {i}")).collect();
    for count in [0, 1, 2, 32] {
        let entries: Vec<Entry> = ids[..count].iter().map(|id| entry(id, SECRET, 1)).collect();
        let table = table(&entries);
        assert_eq!(keys::parse(&table).unwrap().len(), count);
        assert_eq!(answers(r#"{"alg":"HS256"}"#, &table), [12; 2], "{count} keys");
        for id in &ids[..count] {
            let header = format!(r#"{{"alg":"HS256","kid":"{id}"}}"#);
            assert_eq!(answers(&header, &table), [0; 2], "{count} keys, {id}");
        }
    }
}

/// The table is good; but a text is always UTF-8, so that none is this id.
#[test]
fn p03_no_header_names_an_id_that_is_not_utf8() {
    for id in [&[0xFF][..], b"\xC3", b"k\xED\xA0\x80"] {
        let table = table(&[Entry {
            id,
            ..entry("", SECRET, 1)
        }]);
        assert_eq!(keys::parse(&table).unwrap()[0].id, id);
        for (header, answer) in [
            (r#"{"alg":"HS256"}"#, 12),
            (r#"{"alg":"HS256","kid":"\u00FF"}"#, 12),
            (r#"{"alg":"HS256","kid":"\u00C3"}"#, 12),
            (r#"{"alg":"HS256","kid":"\uFFFD"}"#, 12),
            (r#"{"alg":"HS256","kid":"k\uD800"}"#, 7),
        ] {
            assert_eq!(answers(header, &table), [answer; 2], "{id:?}, {header}");
        }
        let header = [&br#"{"alg":"HS256","kid":""#[..], id, b"\"}"].concat();
        assert_eq!(sign(&header, b"", &table).0, 7);
        assert_eq!(verify(&token(&header, "", SECRET), &table).answer, 7);
    }
}

#[test]
fn p04_algorithms_and_formats_may_be_zero() {
    let answer = |algorithms: u8, formats: u8| {
        let table = table(&[Entry {
            id: b"k",
            secret: SECRET,
            algorithms,
            formats,
        }]);
        verify(&token(HEADER, "", SECRET), &table).answer
    };
    assert_eq!(answer(1, 1), 0);
    assert_eq!(answer(0, 1), 13);
    assert_eq!(answer(0, 0), 13);
    assert_eq!(answer(1, 0), 14);
    assert_eq!(answer(1, 0xFE), 14);
    // Bytes in no area.
    let mut spare = one_key();
    spare.extend([1, 2, 3]);
    let total = spare.len() as u32;
    spare[4..8].copy_from_slice(&total.to_be_bytes());
    assert_eq!(verify(&token(HEADER, "", SECRET), &spare).answer, 0);
    assert_eq!(keys::parse(&[0, 1, 0, 0, 0, 0, 0, 9, 255]), Ok(vec![]));
}

#[test]
fn p05_areas_overlap_each_other_but_not_the_entries() {
    // Two keys share one area; id and secret overlap.
    let mut table = vec![0, 1, 0, 2, 0, 0, 0, 65];
    table.extend([0, 32, 0, 2, 0, 32, 0, 32, 1, 1, 0, 0]);
    table.extend([0, 33, 0, 2, 0, 33, 0, 32, 1, 1, 0, 0]);
    table.extend((0..33).map(|i| b'a' + i % 26));
    assert_eq!(keys::parse(&table).unwrap().len(), 2);
    let with = |at: usize, byte: u8| {
        let mut table = table.clone();
        table[at] = byte;
        keys::parse(&table).is_ok()
    };
    assert!(!with(9, 31));
    assert!(!with(13, 31));
    assert!(!with(21, 32)); // equal ids in one place
    assert!(with(23, 1)); // "b"
    assert!(!with(11, 0));
    assert!(!with(15, 31));
    assert!(!with(15, 0));
}

#[test]
fn p06_depth_counts_empty_ones() {
    let header = |arrays: usize| {
        let (open, close) = ("[".repeat(arrays), "]".repeat(arrays));
        format!(r#"{{"alg":"HS256","kid":"k","x":{open}{{}}{close}}}"#)
    };
    assert_eq!(header_answer(header(DEPTH_MAX - 2)), 0);
    assert_eq!(header_answer(header(DEPTH_MAX - 1)), 7);
}

#[test]
fn p07_seven_stands_before_eight() {
    assert_eq!(header_answer(r#"{"alg":"HS256","alg":"HS256","x":}"#), 7);
    assert_eq!(header_answer(r#"{"alg":"HS256","alg":"HS256"} }"#), 7);
    assert_eq!(header_answer(r#"{"alg":"HS256","alg":"HS256"} "#), 8);
}

#[test]
fn p08_key_members_are_ignored() {
    for name in ["jku", "jwk", "x5u", "x5t", "x5c"] {
        for value in ["\"k\"", "1", "true", "null", "[1]", "{\"k\":\"oct\"}"] {
            let named = format!(r#"{{"alg":"HS256","kid":"k","{name}":{value}}}"#);
            assert_eq!(header_answer(named), 0);
            let nameless = format!(r#"{{"alg":"HS256","{name}":{value}}}"#);
            assert_eq!(header_answer(nameless), 12);
        }
        let listed = format!(r#"{{"alg":"HS256","kid":"k","{name}":"k","crit":["{name}"]}}"#);
        assert_eq!(header_answer(listed), 10);
    }
}

#[test]
fn p09_typ_and_cty_are_any_strings() {
    let header = r#"{"typ":"","alg":"HS256","kid":"k","cty":"a\u0062\"c"}"#;
    let verified = verify(&token(header, "", SECRET), &one_key());
    assert_eq!(verified.record.words(), [53, 0, 0, 1, 1, 8, 0, 41, 10]);
    assert_eq!(&verified.header[41..51], b"a\\u0062\\\"c");
    for value in ["1", "true", "null", "[]", "{}"] {
        assert_eq!(header_answer(format!(r#"{{"alg":"HS256","typ":{value}}}"#)), 9);
        assert_eq!(header_answer(format!(r#"{{"alg":"HS256","cty":{value}}}"#)), 9);
    }
}

#[test]
fn p10_fmt() {
    let header = |fmt: &str| format!(r#"{{"alg":"HS256","kid":"k","crit":["fmt"],"fmt":{fmt}}}"#);
    for (fmt, expected) in [
        ("1", 0),
        ("2", 14),
        ("8", 14),
        ("0", 14),
        ("9", 14),
        ("-0", 14),
        ("-1", 14),
        ("257", 14),
        ("4294967297", 14),
        ("9223372036854775807", 14),
        ("-9223372036854775808", 14),
        ("9223372036854775808", 9),
        ("-9223372036854775809", 9),
        ("18446744073709551617", 9),
        ("1.0", 9),
        ("1e0", 9),
        ("1E0", 9),
        ("\"1\"", 9),
        ("true", 9),
        ("null", 9),
        ("[1]", 9),
        ("01", 7),
        ("+1", 7),
    ] {
        assert_eq!(header_answer(header(fmt)), expected, "{fmt}");
    }
    // Every format against every mask of one bit.
    for bit in 0..8u8 {
        let table = table(&[entry("k", SECRET, 1 << bit)]);
        for fmt in 0..=9u8 {
            let verified = verify(&token(header(&fmt.to_string()), "", SECRET), &table);
            assert_eq!(verified.answer, if fmt == bit + 1 { 0 } else { 14 });
            assert_eq!(verified.record.format, if fmt == bit + 1 { fmt } else { 0 });
        }
    }
}

#[test]
fn p11_crit() {
    for (members, expected) in [
        (r#""crit":["fmt"],"fmt":1"#, 0),
        (r#""crit":["f\u006Dt"],"f\u006Dt":1"#, 0),
        (r#""crit":["f\u006dt"],"f\u006Dt":1"#, 0),
        (r#""crit":["f\u006dt","f\u006Dt"],"fmt":1"#, 10),
        (r#""crit":["f\u004dt"],"fmt":1"#, 10),
        (r#""crit":[ "fmt" ],"fmt":1"#, 0),
        (r#""crit":[]"#, 10),
        (r#""crit":[],"fmt":1"#, 10),
        (r#""crit":["fmt"]"#, 10),
        (r#""crit":["fmt","fmt"],"fmt":1"#, 10),
        (r#""crit":["fmt","f\u006Dt"],"fmt":1"#, 10),
        (r#""crit":["fmt","x"],"fmt":1,"x":1"#, 10),
        (r#""crit":["x"],"x":1"#, 10),
        (r#""crit":["x"]"#, 10),
        (r#""crit":["alg"]"#, 10),
        (r#""crit":["crit"]"#, 10),
        (r#""crit":["FMT"],"fmt":1"#, 10),
        (r#""crit":[""],"":1"#, 10),
        (r#""fmt":1"#, 10),
        (r#""crit":[1]"#, 9),
        (r#""crit":["fmt",null],"fmt":1"#, 9),
        (r#""crit":["x","x",1]"#, 9),
        (r#""crit":[["fmt"]],"fmt":1"#, 9),
        (r#""crit":"fmt","fmt":1"#, 9),
        (r#""crit":{},"fmt":1"#, 9),
        (r#""crit":null"#, 9),
    ] {
        let header = format!(r#"{{"alg":"HS256","kid":"k",{members}}}"#);
        assert_eq!(header_answer(&header), expected, "{header}");
    }
}

#[test]
fn p12_kinds_are_numbered_in_the_specifications_order() {
    let header = br#"{"s":"","n":0,"t":true,"f":false,"0":null,"a":[],"o":{}}"#;
    let kinds: Vec<u64> = (0..7).map(|k| json::member(header, k).unwrap().words()[0]).collect();
    assert_eq!(kinds, [1, 2, 3, 4, 5, 6, 7]);
}

#[test]
fn p13_index_from_zero_and_format_one() {
    let table = table(&[entry("a", SECRET, 1), entry("b", SECRET, 3)]);
    let record = |header: &str| verify(&token(header, "", SECRET), &table).record;
    let first = record(r#"{"alg":"HS256","kid":"a"}"#);
    assert_eq!((first.key_index, first.kid_present, first.format), (0, true, 1));
    let second = record(r#"{"alg":"HS256","kid":"b","crit":["fmt"],"fmt":2}"#);
    assert_eq!((second.key_index, second.format), (1, 2));
}

#[test]
fn p14_the_order_of_signing() {
    let good = HEADER.as_bytes();
    let long = vec![0; TOKEN_MAX];
    // 2 before all, 5 and 7 to 14 before 1, 1 before 6.
    assert_eq!(sign_with(&long, &long, b"", 0).0, 2);
    assert_eq!(sign_with(&long, &long, &one_key(), 0).0, 5);
    assert_eq!(sign_with(b"{", &long, &one_key(), 0).0, 7);
    assert_eq!(
        sign_with(b"{\"alg\":\"HS256\",\"kid\":\"x\"}", &long, &one_key(), 0).0,
        12
    );
    assert_eq!(sign_with(good, &long, &one_key(), 0).0, 1);
    assert_eq!(sign_with(good, b"", &one_key(), 78).0, 6);
    assert_eq!(sign_with(good, b"", &one_key(), 0).0, 6);
    assert_eq!(sign_with(good, b"", &one_key(), 79).0, 0);
    assert_eq!(sign(good, b"", &one_key()).1.len(), 79);
    // A length beyond the machine's numbers.
    assert_eq!(reference::token::token_len(good.len(), usize::MAX), usize::MAX);
}

#[test]
fn p15_the_payload_call() {
    let record = Record {
        payload_length: 3,
        ..Record::default()
    };
    assert_eq!(payload(&record, b"abcd"), b"abc");
    assert_eq!(payload(&record, b"abc"), b"abc");
    assert_eq!(payload(&record, b"ab"), b"");
    assert_eq!(payload(&Record::default(), b"ab"), b"");
}

#[test]
fn p17_byte_order_mark_and_empty_header() {
    assert_eq!(header_answer(format!("\u{FEFF}{HEADER}")), 7);
    assert_eq!(header_answer(format!(" \u{FEFF}{HEADER}")), 7);
    assert_eq!(header_answer("{\"alg\":\"HS256\",\"kid\":\"k\",\"x\":\"\u{FEFF}\"}"), 0);
    assert_eq!(header_answer(""), 7);
    assert_eq!(verify(b"..", b"").answer, 2);
}

#[test]
fn p18_nested_names_are_not_known() {
    assert_eq!(header_answer(r#"{"x":{"alg":"HS256"}}"#), 9);
    assert_eq!(
        header_answer(r#"{"alg":"HS256","kid":"k","x":{"alg":1,"kid":1,"crit":1,"fmt":"","typ":1,"cty":1}}"#),
        0
    );
    assert_eq!(
        header_answer(r#"{"alg":"HS256","kid":"k","x":{"fmt":1},"crit":["fmt"]}"#),
        10
    );
}
