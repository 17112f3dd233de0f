//! Every answer is reached, and the first in order stands.

mod common;

use common::{
    entry, header_answer, one_key, sign, sign_with, table, token, verify, verify_with, Entry, HEADER, SECRET,
};
use reference::base64url::encode;
use reference::json::member;
use reference::limits::{HEADER_MAX, TOKEN_MAX};

#[test]
fn every_answer_of_verifying() {
    let good = token(HEADER, "abc", SECRET);
    let forged = token(HEADER, "abc", b"another secret");
    let no_hs256 = table(&[Entry {
        algorithms: 0,
        ..entry("k", SECRET, 1)
    }]);
    let answers = [
        verify(&good, &one_key()),
        verify(&[b'.'; TOKEN_MAX + 1], &one_key()),
        verify(&good, &[]),
        verify(&good[..20], &one_key()),
        verify(b"A..", &one_key()),
        verify(&token([b' '; HEADER_MAX + 1], "", SECRET), &one_key()),
        verify_with(&good, &one_key(), HEADER.len() - 1, 3),
        verify(b"..", &one_key()),
        verify(&token("{\"\":0,\"\":0}", "", SECRET), &one_key()),
        verify(&token("{}", "", SECRET), &one_key()),
        verify(&token("{\"alg\":\"HS256\",\"crit\":[]}", "", SECRET), &one_key()),
        verify(&token("{\"alg\":\"none\"}", "", SECRET), &one_key()),
        verify(&token("{\"alg\":\"HS256\",\"kid\":\"?\"}", "", SECRET), &one_key()),
        verify(&good, &no_hs256),
        verify(&good, &table(&[entry("k", SECRET, 2)])),
        verify(&forged, &one_key()),
    ]
    .map(|verified| verified.answer);
    assert_eq!(answers, [0, 1, 2, 3, 4, 5, 6, 7, 8, 9, 10, 11, 12, 13, 14, 15]);
}

#[test]
fn every_answer_of_the_member_reader() {
    let answer = |header: &[u8], k| member(header, k).err().unwrap_or(0);
    assert_eq!(answer(b"{\"a\":0}", 0), 0);
    assert_eq!(answer(&[b' '; HEADER_MAX + 1], 0), 5);
    assert_eq!(answer(b"", 0), 7);
    assert_eq!(answer(b"{\"a\":0,\"a\":0}", 0), 8);
    assert_eq!(answer(b"{\"a\":0}", 1), 16);
}

/// Each input breaks one rule more than the one before it, from the last rule to the first; so each answer stands
/// before those after it.
#[test]
fn the_first_in_order_stands() {
    let weak = |algorithms, formats| {
        table(&[Entry {
            algorithms,
            ..entry("k", SECRET, formats)
        }])
    };
    let header = |members: &str| format!("{{{members}}}");
    let unsigned = |header: &str| format!("{}.AA.AA", encode(header.as_bytes())).into_bytes();
    let kid = r#""alg":"HS256","kid":"k""#;
    let no_kid = r#""alg":"HS256""#;
    let alg = r#""alg":"x""#;
    let crit = r#""alg":"x","crit":[]"#;
    let kind = r#""alg":1,"crit":[]"#;
    let twice = r#""alg":1,"crit":[],"alg":1"#;
    let broken = r#""alg":1,"crit":[],"alg":1,"#;
    let long = format!("{broken}{}", " ".repeat(HEADER_MAX));
    let bad_segment = [unsigned(&header(&long)), b"=".to_vec()].concat();
    let periods = [&bad_segment[..], b"."].concat();
    let too_long = [&periods[..], &[b'.'; TOKEN_MAX]].concat();
    let cases: [(Vec<u8>, Vec<u8>, usize, u8); 15] = [
        (unsigned(&header(kid)), weak(1, 1), HEADER_MAX, 15),
        (unsigned(&header(kid)), weak(1, 0), HEADER_MAX, 14),
        (unsigned(&header(kid)), weak(0, 0), HEADER_MAX, 13),
        (unsigned(&header(no_kid)), weak(0, 0), HEADER_MAX, 12),
        (unsigned(&header(alg)), weak(0, 0), HEADER_MAX, 11),
        (unsigned(&header(crit)), weak(0, 0), HEADER_MAX, 10),
        (unsigned(&header(kind)), weak(0, 0), HEADER_MAX, 9),
        (unsigned(&header(twice)), weak(0, 0), HEADER_MAX, 8),
        (unsigned(&header(broken)), weak(0, 0), HEADER_MAX, 7),
        (unsigned(&header(broken)), weak(0, 0), 1, 6),
        (unsigned(&header(&long)), weak(0, 0), 1, 5),
        (bad_segment, weak(0, 0), 1, 4),
        (periods.clone(), weak(0, 0), 1, 3),
        (periods, vec![], 1, 2),
        (too_long, vec![], 1, 1),
    ];
    for (token, table, header_len, answer) in cases {
        assert_eq!(verify_with(&token, &table, header_len, 1).answer, answer);
    }
}

#[test]
fn buffers_of_the_needed_length_and_around_it() {
    let header = HEADER.as_bytes();
    let length = header.len();
    for payload_length in [0, 1, 2, 3, 100] {
        let payload = vec![b'p'; payload_length];
        let good = token(header, &payload, SECRET);
        for (header_len, payload_len, answer) in [
            (length, payload_length, 0),
            (length + 1, payload_length + 1, 0),
            (length - 1, payload_length, 6),
            (0, payload_length, 6),
        ] {
            let verified = verify_with(&good, &one_key(), header_len, payload_len);
            assert_eq!(verified.answer, answer);
            if answer == 0 {
                assert_eq!(&verified.header[..length], header);
                assert_eq!(verified.payload[..payload_length], payload);
            }
        }
        if payload_length > 0 {
            assert_eq!(verify_with(&good, &one_key(), length, payload_length - 1).answer, 6);
        }
        assert_eq!(sign_with(header, &payload, &one_key(), good.len() - 1).0, 6);
        assert_eq!(sign_with(header, &payload, &one_key(), good.len()), (0, good));
    }
}

#[test]
fn any_changed_bit_is_refused() {
    let good = token(HEADER, "abc", SECRET);
    assert_eq!(verify(&good, &one_key()).answer, 0);
    for bit in 0..8 * good.len() {
        let mut changed = good.clone();
        changed[bit / 8] ^= 1 << (bit % 8);
        assert_ne!(verify(&changed, &one_key()).answer, 0);
    }
}

#[test]
fn the_mac_covers_the_tokens_own_bytes() {
    for header in [
        HEADER,
        r#" { "alg" : "HS256" , "kid" : "k" } "#,
        r#"{"alg":"HS\u00325\u0036","kid":"k"}"#,
        r#"{"\u0061lg":"HS256","kid":"k"}"#,
        r#"{"alg":"HS256","\u006Bid":"\u006B"}"#,
        r#"{"a\u006cg":"HS256","\u006bid":"\u006b"}"#,
        r#"{"x":1.0,"kid":"k","alg":"HS256"}"#,
    ] {
        assert_eq!(header_answer(header), 0, "{header}");
    }
    for alg in ["hs256", "HS256 ", "HS25", "", "none", "HS384", "HS512", "RS256"] {
        let header = format!(r#"{{"alg":"{alg}","kid":"k"}}"#);
        assert_eq!(header_answer(header), 11, "{alg}");
    }
}

#[test]
fn secrets_of_every_length_round_trip() {
    for length in 32..=128 {
        let secret = vec![b's'; length];
        let table = table(&[entry("other", &[b'o'; 32], 1), entry("k", &secret, 1)]);
        let (answer, signed) = sign(HEADER.as_bytes(), b"abc", &table);
        assert_eq!(answer, 0);
        assert_eq!(verify(&signed, &table).answer, 0);
        assert_eq!(signed, token(HEADER, "abc", &secret));
    }
}
