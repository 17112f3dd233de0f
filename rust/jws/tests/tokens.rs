//! The proved verifier and signer against the reference's, on generated calls, good and damaged, and at the limits.

mod common;

use std::collections::{BTreeMap, BTreeSet};

use case_generator::rng::Rng;
use common::{by_answer, cases, one_key, raw_sign, raw_verify, sign, verify};
use common::{Calls, HEADER, LONGEST_PAYLOAD, NO_CALLS};
use jws::{HEADER_MAX, PAYLOAD_MAX, TOKEN_MAX};

const ALPHABET: &[u8; 64] = b"ABCDEFGHIJKLMNOPQRSTUVWXYZabcdefghijklmnopqrstuvwxyz0123456789-_";

/// Bytes outside the alphabet that are no periods.
const OUTSIDE: &[u8; 8] = b"=+/ \n\0\x80\xFF";

fn seen_often(calls: &Calls, answers: &[usize]) {
    for &answer in answers {
        assert!(
            calls[answer] >= cases() / 500,
            "answer {answer}: {} times",
            calls[answer]
        );
    }
}

#[test]
fn verify_agrees() {
    let mut calls = NO_CALLS;
    for case in case_generator::verify_cases(21).take(cases()) {
        let verified = verify(&case.token, &case.table, case.header_len, case.payload_len);
        calls[usize::from(verified.answer)] += 1;
        if verified.answer == 0 {
            let (header, payload) = verified.parts();
            let again = raw_sign(header, payload, &case.table, case.token.len());
            assert_eq!((again.answer, again.token()), (0, &case.token[..]));
        }
    }
    let answers: Vec<usize> = (0..=15).collect();
    println!("verify: {}", by_answer(&calls, &answers));
    seen_often(&calls, &answers);
}

#[test]
fn sign_agrees() {
    let mut calls = NO_CALLS;
    for case in case_generator::sign_cases(22).take(cases()) {
        let signed = sign(&case.header, &case.payload, &case.table, case.token_len);
        calls[usize::from(signed.answer)] += 1;
        if signed.answer == 0 {
            let back = raw_verify(signed.token(), &case.table, case.header.len(), case.payload.len());
            assert_eq!((back.answer, back.parts()), (0, (&case.header[..], &case.payload[..])));
        }
    }
    let answers = [0, 1, 2, 5, 6, 7, 8, 9, 10, 11, 12, 13, 14];
    println!("sign: {}", by_answer(&calls, &answers));
    seen_often(&calls, &answers);
    assert_eq!([calls[3], calls[4], calls[15], calls[16]], [0; 4]);
}

#[test]
fn token_lengths() {
    let table = one_key();
    let header = HEADER.as_bytes();
    let longest = sign(header, &LONGEST_PAYLOAD, &table, TOKEN_MAX);
    assert_eq!((longest.answer, longest.length), (0, TOKEN_MAX as u64));
    assert_eq!(verify(longest.token(), &table, HEADER_MAX, PAYLOAD_MAX).answer, 0);
    let longer = [longest.token(), b"A"].concat();
    assert_eq!(verify(&longer, &table, HEADER_MAX, PAYLOAD_MAX).answer, 1);
    assert_eq!(verify(&longer, &[], 0, 0).answer, 1);
    let longer = [&LONGEST_PAYLOAD[..], b"p"].concat();
    assert_eq!(sign(header, &longer, &table, 2 * TOKEN_MAX).answer, 1);
    assert_eq!(verify(&[b'A'; TOKEN_MAX], &table, HEADER_MAX, PAYLOAD_MAX).answer, 3);
    assert_eq!(
        verify(&[b'A'; TOKEN_MAX + 1], &table, HEADER_MAX, PAYLOAD_MAX).answer,
        1
    );
    assert_eq!(verify(&vec![b'.'; 100_000], &table, 10, 10).answer, 1);
}

#[test]
fn header_lengths() {
    let table = one_key();
    let padded = |length: usize| format!("{HEADER:length$}").into_bytes();
    let signed = sign(&padded(HEADER_MAX), b"", &table, TOKEN_MAX);
    let length = reference::token::token_len(HEADER_MAX, 0) as u64;
    assert_eq!((signed.answer, signed.length), (0, length));
    assert_eq!(verify(signed.token(), &table, HEADER_MAX, 0).answer, 0);
    assert_eq!(sign(&padded(HEADER_MAX + 1), b"", &table, TOKEN_MAX).answer, 5);
    let token = format!("{}..", reference::base64url::encode(&padded(HEADER_MAX + 1)));
    assert_eq!(verify(token.as_bytes(), &table, 2 * HEADER_MAX, 0).answer, 5);
    assert_eq!(verify(token.as_bytes(), &table, 0, 0).answer, 5);
}

#[test]
fn buffer_lengths() {
    let (header, table) = (HEADER.as_bytes(), one_key());
    for payload in [&b""[..], b"p", b"setpoint 21.5"] {
        let (h, p) = (header.len(), payload.len());
        let length = reference::token::token_len(h, p);
        assert_eq!(sign(header, payload, &table, length).answer, 0);
        assert_eq!(sign(header, payload, &table, length - 1).answer, 6);
        assert_eq!(sign(header, payload, &table, 0).answer, 6);
        let signed = sign(header, payload, &table, length + 100);
        assert_eq!(verify(signed.token(), &table, h, p).answer, 0);
        assert_eq!(verify(signed.token(), &table, h + 1, p + 100).answer, 0);
        assert_eq!(verify(signed.token(), &table, h - 1, p).answer, 6);
        if p > 0 {
            assert_eq!(verify(signed.token(), &table, h, p - 1).answer, 6);
        }
    }
}

/// Periods are searched for in blocks: they stand here at every place of a block, and a third one at every place of a token.
#[test]
fn places_of_periods() {
    let table = one_key();
    for h in HEADER.len()..HEADER.len() + 48 {
        let header = format!("{HEADER:h$}").into_bytes();
        for p in 0..48 {
            let signed = sign(&header, &LONGEST_PAYLOAD[..p], &table, 300);
            assert_eq!(verify(signed.token(), &table, h, p).answer, 0);
        }
    }
    let signed = sign(HEADER.as_bytes(), &LONGEST_PAYLOAD[..90], &table, 300);
    for place in 0..signed.token().len() {
        let mut token = signed.token().to_vec();
        let answer = if token[place] == b'.' { 0 } else { 3 };
        token[place] = b'.';
        assert_eq!(verify(&token, &table, 100, 100).answer, answer, "{place}");
    }
}

#[test]
fn shortest_tokens() {
    for table in [one_key(), vec![0, 1, 0, 0, 0, 0, 0, 8]] {
        for (token, answer) in [("", 3), (".", 3), ("..", 7), ("...", 3), ("e30..", 9)] {
            assert_eq!(verify(token.as_bytes(), &table, 2, 0).answer, answer, "{token}");
        }
    }
    assert_eq!(verify(b"", &[], 0, 0).answer, 2);
    assert_eq!(sign(b"", b"", &[], 0).answer, 2);
}

fn periods(token: &[u8]) -> [usize; 2] {
    let places: Vec<usize> = (0..token.len()).filter(|&at| token[at] == b'.').collect();
    places.try_into().expect("two periods")
}

/// A good token, and copies with one damage each. An empty segment has no character to be changed.
fn damaged(rng: &mut Rng, good: &[u8]) -> Vec<(&'static str, Vec<u8>)> {
    let mut copies = vec![("good", good.to_vec())];
    let mut copy = |name, damage: &dyn Fn(&mut Vec<u8>)| {
        let mut token = good.to_vec();
        damage(&mut token);
        copies.push((name, token));
    };
    let [first, second] = periods(good);
    for (segment, changed, outside) in [
        (0..first, "header changed", "header outside"),
        (first + 1..second, "payload changed", "payload outside"),
        (second + 1..good.len(), "signature changed", "signature outside"),
    ] {
        if segment.is_empty() {
            continue;
        }
        let at = match rng.below(3) {
            0 => segment.start,
            1 => segment.end - 1,
            _ => rng.within(segment.start..=segment.end - 1),
        };
        let others: Vec<u8> = ALPHABET.iter().copied().filter(|other| *other != good[at]).collect();
        let (other, bad) = (rng.pick(&others), rng.pick(OUTSIDE));
        copy(changed, &|token| token[at] = other);
        copy(outside, &|token| token[at] = bad);
    }
    for period in [first, second] {
        copy("period removed", &|token| drop(token.drain(period..=period)));
        copy("period doubled", &|token| token.insert(period, b'.'));
        copy("period moved", &|token| token.swap(period - 1, period));
        copy("period moved", &|token| token.swap(period, period + 1));
    }
    copy("last dropped", &|token| token.truncate(token.len() - 1));
    copy("one appended", &|token| token.push(b'A'));
    copies
}

/// Payloads of every length up to 2,300 and of the greatest, under headers of three lengths: what is signed ends at every place of a run of
/// eight blocks.
#[test]
fn good_tokens_and_damaged_copies() {
    let (table, longest) = (one_key(), LONGEST_PAYLOAD.len());
    let mut met: BTreeMap<(&str, u8), usize> = BTreeMap::new();
    let mut ends = BTreeSet::new();
    for length in (0..=2_300).chain(longest - 8..=longest) {
        let rng = &mut Rng::of_case(23, length as u64);
        let spaces = if length <= 2_300 { length / 3 % 3 } else { 0 };
        let header = format!("{HEADER}{:spaces$}", "");
        let signed = sign(header.as_bytes(), &rng.bytes(length), &table, TOKEN_MAX);
        let [_, end] = periods(signed.token());
        ends.insert(end % 512);
        for (name, token) in damaged(rng, signed.token()) {
            let verified = verify(&token, &table, HEADER_MAX, PAYLOAD_MAX);
            *met.entry((name, verified.answer)).or_default() += 1;
        }
    }
    assert_eq!(ends.len(), 512);
    // One of the 2,310 tokens is too long with a character more, and one has no payload: there the period that moves takes the other's place,
    // and nothing is changed.
    let expected = [
        (("good", 0), 2_310),
        (("header changed", 4), 469),
        (("header changed", 7), 1_650),
        (("header changed", 9), 37),
        (("header changed", 11), 61),
        (("header changed", 12), 72),
        (("header changed", 15), 21),
        (("header outside", 4), 2_310),
        (("last dropped", 4), 2_156),
        (("last dropped", 15), 154),
        (("one appended", 1), 1),
        (("one appended", 15), 2_309),
        (("payload changed", 4), 452),
        (("payload changed", 15), 1_857),
        (("payload outside", 4), 2_309),
        (("period doubled", 1), 2),
        (("period doubled", 3), 4_618),
        (("period moved", 0), 2),
        (("period moved", 4), 8_116),
        (("period moved", 7), 144),
        (("period moved", 15), 978),
        (("period removed", 3), 4_620),
        (("signature changed", 4), 568),
        (("signature changed", 15), 1_742),
        (("signature outside", 4), 2_310),
    ];
    assert_eq!(met, BTreeMap::from(expected));
}
