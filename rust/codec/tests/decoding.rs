//! The proved decoder against the reference: every short text, every place of longer ones, generated texts, and buffers of every sort. The
//! answers, the places of faults and the whole buffers are compared.

use std::collections::BTreeSet;
use std::ops::RangeInclusive;

use case_generator::rng::Rng;
use codec::Answer;
use reference::base64url::{self, decoded_len, DecodeError};

const ALPHABET: &[u8; 64] = b"ABCDEFGHIJKLMNOPQRSTUVWXYZabcdefghijklmnopqrstuvwxyz0123456789-_";

/// Some bytes outside the alphabet.
const OUTSIDE: &[u8; 8] = b"=+/. \0\x80\xFF";

const SHORT_TEXTS: RangeInclusive<usize> = 0..=40;
/// Around 4,096 characters, where the decoder takes up another table.
const MIDDLE_TEXTS: RangeInclusive<usize> = 4_090..=4_102;
const LONG_TEXTS: RangeInclusive<usize> = 15_990..=16_010;
const LONG_TEXT: usize = 16_000;

/// Sizes of buffers, each with seven bytes to spare at least: for texts of up to eight characters, for the short ones and for the long ones.
const TINY: usize = 16;
const SMALL: usize = 40;
const LARGE: usize = 12_016;

/// What a buffer holds before a call.
const GARBAGE: u8 = 0xA5;

/// Generated texts.
const CASES: usize = 20_000;

/// How often each answer was met: written, a fault, short.
#[derive(Default)]
struct Seen([usize; 3]);

impl Seen {
    /// Decodes a text into the first `room` of `SIZE` bytes, and compares the answer and all the bytes with what they must be: zeros in the
    /// room after a refusal, else the reference's bytes; and behind them what was there before.
    fn compare<const SIZE: usize>(&mut self, text: &[u8], room: usize) -> Answer {
        let (mut ours, mut theirs) = ([GARBAGE; SIZE], [GARBAGE; SIZE]);
        let expected = match base64url::decode_into(text, &mut theirs) {
            Ok(length) if length <= room => Answer::Written(length),
            Ok(_) => Answer::Short,
            Err(DecodeError::Fault(fault)) => Answer::Fault(fault.place),
            Err(DecodeError::BufferTooShort) => panic!("{SIZE} bytes are too few for a text of {}", text.len()),
        };
        let kind = match expected {
            Answer::Written(_) => 0,
            Answer::Fault(_) => 1,
            Answer::Short => 2,
        };
        self.0[kind] += 1;
        if kind != 0 {
            theirs = [GARBAGE; SIZE];
            theirs[..room].fill(0);
        }
        assert_eq!(codec::decode(text, &mut ours[..room]), expected, "{text:?}");
        assert!(ours == theirs, "{text:?} into {room} bytes");
        expected
    }
}

/// Lengths of buffers for a text of this length: as long as it takes, one shorter, one and seven longer, and 0.
fn rooms(length: usize) -> BTreeSet<usize> {
    let needed = decoded_len(length);
    BTreeSet::from([0, needed.saturating_sub(1), needed, needed + 1, needed + 7])
}

/// The value of a strict text's last character is a multiple of this.
fn last_step(length: usize) -> usize {
    match length % 4 {
        2 => 16,
        3 => 4,
        _ => 1,
    }
}

/// A text without a fault but that of its length, where that is one. No character but the last stands twice among 64.
fn good_text(length: usize) -> Vec<u8> {
    let mut rng = Rng::new(length as u64);
    let mut values: Vec<usize> = Vec::new();
    while values.len() < length {
        let start = values.len();
        values.extend(0..64);
        rng.shuffle(&mut values[start..]);
    }
    values.truncate(length);
    if let Some(last) = values.last_mut() {
        *last -= *last % last_step(length);
    }
    values.into_iter().map(|value| ALPHABET[value]).collect()
}

#[test]
fn every_pair_of_bytes() {
    let mut seen = Seen::default();
    for pair in 0..=u16::MAX {
        seen.compare::<TINY>(&pair.to_be_bytes(), 1);
    }
    let written = 64 * 4;
    let fault = (1 << 16) - written;
    assert_eq!(seen.0, [written, fault, 0]);
}

#[test]
fn every_triple_of_bytes() {
    let mut seen = Seen::default();
    for triple in 0..1u32 << 24 {
        let [_, text @ ..] = triple.to_be_bytes();
        seen.compare::<TINY>(&text, 2);
    }
    let written = 64 * 64 * 16;
    let fault = (1 << 24) - written;
    assert_eq!(seen.0, [written, fault, 0]);
}

/// Alone, and as each half of eight characters.
#[test]
fn every_group_of_four_characters() {
    let mut seen = Seen::default();
    for group in 0..1usize << 24 {
        let [a, b, c, d] = [18, 12, 6, 0].map(|bits| ALPHABET[group >> bits & 63]);
        seen.compare::<TINY>(&[a, b, c, d], 3);
        seen.compare::<TINY>(&[a, b, c, d, d, c, b, a], 6);
    }
    let written = 2 << 24;
    assert_eq!(seen.0, [written, 0, 0]);
}

/// All 256 of them, into each buffer.
#[test]
fn every_byte_at_every_place() {
    let mut seen = Seen::default();
    for length in SHORT_TEXTS {
        let (mut text, rooms) = (good_text(length), rooms(length));
        for place in 0..length {
            let good = text[place];
            for byte in 0..=255 {
                text[place] = byte;
                for &room in &rooms {
                    let answer = seen.compare::<SMALL>(&text, room);
                    assert!(ALPHABET.contains(&byte) || answer == Answer::Fault(place), "{text:?}");
                }
            }
            text[place] = good;
        }
    }
    // 39,240 of these texts are strict, 68 of them of two characters. Three of the five buffers are long enough, or three of four.
    let (written, short) = (3 * 39_240, 2 * 39_240 - 68);
    let fault = (1 << 20) - written - short;
    assert_eq!(seen.0, [written, fault, short]);
}

#[test]
fn good_texts_into_every_buffer() {
    let mut seen = Seen::default();
    for length in SHORT_TEXTS.chain(MIDDLE_TEXTS).chain(LONG_TEXTS) {
        let (text, needed) = (good_text(length), decoded_len(length));
        for room in rooms(length) {
            let expected = match length % 4 {
                1 => Answer::Fault(length),
                _ if room < needed => Answer::Short,
                _ => Answer::Written(needed),
            };
            assert_eq!(seen.compare::<LARGE>(&text, room), expected, "{text:?}");
        }
    }
    // Strict are 31 of the short texts, 10 of the middle ones and 16 of the long ones. Three buffers are long enough, two aren't; the shortest
    // texts have fewer of these.
    let (strict, others) = (31 + 10 + 16, 10 + 3 + 5);
    assert_eq!(seen.0, [3 * strict, 5 * others - 2, 2 * strict - 3]);
}

#[test]
fn one_fault_at_every_place_of_a_long_text() {
    let mut seen = Seen::default();
    let mut text = good_text(LONG_TEXT);
    for place in 0..LONG_TEXT {
        let good = text[place];
        for &bad in OUTSIDE {
            text[place] = bad;
            let answer = seen.compare::<LARGE>(&text, decoded_len(LONG_TEXT));
            assert_eq!(answer, Answer::Fault(place), "{bad}");
        }
        text[place] = good;
    }
    let fault = LONG_TEXT * OUTSIDE.len();
    assert_eq!(seen.0, [0, fault, 0]);
}

/// Decodes a good text with two bytes outside the alphabet at these places, of which the first counts.
fn two_faults<const SIZE: usize>(seen: &mut Seen, text: &mut [u8], places: [usize; 2], bad: [u8; 2]) {
    let good = places.map(|place| text[place]);
    (text[places[0]], text[places[1]]) = bad.into();
    let answer = seen.compare::<SIZE>(text, decoded_len(text.len()));
    assert_eq!(answer, Answer::Fault(places[0]), "{places:?} {bad:?}");
    (text[places[0]], text[places[1]]) = good.into();
}

#[test]
fn two_faults_at_all_places_of_short_texts() {
    let mut seen = Seen::default();
    for length in SHORT_TEXTS {
        let mut text = good_text(length);
        for first in 0..length {
            for second in first + 1..length {
                for &a in OUTSIDE {
                    for &b in OUTSIDE {
                        two_faults::<SMALL>(&mut seen, &mut text, [first, second], [a, b]);
                    }
                }
            }
        }
    }
    // The places are two of up to 40: as many as there are ways to choose three of 41.
    let fault = 41 * 40 * 39 / 6 * 64;
    assert_eq!(seen.0, [0, fault, 0]);
}

/// The next place and one further on.
#[test]
fn two_faults_from_every_place_of_a_long_text() {
    let mut seen = Seen::default();
    let mut rng = Rng::new(9);
    let mut text = good_text(LONG_TEXT);
    for first in 0..LONG_TEXT - 1 {
        for second in [first + 1, rng.within(first + 1..=LONG_TEXT - 1)] {
            let bad = [rng.pick(OUTSIDE), rng.pick(OUTSIDE)];
            two_faults::<LARGE>(&mut seen, &mut text, [first, second], bad);
        }
    }
    let fault = 2 * (LONG_TEXT - 1);
    assert_eq!(seen.0, [0, fault, 0]);
}

/// Characters with unused bits that aren't 0, into each buffer.
#[test]
fn bad_last_characters() {
    let mut seen = Seen::default();
    for length in SHORT_TEXTS.chain(MIDDLE_TEXTS).chain(LONG_TEXTS) {
        let (mut text, step) = (good_text(length), last_step(length));
        for value in (0..64).filter(|value| value % step != 0) {
            text[length - 1] = ALPHABET[value];
            for room in rooms(length) {
                let answer = seen.compare::<LARGE>(&text, room);
                assert_eq!(answer, Answer::Fault(length - 1), "{text:?}");
            }
        }
    }
    // 20 lengths with 60 such characters, 18 with 48; five buffers, but four for a text of two characters.
    let fault = 20 * 60 * 5 - 60 + 18 * 48 * 5;
    assert_eq!(seen.0, [0, fault, 0]);
}

#[test]
fn generated_texts() {
    let mut seen = Seen::default();
    for text in case_generator::base64url_texts(1).take(CASES) {
        for room in rooms(text.len()) {
            seen.compare::<LARGE>(&text, room);
        }
    }
    assert!(seen.0.iter().all(|n| *n > CASES / 4), "{:?}", seen.0);
}

#[test]
fn reference_names_the_same_faults() {
    // The two ways of the reference agree, so that either may stand for it.
    for text in case_generator::base64url_texts(8).take(CASES) {
        let mut out = vec![0; decoded_len(text.len())];
        match (base64url::decode(&text), base64url::decode_into(&text, &mut out)) {
            (Ok(bytes), Ok(n)) => assert_eq!(bytes, out[..n]),
            (Err(a), Err(DecodeError::Fault(b))) => assert_eq!(a, b),
            (a, b) => panic!("{a:?} {b:?}"),
        }
    }
}
