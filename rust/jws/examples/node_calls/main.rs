//! Writes files of calls that are to be made on another processor, and what the archive linked here leaves after each
//! of them, so that the two can be compared byte by byte:
//!
//!     node_calls FOLDER COUNT
//!
//! - `calls.bin` has the published tokens and one that names the key of RFC 7515 A.1, then COUNT generated calls each of
//!   the verifier, the signer and the member reader in turn, then calls with words wider than 32 bits; `expected.bin` has
//!   their outcomes;
//! - `figures.bin` has the calls whose instructions and stack are measured, `figures.txt` a line for each that names
//!   it, and `figures_expected.bin` their outcomes.
//!
//! `call.rs` says how a call and its outcome stand in a file. Where a call's function would stand, 0 ends the file.

#![allow(unsafe_code)] // raw calls of the archive

mod call;
#[path = "../../tests/common/mod.rs"]
mod common;
mod published;

use std::collections::BTreeMap;
use std::path::Path;

use call::{Call, Function, Outcome};
use common::{by_answer, deepest_headers, token_of, Calls, GARBAGE, LONG_PAYLOAD, NO_CALLS};
use jws::ffi::RECORD_WORDS;
use jws::{HEADER_MAX, PAYLOAD_MAX, TOKEN_MAX};
use published::{named, nameless, SignedToken, A1_TABLE};

/// The functions that refuse, with the answers that they give.
const ANSWERS: [(Function, &[usize]); 3] = [
    (
        Function::Verify,
        &[0, 1, 2, 3, 4, 5, 6, 7, 8, 9, 10, 11, 12, 13, 14, 15],
    ),
    (Function::Sign, &[0, 1, 2, 5, 6, 7, 8, 9, 10, 11, 12, 13, 14]),
    (Function::Member, &[0, 5, 7, 8, 16]),
];

/// Calls one after the other and their outcomes, as they go into two files.
#[derive(Default)]
struct Series {
    calls: Vec<u8>,
    outcomes: Vec<u8>,
    count: usize,
    /// How many calls of a function that refuses got each answer.
    answers: BTreeMap<Function, Calls>,
}

impl Series {
    /// Makes a call and adds it.
    fn add(&mut self, call: Call) -> Outcome {
        let outcome = call.outcome();
        call.write(&mut self.calls);
        outcome.write(&mut self.outcomes);
        self.count += 1;
        if ANSWERS.iter().any(|&(function, _)| function == call.function) {
            let calls = self.answers.entry(call.function).or_insert(NO_CALLS);
            calls[outcome.answer as usize] += 1;
        }
        outcome
    }

    /// The same of the call at places that change from call to call.
    fn add_placed(&mut self, call: Call) -> Outcome {
        self.add(call.placed(self.count))
    }

    fn calls_of(&self, function: Function) -> Calls {
        self.answers.get(&function).copied().unwrap_or(NO_CALLS)
    }

    fn write(mut self, folder: &Path, calls: &str, outcomes: &str) {
        self.calls.extend(0_u32.to_le_bytes());
        write(folder, calls, &self.calls);
        write(folder, outcomes, &self.outcomes);
    }
}

fn write(folder: &Path, name: &str, bytes: &[u8]) {
    let path = folder.join(name);
    std::fs::write(&path, bytes).unwrap_or_else(|error| panic!("{}: {error}", path.display()));
}

/// A token that names its key: accepted with exact and with ample buffers, refused with another signature, and signed
/// again.
fn add_named(series: &mut Series, published: &SignedToken) {
    let (token, table) = (&published.token[..], &published.table[..]);
    let (header, payload, forged) = (published.header(), published.payload(), published.forged());
    for [header_len, payload_len] in [[header.len(), payload.len()], [HEADER_MAX, PAYLOAD_MAX]] {
        let accepted = series.add_placed(Call::verify(token, table, header_len, payload_len));
        assert_eq!(accepted.answer, 0);
        assert_eq!(accepted.words()[..2], [header.len() as u64, payload.len() as u64]);
        assert!(accepted.area(2).starts_with(&header) && accepted.area(3).starts_with(&payload));
        let refused = series.add_placed(Call::verify(&forged, table, header_len, payload_len));
        assert_eq!(refused.answer, 15);
    }
    for token_len in [token.len(), TOKEN_MAX] {
        let signed = series.add_placed(Call::sign(&header, &payload, table, token_len));
        assert_eq!((signed.answer, signed.words()), (0, &[token.len() as u64][..]));
        assert!(signed.area(3).starts_with(token));
    }
}

/// A token that names no key: refused with 12, whatever its signature is, and not signed.
fn add_nameless(series: &mut Series, published: &SignedToken) {
    let (header, payload, table) = (published.header(), published.payload(), &published.table[..]);
    for token in [&published.token, &published.forged()] {
        for [header_len, payload_len] in [[header.len(), payload.len()], [HEADER_MAX, PAYLOAD_MAX]] {
            let refused = series.add_placed(Call::verify(token, table, header_len, payload_len));
            assert_eq!(refused.answer, 12);
        }
    }
    for token_len in [published.token.len(), TOKEN_MAX] {
        let refused = series.add_placed(Call::sign(&header, &payload, table, token_len));
        assert_eq!(refused.answer, 12);
    }
}

/// `count` generated calls each of the verifier, the signer and the member reader, in turn.
fn add_generated(series: &mut Series, count: usize) {
    let verify = case_generator::verify_cases(51);
    let sign = case_generator::sign_cases(52);
    let member = case_generator::member_cases(53);
    for ((verify, sign), member) in verify.zip(sign).zip(member).take(count) {
        let (header_len, payload_len) = (verify.header_len, verify.payload_len);
        series.add_placed(Call::verify(&verify.token, &verify.table, header_len, payload_len));
        series.add_placed(Call::sign(&sign.header, &sign.payload, &sign.table, sign.token_len));
        series.add_placed(Call::member(&member.header, member.k as u64));
    }
}

/// Calls by words whose higher halves count: a member that is there by the lower half alone, and payloads and buffers
/// longer than 32 bits can say. Then the boundary.
fn add_wide(series: &mut Series) {
    let (wide, widest) = (1 << 32, (1 << 63) - 1);
    for (k, answer) in [(0, 0), (1, 0), (2, 16), (wide, 16), (wide + 1, 16), (u64::MAX, 16)] {
        let outcome = series.add_placed(Call::member(br#"{"a":1,"b":2}"#, k));
        assert_eq!(outcome.answer, answer);
    }
    for length in [0, 5, 6, wide, wide + 5, u64::MAX] {
        for room in [0, 5, wide, wide + 4, widest] {
            let mut record = [GARBAGE; RECORD_WORDS];
            record[1] = length;
            let outcome = series.add(Call::payload(&record, room));
            assert_eq!(outcome.answer, if length <= room { length } else { 0 });
        }
    }
    assert_eq!(series.add(Call::boundary()).answer, u64::from(jws::BOUNDARY));
}

/// A call that is measured: its name, the call, and the answer that it must get.
type Figure = (&'static str, Call, u64);

/// Verifies with the key of RFC 7515 A.1 and buffers that always suffice.
fn verify(token: &[u8]) -> Call {
    Call::verify(token, A1_TABLE, HEADER_MAX, PAYLOAD_MAX)
}

/// Signs likewise.
fn sign(header: &[u8], payload: &[u8]) -> Call {
    Call::sign(header, payload, A1_TABLE, TOKEN_MAX)
}

/// A token that [`verify`] finds rightly signed.
fn signed(header: &str, payload: &[u8]) -> Vec<u8> {
    token_of(header, payload, &A1_TABLE[32..])
}

/// Tokens of 179 and of 16,000 bytes, as in `benches/tokens.rs`.
fn timed() -> Vec<Figure> {
    let header = r#"{"alg":"HS256","kid":"RFC 7515 A.1"}"#;
    let payloads = [64, 11_930].map(|length| {
        let rest = (8..length).map(|at: usize| (at * 31) as u8);
        b"00000000".iter().copied().chain(rest).collect::<Vec<u8>>()
    });
    let [short, long] = payloads.each_ref().map(|payload| signed(header, payload));
    assert_eq!([short.len(), long.len()], [179, 16_000]);
    vec![
        ("verify 179", verify(&short), 0),
        ("verify 16000", verify(&long), 0),
        ("sign 179", sign(header.as_bytes(), &payloads[0]), 0),
        ("sign 16000", sign(header.as_bytes(), &payloads[1]), 0),
    ]
}

/// A token with its signature changed in one character, at each place, to one of the same sort: how many instructions a refusal takes may
/// not tell where.
fn forged() -> Vec<Figure> {
    let [SignedToken { token: good, .. }, ..] = named();
    (good.len() - 43..good.len())
        .map(|at| {
            let mut token = good.clone();
            token[at] = match token[at] {
                b'-' => b'_',
                b'_' => b'-',
                // The last character's two lower bits are 0; a step of 4 keeps them so.
                byte @ (b'0'..=b'5' | b'A'..=b'V' | b'a'..=b'v') => byte + 4,
                byte => byte - 4,
            };
            ("forged", verify(&token), 15)
        })
        .collect()
}

/// Calls over the deepest headers, as `tests/boundary.rs` makes them.
fn deepest() -> Vec<Figure> {
    let (mut verifying, mut signing, mut reading) = (Vec::new(), Vec::new(), Vec::new());
    for (header, answer) in deepest_headers() {
        let answer = u64::from(answer);
        for payload in [&b""[..], &LONG_PAYLOAD] {
            verifying.push(("stack verify", verify(&signed(&header, payload)), answer));
        }
        signing.push(("stack sign", sign(header.as_bytes(), b""), answer));
        for k in [0, 4] {
            reading.push(("stack member", Call::member(header.as_bytes(), k), answer));
        }
    }
    [verifying, signing, reading].into_iter().flatten().collect()
}

fn write_figures(folder: &Path) {
    let (mut series, mut names) = (Series::default(), String::new());
    for (name, call, answer) in timed().into_iter().chain(forged()).chain(deepest()) {
        assert_eq!(series.add(call).answer, answer, "{name}");
        names.push_str(name);
        names.push('\n');
    }
    series.write(folder, "figures.bin", "figures_expected.bin");
    write(folder, "figures.txt", names.as_bytes());
}

/// How many calls there are, and how many got each answer. Each came up at least 3 times, if 2,000 calls or more of
/// each function were generated.
fn report(series: &Series, count: usize) -> String {
    let (mut words, mut others) = (format!("{} calls", series.count), series.count);
    for (function, answers) in ANSWERS {
        let (name, calls) = (format!("{function:?}").to_lowercase(), series.calls_of(function));
        words.push_str(&format!("; {name}: {}", by_answer(&calls, answers)));
        others -= calls.iter().sum::<usize>();
        for &answer in answers {
            let often = calls[answer] >= 3 || count < 2_000;
            assert!(often, "{name} answers {answer} {} times", calls[answer]);
        }
    }
    format!("{words}; payload and boundary: {others} calls")
}

fn main() {
    let words: Vec<String> = std::env::args().skip(1).collect();
    let [folder, count] = &words[..] else {
        panic!("usage: node_calls FOLDER COUNT");
    };
    let (folder, count) = (Path::new(folder), count.parse().expect("COUNT is a number"));
    std::fs::create_dir_all(folder).expect("FOLDER can be made");

    let mut series = Series::default();
    for published in named() {
        add_named(&mut series, &published);
    }
    for published in nameless() {
        add_nameless(&mut series, &published);
    }
    add_generated(&mut series, count);
    add_wide(&mut series);
    println!("{}", report(&series, count));
    series.write(folder, "calls.bin", "expected.bin");
    write_figures(folder);
}
