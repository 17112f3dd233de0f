//! Tokens to and from another library (`tools/other_library.py`), which spells what isn't ASCII by `\u` escapes with small letters: what it
//! signs is accepted and signed again to the same bytes, and what is signed here it accepts. It has a SHA-256 of its own, so that payloads
//! are long too.

mod common;

use std::io::Write as _;
use std::thread;

use case_generator::header::quoted;
use case_generator::rng::Rng;
use common::{cases_or, python, sign, table_of, verify};
use jws::{HEADER_MAX, PAYLOAD_MAX, TOKEN_MAX};

const SEED: u64 = 61;

/// What a token is made of.
struct Case {
    secret: [u8; 32],
    kid: String,
    payload: Vec<u8>,
}

impl Case {
    /// One to twelve characters of any length, and up to 40 bytes.
    fn new(case: usize) -> Self {
        let rng = &mut Rng::of_case(SEED, case as u64);
        let character = |rng: &mut Rng| match rng.below(4) {
            0 => char::from(rng.within(0x20..=0x7E) as u8),
            1 => rng.pick(&['é', 'ü', 'ñ', 'ß', 'Ç', '€', '𝄞']),
            2 => char::from_u32(rng.within(0x80..=0xFFFF) as u32).unwrap_or('ÿ'),
            _ => char::from_u32(rng.within(0x1_0000..=0x10_FFFF) as u32).unwrap_or('ÿ'),
        };
        let length = rng.within(1..=12);
        let kid = (0..length).map(|_| character(rng)).collect();
        let mut secret = [0; 32];
        secret.copy_from_slice(&rng.bytes(32));
        let length = rng.below(41);
        let payload = rng.bytes(length);
        Case { secret, kid, payload }
    }

    /// The same with a payload of this length.
    fn long(length: usize) -> Self {
        Case {
            payload: Rng::new(length as u64).bytes(length),
            ..Case::new(length)
        }
    }

    fn table(&self) -> Vec<u8> {
        table_of(self.kid.as_bytes(), &self.secret)
    }
}

/// Short payloads; then those of every length up to 2,300, and some about as long as fits with any of these headers.
fn cases() -> Vec<Case> {
    let long = (0..=2_300).chain(24_300..=24_310).map(Case::long);
    (0..cases_or(2_000)).map(Case::new).chain(long).collect()
}

fn hex(bytes: &[u8]) -> String {
    match bytes {
        [] => "-".into(),
        _ => bytes.iter().map(|byte| format!("{byte:02x}")).collect(),
    }
}

/// What the other library answers to some requests, a line each; `None` where there is no Python.
fn asked(requests: Vec<String>) -> Option<Vec<String>> {
    let mut library = python("other_library.py", &[])?;
    let count = requests.len();
    let mut input = library.stdin.take().unwrap();
    let writer = thread::spawn(move || {
        for request in requests {
            writeln!(input, "{request}").unwrap();
        }
    });
    let output = library.wait_with_output().unwrap();
    writer.join().unwrap();
    assert!(output.status.success());
    let said = String::from_utf8(output.stdout).unwrap();
    let (name, answers) = said.split_once('\n').unwrap();
    println!("{count} tokens, {name}");
    let answers: Vec<String> = answers.lines().map(String::from).collect();
    assert_eq!(answers.len(), count);
    Some(answers)
}

/// Whether a header has a `\u` escape with a small letter, and with a small surrogate.
fn small_digits(header: &[u8]) -> [bool; 2] {
    let digits = |part: &[u8]| part[2..].iter().any(u8::is_ascii_lowercase);
    [
        header.windows(6).any(|part| part.starts_with(b"\\u") && digits(part)),
        header.windows(4).any(|part| part.starts_with(b"\\ud")),
    ]
}

#[test]
fn its_tokens_are_accepted_and_signed_again() {
    let cases = cases();
    let request = |case: &Case| {
        let [secret, kid, payload] = [&case.secret[..], case.kid.as_bytes(), &case.payload].map(hex);
        format!("sign {secret} {kid} {payload}")
    };
    let Some(tokens) = asked(cases.iter().map(request).collect()) else {
        return;
    };
    let mut small = [0; 2];
    for (case, token) in cases.iter().zip(&tokens) {
        let room = if case.payload.len() <= 40 { 40 } else { PAYLOAD_MAX };
        let verified = verify(token.as_bytes(), &case.table(), HEADER_MAX, room);
        assert_eq!(verified.answer, 0, "{:?}: {token}", case.kid);
        let (header, payload) = verified.parts();
        assert_eq!(payload, case.payload);
        let signed = sign(header, payload, &case.table(), token.len());
        assert_eq!(signed.token(), token.as_bytes());
        for (count, has) in small.iter_mut().zip(small_digits(header)) {
            *count += usize::from(has);
        }
    }
    println!("with small digits, with a small surrogate: {small:?}");
    assert!(small.iter().all(|count| *count > cases.len() / 2));
}

#[test]
fn it_accepts_what_is_signed_here() {
    let cases = cases();
    let request = |(i, case): (usize, &Case)| {
        let kid = quoted(&mut Rng::of_case(SEED, i as u64), &case.kid, 1 + i % 3);
        let header = format!("{{\"alg\":\"HS256\",\"kid\":{kid}}}");
        let signed = sign(header.as_bytes(), &case.payload, &case.table(), TOKEN_MAX);
        assert_eq!(signed.answer, 0, "{header}");
        format!("verify {} {}", hex(&case.secret), hex(signed.token()))
    };
    let Some(answers) = asked(cases.iter().enumerate().map(request).collect()) else {
        return;
    };
    for (case, answer) in cases.iter().zip(&answers) {
        assert_eq!(*answer, format!("{} {}", hex(case.kid.as_bytes()), hex(&case.payload)));
    }
}
