//! What the tests share.

#![allow(dead_code)] // each test file uses a part of it
#![allow(unsafe_code)] // raw calls of the archive

#[path = "../../../reference/tests/common/rfc7520.rs"]
pub mod rfc7520;

use std::io::ErrorKind;
use std::process::{Child, Command, Stdio};

use jws::{ffi, Refusal, TOKEN_MAX};
use reference::limits::DEPTH_MAX;

/// How many cases a test runs: `CASES` of the environment, or this many.
pub fn cases_or(count: usize) -> usize {
    match std::env::var("CASES") {
        Ok(count) => count.parse().expect("CASES is a number"),
        Err(_) => count,
    }
}

/// `CASES` of the environment, or 20,000.
pub fn cases() -> usize {
    cases_or(20_000)
}

/// A script of `tools/`, its input and output piped; none where there is no Python, which is said.
pub fn python(script: &str, options: &[&str]) -> Option<Child> {
    let path = format!("{}/../tools/{script}", env!("CARGO_MANIFEST_DIR"));
    let (input, output) = (Stdio::piped(), Stdio::piped());
    match Command::new("python3")
        .arg(path)
        .args(options)
        .stdin(input)
        .stdout(output)
        .spawn()
    {
        Err(error) if error.kind() == ErrorKind::NotFound => {
            println!("no python3 here: not compared");
            None
        }
        other => Some(other.unwrap()),
    }
}

/// What stands before a call in the words that are written and beside them; its bytes, in buffers.
pub const GARBAGE: u64 = 0xA5A5_A5A5_A5A5_A5A5;

/// A buffer to lend: garbage, with a few bytes on both sides that a call has to leave as they are.
struct Lent(Vec<u8>);

impl Lent {
    const SIDE: usize = 16;

    fn new(length: usize) -> Self {
        Lent(vec![GARBAGE as u8; length + 2 * Self::SIDE])
    }

    fn part(&mut self) -> &mut [u8] {
        let end = self.0.len() - Self::SIDE;
        &mut self.0[Self::SIDE..end]
    }

    /// What a call left in it.
    fn taken(mut self) -> Vec<u8> {
        let part = self.part().to_vec();
        let (before, rest) = self.0.split_at(Self::SIDE);
        let (_, after) = rest.split_at(part.len());
        assert_eq!([before, after], [[GARBAGE as u8; Self::SIDE]; 2]);
        part
    }
}

/// A raw call: the answer and the words, which hold garbage before. The words beside them stay as they are.
pub fn raw_member(header: &[u8], k: usize) -> (u8, [u64; 5]) {
    let mut words = [[GARBAGE; 5]; 3];
    // SAFETY: the pointer goes with the slice's length, and the words are this function's own.
    let answer = unsafe { ffi::jws_member(header.as_ptr(), header.len() as u64, k as u64, &mut words[1]) };
    assert_eq!([words[0], words[2]], [[GARBAGE; 5]; 2]);
    (answer, words[1])
}

/// What a call of the verifier leaves.
#[derive(Clone, Debug, PartialEq, Eq)]
pub struct Verified {
    pub answer: u8,
    pub words: [u64; 9],
    pub header: Vec<u8>,
    pub payload: Vec<u8>,
}

impl Verified {
    /// The accepted header and payload.
    pub fn parts(&self) -> (&[u8], &[u8]) {
        let [header, payload, ..] = self.words.map(|word| word as usize);
        (&self.header[..header], &self.payload[..payload])
    }
}

/// What a call of the signer leaves.
#[derive(Clone, Debug, PartialEq, Eq)]
pub struct Signed {
    pub answer: u8,
    pub length: u64,
    pub buffer: Vec<u8>,
}

impl Signed {
    pub fn token(&self) -> &[u8] {
        &self.buffer[..self.length as usize]
    }
}

/// A raw call of the proved verifier; what is lent for writing holds garbage before.
pub fn raw_verify(token: &[u8], table: &[u8], header_len: usize, payload_len: usize) -> Verified {
    let mut words = [[GARBAGE; 9]; 3];
    let (mut header, mut payload) = (Lent::new(header_len), Lent::new(payload_len));
    // SAFETY: each pointer goes with the length of its own part, and what is written is this function's own.
    let answer = unsafe {
        ffi::jws_verify(
            token.as_ptr(),
            token.len() as u64,
            table.as_ptr(),
            table.len() as u64,
            header.part().as_mut_ptr(),
            header_len as u64,
            payload.part().as_mut_ptr(),
            payload_len as u64,
            &mut words[1],
        )
    };
    assert_eq!([words[0], words[2]], [[GARBAGE; 9]; 2]);
    Verified {
        answer,
        words: words[1],
        header: header.taken(),
        payload: payload.taken(),
    }
}

/// A raw call of the proved signer; what is lent for writing holds garbage before.
pub fn raw_sign(header: &[u8], payload: &[u8], table: &[u8], token_len: usize) -> Signed {
    let mut length = [GARBAGE; 3];
    let mut token = Lent::new(token_len);
    // SAFETY: each pointer goes with the length of its own part, and what is written is this function's own.
    let answer = unsafe {
        ffi::jws_sign(
            header.as_ptr(),
            header.len() as u64,
            payload.as_ptr(),
            payload.len() as u64,
            table.as_ptr(),
            table.len() as u64,
            token.part().as_mut_ptr(),
            token_len as u64,
            &mut length[1],
        )
    };
    assert_eq!([length[0], length[2]], [GARBAGE; 2]);
    Signed {
        answer,
        length: length[1],
        buffer: token.taken(),
    }
}

/// The same of the reference.
pub fn reference_verify(token: &[u8], table: &[u8], header_len: usize, payload_len: usize) -> Verified {
    let (mut header, mut payload) = (vec![1; header_len], vec![2; payload_len]);
    let (answer, record) = reference::token::verify(token, table, &mut header, &mut payload);
    Verified {
        answer,
        words: record.words(),
        header,
        payload,
    }
}

/// The same of the reference.
pub fn reference_sign(header: &[u8], payload: &[u8], table: &[u8], token_len: usize) -> Signed {
    let mut buffer = vec![3; token_len];
    let (answer, length) = reference::token::sign(header, payload, table, &mut buffer);
    Signed {
        answer,
        length: length as u64,
        buffer,
    }
}

/// The safe function's result as raw words.
pub fn safe_verify(token: &[u8], table: &[u8], header_len: usize, payload_len: usize) -> Verified {
    let (mut header, mut payload) = (vec![4; header_len], vec![5; payload_len]);
    let result = jws::verify(token, table, &mut header, &mut payload);
    let words = result.as_ref().map_or([0; 9], |record| {
        let typ = record.typ.clone().unwrap_or_default();
        let cty = record.cty.clone().unwrap_or_default();
        [
            record.header_length,
            record.payload_length,
            record.key_index,
            usize::from(record.kid_present),
            usize::from(record.format),
            typ.start,
            typ.len(),
            cty.start,
            cty.len(),
        ]
        .map(|word| word as u64)
    });
    Verified {
        answer: number(result),
        words,
        header,
        payload,
    }
}

/// The safe function's result as raw words.
pub fn safe_sign(header: &[u8], payload: &[u8], table: &[u8], token_len: usize) -> Signed {
    let mut buffer = vec![6; token_len];
    let result = jws::sign(header, payload, table, &mut buffer);
    Signed {
        answer: number(result),
        length: result.unwrap_or(0) as u64,
        buffer,
    }
}

fn number<T, E: Into<Refusal>>(result: Result<T, E>) -> u8 {
    result.map_or_else(|error| error.into().number(), |_| 0)
}

/// Verifies by the proved code, raw and safe, and by the reference, which all agree.
pub fn verify(token: &[u8], table: &[u8], header_len: usize, payload_len: usize) -> Verified {
    let expected = reference_verify(token, table, header_len, payload_len);
    assert_eq!(raw_verify(token, table, header_len, payload_len), expected);
    assert_eq!(safe_verify(token, table, header_len, payload_len), expected);
    expected
}

/// Signs by the proved code, raw and safe, and by the reference, which all agree.
pub fn sign(header: &[u8], payload: &[u8], table: &[u8], token_len: usize) -> Signed {
    let expected = reference_sign(header, payload, table, token_len);
    assert_eq!(raw_sign(header, payload, table, token_len), expected);
    assert_eq!(safe_sign(header, payload, table, token_len), expected);
    expected
}

/// How many calls got each answer, by its number.
pub type Calls = [usize; 256];

pub const NO_CALLS: Calls = [0; 256];

/// How many calls got each of these answers, in words.
pub fn by_answer(calls: &Calls, answers: &[usize]) -> String {
    let counts: Vec<String> = answers
        .iter()
        .map(|&answer| format!("{answer}: {}", calls[answer]))
        .collect();
    format!("{} calls ({})", calls.iter().sum::<usize>(), counts.join(", "))
}

/// How many calls got each of the member reader's answers, in words.
pub fn calls_by_answer(calls: &Calls) -> String {
    by_answer(calls, &[0, 5, 7, 8, 16])
}

/// A header that names the key of [`one_key`], 35 characters in a token. Without its space no payload would fill a token
/// up to the longest.
pub const HEADER: &str = r#"{"alg":"HS256", "kid":"k"}"#;

/// The payload that does so under [`HEADER`]: it has all characters but these, two periods and 43 of signature.
pub static LONGEST_PAYLOAD: [u8; (TOKEN_MAX - 35 - 45) / 4 * 3] = [b'p'; (TOKEN_MAX - 35 - 45) / 4 * 3];

/// A long payload, that fits a token with any of [`deepest_headers`].
pub static LONG_PAYLOAD: [u8; TOKEN_MAX / 3 * 2] = [b'p'; TOKEN_MAX / 3 * 2];

/// The table of one key, id `k`, HS256 and format 1, of the secret that it ends with.
pub fn one_key() -> Vec<u8> {
    table_of(b"k", b"a secret of thirty-two bytes, so")
}

/// The table of one key, HS256 and format 1: its id and then its secret, at the end.
pub fn table_of(id: &[u8], secret: &[u8; 32]) -> Vec<u8> {
    let (id_len, secret_at) = (id.len() as u8, 20 + id.len() as u8);
    let mut table = vec![0, 1, 0, 1, 0, 0, 0, secret_at + 32];
    table.extend([0, 20, 0, id_len, 0, secret_at, 0, 32, 1, 1, 0, 0]);
    table.extend(id);
    table.extend(secret);
    table
}

/// The table of the key of RFC 7520's token.
pub fn rfc7520_table() -> Vec<u8> {
    let secret = reference::base64url::decode(rfc7520::SECRET).expect("base64url");
    table_of(rfc7520::KEY_ID.as_bytes(), &secret.try_into().expect("32 bytes"))
}

/// Headers that are as deep as can be, of arrays and objects in their last member, with values of several kinds inside;
/// and one level deeper, which is refused. Each with its answer.
pub fn deepest_headers() -> Vec<(String, u8)> {
    let mut headers = Vec::new();
    for inner in ["0", "\"\u{10FFFF}\"", "\"\\uDBFF\\uDFFF\"", "-1.5e3", "true"] {
        for depth in [DEPTH_MAX, DEPTH_MAX + 1] {
            for brackets in ["[[", "{{", "[{", "{["] {
                let (mut open, mut close) = (String::new(), String::new());
                // The top object is the first level.
                for level in 1..depth {
                    let array = brackets.as_bytes()[level % 2] == b'[';
                    open.push_str(if array { "[" } else { "{\"\u{10FFFF}\":" });
                    close.insert(0, if array { ']' } else { '}' });
                }
                let known = r#""alg":"HS256","kid":"RFC 7515 A.1","crit":["fmt"],"fmt":1"#;
                let header = format!("{{{known},\"x\":{open}{inner}{close}}}");
                headers.push((header, if depth == DEPTH_MAX { 0 } else { 7 }));
            }
        }
    }
    headers
}

/// A token of any header and payload, whatever the rules say.
pub fn token_of(header: &str, payload: &[u8], secret: &[u8]) -> Vec<u8> {
    let encode = reference::base64url::encode;
    let signed = format!("{}.{}", encode(header.as_bytes()), encode(payload));
    let mac = reference::hmac::hmac_sha256(secret, signed.as_bytes());
    format!("{signed}.{}", encode(&mac)).into_bytes()
}
