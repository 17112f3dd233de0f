//! Specification, "Both sides of a limit", row by row. Its numbers are written out, so that they are held against those of `limits`.

mod common;

use common::{header_answer, one_key, sign, token, verify, A1_NAMED, A1_TABLE, A1_TOKEN, HEADER, SECRET};
use reference::base64url::{decode, encode, Fault};
use reference::json::{self, Value};

#[test]
fn segments() {
    assert_eq!(encode(&[36, 46, 48, 50]), "JC4wMg");
    assert_eq!(decode(b"JC4wMh"), Err(Fault { place: 5 }));
    assert_eq!(decode(b"JC4wM"), Err(Fault { place: 5 }));
    assert_eq!(decode(b""), Ok(vec![]));
    let header = encode(HEADER.as_bytes());
    let answer = |payload: &str| verify(format!("{header}.{payload}.").as_bytes(), &one_key()).answer;
    assert_eq!(answer("JC4wMg"), 15);
    assert_eq!(answer("JC4wMh"), 4);
    assert_eq!(answer("JC4wM"), 4);
    assert_eq!(answer(""), 15);
}

#[test]
fn headers() {
    assert_eq!(json::read(b"{\"alg\":\"HS256\"}").unwrap().len(), 1);
    for (header, answer) in [
        (r#"{"alg":"HS256"}"#, 12),
        (r#"{"alg":"HS256","kid":"k"}"#, 0),
        (r#"{"alg":"HS256","al\u0067":"HS256"}"#, 8),
        (r#"{"alg":"HS256",}"#, 7),
        (r#"{"alg":"HS256","x":"\uDD1E"}"#, 7),
        (r#"{"alg":"HS256","fmt":2}"#, 10),
        (r#"{"alg":"HS256","crit":["fmt"],"fmt":1e0}"#, 9),
        (r#"{"alg":"HS256","x":[ ]}"#, 12),
        (r#"{"alg":"HS256","kid":"k","x":[ ]}"#, 0),
        (r#"{"alg":"HS256","\u00e9":1,"\u00E9":1}"#, 8),
        (r#"{"alg":"HS256","kid":"k","x":"\u00e9\uD834\udd1e"}"#, 0),
    ] {
        assert_eq!(header_answer(header), answer, "{header}");
    }
    let members = json::read(br#"{"alg":"HS256","x":"\u00e9\uD834\udd1e"}"#).unwrap();
    assert_eq!(members[1].value, Value::String("\u{E9}\u{1D11E}".into()));
    assert_eq!(members[1].words(), [1, 16, 17, 20, 38]);
    let members = json::read(br#"{"alg":"HS256","x":[ ]}"#).unwrap();
    assert_eq!(members[1].value, Value::Array(vec![]));
    assert_eq!(members[1].words(), [6, 16, 17, 19, 22]);
}

#[test]
fn nesting() {
    let header = |arrays: usize| {
        format!(
            "{{\"alg\":\"HS256\",\"kid\":\"k\",\"x\":{}{}}}",
            "[".repeat(arrays),
            "]".repeat(arrays)
        )
    };
    assert_eq!(header_answer(header(15)), 0);
    assert_eq!(header_answer(header(16)), 7);
}

#[test]
fn token_lengths() {
    // 35 characters of header and 43 of signature leave 32,688 for the payload.
    let header = r#"{"alg":"HS256", "kid":"k"}"#;
    let longest = token(header, vec![b'p'; 24_516], SECRET);
    assert_eq!(longest.len(), 32_768);
    assert_eq!(verify(&longest, &one_key()).answer, 0);
    assert_eq!(verify(&[&longest[..], b"A"].concat(), &one_key()).answer, 1);
    assert_eq!(sign(header.as_bytes(), &[b'p'; 24_516], &one_key()), (0, longest));
    assert_eq!(sign(header.as_bytes(), &[b'p'; 24_517], &one_key()).0, 1);
    assert_eq!(verify(&[b'A'; 32_768], &one_key()).answer, 3);
    assert_eq!(verify(&[b'A'; 32_769], &one_key()).answer, 1);
}

#[test]
fn header_lengths() {
    let header = |length: usize| format!("{HEADER:length$}");
    assert_eq!(encode(header(4_096).as_bytes()).len(), 5_462);
    assert_eq!(header_answer(header(4_096)), 0);
    assert_eq!(header_answer(header(4_097)), 5);
}

#[test]
fn shortest_tokens() {
    assert_eq!(verify(b"", &one_key()).answer, 3);
    assert_eq!(verify(b"..", &one_key()).answer, 7);
    let empty_table = [0, 1, 0, 0, 0, 0, 0, 8];
    assert_eq!(verify(b"", &empty_table).answer, 3);
    assert_eq!(verify(b"..", &empty_table).answer, 7);
}

/// The line of the specification's small program.
fn program(token: &[u8], table: &[u8]) -> String {
    let verified = verify(token, table);
    let record = verified.record;
    match verified.answer {
        0 => format!(
            "accepted key={} fmt={} payload={}",
            record.key_index, record.format, record.payload_length
        ),
        answer => format!("refused {answer}"),
    }
}

#[test]
fn examples_of_the_program() {
    assert_eq!(program(A1_NAMED, A1_TABLE), "accepted key=0 fmt=1 payload=70");
    assert_eq!(program(A1_TOKEN, A1_TABLE), "refused 12");
    assert_eq!(program(&[A1_NAMED, b"\n"].concat(), A1_TABLE), "refused 4");
    assert_eq!(program(A1_NAMED, b""), "refused 2");
    assert_eq!(program(b"", A1_TABLE), "refused 3");
    assert_eq!(program(b"", b""), "refused 2");
}
