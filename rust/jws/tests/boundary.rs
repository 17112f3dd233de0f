//! `include/jws.h` from C and C++ and beside this crate's constants, the stack that a call takes, and what it leaves there. Needs the C
//! compiler that cargo links with.

#![allow(unsafe_code)] // a raw call of the archive

mod common;

use std::collections::BTreeMap;
use std::io::Write;
use std::path::{Path, PathBuf};
use std::process::{Command, Stdio};

use common::{deepest_headers, token_of, LONG_PAYLOAD};
use jws::ffi::{MEMBER_WORDS, RECORD_WORDS};

const HERE: &str = env!("CARGO_MANIFEST_DIR");

/// Compiles a program of `tests/c` over the archive, with every warning an error; `None` if there is no such compiler.
fn compiled(compiler: &str, words: &[&str], source: &str) -> Option<PathBuf> {
    let program = Path::new(env!("CARGO_TARGET_TMPDIR")).join(format!("{source}-{compiler}"));
    let status = Command::new(compiler)
        .args(words)
        .args(["-O2", "-Wall", "-Wextra", "-Werror", "-pedantic"])
        .arg(format!("-I{HERE}/../../include"))
        .arg(format!("{HERE}/tests/c/{source}"))
        .args(["-x", "none"])
        .arg(env!("JWS_ARCHIVE"))
        .arg("-o")
        .arg(&program)
        .status()
        .ok()?;
    assert!(status.success(), "{compiler} {source}");
    Some(program)
}

/// The constants of `include/jws.h`, each a line `JWS_NAME = number` or `#define JWS_NAME number`, without `JWS_`.
fn constants() -> BTreeMap<String, u64> {
    let header = std::fs::read_to_string(format!("{HERE}/../../include/jws.h")).unwrap();
    let constant = |line: &str| {
        let line = line.trim();
        let (name, rest) = match line.strip_prefix("#define ") {
            Some(defined) => defined.split_once(' ')?,
            None => line.split_once(" = ")?,
        };
        let digits: String = rest.chars().take_while(char::is_ascii_digit).collect();
        Some((name.strip_prefix("JWS_")?.to_string(), digits.parse().ok()?))
    };
    header.lines().filter_map(constant).collect()
}

#[test]
fn sizes_agree() {
    let constants = constants();
    for (name, size) in [
        ("TOKEN_MAX", jws::TOKEN_MAX),
        ("HEADER_MAX", jws::HEADER_MAX),
        ("PAYLOAD_MAX", jws::PAYLOAD_MAX),
        ("RECORD_WORDS", RECORD_WORDS),
        ("MEMBER_WORDS", MEMBER_WORDS),
    ] {
        assert_eq!(constants.get(name), Some(&(size as u64)), "{name}");
    }
    assert_eq!(jws::TOKEN_MAX, reference::limits::TOKEN_MAX);
    assert_eq!(jws::HEADER_MAX, reference::limits::HEADER_MAX);
    assert_eq!(jws::PAYLOAD_MAX, reference::limits::TOKEN_MAX / 4 * 3);
}

#[test]
fn boundaries_agree() {
    assert_eq!(constants().get("BOUNDARY"), Some(&u64::from(jws::BOUNDARY)));
    assert_eq!(jws::boundary(), jws::BOUNDARY);
}

#[test]
fn kinds_agree() {
    use jws::Kind::{Array, False, Null, Number, Object, String, True};
    let constants = constants();
    for kind in [String, Number, True, False, Null, Array, Object] {
        let name = format!("{kind:?}").to_uppercase();
        assert_eq!(constants.get(&name), Some(&kind.number()), "{name}");
    }
}

/// The part of a buffer that holds the payload, by words as they come, some of them out of any record.
#[test]
fn payload_lengths() {
    let mut words = [0xA5; RECORD_WORDS];
    for (length, room, expected) in [
        (0, 0, 0),
        (0, 5, 0),
        (5, 5, 5),
        (5, 6, 5),
        (6, 5, 0),
        (u64::MAX, 5, 0),
        (u64::MAX, u64::MAX, u64::MAX),
        (1 << 32, 5, 0),
    ] {
        words[1] = length;
        // SAFETY: the words are this function's own.
        let part = unsafe { jws::ffi::jws_payload(&words, room) };
        assert_eq!(part, expected, "{length} of {room}");
    }
}

#[test]
fn calls_from_c_and_cpp() {
    let expected = "7 0 0 0 0 0\n\
                    0 1 2 5 8 13\n\
                    16 0 0 0 0 0\n\
                    16 0 0 0 0 0\n\
                    8 0 0 0 0 0\n\
                    7 0 0 0 0 0\n\
                    0 7 44 45 47 50\n\
                    7 0 0 0 0 0\n\
                    5 0 0 0 0 0\n\
                    3 0 0 0 0 0 0 0 0 0\n\
                    7 0 0 0 0 0 0 0 0 0\n\
                    2 0\n\
                    12 0\n\
                    0 79\n\
                    0 25 0 0 1 1 0 0 0 0\n\
                    13\n\
                    0\n\
                    1\n";
    let mut ran = 0;
    for (compiler, words) in [("cc", ["-x", "c", "-std=c99"]), ("c++", ["-x", "c++", "-std=c++98"])] {
        let Some(program) = compiled(compiler, &words, "calls.c") else {
            println!("no {compiler} here");
            continue;
        };
        let output = Command::new(program).output().unwrap();
        assert_eq!(String::from_utf8_lossy(&output.stdout), expected, "{compiler}");
        ran += 1;
    }
    assert!(ran > 0);
}

/// The numbers that a program prints, by its words and its input.
fn numbers(program: &Path, words: &[&str], input: &[u8]) -> Vec<usize> {
    let mut run = Command::new(program)
        .args(words)
        .stdin(Stdio::piped())
        .stdout(Stdio::piped())
        .spawn()
        .unwrap();
    run.stdin.take().unwrap().write_all(input).unwrap();
    let output = run.wait_with_output().unwrap();
    let said = String::from_utf8_lossy(&output.stdout);
    said.split_whitespace().map(|word| word.parse().unwrap()).collect()
}

/// The answer of a call, and the bytes of stack that it takes: the call and its argument as `stack.c` names them, and its input.
fn stack_of(program: &Path, call: &str, argument: &str, input: &[u8]) -> (u8, usize) {
    let said = numbers(program, &[call, argument], input);
    (said[0].try_into().unwrap(), said[1])
}

#[test]
fn stack_of_a_call() {
    // `memset` and `memcpy` are bound at the start: binding them in the call would take the dynamic linker's stack, some 2,000 bytes.
    let program = compiled("cc", &["-x", "c", "-Wl,-z,now"], "stack.c").unwrap();
    let table = format!("{HERE}/../../crates/verify_token/data/table.bin");
    let keys = std::fs::read(&table).unwrap();
    let (mut reading, mut verifying, mut signing) = (0, 0, 0);
    for (header, expected) in deepest_headers() {
        for k in ["0", "4"] {
            let (answer, bytes) = stack_of(&program, "member", k, header.as_bytes());
            assert_eq!(answer, expected, "{header}");
            reading = reading.max(bytes);
        }
        for payload in [&b""[..], &LONG_PAYLOAD] {
            let token = token_of(&header, payload, &keys[32..]);
            let (answer, bytes) = stack_of(&program, "verify", &table, &token);
            assert_eq!(answer, expected, "{header}");
            verifying = verifying.max(bytes);
        }
        let (answer, bytes) = stack_of(&program, "sign", &table, header.as_bytes());
        assert_eq!(answer, expected, "{header}");
        signing = signing.max(bytes);
    }
    let shallow = stack_of(&program, "member", "0", b"{}").1;
    println!("stack of a call on the deepest headers: member {reading} bytes ({shallow} for {{}}), verify {verifying}, sign {signing}");
    assert!(reading <= 4_096 && verifying <= 6_144 && signing <= 6_144);
}

/// What a call computes from a secret of at most 64 bytes, each with its name: whoever has one of them can sign, or has this token's MAC.
fn secrets_of(secret: &[u8], signed: &[u8]) -> Vec<(&'static str, Vec<u8>)> {
    // SHA-256 reads the bytes of a block by fours, the highest first; in memory words stand with the lowest first.
    let words = |block: &[u8]| {
        block
            .chunks_exact(4)
            .flat_map(|four| four.iter().rev().copied())
            .collect::<Vec<_>>()
    };
    let absorbed = |block: &[u8]| {
        let mut hash = reference::sha256::Sha256::new();
        hash.update(block);
        hash.state()
            .iter()
            .flat_map(|word| word.to_le_bytes())
            .collect::<Vec<_>>()
    };
    let pad = |byte: u8| {
        let mut block = [byte; 64];
        block.iter_mut().zip(secret).for_each(|(pad, key)| *pad ^= key);
        block
    };
    let (inner, outer) = (pad(0x36), pad(0x5C));
    vec![
        ("the MAC", reference::hmac::hmac_sha256(secret, signed).to_vec()),
        ("the secret", secret.to_vec()),
        ("the secret xor 0x36", inner.to_vec()),
        ("the secret xor 0x5c", outer.to_vec()),
        ("the secret xor 0x36 as words", words(&inner)),
        ("the secret xor 0x5c as words", words(&outer)),
        ("SHA-256 after the inner pad", absorbed(&inner)),
        ("SHA-256 after the outer pad", absorbed(&outer)),
    ]
}

/// So many bytes in a row may stand on a stack by chance.
const CHANCE: usize = 7;

/// Runs `residue.c` and prints what it finds: the lengths of the runs after the call. After clearing there is nothing.
fn residue_of(
    program: &Path,
    call: &str,
    table: &str,
    input: &[u8],
    expected: u8,
    secrets: &[(&str, Vec<u8>)],
) -> Vec<usize> {
    let hex = |bytes: &[u8]| bytes.iter().map(|byte| format!("{byte:02x}")).collect::<String>();
    let left = [0xC1, 0xC2, 0xC3, 0xC4, 0xC5, 0xC6, 0xC7, 0xC8];
    let looked_for: Vec<String> = [&left[..]]
        .into_iter()
        .chain(secrets.iter().map(|(_, bytes)| &bytes[..]))
        .map(hex)
        .collect();
    let mut words = vec![call, table];
    words.extend(looked_for.iter().map(String::as_str));
    let said = numbers(program, &words, input);
    assert_eq!(said[0], usize::from(expected), "{call}");
    let runs: Vec<(usize, usize)> = said[1..].chunks_exact(2).map(|pair| (pair[0], pair[1])).collect();
    assert_eq!(runs.len(), 1 + secrets.len());
    assert_eq!(runs[0].0, left.len(), "the search finds what the caller left");
    for ((name, bytes), (run, _)) in secrets.iter().zip(&runs[1..]) {
        println!("{call} answers {expected}: {run} of {} bytes of {name}", bytes.len());
    }
    assert!(runs.iter().all(|&(_, cleared)| cleared <= CHANCE), "{call}: {runs:?}");
    runs[1..].iter().map(|&(run, _)| run).collect()
}

/// A call refused before rule 15 leaves nothing of the secret. Any other may, and clearing its stack takes that away.
#[test]
fn residue_of_a_call() {
    let program = compiled("cc", &["-x", "c", "-Wl,-z,now"], "residue.c").unwrap();
    let table = format!("{HERE}/../../crates/verify_token/data/table.bin");
    let keys = std::fs::read(&table).unwrap();
    let header = r#"{"alg":"HS256","kid":"RFC 7515 A.1"}"#;
    let token = token_of(header, b"{\"tank\":2}", &keys[32..]);
    let end = token.iter().rposition(|&byte| byte == b'.').unwrap();
    let secrets = secrets_of(&keys[32..], &token[..end]);

    let mut forged = token.clone();
    forged[end + 1] = if forged[end + 1] == b'A' { b'B' } else { b'A' };
    let mut faulty = token.clone();
    faulty[end + 1] = b'=';
    residue_of(&program, "verify", &table, &forged, 15, &secrets);
    residue_of(&program, "verify", &table, &token, 0, &secrets);
    let runs = residue_of(&program, "verify", &table, &faulty, 4, &secrets);
    assert!(runs.iter().all(|&run| run <= CHANCE), "{runs:?}");

    let empty = token_of(header, b"", &keys[32..]);
    let end = empty.iter().rposition(|&byte| byte == b'.').unwrap();
    residue_of(
        &program,
        "sign",
        &table,
        header.as_bytes(),
        0,
        &secrets_of(&keys[32..], &empty[..end]),
    );
}
