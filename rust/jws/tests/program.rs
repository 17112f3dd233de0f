//! The program `verify_token`, as `rt ci` makes it, in folders of its own.

mod common;

use std::fs;
use std::path::{Path, PathBuf};
use std::process::Command;

use common::{HEADER, LONGEST_PAYLOAD};
use jws::TOKEN_MAX;
use reference::limits::TABLE_MAX;

const HERE: &str = env!("CARGO_MANIFEST_DIR");

/// The program's standard output in a folder that has these files.
fn output(folder: &str, table: Option<&[u8]>, token: Option<&[u8]>) -> String {
    output_with(folder, table, token, &[])
}

/// The same with these variables in its environment.
fn output_with(folder: &str, table: Option<&[u8]>, token: Option<&[u8]>, variables: &[(&str, &str)]) -> String {
    let program = Path::new(HERE).join("../../crates/verify_token/out/verify_token");
    assert!(program.exists(), "{} isn't there: run `rt ci` first", program.display());
    let folder = PathBuf::from(env!("CARGO_TARGET_TMPDIR"))
        .join("verify_token")
        .join(folder);
    let _ = fs::remove_dir_all(&folder);
    fs::create_dir_all(&folder).unwrap();
    for (name, bytes) in [("table.bin", table), ("token.txt", token)] {
        if let Some(bytes) = bytes {
            fs::write(folder.join(name), bytes).unwrap();
        }
    }
    let output = Command::new(program.canonicalize().unwrap())
        .current_dir(folder)
        .envs(variables.iter().copied())
        .output()
        .unwrap();
    assert_eq!(output.stderr, b"");
    String::from_utf8(output.stdout).unwrap()
}

/// A file of RFC 7515 A.1: the table of its key; its token, whose header has no `kid`; or its payload under a header that
/// names the key.
fn published(name: &str) -> Vec<u8> {
    fs::read(Path::new(HERE).join("../../crates/verify_token/data").join(name)).unwrap()
}

/// What is said of the payload of RFC 7515 A.1.
const A1_ACCEPTED: &str = "accepted key=0 fmt=1 payload=70\n";

#[test]
fn named_token() {
    let (table, token) = (published("table.bin"), published("token.txt"));
    assert_eq!(token.len(), 203);
    assert_eq!(output("named", Some(&table), Some(&token)), A1_ACCEPTED);
    let lined = [&token[..], b"\n"].concat();
    assert_eq!(output("newline", Some(&table), Some(&lined)), "refused 4\n");
}

/// RFC 7515's token names no key; that of RFC 7520 does.
#[test]
fn published_tokens() {
    let (table, token) = (published("table.bin"), published("nameless.txt"));
    assert_eq!(token.len(), 179);
    assert_eq!(output("rfc7515", Some(&table), Some(&token)), "refused 12\n");

    let (table, token) = (common::rfc7520_table(), common::rfc7520::TOKEN);
    let accepted = "accepted key=0 fmt=1 payload=167\n";
    assert_eq!(output("rfc7520", Some(&table), Some(token)), accepted);
}

#[test]
fn missing_files() {
    let (table, token) = (published("table.bin"), published("token.txt"));
    assert_eq!(output("none", None, None), "refused 2\n");
    assert_eq!(output("no-table", None, Some(&token)), "refused 2\n");
    assert_eq!(output("no-token", Some(&table), None), "refused 3\n");
    assert_eq!(output("empty-token", Some(&table), Some(b"")), "refused 3\n");
    assert_eq!(output("periods", Some(&table), Some(b"..")), "refused 7\n");
}

#[test]
fn longest_files() {
    let mut table = common::one_key();
    let longest = common::raw_sign(HEADER.as_bytes(), &LONGEST_PAYLOAD, &table, TOKEN_MAX).buffer;
    let accepted = format!("accepted key=0 fmt=1 payload={}\n", LONGEST_PAYLOAD.len());
    assert_eq!(output("longest", Some(&table), Some(&longest)), accepted);
    let longer = [&longest[..], b"A"].concat();
    assert_eq!(output("longer", Some(&table), Some(&longer)), "refused 1\n");
    assert_eq!(output("letters", Some(&table), Some(&[b'A'; TOKEN_MAX])), "refused 3\n");

    // Bytes in no area at the table's end, and the total with them.
    for (length, expected) in [(TABLE_MAX, accepted.as_str()), (TABLE_MAX + 1, "refused 2\n")] {
        table.resize(length, 0);
        table[4..8].copy_from_slice(&(length as u32).to_be_bytes());
        assert_eq!(output("table", Some(&table), Some(&longest)), expected);
    }
}

/// A read that fails after some bytes: what was read isn't judged, and the file counts as one that can't be opened.
#[test]
fn reads_that_fail() {
    let shim = Path::new(env!("CARGO_TARGET_TMPDIR")).join("failing_read.so");
    let built = Command::new("cc")
        .args(["-O2", "-Wall", "-Wextra", "-Werror", "-shared", "-fPIC", "-o"])
        .arg(&shim)
        .arg(format!("{HERE}/tests/c/failing_read.c"))
        .status()
        .unwrap();
    assert!(built.success());
    let (table, token) = (published("table.bin"), published("token.txt"));
    let (longer_table, longer_token) = ([&table[..], b"?"].concat(), [&token[..], b"?"].concat());
    let shim = shim.to_str().unwrap();
    let run = |table: &[u8], token: &[u8], file: &str, after: usize| {
        let after = after.to_string();
        let variables = [("LD_PRELOAD", shim), ("FAILS_IN", file), ("FAILS_AFTER", &after)];
        output_with("failing", Some(table), Some(token), &variables)
    };
    // The bytes before the fault are a good token and a good table; judged alone they would be accepted.
    assert_eq!(run(&table, &longer_token, "token.txt", 203), "refused 3\n");
    assert_eq!(run(&longer_table, &token, "table.bin", 96), "refused 2\n");
    assert_eq!(run(&table, &token, "token.txt", 0), "refused 3\n");
    // A file that ends before its reads would fail is read.
    assert_eq!(run(&table, &token, "token.txt", 204), A1_ACCEPTED);
    assert_eq!(run(&table, &longer_token, "token.txt", 205), "refused 4\n");
}
