//! `jws-token`: tokens signed and verified, members shown, every refusal told with its number.

mod common;

use std::collections::BTreeMap;

use common::{published, Folder, Ran, TOKEN};
use jws::{HEADER_MAX, PAYLOAD_MAX, TOKEN_MAX};
use jws_cli::encoding::base64url;
use jws_cli::table::{lay_out, Key};
use reference::limits::DEPTH_MAX;

/// Generated calls of each test that runs commands over them.
const CALLS: usize = 200;

/// A header that names the key of RFC 7515 A.1, and the payload of the token there.
const HEADER: &[u8] = br#"{"typ":"JWT","alg":"HS256","kid":"RFC 7515 A.1"}"#;
const PAYLOAD: &[u8] = b"{\"iss\":\"joe\",\r\n \"exp\":1300819380,\r\n \"http://example.com/is_root\":true}";

/// A folder with the table and the tokens of that key and a table of three keys: `a`; `b` without HS256; `c` with format 2 alone.
fn folder(name: &str) -> Folder {
    let folder = Folder::new(name);
    let key = |id: &[u8], algorithms, formats| Key {
        id: id.into(),
        secret: vec![id[0]; 32],
        algorithms,
        formats,
    };
    for name in ["table.bin", "token.txt", "nameless.txt"] {
        folder.write(name, published(name));
    }
    folder.write(
        "three.bin",
        lay_out(&[key(b"a", 1, 0xFF), key(b"b", 0, 0xFF), key(b"c", 1, 2)]),
    );
    folder
}

fn sign(folder: &Folder, table: &str, header: &[u8], payload: &[u8], more: &[&str]) -> Ran {
    folder.write("header.json", header);
    folder.write("payload.bin", payload);
    let words = [
        "sign",
        "--table",
        table,
        "--header",
        "header.json",
        "--payload",
        "payload.bin",
    ];
    folder.run(TOKEN, &[&words[..], more].concat())
}

fn verify(folder: &Folder, table: &str, token: &[u8], more: &[&str]) -> Ran {
    folder.write("given.txt", token);
    folder.run(TOKEN, &[&["verify", "--table", table, "given.txt"][..], more].concat())
}

#[test]
fn token_that_names_its_key() {
    let folder = folder("a1");
    let token = published("token.txt");
    let signed = sign(&folder, "table.bin", HEADER, PAYLOAD, &[]);
    assert_eq!((signed.status, &signed.out, signed.err.as_str()), (0, &token, ""));
    let signed = sign(&folder, "table.bin", HEADER, PAYLOAD, &["--out", "signed.txt"]);
    assert_eq!(signed.done(), "signed.txt: 203 bytes\n");
    assert_eq!(folder.read("signed.txt"), token);

    let report =
        "accepted\nkey: 0\nkid: present\nformat: 1\ntyp: \"JWT\"\ncty: absent\nheader: 48 bytes\npayload: 70 bytes\n";
    let verified = verify(&folder, "table.bin", &token, &["--payload-out", "payload.out"]);
    assert_eq!(verified.done(), report);
    assert_eq!(folder.read("payload.out"), PAYLOAD);
    let help = folder.run(TOKEN, &["verify", "--help"]);
    assert!(help.done().contains(&report.trim_end().replace('\n', "\n  ")));
    let verified = verify(&folder, "table.bin", &token, &["--payload-out=-"]);
    assert_eq!(
        (verified.status, &verified.out[..], verified.err.as_str()),
        (0, PAYLOAD, report)
    );

    let members = "member 0: \"typ\" at 2..5, string \"JWT\" at 8..11\n\
                   member 1: \"alg\" at 14..17, string \"HS256\" at 20..25\n\
                   member 2: \"kid\" at 28..31, string \"RFC 7515 A.1\" at 34..46\n";
    assert_eq!(folder.run(TOKEN, &["members", "--token", "token.txt"]).done(), members);
    assert_eq!(folder.run(TOKEN, &["members", "header.json"]).done(), members);
    assert_eq!(folder.run_on(TOKEN, &["members", "-"], HEADER).done(), members);
    assert_eq!(
        folder.run_on(TOKEN, &["members", "--token", "-"], &token).done(),
        members
    );
}

/// The last line of what is said of a header for which no key is found, the same of verifying and of signing.
fn no_key_found(folder: &Folder, table: &str, header: &[u8]) -> String {
    let verified = verify(folder, table, &unsigned(header), &[]);
    let signed = sign(folder, table, header, b"pp", &[]);
    assert_eq!([verified.refused(), signed.refused()], [12; 2]);
    assert_eq!(verified.err, signed.err);
    let (sentence, here) = signed.err.trim_end().rsplit_once('\n').unwrap();
    assert!(sentence.contains("without `kid` no key is taken"), "{sentence}");
    here.to_string()
}

#[test]
fn why_no_key_is_found() {
    let folder = folder("no-key");
    let nameless = "Here: the header has no `kid`; put the key's id into it, as in \"kid\":\"cellar 2\".";
    for header in [
        r#"{"alg":"HS256"}"#,
        r#"{"alg":"HS256","Kid":"a"}"#,
        r#"{"alg":"HS256","x":{"kid":"a"}}"#,
    ] {
        for table in ["table.bin", "three.bin"] {
            assert_eq!(no_key_found(&folder, table, header.as_bytes()), nameless);
        }
    }
    let verified = folder.run(TOKEN, &["verify", "--table", "table.bin", "nameless.txt"]);
    assert_eq!(verified.refused(), 12);
    assert!(verified.err.ends_with(&format!("\n{nameless}\n")), "{}", verified.err);

    for (member, shown) in [
        (r#""kid":"""#, r#""""#),
        (r#""kid":"A""#, r#""A""#),
        (r#""k\u0069d":"\u0041""#, r#""A" (spelled "\u0041")"#),
        (r#""\u006bid":"\u00e9""#, r#""é" (spelled "\u00e9")"#),
        (r#""kid":"\u000a\u00E9""#, r#"hex:0ac3a9 (spelled "\u000a\u00E9")"#),
        ("\"kid\":\"\u{7F}é\u{202E}\"", r#""\x7Fé\xE2\x80\xAE""#),
        (r#""x":{"kid":"a"},"kid":"x""#, r#""x""#),
    ] {
        let header = format!("{{\"alg\":\"HS256\",{member}}}");
        let said = format!("Here: `kid` is {shown}, and no key of the table has this id.");
        assert_eq!(no_key_found(&folder, "three.bin", header.as_bytes()), said);
    }
}

#[test]
fn record_in_words() {
    let folder = folder("record");
    let header = "{\"alg\":\"HS256\",\"kid\":\"\\u0063\",\"crit\":[\"fmt\"],\"fmt\":2,\"typ\":\"\",\"cty\":\"é\\u000a\u{202E}\"}";
    sign(&folder, "three.bin", header.as_bytes(), b"", &["--out", "signed.txt"]).done();
    let token = folder.read("signed.txt");
    assert_eq!(
        verify(&folder, "three.bin", &token, &[]).done(),
        "accepted\nkey: 2\nkid: present\nformat: 2\ntyp: \"\"\ncty: \"é\\u000a\\xE2\\x80\\xAE\"\nheader: 82 bytes\npayload: 0 bytes\n"
    );
}

/// A token of this header and a payload of two bytes, with a signature of zeros.
fn unsigned(header: &[u8]) -> Vec<u8> {
    format!("{}.{}.{}", base64url(header), base64url(b"pp"), base64url(&[0; 32])).into_bytes()
}

/// A header of this many bytes that is right.
fn long_header(length: usize) -> Vec<u8> {
    let mut header = br#"{"alg":"HS256","kid":"a"}"#.to_vec();
    header.resize(length, b' ');
    header
}

/// Headers that break a rule, with its number; keys of the three.
const WRONG_HEADERS: [(&str, u8); 15] = [
    ("", 7),
    ("{\"alg\":\"HS256\",}", 7),
    ("{\"alg\":\"HS256\",\"x\":\"\\u00g9\"}", 7),
    ("{\"alg\":\"HS256\",\"al\\u0067\":\"HS256\"}", 8),
    ("{\"alg\":\"HS256\",\"\\u00e9\":1,\"\\u00E9\":1}", 8),
    ("{\"alg\":1}", 9),
    ("{}", 9),
    ("{\"alg\":\"HS256\",\"crit\":[\"fmt\"],\"fmt\":1e0}", 9),
    ("{\"alg\":\"HS256\",\"fmt\":2}", 10),
    ("{\"alg\":\"HS256\",\"crit\":[]}", 10),
    ("{\"alg\":\"none\"}", 11),
    ("{\"alg\":\"HS256\"}", 12),
    ("{\"alg\":\"HS256\",\"kid\":\"x\"}", 12),
    ("{\"alg\":\"HS256\",\"kid\":\"b\"}", 13),
    ("{\"alg\":\"HS256\",\"kid\":\"c\"}", 14),
];

/// These, and one that goes a level too deep.
fn wrong_headers() -> impl Iterator<Item = (String, u8)> {
    let deep = "[".repeat(DEPTH_MAX) + &"]".repeat(DEPTH_MAX);
    let too_deep = (format!("{{\"alg\":\"HS256\",\"x\":{deep}}}"), 7);
    let others = WRONG_HEADERS.map(|(header, number)| (header.to_string(), number));
    others.into_iter().chain([too_deep])
}

#[test]
fn every_refusal_of_verify() {
    let folder = folder("refused");
    folder.write("bad.bin", [0; 8]);
    let token = published("token.txt");
    let mut seen = Vec::new();
    let mut refused = |table: &str, token: &[u8], more: &[&str], expected: u8| {
        let ran = verify(&folder, table, token, more);
        assert_eq!(ran.refused(), expected, "{ran:?}");
        seen.push(expected);
        ran.err
    };
    let longer = format!("Here: the token has {} bytes.", TOKEN_MAX + 1);
    assert!(refused("table.bin", &[b'A'; TOKEN_MAX + 1], &[], 1).contains(&longer));
    refused("bad.bin", &token, &[], 2);
    assert!(refused("table.bin", b"", &[], 3).contains("Here: the token has 0 periods."));
    assert!(refused("table.bin", b"a.b.c.d", &[], 3).contains("Here: the token has 3 periods."));
    let padded = refused("table.bin", b"e30.YQ==.", &[], 4);
    assert!(
        padded.contains("Here: in the payload, at byte 6 of the token: `=` isn't base64url"),
        "{padded}"
    );
    assert!(!padded.contains("Hint"));
    refused("three.bin", &unsigned(&long_header(HEADER_MAX + 1)), &[], 5);
    refused("three.bin", &unsigned(&long_header(HEADER_MAX)), &[], 15);
    refused("table.bin", &token, &["--room", "69"], 6);
    refused("table.bin", b"..", &[], 7);
    for (header, number) in wrong_headers() {
        refused("three.bin", &unsigned(header.as_bytes()), &[], number);
    }
    refused("table.bin", &published("nameless.txt"), &[], 12);
    refused("table.bin", &token[..160], &[], 15);
    refused("table.bin", &[&token[..202], b"w"].concat(), &[], 15);
    for number in 1..=15 {
        assert!(seen.contains(&number), "{number}");
    }
    verify(&folder, "table.bin", &token, &["--room", "70"]).done();
    verify(&folder, "table.bin", &token, &["--room", "18446744073709551615"]).done();
}

#[test]
fn every_refusal_of_sign() {
    let folder = folder("unsigned");
    folder.write("bad.bin", b"");
    let refused = |table: &str, header: &[u8], payload: &[u8], more: &[&str]| {
        let ran = sign(
            &folder,
            table,
            header,
            payload,
            &[more, &["--out", "never.txt"]].concat(),
        );
        assert!(!folder.0.join("never.txt").exists());
        ran.refused()
    };
    let plain = br#"{"alg":"HS256","kid":"RFC 7515 A.1"}"#;
    // The longest payload under this header: the token has 93 bytes besides.
    const LONGEST: usize = (TOKEN_MAX - 93) * 3 / 4;
    assert_eq!(refused("bad.bin", plain, b"", &[]), 2);
    assert_eq!(refused("three.bin", &long_header(HEADER_MAX + 1), b"", &[]), 5);
    for (header, number) in wrong_headers() {
        assert_eq!(refused("three.bin", header.as_bytes(), b"pp", &[]), number, "{header}");
    }
    assert_eq!(refused("table.bin", plain, &[b'p'; LONGEST + 1], &[]), 1);
    assert_eq!(refused("table.bin", plain, b"", &["--room", "92"]), 6);
    assert_eq!(
        sign(&folder, "table.bin", plain, b"", &["--room", "93"]).done().len(),
        93
    );
    assert_eq!(
        sign(&folder, "table.bin", plain, &[b'p'; LONGEST], &[]).done().len(),
        TOKEN_MAX
    );
}

#[test]
fn a_newline_gets_a_hint() {
    let folder = folder("newline");
    for ending in ["\n", "\r\n"] {
        let token = [&published("token.txt")[..], ending.as_bytes()].concat();
        let verified = verify(&folder, "table.bin", &token, &["--payload-out", "never"]);
        assert_eq!(verified.refused(), 4);
        assert!(
            verified
                .err
                .contains("Here: in the signature, at byte 203 of the token: white space"),
            "{}",
            verified.err
        );
        assert!(
            verified.err.contains("\nHint: the file ends in a newline"),
            "{}",
            verified.err
        );
        assert_eq!(
            folder.run(TOKEN, &["members", "--token", "given.txt"]).err,
            verified.err
        );
    }
    assert!(!folder.0.join("never").exists());
}

#[test]
fn members_in_words() {
    let folder = folder("members");
    let header =
        "{\"\\u0061\": \"\\n\u{85}\", \"n\":-1.5e3,\"t\":true,\"f\":false,\"0\":null,\"[\":[1,\n2],\"{\":{ } }";
    let shown = folder.run_on(TOKEN, &["members", "-"], header.as_bytes());
    assert_eq!(
        shown.done(),
        "member 0: \"\\u0061\" at 2..8, string \"\\n\\xC2\\x85\" at 12..16\n\
         member 1: \"n\" at 20..21, number -1.5e3 at 23..29\n\
         member 2: \"t\" at 31..32, true true at 34..38\n\
         member 3: \"f\" at 40..41, false false at 43..48\n\
         member 4: \"0\" at 50..51, null null at 53..57\n\
         member 5: \"[\" at 59..60, array [1,\\x0A2] at 62..68\n\
         member 6: \"{\" at 70..71, object { } at 73..76\n"
    );
    assert_eq!(folder.run_on(TOKEN, &["members", "-"], b" {} ").done(), "no members\n");
    for (header, number) in [(&[b' '; HEADER_MAX + 1][..], 5), (b"{", 7), (br#"{"a":1,"a":1}"#, 8)] {
        assert_eq!(folder.run_on(TOKEN, &["members", "-"], header).refused(), number);
        assert_eq!(
            folder
                .run_on(TOKEN, &["members", "--token", "-"], &unsigned(header))
                .refused(),
            number
        );
    }
    for (token, number) in [
        (&[b'A'; TOKEN_MAX + 1][..], 1),
        (b"e30.", 3),
        (b"e31..", 4),
        (b"e30..=", 4),
    ] {
        assert_eq!(
            folder.run_on(TOKEN, &["members", "--token", "-"], token).refused(),
            number
        );
    }
    // Whatever the known members and the signature are.
    let token = unsigned(br#"{"alg":0}"#);
    assert_eq!(
        folder.run_on(TOKEN, &["members", "--token", "-"], &token).done(),
        "member 0: \"alg\" at 2..5, number 0 at 7..8\n"
    );

    let help = folder.run(TOKEN, &["members", "--help"]);
    for line in folder
        .run_on(TOKEN, &["members", "-"], br#"{"alg":"HS256","kid":"cellar 2"}"#)
        .done()
        .lines()
    {
        assert!(help.done().contains(line), "{line}");
    }
}

/// The number of a call: 0 if it ended well.
fn number(ran: &Ran) -> u8 {
    if ran.status == 0 {
        0
    } else {
        ran.refused()
    }
}

#[test]
fn generated_calls() {
    let folder = Folder::new("calls");
    let mut seen = BTreeMap::new();
    for case in case_generator::verify_cases(71).take(CALLS) {
        let (mut header, mut payload) = ([0; HEADER_MAX], vec![0; case.payload_len]);
        let (answer, _) = reference::token::verify(&case.token, &case.table, &mut header, &mut payload);
        folder.write("table.bin", &case.table);
        let room = case.payload_len.to_string();
        let ran = verify(
            &folder,
            "table.bin",
            &case.token,
            &["--room", &room, "--payload-out", "out"],
        );
        assert_eq!(number(&ran), answer, "{case:?}");
        *seen.entry(answer).or_insert(0) += 1;
    }
    for case in case_generator::sign_cases(72).take(CALLS) {
        let mut token = vec![0; case.token_len];
        let (answer, length) = reference::token::sign(&case.header, &case.payload, &case.table, &mut token);
        folder.write("table.bin", &case.table);
        let room = case.token_len.to_string();
        let ran = sign(&folder, "table.bin", &case.header, &case.payload, &["--room", &room]);
        assert_eq!(number(&ran), answer, "{case:?}");
        assert_eq!(ran.out, token[..length]);
        if answer == 12 {
            let members = reference::json::read(&case.header).unwrap();
            let named = members.iter().any(|member| member.name == "kid");
            assert_eq!(ran.err.contains("\nHere: `kid` is "), named, "{}", ran.err);
            assert_eq!(ran.err.contains("\nHere: the header has no `kid`"), !named);
        }
        *seen.entry(answer).or_insert(0) += 1;
    }
    for header in case_generator::headers(73).take(CALLS) {
        let ran = folder.run_on(TOKEN, &["members", "-"], &header);
        let read = reference::json::read(&header);
        assert_eq!(number(&ran), read.as_ref().err().copied().unwrap_or(0));
        if let Ok(members) = read {
            let lines = ran.text().lines().filter(|line| line.starts_with("member ")).count();
            assert_eq!(lines, members.len());
        }
    }
    println!("{CALLS} tokens verified and {CALLS} signed, by their answers: {seen:?}");
    assert!(seen.len() >= 14, "{seen:?}");
}

#[cfg(target_os = "linux")]
#[test]
fn output_that_cannot_be_written() {
    let folder = folder("full");
    let full = std::fs::OpenOptions::new().write(true).open("/dev/full").unwrap();
    let run = std::process::Command::new(TOKEN)
        .args(["verify", "--table", "table.bin", "token.txt"])
        .current_dir(&folder.0)
        .stdout(full)
        .output()
        .unwrap();
    assert_eq!(run.status.code(), Some(2));
    assert!(String::from_utf8_lossy(&run.stderr).starts_with("standard output can't be written"));
}

#[test]
fn usage() {
    let folder = folder("usage");
    folder.write("header.json", HEADER);
    let sign = [
        "sign",
        "--table",
        "table.bin",
        "--header",
        "header.json",
        "--payload",
        "token.txt",
    ];
    let before = folder.names();
    for words in [
        &[][..],
        &["seal"],
        &["sign"],
        &sign[..5],
        &[&sign[..], &["more"]].concat(),
        &[&sign[..], &["--room", "many"]].concat(),
        &[&sign[..], &["--room"]].concat(),
        &[&sign[..], &["--table", "table.bin"]].concat(),
        &[&sign[..], &["--out", "nowhere/out"]].concat(),
        &[&sign[..], &["--out", "./table.bin"]].concat(),
        &["sign", "--table", "table.bin", "--header", "-", "--payload", "-"],
        &[
            "sign",
            "--table",
            "table.bin",
            "--header",
            "nothing",
            "--payload",
            "token.txt",
        ],
        &["verify", "token.txt"],
        &["verify", "--table", "table.bin"],
        &["verify", "--table", "nothing", "token.txt"],
        &["verify", "--table", "table.bin", "nothing"],
        &["verify", "--table", "-", "-"],
        &[
            "verify",
            "--table",
            "table.bin",
            "token.txt",
            "--payload-out",
            "token.txt",
        ],
        &["verify", "--table", "table.bin", "token.txt", "--payload-out", "."],
        &["verify", "--table", "table.bin", "token.txt", "--strict"],
        &["members"],
        &["members", "nothing"],
        &["members", "header.json", "--token", "token.txt"],
    ] {
        folder.run(TOKEN, words).failed();
    }
    assert_eq!(folder.names(), before);
    assert_eq!(folder.read("token.txt"), published("token.txt"));
    assert_eq!(folder.read("table.bin"), published("table.bin"));
    assert_eq!(folder.run(TOKEN, &["--version"]).done(), "jws-token 0.1.0\n");
    for (subcommand, room) in [("sign", TOKEN_MAX), ("verify", PAYLOAD_MAX)] {
        let help = folder.run(TOKEN, &[subcommand, "--help"]);
        assert!(help
            .done()
            .contains(&format!("({room} otherwise, which always suffices)")));
    }
    for words in [
        &["--help"][..],
        &["sign", "--help"],
        &["verify", "-h"],
        &["members", "--help"],
    ] {
        let help = folder.run(TOKEN, words);
        for part in ["jws-token", "Exit status: 0", "Example:"] {
            assert!(help.done().contains(part), "{words:?}");
        }
    }
}
