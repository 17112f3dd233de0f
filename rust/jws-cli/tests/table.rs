//! `jws-table`: tables built, shown and checked; every mistake of a keys file and every fault of a table told.

mod common;

use std::ops::Range;

use case_generator::rng::Rng;
use common::{published, Folder, Ran, PUBLISHED_SECRET, TABLE};
use jws_cli::encoding::{base64url, hex, id};
use jws_cli::table::TABLE_MAX;

/// Generated tables of each test that runs commands over them.
const TABLES: usize = 150;

/// Text in quotation marks, each byte that isn't a plain letter escaped.
fn quoted(bytes: &[u8]) -> String {
    let escaped = |&byte: &u8| match byte {
        b'a'..=b'z' => char::from(byte).to_string(),
        _ => format!("\\x{byte:02X}"),
    };
    format!("\"{}\"", bytes.iter().map(escaped).collect::<String>())
}

/// Bytes in one of the ways of a keys file.
fn written(rng: &mut Rng, bytes: &[u8]) -> String {
    match rng.below(5) {
        0 => format!("hex:{}", hex(bytes)),
        1 => format!("base64url:{}", base64url(bytes)),
        2 => quoted(bytes),
        3 => format!("text:{}", quoted(bytes)),
        _ => id(bytes),
    }
}

/// A keys file of a good table's keys, and what `show --secrets` says after the places are taken out.
fn keys_file(rng: &mut Rng, keys: &[reference::table::Key]) -> (String, String) {
    let (mut text, mut shown) = (String::from("# generated\n\n"), String::new());
    for (index, key) in keys.iter().enumerate() {
        let formats: Vec<String> = (1..=8)
            .filter(|&f| key.allows_format(f))
            .map(|f| f.to_string())
            .collect();
        let formats = if formats.is_empty() {
            "none".into()
        } else {
            formats.join(",")
        };
        let algorithms = if key.allows_hs256() { "HS256" } else { "none" };
        let rest = format!("algorithms {algorithms}\tformats {formats}");
        let (name, secret) = (written(rng, key.id), written(rng, key.secret));
        text += &format!("  id {name}   secret {secret} {rest} # key {index}\r\n");
        let (name, secret) = (id(key.id), base64url(key.secret));
        shown +=
            &format!("key {index}: id {name}, secret base64url:{secret}, algorithms {algorithms}, formats {formats}\n");
    }
    (text, shown)
}

/// Takes places such as ` (bytes 20-31)` out.
fn without_places(text: &str) -> String {
    let mut left = String::new();
    let mut rest = text;
    while let Some((before, after)) = rest.split_once(" (byte") {
        left += before;
        rest = after.split_once(')').unwrap().1;
    }
    left + rest
}

#[test]
fn built_shown_and_checked() {
    let folder = Folder::new("round");
    let good = case_generator::tables(61).filter(|table| reference::table::parse(table).is_ok());
    let (mut keys_seen, mut unnamed_seen) = (0, 0);
    for (case, table) in good.take(TABLES).enumerate() {
        let keys = reference::table::parse(&table).unwrap();
        let (text, shown) = keys_file(&mut Rng::of_case(62, case as u64), &keys);
        folder.write("keys.txt", &text);
        // Nothing is said beside but the warnings of the table, the same each time.
        let done = |words: &[&str]| {
            let ran = folder.run(TABLE, words);
            let warnings = warned(&folder.read("table.bin"));
            assert_eq!((ran.status, &ran.err), (0, &warnings), "{words:?}");
            ran.text().to_string()
        };
        done(&["build", "keys.txt", "table.bin"]);
        let built = folder.read("table.bin");
        let again = reference::table::parse(&built).unwrap();
        assert_eq!(again, keys, "case {case}: {text}");
        assert_eq!(shared(&built), [], "case {case}: {text}");
        assert_eq!(done(&["check", "table.bin"]).lines().count(), 1);
        let said = done(&["show", "--secrets", "table.bin"]);
        let (first, rest) = said.split_once('\n').unwrap();
        let noun = if keys.len() == 1 { "key" } else { "keys" };
        assert_eq!(
            first,
            format!("edition 1, {} {noun}, {} bytes", keys.len(), built.len())
        );
        assert_eq!(without_places(rest), shown, "case {case}");
        keys_seen += keys.len();
        unnamed_seen += warned(&built).lines().count();
    }
    println!("{TABLES} tables, {keys_seen} keys, {unnamed_seen} that no header can name");
    assert!(keys_seen > TABLES && unnamed_seen > TABLES / 10);
}

/// The command's verdict is the reference's, and a bad table gets a sentence that names bytes and a rule.
fn checked(folder: &Folder, table: &[u8]) -> bool {
    folder.write("table.bin", table);
    let check = folder.run(TABLE, &["check", "table.bin"]);
    let good = reference::table::parse(table).is_ok();
    let said = check.text().to_string();
    let warnings = if good { warned(table) } else { String::new() };
    assert_eq!((check.status, check.err), (i32::from(!good), warnings), "{table:?}");
    assert_eq!(said.lines().count() == 1, good, "{said}");
    for fault in said.lines().skip(1) {
        assert!(fault.contains("byte") && fault.contains("(rule: "), "{fault}");
    }
    good
}

#[test]
fn generated_tables_checked() {
    let folder = Folder::new("generated");
    let (mut good, mut bad) = (0, 0);
    for case in 0..3 * TABLES as u64 {
        let mut rng = Rng::of_case(63, case);
        let mut table = case_generator::table::valid(&mut rng);
        if case % 4 != 0 {
            case_generator::table::damage(&mut rng, &mut table);
        }
        *(if checked(&folder, &table) { &mut good } else { &mut bad }) += 1;
    }
    println!("{good} good tables, {bad} bad");
    assert!(good > TABLES / 2 && bad > TABLES);
}

/// A table of two keys, ids `a` and `b`.
fn two_keys() -> Vec<u8> {
    let key = |id: u8| jws_cli::table::Key {
        id: vec![id],
        secret: vec![id; 32],
        algorithms: 1,
        formats: 1,
    };
    jws_cli::table::lay_out(&[key(b'a'), key(b'b')])
}

#[test]
fn every_fault_told() {
    let folder = Folder::new("faults");
    let table = two_keys();
    assert_eq!(table.len(), 98);
    assert!(checked(&folder, &table));
    for (at, bytes, expected) in [
        (0, &[1][..], "bytes 0-1: the edition is 257"),
        (3, &[33], "bytes 2-3: the number of keys is 33"),
        (
            7,
            &[99],
            "bytes 4-7: the total length is 99, and the table has 98 bytes",
        ),
        (
            3,
            &[9],
            "bytes 8-115: 9 entries would end at byte 115, and the table ends at byte 97",
        ),
        (
            8,
            &[0, 31],
            "entry 0, bytes 8-9: the id begins at byte 31, and the entries end at byte 31",
        ),
        (
            20,
            &[0, 98],
            "entry 1, bytes 20-23: the id of 1 byte from byte 98 ends after the table's last byte, 97",
        ),
        (10, &[0, 0], "entry 0, bytes 10-11: the id's length is 0"),
        (22, &[0, 65], "entry 1, bytes 22-23: the id's length is 65"),
        (12, &[0, 8], "entry 0, bytes 12-13: the secret begins at byte 8"),
        (
            24,
            &[0, 67],
            "entry 1, bytes 24-27: the secret of 32 bytes from byte 67 ends after",
        ),
        (26, &[0, 31], "entry 1, bytes 26-27: the secret's length is 31"),
        (14, &[0, 129], "entry 0, bytes 14-15: the secret's length is 129"),
        (28, &[3], "entry 1, byte 28: the algorithms are 00000011 in binary"),
        (30, &[0, 7], "entry 1, bytes 30-31: they are 00 07 hexadecimal"),
        (
            65,
            b"a",
            "entry 1, byte 65: the id \"a\" is also the id of entry 0 (byte 32)",
        ),
        (
            20,
            &[0, 32],
            "entry 1, byte 32: the id \"a\" is also the id of entry 0 (byte 32)",
        ),
    ] {
        let mut damaged = table.clone();
        damaged[at..at + bytes.len()].copy_from_slice(bytes);
        assert!(!checked(&folder, &damaged));
        let check = folder.run(TABLE, &["check", "table.bin"]);
        assert!(check.text().contains(expected), "{expected}: {}", check.text());
        let show = folder.run(TABLE, &["show", "table.bin"]);
        assert_eq!((show.status, show.text(), show.err.as_str()), (1, "", check.text()));
    }
    for (length, expected) in [
        (0, "the table has 0 bytes"),
        (7, "7 bytes"),
        (TABLE_MAX + 1, "8193 bytes"),
    ] {
        assert!(!checked(&folder, &vec![0; length]));
        let check = folder.run(TABLE, &["check", "table.bin"]);
        assert!(
            check.text().contains(expected) && check.text().contains("from 8 to 8,192"),
            "{}",
            check.text()
        );
    }
}

/// Builds a keys file that is wrong: nothing is written.
fn mistakes(folder: &Folder, text: &[u8]) -> String {
    folder.write("keys.txt", text);
    let Ran { status, out, err } = folder.run(TABLE, &["build", "keys.txt", "table.bin"]);
    assert_eq!((status, &out[..]), (1, &b""[..]), "{err}");
    assert_eq!(folder.names(), ["keys.txt"]);
    err
}

#[test]
fn every_mistake_told() {
    let folder = Folder::new("mistakes");
    let secret = "secret hex:00112233445566778899aabbccddeeff00112233445566778899aabbccddeeff";
    let whole = format!("id \"a\" {secret} algorithms HS256 formats 1");
    let long = "x".repeat(65);
    for (line, column, expected) in [
        ("key \"a\"".to_string(), 1, "expected `id`"),
        ("  id".into(), 5, "expected the value of `id`"),
        ("id # a".into(), 4, "expected the value of `id`"),
        (
            "id a".into(),
            4,
            "expected \"text\", text:\"text\", hex:.. or base64url:..",
        ),
        ("id text:a".into(), 9, "expected a quotation mark"),
        ("id \"a".into(), 6, "expected the closing quotation mark"),
        (
            "id \"a\"b".into(),
            7,
            "expected white space after the closing quotation mark",
        ),
        ("id \"é\\y\"".into(), 6, "expected \\xNN"),
        ("id \"\\x4\"".into(), 5, "expected \\xNN"),
        (
            "id \"a\tb\"".into(),
            6,
            "a control character in quoted text is written \\xNN",
        ),
        ("id hex:0g".into(), 9, "`g` isn't a hexadecimal digit"),
        ("id hex:000".into(), 11, "a hexadecimal digit is missing"),
        ("id base64url:YQ==".into(), 16, "padding isn't allowed"),
        ("id base64url:Y+".into(), 15, "`-` and `_` in place of `+` and `/`"),
        ("id base64url:YéQ".into(), 15, "isn't base64url"),
        ("id base64url:YWJjZ".into(), 19, "the length modulo 4 is 1"),
        (
            "id base64url:YR".into(),
            15,
            "the unused low bits of the last character aren't 0",
        ),
        ("id \"\"".into(), 4, "expected 1 to 64 bytes for `id`, and there are 0"),
        (
            format!("id \"{long}\""),
            4,
            "expected 1 to 64 bytes for `id`, and there are 65",
        ),
        ("id \"a\"".into(), 7, "expected `secret`"),
        ("id \"a\" algorithms HS256".into(), 8, "expected `secret`"),
        (
            "id \"a\" secret text:\"short\"".into(),
            15,
            "expected 32 to 128 bytes for `secret`, and there are 5",
        ),
        (
            format!("id \"a\" secret \"{long}{long}\""),
            15,
            "expected 32 to 128 bytes for `secret`, and there are 130",
        ),
        (format!("id \"a\" {secret}"), 83, "expected `algorithms`"),
        (
            format!("id \"a\" {secret} algorithms HS512 formats 1"),
            95,
            "`HS512` isn't an algorithm that is known",
        ),
        (
            format!("id \"a\" {secret} algorithms HS256,HS256"),
            101,
            "`HS256` is in the list twice",
        ),
        (
            format!("id \"a\" {secret} algorithms HS256, formats 1"),
            101,
            "expected an algorithm",
        ),
        (
            format!("id \"a\" {secret} algorithms none formats 0"),
            108,
            "`0` isn't a format",
        ),
        (
            format!("id \"a\" {secret} algorithms none formats 1,9"),
            110,
            "`9` isn't a format",
        ),
        (
            format!("id \"a\" {secret} algorithms none formats 3-2"),
            108,
            "`3-2` isn't a format or a range",
        ),
        (
            format!("id \"a\" {secret} algorithms none formats 1-3,2"),
            112,
            "`2` is in the list twice",
        ),
        (
            format!("id \"a\" {secret} algorithms none formats 1,"),
            110,
            "expected formats from 1 to 8",
        ),
        (format!("{whole} 2"), 111, "expected the end of the line"),
    ] {
        let said = mistakes(&folder, format!("# first\n{line}\n").as_bytes());
        assert!(
            said.starts_with(&format!("keys.txt: line 2, column {column}: ")),
            "{line}: {said}"
        );
        assert!(said.contains(expected) && said.lines().count() == 1, "{line}: {said}");
    }
    let said = mistakes(&folder, b"\n# \xC3\xA9\xFF\n");
    assert_eq!(
        said,
        "keys.txt: line 2, column 4: this byte isn't UTF-8; in quoted text it is written \\xNN\n"
    );
}

#[test]
fn mistakes_of_several_lines() {
    let folder = Folder::new("several");
    let key = |id: &str| format!("id {id} secret \"{}\" algorithms none formats none\n", "s".repeat(32));
    let said = mistakes(&folder, [key("\"a\""), "\n".into(), key("hex:61")].concat().as_bytes());
    assert_eq!(said, "keys.txt: line 3, column 4: the id \"a\" is also in line 1\n");

    let many: String = (0..33).map(|k| key(&format!("\"{k}\""))).collect();
    let said = mistakes(&folder, many.as_bytes());
    assert_eq!(
        said,
        "keys.txt: line 33, column 4: this is key 33 of the file, and a table has at most 32\n"
    );
    let most = &many[..many.trim_end().rfind('\n').unwrap()];
    folder.write("keys.txt", most);
    assert!(folder
        .run(TABLE, &["build", "keys.txt", "table.bin"])
        .done()
        .contains("32 keys"));
    std::fs::remove_file(folder.0.join("table.bin")).unwrap();

    let said = mistakes(
        &folder,
        [key("\"a\""), "x\n".into(), key("\"a\""), "y\n".into()]
            .concat()
            .as_bytes(),
    );
    let lines: Vec<&str> = said.lines().map(|line| line.split(',').next().unwrap()).collect();
    assert_eq!(lines, ["keys.txt: line 2", "keys.txt: line 3", "keys.txt: line 4"]);
}

#[test]
fn longest_keys_fit() {
    let folder = Folder::new("longest");
    let secret = "s".repeat(128);
    let key = |k: usize| format!("id \"{k:064}\" secret \"{secret}\" algorithms HS256 formats 1-8\n");
    folder.write("keys.txt", (0..32).map(key).collect::<String>());
    let said = folder.run(TABLE, &["build", "keys.txt", "table.bin"]);
    assert_eq!(said.done(), "table.bin: 32 keys, 6536 bytes\n");
    folder.write("keys.txt", "\u{FEFF}# none\n");
    assert_eq!(
        folder.run(TABLE, &["build", "keys.txt", "table.bin"]).done(),
        "table.bin: 0 keys, 8 bytes\n"
    );
    assert_eq!(folder.read("table.bin"), [0, 1, 0, 0, 0, 0, 0, 8]);
}

#[test]
fn published_key_and_the_examples() {
    let folder = Folder::new("published");
    let key = format!("id \"RFC 7515 A.1\" secret base64url:{PUBLISHED_SECRET} algorithms HS256 formats 1");
    let built = folder.run_on(TABLE, &["build", "-", "-"], key.as_bytes());
    assert_eq!((built.status, &built.out), (0, &published("table.bin")));

    let help = folder.run(TABLE, &["build", "--help"]);
    let example = help
        .done()
        .lines()
        .find(|line| line.starts_with("  id \"cellar 2\""))
        .unwrap();
    folder.write("keys.txt", example);
    folder.run(TABLE, &["build", "keys.txt", "table.bin"]).done();
    let shown = folder.run(TABLE, &["show", "table.bin"]);
    let help = folder.run(TABLE, &["show", "--help"]);
    for line in shown.done().lines() {
        assert!(help.done().lines().any(|told| told.trim() == line), "{line}");
    }
}

#[test]
fn secrets_are_kept() {
    let folder = Folder::new("secrets");
    let secret = "correct horse battery staple, so";
    let line = |rest: &str| format!("id \"a\" secret \"{secret}\" {rest}\n");
    folder.write("keys.txt", line("algorithms HS256 formats 1"));
    let mut said = folder
        .run(TABLE, &["build", "keys.txt", "table.bin"])
        .done()
        .to_string();
    said += folder.run(TABLE, &["show", "table.bin"]).done();
    said += folder.run(TABLE, &["check", "table.bin"]).done();
    let misplaced = base64url(secret.as_bytes());
    for text in [
        line("algorithms x"),
        format!("id \"a\" {misplaced}"),
        line(&format!("algorithms {misplaced}")),
    ] {
        folder.write("keys.txt", text);
        let ran = folder.run(TABLE, &["build", "keys.txt", "table.bin"]);
        assert_eq!(ran.status, 1);
        said += &ran.err;
    }
    for secret in [secret, &base64url(secret.as_bytes()), &hex(secret.as_bytes())] {
        assert!(!said.contains(&secret[..8]), "{said}");
    }
    let shown = folder.run(TABLE, &["show", "table.bin", "--secrets"]);
    assert!(shown.done().contains(&base64url(secret.as_bytes())));
}

#[test]
fn files_are_written_whole() {
    let folder = Folder::new("whole");
    let good = format!("id \"a\" secret \"{}\" algorithms HS256 formats 1\n", "s".repeat(32));
    folder.write("keys.txt", &good);
    folder.write("table.bin", "before");
    std::fs::create_dir(folder.0.join("folder")).unwrap();

    // A mistake leaves what was there.
    folder.write("bad.txt", "id");
    assert_eq!(folder.run(TABLE, &["build", "bad.txt", "table.bin"]).status, 1);
    assert_eq!(folder.read("table.bin"), b"before");

    folder.run(TABLE, &["build", "keys.txt", "table.bin"]).done();
    assert_eq!(folder.read("table.bin").len(), 53);
    folder.run(TABLE, &["build", "keys.txt", "folder"]).failed();
    folder.run(TABLE, &["build", "keys.txt", "nowhere/table.bin"]).failed();
    assert!(folder
        .run(TABLE, &["build", "keys.txt", "keys.txt"])
        .failed()
        .contains("it is read too"));
    assert_eq!(folder.read("keys.txt"), good.as_bytes());
    assert_eq!(folder.names(), ["bad.txt", "folder", "keys.txt", "table.bin"]);
}

#[cfg(unix)]
#[test]
fn permissions_links_and_pipes() {
    use std::fs::{metadata, set_permissions, Permissions};
    use std::os::unix::fs::PermissionsExt;

    let folder = Folder::new("permissions");
    let mode = |name: &str| metadata(folder.0.join(name)).unwrap().permissions().mode() & 0o777;
    folder.write("keys.txt", "");
    folder.run(TABLE, &["build", "keys.txt", "table.bin"]).done();
    assert_eq!(mode("table.bin"), 0o600);
    set_permissions(folder.0.join("table.bin"), Permissions::from_mode(0o640)).unwrap();
    folder.write("table.bin", "old");
    std::os::unix::fs::symlink("table.bin", folder.0.join("link")).unwrap();
    folder.run(TABLE, &["build", "keys.txt", "link"]).done();
    assert_eq!((mode("table.bin"), folder.read("table.bin").len()), (0o640, 8));
    assert!(folder.0.join("link").is_symlink());
    // `rt ci` refuses a repository with a link in it.
    std::fs::remove_file(folder.0.join("link")).unwrap();

    // A pipe is written to and stays.
    let pipe = folder.0.join("pipe");
    match std::process::Command::new("mkfifo").arg(&pipe).status() {
        Ok(status) if status.success() => {
            let reader = std::thread::spawn({
                let pipe = pipe.clone();
                move || std::fs::read(pipe).unwrap()
            });
            folder.run(TABLE, &["build", "keys.txt", "pipe"]).done();
            assert_eq!(reader.join().unwrap(), [0, 1, 0, 0, 0, 0, 0, 8]);
            assert!(!metadata(&pipe).unwrap().is_file());
        }
        _ => println!("no mkfifo here"),
    }
}

#[test]
fn usage() {
    let folder = Folder::new("usage");
    folder.write("table.bin", two_keys());
    for words in [
        &[][..],
        &["make"],
        &["build"],
        &["build", "keys.txt"],
        &["build", "a", "b", "c"],
        &["build", "nothing.txt", "new.bin"],
        &["show"],
        &["show", "nothing.bin"],
        &["show", "--secret", "table.bin"],
        &["show", "--secrets=1", "table.bin"],
        &["check"],
        &["check", "nothing.bin"],
        &["check", "table.bin", "table.bin"],
        &["check", "."],
    ] {
        folder.run(TABLE, words).failed();
    }
    assert!(folder
        .run_on(TABLE, &["check", "-"], &two_keys())
        .done()
        .contains("standard input: good table, 2 keys"));
    assert!(folder.run(TABLE, &["check", "--", "table.bin"]).done().contains("good"));
    assert_eq!(folder.run(TABLE, &["--version"]).done(), "jws-table 0.1.0\n");
    for words in [
        &["--help"][..],
        &["build", "--help"],
        &["show", "-h"],
        &["check", "x", "--help"],
    ] {
        let help = folder.run(TABLE, words);
        for part in ["jws-table", "Exit status: 0", "Example:"] {
            assert!(help.done().contains(part), "{words:?}");
        }
    }
    assert_eq!(folder.names(), ["table.bin"]);
}

/// Where an entry says that its key's id and secret lie.
type Areas = (Range<usize>, Range<usize>);

/// The areas of each entry of a table; none if there aren't as many entries as it says.
fn areas(table: &[u8]) -> Vec<Areas> {
    let number = |at: usize| usize::from(table[at]) << 8 | usize::from(table[at + 1]);
    if table.len() < 8 || table.len() < 8 + 12 * number(2) {
        return Vec::new();
    }
    let area = |at: usize| number(at)..number(at) + number(at + 2);
    (0..number(2)).map(|k| (area(8 + 12 * k), area(12 + 12 * k))).collect()
}

/// The key of an id, the key of a secret, and each byte that the two share.
fn shared(table: &[u8]) -> Vec<(usize, usize, Vec<usize>)> {
    let mut found = Vec::new();
    for (i, (id, _)) in areas(table).iter().enumerate() {
        for (s, (_, secret)) in areas(table).iter().enumerate() {
            let both: Vec<usize> = id.clone().filter(|byte| secret.contains(byte)).collect();
            found.extend((!both.is_empty()).then_some((i, s, both)));
        }
    }
    found
}

/// Places in words.
fn places(first: usize, last: usize) -> String {
    if first == last {
        format!("byte {first}")
    } else {
        format!("bytes {first}-{last}")
    }
}

/// The warnings of a good table.
fn warned(table: &[u8]) -> String {
    let areas = areas(table);
    let line = |(i, s, both): &(usize, usize, Vec<usize>)| {
        let of = |area: &Range<usize>| places(area.start, area.end - 1);
        let (id, secret) = (of(&areas[*i].0), of(&areas[*s].1));
        let bytes = places(both[0], both[both.len() - 1]);
        let these = if both.len() == 1 { "this byte" } else { "these bytes" };
        format!(
            "table.bin: warning: key {i}'s id ({id}) shares {bytes} with key {s}'s secret ({secret}). An id isn't secret: \
             every token that names key {i} gives {these} of the secret away. Make a new secret for key {s} and build the \
             table anew: `jws-table build` lays ids and secrets apart.\n"
        )
    };
    let given_away: String = shared(table).iter().map(line).collect();
    given_away + &unnamed("table.bin", table)
}

/// The warnings of keys that no header can name. Of an id that has bytes of a secret nothing is said here.
fn unnamed(name: &str, table: &[u8]) -> String {
    let shared = shared(table);
    let mut said = String::new();
    for (k, (id, _)) in areas(table).into_iter().enumerate() {
        let kept = shared.iter().any(|(of, ..)| *of == k);
        if !kept && std::str::from_utf8(&table[id.clone()]).is_err() {
            said += &unnamed_key(name, k, &places(id.start, id.end - 1));
        }
    }
    said
}

fn unnamed_key(name: &str, k: usize, at: &str) -> String {
    format!(
        "{name}: warning: key {k}'s id ({at}) isn't UTF-8, and kid is text: no header can name this key, so nothing is signed or \
         accepted by it. Give it an id that is text and build the table anew.\n"
    )
}

/// A table of keys with these areas, for HS256 and formats 1 and 3, and of these bytes behind the entries.
fn table_of(keys: &[Areas], bytes: &[u8]) -> Vec<u8> {
    let length = 8 + 12 * keys.len() + bytes.len();
    let mut table = vec![0, 1, 0, keys.len() as u8, 0, 0, 0, length as u8];
    for (id, secret) in keys {
        for number in [id.start, id.len(), secret.start, secret.len()] {
            table.extend([0, number as u8]);
        }
        table.extend([1, 5, 0, 0]);
    }
    table.extend(bytes);
    table
}

/// Bytes that are all different, so that each can be found in what is said.
const LETTERS: &[u8] = b"0123456789ABCDEFGHIJKLMNOPQRSTUVWXYZabcdefghijklmnopqrstuvwxyz-_.,;:+*/=?!$%&()[]{}<>^~#@|";

/// Holds what a command says of `table.bin` against its status, its whole standard output and its whole standard error.
fn says(folder: &Folder, words: &[&str], status: i32, out: &str, err: &str) {
    let ran = folder.run(TABLE, words);
    assert_eq!(
        (ran.status, ran.text(), ran.err.as_str()),
        (status, out, err),
        "{words:?}"
    );
}

/// Holds all that is said of a good table against what `show` says, with and without `--secrets`, and the warnings.
fn all_said(folder: &Folder, table: &[u8], shown: &str, openly: &str, warnings: &str) {
    assert!(reference::table::parse(table).is_ok());
    folder.write("table.bin", table);
    says(folder, &["show", "table.bin"], 0, shown, warnings);
    says(folder, &["show", "--secrets", "table.bin"], 0, openly, warnings);
    let keys = if table[3] == 1 { "1 key" } else { "2 keys" };
    let good = format!("table.bin: good table, {keys}\n");
    says(folder, &["check", "table.bin"], 0, &good, warnings);
}

#[test]
fn an_id_inside_its_secret_is_warned_of() {
    let folder = Folder::new("inside");
    // The shortest table with a key, as the specification has it.
    all_said(
        &folder,
        &table_of(&[(20..21, 20..52)], &[b'A'; 32]),
        "edition 1, 1 key, 52 bytes\n\
         key 0: id of 1 byte inside a secret (byte 20; --secrets shows it), secret of 32 bytes (bytes 20-51), \
         algorithms HS256, formats 1,3\n",
        "edition 1, 1 key, 52 bytes\n\
         key 0: id \"A\" (byte 20), secret base64url:QUFBQUFBQUFBQUFBQUFBQUFBQUFBQUFBQUFBQUFBQUE (bytes 20-51), \
         algorithms HS256, formats 1,3\n",
        "table.bin: warning: key 0's id (byte 20) shares byte 20 with key 0's secret (bytes 20-51). An id isn't secret: every \
         token that names key 0 gives this byte of the secret away. Make a new secret for key 0 and build the table anew: \
         `jws-table build` lays ids and secrets apart.\n",
    );
    // With areas apart.
    let apart = "edition 1, 1 key, 53 bytes\nkey 0: id \"A\" (byte 20), secret ";
    let rest = "(bytes 21-52), algorithms HS256, formats 1,3\n";
    all_said(
        &folder,
        &table_of(&[(20..21, 21..53)], &[b'A'; 33]),
        &format!("{apart}of 32 bytes {rest}"),
        &format!("{apart}base64url:QUFBQUFBQUFBQUFBQUFBQUFBQUFBQUFBQUFBQUFBQUE {rest}"),
        "",
    );
}

#[test]
fn an_id_over_the_edge_of_a_secret_is_warned_of() {
    let folder = Folder::new("edge");
    for (id, secret, name, first, warning) in [
        (
            20..23,
            22..54,
            "012",
            2,
            "(bytes 20-22) shares byte 22 with key 0's secret (bytes 22-53)",
        ),
        (
            51..54,
            20..52,
            "VWX",
            0,
            "(bytes 51-53) shares byte 51 with key 0's secret (bytes 20-51)",
        ),
    ] {
        let (id_at, at) = (places(id.start, id.end - 1), places(secret.start, secret.end - 1));
        let rest = format!("({at}), algorithms HS256, formats 1,3\n");
        let encoded = base64url(&LETTERS[first..first + 32]);
        all_said(
            &folder,
            &table_of(&[(id, secret)], &LETTERS[..34]),
            &format!(
                "edition 1, 1 key, 54 bytes\nkey 0: id of 3 bytes partly inside a secret ({id_at}; --secrets shows it), \
                 secret of 32 bytes {rest}"
            ),
            &format!("edition 1, 1 key, 54 bytes\nkey 0: id \"{name}\" ({id_at}), secret base64url:{encoded} {rest}"),
            &format!(
                "table.bin: warning: key 0's id {warning}. An id isn't secret: every token that names key 0 gives this byte \
                 of the secret away. Make a new secret for key 0 and build the table anew: `jws-table build` lays ids and \
                 secrets apart.\n"
            ),
        );
    }
    // Beside a secret.
    for (id, secret) in [(20..22, 22..54), (52..54, 20..52)] {
        folder.write("table.bin", table_of(&[(id, secret)], &LETTERS[..34]));
        assert!(!folder.run(TABLE, &["show", "table.bin"]).done().contains("inside"));
        folder.run(TABLE, &["check", "table.bin"]).done();
    }
}

#[test]
fn an_id_inside_secrets_of_other_keys_is_warned_of() {
    let folder = Folder::new("others");
    // Bytes 32-63 are the secret of key 0, 64-95 of key 1; the id of key 0 is byte 96.
    let two = |id: Range<usize>| table_of(&[(96..97, 32..64), (id, 64..96)], &LETTERS[..65]);
    let first = "edition 1, 2 keys, 97 bytes\nkey 0: id \".\" (byte 96), secret ";
    let rest = "algorithms HS256, formats 1,3";
    let [secret0, secret1] = [&LETTERS[..32], &LETTERS[32..64]].map(base64url);
    for (id, name, inside) in [
        (40..44, "89AB", "inside a secret"),
        // In both secrets together.
        (62..66, "UVWX", "inside a secret"),
        (95..97, "_.", "partly inside a secret"),
    ] {
        let (table, length, at) = (two(id.clone()), id.len(), places(id.start, id.end - 1));
        all_said(
            &folder,
            &table,
            &format!(
                "{first}of 32 bytes (bytes 32-63), {rest}\nkey 1: id of {length} bytes {inside} ({at}; --secrets shows it), \
                 secret of 32 bytes (bytes 64-95), {rest}\n"
            ),
            &format!(
                "{first}base64url:{secret0} (bytes 32-63), {rest}\n\
                 key 1: id \"{name}\" ({at}), secret base64url:{secret1} (bytes 64-95), {rest}\n"
            ),
            &warned(&table),
        );
    }
    assert_eq!(
        warned(&two(40..44)),
        "table.bin: warning: key 1's id (bytes 40-43) shares bytes 40-43 with key 0's secret (bytes 32-63). An id isn't \
         secret: every token that names key 1 gives these bytes of the secret away. Make a new secret for key 0 and build \
         the table anew: `jws-table build` lays ids and secrets apart.\n"
    );
    assert_eq!(warned(&two(62..66)).lines().count(), 2);
}

#[test]
fn equal_ids_inside_secrets_are_kept() {
    let folder = Folder::new("equal");
    let kept = "the id of 1 byte (not shown, as it has bytes of a secret) is also the id of entry 0";
    let rule = "(rule: two ids are never equal byte for byte)";
    let mut bytes = LETTERS[..67].to_vec();
    bytes[65..].copy_from_slice(b"00");
    let three = |ids: [usize; 3]| {
        let keys = ids.map(|id| (id..id + 1, 44..76));
        table_of(&keys, &bytes)
    };
    for (ids, entries) in [
        // Byte 44 is the secret's first, 109 and 110 are equal to it and lie apart.
        ([44, 44, 109], [(1, 44, 44), (2, 109, 44)]),
        ([109, 110, 44], [(1, 110, 109), (2, 44, 109)]),
    ] {
        folder.write("table.bin", three(ids));
        let faults: String = entries
            .iter()
            .map(|(entry, at, earlier)| format!("  entry {entry}, byte {at}: {kept} (byte {earlier}) {rule}\n"))
            .collect();
        let bad = format!("table.bin: bad table\n{faults}");
        says(&folder, &["check", "table.bin"], 1, &bad, "");
        says(&folder, &["show", "table.bin"], 1, "", &bad);
        says(&folder, &["show", "--secrets", "table.bin"], 1, "", &bad);
    }
}

#[test]
fn secrets_taken_for_entries_are_kept() {
    let folder = Folder::new("entries");
    let mut table = two_keys();
    table[3] = 4;
    folder.write("table.bin", &table);
    let rule = "(rule: an id or a secret begins after the last entry)";
    let begins = |entry: usize, field: usize, what: &str, at: usize| {
        format!(
            "  entry {entry}, bytes {field}-{}: the {what} begins at byte {at}, and the entries end at byte 55 {rule}\n",
            field + 1
        )
    };
    let kept = |entry: usize, bytes: &str| {
        format!(
            "  entry {entry}, bytes {bytes}: entry 0 has its secret here, so nothing in entry {entry} is told; look at the \
             number of keys {rule}\n"
        )
    };
    let bad = [
        "table.bin: bad table\n".to_string(),
        begins(0, 8, "id", 32),
        begins(0, 12, "secret", 33),
        kept(2, "33-43"),
        kept(3, "44-55"),
    ]
    .concat();
    says(&folder, &["check", "table.bin"], 1, &bad, "");
    says(&folder, &["show", "table.bin"], 1, "", &bad);
    says(&folder, &["show", "--secrets", "table.bin"], 1, "", &bad);
}

#[test]
fn an_id_that_is_not_utf8_is_warned_of() {
    let folder = Folder::new("not-utf8");
    let key = |id: &str| format!("id {id} secret \"{}\" algorithms HS256 formats 1\n", "s".repeat(32));
    let ids = ["\"é\"", "hex:ff", "\"cellar\\xC3\""];
    folder.write("keys.txt", ids.map(key).concat());
    let warnings = |name: &str| unnamed_key(name, 1, "byte 78") + &unnamed_key(name, 2, "bytes 111-117");
    let said = |words: &[&str], out: &str| says(&folder, words, 0, out, &warnings("table.bin"));
    said(&["build", "keys.txt", "table.bin"], "table.bin: 3 keys, 150 bytes\n");
    said(&["check", "table.bin"], "table.bin: good table, 3 keys\n");
    let rest = |at: &str| format!("secret of 32 bytes (bytes {at}), algorithms HS256, formats 1");
    let shown = [
        "edition 1, 3 keys, 150 bytes".to_string(),
        format!("key 0: id \"é\" (bytes 44-45), {}", rest("46-77")),
        format!("key 1: id hex:ff (byte 78), {}", rest("79-110")),
        format!("key 2: id hex:63656c6c6172c3 (bytes 111-117), {}\n", rest("118-149")),
    ];
    said(&["show", "table.bin"], &shown.join("\n"));
    let built = folder.run(TABLE, &["build", "keys.txt", "-"]);
    let expected = (0, folder.read("table.bin"), warnings("standard output"));
    assert_eq!((built.status, built.out, built.err), expected);
    for subcommand in ["build", "show", "check"] {
        let help = folder.run(TABLE, &[subcommand, "--help"]);
        assert!(help.done().replace('\n', " ").contains("whose id isn't UTF-8"));
    }
}

/// Whether an id is text isn't told where it has bytes of a secret: it would tell something of them.
#[test]
fn an_id_inside_a_secret_is_not_told_to_be_text() {
    let folder = Folder::new("inside-not-utf8");
    let said_of = |byte: u8| said(&folder, &table_of(&[(20..21, 20..52)], &[byte; 32]));
    assert_eq!(said_of(0xFF), said_of(b'A'));
    assert!(!said_of(0xFF)[1].2.contains("UTF-8"));
}

/// All that is said of a table without `--secrets`.
fn said(folder: &Folder, table: &[u8]) -> [(i32, String, String); 2] {
    folder.write("table.bin", table);
    ["show", "check"].map(|word| {
        let ran = folder.run(TABLE, &[word, "table.bin"]);
        (ran.status, ran.text().to_string(), ran.err)
    })
}

/// The same table with another byte for each byte of a secret.
fn other_secrets(rng: &mut Rng, table: &[u8], secrets: &[Areas]) -> Vec<u8> {
    let is_secret = |byte: &usize| secrets.iter().any(|(_, secret)| secret.contains(byte));
    let mut other = table.to_vec();
    for byte in (0..table.len()).filter(is_secret) {
        other[byte] ^= rng.within(1..=255) as u8;
    }
    other
}

/// Whether eight bytes of a secret one after another can be read in a text.
fn gives_away(text: &str, secret: &[u8]) -> bool {
    let letters = |part: &[u8]| std::str::from_utf8(part).is_ok_and(|part| text.contains(part));
    let encoded = |encoded: String| encoded.as_bytes().windows(11).any(letters);
    secret.windows(8).any(|part| letters(part) || text.contains(&hex(part))) || encoded(base64url(secret))
}

#[test]
fn nothing_said_depends_on_a_secret() {
    let folder = Folder::new("depends");
    let (mut apart, mut inside) = (0, 0);
    for (case, table) in case_generator::tables(64).enumerate() {
        let rng = &mut Rng::of_case(65, case as u64);
        let other = other_secrets(rng, &table, &areas(&table));
        let (Ok(_), Ok(keys)) = (reference::table::parse(&table), reference::table::parse(&other)) else {
            continue;
        };
        let told = said(&folder, &table);
        assert_eq!(told, said(&folder, &other), "{table:?}");
        // These secrets are random, so that no id has their bytes by chance.
        for key in keys {
            assert!(!gives_away(&format!("{told:?}"), key.secret), "{table:?}: {told:?}");
        }
        *(if shared(&table).is_empty() {
            &mut apart
        } else {
            &mut inside
        }) += 1;
        if apart >= TABLES && inside >= TABLES / 5 {
            break;
        }
    }
    println!("{apart} tables with ids apart, {inside} with an id in a secret");
}

#[test]
fn nothing_said_of_a_wrong_number_of_keys_depends_on_a_secret() {
    let folder = Folder::new("number");
    let mut bad = 0;
    for case in 0..TABLES as u64 {
        let rng = &mut Rng::of_case(66, case);
        let count = rng.within(1..=8);
        // An id is shorter than an entry, so that none of the entries that aren't there lies in an id.
        let keys: Vec<jws_cli::table::Key> = (0..count)
            .map(|k| {
                let (id_length, secret_length) = (rng.within(1..=11), rng.within(32..=128));
                jws_cli::table::Key {
                    id: vec![b'a' + k as u8; id_length],
                    secret: rng.bytes(secret_length),
                    algorithms: 1,
                    formats: 1,
                }
            })
            .collect();
        let table = jws_cli::table::lay_out(&keys);
        let mut other = other_secrets(rng, &table, &areas(&table));
        let mut table = table;
        let number = rng.within(count + 1..=32) as u8;
        (table[3], other[3]) = (number, number);
        let told = said(&folder, &table);
        assert_eq!(told, said(&folder, &other), "{table:?}");
        assert_eq!(told[1].0, 1, "{told:?}");
        bad += usize::from(told[1].1.contains("is told; look at the number of keys"));
    }
    println!("{bad} of {TABLES} tables with secrets among the entries");
    assert!(bad > TABLES / 4, "{bad}");
}

#[test]
fn entries_in_secrets_are_kept_whatever_the_damage() {
    let (mut told, mut kept) = (0, 0);
    for table in case_generator::tables(67).take(20_000) {
        let Err(faults) = jws_cli::table::read(&table) else {
            continue;
        };
        let areas = areas(&table);
        for (entry, fault) in faults
            .iter()
            .filter_map(|fault| fault.entry.map(|entry| (entry, fault)))
        {
            let row = 8 + 12 * entry..20 + 12 * entry;
            let in_secret = areas[..entry]
                .iter()
                .any(|(_, secret)| row.clone().any(|byte| secret.contains(&byte)));
            assert_eq!(
                fault.found.contains("nothing in entry"),
                in_secret,
                "{fault}: {table:?}"
            );
            *(if in_secret { &mut kept } else { &mut told }) += 1;
        }
    }
    println!("{told} faults of entries told, {kept} entries kept");
    assert!(told > 500 && kept > 50, "{told} {kept}");
}

#[test]
fn built_tables_have_no_id_inside_a_secret() {
    let folder = Folder::new("apart");
    // Both ids are parts of both secrets, and the secrets are equal.
    let secret = "0123456789abcdef0123456789abcdef";
    let key = |id: &str| format!("id \"{id}\" secret \"{secret}\" algorithms HS256 formats 1\n");
    folder.write("keys.txt", [key("0"), key("def0")].concat());
    folder.run(TABLE, &["build", "keys.txt", "table.bin"]).done();
    let table = folder.read("table.bin");
    assert_eq!(areas(&table), [(32..33, 33..65), (65..69, 69..101)]);
    assert_eq!(shared(&table), []);
    says(
        &folder,
        &["check", "table.bin"],
        0,
        "table.bin: good table, 2 keys\n",
        "",
    );
}
