//! One list of answers: the table of `docs/SPECIFICATION.md`, "Answers", and every other place that names them held against it.

use std::fs;

use jws::Refusal;
use jws_cli::refusals;
use reference::limits::DEPTH_MAX;

/// An answer as a place has it.
#[derive(Clone, Debug, PartialEq, Eq)]
struct Entry {
    number: u8,
    /// As in the list, or `None` in a place that has no names.
    name: Option<String>,
    /// As in the list, or `None` in a place that has no words.
    words: Option<String>,
}

fn entry(number: u8, name: Option<&str>, words: Option<&str>) -> Entry {
    let (name, words) = (name.map(String::from), words.map(String::from));
    Entry { number, name, words }
}

/// Where a place differs from the list: answers that are missing, extra or there twice, other names, other words, and another order.
fn differences(list: &[Entry], place: &[Entry]) -> Vec<String> {
    let mut differences = Vec::new();
    for right in list {
        let number = right.number;
        let mut found = place.iter().filter(|entry| entry.number == number);
        match (found.next(), found.next()) {
            (None, _) => differences.push(format!("{number} is missing")),
            (_, Some(_)) => differences.push(format!("{number} is there twice")),
            (Some(entry), None) => differences.extend(difference(right, entry)),
        }
    }
    for entry in place {
        if !list.iter().any(|right| right.number == entry.number) {
            differences.push(format!("{entry:?} is extra"));
        }
    }
    if place.windows(2).any(|pair| pair[0].number > pair[1].number) {
        differences.push("another order".into());
    }
    differences
}

/// How an answer's name or words differ from the list's, where the place has them.
fn difference(right: &Entry, entry: &Entry) -> Option<String> {
    let same = |right: &Option<String>, given: &Option<String>| given.is_none() || given == right;
    let right_too = same(&right.name, &entry.name) && same(&right.words, &entry.words);
    (!right_too).then(|| format!("{entry:?}, and the list has {right:?}"))
}

/// A file of the repository.
fn file(path: &str) -> String {
    let path = format!("{}/../../{path}", env!("CARGO_MANIFEST_DIR"));
    fs::read_to_string(&path).unwrap_or_else(|error| panic!("{path}: {error}"))
}

/// What stands between the first `from` and the next `to`.
fn between<'t>(text: &'t str, from: &str, to: &str) -> &'t str {
    let (_, rest) = text.split_once(from).unwrap_or_else(|| panic!("no {from:?}"));
    rest.split_once(to)
        .unwrap_or_else(|| panic!("no {to:?} after {from:?}"))
        .0
}

/// The rows of the first Markdown table in a section, below its head: the number first, the words last, and a name between them if there is
/// one.
fn table(text: &str, heading: &str) -> Vec<Entry> {
    let section = between(text, heading, "\n\n#");
    let rows = section.lines().skip_while(|line| !line.starts_with('|'));
    rows.take_while(|line| line.starts_with('|')).skip(2).map(row).collect()
}

fn row(line: &str) -> Entry {
    let cells: Vec<&str> = line.trim_matches('|').split('|').map(str::trim).collect();
    match cells[..] {
        [number, words] => entry(number.parse().unwrap(), None, Some(words)),
        [number, name, words] => {
            let name = name.trim_matches('`');
            entry(number.parse().unwrap(), Some(name), Some(words))
        }
        _ => panic!("not a row of answers: {line}"),
    }
}

/// The list: the specification's table.
fn list() -> Vec<Entry> {
    table(&file("docs/SPECIFICATION.md"), "\n## Answers\n")
}

/// 0 alone, which is no refusal.
fn done() -> Vec<Entry> {
    list().into_iter().filter(|entry| entry.number == 0).collect()
}

/// The list without 0.
fn refusals() -> Vec<Entry> {
    list().into_iter().filter(|entry| entry.number != 0).collect()
}

/// Words as the sentence of a doc comment: a capital first and a full stop last.
fn sentence(words: &str) -> String {
    let (first, rest) = words.split_at(words.chars().next().map_or(0, char::len_utf8));
    format!("{}{rest}.", first.to_uppercase())
}

/// The list with its words as sentences.
fn sentences(list: Vec<Entry>) -> Vec<Entry> {
    let told = |entry: Entry| Entry {
        words: entry.words.map(|words| sentence(&words)),
        ..entry
    };
    list.into_iter().map(told).collect()
}

/// `TOKEN_TOO_LONG` as `TokenTooLong`.
fn camel_case(name: &str) -> String {
    let word = |word: &str| {
        let (first, rest) = word.split_at(1);
        first.to_string() + &rest.to_lowercase()
    };
    name.split('_').map(word).collect()
}

/// The list with its names as the cases of an enum.
fn camel_cases(list: Vec<Entry>) -> Vec<Entry> {
    let told = |entry: Entry| Entry {
        name: entry.name.map(|name| camel_case(&name)),
        ..entry
    };
    list.into_iter().map(told).collect()
}

/// The constants `JWS_NAME = number, /* words */` of the answers' enum in `include/jws.h`.
fn header_constants(text: &str) -> Vec<Entry> {
    let constant = |line: &str| {
        let (name, rest) = line.trim().strip_prefix("JWS_").unwrap().split_once(" = ").unwrap();
        let (number, comment) = rest.split_once("/*").unwrap();
        let number = number.trim().trim_end_matches(',').parse().unwrap();
        entry(number, Some(name), Some(comment.strip_suffix("*/").unwrap().trim()))
    };
    let body = between(text, "/* Answers. */\nenum {\n", "};");
    body.lines().map(constant).collect()
}

/// The constants `pub const NAME: u8 = number;` of Rust or Rattle, with the comment before each if it has one.
fn constants(text: &str) -> Vec<Entry> {
    let mut constants = Vec::new();
    let mut comment = None;
    for line in text.lines() {
        if let Some(constant) = line.strip_prefix("pub const ") {
            let (name, rest) = constant.split_once(": u8 = ").unwrap();
            let number = rest.strip_suffix(';').unwrap().parse().unwrap();
            constants.push(entry(number, Some(name), comment));
        }
        comment = line.strip_prefix("/// ").or(line.strip_prefix("// "));
    }
    constants
}

/// The cases `Name = number,` of Rattle's `Refusal`, with the comment before each.
fn numbered_cases(text: &str) -> Vec<Entry> {
    let body = between(text, "pub enum Refusal {\n", "\n}");
    let lines: Vec<&str> = body.lines().map(str::trim).collect();
    assert!(lines.len() % 2 == 0, "a case of Refusal has no comment");
    let case = |pair: &[&str]| {
        let (name, number) = pair[1].trim_end_matches(',').split_once(" = ").unwrap();
        entry(number.parse().unwrap(), Some(name), pair[0].strip_prefix("// "))
    };
    lines.chunks_exact(2).map(case).collect()
}

/// The cases of `Refusal` without `Unknown`, by its source: each with its doc comment and, in the order of `Refusal::ALL`, its number.
fn cases(text: &str) -> Vec<Entry> {
    let body = between(text, "pub enum Refusal {\n", "\n}");
    let lines: Vec<&str> = body.lines().map(str::trim).collect();
    let named = |name: &str| Refusal::ALL.iter().find(|case| format!("{case:?}") == name);
    let case = |pair: &[&str]| {
        let (comment, name) = (pair[0].strip_prefix("/// ").unwrap(), pair[1].trim_end_matches(','));
        if name.starts_with("Unknown(") {
            return None;
        }
        let number = named(name).unwrap_or_else(|| panic!("{name} isn't in ALL")).number();
        Some(entry(number, Some(name), Some(comment)))
    };
    lines.chunks_exact(2).filter_map(case).collect()
}

#[test]
fn the_list_is_whole() {
    let list = list();
    assert!(list.len() > 1);
    assert!(
        list.iter().map(|entry| usize::from(entry.number)).eq(0..list.len()),
        "{list:?}"
    );
    for entry in &list {
        let (name, words) = (entry.name.as_ref().unwrap(), entry.words.as_ref().unwrap());
        assert!(!words.is_empty() && !name.is_empty(), "{entry:?}");
        assert_eq!(
            list.iter().filter(|other| other.name == entry.name).count(),
            1,
            "{name}"
        );
        assert_eq!(
            list.iter().filter(|other| other.words == entry.words).count(),
            1,
            "{words}"
        );
    }
}

#[test]
fn every_place_agrees() {
    let none: Vec<String> = Vec::new();
    assert_eq!(
        differences(&list(), &table(&file("README.md"), "\n## The answers\n")),
        none
    );
    assert_eq!(differences(&list(), &header_constants(&file("include/jws.h"))), none);
    let answers = file("crates/answers/src/lib.rt");
    assert_eq!(differences(&sentences(done()), &constants(&answers)), none);
    assert_eq!(
        differences(
            &camel_cases(sentences(refusals())),
            &numbered_cases(&file("crates/answers/src/refusal.rt"))
        ),
        none
    );
    assert_eq!(
        differences(&sentences(list()), &constants(&file("rust/reference/src/answer.rs"))),
        none
    );
    assert_eq!(
        differences(
            &camel_cases(sentences(refusals())),
            &cases(&file("rust/jws/src/refusal.rs"))
        ),
        none
    );
}

/// The comments of every place that has some are there: a place without one would be taken for a place that has none.
#[test]
fn every_comment_is_there() {
    for place in [
        header_constants(&file("include/jws.h")),
        constants(&file("crates/answers/src/lib.rt")),
        numbered_cases(&file("crates/answers/src/refusal.rt")),
        constants(&file("rust/reference/src/answer.rs")),
        cases(&file("rust/jws/src/refusal.rs")),
    ] {
        assert!(place.iter().all(|entry| entry.words.is_some()), "{place:?}");
    }
}

#[test]
fn the_wrapper_agrees() {
    let given: Vec<Entry> = Refusal::ALL
        .iter()
        .map(|refusal| {
            entry(
                refusal.number(),
                Some(&format!("{refusal:?}")),
                Some(&refusal.to_string()),
            )
        })
        .collect();
    assert_eq!(differences(&camel_cases(refusals()), &given), Vec::<String>::new());
}

/// The limits in the words are the wrapper's, with a comma before the last three digits; the depth is the reference's.
#[test]
fn the_limits_agree() {
    for (refusal, limit) in [
        (Refusal::TokenTooLong, jws::TOKEN_MAX),
        (Refusal::HeaderTooLong, jws::HEADER_MAX),
    ] {
        let limit = format!("{},{:03}", limit / 1_000, limit % 1_000);
        assert!(refusal.to_string().contains(&format!("more than {limit} bytes")));
        assert!(refusals::sentence(refusal).contains(&format!("at most {limit} bytes")));
    }
    let refusal = Refusal::NotDerived;
    assert!(refusal.to_string().ends_with(&format!("deeper than {DEPTH_MAX}")));
    assert!(refusals::sentence(refusal).contains(&format!("more than {DEPTH_MAX} deep")));
}

/// The commands have a sentence of its own for each answer, and one for all that they don't know.
#[test]
fn the_commands_have_a_sentence_for_each() {
    let mut seen = vec![refusals::UNKNOWN];
    for right in refusals() {
        let refusal = Refusal::ALL.iter().find(|refusal| refusal.number() == right.number);
        let sentence = refusals::sentence(*refusal.unwrap_or_else(|| panic!("{right:?}")));
        assert!(!seen.contains(&sentence), "{right:?}: {sentence}");
        seen.push(sentence);
    }
    assert_eq!(refusals::sentence(Refusal::Unknown(200)), refusals::UNKNOWN);
    let told = refusals::told(Refusal::Unknown(200), &[]);
    assert!(told.starts_with("refused 200 (Unknown(200)): "), "{told}");
}

/// A wrong place is found: an answer missing, extra or there twice, another number, name or words, another order.
#[test]
fn differences_are_found() {
    let list = [
        entry(0, Some("DONE"), Some("done")),
        entry(1, Some("BAD"), Some("`x` is bad")),
    ];
    let with = |place: &[(u8, &str, &str)]| {
        let place: Vec<Entry> = place
            .iter()
            .map(|&(number, name, words)| entry(number, Some(name), Some(words)))
            .collect();
        differences(&list, &place)
    };
    let (done, bad) = ((0, "DONE", "done"), (1, "BAD", "`x` is bad"));
    assert_eq!(with(&[done, bad]), Vec::<String>::new());
    assert_eq!(with(&[done]), ["1 is missing"]);
    assert_eq!(with(&[bad]), ["0 is missing"]);
    assert_eq!(with(&[done, bad, bad]), ["1 is there twice"]);
    assert_eq!(with(&[bad, done]), ["another order"]);
    assert_eq!(with(&[done, bad, (2, "NEW", "new")]).len(), 1);
    for other in [
        (1, "BAD", "x is bad"),
        (1, "BAD", "`x` is bad."),
        (1, "Bad", "`x` is bad"),
    ] {
        assert_eq!(with(&[done, other]).len(), 1, "{other:?}");
    }
    // Another number is one missing and one extra.
    assert_eq!(with(&[done, (2, "BAD", "`x` is bad")]).len(), 2);
    // A place without names or words is held against the rest alone.
    assert_eq!(
        differences(&list, &[entry(0, None, Some("done")), entry(1, Some("BAD"), None)]).len(),
        0
    );
    assert_eq!(
        differences(&list, &[entry(0, None, Some("Done")), entry(1, Some("BAT"), None)]).len(),
        2
    );
}

/// Each place is read as it is written.
#[test]
fn places_are_read() {
    let (done, bad) = (
        entry(0, Some("DONE"), Some("done")),
        entry(1, Some("BAD"), Some("`x` is bad")),
    );
    let markdown = "# A\n\n## B\n\n| n | name | says |\n|---|---|---|\n| 0 | `DONE` | done |\n| 1 | `BAD` | `x` is bad |\n\n| 2 | 3 |\n\n## C\n";
    assert_eq!(table(markdown, "\n## B\n"), [done.clone(), bad.clone()]);
    let short = "\n## B\n| n | says |\n|---|---|\n| 0 | done |\n\n## C\n";
    assert_eq!(table(short, "\n## B\n"), [entry(0, None, Some("done"))]);
    let header = "/* Answers. */\nenum {\n    JWS_DONE = 0, /* done */\n    JWS_BAD = 1   /* `x` is bad */\n};\n";
    assert_eq!(header_constants(header), [done.clone(), bad.clone()]);
    for comment in ["///", "//"] {
        let code = format!("{comment} Done.\npub const DONE: u8 = 0;\n\npub const BAD: u8 = 1;\n");
        assert_eq!(
            constants(&code),
            [entry(0, Some("DONE"), Some("Done.")), entry(1, Some("BAD"), None)]
        );
    }
    let source = "pub enum Refusal {\n    /// Words.\n    NoKey,\n    /// More.\n    Unknown(u8),\n}\n";
    assert_eq!(cases(source), [entry(12, Some("NoKey"), Some("Words."))]);
    assert_eq!(
        sentences(vec![done, bad]),
        [
            entry(0, Some("DONE"), Some("Done.")),
            entry(1, Some("BAD"), Some("`x` is bad."))
        ]
    );
    assert_eq!(camel_case("NOT_BASE64URL"), "NotBase64url");
}
