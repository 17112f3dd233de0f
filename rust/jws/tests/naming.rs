//! Only `kid` finds a key: tables of 0, 1, 2 and 32 keys, and headers that name one of them, another one or none, in many ways. A token is
//! signed with the named key's secret or, where none is named, with some key's: a verifier that falls back to a key would accept it.

mod common;

use std::collections::BTreeMap;
use std::str::from_utf8;

use case_generator::call::make_token;
use case_generator::header::quoted;
use case_generator::rng::Rng;
use case_generator::table::valid_of;
use common::{by_answer, cases, sign, verify, Calls, NO_CALLS};
use reference::answer::NO_KEY;
use reference::json;
use reference::rules::choose;
use reference::table::{parse, Key};

const SEED: u64 = 81;
const SIZES: [usize; 4] = [0, 1, 2, 32];
/// The answers to a header that is read; where no key can be found they are 9 to 12.
const ANSWERS: [usize; 7] = [0, 9, 10, 11, 12, 13, 14];
/// Only what has to be an escape is written as one.
const PLAIN: usize = usize::MAX;

/// Names that aren't `kid`, values that it may not have, and members that give a key elsewhere.
const SIMILAR: [&str; 7] = ["Kid", "KID", "kid ", "ki", "kidd", "k\0id", "kid\0"];
const WRONG: [&str; 5] = ["null", "0", "true", "[\"k\"]", "{}"];
const ELSEWHERE: [&str; 5] = ["jku", "jwk", "x5u", "x5t", "x5c"];

/// The id of some key, or the text nearest to it where it isn't UTF-8.
fn some_id(rng: &mut Rng, keys: &[Key]) -> String {
    match keys {
        [] => "k".to_string(),
        _ => String::from_utf8_lossy(rng.pick(keys).id).into_owned(),
    }
}

/// A text beside an id, and how it was made; at times it is the id itself.
fn beside(rng: &mut Rng, id: &str) -> (&'static str, String) {
    match rng.below(5) {
        0 => ("empty", String::new()),
        1 if id == id.to_lowercase() => ("other case", id.to_uppercase()),
        1 => ("other case", id.to_lowercase()),
        2 => ("prefix", id.chars().take(id.chars().count() - 1).collect()),
        3 => ("longer", format!("{id}{}", rng.pick(&["a", " ", "\0", id]))),
        _ => {
            let table = valid_of(rng, 1);
            ("other table", some_id(rng, &parse(&table).unwrap()))
        }
    }
}

/// How a member names the key of an id, or seems to; and the member.
fn naming(rng: &mut Rng, id: &str) -> (&'static str, Option<String>) {
    let (way, name, text) = match rng.below(16) {
        0..=2 => return ("absent", None),
        3 => return ("wrong kind", Some(format!("\"kid\":{}", rng.pick(&WRONG)))),
        4 => ("similar name", rng.pick(&SIMILAR), id.to_string()),
        5..=10 => (rng.pick(&["id", "id", "escaped", "nested"]), "kid", id.to_string()),
        _ => {
            let (way, text) = beside(rng, id);
            (way, "kid", text)
        }
    };
    let escape = if way == "escaped" { rng.within(1..=2) } else { PLAIN };
    let member = format!("{}:{}", quoted(rng, name, escape), quoted(rng, &text, escape));
    let nested = format!("\"x\":{{{member}}}");
    (way, Some(if way == "nested" { nested } else { member }))
}

/// How a header names a key of these; and the header, at times with a member that gives a key elsewhere.
fn header(rng: &mut Rng, keys: &[Key]) -> (&'static str, Vec<u8>) {
    let id = some_id(rng, keys);
    let (way, member) = naming(rng, &id);
    let others = match rng.below(16) {
        0 => r#""alg":256"#,
        1 => r#""alg":"HS256","crit":[]"#,
        2 => r#""alg":"HS384""#,
        3 => r#""alg":"HS256","crit":["fmt"],"fmt":3"#,
        _ => r#""alg":"HS256""#,
    };
    let mut members: Vec<String> = member.into_iter().chain([others.to_string()]).collect();
    if rng.one_in(3) {
        let (name, id) = (rng.pick(&ELSEWHERE), quoted(rng, &id, PLAIN));
        let object = format!("{{\"kty\":\"oct\",\"kid\":{id}}}");
        members.push(format!("\"{name}\":{}", rng.pick(&[&id, &object])));
    }
    rng.shuffle(&mut members);
    (way, format!("{{{}}}", members.join(",")).into_bytes())
}

/// What some keys of a table are.
fn sorts(keys: &[Key]) -> impl Iterator<Item = &'static str> {
    let has = |is: &dyn Fn(&Key) -> bool| keys.iter().any(is);
    let longer = |id: &[u8]| has(&|other| other.id != id && other.id.starts_with(id));
    let found = [
        (has(&|key| from_utf8(key.id).is_err()), "not UTF-8"),
        (has(&|key| longer(key.id)), "prefix of another"),
        (has(&|key| !key.allows_hs256()), "no HS256"),
        (has(&|key| !key.allows_format(1)), "no format 1"),
    ];
    found.into_iter().filter(|(has, _)| *has).map(|(_, sort)| sort)
}

/// How many calls of the verifier and of the signer got each answer, by the number of keys and whether `kid` is there; and
/// how many cases there were of each sort, by the number of keys.
#[derive(Default)]
struct Tally {
    calls: BTreeMap<(usize, bool), [Calls; 2]>,
    sorts: BTreeMap<(usize, &'static str), usize>,
}

/// Verifies and signs, by the proved code and by the reference, and holds what comes out against the rule.
fn run(case: usize, tally: &mut Tally) {
    let (rng, size) = (&mut Rng::of_case(SEED, case as u64), SIZES[case % SIZES.len()]);
    let table = valid_of(rng, size);
    let keys = parse(&table).unwrap();
    let ((way, header), payload) = (header(rng, &keys), rng.bytes(case % 20));
    let token = make_token(rng, &header, &payload, &keys);
    let verified = verify(&token, &table, header.len(), payload.len());
    let signed = sign(&header, &payload, &table, token.len());
    assert!(verified.answer != 0 || (verified.words[3] == 1 && signed.token() == token));

    let members = json::read(&header).expect("read");
    let named = members.iter().any(|member| member.name == "kid");
    assert_eq!(named, !["absent", "nested", "similar name"].contains(&way));
    // With no key at hand this is the answer where no rule before it is broken.
    let nameless = !named && choose(&members, &[]) == Err(NO_KEY);
    let calls = tally.calls.entry((size, named)).or_insert([NO_CALLS; 2]);
    for (answer, calls) in [verified.answer, signed.answer].into_iter().zip(calls) {
        assert!(named || answer != 0, "case {case} is accepted without kid");
        assert!(!nameless || answer == NO_KEY, "case {case}: {answer}");
        calls[usize::from(answer)] += 1;
    }
    let elsewhere = members.iter().any(|member| ELSEWHERE.contains(&&*member.name));
    for sort in sorts(&keys).chain([way]).chain(elsewhere.then_some("key elsewhere")) {
        *tally.sorts.entry((size, sort)).or_insert(0) += 1;
    }
}

#[test]
fn only_a_name_finds_a_key() {
    let mut tally = Tally::default();
    (0..cases()).for_each(|case| run(case, &mut tally));
    println!("cases by the number of keys: {:?}", tally.sorts);
    // Eleven ways of naming and a key elsewhere, with each table; the sorts of one key, which is no prefix, of 2 and of 32.
    assert_eq!(tally.sorts.len(), 4 * 12 + 3 + 4 + 4);
    assert!(tally.sorts.values().all(|&seen| seen >= cases() / 200));
    for (&(size, named), calls) in &tally.calls {
        let found = named && size > 0;
        let answers = if found { &ANSWERS[..] } else { &ANSWERS[1..5] };
        for (what, calls) in ["verify", "sign"].iter().zip(calls) {
            println!("keys: {size}, kid: {named}, {what}: {}", by_answer(calls, answers));
            let seen: usize = answers.iter().map(|&answer| calls[answer]).sum();
            assert_eq!(seen, calls.iter().sum(), "no other answer");
            assert!(answers.iter().all(|&answer| calls[answer] >= cases() / 500));
            assert!(!found || calls[0] >= cases() / 50, "accepted often");
        }
    }
}
