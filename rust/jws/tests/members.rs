//! The proved member reader against the reference's, on generated headers, good and damaged.

mod common;

use common::{calls_by_answer, cases, raw_member, NO_CALLS};
use jws::Refusal;

const SEED: u64 = 11;

/// The wrapper's answer as a number and words.
fn plain(member: Result<jws::Member, Refusal>) -> (u8, [u64; 5]) {
    match member {
        Err(refusal) => (refusal.number(), [0; 5]),
        Ok(member) => {
            let places = [member.name.start, member.name.end, member.value.start, member.value.end];
            let [a, b, c, d] = places.map(|place| place as u64);
            (0, [member.kind.number(), a, b, c, d])
        }
    }
}

#[test]
fn members_agree() {
    let mut read_headers = 0;
    let mut calls = NO_CALLS;
    let mut kinds = [0; 8];
    for (case, header) in case_generator::headers(SEED).take(cases()).enumerate() {
        let read = reference::json::read(&header);
        read_headers += usize::from(read.is_ok());
        let count = read.as_ref().map_or(2, |members| members.len());
        for k in (0..=count + 1).chain([usize::MAX]) {
            let expected = match &read {
                Err(number) => (*number, [0; 5]),
                Ok(members) => members.get(k).map_or((16, [0; 5]), |member| (0, member.words())),
            };
            let given = raw_member(&header, k);
            assert_eq!(given, expected, "case {case}, member {k} of {header:?}");
            assert_eq!(plain(jws::member(&header, k)), expected);
            calls[usize::from(given.0)] += 1;
            kinds[given.1[0] as usize] += 1;
        }
        match (jws::members(&header), read) {
            (Err(refusal), Err(number)) => assert_eq!(refusal.number(), number),
            (Ok(members), Ok(expected)) => {
                let words = members.map(|member| plain(Ok(member)).1);
                assert!(words.eq(expected.iter().map(|member| member.words())));
            }
            (given, expected) => panic!("case {case}: {given:?}, {expected:?}"),
        }
    }
    println!("{} headers, of which {} are read", cases(), read_headers);
    println!("{}, kinds {:?}", calls_by_answer(&calls), &kinds[1..]);
    for answer in [0, 5, 7, 8, 16] {
        assert!(calls[answer] > cases() / 50, "answer {answer}: {} times", calls[answer]);
    }
    assert!(kinds[1..].iter().all(|count| *count > cases() / 50), "{kinds:?}");
}
