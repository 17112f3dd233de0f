//! The rules on a header's members and the key table, on generated tables and headers, good and damaged. The decision shows in signing
//! an empty payload; where it is 0, the record shows in verifying what was signed.

mod common;

use case_generator::header;
use case_generator::rng::Rng;
use common::{by_answer, cases_or, raw_sign, raw_verify, reference_sign, reference_verify, NO_CALLS};

const SEED: u64 = 31;

/// A header for this table, or any.
fn header_for(rng: &mut Rng, table: &[u8]) -> Vec<u8> {
    let keys = reference::table::parse(table).unwrap_or_default();
    let ids: Vec<&[u8]> = keys.iter().map(|key| key.id).collect();
    match rng.below(6) {
        0 => header::header(rng),
        1 | 2 if !ids.is_empty() => {
            let id = rng.pick(&ids);
            header::plain_header_for(rng, id)
        }
        _ => header::header_for(rng, &ids),
    }
}

#[test]
fn header_rules_agree() {
    let count = cases_or(10_000);
    let room = reference::token::token_len(jws::HEADER_MAX, 0);
    let mut calls = NO_CALLS;
    let (mut named, mut formats, mut texts) = ([0; 2], [0; 9], [0; 2]);
    for (case, table) in case_generator::tables(SEED).take(count).enumerate() {
        let header = header_for(&mut Rng::of_case(SEED + 1, case as u64), &table);
        let expected = reference_sign(&header, b"", &table, room);
        let signed = raw_sign(&header, b"", &table, room);
        assert_eq!(signed, expected, "case {case}: {header:?}, {table:?}");
        calls[usize::from(signed.answer)] += 1;
        if signed.answer == 0 {
            let expected = reference_verify(signed.token(), &table, header.len(), 0);
            let verified = raw_verify(signed.token(), &table, header.len(), 0);
            assert_eq!(verified, expected, "case {case}: {header:?}, {table:?}");
            assert_eq!((verified.answer, &verified.header), (0, &header));
            named[verified.words[3] as usize] += 1;
            formats[verified.words[4] as usize] += 1;
            texts[0] += usize::from(verified.words[5] > 0);
            texts[1] += usize::from(verified.words[7] > 0);
        }
    }
    let answers = [0, 2, 5, 7, 8, 9, 10, 11, 12, 13, 14];
    println!("{}", by_answer(&calls, &answers));
    println!(
        "accepted without kid, with kid {named:?}; formats 1 to 8 {:?}; typ, cty {texts:?}",
        &formats[1..]
    );
    for answer in answers {
        assert!(calls[answer] >= count / 200, "answer {answer}: {} times", calls[answer]);
    }
    assert_eq!(
        calls.iter().sum::<usize>(),
        answers.iter().map(|&answer| calls[answer]).sum()
    );
    assert_eq!(named[0], 0, "accepted without kid");
    assert!(named[1..]
        .iter()
        .chain(&formats[1..])
        .chain(&texts)
        .all(|&seen| seen >= count / 1_000));
}
