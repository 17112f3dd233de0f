//! Runs generated calls, good and damaged, of the verifier, the signer and the member reader through the archive, with buffers on the
//! heap of exactly their lengths. To be run by valgrind, which sees a byte that is read or written outside of one:
//!
//!     valgrind --error-exitcode=1 target/release/examples/damage 1000

use std::collections::BTreeMap;

use jws::Refusal;

/// A buffer of its own, of these bytes and no more.
fn exact(bytes: Vec<u8>) -> Box<[u8]> {
    bytes.into_boxed_slice()
}

/// The number of an answer.
fn number<T, E: Into<Refusal>>(result: Result<T, E>, buffers: &[&[u8]]) -> u8 {
    let answer = result.map_or_else(|error| error.into().number(), |_| 0);
    let zeros = buffers.iter().all(|buffer| buffer.iter().all(|&byte| byte == 0));
    assert!(zeros || answer == 0, "a refusal leaves zeros");
    answer
}

fn main() {
    let count: usize = std::env::args()
        .nth(1)
        .map_or(1_000, |word| word.parse().expect("a number"));
    let mut answers = BTreeMap::new();
    let mut count_answer = |answer| *answers.entry(answer).or_insert(0) += 1;
    for case in case_generator::verify_cases(41).take(count) {
        let (token, table) = (exact(case.token), exact(case.table));
        let (mut header, mut payload) = (exact(vec![1; case.header_len]), exact(vec![2; case.payload_len]));
        let result = jws::verify(&token, &table, &mut header, &mut payload);
        count_answer(number(result, &[&header, &payload]));
    }
    for case in case_generator::sign_cases(42).take(count) {
        let (header, payload, table) = (exact(case.header), exact(case.payload), exact(case.table));
        let mut token = exact(vec![3; case.token_len]);
        let result = jws::sign(&header, &payload, &table, &mut token);
        count_answer(number(result, &[&token]));
    }
    for case in case_generator::member_cases(43).take(count) {
        let header = exact(case.header);
        count_answer(number(jws::member(&header, case.k), &[]));
    }
    println!("{} calls by their answers: {answers:?}", 3 * count);
}
