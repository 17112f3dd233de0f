//! The proved member reader against `tools/json_oracle.py`, which works otherwise than both it and the reference.

mod common;

use std::fmt::Write as _;
use std::io::Write as _;
use std::thread;

use common::{calls_by_answer, cases, python, raw_member, Calls, NO_CALLS};

const SEED: u64 = 12;

/// A line for the oracle: the header in hexadecimal, the answer, and the words of each member. Counts the calls by their answers.
fn line(header: &[u8], calls: &mut Calls) -> String {
    let mut line = String::new();
    for byte in header {
        write!(line, "{byte:02x}").unwrap();
    }
    if header.is_empty() {
        line.push('-');
    }
    let mut words = String::new();
    for k in 0.. {
        let (answer, [kind, a, b, c, d]) = raw_member(header, k);
        calls[usize::from(answer)] += 1;
        match answer {
            0 => write!(words, " {kind}:{a}:{b}:{c}:{d}").unwrap(),
            // past the last
            16 => return format!("{line} 0{words}\n"),
            number => {
                assert_eq!(k, 0, "a header that isn't read has no members");
                return format!("{line} {number}\n");
            }
        }
    }
    unreachable!()
}

#[test]
fn the_oracle_agrees() {
    let Some(mut oracle) = python("json_oracle.py", &["--members", "--compare"]) else {
        return;
    };
    let mut lines = oracle.stdin.take().unwrap();
    let writer = thread::spawn(move || {
        let mut calls = NO_CALLS;
        for header in case_generator::headers(SEED).take(cases()) {
            lines.write_all(line(&header, &mut calls).as_bytes()).unwrap();
        }
        calls
    });
    let output = oracle.wait_with_output().unwrap();
    let calls = writer.join().unwrap();
    let said = String::from_utf8_lossy(&output.stdout);
    print!("{said}");
    println!("{}", calls_by_answer(&calls));
    assert!(output.status.success());
    assert!(said.starts_with(&format!("{} headers", cases())));
}
