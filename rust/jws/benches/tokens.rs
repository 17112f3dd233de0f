//! Times the proved verifier and signer beside the reference's, and beside those of an earlier archive where `JWS_BEFORE` names one, all in
//! one run, on accepted tokens of 16,000 and of 179 bytes; then the key table that takes longest to check.
//! `cargo bench -p jws --bench tokens`.
//!
//! Each buffer is dirty all over before every call, so that clearing it is work of the call that is timed.

#[cfg(jws_before)]
mod before;

use std::hint::black_box;

use jws::{HEADER_MAX, PAYLOAD_MAX, TOKEN_MAX};
use stopwatch::{least, least_of_both, least_of_times, report, report_each, time};

/// Lengths of tokens; and the most that verifying one and signing one may take, in times of the reference.
const LONG: usize = 16_000;
const MOST_OF_LONG: f64 = 0.75;
const SHORT: usize = 179;
const MOST_OF_SHORT: f64 = 0.95;

const TABLE: &[u8] = include_bytes!("../../../crates/verify_token/data/table.bin");
const HEADER: &[u8] = br#"{"alg":"HS256","kid":"RFC 7515 A.1"}"#;

/// What a buffer holds before a call.
const DIRT: u8 = 0xA5;

/// Verifies a token by a table into buffers for header and payload, and says whether it is accepted.
type Verifier = fn(&[u8], &[u8], &mut [u8], &mut [u8]) -> bool;

/// Signs a header and a payload by a table into a buffer, and gives the token's length, or 0 where that is refused.
type Signer = fn(&[u8], &[u8], &[u8], &mut [u8]) -> usize;

/// Who verifies and signs. The first is compared with each of the others.
struct Side {
    name: &'static str,
    verify: Verifier,
    sign: Signer,
}

const SIDES: &[Side] = &[
    Side {
        name: "proved",
        verify: |token, table, header, payload| jws::verify(token, table, header, payload).is_ok(),
        sign: |header, payload, table, token| jws::sign(header, payload, table, token).unwrap_or(0),
    },
    Side {
        name: "Rust",
        verify: |token, table, header, payload| reference::token::verify(token, table, header, payload).0 == 0,
        sign: |header, payload, table, token| reference::token::sign(header, payload, table, token).1,
    },
    #[cfg(jws_before)]
    Side {
        name: "before",
        verify: before::verify,
        sign: before::sign,
    },
];

/// A buffer to lend, and what every call has to leave in it.
struct Lent {
    buffer: Vec<u8>,
    left: Vec<u8>,
}

impl Lent {
    fn new(length: usize) -> Self {
        Lent {
            buffer: vec![DIRT; length],
            left: vec![0; length],
        }
    }

    /// What has to be left is `bytes`, then zeros.
    fn expect(&mut self, bytes: &[u8]) {
        let (front, rest) = self.left.split_at_mut(bytes.len());
        front.copy_from_slice(bytes);
        rest.fill(0);
    }

    fn dirty(&mut self) -> &mut [u8] {
        self.buffer.fill(DIRT);
        black_box(&mut self.buffer)
    }

    fn check(&self, side: &Side) {
        assert!(self.buffer == self.left, "{} left another buffer", side.name);
    }
}

/// Payloads of this length, no two alike.
fn payloads(count: usize, length: usize) -> impl Iterator<Item = Vec<u8>> {
    (0..count).map(move |i| {
        let mut payload = format!("{i:08}").into_bytes();
        payload.extend((8..length).map(|at| (i * 7 + at * 31) as u8));
        payload
    })
}

/// The least time of each side to sign a payload to a token of `length` bytes. The first rounds warm up.
fn signing(rounds: usize, payload: &[u8], length: usize, token: &mut Lent) -> Vec<f64> {
    let (header, payload, table) = (black_box(HEADER), black_box(payload), black_box(TABLE));
    least_of_times(rounds, SIDES, |side| {
        let lent = token.dirty();
        let time = time(|| assert_eq!((side.sign)(header, payload, table, lent), length, "{}", side.name));
        token.check(side);
        time
    })
}

/// The least time of each side to verify a token, likewise.
fn verifying(rounds: usize, token: &[u8], header: &mut Lent, payload: &mut Lent) -> Vec<f64> {
    let (token, table) = (black_box(token), black_box(TABLE));
    least_of_times(rounds, SIDES, |side| {
        let lent = (header.dirty(), payload.dirty());
        let time = time(|| assert!((side.verify)(token, table, lent.0, lent.1), "{}", side.name));
        header.check(side);
        payload.check(side);
        time
    })
}

fn add(sums: &mut [f64], times: Vec<f64>) {
    sums.iter_mut().zip(times).for_each(|(sum, time)| *sum += time);
}

/// Verifies and signs `count` tokens of `length` bytes and reports the means of their least times. Gives the two ratios to the reference.
fn tokens(count: usize, length: usize, payload_length: usize, rounds: usize) -> [f64; 2] {
    let [mut token, mut header, mut buffer] = [TOKEN_MAX, HEADER_MAX, PAYLOAD_MAX].map(Lent::new);
    let (mut verified, mut signed) = (vec![0.0; SIDES.len()], vec![0.0; SIDES.len()]);
    header.expect(HEADER);
    for payload in payloads(count, payload_length) {
        let made = reference::token::sign(HEADER, &payload, TABLE, &mut token.left);
        assert_eq!(made, (0, length));
        buffer.expect(&payload);
        add(&mut signed, signing(rounds, &payload, length, &mut token));
        let token = &token.left[..length];
        add(&mut verified, verifying(rounds, token, &mut header, &mut buffer));
    }
    [("verifying", verified), ("signing", signed)].map(|(name, sums)| {
        let mean = |(side, sum): (&Side, f64)| (side.name, sum / count as f64);
        let means: Vec<_> = SIDES.iter().zip(sums).map(mean).collect();
        report_each(&format!("{name} {count} tokens of {length} bytes, each"), &means);
        means[0].1 / means[1].1
    })
}

/// Prints the ratios of tokens of this length beside the most that each may be, and says whether none is more.
fn within(length: usize, [verifying, signing]: [f64; 2], most: f64) -> bool {
    println!("verifying {length} bytes: proved/Rust {verifying:.2}, at most {most}");
    println!("signing {length} bytes: proved/Rust {signing:.2}, at most {most}");
    verifying <= most && signing <= most
}

/// 32 ids of 64 bytes, equal but for the last, and one secret.
fn longest_table() -> Vec<u8> {
    let (ids, total) = (8 + 12 * 32, 8 + 12 * 32 + 64 * 32 + 32);
    let number = |n: usize| (n as u16).to_be_bytes();
    let mut table = vec![0, 1, 0, 32, 0, 0];
    table.extend(number(total));
    for i in 0..32 {
        for place in [ids + 64 * i, 64, total - 32, 32] {
            table.extend(number(place));
        }
        table.extend([1, 1, 0, 0]);
    }
    for i in 0..32 {
        table.extend([b'a'; 63]);
        table.push(b'a' + i);
    }
    table.extend([7; 32]);
    table
}

/// Times the check of that table.
fn table(rounds: usize) {
    // An empty header is refused right after it.
    let table = longest_table();
    let mut token = [0; 64];
    assert_eq!(jws::sign(b"", b"", &table, &mut token), Err(jws::Refusal::NotDerived));
    let both = least_of_both(
        rounds,
        || assert!(black_box(jws::sign(b"", b"", black_box(&table), &mut token)).is_err()),
        || assert!(black_box(reference::table::parse(black_box(&table))).is_ok()),
    );
    report("checking a table of 32 ids equal but for the last of 64 bytes", both);
    let bytes = [b'p'; 16_000];
    let unit = least(rounds, || {
        black_box(reference::sha256::digest(black_box(&bytes)));
    });
    println!("  {:.2} times SHA-256 of 16,000 bytes ({unit:.0} ns)", both.0 / unit);
}

fn main() {
    #[cfg(jws_before)]
    assert_eq!(before::boundary(), jws::BOUNDARY);
    let timed = std::env::args().any(|word| word == "--bench");
    let (share, rounds) = if timed { (1, 20) } else { (100, 1) };
    let long = tokens(1_000 / share, LONG, 11_930, rounds);
    let short = tokens(10_000 / share, SHORT, 64, 4 * rounds);
    table(25 * rounds);
    if timed {
        let [long, short] = [within(LONG, long, MOST_OF_LONG), within(SHORT, short, MOST_OF_SHORT)];
        assert!(
            long && short,
            "more than {MOST_OF_LONG} times the reference, or than {MOST_OF_SHORT} of short tokens"
        );
    }
}
