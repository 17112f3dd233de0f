//! Times the reference: `cargo run --release --example timings`. Each figure is the least of several runs.

use std::hint::black_box;
use std::time::Instant;

use reference::hmac::hmac_sha256;
use reference::limits::{HEADER_MAX, TOKEN_MAX};
use reference::{base64url, json, sha256, token};

const RUNS: usize = 15;

/// The header of the tokens, which names the key of [`table`].
const HEADER: &[u8] = br#"{"alg":"HS256","kid":"k"}"#;

/// Prints the least mean time of `repeats` calls over [`RUNS`] runs.
fn time<T>(name: &str, bytes: usize, repeats: u32, mut call: impl FnMut() -> T) {
    let run = |_| {
        let start = Instant::now();
        for _ in 0..repeats {
            black_box(call());
        }
        start.elapsed().as_secs_f64() / f64::from(repeats)
    };
    let least = (0..RUNS).map(run).fold(f64::INFINITY, f64::min);
    let speed = bytes as f64 / least / 1e6;
    println!("{name:40} {:9.2} us {speed:8.0} MB/s", least * 1e6);
}

/// A header of 1,000 bytes with 20 members, `alg` first.
fn header() -> Vec<u8> {
    let mut header = String::from("{\"alg\":\"HS256\"");
    for i in 1..20 {
        header += &format!(",\"member-{i:02}\":\"{}\"", "v".repeat(35));
    }
    header += "}";
    format!("{header:1000}").into_bytes()
}

/// A table of one key, its id `k`.
fn table() -> Vec<u8> {
    let mut table = vec![0, 1, 0, 1, 0, 0, 0, 53];
    table.extend([0, 20, 0, 1, 0, 21, 0, 32, 1, 1, 0, 0]);
    table.extend([b'k'; 33]);
    table
}

fn main() {
    let message = vec![0x5A; 16_000];
    time("sha256, 16,000 bytes", 16_000, 200, || {
        sha256::digest(black_box(&message))
    });
    time("hmac_sha256, 16,000 bytes", 16_000, 200, || {
        hmac_sha256(b"key", black_box(&message))
    });

    let bytes: Vec<u8> = (0..12_000u32).map(|i| (i * 31 / 8) as u8).collect();
    let text = base64url::encode(&bytes).into_bytes();
    let mut decoded = vec![0; 12_000];
    let mut encoded = vec![0; 16_000];
    time("base64url decode_into, 16,000 chars", 16_000, 500, || {
        base64url::decode_into(black_box(&text), black_box(&mut decoded))
    });
    time("base64url encode_into, 12,000 bytes", 12_000, 500, || {
        base64url::encode_into(black_box(&bytes), black_box(&mut encoded))
    });

    let header = header();
    assert_eq!(json::read(&header).map(|members| members.len()), Ok(20));
    time("json read, 1,000 bytes, 20 members", 1_000, 5_000, || {
        json::read(black_box(&header)).map(|members| members.len())
    });
    time("json member 19 of the same", 1_000, 5_000, || {
        json::member(black_box(&header), 19).map(|member| member.words())
    });

    let table = table();
    let mut token = vec![0; TOKEN_MAX];
    let payload = vec![b'p'; 11_944];
    let (answer, length) = token::sign(HEADER, &payload, &table, &mut token);
    assert_eq!((answer, length), (0, 16_005));
    let mut header_buf = vec![0; HEADER_MAX];
    let mut payload_buf = vec![0; TOKEN_MAX / 4 * 3];
    time("verify, token of 16,005 bytes", 16_005, 100, || {
        token::verify(
            black_box(&token[..length]),
            black_box(&table),
            &mut header_buf,
            &mut payload_buf,
        )
    });
    time("sign, token of 16,005 bytes", 16_005, 100, || {
        let mut token = vec![0; TOKEN_MAX];
        token::sign(HEADER, black_box(&payload), black_box(&table), &mut token)
    });
    let (answer, length) = token::sign(HEADER, b"setpoint 21.5", &table, &mut token);
    assert_eq!((answer, length), (0, 97));
    time("verify, token of 97 bytes", 97, 2_000, || {
        token::verify(
            black_box(&token[..length]),
            black_box(&table),
            &mut header_buf,
            &mut payload_buf[..64],
        )
    });
}
