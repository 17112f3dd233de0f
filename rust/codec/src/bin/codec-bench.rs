//! Times the proved codecs beside the reference, and beside an earlier archive where `CODEC_BEFORE` names one, all in one run, and prints the
//! ratios of the least times. `cargo run --release -p codec --bin codec-bench`

use std::collections::BTreeSet;
use std::hint::black_box;

use case_generator::rng::Rng;
use codec::Answer;
use reference::base64url;
use stopwatch::{least_of_each, report_each};

/// Bytes of the longest message, and characters of the longest segments.
const LONGEST: usize = 16_000;

/// The most that SHA-256 of [`LONGEST`] bytes may take, in times of the reference; and decoding segments of as many characters.
const MOST_OF_SHA256: f64 = 0.75;
const MOST_OF_DECODING: f64 = 0.85;

/// Rounds of one message, and calls that are timed together.
const ROUNDS: usize = 400;
const CALLS: usize = 8;
/// The key of the MACs.
const KEY: [u8; 32] = [0x5A; 32];

const SEGMENTS: usize = 1_000;
/// Passes over the longest segments; shorter ones have more, by their length.
const PASSES: usize = 7;

/// The digest of a message, or its MAC under [`KEY`].
type Hash = fn(&[u8]) -> [u8; 32];

/// Decodes or encodes into a buffer that is just as long as it takes, and says whether it did.
type Coder = fn(&[u8], &mut [u8]) -> bool;

/// Who hashes, decodes and encodes. The first is compared with each of the others.
struct Side {
    name: &'static str,
    sha256: Hash,
    hmac: Hash,
    decode: Coder,
    encode: Coder,
}

const SIDES: &[Side] = &[
    Side {
        name: "proved",
        sha256: codec::sha256,
        hmac: |message| codec::hmac_sha256(black_box(&KEY), message),
        decode: |text, out| codec::decode(text, out) == Answer::Written(out.len()),
        encode: |bytes, out| codec::encode(bytes, out) == Answer::Written(out.len()),
    },
    Side {
        name: "Rust",
        sha256: reference::sha256::digest,
        hmac: |message| reference::hmac::hmac_sha256(black_box(&KEY), message),
        decode: |text, out| base64url::decode_into(text, out) == Ok(out.len()),
        encode: |bytes, out| base64url::encode_into(bytes, out) == Ok(out.len()),
    },
    #[cfg(codec_before)]
    Side {
        name: "before",
        sha256: codec::before::sha256,
        hmac: |message| codec::before::hmac_sha256(black_box(&KEY), message),
        decode: |text, out| codec::before::decode(text, out) == Answer::Written(out.len()),
        encode: |bytes, out| codec::before::encode(bytes, out) == Answer::Written(out.len()),
    },
];

fn main() {
    let [.., hashing] = [32, 200, 2_000, LONGEST].map(hashing);
    let [.., decoding] = [20, 160, LONGEST].map(coding);
    println!("SHA-256 of {LONGEST} bytes: {hashing:.2} times the reference, at most {MOST_OF_SHA256}");
    println!("decoding {LONGEST} characters: {decoding:.2} times the reference, at most {MOST_OF_DECODING}");
    assert!(
        hashing <= MOST_OF_SHA256 && decoding <= MOST_OF_DECODING,
        "SHA-256 takes more than {MOST_OF_SHA256} times the reference, or decoding more than {MOST_OF_DECODING}"
    );
}

/// Times SHA-256 and HMAC of a message of so many bytes, and gives the ratio of SHA-256 to the reference.
fn hashing(length: usize) -> f64 {
    let message = Rng::new(length as u64).bytes(length);
    let sha256 = hashed(&message, |side| side.sha256);
    report_each(&format!("SHA-256 of {length} bytes"), &sha256);
    let hmac = hashed(&message, |side| side.hmac);
    report_each(&format!("HMAC-SHA-256 of {length} bytes"), &hmac);
    sha256[0].1 / sha256[1].1
}

/// The time of one call in the least round, of each side. That all sides give one hash is checked before.
fn hashed(message: &[u8], hash: fn(&Side) -> Hash) -> Vec<(&'static str, f64)> {
    let hashes: BTreeSet<_> = SIDES.iter().map(|side| hash(side)(message)).collect();
    assert_eq!(hashes.len(), 1);
    let times = least_of_each(ROUNDS, SIDES, |side| {
        let hash = hash(side);
        for _ in 0..CALLS {
            black_box(hash(black_box(message)));
        }
    });
    named(times, CALLS)
}

/// Times the decoding and the encoding of segments of so many characters, no two alike, and gives the ratio of decoding to the reference.
fn coding(characters: usize) -> f64 {
    let mut rng = Rng::new(characters as u64);
    let length = base64url::decoded_len(characters);
    let bytes: Vec<Vec<u8>> = (0..SEGMENTS).map(|_| rng.bytes(length)).collect();
    assert_eq!(bytes.iter().collect::<BTreeSet<_>>().len(), SEGMENTS);
    let texts: Vec<Vec<u8>> = bytes
        .iter()
        .map(|bytes| base64url::encode(bytes).into_bytes())
        .collect();

    let passes = PASSES * LONGEST / characters;
    let segments = format!("{SEGMENTS} segments of {characters} characters, each");
    let decoding = in_turn(passes, &texts, &bytes, |side| side.decode);
    report_each(&format!("base64url decoding of {segments}"), &decoding);
    let encoding = in_turn(passes, &bytes, &texts, |side| side.encode);
    report_each(&format!("base64url encoding to {segments}"), &encoding);
    decoding[0].1 / decoding[1].1
}

/// The mean time of one input in the least pass over all, of each side: to clear the buffer and to code. That all sides give these outputs is
/// checked before.
fn in_turn(
    passes: usize,
    inputs: &[Vec<u8>],
    outputs: &[Vec<u8>],
    coder: fn(&Side) -> Coder,
) -> Vec<(&'static str, f64)> {
    let mut out = vec![0; outputs[0].len()];
    for side in SIDES {
        for (input, output) in inputs.iter().zip(outputs) {
            assert!(coder(side)(input, &mut out) && out == *output, "{}", side.name);
        }
    }
    let times = least_of_each(passes, SIDES, |side| {
        let code = coder(side);
        for input in inputs {
            out.fill(0);
            assert!(code(black_box(input), black_box(&mut out)));
        }
    });
    named(times, inputs.len())
}

/// The mean of so many calls by the time of all of them, with each side's name.
fn named(times: Vec<f64>, calls: usize) -> Vec<(&'static str, f64)> {
    let mean = |(side, time): (&Side, f64)| (side.name, time / calls as f64);
    SIDES.iter().zip(times).map(mean).collect()
}
