//! The proved encoder, SHA-256 and HMAC against the reference on generated input; `decoding.rs` has the decoder.

use case_generator::rng::Rng;
use codec::Answer;
use reference::base64url;

const CASES: usize = 20_000;

/// A buffer of about the length that is needed, filled with garbage.
fn room(rng: &mut Rng, needed: usize) -> Vec<u8> {
    let length = match rng.below(4) {
        0 => needed.saturating_sub(1),
        1 => needed + rng.below(9),
        2 => rng.below(needed + 2),
        _ => needed,
    };
    vec![0xA5; length]
}

#[test]
fn encoding_agrees() {
    let mut seen = [0; 2];
    for (case, bytes) in case_generator::messages(3).take(CASES).enumerate() {
        let mut rng = Rng::of_case(4, case as u64);
        let text = base64url::encode(&bytes);
        let mut ours = room(&mut rng, text.len());
        let garbage = ours.clone();
        let answer = codec::encode(&bytes, &mut ours);
        if text.len() > ours.len() {
            assert_eq!(answer, Answer::Short);
            assert!(ours.iter().all(|b| *b == 0));
            seen[0] += 1;
        } else {
            assert_eq!(answer, Answer::Written(text.len()));
            assert_eq!(ours[..text.len()], *text.as_bytes());
            assert_eq!(ours[text.len()..], garbage[text.len()..]);
            seen[1] += 1;
        }
    }
    assert!(seen.iter().all(|n| *n > CASES / 50), "{seen:?}");
}

#[test]
fn hashing_agrees() {
    for message in case_generator::messages(5).take(CASES / 4) {
        assert_eq!(codec::sha256(&message), reference::sha256::digest(&message));
    }
    // Every length around the block boundaries.
    for length in 0..=300 {
        let message: Vec<u8> = (0..length).map(|i| (i * 7 + 3) as u8).collect();
        assert_eq!(codec::sha256(&message), reference::sha256::digest(&message), "{length}");
    }
}

#[test]
fn macs_agree() {
    let mut rng = Rng::new(6);
    for message in case_generator::messages(7).take(CASES / 8) {
        let length = rng.below(200);
        let key = rng.bytes(length);
        assert_eq!(
            codec::hmac_sha256(&key, &message),
            reference::hmac::hmac_sha256(&key, &message)
        );
    }
    // Every key length around the block's.
    for length in 0..=140 {
        let key = rng.bytes(length);
        assert_eq!(
            codec::hmac_sha256(&key, b"message"),
            reference::hmac::hmac_sha256(&key, b"message"),
            "{length}"
        );
    }
}
