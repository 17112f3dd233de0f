//! The proved SHA-256 and HMAC against the reference and the published vectors. A long message is hashed in runs of eight blocks: lengths lie
//! on both sides of every block and run, and no two blocks of a message are alike, so that one that is exchanged, taken twice or left out
//! shows.

#[path = "../../reference/tests/common/published.rs"]
mod published;

use std::collections::BTreeSet;
use std::ops::RangeInclusive;

use case_generator::rng::Rng;
use reference::sha256::BLOCK_LEN;

/// Every length up to four runs, and some blocks more.
const SHORT: RangeInclusive<usize> = 0..=2_200;
/// Whole blocks of long messages, up to beyond the longest token, and of messages with a MAC.
const BLOCKS: RangeInclusive<usize> = 0..=515;
const MAC_BLOCKS: RangeInclusive<usize> = 0..=24;
/// Bytes after the whole blocks: around the end of a block, and around where the padding takes a block more.
const RESTS: [usize; 7] = [0, 1, 54, 55, 56, 57, 63];

/// Keys: around a block, which longer ones are hashed to, and around runs.
const KEYS: RangeInclusive<usize> = 0..=130;
const LONG_KEYS: [usize; 8] = [447, 448, 511, 512, 513, 576, 1_024, 1_025];

/// Generated messages.
const CASES: usize = 5_000;

/// Some bytes of which no two blocks are alike, wherever they begin.
fn unlike(length: usize) -> Vec<u8> {
    let bytes = Rng::new(5).bytes(length);
    let blocks = bytes.windows(BLOCK_LEN);
    assert_eq!(blocks.len(), blocks.collect::<BTreeSet<_>>().len());
    bytes
}

/// Lengths of so many whole blocks and each rest.
fn lengths(blocks: RangeInclusive<usize>) -> impl Iterator<Item = usize> {
    blocks.flat_map(|blocks| RESTS.map(|rest| BLOCK_LEN * blocks + rest))
}

/// What was compared, and how many hashes there were.
#[derive(Default)]
struct Seen {
    compared: usize,
    hashes: BTreeSet<[u8; 32]>,
}

impl Seen {
    fn hash(&mut self, message: &[u8]) {
        let digest = codec::sha256(message);
        assert_eq!(digest, reference::sha256::digest(message), "{} bytes", message.len());
        self.compared += 1;
        self.hashes.insert(digest);
    }

    fn mac(&mut self, key: &[u8], message: &[u8]) {
        let mac = codec::hmac_sha256(key, message);
        let lengths = [key.len(), message.len()];
        assert_eq!(mac, reference::hmac::hmac_sha256(key, message), "{lengths:?} bytes");
        self.compared += 1;
        self.hashes.insert(mac);
    }
}

#[test]
fn published_digests() {
    for [message, digest] in published::digests() {
        assert_eq!(codec::sha256(&message)[..], digest, "{} bytes", message.len());
    }
}

#[test]
fn published_macs() {
    for [key, message, mac] in published::macs() {
        assert_eq!(codec::hmac_sha256(&key, &message)[..], mac);
    }
}

/// From the front of some bytes, and at any address up to their end.
#[test]
fn every_short_length() {
    let mut seen = Seen::default();
    let bytes = unlike(2 * SHORT.end());
    for length in SHORT {
        seen.hash(&bytes[..length]);
        seen.hash(&bytes[bytes.len() - length..]);
    }
    // Both are empty at first.
    assert_eq!((seen.compared, seen.hashes.len()), (2 * 2_201, 2 * 2_201 - 1));
}

#[test]
fn long_messages() {
    let mut seen = Seen::default();
    let bytes = unlike(BLOCK_LEN * (BLOCKS.end() + 1));
    for length in lengths(BLOCKS) {
        seen.hash(&bytes[..length]);
    }
    assert_eq!((seen.compared, seen.hashes.len()), (516 * 7, 516 * 7));
}

/// A run, a block more, and two runs and a block.
#[test]
fn every_bit_changed() {
    let mut seen = Seen::default();
    for blocks in [8, 9, 17] {
        let mut message = unlike(BLOCK_LEN * blocks);
        seen.hash(&message);
        for bit in 0..8 * message.len() {
            message[bit / 8] ^= 1 << (bit % 8);
            seen.hash(&message);
            message[bit / 8] ^= 1 << (bit % 8);
        }
    }
    let hashes = 3 + 8 * BLOCK_LEN * (8 + 9 + 17);
    assert_eq!((seen.compared, seen.hashes.len()), (hashes, hashes));
}

#[test]
fn messages_of_one_byte() {
    let mut seen = Seen::default();
    for byte in 0..=255 {
        for blocks in [7, 8, 9, 17] {
            seen.hash(&vec![byte; BLOCK_LEN * blocks]);
        }
    }
    assert_eq!((seen.compared, seen.hashes.len()), (256 * 4, 256 * 4));
}

#[test]
fn generated_messages() {
    let mut seen = Seen::default();
    for message in case_generator::messages(5).take(CASES) {
        seen.hash(&message);
    }
    assert_eq!(seen.compared, CASES);
}

/// HMAC hashes a block of its own before the message.
#[test]
fn macs_of_every_key() {
    let mut seen = Seen::default();
    let bytes = unlike(BLOCK_LEN * (MAC_BLOCKS.end() + 1));
    let keys = unlike(*LONG_KEYS.last().unwrap());
    for key in KEYS.chain(LONG_KEYS) {
        for length in lengths(MAC_BLOCKS) {
            seen.mac(&keys[..key], &bytes[..length]);
        }
    }
    let macs = (131 + 8) * 25 * 7;
    assert_eq!((seen.compared, seen.hashes.len()), (macs, macs));
}

#[test]
fn macs_of_long_messages() {
    let mut seen = Seen::default();
    let bytes = unlike(BLOCK_LEN * (BLOCKS.end() + 1));
    for length in lengths(BLOCKS) {
        seen.mac(&bytes[..32], &bytes[..length]);
    }
    assert_eq!((seen.compared, seen.hashes.len()), (516 * 7, 516 * 7));
}

#[test]
fn macs_of_generated_messages() {
    let mut seen = Seen::default();
    let mut rng = Rng::new(6);
    for message in case_generator::messages(7).take(CASES / 2) {
        let length = rng.below(200);
        let key = rng.bytes(length);
        seen.mac(&key, &message);
    }
    assert_eq!(seen.compared, CASES / 2);
}
