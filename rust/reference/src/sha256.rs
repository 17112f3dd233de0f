//! SHA-256: FIPS 180-4 sections 4.1.2, 4.2.2, 5.1.1, 5.3.3 and 6.2.

/// Bytes of a digest.
pub const DIGEST_LEN: usize = 32;
/// Bytes of a block.
pub const BLOCK_LEN: usize = 64;

/// FIPS 180-4 section 4.2.2: the 64 round constants.
const K: [u32; 64] = [
    0x428a2f98, 0x71374491, 0xb5c0fbcf, 0xe9b5dba5, 0x3956c25b, 0x59f111f1, 0x923f82a4, 0xab1c5ed5, 0xd807aa98,
    0x12835b01, 0x243185be, 0x550c7dc3, 0x72be5d74, 0x80deb1fe, 0x9bdc06a7, 0xc19bf174, 0xe49b69c1, 0xefbe4786,
    0x0fc19dc6, 0x240ca1cc, 0x2de92c6f, 0x4a7484aa, 0x5cb0a9dc, 0x76f988da, 0x983e5152, 0xa831c66d, 0xb00327c8,
    0xbf597fc7, 0xc6e00bf3, 0xd5a79147, 0x06ca6351, 0x14292967, 0x27b70a85, 0x2e1b2138, 0x4d2c6dfc, 0x53380d13,
    0x650a7354, 0x766a0abb, 0x81c2c92e, 0x92722c85, 0xa2bfe8a1, 0xa81a664b, 0xc24b8b70, 0xc76c51a3, 0xd192e819,
    0xd6990624, 0xf40e3585, 0x106aa070, 0x19a4c116, 0x1e376c08, 0x2748774c, 0x34b0bcb5, 0x391c0cb3, 0x4ed8aa4a,
    0x5b9cca4f, 0x682e6ff3, 0x748f82ee, 0x78a5636f, 0x84c87814, 0x8cc70208, 0x90befffa, 0xa4506ceb, 0xbef9a3f7,
    0xc67178f2,
];

/// FIPS 180-4 section 5.3.3: the initial hash value.
const INITIAL: [u32; 8] = [
    0x6a09e667, 0xbb67ae85, 0x3c6ef372, 0xa54ff53a, 0x510e527f, 0x9b05688c, 0x1f83d9ab, 0x5be0cd19,
];

/// A digest in the making.
#[derive(Clone)]
pub struct Sha256 {
    state: [u32; 8],
    /// The bytes that don't fill a block yet stand at its front.
    block: [u8; BLOCK_LEN],
    filled: usize,
    /// Bytes of the message so far.
    length: u64,
}

impl Default for Sha256 {
    fn default() -> Self {
        Self::new()
    }
}

impl Sha256 {
    /// The digest of no bytes yet.
    pub fn new() -> Self {
        Sha256 {
            state: INITIAL,
            block: [0; BLOCK_LEN],
            filled: 0,
            length: 0,
        }
    }

    /// Adds bytes to the message's end.
    pub fn update(&mut self, mut bytes: &[u8]) {
        self.length += bytes.len() as u64;
        if self.filled > 0 {
            let taken = bytes.len().min(BLOCK_LEN - self.filled);
            let (front, rest) = bytes.split_at(taken);
            self.block[self.filled..self.filled + taken].copy_from_slice(front);
            self.filled += taken;
            if self.filled < BLOCK_LEN {
                return;
            }
            compress(&mut self.state, &self.block);
            bytes = rest;
        }
        let mut blocks = bytes.chunks_exact(BLOCK_LEN);
        for block in blocks.by_ref() {
            compress(&mut self.state, block.try_into().expect("a whole block"));
        }
        let rest = blocks.remainder();
        self.block[..rest.len()].copy_from_slice(rest);
        self.filled = rest.len();
    }

    /// The hash value after the whole blocks so far.
    pub fn state(&self) -> [u32; 8] {
        self.state
    }

    /// Section 5.1.1: a bit 1, zeros, and the length in bits as 64 bits fill the last block.
    pub fn finish(mut self) -> [u8; DIGEST_LEN] {
        let bits = self.length * 8;
        let zeros = (BLOCK_LEN + 55 - self.filled) % BLOCK_LEN;
        let mut padding = [0; BLOCK_LEN + 8];
        padding[0] = 0x80;
        padding[1 + zeros..][..8].copy_from_slice(&bits.to_be_bytes());
        self.update(&padding[..1 + zeros + 8]);

        let mut digest = [0; DIGEST_LEN];
        for (bytes, word) in digest.chunks_exact_mut(4).zip(self.state) {
            bytes.copy_from_slice(&word.to_be_bytes());
        }
        digest
    }
}

/// The digest of a whole message.
pub fn digest(message: &[u8]) -> [u8; DIGEST_LEN] {
    let mut hash = Sha256::new();
    hash.update(message);
    hash.finish()
}

/// Section 6.2.2: one block into the state. Sums are modulo 2^32.
fn compress(state: &mut [u32; 8], block: &[u8; BLOCK_LEN]) {
    let schedule = schedule(block);
    let mut working = *state;
    // Eight rounds bring each working variable back to its own place.
    for (k, w) in K.chunks_exact(8).zip(schedule.chunks_exact(8)) {
        let [a, b, c, d, e, f, g, h] = &mut working;
        round(*a, *b, *c, d, *e, *f, *g, h, k[0], w[0]);
        round(*h, *a, *b, c, *d, *e, *f, g, k[1], w[1]);
        round(*g, *h, *a, b, *c, *d, *e, f, k[2], w[2]);
        round(*f, *g, *h, a, *b, *c, *d, e, k[3], w[3]);
        round(*e, *f, *g, h, *a, *b, *c, d, k[4], w[4]);
        round(*d, *e, *f, g, *h, *a, *b, c, k[5], w[5]);
        round(*c, *d, *e, f, *g, *h, *a, b, k[6], w[6]);
        round(*b, *c, *d, e, *f, *g, *h, a, k[7], w[7]);
    }
    for (word, new) in state.iter_mut().zip(working) {
        *word = word.wrapping_add(new);
    }
}

/// Section 6.2.2, step 3, with its names: `d` becomes the next round's e, and `h` its a; the others move one place
/// on, which the caller's order of arguments does.
#[allow(clippy::too_many_arguments)]
#[inline(always)]
fn round(a: u32, b: u32, c: u32, d: &mut u32, e: u32, f: u32, g: u32, h: &mut u32, k: u32, w: u32) {
    let big_sigma_1 = e.rotate_right(6) ^ e.rotate_right(11) ^ e.rotate_right(25);
    let choice = g ^ (e & (f ^ g));
    let t1 = h
        .wrapping_add(big_sigma_1)
        .wrapping_add(choice)
        .wrapping_add(k)
        .wrapping_add(w);
    let big_sigma_0 = a.rotate_right(2) ^ a.rotate_right(13) ^ a.rotate_right(22);
    let majority = (a & b) | (c & (a | b));
    *d = d.wrapping_add(t1);
    *h = t1.wrapping_add(big_sigma_0).wrapping_add(majority);
}

/// Section 6.2.2, step 1: the message schedule.
fn schedule(block: &[u8; BLOCK_LEN]) -> [u32; 64] {
    let mut w = [0; 64];
    for (word, bytes) in w.iter_mut().zip(block.chunks_exact(4)) {
        *word = u32::from_be_bytes(bytes.try_into().expect("four bytes"));
    }
    for t in 16..64 {
        let (x, y) = (w[t - 15], w[t - 2]);
        let small_sigma_0 = x.rotate_right(7) ^ x.rotate_right(18) ^ (x >> 3);
        let small_sigma_1 = y.rotate_right(17) ^ y.rotate_right(19) ^ (y >> 10);
        w[t] = w[t - 16]
            .wrapping_add(small_sigma_0)
            .wrapping_add(w[t - 7])
            .wrapping_add(small_sigma_1);
    }
    w
}

#[cfg(test)]
mod tests {
    use super::*;

    #[test]
    fn in_parts_as_in_one() {
        let message: Vec<u8> = (0..=255).cycle().take(300).collect();
        for length in 0..message.len() {
            let whole = digest(&message[..length]);
            for cut in [0, 1, 55, 56, 63, 64, 65, 128, 200] {
                let (front, rest) = message[..length].split_at(cut.min(length));
                let mut hash = Sha256::new();
                hash.update(front);
                hash.update(rest);
                assert_eq!(hash.finish(), whole);
            }
        }
    }

    /// The constants are the fractional parts of the cube roots of the first 64 primes (section 4.2.2), and the initial
    /// value those of the square roots of the first 8 (section 5.3.3).
    #[test]
    fn constants_from_their_definition() {
        let is_prime = |n: &u128| !(2..*n).any(|d| n % d == 0);
        let primes: Vec<u128> = (2..).filter(is_prime).take(64).collect();
        // The greatest r with r^n <= p * 2^(32n), that is floor(2^32 * nth root of p).
        let root = |p: u128, n: u32| {
            let (mut low, mut high) = (0u128, 1u128 << 36);
            while high - low > 1 {
                let middle = (low + high) / 2;
                if middle.pow(n) <= p << (32 * n) {
                    low = middle;
                } else {
                    high = middle;
                }
            }
            low as u32
        };
        for (i, &k) in K.iter().enumerate() {
            assert_eq!(k, root(primes[i], 3));
        }
        for (i, &h) in INITIAL.iter().enumerate() {
            assert_eq!(h, root(primes[i], 2));
        }
    }
}
