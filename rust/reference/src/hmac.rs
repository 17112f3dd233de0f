//! HMAC-SHA-256: RFC 2104 section 2 over FIPS 180-4; HS256 of RFC 7518 section 3.2.

use crate::sha256::{digest, Sha256, BLOCK_LEN, DIGEST_LEN};

/// The MAC of a message under a secret of any length.
pub fn hmac_sha256(secret: &[u8], message: &[u8]) -> [u8; DIGEST_LEN] {
    let key = key_block(secret);
    let mut inner = Sha256::new();
    inner.update(&key.map(|byte| byte ^ 0x36));
    inner.update(message);
    let mut outer = Sha256::new();
    outer.update(&key.map(|byte| byte ^ 0x5C));
    outer.update(&inner.finish());
    outer.finish()
}

/// A secret longer than a block is hashed first; either is filled with zeros to a block.
fn key_block(secret: &[u8]) -> [u8; BLOCK_LEN] {
    let mut block = [0; BLOCK_LEN];
    if secret.len() > BLOCK_LEN {
        block[..DIGEST_LEN].copy_from_slice(&digest(secret));
    } else {
        block[..secret.len()].copy_from_slice(secret);
    }
    block
}

#[cfg(test)]
mod tests {
    use super::*;

    #[test]
    fn a_secret_of_65_bytes_is_hashed_first_and_one_of_64_is_not() {
        let secret = [b'k'; 65];
        assert_eq!(hmac_sha256(&secret, b"m"), hmac_sha256(&digest(&secret), b"m"));
        assert_ne!(
            hmac_sha256(&secret[..64], b"m"),
            hmac_sha256(&digest(&secret[..64]), b"m")
        );
    }
}
