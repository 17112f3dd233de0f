//! The published vectors, which `crates/codec_vectors` reads.

const PUBLISHED: &str = concat!(env!("CARGO_MANIFEST_DIR"), "/../../crates/codec_vectors/stdin");

/// The rows that begin with `name`, their further words; there are `count`.
pub fn rows(name: &str, count: usize) -> Vec<Vec<String>> {
    let text = std::fs::read_to_string(PUBLISHED).expect("the vectors' file");
    let rows: Vec<Vec<String>> = text
        .lines()
        .map(|line| line.split_whitespace().map(String::from).collect::<Vec<_>>())
        .filter(|words| words.first().is_some_and(|word| word == name))
        .map(|words| words[1..].to_vec())
        .collect();
    assert_eq!(rows.len(), count, "{name}");
    rows
}

/// Hexadecimal, `-` for no bytes.
pub fn bytes(hex: &str) -> Vec<u8> {
    if hex == "-" {
        return Vec::new();
    }
    assert!(hex.is_ascii() && hex.len() % 2 == 0);
    (0..hex.len())
        .step_by(2)
        .map(|at| u8::from_str_radix(&hex[at..at + 2], 16).expect("hexadecimal"))
        .collect()
}

/// Messages and their SHA-256 digests. One message has a million bytes.
pub fn digests() -> Vec<[Vec<u8>; 2]> {
    let digest = |row: Vec<String>| match &row[..] {
        [repeat, count, byte, digest] if repeat == "REPEAT" => {
            [bytes(byte).repeat(count.parse().expect("a number")), bytes(digest)]
        }
        [message, digest] => [bytes(message), bytes(digest)],
        _ => panic!("{row:?}"),
    };
    rows("sha256", 14).into_iter().map(digest).collect()
}

/// Keys, messages and their MACs by HMAC-SHA-256.
pub fn macs() -> Vec<[Vec<u8>; 3]> {
    let mac = |row: Vec<String>| [0, 1, 2].map(|i| bytes(&row[i]));
    rows("hmac-sha256", 6).into_iter().map(mac).collect()
}
