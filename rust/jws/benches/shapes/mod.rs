//! Headers to time: three that are usual, and a family of those that a hostile sender would choose.

mod families;
mod fingerprint;
mod parts;
mod spelling;

use std::collections::BTreeSet;

use jws::HEADER_MAX;

/// Members of each usual header, and its bytes.
pub const MEMBERS: usize = 80;
const BYTES: usize = 4_000;

/// A header with these members.
fn usual(members: impl Iterator<Item = String>) -> Vec<u8> {
    let members: Vec<String> = members.collect();
    assert_eq!(members.len(), MEMBERS);
    let header = format!("{:BYTES$}", format!("{{{}}}", members.join(",")));
    assert_eq!(header.len(), BYTES);
    header.into_bytes()
}

/// A header with members of these names.
fn usual_named(names: impl Iterator<Item = String>) -> Vec<u8> {
    usual(names.map(|name| format!("\"{name}\":\"{}\"", "v".repeat(43 - name.len()))))
}

/// Names that differ in their first characters.
pub fn plain() -> Vec<u8> {
    const NAMES: &str = "alg kid typ cty crit fmt iss sub aud exp nbf iat jti site tank valve pump unit zone rev batch cellar vessel grape \
        vintage lot press sugar acid yeast low high rate flow level alarm note date hour week crew shift order bin rack row barrel oak \
        toast size fill rinse wash seal cork label pallet route truck gate dock scale meter probe relay power fuse phase node radio \
        link mesh hop queue turn from until must juice end";
    usual_named(NAMES.split_whitespace().map(String::from))
}

/// Names that differ in their last characters.
pub fn alike() -> Vec<u8> {
    usual_named((0..MEMBERS).map(|i| format!("member-{i:02}")))
}

/// Names and texts of `\u` escapes alone, their letters small and capital in turn.
pub fn escaped() -> Vec<u8> {
    let escapes = |first: usize, count: usize| -> String {
        (first..first + count)
            .map(|i| match i % 2 {
                0 => format!("\\u{:04x}", 0xABC0 + i),
                _ => format!("\\u{:04X}", 0xABC0 + i),
            })
            .collect()
    };
    usual((0..MEMBERS).map(|i| format!("\"{}\":\"{}\"", escapes(i, 2), escapes(3 * i, 5))))
}

/// What the labels of headers have whose names collide.
pub const COLLIDING: &str = "names of one fingerprint";

/// A header with a label that says what it is.
pub type Shape = (String, Vec<u8>);

/// The family. It keeps to the limits, no two of it are alike, and it doesn't shrink unseen.
pub fn all() -> Vec<Shape> {
    let shapes = families::all();
    let (mut labels, mut headers) = (BTreeSet::new(), BTreeSet::new());
    for (label, header) in &shapes {
        assert!(header.len() <= HEADER_MAX, "{} bytes: {label}", header.len());
        assert!(labels.insert(label), "twice: {label}");
        assert!(headers.insert(header), "the header of another: {label}");
    }
    assert!(shapes.len() >= 5_000, "{} shapes", shapes.len());
    shapes
}
