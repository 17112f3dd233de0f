//! The fingerprint by which the search for equal names tells most of them apart, and names that it doesn't tell apart.

#![allow(dead_code)] // each program uses a part of it

use std::collections::BTreeSet;

/// The fingerprint of no characters.
pub const START: u64 = 0x9E37_79B9_7F4A_7C15;
const FACTOR: u64 = 0x9E37_79B1;

/// The fingerprint with one code point more. Both factors have 32 bits: the product fits.
#[inline]
pub const fn step(state: u64, code_point: u64) -> u64 {
    (((state & 0xFFFF_FFFF) ^ code_point) * FACTOR) ^ state.rotate_left(32)
}

/// The fingerprint with the characters of a text more.
pub fn after(state: u64, text: &str) -> u64 {
    text.chars().fold(state, |state, c| step(state, u64::from(c)))
}

/// Two segments of names: after what the stages before them lead to, both lead to one fingerprint.
pub type Stage = [&'static str; 2];

/// Stages that `find_collisions` found, from [`START`] on.
pub const STAGES: &[Stage] = &[
    ["\u{6ecf}\u{8e0a}\u{afe0}\u{c870}", "\u{ebf9}\u{c89f}\u{5c43}\u{2a68}"],
    ["\u{4bde}\u{8be}\u{1736}\u{b24c}", "\u{1dd02}\u{1d9af}\u{4bd0}\u{cea8}"],
    ["\u{e29d}\u{4008}\u{2094}\u{c3fd}", "\u{4034}\u{5da0}\u{16f1}\u{7e27}"],
    ["\u{9141}\u{8d75}\u{95fa}\u{1dce1}", "\u{eb38}\u{1da39}\u{5783}\u{c281}"],
    ["\u{9fb0}\u{bf55}\u{3d26}\u{bd3d}", "\u{1f7c}\u{434d}\u{fd51}\u{6be3}"],
    ["\u{b20}\u{1069e}\u{e551}\u{5b02}", "\u{543e}\u{edd4}\u{9908}\u{c88e}"],
];

/// All names of one segment for each stage. They differ and have one fingerprint.
pub fn colliding(stages: &[Stage]) -> Vec<String> {
    let (mut names, mut state) = (vec![String::new()], START);
    for [one, other] in stages {
        state = after(state, one);
        let longer = |name: &String| [one, other].map(|segment| format!("{name}{segment}"));
        names = names.iter().flat_map(longer).collect();
    }
    assert!(names.iter().all(|name| after(START, name) == state), "one fingerprint");
    assert_eq!(
        names.iter().collect::<BTreeSet<_>>().len(),
        1 << stages.len(),
        "they differ"
    );
    names
}
