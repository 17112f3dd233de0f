//! Equal names where the search for them is at its limits: around the 64 names that a pass keeps, before and after objects that open and
//! close, and between objects that have the same names. The proved code against what the header was made to answer, and the reference.

mod common;

use common::raw_member;
use reference::limits::DEPTH_MAX;

/// Numbers of names around one pass and two, with the places of up to two open objects among them.
const COUNTS: [usize; 17] = [0, 1, 2, 15, 31, 48, 60, 61, 62, 63, 64, 65, 66, 125, 126, 128, 129];

/// The answer to a header; the reference agrees on it.
fn answer(header: &str) -> u8 {
    let given = raw_member(header.as_bytes(), 0).0;
    assert_eq!(
        given,
        reference::json::member(header.as_bytes(), 0).err().unwrap_or(0),
        "{header}"
    );
    given
}

/// Members of so many names, which differ, with a letter before their numbers.
fn members(letter: char, count: usize) -> Vec<String> {
    (0..count).map(|i| format!("\"{letter}{i}\":0")).collect()
}

fn object(members: &[String]) -> String {
    format!("{{{}}}", members.join(","))
}

/// Every place that could matter among so many.
fn places(count: usize) -> impl Iterator<Item = usize> {
    [0, 1, 47, 61, 62, 63, 64, 65]
        .into_iter()
        .chain([count.saturating_sub(1)])
        .filter(move |place| *place < count)
}

/// Some names, an object or several with some, and names again: the last is one of the first again, or isn't.
#[test]
fn before_and_after_objects() {
    let mut headers = 0;
    for (before, inside) in COUNTS
        .into_iter()
        .flat_map(|before| COUNTS.map(|inside| (before, inside)))
    {
        let outer = members('a', before);
        let others = object(&members('b', inside));
        // The same names in the inner object say nothing of the outer one.
        let same = object(&members('a', inside));
        for inner in [
            others.clone(),
            same,
            format!("[{others},{others}]"),
            format!("[[{{}}],{others}]"),
        ] {
            let mut all = outer.clone();
            all.push(format!("\"inner\":{inner}"));
            assert_eq!(answer(&object(&all)), 0);
            for place in places(before) {
                let again = [&all[..], &members('c', 3), &outer[place..=place]].concat();
                assert_eq!(answer(&object(&again)), 8);
                headers += 1;
            }
        }
    }
    assert!(headers > 5_000, "{headers}");
}

/// The inner object has a name twice, the second one after objects of its own, at each depth.
#[test]
fn at_each_depth() {
    for count in COUNTS.into_iter().filter(|count| *count > 0) {
        let own = members('a', count);
        for place in places(count) {
            for (last, expected) in [(&own[place], 8), (&"\"z\":0".to_string(), 0)] {
                let innermost = [&own[..], &["\"o\":{\"a0\":{}}".to_string(), last.clone()]].concat();
                for depth in 1..DEPTH_MAX - 1 {
                    let header = (1..depth).fold(object(&innermost), |inner, _| {
                        format!("{{\"a0\":0,\"x\":{inner},\"a1\":0}}")
                    });
                    assert_eq!(answer(&header), expected, "{count} names, {place}, depth {depth}");
                }
            }
        }
    }
}

/// Each of many names again, in one object that takes several passes, and none.
#[test]
fn each_of_many() {
    let names = members('n', 400);
    assert_eq!(answer(&object(&names)), 0);
    for (i, name) in names.iter().enumerate() {
        for at in [i + 1, (i + names.len()) / 2 + 1, names.len()] {
            let mut twice = names.clone();
            twice.insert(at, name.clone());
            assert_eq!(answer(&object(&twice)), 8, "name {i} again at {at}");
        }
    }
}
