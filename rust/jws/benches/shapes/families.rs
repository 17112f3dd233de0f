//! Headers that take long, by what costs time: names to be compared, levels that a reader might go over again and again, characters to be
//! resolved, and faults that show at the very end.

use std::collections::BTreeSet;

use jws::HEADER_MAX;
use reference::limits::DEPTH_MAX;

use super::fingerprint::{colliding, STAGES};
use super::parts::{array, depth_of, list, object, places, Around};
use super::spelling::{Names, Written};
use super::{Shape, COLLIDING};

/// Values of every kind, each as short as it can be or a little longer.
const THINGS: [&str; 26] = [
    "0",
    "-0",
    "12",
    "0.0",
    "0e0",
    "true",
    "false",
    "null",
    "\"\"",
    "\"a\"",
    "\"\\t\"",
    "\"\\u1000\"",
    "\"\\uD834\\uDD1E\"",
    "\"\u{80}\"",
    "\"\u{800}\"",
    "\"\u{10000}\"",
    " 0 ",
    "[]",
    "{}",
    "[0]",
    "[{}]",
    "{\"\":0}",
    "{\"a\":0,\"b\":0}",
    "{\"\":{}}",
    "[[[]]]",
    "[0,\"\",null,{},[]]",
];

/// Numbers of names around those by which a search might go in blocks or by tables, and up to as many as fit.
const COUNTS: [usize; 31] = [
    1, 2, 3, 5, 8, 13, 16, 17, 21, 31, 32, 33, 55, 63, 64, 65, 90, 127, 128, 129, 191, 193, 255, 256, 257, 384, 448,
    511, 512, 513, 575,
];

/// The shapes that were made.
#[derive(Default)]
struct Shapes {
    made: Vec<Shape>,
    headers: BTreeSet<Vec<u8>>,
}

impl Shapes {
    /// Adds a header, if no other label stands for it already.
    fn add(&mut self, label: String, header: impl Into<Vec<u8>>) {
        let header = header.into();
        if self.headers.insert(header.clone()) {
            self.made.push((label, header));
        }
    }

    /// A value in some levels.
    fn add_in(&mut self, (around, levels): (Around, usize), label: &str, value: impl Fn(usize) -> String) {
        let header = around.header(levels, HEADER_MAX, value);
        self.add(format!("{label}, {}", around.label(levels)), header);
    }

    /// A value of this depth at each of its places.
    fn add_at_places(&mut self, depth: usize, label: &str, value: impl Fn(usize) -> String) {
        for place in places(depth) {
            self.add_in(place, label, &value);
        }
    }

    /// As many of these names as fit, if two do, with each of these values.
    fn add_names(&mut self, names: Names, values: &[&str]) {
        if 2 * names.name(0).len() >= HEADER_MAX / 2 {
            return;
        }
        for value in values {
            let label = format!("{}, values {value}", names.label());
            let depth = 1 + depth_of(value);
            self.add_at_places(depth, &label, |room| object(room, usize::MAX, names, value));
        }
    }
}

pub fn all() -> Vec<Shape> {
    let mut shapes = Shapes::default();
    for family in [
        names_in_one_object,
        counted_names,
        colliding_names,
        side_by_side,
        objects_side_by_side,
        names_at_every_depth,
        chains,
        trees,
        one_long_thing,
        white_space,
        empty_objects_before_strings,
        equal_names_at_the_end,
        faults_at_the_end,
    ] {
        family(&mut shapes);
    }
    shapes.made
}

/// As many names as fit one object, which differ after some equal characters, or before them.
fn names_in_one_object(shapes: &mut Shapes) {
    for text in Written::ALL {
        shapes.add_names(Names::alike(0, text, text), &["0", "{}", "\"\""]);
        for of in Written::ALL {
            if ![Written::Plain, Written::Short, text].contains(&of) {
                continue;
            }
            for equal in [1, 2, 3, 4, 6, 8, 14, 20, 40, 80, 160, 320] {
                let names = Names::alike(equal, of, text);
                shapes.add_names(names, &["0", "{}"]);
                let text_first = Names {
                    text_first: true,
                    ..names
                };
                let two_fit = 2 * text_first.name(0).len() < HEADER_MAX / 2;
                if equal >= 8 && two_fit {
                    let label = format!("{}, values 0", text_first.label());
                    let value = |room| object(room, usize::MAX, text_first, "0");
                    shapes.add_in((Around::Objects, DEPTH_MAX - 1), &label, value);
                }
            }
        }
    }
}

/// So many names in one object, and a long string in it besides.
fn counted_names(shapes: &mut Shapes) {
    for count in COUNTS {
        let label = format!("{count} names and a string");
        shapes.add_at_places(1, &format!("{label} after them"), |room| {
            let names = object(room - 8, count, Names::SHORT, "0");
            let rest = room - names.len() - 4;
            format!("{},\"\":{}}}", &names[..names.len() - 1], Written::Plain.string(rest))
        });
        if count < 200 {
            shapes.add_at_places(1, &format!("{label} before them"), |room| {
                let names = object(room - 8, count, Names::SHORT, "0");
                let rest = room - names.len() - 4;
                format!("{{\"\":{},{}", Written::Plain.string(rest), &names[1..])
            });
        }
    }
}

/// Names that differ and have one fingerprint.
fn colliding_names(shapes: &mut Shapes) {
    let names = colliding(STAGES);
    for value in ["0", "\"\"", "{}", "[]"] {
        let label = format!("{COLLIDING}, values {value}");
        shapes.add_at_places(1 + depth_of(value), &label, |room| {
            let member = |i: usize| format!("\"{}\":{value}", names[i]);
            format!("{{{}}}", list(room - 2, names.len(), member))
        });
    }
    for count in [2, 4, 8, 16, 32].into_iter().filter(|count| *count <= names.len()) {
        let label = format!("objects of {count} {COLLIDING} side by side");
        let members: Vec<String> = names[..count].iter().map(|name| format!("\"{name}\":0")).collect();
        let one = format!("{{{}}}", members.join(","));
        shapes.add_at_places(2, &label, |room| array(room, &one));
    }
}

/// Every kind of value side by side, in an array and in an object, at every depth.
fn side_by_side(shapes: &mut Shapes) {
    for thing in THINGS {
        let most = DEPTH_MAX - 1 - depth_of(thing);
        let levels = |from: usize, around: Around| (from..=most).map(move |levels| (around, levels));
        // With fewer levels the others are the same.
        let shallow = levels(1, Around::Objects).chain(levels(2, Around::Arrays));
        let both = shallow.chain(levels(3, Around::Both));
        for place in both.chain([(Around::Before, most), (Around::After, most)]) {
            shapes.add_in(place, &format!("{thing} side by side"), |room| array(room, thing));
            shapes.add_in(place, &format!("{thing} as the value of many members"), |room| {
                object(room, usize::MAX, Names::SHORT, thing)
            });
        }
    }
}

/// Objects of so many names, side by side.
fn objects_side_by_side(shapes: &mut Shapes) {
    for count in COUNTS.into_iter().filter(|count| (3..=256).contains(count)) {
        for names in [Names::SHORT, Names::alike(6, Written::Plain, Written::Plain)] {
            let one = object(HEADER_MAX / 2, count, names, "0");
            let label = format!("objects of {count} {} side by side", names.label());
            if one.len() < HEADER_MAX / 2 - 16 {
                shapes.add_at_places(2, &label, |room| array(room, &one));
            }
        }
    }
}

/// The same names in each of some objects, one in another: before the inner one, after it, and on both sides.
fn names_at_every_depth(shapes: &mut Shapes) {
    for text in Written::ALL {
        for count in [1, 2, 3, 4, 5, 8, 10, 15, 20, 25, 30, 35, 40] {
            let names = Names::alike(0, text, text);
            let own: Vec<String> = (0..count).map(|i| format!("\"{}\":0", names.name(i))).collect();
            for (place, at) in [("before", count), ("after", 0), ("around", count / 2)] {
                if place == "around" && at == 0 {
                    continue;
                }
                let nest = |inner: String| {
                    let mut members = own.clone();
                    members.insert(at, format!("\"in\":{inner}"));
                    format!("{{{}}}", members.join(","))
                };
                for depth in [4, DEPTH_MAX / 2, DEPTH_MAX] {
                    let header = (0..depth).fold("0".into(), |inner, _| nest(inner));
                    if header.len() <= HEADER_MAX {
                        let label = format!("{count} names {text:?} in each of {depth} objects, {place} the inner one");
                        shapes.add(label, header);
                    }
                }
            }
        }
    }
}

/// Chains of brackets, each closed before the next one opens.
fn chains(shapes: &mut Shapes) {
    const LEVELS: [(&str, &str, &str); 5] = [
        ("[", "]", "arrays"),
        ("{\"\":", "}", "objects"),
        ("{\"ab\":", "}", "objects of two characters' names"),
        ("[{\"\":", "}]", "arrays and objects"),
        ("{\"\":0,\"a\":", "}", "objects of two members"),
    ];
    for (open, close, what) in LEVELS {
        let each = open.matches(['[', '{']).count();
        for rounds in 1..DEPTH_MAX / each {
            for inner in ["0", "\"\""] {
                let chain = format!("{}{inner}{}", open.repeat(rounds), close.repeat(rounds));
                let depth = each * rounds;
                if depth >= DEPTH_MAX - 1 {
                    continue;
                }
                let label = format!("chains of {depth} levels of {what} around {inner}, side by side");
                shapes.add_in((Around::Objects, 1), &label, |room| array(room, &chain));
                if depth < DEPTH_MAX - 2 {
                    shapes.add_in((Around::Objects, DEPTH_MAX - 1 - depth), &label, |room| {
                        array(room, &chain)
                    });
                }
            }
        }
    }
}

/// Trees: each array or object has so many in it, down to a depth.
fn trees(shapes: &mut Shapes) {
    const IN_ARRAYS: fn(usize, String) -> String = |width, inner| format!("[{}]", vec![inner; width].join(","));
    const IN_OBJECTS: fn(usize, String) -> String = |width, inner| object(usize::MAX, width, Names::SHORT, &inner);
    for (what, grown) in [("arrays", IN_ARRAYS), ("objects", IN_OBJECTS)] {
        for width in 2..=8 {
            let mut tree = "0".to_string();
            for depth in 1..DEPTH_MAX {
                tree = grown(width, tree);
                if tree.len() > HEADER_MAX - 6 {
                    break;
                }
                let label = format!("a tree of {what}, {width} in each, to depth {depth}");
                shapes.add(label, format!("{{\"x\":{tree}}}"));
            }
        }
    }
}

/// One string, one name or one number as long as fits.
fn one_long_thing(shapes: &mut Shapes) {
    for written in Written::ALL {
        shapes.add_at_places(0, &format!("a string of {written:?}"), |room| written.string(room));
        shapes.add_at_places(1, &format!("a name of {written:?}"), |room| {
            format!("{{{}:0}}", written.string(room - 4))
        });
        shapes.add_at_places(
            1,
            &format!("two names of {written:?} alike but for the last character"),
            |room| {
                let name = written.string((room - 8) / 2 - 1);
                format!("{{{name}:0,{}0\":0}}", &name[..name.len() - 1])
            },
        );
    }
    for (start, digit, label) in [
        ("", "1", "an integer"),
        ("-", "1", "an integer below 0"),
        ("0.", "1", "a fraction"),
        ("0e", "1", "an exponent"),
    ] {
        shapes.add_at_places(0, label, |room| format!("{start}{}", digit.repeat(room - start.len())));
    }
    // One long name at each level.
    for written in Written::ALL {
        let name = written.string(HEADER_MAX / DEPTH_MAX - 4);
        let header = (0..DEPTH_MAX).fold("0".into(), |inner, _| format!("{{{name}:{inner}}}"));
        shapes.add(format!("a long name of {written:?} at each level"), header);
    }
}

/// White space: all in one place, or some at each place where it may stand.
fn white_space(shapes: &mut Shapes) {
    for (space, label) in [(" ", "spaces"), ("\n", "newlines"), ("\t\r", "tabs and returns")] {
        let fill = |room: usize| space.repeat(room / space.len());
        shapes.add_at_places(0, &format!("{label} before a number"), |room| fill(room - 1) + "0");
        shapes.add_at_places(0, &format!("{label} after a number"), |room| {
            format!("0{}", fill(room - 1))
        });
        shapes.add_at_places(1, &format!("{label} in an array"), |room| {
            format!("[{}]", fill(room - 2))
        });
        shapes.add_at_places(1, &format!("{label} in an object"), |room| {
            format!("{{{}}}", fill(room - 2))
        });
        shapes.add_at_places(1, &format!("{label} before a colon"), |room| {
            format!("{{\"\"{}:0}}", fill(room - 6))
        });
        for count in [1, 2, 4, 16, 64] {
            let some = space.repeat(count);
            shapes.add_at_places(
                1,
                &format!("{} {label} at each place of an array", some.len()),
                |room| array(room, &format!("{some}0{some}")),
            );
            shapes.add_at_places(
                1,
                &format!("{} {label} at each place of an object", some.len()),
                |room| {
                    let member = |i| format!("{some}\"{}\"{some}:{some}0{some}", Names::SHORT.name(i));
                    format!("{{{}}}", list(room - 2, usize::MAX, member))
                },
            );
        }
        shapes.add(format!("{label} before the header"), fill(HEADER_MAX - 2) + "{}");
        shapes.add(
            format!("{label} after the header"),
            format!("{{}}{}", fill(HEADER_MAX - 2)),
        );
    }
}

/// Empty objects, and after them strings that would be members if a quotation mark closed a name.
fn empty_objects_before_strings(shapes: &mut Shapes) {
    for empty in (40..=960).step_by(40) {
        let objects = list(4 * empty, usize::MAX, |_| "{}".into());
        let strings = list(HEADER_MAX - 10 - objects.len(), usize::MAX, |i| format!("\":0,\",{i}"));
        shapes.add(
            format!("{empty} empty objects before strings that begin with a colon"),
            format!("{{\"x\":[{objects},{strings}]}}"),
        );
    }
}

/// As many names as fit, and the last one is the first again, or the one before it, or spelled otherwise: refused with 8.
fn equal_names_at_the_end(shapes: &mut Shapes) {
    for text in Written::ALL {
        for equal in [0, 6, 40] {
            let names = Names::alike(equal, text, text);
            for which in ["first", "last"] {
                let label = format!("{}, the {which} of them again at the end", names.label());
                shapes.add_at_places(1, &label, |room| {
                    let once = object(room - names.name(0).len() - 8, usize::MAX, names, "0");
                    let count = once.matches('"').count() / 2;
                    let again = names.name(if which == "first" { 0 } else { count - 1 });
                    format!("{},\"{again}\":0}}", &once[..once.len() - 1])
                });
            }
        }
    }
    shapes.add_at_places(1, "names, the first of them again by an escape at the end", |room| {
        let once = object(room - 12, usize::MAX, Names::SHORT, "0");
        let first = u32::from(Names::SHORT.name(0).as_bytes()[0]);
        format!("{},\"\\u{first:04X}\":0}}", &once[..once.len() - 1])
    });
}

/// Values side by side in as many levels as may be, and a fault in the last bytes: refused with 7.
fn faults_at_the_end(shapes: &mut Shapes) {
    const FAULTS: [(&str, &[u8]); 6] = [
        ("no brace", b""),
        ("a comma for the brace", b","),
        ("a bracket for the brace", b"]"),
        ("a second brace", b"}}"),
        ("a byte that is no UTF-8", b"\xFF"),
        ("a string of half a pair", b",\"y\":\"\\uDD1E\"}"),
    ];
    for thing in THINGS {
        for around in [Around::Objects, Around::Arrays] {
            let levels = DEPTH_MAX - 1 - depth_of(thing);
            for (fault, end) in FAULTS {
                let whole = around.header(levels, HEADER_MAX - end.len(), |room| array(room, thing));
                let header = [&whole.as_bytes()[..whole.len() - 1], end].concat();
                shapes.add(
                    format!("{thing} side by side, {}, and {fault} at the end", around.label(levels)),
                    header,
                );
            }
        }
    }
}
