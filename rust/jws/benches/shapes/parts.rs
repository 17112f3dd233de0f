//! What headers are made of: lists that fill a room, and what a value stands in.

use reference::limits::DEPTH_MAX;

use super::spelling::Names;

/// Things with commas between them, at most `count`, as many as fit.
pub fn list(room: usize, count: usize, thing: impl Fn(usize) -> String) -> String {
    let mut list = String::new();
    for i in 0..count {
        let comma = if i == 0 { "" } else { "," };
        let next = thing(i);
        if list.len() + comma.len() + next.len() > room {
            break;
        }
        list += comma;
        list += &next;
    }
    list
}

/// An array of one thing again and again, as often as fits.
pub fn array(room: usize, thing: &str) -> String {
    format!("[{}]", list(room - 2, usize::MAX, |_| thing.into()))
}

/// An object of at most `count` members with this value, as many as fit.
pub fn object(room: usize, count: usize, names: Names, value: &str) -> String {
    let member = |i| format!("\"{}\":{value}", names.name(i));
    format!("{{{}}}", list(room - 2, count, member))
}

/// How deep a value goes: its brackets outside of strings are counted.
pub fn depth_of(value: &str) -> usize {
    let (mut depth, mut deepest, mut in_string) = (0, 0, false);
    for byte in value.bytes() {
        match byte {
            b'"' => in_string = !in_string,
            b'{' | b'[' if !in_string => depth += 1,
            b'}' | b']' if !in_string => depth -= 1,
            _ => {}
        }
        deepest = deepest.max(depth);
    }
    deepest
}

/// What stands around a value, level by level; the top object comes first.
#[derive(Clone, Copy, Debug, PartialEq, Eq)]
pub enum Around {
    Objects,
    Arrays,
    /// Arrays and objects in turn.
    Both,
    /// Objects that have another member before this one, of the same name in each.
    Before,
    /// The same, after this one.
    After,
}

impl Around {
    pub const ALL: [Around; 5] = [
        Around::Objects,
        Around::Arrays,
        Around::Both,
        Around::Before,
        Around::After,
    ];

    /// What opens and closes a level.
    fn level(self, level: usize) -> (&'static str, &'static str) {
        match self {
            Around::Arrays if level > 0 => ("[", "]"),
            Around::Both if level % 2 == 1 => ("[", "]"),
            Around::Before => ("{\"a\":0,\"x\":", "}"),
            Around::After => ("{\"x\":", ",\"a\":0}"),
            Around::Objects | Around::Arrays | Around::Both => ("{\"x\":", "}"),
        }
    }

    /// A value in so many levels, the top object among them; it is made for the room that is left.
    pub fn header(self, levels: usize, room: usize, value: impl Fn(usize) -> String) -> String {
        let around: Vec<_> = (0..levels).map(|level| self.level(level)).collect();
        let taken: usize = around.iter().map(|(open, close)| open.len() + close.len()).sum();
        let open: String = around.iter().map(|(open, _)| *open).collect();
        let close: String = around.iter().rev().map(|(_, close)| *close).collect();
        format!("{open}{}{close}", value(room - taken))
    }

    pub fn label(self, levels: usize) -> String {
        match (self, levels) {
            (Around::Objects, 1) => "in the top object".into(),
            (Around::Objects, _) => format!("in {levels} objects"),
            (Around::Arrays, _) => format!("in {} arrays", levels - 1),
            (Around::Both, _) => format!("in {levels} arrays and objects"),
            (Around::Before, _) => format!("in {levels} objects, after a member in each"),
            (Around::After, _) => format!("in {levels} objects, before a member in each"),
        }
    }
}

/// The ways to put a value of this depth: in the top object, and in as many levels as may be, of each sort.
pub fn places(depth: usize) -> impl Iterator<Item = (Around, usize)> {
    let most = DEPTH_MAX - depth;
    let deep = Around::ALL.into_iter().map(move |around| (around, most));
    [(Around::Objects, 1)].into_iter().chain(deep)
}
