//! A header's members.

use core::iter::FusedIterator;
use core::ops::Range;

use crate::ffi::{self, MEMBER_WORDS};
use crate::words::{places, word};
use crate::Refusal;

/// The kind of a member's value.
#[derive(Clone, Copy, Debug, PartialEq, Eq, Hash)]
pub enum Kind {
    /// `"..."`
    String,
    /// `-1.5e3`
    Number,
    /// `true`
    True,
    /// `false`
    False,
    /// `null`
    Null,
    /// `[...]`
    Array,
    /// `{...}`
    Object,
    /// A number that no other case has. It is a kind and no refusal, so that the member isn't lost, nor those after it.
    Unknown(u64),
}

impl Kind {
    /// The kind with this number.
    const fn of(number: u64) -> Kind {
        match number {
            1 => Kind::String,
            2 => Kind::Number,
            3 => Kind::True,
            4 => Kind::False,
            5 => Kind::Null,
            6 => Kind::Array,
            7 => Kind::Object,
            other => Kind::Unknown(other),
        }
    }

    /// The number in `include/jws.h`.
    ///
    /// ```
    /// assert_eq!(jws::Kind::Object.number(), 7);
    /// ```
    pub const fn number(self) -> u64 {
        match self {
            Kind::String => 1,
            Kind::Number => 2,
            Kind::True => 3,
            Kind::False => 4,
            Kind::Null => 5,
            Kind::Array => 6,
            Kind::Object => 7,
            Kind::Unknown(number) => number,
        }
    }
}

impl From<Kind> for u64 {
    fn from(kind: Kind) -> u64 {
        kind.number()
    }
}

/// A member of a header's top object, by its places in the header's bytes. A string is raw: its escapes are not resolved.
#[derive(Clone, Debug, PartialEq, Eq, Hash)]
pub struct Member {
    /// The kind of the value.
    pub kind: Kind,
    /// The name, between its quotation marks.
    pub name: Range<usize>,
    /// The value: a string between its quotation marks, any other value whole.
    pub value: Range<usize>,
}

impl Member {
    fn of([kind, name_start, name_end, value_start, value_end]: [u64; MEMBER_WORDS]) -> Self {
        Member {
            kind: Kind::of(kind),
            name: places(name_start, name_end),
            value: places(value_start, value_end),
        }
    }
}

/// What the archive's answer and words say.
fn found(answer: u8, words: [u64; MEMBER_WORDS]) -> Result<Member, Refusal> {
    Refusal::check(answer)?;
    Ok(Member::of(words))
}

/// Member `k`, from 0, of the header's top object.
///
/// [`Refusal::HeaderTooLong`], [`Refusal::NotDerived`] and [`Refusal::NameTwice`] are the header's, and the same for every `k`;
/// [`Refusal::NoSuchMember`] is for a `k` past the last.
///
/// ```
/// use jws::{Kind, Refusal};
///
/// let header = br#"{"alg": "HS256", "kid": "k", "x": [ ]}"#;
/// let member = jws::member(header, 2)?;
/// assert_eq!(member.kind, Kind::Array);
/// assert_eq!((member.name, member.value), (30..31, 34..37));
///
/// assert_eq!(jws::member(header, 3), Err(Refusal::NoSuchMember));
/// assert_eq!(jws::member(br#"{"a":1,"\u0061":2}"#, 0), Err(Refusal::NameTwice));
/// # Ok::<(), Refusal>(())
/// ```
pub fn member(header: &[u8], k: usize) -> Result<Member, Refusal> {
    let mut words = [0; MEMBER_WORDS];
    // SAFETY: the pointer goes with the slice's length, and `words` is this function's own.
    let answer = unsafe { ffi::jws_member(header.as_ptr(), word(header.len()), word(k), &mut words) };
    found(answer, words)
}

/// The members of the header's top object, in order. A header that isn't read is refused here.
///
/// ```
/// let header = br#"{"alg":"HS256","kid":"tank-7"}"#;
/// let names: Vec<_> = jws::members(header)?.map(|member| &header[member.name]).collect();
/// assert_eq!(names, [&b"alg"[..], b"kid"]);
/// assert_eq!(jws::members(b"{}")?.count(), 0);
/// assert_eq!(jws::members(b"{").err(), Some(jws::Refusal::NotDerived));
/// # Ok::<(), jws::Refusal>(())
/// ```
pub fn members(header: &[u8]) -> Result<Members<'_>, Refusal> {
    let ahead = match member(header, 0) {
        Ok(first) => Some(first),
        Err(Refusal::NoSuchMember) => None,
        Err(refusal) => return Err(refusal),
    };
    Ok(Members { header, k: 0, ahead })
}

/// The iterator that [`members`] makes. It is one member ahead, and each step reads the header anew.
#[derive(Clone, Debug)]
pub struct Members<'h> {
    header: &'h [u8],
    k: usize,
    /// Member `k`, if there is one.
    ahead: Option<Member>,
}

impl Iterator for Members<'_> {
    type Item = Member;

    fn next(&mut self) -> Option<Member> {
        let found = self.ahead.take()?;
        self.k = self.k.saturating_add(1);
        self.ahead = member(self.header, self.k).ok();
        Some(found)
    }
}

impl FusedIterator for Members<'_> {}

#[cfg(test)]
mod tests {
    use super::*;
    use crate::refusal::tests::in_order;

    const LEAST: [u64; MEMBER_WORDS] = [0; MEMBER_WORDS];
    const GREATEST: [u64; MEMBER_WORDS] = [u64::MAX; MEMBER_WORDS];
    const GOOD: [u64; MEMBER_WORDS] = [6, 18, 19, 22, 25];

    #[test]
    fn every_answer() {
        for words in [LEAST, GREATEST, GOOD] {
            for number in 1..=u8::MAX {
                assert_eq!(found(number, words), Err(in_order(number)));
            }
        }
    }

    #[test]
    fn every_word() {
        let member = |kind, name, value| Member { kind, name, value };
        let greatest = usize::MAX..usize::MAX;
        assert_eq!(found(0, LEAST), Ok(member(Kind::Unknown(0), 0..0, 0..0)));
        assert_eq!(found(0, GOOD), Ok(member(Kind::Array, 18..19, 22..25)));
        assert_eq!(
            found(0, GREATEST),
            Ok(member(Kind::Unknown(u64::MAX), greatest.clone(), greatest))
        );
    }

    #[test]
    fn every_kind() {
        for number in (0..=u64::from(u16::MAX)).chain([u64::MAX]) {
            let kind = Kind::of(number);
            assert_eq!((kind.number(), u64::from(kind)), (number, number));
            assert_eq!(matches!(kind, Kind::Unknown(_)), !(1..=7).contains(&number));
        }
    }
}
