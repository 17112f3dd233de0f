//! Why a call refuses.

use core::error::Error;
use core::fmt;

/// Why a call refuses: the answers of `docs/SPECIFICATION.md` but 0. The first in a call's order stands.
#[derive(Clone, Copy, Debug, PartialEq, Eq, Hash)]
#[non_exhaustive]
pub enum Refusal {
    /// The token has more than 32,768 bytes.
    TokenTooLong,
    /// The table is bad.
    BadTable,
    /// There are fewer than two periods, or more.
    NotTwoPeriods,
    /// One of the three segments isn't strict.
    NotBase64url,
    /// The header has more than 4,096 bytes.
    HeaderTooLong,
    /// A buffer can't hold what belongs in it.
    BufferTooShort,
    /// The header isn't JSON by the grammar, or goes deeper than 16.
    NotDerived,
    /// An object in the header has a name twice.
    NameTwice,
    /// `alg` is missing, or a member with a meaning isn't what it must be.
    WrongKind,
    /// `crit` breaks its rules, or `fmt` stands there and isn't listed.
    Critical,
    /// `alg` is another algorithm.
    WrongAlg,
    /// `kid` is missing, or no key has this id.
    NoKey,
    /// The key doesn't allow HS256.
    AlgNotAllowed,
    /// The key doesn't allow the format, or there is no such format.
    FormatNotAllowed,
    /// The signature is another one.
    SignatureDiffers,
    /// The header has no member k.
    NoSuchMember,
    /// A number that no other case has, which an archive of a later version may answer. It is a refusal like every other.
    Unknown(u8),
}

impl Refusal {
    /// All that have a case of their own, in the order of their numbers.
    pub const ALL: &'static [Refusal] = &[
        Refusal::TokenTooLong,
        Refusal::BadTable,
        Refusal::NotTwoPeriods,
        Refusal::NotBase64url,
        Refusal::HeaderTooLong,
        Refusal::BufferTooShort,
        Refusal::NotDerived,
        Refusal::NameTwice,
        Refusal::WrongKind,
        Refusal::Critical,
        Refusal::WrongAlg,
        Refusal::NoKey,
        Refusal::AlgNotAllowed,
        Refusal::FormatNotAllowed,
        Refusal::SignatureDiffers,
        Refusal::NoSuchMember,
    ];

    /// The refusal with this number.
    const fn of(number: u8) -> Refusal {
        match number {
            1 => Refusal::TokenTooLong,
            2 => Refusal::BadTable,
            3 => Refusal::NotTwoPeriods,
            4 => Refusal::NotBase64url,
            5 => Refusal::HeaderTooLong,
            6 => Refusal::BufferTooShort,
            7 => Refusal::NotDerived,
            8 => Refusal::NameTwice,
            9 => Refusal::WrongKind,
            10 => Refusal::Critical,
            11 => Refusal::WrongAlg,
            12 => Refusal::NoKey,
            13 => Refusal::AlgNotAllowed,
            14 => Refusal::FormatNotAllowed,
            15 => Refusal::SignatureDiffers,
            16 => Refusal::NoSuchMember,
            other => Refusal::Unknown(other),
        }
    }

    /// The specification's number.
    ///
    /// ```
    /// assert_eq!(jws::Refusal::SignatureDiffers.number(), 15);
    /// ```
    pub const fn number(self) -> u8 {
        match self {
            Refusal::TokenTooLong => 1,
            Refusal::BadTable => 2,
            Refusal::NotTwoPeriods => 3,
            Refusal::NotBase64url => 4,
            Refusal::HeaderTooLong => 5,
            Refusal::BufferTooShort => 6,
            Refusal::NotDerived => 7,
            Refusal::NameTwice => 8,
            Refusal::WrongKind => 9,
            Refusal::Critical => 10,
            Refusal::WrongAlg => 11,
            Refusal::NoKey => 12,
            Refusal::AlgNotAllowed => 13,
            Refusal::FormatNotAllowed => 14,
            Refusal::SignatureDiffers => 15,
            Refusal::NoSuchMember => 16,
            Refusal::Unknown(number) => number,
        }
    }

    /// `Ok` for the answer 0.
    pub(crate) const fn check(answer: u8) -> Result<(), Refusal> {
        match answer {
            0 => Ok(()),
            number => Err(Refusal::of(number)),
        }
    }
}

impl From<Refusal> for u8 {
    fn from(refusal: Refusal) -> u8 {
        refusal.number()
    }
}

/// The specification's words.
impl fmt::Display for Refusal {
    fn fmt(&self, f: &mut fmt::Formatter<'_>) -> fmt::Result {
        f.write_str(match self {
            Refusal::TokenTooLong => "the token has more than 32,768 bytes",
            Refusal::BadTable => "the table is bad",
            Refusal::NotTwoPeriods => "there are fewer than two periods, or more",
            Refusal::NotBase64url => "one of the three segments isn't strict",
            Refusal::HeaderTooLong => "the header has more than 4,096 bytes",
            Refusal::BufferTooShort => "a buffer can't hold what belongs in it",
            Refusal::NotDerived => "the header isn't JSON by the grammar, or goes deeper than 16",
            Refusal::NameTwice => "an object in the header has a name twice",
            Refusal::WrongKind => "`alg` is missing, or a member with a meaning isn't what it must be",
            Refusal::Critical => "`crit` breaks its rules, or `fmt` stands there and isn't listed",
            Refusal::WrongAlg => "`alg` is another algorithm",
            Refusal::NoKey => "`kid` is missing, or no key has this id",
            Refusal::AlgNotAllowed => "the key doesn't allow HS256",
            Refusal::FormatNotAllowed => "the key doesn't allow the format, or there is no such format",
            Refusal::SignatureDiffers => "the signature is another one",
            Refusal::NoSuchMember => "the header has no member k",
            Refusal::Unknown(number) => return write!(f, "answer {number}, which isn't known here"),
        })
    }
}

impl Error for Refusal {}

/// Why [`verify`](crate::verify) refuses a token. `?` makes it a [`Refusal`] where a function returns that.
#[derive(Clone, Copy, Debug, PartialEq, Eq, Hash)]
#[non_exhaustive]
pub struct Refused {
    /// The first rule that refuses.
    pub refusal: Refusal,
}

impl Refused {
    /// `Ok` for the answer 0.
    pub(crate) fn check(answer: u8) -> Result<(), Refused> {
        Refusal::check(answer).map_err(|refusal| Refused { refusal })
    }
}

impl From<Refused> for Refusal {
    fn from(refused: Refused) -> Refusal {
        refused.refusal
    }
}

/// The number; the words are the [`source`](Error::source)'s.
impl fmt::Display for Refused {
    fn fmt(&self, f: &mut fmt::Formatter<'_>) -> fmt::Result {
        write!(f, "the token is refused with {}", self.refusal.number())
    }
}

impl Error for Refused {
    fn source(&self) -> Option<&(dyn Error + 'static)> {
        Some(&self.refusal)
    }
}

#[cfg(test)]
pub(crate) mod tests {
    extern crate std;

    use std::string::ToString;

    use super::*;

    /// The refusal with a number from 1 on: the first case has 1, the next 2, and a number after the last is `Unknown`.
    pub(crate) fn in_order(number: u8) -> Refusal {
        let named = Refusal::ALL.get(usize::from(number) - 1);
        named.copied().unwrap_or(Refusal::Unknown(number))
    }

    #[test]
    fn every_number_is_a_refusal() {
        for number in 1..=u8::MAX {
            let refusal = in_order(number);
            assert_eq!(refusal.number(), number);
            assert_eq!(u8::from(refusal), number);
            assert_eq!(Refusal::of(number), refusal);
            assert_eq!(Refusal::check(number), Err(refusal));
            assert_eq!(Refused::check(number), Err(Refused { refusal }));
        }
        assert_eq!(Refusal::check(0), Ok(()));
        assert_eq!(Refused::check(0), Ok(()));
        assert_eq!(Refusal::of(0), Refusal::Unknown(0));
        assert_eq!(
            [in_order(1), in_order(16)],
            [Refusal::TokenTooLong, Refusal::NoSuchMember]
        );
        assert_eq!(in_order(17), Refusal::Unknown(17));
    }

    #[test]
    fn refused_in_words() {
        let refused = Refused::check(4).unwrap_err();
        assert_eq!(Refusal::from(refused), Refusal::NotBase64url);
        assert_eq!(refused.to_string(), "the token is refused with 4");
        let source = refused.source().unwrap().to_string();
        assert_eq!(source, "one of the three segments isn't strict");
        let unknown = Refused::check(200).unwrap_err();
        assert_eq!(unknown.refusal, Refusal::Unknown(200));
        assert_eq!(unknown.refusal.to_string(), "answer 200, which isn't known here");
    }
}
