//! Specification, "Members with a meaning": the answers 9 to 14, over the members of a header that is read and the keys of a table.

use crate::answer::{ALG_NOT_ALLOWED, CRITICAL, FORMAT_NOT_ALLOWED, NO_KEY, WRONG_ALG, WRONG_KIND};
use crate::json::{Member, Place, Value};
use crate::limits::{FORMAT_MAX, FORMAT_MIN};
use crate::table::Key;

/// What the rules choose for a header that keeps them.
#[derive(Clone, Copy, Debug, PartialEq, Eq)]
pub struct Choice {
    /// The key's index, from 0.
    pub key: usize,
    /// Whether `kid` is there: always, since nothing else finds a key.
    pub kid: bool,
    /// 1 to 8; 1 where `fmt` is absent.
    pub format: u8,
    /// The raw place of `typ`.
    pub typ: Option<Place>,
    /// The raw place of `cty`.
    pub cty: Option<Place>,
}

/// The first of the answers 9 to 14 whose condition holds, or the choice.
pub fn choose(members: &[Member], keys: &[Key]) -> Result<Choice, u8> {
    let known = Known::of(members).ok_or(WRONG_KIND)?;
    if !known.keeps_critical_rule() {
        return Err(CRITICAL);
    }
    if known.alg != "HS256" {
        return Err(WRONG_ALG);
    }
    let key = known.kid.and_then(|kid| find(keys, kid)).ok_or(NO_KEY)?;
    if !keys[key].allows_hs256() {
        return Err(ALG_NOT_ALLOWED);
    }
    let format = match known.fmt.unwrap_or(FORMAT_MIN) {
        fmt @ FORMAT_MIN..=FORMAT_MAX => fmt as u8,
        _ => return Err(FORMAT_NOT_ALLOWED),
    };
    if !keys[key].allows_format(format) {
        return Err(FORMAT_NOT_ALLOWED);
    }
    Ok(Choice {
        key,
        kid: known.kid.is_some(),
        format,
        typ: known.typ,
        cty: known.cty,
    })
}

/// The known members, each of its right kind.
struct Known<'m> {
    alg: &'m str,
    kid: Option<&'m str>,
    typ: Option<Place>,
    cty: Option<Place>,
    crit: Option<Vec<&'m str>>,
    fmt: Option<i64>,
}

impl<'m> Known<'m> {
    /// `None` where answer 9 is due.
    fn of(members: &'m [Member]) -> Option<Self> {
        let find = |name: &str| members.iter().find(|member| member.name == name);
        let typ = find("typ");
        let cty = find("cty");
        optional(typ, string)?;
        optional(cty, string)?;
        Some(Known {
            alg: string(find("alg")?)?,
            kid: optional(find("kid"), string)?,
            typ: typ.map(|member| member.value_place),
            cty: cty.map(|member| member.value_place),
            crit: optional(find("crit"), strings)?,
            fmt: optional(find("fmt"), integer)?,
        })
    }

    /// Answer 10 is due where this is false. A name in `crit` that is `fmt`, once, and present, makes up all that
    /// `crit` may list.
    fn keeps_critical_rule(&self) -> bool {
        match &self.crit {
            None => self.fmt.is_none(),
            Some(names) => names[..] == ["fmt"] && self.fmt.is_some(),
        }
    }
}

/// An absent member is right; a present one is right if `value` gives something for it.
fn optional<'m, T>(member: Option<&'m Member<'m>>, value: impl Fn(&'m Member<'m>) -> Option<T>) -> Option<Option<T>> {
    member.map(value).map_or(Some(None), |found| found.map(Some))
}

fn string<'m>(member: &'m Member) -> Option<&'m str> {
    match &member.value {
        Value::String(text) => Some(text),
        _ => None,
    }
}

fn strings<'m>(member: &'m Member) -> Option<Vec<&'m str>> {
    let Value::Array(values) = &member.value else {
        return None;
    };
    let text = |value: &'m Value| match value {
        Value::String(text) => Some(&**text),
        _ => None,
    };
    values.iter().map(text).collect()
}

/// A number without fraction or exponent within `i64`; `-0` has the value 0. Of the numbers that the grammar derives,
/// Rust's own reader takes exactly these.
fn integer(member: &Member) -> Option<i64> {
    match member.value {
        Value::Number(written) => written.parse().ok(),
        _ => None,
    }
}

/// The key whose id is the UTF-8 of `kid`.
fn find(keys: &[Key], kid: &str) -> Option<usize> {
    keys.iter().position(|key| key.id == kid.as_bytes())
}
