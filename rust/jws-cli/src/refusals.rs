//! The numbered answers in plain words.

use jws::{Member, Refusal};

use crate::encoding;

/// Told where a refused token ends in a newline.
const HINT: &str =
    "Hint: the file ends in a newline, and that belongs to the token; write the file without it (printf, not echo).";

/// The sentence of a refusal that these commands don't know.
pub const UNKNOWN: &str =
    "These commands don't know this answer: build them anew, with the archive of the same version.";

/// One sentence on what a refusal means and what to look at.
pub fn sentence(refusal: Refusal) -> &'static str {
    match refusal {
        Refusal::TokenTooLong => {
            "A token has at most 32,768 bytes: look at the payload's length, or whether this file is a token at \
             all."
        }
        Refusal::BadTable => {
            "The key table doesn't keep its format, so no key is trusted: `jws-table check` says what is wrong with \
             it."
        }
        Refusal::NotTwoPeriods => {
            "A compact token is header, payload and signature with a period between each two: look for a part cut \
             off or put on."
        }
        Refusal::NotBase64url => {
            "Header, payload and signature have letters, digits, `-` and `_` only, with no padding, white space or \
             newline, and the last character's unused bits are 0: look for a character that was added, lost or \
             changed on the way."
        }
        Refusal::HeaderTooLong => {
            "A header has at most 4,096 bytes as JSON: look for members that belong into the payload."
        }
        Refusal::BufferTooShort => {
            "A buffer is shorter than what it must hold: look at `--room`, which stands for the buffer of a node."
        }
        Refusal::NotDerived => {
            "The header isn't one JSON object by the strict grammar: look for a comma too many, a byte order mark, \
             bytes that aren't UTF-8, a \\u without four hexadecimal digits or with half of a surrogate pair, or \
             arrays and objects more than 16 deep."
        }
        Refusal::NameTwice => {
            "An object in the header, or nested in it, has two members of one name: look at the names with their \
             escapes resolved, so that al\\u0067 is alg, and \\u00e9 and \\u00E9 are both é."
        }
        Refusal::WrongKind => {
            "`alg` must be there and a string; `kid`, `typ` and `cty`, if there, are strings, `crit` an array of \
             strings, and `fmt` an integer of 64 bits without fraction or exponent: look at these members."
        }
        Refusal::Critical => {
            "`crit` lists `fmt` once and nothing else, and it is there exactly if `fmt` is: look at `crit` and \
             `fmt`, as in \"crit\":[\"fmt\"],\"fmt\":2."
        }
        Refusal::WrongAlg => "The only algorithm is HS256, written so: look at the header's `alg`.",
        Refusal::NoKey => {
            "The header names its key by `kid`, and a key of the table must have exactly this id; without `kid` no \
             key is taken, even where the table has just one: look at `kid` and at the ids in `jws-table show`."
        }
        Refusal::AlgNotAllowed => {
            "The key that was found may not be used with HS256: look at its algorithms in `jws-table show`."
        }
        Refusal::FormatNotAllowed => {
            "The key that was found may not be used with this format, which is `fmt`, or 1 without it: look at `fmt` \
             and at the key's formats in `jws-table show`."
        }
        Refusal::SignatureDiffers => {
            "The signature isn't the one that this key makes over this header and payload: look whether both sides \
             have the same secret, and whether the token was changed after it was signed."
        }
        Refusal::NoSuchMember => "The header has fewer members: they are counted from 0.",
        _ => UNKNOWN,
    }
}

/// A refusal with its number, its name and its sentence, and then a line for each detail.
pub fn told(refusal: Refusal, details: &[String]) -> String {
    let mut text = format!(
        "refused {} ({refusal:?}): {refusal}\n{}\n",
        refusal.number(),
        sentence(refusal)
    );
    for detail in details {
        text += &format!("{detail}\n");
    }
    text
}

/// What a token's own bytes show about its refusal.
pub fn token_details(refusal: Refusal, token: &[u8]) -> Vec<String> {
    match refusal {
        Refusal::TokenTooLong => vec![format!(
            "Here: the token has {}.",
            encoding::counted(token.len(), "byte")
        )],
        Refusal::NotTwoPeriods => {
            let periods = token.iter().filter(|&&byte| byte == b'.').count();
            vec![format!("Here: the token has {}.", encoding::counted(periods, "period"))]
        }
        Refusal::NotBase64url => segment_details(token),
        _ => encoding::header_segment(token).map_or(Vec::new(), |header| header_details(refusal, &header)),
    }
}

/// What a header's own bytes show about a refusal.
pub fn header_details(refusal: Refusal, header: &[u8]) -> Vec<String> {
    match refusal {
        Refusal::NoKey => vec![name_detail(header)],
        _ => Vec::new(),
    }
}

/// Whether a header names a key, and how.
fn name_detail(header: &[u8]) -> String {
    let is_kid = |member: &Member| encoding::resolved(&header[member.name.clone()]).as_deref() == Some("kid");
    match jws::members(header).ok().and_then(|mut members| members.find(is_kid)) {
        None => "Here: the header has no `kid`; put the key's id into it, as in \"kid\":\"cellar 2\".".into(),
        Some(kid) => format!(
            "Here: `kid` is {}, and no key of the table has this id.",
            named(&header[kid.value])
        ),
    }
}

/// A raw `kid`; where it has escapes, after the id that it says, as `jws-table show` writes it.
fn named(raw: &[u8]) -> String {
    let spelled = encoding::safe(raw);
    match encoding::resolved(raw) {
        Some(id) if id.as_bytes() != raw => format!("{} (spelled \"{spelled}\")", encoding::id(id.as_bytes())),
        _ => format!("\"{spelled}\""),
    }
}

/// Where the segments aren't strict base64url, and a hint for a newline at the end.
fn segment_details(token: &[u8]) -> Vec<String> {
    let mut details = Vec::new();
    let mut start = 0;
    for (name, segment) in ["header", "payload", "signature"]
        .into_iter()
        .zip(token.split(|&byte| byte == b'.'))
    {
        if let Err(wrong) = encoding::from_base64url(segment) {
            details.push(format!(
                "Here: in the {name}, at byte {} of the token: {}.",
                start + wrong.at,
                wrong.says
            ));
        }
        start += segment.len() + 1;
    }
    if token.ends_with(b"\n") {
        details.push(HINT.into());
    }
    details
}
