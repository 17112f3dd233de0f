//! `jws-token`: signs and verifies tokens, and shows a header's members.

use std::ffi::{OsStr, OsString};
use std::ops::Range;

use jws::{Kind, Member, Record, Refusal, HEADER_MAX, PAYLOAD_MAX, TOKEN_MAX};

use crate::answer::{Answer, Failure};
use crate::encoding;
use crate::files::{self, Readers};
use crate::options::{Command, Options, Subcommand};
use crate::refusals;

const COMMAND: Command = Command {
    name: "jws-token",
    help: HELP,
    subcommands: &[
        Subcommand {
            name: "sign",
            help: SIGN_HELP,
            valued: &["--table", "--header", "--payload", "--out", "--room"],
            flags: &[],
            run: sign,
        },
        Subcommand {
            name: "verify",
            help: VERIFY_HELP,
            valued: &["--table", "--payload-out", "--room"],
            flags: &[],
            run: verify,
        },
        Subcommand {
            name: "members",
            help: MEMBERS_HELP,
            valued: &["--token"],
            flags: &[],
            run: members,
        },
    ],
};

const HELP: &str = "\
jws-token: signs, verifies and looks into signed setpoint tokens, by the proved library

Usage:
  jws-token sign --table TABLE.bin --header HEADER.json --payload FILE [--out TOKEN.txt] [--room BYTES]
  jws-token verify --table TABLE.bin TOKEN.txt [--payload-out FILE] [--room BYTES]
  jws-token members HEADER.json
  jws-token members --token TOKEN.txt
  jws-token SUBCOMMAND --help             says more
  jws-token --version

A file named - is standard input, or standard output where it is written. A refusal is told on standard error, with its
number, its name and what to look at.

Exit status: 0 done, 1 refused, 2 wrong arguments, a file that can't be read or written, or where this command and the proved
library don't fit.

Example:
  printf '{\"alg\":\"HS256\",\"kid\":\"cellar 2\"}' |
    jws-token sign --table table.bin --header - --payload setpoint.json --out token.txt
  jws-token verify --table table.bin token.txt
";

const SIGN_HELP: &str = "\
jws-token sign --table TABLE.bin --header HEADER.json --payload FILE [--out TOKEN.txt] [--room BYTES]: signs a token

The header names the key by its kid; without kid it is refused with 12. Header and payload go into the token byte for byte, with
a newline at their end if there is one.

  --table TABLE.bin       the key table; `jws-table build` makes one
  --header HEADER.json    the header, or - for standard input
  --payload FILE          the payload, or - for standard input
  --out TOKEN.txt         where the token goes, as a whole or not at all; otherwise to standard output. No newline is put after it
  --room BYTES            answers as for a token buffer of this many bytes (32768 otherwise, which always suffices)

Exit status: 0 signed, 1 refused (2, 5, 7 to 14, 1 or 6), 2 wrong arguments or a file that can't be read or written.

Example:
  printf '{\"alg\":\"HS256\",\"kid\":\"cellar 2\"}' |
    jws-token sign --table table.bin --header - --payload setpoint.json --out token.txt
";

const VERIFY_HELP: &str = "\
jws-token verify --table TABLE.bin TOKEN.txt [--payload-out FILE] [--room BYTES]: verifies a token

Prints the key's index in the table, whether the header has kid, the format, the raw texts of typ and cty, and the lengths of header
and payload. In a raw text, what isn't printable is shown as \\xNN. A newline at the end of TOKEN.txt belongs to the token, which
then is refused with 4.

  --table TABLE.bin       the key table
  TOKEN.txt               the token, or - for standard input
  --payload-out FILE      where the payload of an accepted token goes, as a whole or not at all; with - it goes to standard output
                          and the rest to standard error
  --room BYTES            answers as for a payload buffer of this many bytes (24576 otherwise, which always suffices)

Exit status: 0 accepted, 1 refused (1 to 15), 2 wrong arguments or a file that can't be read or written.

Example:
  $ jws-token verify --table table.bin token.txt
  accepted
  key: 0
  kid: present
  format: 1
  typ: \"JWT\"
  cty: absent
  header: 48 bytes
  payload: 70 bytes
";

const MEMBERS_HELP: &str = "\
jws-token members HEADER.json: shows the members of a header
jws-token members --token TOKEN.txt: shows the members of a token's header

One line each: the index from 0, the raw name, the value's kind and the raw value, with their places in the header's bytes (first
byte and the one after the last). Raw means that escapes aren't resolved; what isn't printable is shown as \\xNN.

Nothing is verified: a token is shown whatever its key and signature are. But it must be a token: it is refused as `verify`
refuses it with 1, 3, 4, 5, 7 or 8.

Exit status: 0 shown, 1 refused (5, 7 or 8; of a token also 1, 3 or 4), 2 wrong arguments or a file that can't be read.

Example:
  $ printf '{\"alg\":\"HS256\",\"kid\":\"cellar 2\"}' | jws-token members -
  member 0: \"alg\" at 2..5, string \"HS256\" at 8..13
  member 1: \"kid\" at 16..19, string \"cellar 2\" at 22..30
";

/// The whole table of no keys.
const NO_KEYS: [u8; 8] = [0, 1, 0, 0, 0, 0, 0, 8];

/// Runs `jws-token` with these arguments.
pub fn run(arguments: impl Iterator<Item = OsString>) -> Result<Answer, Failure> {
    COMMAND.run(arguments)
}

/// Standard input can be read once.
fn one_standard_input(paths: &[&OsStr]) -> Result<(), Failure> {
    if paths.iter().filter(|&&path| path == "-").count() > 1 {
        return Err(Failure::Arguments("only one file can be standard input (-)".into()));
    }
    Ok(())
}

fn sign(options: &Options) -> Result<Answer, Failure> {
    let [] = options.exactly([])?;
    let (table, header) = (options.needed("--table")?, options.needed("--header")?);
    let payload = options.needed("--payload")?;
    let room = options.number("--room", TOKEN_MAX)?;
    one_standard_input(&[table, header, payload])?;
    let mut token = vec![0; room.min(TOKEN_MAX)];
    let header_bytes = files::read(header)?;
    let signed = jws::sign(&header_bytes, &files::read(payload)?, &files::read(table)?, &mut token);
    match (signed, options.value("--out").filter(|&out| out != "-")) {
        (Err(refusal), _) => {
            let details = refusals::header_details(refusal, &header_bytes);
            Ok(Answer::refused(refusals::told(refusal, &details)))
        }
        (Ok(length), None) => Ok(Answer::done(&token[..length])),
        (Ok(length), Some(out)) => {
            files::apart(out, &[table, header, payload])?;
            files::write(out, &token[..length], Readers::Usual)?;
            Ok(Answer::done(format!(
                "{}: {}\n",
                files::name(out),
                encoding::counted(length, "byte")
            )))
        }
    }
}

fn verify(options: &Options) -> Result<Answer, Failure> {
    let [path] = options.exactly(["TOKEN.txt"])?;
    let table = options.needed("--table")?;
    let room = options.number("--room", PAYLOAD_MAX)?;
    one_standard_input(&[table, path])?;
    let token = files::read(path)?;
    let (mut header, mut buffer) = ([0; HEADER_MAX], vec![0; room.min(PAYLOAD_MAX)]);
    let record = match jws::verify(&token, &files::read(table)?, &mut header, &mut buffer) {
        Ok(record) => record,
        Err(refused) => return Ok(refused_token(refused.refusal, &token)),
    };
    let (report, payload) = (accepted(&record, &header), record.payload(&buffer));
    match options.value("--payload-out") {
        None => Ok(Answer::done(report)),
        Some(out) if out == "-" => Ok(Answer {
            err: report,
            ..Answer::done(payload)
        }),
        Some(out) => {
            files::apart(out, &[table, path])?;
            files::write(out, payload, Readers::Usual)?;
            Ok(Answer::done(report))
        }
    }
}

/// An accepted token's record in words.
fn accepted(record: &Record, header: &[u8]) -> String {
    let raw = |place: &Option<Range<usize>>| match place {
        Some(place) => format!("\"{}\"", encoding::safe(&header[place.clone()])),
        None => "absent".into(),
    };
    format!(
        "accepted\nkey: {}\nkid: {}\nformat: {}\ntyp: {}\ncty: {}\nheader: {}\npayload: {}\n",
        record.key_index,
        if record.kid_present { "present" } else { "absent" },
        record.format,
        raw(&record.typ),
        raw(&record.cty),
        encoding::counted(record.header_length, "byte"),
        encoding::counted(record.payload_length, "byte"),
    )
}

fn members(options: &Options) -> Result<Answer, Failure> {
    let Some(path) = options.value("--token") else {
        let [path] = options.exactly(["HEADER.json"])?;
        return Ok(shown(&files::read(path)?));
    };
    let [] = options.exactly([])?;
    let token = files::read(path)?;
    match header_of(&token) {
        Ok(header) => Ok(shown(&header)),
        Err(refusal) => Ok(refused_token(refusal, &token)),
    }
}

/// A token's refusal, with what its own bytes show.
fn refused_token(refusal: Refusal, token: &[u8]) -> Answer {
    Answer::refused(refusals::told(refusal, &refusals::token_details(refusal, token)))
}

/// A token's header, if it is a token. The proved library says so by the answer that it gives with a table of no keys: a token
/// whose header is read is refused for its known members or for want of a key.
fn header_of(token: &[u8]) -> Result<Vec<u8>, Refusal> {
    let (mut header, mut payload) = ([0; HEADER_MAX], [0; PAYLOAD_MAX]);
    let refusal = jws::verify(token, &NO_KEYS, &mut header, &mut payload)
        .err()
        .map(Refusal::from);
    match refusal {
        None | Some(Refusal::WrongKind | Refusal::Critical | Refusal::WrongAlg | Refusal::NoKey) => {
            encoding::header_segment(token).map_err(|_| Refusal::NotBase64url)
        }
        Some(refusal) => Err(refusal),
    }
}

fn shown(header: &[u8]) -> Answer {
    match jws::members(header) {
        Err(refusal) => Answer::refused(refusals::told(refusal, &[])),
        Ok(members) => {
            let lines: String = members
                .enumerate()
                .map(|(k, member)| line(header, k, &member))
                .collect();
            Answer::done(if lines.is_empty() {
                "no members\n".to_string()
            } else {
                lines
            })
        }
    }
}

/// A member in words.
fn line(header: &[u8], k: usize, member: &Member) -> String {
    let (name, value) = (&member.name, &member.value);
    let text = |place: &Range<usize>| encoding::safe(&header[place.clone()]);
    let mark = if member.kind == Kind::String { "\"" } else { "" };
    format!(
        "member {k}: \"{}\" at {}..{}, {} {mark}{}{mark} at {}..{}\n",
        text(name),
        name.start,
        name.end,
        kind(member.kind),
        text(value),
        value.start,
        value.end
    )
}

fn kind(kind: Kind) -> &'static str {
    match kind {
        Kind::String => "string",
        Kind::Number => "number",
        Kind::True => "true",
        Kind::False => "false",
        Kind::Null => "null",
        Kind::Array => "array",
        Kind::Object => "object",
        Kind::Unknown(_) => "of no known kind",
    }
}
