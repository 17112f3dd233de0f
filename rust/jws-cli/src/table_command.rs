//! `jws-table`: builds, shows and checks key tables.

use std::ffi::OsString;

use crate::answer::{Answer, Failure, Status};
use crate::encoding::{self, counted};
use crate::files::{self, Readers};
use crate::keys_file;
use crate::options::{Command, Options, Subcommand};
use crate::table::{self, Fault, Placed, Shared, Verdict};

const COMMAND: Command = Command {
    name: "jws-table",
    help: HELP,
    subcommands: &[
        Subcommand {
            name: "build",
            help: BUILD_HELP,
            valued: &[],
            flags: &[],
            run: build,
        },
        Subcommand {
            name: "show",
            help: SHOW_HELP,
            valued: &[],
            flags: &["--secrets"],
            run: show,
        },
        Subcommand {
            name: "check",
            help: CHECK_HELP,
            valued: &[],
            flags: &[],
            run: check,
        },
    ],
};

const HELP: &str = "\
jws-table: key tables for signed setpoint tokens

Usage:
  jws-table build KEYS.txt TABLE.bin      builds a table from a text file of keys
  jws-table show [--secrets] TABLE.bin    shows a table in words
  jws-table check TABLE.bin               says whether a table is good, and if not, what is wrong
  jws-table SUBCOMMAND --help             says more
  jws-table --version

A file named - is standard input, or standard output where it is written.

Exit status: 0 done, 1 the keys file or the table is wrong, 2 wrong arguments, a file that can't be read or written, or where
this command and the proved library don't fit.

Example:
  jws-table build keys.txt table.bin && jws-table show table.bin
";

const BUILD_HELP: &str = "\
jws-table build KEYS.txt TABLE.bin: builds a key table from a text file

The text file is UTF-8 and has one key a line; empty lines and comments from # to the line's end are passed over:

  # the node in the cellar
  id \"cellar 2\" secret base64url:MDEyMzQ1Njc4OWFiY2RlZjAxMjM0NTY3ODlhYmNkZWY algorithms HS256 formats 1,2

  id          1 to 64 bytes; no two keys have the same
  secret      32 to 128 bytes
  algorithms  HS256, or none
  formats     of 1 to 8, a list without white space such as 1,2 or 1-4,8; or none

Ids and secrets are written as
  \"text\" or text:\"text\"    its UTF-8, with \\xNN for a byte, \\\\ and \\\"
  hex:00ff..               two digits each byte
  base64url:AyM1..         strict base64url, as in a JSON Web Key

A table has at most 32 keys; they keep the file's order, and the first has index 0. A header names its key by the id, so an id
should be text. A key whose id isn't UTF-8 gets a warning on standard error, in one line: kid is text, so that no header can name this
key, and nothing is signed or accepted by it. The table is written all the same.

Each mistake is told with its line and column, and then no file is written. The table is checked by the proved library before
it is written, and an existing TABLE.bin is replaced as a whole or not at all. A new TABLE.bin can be read by its owner only.

Exit status: 0 written, 1 mistakes in KEYS.txt, 2 wrong arguments or a file that can't be read or written.

Example:
  jws-table build keys.txt table.bin
";

const SHOW_HELP: &str = "\
jws-table show [--secrets] TABLE.bin: shows a table in words

Prints the edition, the number of keys and the length; then for each key, in one line, its index, its id (as text, or hexadecimal
if it isn't printable UTF-8), its secret's length, where both lie in the file, its algorithms and its formats.

  --secrets   prints the secrets too, in base64url, and every id

An id that shares bytes with a secret isn't printed without --secrets, only its length and its place. Then a warning on standard
error says which bytes are shared, one line for each such id and secret: every token that names the key gives these bytes of the
secret away, so make a new secret and build the table anew. A key whose id isn't UTF-8 and shares nothing gets a warning too, in one
line: kid is text, so that no header can name this key, and nothing is signed or accepted by it; give it an id that is text. The table
is good all the same, and the exit status is 0.

Exit status: 0 shown, 1 the table is bad (what is wrong is told), 2 wrong arguments or a file that can't be read.

Example:
  $ jws-table show table.bin
  edition 1, 1 key, 60 bytes
  key 0: id \"cellar 2\" (bytes 20-27), secret of 32 bytes (bytes 28-59), algorithms HS256, formats 1,2
";

const CHECK_HELP: &str = "\
jws-table check TABLE.bin: says whether the proved library takes a table

A good table gets one line. Of a bad one it is told which rules of the specification are broken, in which entry and which bytes,
one line each; bytes and entries count from 0. Faults of the entries are told once the first eight bytes are right, and equal ids
once the entries are. No byte is told that lies within a secret.

A good table in which an id shares bytes with a secret gets warnings too, on standard error, one line for each such id and secret:
every token that names the key gives these bytes of the secret away, so make a new secret and build the table anew. A key whose id
isn't UTF-8 and shares nothing gets a warning too, in one line: kid is text, so that no header can name this key, and nothing is signed
or accepted by it; give it an id that is text.

Exit status: 0 good, 1 bad, 2 wrong arguments or a file that can't be read (or this command and the proved library differ about
the table, which is a mistake in this command and is told).

Example:
  $ jws-table check table.bin
  table.bin: bad table
    entry 0, bytes 10-11: the id's length is 65 (rule: an id has 1 to 64 bytes)
";

/// Runs `jws-table` with these arguments.
pub fn run(arguments: impl Iterator<Item = OsString>) -> Result<Answer, Failure> {
    COMMAND.run(arguments)
}

fn build(options: &Options) -> Result<Answer, Failure> {
    let [keys_path, table_path] = options.exactly(["KEYS.txt", "TABLE.bin"])?;
    let text = files::read(keys_path)?;
    files::apart(table_path, &[keys_path])?;
    let keys = match keys_file::read(&text) {
        Ok(keys) => keys,
        Err(mistakes) => {
            let name = files::name(keys_path);
            return Ok(Answer::refused(
                mistakes.iter().map(|mistake| format!("{name}: {mistake}\n")).collect(),
            ));
        }
    };
    let table = table::lay_out(&keys);
    let placed = match table::judge(&table) {
        Verdict::Good(placed) if placed.iter().map(|placed| &placed.key).eq(&keys) => placed,
        other => {
            return Err(Failure::Other(format!(
                "the table came out wrong and isn't written: {other:?}"
            )))
        }
    };
    if table_path == "-" {
        return Ok(Answer {
            err: warnings("standard output", &placed),
            ..Answer::done(table)
        });
    }
    files::write(table_path, &table, Readers::Owner)?;
    let name = files::name(table_path);
    let (keys, bytes) = (counted(keys.len(), "key"), counted(table.len(), "byte"));
    Ok(Answer {
        err: warnings(&name, &placed),
        ..Answer::done(format!("{name}: {keys}, {bytes}\n"))
    })
}

fn show(options: &Options) -> Result<Answer, Failure> {
    let [path] = options.exactly(["TABLE.bin"])?;
    let name = files::name(path);
    let table = files::read(path)?;
    match table::judge(&table) {
        Verdict::Good(keys) => Ok(Answer {
            err: warnings(&name, &keys),
            ..Answer::done(shown(&keys, table.len(), options.flag("--secrets")))
        }),
        Verdict::Bad(faults) => Ok(Answer::refused(bad(&name, &faults))),
        Verdict::Differs(says) => Err(Failure::Other(says)),
    }
}

fn shown(keys: &[Placed], length: usize, secrets: bool) -> String {
    let edition = table::EDITION;
    let mut text = format!(
        "edition {edition}, {}, {}\n",
        counted(keys.len(), "key"),
        counted(length, "byte")
    );
    for (index, placed) in keys.iter().enumerate() {
        let id = id(placed, keys, secrets);
        text += &format!("key {index}: id {id}, {}\n", key(placed, secrets));
    }
    text
}

/// An id and its place; one that has bytes of a secret is shown only if secrets are asked for.
fn id(placed: &Placed, keys: &[Placed], secrets: bool) -> String {
    let Placed { key, id_at, .. } = placed;
    let at = table::places(id_at);
    match table::within_secrets(id_at, keys) {
        Some(within) if !secrets => {
            let length = counted(key.id.len(), "byte");
            format!("of {length} {within} ({at}; --secrets shows it)")
        }
        _ => format!("{} ({at})", encoding::id(&key.id)),
    }
}

/// What comes after a key's id in words, its secret only if it is asked for.
fn key(placed: &Placed, secrets: bool) -> String {
    let Placed { key, secret_at, .. } = placed;
    let secret = if secrets {
        format!("base64url:{}", encoding::base64url(&key.secret))
    } else {
        format!("of {} bytes", key.secret.len())
    };
    format!(
        "secret {secret} ({}), algorithms {}, formats {}",
        table::places(secret_at),
        key.algorithms_in_words(),
        key.formats_in_words()
    )
}

fn check(options: &Options) -> Result<Answer, Failure> {
    let [path] = options.exactly(["TABLE.bin"])?;
    let name = files::name(path);
    match table::judge(&files::read(path)?) {
        Verdict::Good(keys) => Ok(Answer {
            err: warnings(&name, &keys),
            ..Answer::done(format!("{name}: good table, {}\n", counted(keys.len(), "key")))
        }),
        Verdict::Bad(faults) => Ok(Answer {
            status: Status::Refused,
            ..Answer::done(bad(&name, &faults))
        }),
        Verdict::Differs(says) => Err(Failure::Other(format!("{name}: {says}"))),
    }
}

/// A line for each id and secret that share bytes, and for each key that no header can name.
fn warnings(name: &str, keys: &[Placed]) -> String {
    let shared = table::shared(keys);
    let given_away = shared.iter().map(|shared| given_away_warning(shared, keys));
    let unnamed = table::not_utf8(keys)
        .into_iter()
        .map(|index| unnamed_warning(index, keys));
    let warnings = given_away.chain(unnamed);
    warnings
        .map(|warning| format!("{name}: warning: {warning}\n"))
        .collect()
}

/// Why no header can name a key, and what to do.
fn unnamed_warning(index: usize, keys: &[Placed]) -> String {
    format!(
        "key {index}'s id ({}) isn't UTF-8, and kid is text: no header can name this key, so nothing is signed or accepted by it. \
         Give it an id that is text and build the table anew.",
        table::places(&keys[index].id_at)
    )
}

/// Which bytes of a secret are given away, by what, and what to do.
fn given_away_warning(shared: &Shared, keys: &[Placed]) -> String {
    let Shared {
        id_of,
        secret_of,
        bytes,
    } = shared;
    let these = if bytes.len() == 1 { "this byte" } else { "these bytes" };
    format!(
        "key {id_of}'s id ({}) shares {} with key {secret_of}'s secret ({}). An id isn't secret: every token that names key \
         {id_of} gives {these} of the secret away. Make a new secret for key {secret_of} and build the table anew: \
         `jws-table build` lays ids and secrets apart.",
        table::places(&keys[*id_of].id_at),
        table::places(bytes),
        table::places(&keys[*secret_of].secret_at)
    )
}

fn bad(name: &str, faults: &[Fault]) -> String {
    let faults: String = faults.iter().map(|fault| format!("  {fault}\n")).collect();
    format!("{name}: bad table\n{faults}")
}
