//! What a command says and how it ends.

use std::io::{self, Write};
use std::process::ExitCode;

/// How a command ends: its exit status.
#[derive(Clone, Copy, Debug, PartialEq, Eq)]
#[repr(u8)]
pub enum Status {
    /// It did what was asked.
    Done = 0,
    /// It refused: a token, a header, a table or a keys file is wrong.
    Refused = 1,
    /// It couldn't be asked: wrong arguments, a file that can't be read or written, or an archive with another boundary.
    Failed = 2,
}

/// What a command says and how it ends.
#[derive(Clone, Debug, PartialEq, Eq)]
pub struct Answer {
    /// For standard output.
    pub out: Vec<u8>,
    /// For standard error.
    pub err: String,
    /// The exit status.
    pub status: Status,
}

impl Answer {
    /// Success, with these bytes on standard output.
    pub fn done(out: impl Into<Vec<u8>>) -> Self {
        let (out, err) = (out.into(), String::new());
        Answer {
            out,
            err,
            status: Status::Done,
        }
    }

    /// A refusal, told on standard error.
    pub fn refused(err: String) -> Self {
        Answer {
            out: Vec::new(),
            err,
            status: Status::Refused,
        }
    }
}

/// Why a command couldn't do its work at all; ends it with [`Status::Failed`].
#[derive(Clone, Debug, PartialEq, Eq)]
pub enum Failure {
    /// Its arguments are wrong.
    Arguments(String),
    /// A file can't be read or written, or something else is wrong.
    Other(String),
}

/// Writes what a command says and gives its exit status.
pub fn finish(result: Result<Answer, Failure>) -> ExitCode {
    let answer = result.unwrap_or_else(|failure| {
        let (Failure::Arguments(reason) | Failure::Other(reason)) = failure;
        let (out, err) = (Vec::new(), reason + "\n");
        Answer {
            out,
            err,
            status: Status::Failed,
        }
    });
    let mut out = io::stdout().lock();
    let written = out.write_all(&answer.out).and_then(|()| out.flush());
    // Where even standard error can't be written there is nobody to tell.
    let _ = io::stderr().write_all(answer.err.as_bytes());
    match written {
        Ok(()) => ExitCode::from(answer.status as u8),
        Err(error) => {
            let _ = writeln!(io::stderr(), "standard output can't be written: {error}");
            ExitCode::from(Status::Failed as u8)
        }
    }
}
