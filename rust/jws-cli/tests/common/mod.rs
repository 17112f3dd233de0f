//! Runs the commands in folders of their own.

#![allow(dead_code)]

use std::ffi::OsStr;
use std::fs;
use std::io::Write;
use std::path::{Path, PathBuf};
use std::process::{Command, Stdio};

pub const TABLE: &str = env!("CARGO_BIN_EXE_jws-table");
pub const TOKEN: &str = env!("CARGO_BIN_EXE_jws-token");

/// How a command ended and what it said.
#[derive(Debug)]
pub struct Ran {
    pub status: i32,
    pub out: Vec<u8>,
    pub err: String,
}

impl Ran {
    /// Standard output as text.
    pub fn text(&self) -> &str {
        std::str::from_utf8(&self.out).unwrap()
    }

    /// The output of a command that ended well and said nothing on standard error.
    pub fn done(&self) -> &str {
        assert_eq!((self.status, self.err.as_str()), (0, ""), "{self:?}");
        self.text()
    }

    /// The number of a refusal, which has a name and a sentence.
    pub fn refused(&self) -> u8 {
        assert_eq!((self.status, self.text()), (1, ""), "{self:?}");
        let (first, rest) = self.err.split_once('\n').unwrap();
        let first = first.strip_prefix("refused ").unwrap();
        let (number, name) = first.split_once(" (").unwrap();
        assert!(name.contains("): "), "{self:?}");
        let sentence = rest.lines().next().unwrap();
        assert!(sentence.ends_with('.') && sentence.len() > 40, "{self:?}");
        number.parse().unwrap()
    }

    /// What a command said that couldn't be asked so.
    pub fn failed(&self) -> &str {
        assert_eq!((self.status, self.text()), (2, ""), "{self:?}");
        assert!(self.err.len() > 10 && self.err.ends_with('\n'), "{self:?}");
        &self.err
    }
}

/// A folder for one test.
pub struct Folder(pub PathBuf);

impl Folder {
    pub fn new(name: &str) -> Self {
        let folder = Path::new(env!("CARGO_TARGET_TMPDIR")).join("jws-cli").join(name);
        let _ = fs::remove_dir_all(&folder);
        fs::create_dir_all(&folder).unwrap();
        Folder(folder)
    }

    pub fn write(&self, name: &str, bytes: impl AsRef<[u8]>) {
        fs::write(self.0.join(name), bytes).unwrap();
    }

    pub fn read(&self, name: &str) -> Vec<u8> {
        fs::read(self.0.join(name)).unwrap()
    }

    /// The names of all files here, sorted.
    pub fn names(&self) -> Vec<String> {
        let entries = fs::read_dir(&self.0).unwrap();
        let mut names: Vec<String> = entries
            .map(|entry| entry.unwrap().file_name().into_string().unwrap())
            .collect();
        names.sort();
        names
    }

    /// Runs a command here, with nothing on standard input.
    pub fn run<W: AsRef<OsStr>>(&self, program: &str, words: &[W]) -> Ran {
        self.run_on(program, words, b"")
    }

    /// Runs a command here, with these bytes on standard input.
    pub fn run_on<W: AsRef<OsStr>>(&self, program: &str, words: &[W], input: &[u8]) -> Ran {
        let mut run = Command::new(program)
            .args(words)
            .current_dir(&self.0)
            .stdin(Stdio::piped())
            .stdout(Stdio::piped())
            .stderr(Stdio::piped())
            .spawn()
            .unwrap();
        // A command that doesn't read its input may be gone.
        let _ = run.stdin.take().unwrap().write_all(input);
        let output = run.wait_with_output().unwrap();
        Ran {
            status: output.status.code().unwrap(),
            out: output.stdout,
            err: String::from_utf8(output.stderr).unwrap(),
        }
    }
}

/// A file of RFC 7515 A.1: the table of its key; its token, whose header has no `kid`; or its payload under a header that names
/// the key.
pub fn published(name: &str) -> Vec<u8> {
    let here = Path::new(env!("CARGO_MANIFEST_DIR"));
    fs::read(here.join("../../crates/verify_token/data").join(name)).unwrap()
}

/// The key of RFC 7515 A.1 as its JSON Web Key has it.
pub const PUBLISHED_SECRET: &str =
    "AyM1SysPpbyDfgZld3umj1qzKObwVMkoqQ-EstJQLr_T-1qS0gZH75aKtMN3Yj0iPS4hcgUuTwjAzZr1Z9CAow";
