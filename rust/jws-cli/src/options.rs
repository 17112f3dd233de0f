//! The arguments of a command.

use std::collections::BTreeMap;
use std::ffi::{OsStr, OsString};

use crate::answer::{Answer, Failure};
use crate::boundary;

/// A command with subcommands: their names and what their `--help` says.
pub struct Command {
    /// The command's name.
    pub name: &'static str,
    /// What `--help` says.
    pub help: &'static str,
    /// Each subcommand.
    pub subcommands: &'static [Subcommand],
}

/// One subcommand.
pub struct Subcommand {
    /// Its name.
    pub name: &'static str,
    /// What its `--help` says.
    pub help: &'static str,
    /// Options that take a value.
    pub valued: &'static [&'static str],
    /// Options that take none.
    pub flags: &'static [&'static str],
    /// What it does.
    pub run: fn(&Options) -> Result<Answer, Failure>,
}

/// What was given to a subcommand.
#[derive(Debug, Default)]
pub struct Options {
    values: BTreeMap<&'static str, OsString>,
    flags: Vec<&'static str>,
    /// The arguments that are no options, in order.
    pub plain: Vec<OsString>,
}

impl Options {
    /// The value of an option, if it was given.
    pub fn value(&self, name: &str) -> Option<&OsStr> {
        self.values.get(name).map(OsString::as_os_str)
    }

    /// The value of an option that must be given.
    pub fn needed(&self, name: &str) -> Result<&OsStr, Failure> {
        self.value(name)
            .ok_or_else(|| Failure::Arguments(format!("{name} is missing")))
    }

    /// Whether a flag was given.
    pub fn flag(&self, name: &str) -> bool {
        self.flags.contains(&name)
    }

    /// An option's value as a number, or another number if it wasn't given.
    pub fn number(&self, name: &str, otherwise: usize) -> Result<usize, Failure> {
        let Some(value) = self.value(name) else {
            return Ok(otherwise);
        };
        let number = value.to_str().and_then(|text| text.parse().ok());
        number.ok_or_else(|| Failure::Arguments(format!("{name} takes a number of bytes")))
    }

    /// The plain arguments, exactly as many as their names.
    pub fn exactly<const N: usize>(&self, names: [&str; N]) -> Result<[&OsStr; N], Failure> {
        let given: Vec<&OsStr> = self.plain.iter().map(OsString::as_os_str).collect();
        let number = given.len();
        given.try_into().map_err(|_| match names.get(number) {
            Some(name) => Failure::Arguments(format!("{name} is missing")),
            None => Failure::Arguments("too many arguments".to_string()),
        })
    }
}

impl Command {
    /// Runs the subcommand that the arguments name, if the linked archive is the one that this was written for. A wrong argument's message
    /// ends with where to look.
    pub fn run(&self, arguments: impl Iterator<Item = OsString>) -> Result<Answer, Failure> {
        boundary::same(self.name, jws::BOUNDARY, jws::boundary())?;
        let mut arguments = arguments;
        let Some(first) = arguments.next() else {
            return Err(Failure::Arguments(format!(
                "{}: no subcommand\n{}",
                self.name,
                self.see(None)
            )));
        };
        match first.to_str() {
            Some("--help" | "-h") => return Ok(Answer::done(self.help)),
            Some("--version" | "-V") => {
                return Ok(Answer::done(format!("{} {}\n", self.name, env!("CARGO_PKG_VERSION"))));
            }
            _ => {}
        }
        let Some(subcommand) = self.subcommands.iter().find(|subcommand| first == subcommand.name) else {
            let shown = first.to_string_lossy();
            return Err(Failure::Arguments(format!(
                "{}: no subcommand `{shown}`\n{}",
                self.name,
                self.see(None)
            )));
        };
        let Some(options) = subcommand
            .options(arguments)
            .map_err(|failure| self.named(subcommand, failure))?
        else {
            return Ok(Answer::done(subcommand.help));
        };
        (subcommand.run)(&options).map_err(|failure| self.named(subcommand, failure))
    }

    /// Puts the command's name before a failure, and after wrong arguments where to look.
    fn named(&self, subcommand: &Subcommand, failure: Failure) -> Failure {
        let (name, sub) = (self.name, subcommand.name);
        match failure {
            Failure::Arguments(reason) => {
                Failure::Arguments(format!("{name} {sub}: {reason}\n{}", self.see(Some(subcommand))))
            }
            Failure::Other(reason) => Failure::Other(format!("{name} {sub}: {reason}")),
        }
    }

    fn see(&self, subcommand: Option<&Subcommand>) -> String {
        let words = subcommand.map_or(String::new(), |subcommand| format!(" {}", subcommand.name));
        format!("`{}{words} --help` says how it is used", self.name)
    }
}

impl Subcommand {
    /// Sorts the arguments into options and others; `None` if help is asked for. After `--` none is an option.
    fn options(&self, mut arguments: impl Iterator<Item = OsString>) -> Result<Option<Options>, Failure> {
        let mut options = Options::default();
        while let Some(argument) = arguments.next() {
            let text = argument.to_str().unwrap_or("");
            if text == "--help" || text == "-h" {
                return Ok(None);
            } else if text == "--" {
                options.plain.extend(arguments.by_ref());
            } else if text.starts_with('-') && text.len() > 1 {
                self.option(text, &mut arguments, &mut options)?;
            } else {
                options.plain.push(argument);
            }
        }
        Ok(Some(options))
    }

    /// Takes an option, `--name value`, `--name=value` or a flag, each once at most.
    fn option(
        &self,
        text: &str,
        arguments: &mut impl Iterator<Item = OsString>,
        options: &mut Options,
    ) -> Result<(), Failure> {
        let (name, inner) = text
            .split_once('=')
            .map_or((text, None), |(name, value)| (name, Some(value)));
        let fail = |says: &str| Err(Failure::Arguments(format!("{name} {says}")));
        if let Some(&flag) = self.flags.iter().find(|&&flag| flag == name) {
            options.flags.push(flag);
            return if inner.is_some() {
                fail("takes no value")
            } else {
                Ok(())
            };
        }
        let Some(&known) = self.valued.iter().find(|&&known| known == name) else {
            return fail("isn't an option of this");
        };
        let Some(value) = inner.map(OsString::from).or_else(|| arguments.next()) else {
            return fail("takes a value");
        };
        match options.values.insert(known, value) {
            None => Ok(()),
            Some(_) => fail("is given twice"),
        }
    }
}
