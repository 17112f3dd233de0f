//! Builds, shows and checks key tables; `jws-table --help` says how.

#![forbid(unsafe_code)]

use std::process::ExitCode;

fn main() -> ExitCode {
    jws_cli::answer::finish(jws_cli::table_command::run(std::env::args_os().skip(1)))
}
