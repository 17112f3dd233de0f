//! Signs and verifies tokens and shows a header's members; `jws-token --help` says how.

#![forbid(unsafe_code)]

use std::process::ExitCode;

fn main() -> ExitCode {
    jws_cli::answer::finish(jws_cli::token_command::run(std::env::args_os().skip(1)))
}
