//! The command for people: one subcommand for each thing that can be done with a rule.

use std::{env, process::ExitCode};

use tokenfinch_cli::rules;

fn main() -> ExitCode {
    rules::run(env::args_os().skip(1).collect())
}
