//! The program for people: `finder help` says what it does.

use std::env;
use std::process::ExitCode;

fn main() -> ExitCode {
    host::program::main(env::args_os().skip(1).collect())
}
