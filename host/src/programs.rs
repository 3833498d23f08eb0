//! What the programs share.

use std::env;
use std::process::ExitCode;

/// The program's one argument, a number of `what`.
pub fn count_argument(what: &str, default: u64) -> Result<u64, String> {
    let arguments: Vec<_> = env::args_os().skip(1).collect();
    match arguments.as_slice() {
        [] => Ok(default),
        [count] => {
            let count = count.to_string_lossy();
            let parsed = count.parse();
            parsed.map_err(|_| format!("`{count}` is not a number of {what}"))
        }
        _ => Err(format!("takes one argument, the number of {what}")),
    }
}

/// The median of an odd number of times or ratios.
pub fn median(mut numbers: Vec<f64>) -> f64 {
    numbers.sort_by(f64::total_cmp);
    numbers[numbers.len() / 2]
}

/// Says that a program needs the reference's source, which only CI takes for a failure.
pub fn not_run(program: &str) -> ExitCode {
    println!(
        "{program}: NOT RUN: the reference's source is not in ../shared/docs/src \
         (the environment variable RENNAGLYPH_REFERENCE names another folder)"
    );
    if env::var_os("CI").is_some() {
        ExitCode::FAILURE
    } else {
        ExitCode::SUCCESS
    }
}
