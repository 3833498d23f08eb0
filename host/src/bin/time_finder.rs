//! Times the finder against the reference on the same arcs, cones and parallels, and against document 02's rule in Rust on two arcs. A benchmark and no
//! test.

use std::process::ExitCode;

#[cfg(reference)]
fn main() -> ExitCode {
    host::timing::run();
    ExitCode::SUCCESS
}

#[cfg(not(reference))]
fn main() -> ExitCode {
    host::programs::not_run("time_finder")
}
