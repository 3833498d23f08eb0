//! Links the library that Rattle exports, notes the kit's version, and makes the reference ready to be compiled.

#[path = "build/reference.rs"]
mod reference;

use std::env;
use std::path::Path;
use std::process::Command;

fn main() {
    let manifest = env::var("CARGO_MANIFEST_DIR").expect("cargo sets CARGO_MANIFEST_DIR");
    let repository = Path::new(&manifest).join("..");
    link(&repository.join("crates/finder/out"));
    println!("cargo::rustc-env=FINDER_KIT=kit: {}", kit());
    reference::prepare(&repository);
}

/// What `rt version` prints: the kit that the library was made with, unless another has been put in its place since.
fn kit() -> String {
    let output = Command::new("rt").arg("version").output();
    let line = output
        .ok()
        .filter(|output| output.status.success())
        .and_then(|output| {
            let text = String::from_utf8(output.stdout).ok()?;
            text.lines().next().map(str::to_string)
        });
    line.unwrap_or_else(|| "unknown".to_string())
}

fn link(folder: &Path) {
    let archive = folder.join("libfinder.a");
    println!("cargo::rerun-if-changed={}", archive.display());
    if !archive.is_file() {
        println!(
            "cargo::error=crates/finder/out/libfinder.a is missing: \
             make it with `rt lib --cpu x86-64` in crates/finder"
        );
    }
    println!("cargo::rustc-link-search=native={}", folder.display());
    println!("cargo::rustc-link-lib=static=finder");
}
