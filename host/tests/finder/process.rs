//! Runs programs, in folders of their own.

use std::ffi::OsStr;
use std::fs;
use std::io::Write;
use std::path::{Path, PathBuf};
use std::process::{self, Command, Output, Stdio};
use std::sync::atomic::{AtomicUsize, Ordering};
use std::thread;
use std::time::Duration;

/// A fresh folder, which goes with its owner.
pub struct Folder(PathBuf);

impl Folder {
    pub fn new() -> Self {
        static MADE: AtomicUsize = AtomicUsize::new(0);
        let number = MADE.fetch_add(1, Ordering::Relaxed);
        let name = format!("finder-test-{}-{number}", process::id());
        let path = std::env::temp_dir().join(name);
        fs::create_dir(&path).expect("the folder can be made");
        Folder(path)
    }

    pub fn path(&self, name: &str) -> PathBuf {
        self.0.join(name)
    }

    pub fn write(&self, name: &str, bytes: impl AsRef<[u8]>) -> PathBuf {
        let path = self.path(name);
        fs::write(&path, bytes).expect("the file can be written");
        path
    }

    /// What is in it, in the order of the names.
    pub fn names(&self) -> Vec<String> {
        let entries = fs::read_dir(&self.0).expect("the folder is there");
        let names = entries.map(|entry| entry.expect("it can be read").file_name());
        let mut names: Vec<String> = names
            .map(|name| name.into_string().expect("it is UTF-8"))
            .collect();
        names.sort();
        names
    }

    /// Lets a shell do this in the folder, where `$0` is the repository. What this process writes itself, another thread's child may hold open
    /// when it is to be run.
    pub fn change(&self, script: &str) {
        let mut bash = Command::new("bash");
        bash.args(["-euc", script]).arg(repository());
        let done = bash.current_dir(&self.0).status();
        assert!(done.expect("bash is there").success(), "{script}");
    }

    /// Runs the program in this folder with nothing on its standard input.
    pub fn finder<A: AsRef<OsStr>>(&self, arguments: &[A]) -> Ran {
        finder_in(&self.0, arguments, b"")
    }
}

impl Drop for Folder {
    fn drop(&mut self) {
        fs::remove_dir_all(&self.0).expect("the folder can be removed");
    }
}

#[derive(Debug)]
pub struct Ran {
    pub status: i32,
    pub out: Vec<u8>,
    pub err: String,
}

impl Ran {
    pub fn of(output: Output) -> Self {
        Ran {
            status: output.status.code().expect("no signal ends it"),
            out: output.stdout,
            err: String::from_utf8(output.stderr).expect("messages are UTF-8"),
        }
    }

    /// Its standard output, where it went well and said nothing.
    pub fn done(self) -> Vec<u8> {
        assert_eq!((self.status, &*self.err), (0, ""));
        self.out
    }

    pub fn text(self) -> String {
        String::from_utf8(self.done()).expect("the output is UTF-8")
    }

    /// Sees that it failed with this status and message, and wrote nothing.
    pub fn fails(self, status: i32, err: &str) {
        assert_eq!(
            (&*self.err, self.status, &*self.out),
            (err, status, &b""[..])
        );
    }
}

pub fn repository() -> &'static Path {
    Path::new(concat!(env!("CARGO_MANIFEST_DIR"), "/.."))
}

pub fn command() -> Command {
    Command::new(env!("CARGO_BIN_EXE_finder"))
}

/// Runs the program with these bytes on its standard input.
pub fn finder<A: AsRef<OsStr>>(arguments: &[A], input: &[u8]) -> Ran {
    finder_in(repository(), arguments, input)
}

fn finder_in<A: AsRef<OsStr>>(folder: &Path, arguments: &[A], input: &[u8]) -> Ran {
    let mut command = command();
    command.args(arguments).current_dir(folder);
    feed(&mut command, &[input])
}

/// Runs a program with these parts on its standard input, and a pause between them.
pub fn feed(command: &mut Command, parts: &[&[u8]]) -> Ran {
    const PAUSE: Duration = Duration::from_millis(50);
    command
        .stdin(Stdio::piped())
        .stdout(Stdio::piped())
        .stderr(Stdio::piped());
    let mut child = command.spawn().expect("the program starts");
    let mut stdin = child.stdin.take().expect("it has a standard input");
    for (place, part) in parts.iter().enumerate() {
        if place > 0 {
            thread::sleep(PAUSE);
        }
        // A program that ends before it has read all closes the pipe.
        let _ = stdin.write_all(part);
    }
    drop(stdin);
    Ran::of(child.wait_with_output().expect("the program ends"))
}
