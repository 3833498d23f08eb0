//! Where the output goes: nothing is half-written, and what is there is kept.

use crate::process::{command, Folder};
use std::fs::{self, File};
use std::io::Read;
use std::os::unix::fs::{symlink, PermissionsExt};
use std::path::Path;
use std::process::Stdio;

const TEXT: &str = "precision 1e-9\nallowance 20\narc 0.1 0.2 0.35 0.25\nend\n";
/// Those that take a file.
const SUBCOMMANDS: [&str; 5] = ["write", "show", "run", "list", "depends"];
const KEPT: &str = "is there already and is kept; --force replaces it";

#[test]
fn a_file_is_put_in_place() {
    let folder = Folder::new();
    folder.write("text", TEXT);
    for subcommand in SUBCOMMANDS {
        let expected = folder.finder(&[subcommand, "text"]).done();
        let out = format!("out of {subcommand}");
        assert_eq!(folder.finder(&[subcommand, "text", "-o", &out]).done(), b"");
        assert_eq!(fs::read(folder.path(&out)).expect("it is there"), expected);
    }
    assert_eq!(folder.finder(&["show", "-o", "-", "text"]).text(), TEXT);
    let outs = ["depends", "list", "run", "show", "write"].map(|name| format!("out of {name}"));
    assert_eq!(folder.names(), [&outs[..], &["text".to_string()]].concat());
}

#[test]
fn a_file_is_kept_unless_forced() {
    let folder = Folder::new();
    folder.write("text", TEXT);
    folder.write("out", "old");
    fs::set_permissions(folder.path("out"), fs::Permissions::from_mode(0o640))
        .expect("it can be changed");
    for subcommand in SUBCOMMANDS {
        // Told before the input is read.
        for input in ["text", "none"] {
            folder
                .finder(&[subcommand, input, "-o", "out"])
                .fails(1, &format!("finder: out: {KEPT}\n"));
        }
        folder
            .finder(&[subcommand, "none", "-o", "out", "--force"])
            .fails(1, "finder: none: there is no such file or folder\n");
        assert_eq!(fs::read(folder.path("out")).expect("it is there"), b"old");
    }
    folder
        .finder(&["show", "text", "--output=out", "--force"])
        .done();
    assert_eq!(
        fs::read_to_string(folder.path("out")).expect("it is there"),
        TEXT
    );
    let mode = fs::metadata(folder.path("out"))
        .expect("it is there")
        .permissions()
        .mode();
    assert_eq!(mode & 0o777, 0o640);
    // The input itself.
    folder
        .finder(&["write", "text", "-o", "text", "--force"])
        .done();
    assert_eq!(folder.finder(&["show", "text"]).text(), TEXT);
    assert_eq!(folder.names(), ["out", "text"]);
}

#[test]
fn links_are_followed() {
    let folder = Folder::new();
    folder.write("text", TEXT);
    fs::create_dir(folder.path("inner")).expect("it can be made");
    symlink("inner/real", folder.path("link")).expect("it can be made");
    symlink("link", folder.path("link to link")).expect("it can be made");
    let real = || fs::read_to_string(folder.path("inner/real"));
    folder
        .finder(&["show", "text", "-o", "link to link"])
        .done();
    assert_eq!(real().expect("it is there"), TEXT);
    folder
        .finder(&["show", "text", "-o", "link"])
        .fails(1, &format!("finder: link: {KEPT}\n"));
    fs::write(folder.path("inner/real"), "old").expect("it can be written");
    folder
        .finder(&["show", "text", "-o", "link", "--force"])
        .done();
    assert_eq!(real().expect("it is there"), TEXT);
    assert!(fs::symlink_metadata(folder.path("link"))
        .expect("it is there")
        .is_symlink());
    symlink("circle", folder.path("circle")).expect("it can be made");
    for force in [&[][..], &["--force"]] {
        let ran = folder.finder(&[&["show", "text", "-o", "circle"][..], force].concat());
        assert_eq!((ran.status, &*ran.out), (1, &b""[..]));
        assert!(ran.err.starts_with("finder: circle: "), "{}", ran.err);
    }
    assert!(fs::symlink_metadata(folder.path("circle"))
        .expect("it is there")
        .is_symlink());
    assert_eq!(
        folder.names(),
        ["circle", "inner", "link", "link to link", "text"]
    );
}

#[test]
fn what_is_no_file_is_left() {
    let folder = Folder::new();
    folder.write("text", TEXT);
    for target in ["/dev/null", "/dev/full", "/dev/stdout", "."] {
        for force in [&[][..], &["--force"]] {
            let arguments = [&["run", "text", "-o", target][..], force].concat();
            let message = format!(
                "finder: {target}: is no regular file; leave -o out to write to standard output\n"
            );
            folder.finder(&arguments).fails(1, &message);
        }
    }
    folder
        .finder(&["run", "text", "-o", "none/out"])
        .fails(1, "finder: none/out: there is no such file or folder\n");
    assert_eq!(folder.names(), ["text"]);
}

#[test]
fn nothing_is_put_in_place_of_a_bad_input() {
    let folder = Folder::new();
    folder.write("text", TEXT);
    folder.write("bad", "arc\n");
    for subcommand in SUBCOMMANDS {
        assert_eq!(folder.finder(&[subcommand, "bad", "-o", "out"]).status, 1);
    }
    for subcommand in ["list", "depends"] {
        let arguments = [subcommand, "bad", "none", "-o", "out"];
        assert_eq!(folder.finder(&arguments).status, 1);
    }
    assert_eq!(folder.names(), ["bad", "text"]);
    // Of several the good ones are listed.
    let ran = folder.finder(&["list", "bad", "text", "-o", "out"]);
    assert_eq!((ran.status, &*ran.out), (1, &b""[..]));
    let out = fs::read_to_string(folder.path("out")).expect("it is there");
    assert!(out.starts_with("text:\n   1  precision 1e-9\n"), "{out}");
    assert_eq!(folder.names(), ["bad", "out", "text"]);
}

#[test]
fn a_full_disk() {
    let folder = Folder::new();
    let text = folder.write("text", TEXT);
    for arguments in [
        &["write"][..],
        &["show"],
        &["run"],
        &["list"],
        &["list", "--format", "json"],
        &["depends"],
        &["patterns", "1"],
        &["help"],
        &["--version"],
    ] {
        let full = File::options()
            .write(true)
            .open("/dev/full")
            .expect("it is there");
        let stdin = File::open(&text).expect("it is there");
        let output = command()
            .args(arguments)
            .stdin(stdin)
            .stdout(full)
            .output()
            .expect("the program starts");
        let message = String::from_utf8_lossy(&output.stderr).into_owned();
        assert_eq!(
            (&*message, output.status.code()),
            (
                "finder: standard output: No space left on device\n",
                Some(1)
            )
        );
    }
}

/// Nobody reads on: it ends quietly, with the status so far.
#[test]
fn a_closed_pipe() {
    let folder = Folder::new();
    let text = folder.write("text", format!("{}end\n", "allowance 1\n".repeat(8_000)));
    let bad = folder.write("bad", "arc\nend\n");
    let list_many = |first| [&[Path::new("list"), first][..], &[&*text; 200]].concat();
    for (arguments, status, message) in [
        (list_many(&text), 0, ""),
        (
            list_many(&bad),
            1,
            ": 0 operands given; the form is `arc LON1 LAT1 LON2 LAT2`\n",
        ),
        (vec![Path::new("patterns"), Path::new("5")], 0, ""),
    ] {
        let mut child = command()
            .args(arguments)
            .stdout(Stdio::piped())
            .stderr(Stdio::piped())
            .spawn()
            .expect("it starts");
        let mut stdout = child.stdout.take().expect("it has one");
        stdout.read_exact(&mut [0; 100]).expect("it writes");
        drop(stdout);
        let output = child.wait_with_output().expect("it ends");
        let said = String::from_utf8_lossy(&output.stderr).into_owned();
        assert_eq!(output.status.code(), Some(status));
        assert!(
            said.ends_with(message)
                && said.lines().count() <= 1
                && said.is_empty() == message.is_empty(),
            "{said}"
        );
    }
}
