//! Every command pattern: the proved program `patterns`, and the subcommand that runs it.

use crate::process::{command, feed, finder, repository, Folder, Ran};
use host::patterns::listing;
use std::ffi::OsStr;
use std::fs::{self, File};
use std::os::unix::ffi::OsStrExt;
use std::process::{Command, Stdio};

const WRONG: &[u8] = b"11\n";
const WHY: &str = "is no number of commands; one digit from 1 to 5 is\n";

/// The ten inputs that are taken, each with its number of commands.
fn good() -> impl Iterator<Item = (String, usize)> {
    (1..=5).flat_map(|n| [(n.to_string(), n), (format!("{n}\n"), n)])
}

/// Others, without a byte 00, which no argument can hold.
fn bad<'a>() -> impl Iterator<Item = &'a [u8]> {
    let ascii: [&[u8]; 41] = [
        b"", b"0", b"6", b"7", b"8", b"9", b"/", b":", b" 1", b"1 ", b"\t1", b"1\t", b"11", b"12",
        b"01", b"10", b"1.", b".1", b"+1", b"-1", b"1-", b"\n", b"\n1", b"1\n\n", b"1\n1", b"1\n ",
        b"1\r", b"1\r\n", b"\r1", b"5\n5", b"5\n5\n", b"6\n", b"0\n", b"a", b"A", b"one", b"0x1",
        b"1e0", b"\xFF", b"1\xFF", b"\xB1",
    ];
    let others = ["\u{663}", "\u{FF11}", "\u{FEFF}1"].map(str::as_bytes);
    ascii.into_iter().chain(others)
}

/// What the proved program prints with these parts on its standard input.
fn patterns(parts: &[&[u8]]) -> Vec<u8> {
    let program = repository().join("crates/patterns/out/patterns");
    feed(&mut Command::new(program), parts).done()
}

fn assert_lists(printed: &[u8], n: usize) {
    assert!(printed == listing(n).as_bytes(), "the listing for {n}");
}

#[test]
fn each_number_is_listed() {
    for (input, n) in good() {
        assert_lists(&patterns(&[input.as_bytes()]), n);
    }
}

/// Each line is a pattern and greater than the line before, and there are as many lines as patterns.
#[test]
fn each_pattern_once() {
    const CODES: [&str; 6] = ["01", "02", "03", "04", "05", "06"];
    let printed = String::from_utf8(patterns(&[b"5"])).expect("it is ASCII");
    let lines: Vec<&str> = printed.split_terminator('\n').collect();
    assert_eq!((lines.len(), printed.len()), (9_330, 162_360));
    for line in &lines {
        let commands = line.strip_suffix(" 00").expect("00 comes last");
        let codes: Vec<&str> = commands.split(' ').collect();
        let known = codes.iter().all(|code| CODES.contains(code));
        assert!(known && codes.len() <= 5, "{line}");
    }
    let order = |line: &str| (line.len(), line.to_string());
    let ascend = |pair: &[&str]| order(pair[0]) < order(pair[1]);
    assert!(lines.windows(2).all(ascend));
}

#[test]
fn all_else_is_wrong() {
    let digits = b"1".repeat(1 << 20);
    let line_feeds = [b"1", &b"\n".repeat(1 << 20)[..]].concat();
    let zeros = [b"1\n", &[0; 1 << 20][..]].concat();
    let with_zeros: [&[u8]; 5] = [b"\0", b"1\0", b"\x001", b"5\n\0", b"1\0\n"];
    let long: [&[u8]; 3] = [&digits, &line_feeds, &zeros];
    for input in bad().chain(with_zeros).chain(long) {
        let shown = String::from_utf8_lossy(&input[..input.len().min(9)]);
        assert_eq!(patterns(&[input]), WRONG, "{shown:?}");
    }
}

/// All of standard input counts, also what comes late.
#[test]
fn inputs_in_parts() {
    let good: [(&[&[u8]], usize); 5] = [
        (&[b"3", b"\n", b""], 3),
        (&[b"2", b""], 2),
        (&[b"", b"4"], 4),
        (&[b"", b"1", b"\n"], 1),
        (&[b"5\n", b""], 5),
    ];
    for (parts, n) in good {
        assert_lists(&patterns(parts), n);
    }
    let bad: [&[&[u8]]; 7] = [
        &[b"1", b"1"],
        &[b"1\n", b"\n"],
        &[b"1", b"\n", b"\n"],
        &[b"1", b"\n", b"1"],
        &[b"2", b"\0"],
        &[b"", b"\n", b"2"],
        &[b"", b""],
    ];
    for parts in bad {
        assert_eq!(patterns(parts), WRONG, "{parts:?}");
    }
}

/// What `rt ci` runs it on.
#[test]
fn the_stored_run() {
    let stored = |name: &str| fs::read(repository().join("crates/patterns").join(name));
    assert_eq!(stored("stdin").expect("it is there"), b"1\n");
    assert_lists(&stored("stdout").expect("it is there"), 1);
}

#[test]
fn the_subcommand_lists_too() {
    for (input, n) in good() {
        assert_lists(&finder(&["patterns", &input], b"7").done(), n);
        assert_lists(&finder(&["patterns"], input.as_bytes()).done(), n);
        assert_lists(&finder(&["patterns", "-"], input.as_bytes()).done(), n);
    }
    assert_lists(&finder(&["patterns", "--", "1"], b"").done(), 1);
    assert_lists(&feed(command().arg("patterns"), &[b"3", b"\n"]).done(), 3);
}

/// Sees that a number is answered with 11 and with this message.
fn assert_wrong(ran: Ran, message: &str) {
    assert_eq!((&*ran.err, ran.status, &*ran.out), (message, 1, WRONG));
}

#[test]
fn the_subcommand_says_why() {
    for input in bad() {
        let ran = finder(&[OsStr::new("patterns"), OsStr::from_bytes(input)], b"1");
        let message = ran.err.clone();
        assert!(message.starts_with("finder: `") && message.ends_with(WHY));
        assert_wrong(ran, &message);
        let message = format!("finder: standard input {WHY}");
        assert_wrong(finder(&["patterns"], input), &message);
    }
    let long = "1".repeat(100_000);
    let shown = format!("{}…", &long[..40]);
    for (number, shown) in [
        ("7", "7"),
        ("", ""),
        ("-1", "-1"),
        ("1\n\n", "1\\n\\n"),
        (&long, &shown),
    ] {
        let message = format!("finder: `{shown}` {WHY}");
        assert_wrong(finder(&["patterns", number], b""), &message);
    }
}

#[test]
fn a_file_for_the_listing() {
    let folder = Folder::new();
    let kept = "finder: out: is there already and is kept; --force replaces it\n";
    let wrong = format!("finder: `6` {WHY}");
    let out = || fs::read(folder.path("out")).expect("it is there");
    assert_wrong(folder.finder(&["patterns", "6", "-o", "out"]), &wrong);
    assert!(folder.names().is_empty());
    assert_eq!(folder.finder(&["patterns", "2", "-o", "out"]).done(), b"");
    assert_lists(&out(), 2);
    folder
        .finder(&["patterns", "3", "-o", "out"])
        .fails(1, kept);
    let forced = |n| folder.finder(&["patterns", n, "--output=out", "--force"]);
    assert_wrong(forced("6"), &wrong);
    assert_lists(&out(), 2);
    assert_eq!(forced("3").done(), b"");
    assert_lists(&out(), 3);
    assert_eq!(folder.names(), ["out"]);
}

/// Where 11 can't be written, the number is wrong all the same.
#[test]
fn a_wrong_number_with_nobody_to_read() {
    let mut reader = Command::new("true")
        .stdin(Stdio::piped())
        .spawn()
        .expect("it starts");
    let closed = reader.stdin.take().expect("it is a pipe");
    reader.wait().expect("it ends");
    let full = File::options().write(true).open("/dev/full");
    let said_of_full = "finder: standard output: No space left on device\n";
    for (stdout, more) in [
        (Stdio::from(closed), ""),
        (Stdio::from(full.expect("it is there")), said_of_full),
    ] {
        let mut command = command();
        let output = command.args(["patterns", "7"]).stdout(stdout).output();
        let message = format!("finder: `7` {WHY}{more}");
        Ran::of(output.expect("the program starts")).fails(1, &message);
    }
}

/// A folder laid out as the repository, with a copy of the program.
fn laid_out() -> Folder {
    let folder = Folder::new();
    let program = command().get_program().to_string_lossy().into_owned();
    folder.change(&format!(
        "mkdir -p host/target/release crates/patterns/out; cp '{program}' host/target/release"
    ));
    folder
}

/// A line for the shell that puts a script in the proved program's place.
fn stand_in(script: &str) -> String {
    format!(
        "printf '%s\\n' '#!/bin/sh' '{script}' > crates/patterns/out/patterns; chmod +x crates/patterns/out/patterns"
    )
}

/// Runs the copy with the number, as its argument and on its standard input.
fn ask_both_ways(folder: &Folder, number: &str) -> [Ran; 2] {
    [&["patterns", number][..], &["patterns"]].map(|arguments| {
        let mut command = Command::new(folder.path("host/target/release/finder"));
        feed(command.args(arguments), &[number.as_bytes()])
    })
}

#[test]
fn the_bytes_are_passed_on() {
    let folder = laid_out();
    folder.change(&stand_in("cat"));
    for number in ["1", " 2\n\n", "é"] {
        for ran in ask_both_ways(&folder, number) {
            assert_eq!(ran.text(), number);
        }
    }
}

/// Wherever the program is, it takes no other for the proved one.
#[test]
fn out_of_its_place() {
    let folder = laid_out();
    folder.change(&stand_in("cat"));
    let message = "finder: this program is not in its place, host/target/release of the repository; `./finder` puts it there\n";
    for place in [".", "a/b/c"] {
        folder.change(&format!(
            "mkdir -p {place}; cp host/target/release/finder {place}"
        ));
        let program = folder.path(place).join("finder");
        feed(Command::new(program).args(["patterns", "1"]), &[]).fails(1, message);
    }
}

#[test]
fn the_proved_program_fails() {
    let folder = laid_out();
    let root = folder.path("").canonicalize().expect("it is there");
    let proved = root.join("crates/patterns/out/patterns").display().to_string();
    for (change, why) in [
        ("true", "there is no such file or folder"),
        ("touch crates/patterns/out/patterns", "permission is denied"),
        (&stand_in("exit 3"), "has failed (exit status: 3)"),
        (
            &stand_in("echo 11; kill -9 $$"),
            "has failed (signal: 9 (SIGKILL))",
        ),
    ] {
        folder.change(change);
        let message =
            format!("finder: {proved}: {why}; `./finder patterns` makes it where it is missing\n");
        for ran in ask_both_ways(&folder, "1") {
            ran.fails(1, &message);
        }
    }
}
