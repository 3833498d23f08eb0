//! Help, versions and wrong usage.

use crate::process::{command, finder, repository};
use std::fs;
use std::io::Write;
use std::process::{Command, Stdio};

const SUBCOMMANDS: [&str; 6] = ["write", "show", "run", "list", "depends", "patterns"];
const ALL: &str = "there are help, write, show, run, list, depends, patterns";

/// A page of help, from its place among the program's sources.
fn page(name: &str) -> String {
    let path = repository().join(format!("host/src/program/{name}.txt"));
    fs::read_to_string(path).expect("the page is there")
}

#[test]
fn help() {
    let overview = page("help");
    for asked in ["help", "--help", "-h"] {
        assert_eq!(finder(&[asked], b"").text(), overview);
        for of_help in ["help", "--help", "-h"] {
            assert_eq!(finder(&[asked, of_help], b"").text(), overview);
        }
    }
    for name in SUBCOMMANDS {
        let page = page(&format!("help/{name}"));
        assert!(page.starts_with(&format!("finder {name} ")));
        let lines = overview
            .lines()
            .filter(|line| line.starts_with(&format!("  finder {name}  ")));
        assert_eq!(lines.count(), 1, "{name}");
        for arguments in [
            ["help", name],
            ["--help", name],
            [name, "--help"],
            [name, "-h"],
        ] {
            assert_eq!(finder(&arguments, b"").text(), page);
        }
    }
    finder::<&str>(&[], b"").fails(2, &overview);
}

/// Each option that a page names is taken, and each that is taken is named.
#[test]
fn pages_name_all_options() {
    for name in SUBCOMMANDS {
        let ran = finder(&[name, "--no-such-option"], b"");
        let (_, options) = ran
            .err
            .trim_end()
            .split_once("there are ")
            .expect("it names them");
        let page = page(&format!("help/{name}"));
        let words = page.split([' ', ',', '\n', '[', ']', '`', ';', '=']);
        let mut named: Vec<&str> = words
            .filter(|word| word.len() > 1 && word.starts_with('-'))
            .collect();
        named.sort();
        named.dedup();
        let mut options: Vec<&str> = options.split(", ").collect();
        options.sort();
        assert_eq!(named, options, "{name}");
    }
}

#[test]
fn version() {
    let said = finder(&["--version"], b"").text();
    assert_eq!(said, finder(&["-V"], b"").text());
    let lines: Vec<&str> = said.lines().collect();
    assert_eq!(
        lines[0],
        concat!("finder ", env!("CARGO_PKG_VERSION"), " (Rennaglyph)")
    );
    assert!(lines.len() == 2 && lines[1].starts_with("kit: "), "{said}");
}

#[test]
fn wrong_usage() {
    let table: [(&[&str], String); 29] = [
        (&["lst"], format!("there is no subcommand `lst` (did you mean `list`?); {ALL}")),
        (&["--list", "x"], format!("there is no subcommand `--list` (did you mean `list`?); {ALL}")),
        (&["compare"], format!("there is no subcommand `compare`; {ALL}")),
        (&[""], format!("there is no subcommand ``; {ALL}")),
        (&["help", "me"], format!("there is no subcommand `me`; {ALL}")),
        (&["help", "list", "run"], "help takes one subcommand".into()),
        (&["--version", "list"], "--version stands alone".into()),
        (
            &["README.md"],
            "`README.md` is a file, not a subcommand; `finder list README.md` lists its replies, and `finder help` names what else can be done".into(),
        ),
        (
            &["write", "--job"],
            "there is no option of write `--job`; there are -o, --output, --force, -h, --help".into(),
        ),
        (
            &["run", "-ofile"],
            "there is no option of run `-ofile`; there are --text, --job, -o, --output, --force, -h, --help".into(),
        ),
        (
            &["list", "--formt", "csv"],
            "there is no option of list `--formt` (did you mean `--format`?); there are --format, --degrees, --text, --job, -o, --output, --force, -h, --help".into(),
        ),
        (&["run", "-o"], "-o needs a value: -o FILE".into()),
        (&["run", "-o", "a", "--output", "b"], "--output is given twice".into()),
        (&["run", "--force=yes"], "--force takes no value".into()),
        (&["run", "a", "b"], "run takes at most 1 file, and 2 are given".into()),
        (&["show", "a", "--", "b", "--text"], "show takes at most 1 file, and 3 are given".into()),
        (&["list", "--format", "xml"], "`xml` is no format; words, csv and json are".into()),
        (
            &["list", "--format=csv", "--degrees"],
            "--degrees is for words alone; csv and json are in radians, so that each number gives back its bits".into(),
        ),
        (&["list", "", "README.md"], "the name of a file is empty".into()),
        (&["run", "-o", ""], "the name of a file is empty".into()),
        (&["depends", "a", "b", "--allowance", "3"], "--allowance is for one file, which is compared with itself".into()),
        (&["depends", "a", "--allowance=256"], "`256` is no allowance; a whole number from 0 to 255 is".into()),
        (&["depends", "a", "--format", "csv"], "`csv` is no format of depends; words and markdown are".into()),
        (&["depends", "a", "b", "c"], "depends takes at most 2 files, and 3 are given".into()),
        (&["list", "-", "-"], "standard input can be read only once".into()),
        (&["pattern", "3"], format!("there is no subcommand `pattern` (did you mean `patterns`?); {ALL}")),
        (&["patterns", "1", ""], "patterns takes at most 1 number, and 2 are given".into()),
        (&["patterns", "1", "-o", ""], "the name of a file is empty".into()),
        (
            &["patterns", "--text", "1"],
            "there is no option of patterns `--text`; there are -o, --output, --force, -h, --help".into(),
        ),
    ];
    for (arguments, message) in table {
        finder(arguments, b"end\n").fails(2, &format!("finder: {message}\n"));
    }
}

#[test]
fn options_stand_anywhere() {
    let example = "examples/field_of_view.txt";
    let csv = finder(&["list", "--format", "csv", example], b"").text();
    for arguments in [
        &["list", example, "--format=csv"][..],
        &["list", "--format=csv", "--", example],
        &["list", "--text", example, "--format", "csv"],
    ] {
        assert_eq!(finder(arguments, b"").text(), csv);
    }
    finder(&["list", "--", "--format"], b"")
        .fails(1, "finder: --format: there is no such file or folder\n");
    // No option begins with a digit.
    finder(&["list", "-1"], b"").fails(1, "finder: -1: there is no such file or folder\n");
}

/// Runs the program with these arguments in a terminal, where this is typed. Answers its exit status, and what the terminal shows.
fn in_a_terminal(arguments: &str, typed: &[u8]) -> (Option<i32>, String) {
    let program = command().get_program().to_string_lossy().into_owned();
    let line = format!("{program} {arguments}");
    let mut script = Command::new("script");
    script
        .args(["-qec", &line, "/dev/null"])
        .current_dir(repository())
        .stdin(Stdio::piped())
        .stdout(Stdio::piped());
    let mut child = script.spawn().expect("script is there");
    let mut stdin = child.stdin.take().expect("it has a standard input");
    // A program that reads nothing may have ended.
    let _ = stdin.write_all(typed);
    drop(stdin);
    let output = child.wait_with_output().expect("script ends");
    let shown = String::from_utf8_lossy(&output.stdout).into_owned();
    (output.status.code(), shown)
}

/// What is typed stands there too, before or after the message. At the end of its input `script` types ctrl-D.
#[test]
fn reading_from_a_terminal() {
    for (subcommand, typed, end) in [
        (
            "list",
            "allowance 1\nend\n",
            "   1  allowance 1\r\n          set\r\n",
        ),
        ("patterns", "1\n", "05 00\r\n06 00\r\n"),
    ] {
        let (status, shown) = in_a_terminal(subcommand, typed.as_bytes());
        let told = "finder: reading from the terminal; end with ctrl-D";
        let said = shown.lines().any(|line| line == told);
        assert!(status == Some(0) && said && shown.ends_with(end), "{shown}");
    }
}

#[test]
fn no_bytes_for_a_terminal() {
    for (subcommand, status, said) in [
        (
            "run",
            2,
            "finder: run doesn't send bytes to a terminal; give a file for them with `-o FILE`",
        ),
        (
            "write",
            2,
            "finder: write doesn't send bytes to a terminal; give a file for them with `-o FILE`",
        ),
        ("show", 0, "precision 1e-9"),
    ] {
        let arguments = format!("{subcommand} examples/field_of_view.txt");
        let (ended, shown) = in_a_terminal(&arguments, b"");
        assert_eq!((ended, shown.lines().next()), (Some(status), Some(said)));
    }
}
