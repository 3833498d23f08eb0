//! Which files are taken, and what is said of those that are not.

use crate::process::{command, finder, Folder};
use std::fs::File;
use std::process::Stdio;

const TEXT: &str = "precision 1e-9\nallowance 20\narc 0.1 0.2 0.35 0.25\nend\n";

#[test]
fn bytes_and_texts_are_told_apart() {
    let folder = Folder::new();
    folder.write("text", TEXT);
    let job = folder.finder(&["write", "text"]).done();
    folder.write("job", &job);
    for subcommand in ["show", "run", "list"] {
        let of_text = folder.finder(&[subcommand, "text"]).done();
        assert!(!of_text.is_empty());
        assert_eq!(of_text, folder.finder(&[subcommand, "job"]).done());
        assert_eq!(
            of_text,
            folder.finder(&[subcommand, "--text", "text"]).done()
        );
        assert_eq!(of_text, folder.finder(&[subcommand, "job", "--job"]).done());
        assert_eq!(of_text, finder(&[subcommand], &job).done());
        assert_eq!(of_text, finder(&[subcommand, "-"], TEXT.as_bytes()).done());
    }
    // Either sign alone makes a job file: a byte 00 in what is UTF-8, and what is no UTF-8 without a byte 00.
    assert_eq!(
        finder(&["show"], b"\x02\x14\0").text(),
        "allowance 20\nend\n"
    );
    let refused = finder(&["show"], b"\x02\xFF").err;
    assert!(
        refused.starts_with("finder: standard input: refused under 3 at place 2: "),
        "{refused}"
    );
    let message =
        "finder: job: holds a byte 00, as a job file does; `finder show` makes a text from one\n";
    folder.finder(&["write", "job"]).fails(1, message);
    folder
        .finder(&["run", "--text", "--job", "text"])
        .fails(2, "finder: --text and --job exclude each other\n");
}

/// What is said of a text that is taken for a job file.
#[test]
fn texts_taken_for_job_files() {
    const REFUSED: &str = "refused under 2 at place 0: a command byte isn't in the table;";
    let folder = Folder::new();
    folder.write("text", TEXT);
    let message = format!("finder: text: {REFUSED} byte 0x70 stands there, after 0 commands (without --job it is taken for a text)\n");
    folder.finder(&["run", "--job", "text"]).fails(1, &message);
    folder.write("latin", b"# caf\xE9\nend\n");
    let message = format!("finder: latin: {REFUSED} byte 0x23 stands there, after 0 commands (a text would have to be UTF-8, without a byte 00)\n");
    folder.finder(&["run", "latin"]).fails(1, &message);
    folder.finder(&["run", "--text", "latin"]).fails(
        1,
        "finder: latin:1: a byte isn't UTF-8, in which texts are written\n",
    );
    for (mark, bytes) in [
        ("FF", u16::to_le_bytes as fn(u16) -> [u8; 2]),
        ("FE", u16::to_be_bytes),
    ] {
        let units = format!("\u{FEFF}{TEXT}")
            .encode_utf16()
            .flat_map(bytes)
            .collect::<Vec<u8>>();
        folder.write("utf_16", units);
        let message = format!("finder: utf_16: {REFUSED} byte 0x{mark} stands there, after 0 commands (a text in UTF-16 begins so; texts are UTF-8)\n");
        folder.finder(&["list", "utf_16"]).fails(1, &message);
        folder
            .finder(&["write", "utf_16"])
            .fails(1, "finder: utf_16: is a text in UTF-16; texts are UTF-8\n");
    }
}

/// Under each number, with what stands at the place.
#[test]
fn refused_job_files() {
    let table: [(&[u8], &str); 9] = [
        (b"", "1 at place 0: the file has no byte or more than 16,384; it has 0 bytes"),
        (&[0; 16_385], "1 at place 0: the file has no byte or more than 16,384; it has 16385 bytes"),
        (b"\xF0", "2 at place 0: a command byte isn't in the table; byte 0xF0 stands there, after 0 commands"),
        (b"\x02\x00\x08\x00", "2 at place 2: a command byte isn't in the table; byte 0x08 stands there, after 1 command"),
        (
            b"\x02\x14\x03\x00",
            "3 at place 2: operands are cut short or code 00 is missing; `arc` stands there and takes 32 operand bytes; the file ends after 1",
        ),
        (
            b"\x07\x00",
            "3 at place 0: operands are cut short or code 00 is missing; `two-arcs` stands there and takes 64 operand bytes; the file ends after 1",
        ),
        (
            b"\x02\x14\x02\x00",
            "3 at place 4: operands are cut short or code 00 is missing; the file ends there without code 00, after 2 commands",
        ),
        (b"\x00\x00", "4 at place 1: bytes follow code 00; `end` stands before, with 1 byte after it"),
        (b"\x02\x14\x00abc", "4 at place 3: bytes follow code 00; `end` stands before, with 3 bytes after it"),
    ];
    let folder = Folder::new();
    for (job, message) in table {
        folder.write("job", job);
        for subcommand in ["show", "run", "list"] {
            let message = format!("finder: job: refused under {message}\n");
            folder
                .finder(&[subcommand, "--job", "job"])
                .fails(1, &message);
        }
    }
}

#[test]
fn files_that_can_not_be_read() {
    let folder = Folder::new();
    for subcommand in ["write", "show", "run", "list"] {
        folder
            .finder(&[subcommand, "none"])
            .fails(1, "finder: none: there is no such file or folder\n");
        folder
            .finder(&[subcommand, "."])
            .fails(1, "finder: .: is a folder; a file is needed\n");
        let missing = "finder: standard input:1: `end` is missing; it comes last\n";
        finder(&[subcommand], b"").fails(1, missing);
    }
}

#[test]
fn huge_files() {
    let folder = Folder::new();
    let huge = File::create(folder.path("huge")).expect("it can be made");
    huge.set_len(20 << 20).expect("it can have holes");
    for subcommand in ["write", "show", "run", "list"] {
        let message = "finder: huge: has more than 16 MiB, too much for a job or its text\n";
        folder.finder(&[subcommand, "huge"]).fails(1, message);
    }
    // Endless: it is not read to its end.
    let zeros = File::open("/dev/zero").expect("it is there");
    let output = command()
        .arg("run")
        .stdin(Stdio::from(zeros))
        .output()
        .expect("the program starts");
    let message = String::from_utf8_lossy(&output.stderr).into_owned();
    assert_eq!(
        message,
        "finder: standard input: has more than 16 MiB, too much for a job or its text\n"
    );
    assert_eq!(output.status.code(), Some(1));
    // A long text that makes a short job is taken.
    let long = format!("{}end\n", "# a line of comment\n".repeat(500_000));
    folder.write("long", long);
    assert_eq!(folder.finder(&["write", "long"]).done(), [0]);
}

/// The good ones are listed, in every format, and the bad ones named.
#[test]
fn several_files_with_bad_ones() {
    let folder = Folder::new();
    folder.write("one", "allowance 1\nend\n");
    folder.write("bad", "allowance 1000\nend\n");
    folder.write(
        "two \"2\", and, more",
        "precision bits:7FF0000000000000\nend\n",
    );
    let wrong = "finder: bad:1: N: `1000` is wrong; a whole number from 0 to 255 is expected\n";
    let missing = "finder: none: there is no such file or folder\n";
    let files = ["bad", "one", "none", "two \"2\", and, more"];
    let list = |format: &str| {
        let ran = folder.finder(&[&["list", "--format", format][..], &files].concat());
        assert_eq!((ran.status, ran.err), (1, format!("{wrong}{missing}")));
        String::from_utf8(ran.out).expect("it is UTF-8")
    };
    let words = "one:\n   1  allowance 1\n          set\n\n\
                 two \"2\", and, more:\n   1  precision bits:7FF0000000000000\n          refused, status 7: a float isn't finite\n";
    assert_eq!(list("words"), words);
    let csv = list("csv");
    let rows: Vec<&str> = csv.lines().skip(1).collect();
    let expected = [
        "one,1,0,2,allowance,,1,,,,,,,,,,,,,,,0,,,,,,,,,",
        "\"two \"\"2\"\", and, more\",1,0,1,precision,bits:7FF0000000000000,,,,,,,,,,,,,,,,7,a float isn't finite,,,,,,,,",
    ];
    assert_eq!(rows, expected);
    let json = list("json");
    let starts = [
        "[",
        "{\"file\": \"one\", \"command\": 1,",
        "{\"file\": \"two \\\"2\\\", and, more\", \"command\": 1,",
        "]",
    ];
    let ends = ["[", "\"height\": null},", "\"height\": null}", "]"];
    assert_eq!(json.lines().count(), starts.len());
    for (line, (start, end)) in json.lines().zip(starts.into_iter().zip(ends)) {
        assert!(line.starts_with(start) && line.ends_with(end), "{line}");
    }
    assert!(json.contains("\"precision\": \"bits:7FF0000000000000\""));
}

/// A message is one line, and so is a header; csv and json quote the name as it is.
#[test]
fn names_with_control_characters() {
    let folder = Folder::new();
    let name = "é\n\"b\\\u{1b}[31m\t\u{1}\u{9f}'";
    let line = "é\\n\"b\\\\u{1b}[31m\\t\\u{1}\\u{9f}'";
    let missing = format!("finder: {line}: there is no such file or folder\n");
    folder.finder(&["list", name]).fails(1, &missing);
    folder.write(name, "allowance 1\nend\n");
    let message = format!(
        "finder: `{line}` is a file, not a subcommand; `finder list {line}` lists its replies, and `finder help` names what else can be done\n"
    );
    folder.finder(&[name]).fails(2, &message);
    let list = |format| {
        let arguments = ["list", "--format", format, name, name];
        folder.finder(&arguments).text()
    };
    let words = format!("{line}:\n   1  allowance 1\n          set\n");
    assert_eq!(list("words"), format!("{words}\n{words}"));
    let row = format!("\n\"{}\",1,0,2,", name.replace('"', "\"\""));
    assert_eq!(list("csv").matches(&row).count(), 2);
    let row =
        "\n{\"file\": \"é\\u000a\\\"b\\\\\\u001b[31m\\u0009\\u0001\u{9f}'\", \"command\": 1, ";
    assert_eq!(list("json").matches(row).count(), 2);
    folder.write("a\rb", "allowance 1\nend\n");
    let csv = folder.finder(&["list", "--format", "csv", "a\rb"]).text();
    assert!(csv.contains("\n\"a\rb\",1,0,2,"), "{csv}");
}

/// What the angles are in is said once, above the first listing, and not where there is none.
#[test]
fn degrees_are_said_with_a_listing() {
    let folder = Folder::new();
    folder.write("one", "allowance 1\nend\n");
    let missing = "finder: none: there is no such file or folder\n";
    folder
        .finder(&["list", "--degrees", "none"])
        .fails(1, missing);
    let ran = folder.finder(&["list", "--degrees", "none", "one", "one"]);
    assert_eq!((ran.status, &*ran.err), (1, missing));
    let listing = "one:\n   1  allowance 1\n          set\n";
    assert_eq!(
        String::from_utf8_lossy(&ran.out),
        format!("angles in degrees\n{listing}\n{listing}")
    );
}

/// Where nothing is listed the tables are there all the same, without rows.
#[test]
fn empty_tables() {
    let folder = Folder::new();
    folder.write("empty", "end\n");
    assert_eq!(folder.finder(&["list", "empty"]).text(), "");
    assert_eq!(
        folder
            .finder(&["list", "--format=json", "empty", "empty"])
            .text(),
        "[\n]\n"
    );
    assert_eq!(
        folder
            .finder(&["list", "--format=csv", "empty"])
            .text()
            .lines()
            .count(),
        1
    );
    let ran = folder.finder(&["list", "--format", "json", "none", "none"]);
    assert_eq!((ran.status, &*ran.out), (1, &b"[\n]\n"[..]));
}

#[test]
fn many_arcs_and_many_files() {
    let folder = Folder::new();
    let arcs = "arc 2.3275 0.5101 2.0596 0.7856\n".repeat(480);
    folder.write("arcs", format!("precision 0\nallowance 255\n{arcs}end\n"));
    let listed = folder.finder(&["list", "arcs"]).text();
    assert_eq!(listed.lines().count(), 2 * 2 + 480 * 3);
    let names: Vec<String> = (0..1_000).map(|number| format!("job{number}")).collect();
    for name in &names {
        folder.write(name, TEXT);
    }
    let arguments: Vec<&str> = ["list"]
        .into_iter()
        .chain(names.iter().map(String::as_str))
        .collect();
    let listed = folder.finder(&arguments).text();
    let headers: Vec<&str> = listed
        .lines()
        .filter_map(|line| line.strip_suffix(':'))
        .collect();
    assert_eq!(headers, names);
}
