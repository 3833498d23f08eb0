//! Wrong texts, and the message that each gets.

use crate::process::finder;

const NAMES: &str = "there are precision, allowance, arc, cone-in-equator, cone-in-cap, parallel, two-arcs, end, degrees, radians";
const NUMBER: &str = "is no number; a decimal such as 0.25 or bits: with 16 hex digits is expected";
const COMMA: &str = "the decimal mark is a point, and spaces separate operands";
const BITS: &str = "an infinity or a NaN is written as its bits, such as bits:7FF0000000000000";
const HEX: &str = "hasn't 16 hex digits after bits:, as bits:3FF0000000000000 has";
const BYTE: &str = "a whole number from 0 to 255 is expected";
const LAST: &str = "`end` is missing; it comes last";
const AFTER: &str = "comes after `end`, where only comments may stand";

/// The messages on standard error that a text gets, without the name of the input.
fn messages(text: &str) -> Vec<String> {
    let ran = finder(&["write"], text.as_bytes());
    assert_eq!((ran.status, &*ran.out), (1, &b""[..]), "{text:?}");
    let lines = ran
        .err
        .lines()
        .map(|line| line.strip_prefix("finder: standard input:"));
    lines
        .map(|line| line.expect("the input is named").to_string())
        .collect()
}

/// Each of these lines, with `end` after it.
#[test]
fn wrong_lines() {
    let table = [
        (
            "ark 1 2 3 4",
            format!("there is no command `ark` (did you mean `arc`?); {NAMES}"),
        ),
        (
            "Arc 1 2 3 4",
            format!("there is no command `Arc` (did you mean `arc`?); {NAMES}"),
        ),
        (
            "arc: 1 2 3 4",
            format!("there is no command `arc:` (did you mean `arc`?); {NAMES}"),
        ),
        (
            "preciison 1",
            format!("there is no command `preciison` (did you mean `precision`?); {NAMES}"),
        ),
        (
            "degree",
            format!("there is no command `degree` (did you mean `degrees`?); {NAMES}"),
        ),
        (
            "circle 1 2",
            format!("there is no command `circle`; {NAMES}"),
        ),
        (
            "polar-cone 1",
            format!("there is no command `polar-cone`; {NAMES}"),
        ),
        (
            "precision\u{A0}1",
            format!(
                "there is no command `precision\\u{{a0}}1` (did you mean `precision`?); {NAMES}"
            ),
        ),
        (
            "\u{1}\u{1B}[2J",
            format!(
                "there is no command `\\u{{1}}\\u{{1b}}[2J`; {NAMES} (a job file is shown by `finder show --job`)"
            ),
        ),
        (
            &"a".repeat(60),
            format!("there is no command `{}…`; {NAMES}", "a".repeat(40)),
        ),
        (
            "arc",
            "0 operands given; the form is `arc LON1 LAT1 LON2 LAT2`".into(),
        ),
        (
            "arc 1 2 3",
            "3 operands given; the form is `arc LON1 LAT1 LON2 LAT2`".into(),
        ),
        (
            "arc 1 2 3 4 5",
            "5 operands given; the form is `arc LON1 LAT1 LON2 LAT2`".into(),
        ),
        (
            "precision",
            "0 operands given; the form is `precision X`".into(),
        ),
        (
            "precision 1 allowance 2",
            "3 operands given; the form is `precision X`".into(),
        ),
        (
            "allowance",
            "0 operands given; the form is `allowance N`".into(),
        ),
        (
            "cone-in-equator 0.3 0.1 0.05",
            "3 operands given; the form is `cone-in-equator Z Z0 RADIUS north|south`".into(),
        ),
        (
            "cone-in-cap 0.8 0.4 0.7 0.05 north",
            "5 operands given; the form is `cone-in-cap Z LON_MOD Z0 RADIUS east|west north|south`"
                .into(),
        ),
        (
            "parallel 0.1 0.2 0.3 0.9",
            "4 operands given; the form is `parallel LON1 LAT1 LON2 LAT2 Z`".into(),
        ),
        (
            "two-arcs 0.1 0.2 0.3 0.4 0.5 0.6 0.7",
            "7 operands given; the form is `two-arcs LON1 LAT1 LON2 LAT2 LON3 LAT3 LON4 LAT4`".into(),
        ),
        (
            "two-arcs 0.1 0.2 0.3 0.4 0.5 0.6 0.7 0.8 0.9",
            "9 operands given; the form is `two-arcs LON1 LAT1 LON2 LAT2 LON3 LAT3 LON4 LAT4`".into(),
        ),
        (
            "two-arc 0.1 0.2",
            format!("there is no command `two-arc` (did you mean `two-arcs`?); {NAMES}"),
        ),
        (
            "degrees 90",
            "1 operand given; the form is `degrees`".into(),
        ),
        (
            "radians on",
            "1 operand given; the form is `radians`".into(),
        ),
        ("precision abc", format!("X: `abc` {NUMBER}")),
        ("precision 0x10", format!("X: `0x10` {NUMBER}")),
        ("precision 1e", format!("X: `1e` {NUMBER}")),
        ("precision --1", format!("X: `--1` {NUMBER}")),
        ("precision 1_000", format!("X: `1_000` {NUMBER}")),
        ("precision ½", format!("X: `½` {NUMBER}")),
        ("precision 1.0f", format!("X: `1.0f` {NUMBER}")),
        ("precision 1,5", format!("X: `1,5` {NUMBER}; {COMMA}")),
        ("arc 1, 2 3 4", format!("LON1: `1,` {NUMBER}; {COMMA}")),
        ("precision nan", format!("X: `nan` is no decimal; {BITS}")),
        (
            "arc 1 -inf 3 4",
            format!("LAT1: `-inf` is no decimal; {BITS}"),
        ),
        (
            "cone-in-cap 0 0 0 Infinity 1 1",
            format!("RADIUS: `Infinity` is no decimal; {BITS}"),
        ),
        (
            "parallel 0 0 0 0 1e999",
            format!("Z: `1e999` is too large for a float; {BITS}"),
        ),
        (
            "two-arcs 0 0 0 0 0 0 x 0",
            format!("LON4: `x` {NUMBER}"),
        ),
        (
            "two-arcs 0 0 0 0 0 1e999 0 0",
            format!("LAT3: `1e999` is too large for a float; {BITS}"),
        ),
        (
            "precision -1e400",
            format!("X: `-1e400` is too large for a float; {BITS}"),
        ),
        ("precision bits:", format!("X: `bits:` {HEX}")),
        ("precision bits:3FF", format!("X: `bits:3FF` {HEX}")),
        (
            "precision bits:3FF00000000000000",
            format!("X: `bits:3FF00000000000000` {HEX}"),
        ),
        (
            "precision bits:3FF000000000000G",
            format!("X: `bits:3FF000000000000G` {HEX}"),
        ),
        (
            "precision bits:+FF0000000000000",
            format!("X: `bits:+FF0000000000000` {HEX}"),
        ),
        (
            "precision Bits:3FF0000000000000",
            format!("X: `Bits:3FF0000000000000` {NUMBER}"),
        ),
        ("allowance 256", format!("N: `256` is wrong; {BYTE}")),
        ("allowance -1", format!("N: `-1` is wrong; {BYTE}")),
        ("allowance 2.5", format!("N: `2.5` is wrong; {BYTE}")),
        ("allowance north", format!("N: `north` is wrong; {BYTE}")),
        (
            "allowance bits:3FF0000000000000",
            format!("N: `bits:3FF0000000000000` is wrong; {BYTE}"),
        ),
        (
            "cone-in-equator 0.3 0.1 0.05 up",
            format!("north|south: `up` is wrong; north, south or {BYTE}"),
        ),
        (
            "cone-in-equator 0.3 0.1 0.05 North",
            format!("north|south: `North` is wrong; north, south or {BYTE}"),
        ),
        (
            "cone-in-cap 0.8 0.4 0.7 0.05 north 1",
            format!("east|west: `north` is wrong; east, west or {BYTE}"),
        ),
        (
            "cone-in-cap 0.8 0.4 0.7 0.05 1 -1",
            format!("north|south: `-1` is wrong; north, south or {BYTE}"),
        ),
    ];
    for (line, message) in table {
        let text = format!("{line}\nend\n");
        assert_eq!(messages(&text), [format!("1: {message}")], "{line:?}");
    }
}

/// Whole texts, with all that is wrong in them.
#[test]
fn wrong_texts() {
    let table: [(&str, &[String]); 12] = [
        ("", &[format!("1: {LAST}")]),
        ("\n\n", &[format!("2: {LAST}")]),
        ("# end\n", &[format!("1: {LAST}")]),
        ("precision 1e-9\nallowance 20", &[format!("2: {LAST}")]),
        (
            "arc 1 2 3 4 end\n",
            &[
                "1: 5 operands given; the form is `arc LON1 LAT1 LON2 LAT2`".into(),
                format!("1: {LAST}"),
            ],
        ),
        ("end 0\n", &["1: 1 operand given; the form is `end`".into()]),
        ("end\nend\n", &[format!("2: `end` {AFTER}")]),
        (
            "end # of it\n\n# more\ndegrees\narc 1 2 3 4\n",
            &[format!("4: `degrees` {AFTER}"), format!("5: `arc` {AFTER}")],
        ),
        (
            "arc x 0 y 0\nend\n",
            &[
                format!("1: LON1: `x` {NUMBER}"),
                format!("1: LON2: `y` {NUMBER}"),
            ],
        ),
        (
            "precision no\n\n# allowance\nallowance 300\narc 1 2\nark\nprecision 1\nend\nend",
            &[
                format!("1: X: `no` {NUMBER}"),
                format!("4: N: `300` is wrong; {BYTE}"),
                "5: 2 operands given; the form is `arc LON1 LAT1 LON2 LAT2`".into(),
                format!("6: there is no command `ark` (did you mean `arc`?); {NAMES}"),
                format!("9: `end` {AFTER}"),
            ],
        ),
        (
            "precision 1\r\nallowance x\r\nend\r\n",
            &[format!("2: N: `x` is wrong; {BYTE}")],
        ),
        (
            "\u{FEFF}precision 1\n\u{FEFF}end\nend\n",
            &[format!(
                "2: there is no command `\\u{{feff}}end` (did you mean `end`?); {NAMES}"
            )],
        ),
    ];
    for (text, expected) in table {
        assert_eq!(messages(text), expected, "{text:?}");
    }
}

/// The job file may have 16,384 bytes with `end`, and the line is named that makes more.
#[test]
fn too_long() {
    let too_long =
        "with this line the job file has more than 16,384 bytes, the most that it may have";
    // 1,820 precisions have 16,380 bytes.
    let precisions = "precision 1\n".repeat(1_820);
    let longest = format!("{precisions}allowance 1\nend\n");
    assert_eq!(finder(&["write"], longest.as_bytes()).done().len(), 16_383);
    let full = format!("{precisions}allowance 1\nallowance 1\n");
    assert_eq!(
        messages(&format!("{full}end\n")),
        [format!("1823: {too_long}")]
    );
    let longer = format!("{full}allowance 1\n# more\nallowance 1\nend\n");
    assert_eq!(messages(&longer), [format!("1823: {too_long}")]);
    // A wrong line counts as what its name says.
    let wrong = format!(
        "precision x\n{}arc 1 2 3 4\nend\n",
        "precision 1\n".repeat(1_819)
    );
    assert_eq!(
        messages(&wrong),
        [format!("1: X: `x` {NUMBER}"), format!("1821: {too_long}")]
    );
}

/// The file and the line are named, also where the text is taken in the place of a job file, and nothing else is written.
#[test]
fn in_a_file() {
    let folder = crate::process::Folder::new();
    folder.write("bad.txt", "# a job\nallowance 1000\nend\n");
    for subcommand in ["write", "show", "run", "list"] {
        let message = format!("finder: bad.txt:2: N: `1000` is wrong; {BYTE}\n");
        folder.finder(&[subcommand, "bad.txt"]).fails(1, &message);
    }
}
