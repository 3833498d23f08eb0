//! `finder depends` on real files. What the example's table must be is told from the replies that are stored with it.

#[cfg(reference)]
mod rules;
mod sections;

use super::process::{command, finder, repository, Ran};
use host::commands::{Command as Job, EQUATORIAL_CONE};
use std::fs;
use std::path::PathBuf;
use std::process::{Command, Stdio};

const EXAMPLE: &str = "examples/field_of_view.job";
/// The place of the example's one operand of code 02.
const OPERAND: usize = 10;

fn depends(arguments: &[&str]) -> Ran {
    finder(&[&["depends"], arguments].concat(), b"")
}

/// What it prints, where it has this exit status and says nothing on standard error.
fn printed(arguments: &[&str], status: i32) -> String {
    let ran = depends(arguments);
    assert_eq!((ran.status, &*ran.err), (status, ""));
    String::from_utf8(ran.out).expect("it prints UTF-8")
}

/// What it says on standard error, where it has this exit status and prints nothing.
fn said(arguments: &[&str], status: i32) -> String {
    let ran = depends(arguments);
    assert_eq!((ran.status, &*ran.out), (status, &b""[..]));
    ran.err
}

fn example() -> Vec<u8> {
    fs::read(repository().join(EXAMPLE)).expect("the example can be read")
}

/// A file with these bytes, named for its test.
fn file(name: &str, job: &[u8]) -> String {
    let path = PathBuf::from(env!("CARGO_TARGET_TMPDIR")).join(name);
    fs::write(&path, job).expect("a file can be written");
    path.to_str().expect("its name is UTF-8").to_string()
}

fn job_of(commands: &[Job]) -> Vec<u8> {
    let mut job = Vec::new();
    for command in commands {
        command.write(&mut job);
    }
    job.push(0);
    job
}

/// A cone whose walk goes on for ever where no precision ends it.
fn endless(allowance: u8) -> Vec<u8> {
    let cone = Job::new(EQUATORIAL_CONE, [0.302, 0.274, 0.035], [1]);
    job_of(&[Job::precision(0.0), Job::allowance(allowance), cone])
}

#[test]
fn the_example_is_settled_by_its_own_allowance() {
    let expected = "\
command  job              allowance  settled from
      1  precision                -           any
      2  allowance 20             -           any
      3  arc                     20           any
      4  arc                     20           any
      5  arc                     20             5
      6  arc                     20           any
      7  arc                     20           any
      8  arc                     20           any
      9  arc                     20             5
     10  arc                     20           any
     11  cone-in-equator         20             5
     12  cone-in-cap             20             8
     13  parallel                 -           any
     14  two-arcs                 -           any
     15  two-arcs                 -           any
     16  arc                     20             2
     17  arc                     20           any

Every reply stays the same for every allowance from 8 on. This file's own allowances settle every reply.
";
    assert_eq!(printed(&[EXAMPLE], 0), expected);
}

#[test]
fn a_smaller_allowance_settles_less() {
    let mut job = example();
    job[OPERAND] = 5;
    let printed = printed(&[&file("five.job", &job)], 3);
    let expected = "Every reply stays the same for every allowance from 8 on. This file's own allowances do not settle command 12. \
                    A larger one changes the reply to command 12.\n";
    assert!(printed.ends_with(expected), "{printed}");
    assert!(
        printed.contains("\n     12  cone-in-cap              5             8\n"),
        "{printed}"
    );
}

#[test]
fn a_walk_of_255_steps_is_not_settled() {
    let expected = "An allowance of 255 does not settle command 3: of a walk of 255 steps the step byte can't tell whether it has ended. Every \
                    other reply stays the same for every allowance. This file's own allowances do not settle command 3.";
    let at_255 = printed(&[&file("endless_255.job", &endless(255))], 3);
    assert!(at_255.ends_with(&format!("{expected}\n")), "{at_255}");
    assert!(
        at_255.contains("\n      3  cone-in-equator        255    not by 255\n"),
        "{at_255}"
    );
    let at_20 = printed(&[&file("endless_20.job", &endless(20))], 3);
    let larger = " A larger one changes the reply to command 3.\n";
    assert!(at_20.ends_with(&format!("{expected}{larger}")), "{at_20}");
}

#[test]
fn without_an_allowance_nothing_depends() {
    let cone = Job::new(EQUATORIAL_CONE, [0.302, 0.274, 0.035], [1]);
    let job = job_of(&[Job::precision(0.0), cone]);
    let expected = "\
command  job              allowance  settled from
      1  precision                -           any
      2  cone-in-equator          -           any

Every reply stays the same for every allowance. This file's own allowances settle every reply.
";
    assert_eq!(printed(&[&file("unset.job", &job)], 0), expected);
}

/// Found, apart and refused under 12: two arcs begin no walk, and have no allowance.
#[test]
fn two_arcs_depend_on_no_allowance() {
    let text = "allowance 1\ntwo-arcs 0 0 1 0.1 0.5 -0.1 0.6 0.3\ntwo-arcs 0 0 1 0.1 2 -0.1 2.1 0.3\ntwo-arcs 0 0 1 0 2 0 3 0\nend\n";
    let name = file("two_arcs.txt", text.as_bytes());
    let expected = "\
command  job          allowance  settled from
      1  allowance 1          -           any
      2  two-arcs             -           any
      3  two-arcs             -           any
      4  two-arcs             -           any

Every reply stays the same for every allowance. This file's own allowances settle every reply.
";
    assert_eq!(printed(&[&name], 0), expected);
    let listed = finder(&["list", &name], b"").text();
    let outcomes = ["found at longitude", "no crossing found", "status 12"];
    assert!(outcomes.iter().all(|it| listed.contains(it)), "{listed}");
    let paired = printed(&[&name, "--allowance", "9"], 0);
    assert!(
        paired.contains("\nNo reply differs between A and B. "),
        "{paired}"
    );
}

/// An edge of 17 degrees: its walk has left it after the first step, and comes back with more of them. Halvings are no steps.
#[test]
fn a_second_try_depends_on_its_walk() {
    let text = "precision 1e-9\nallowance 20\narc 2.48 0.69 2.29 0.44\nend\n";
    let name = file("second_try.txt", text.as_bytes());
    let alone = printed(&[&name], 0);
    assert!(
        alone.contains("\n      3  arc                  20             6\n"),
        "{alone}"
    );
    let paired = printed(&[&name, "--allowance", "1"], 3);
    assert!(
        paired
            .contains("\n      3  arc  equator           20            1        6        1  yes\n"),
        "{paired}"
    );
    for (allowance, kind) in [
        ("1", "after a walk of 1 step found by halving"),
        ("20", "found after 6 steps"),
    ] {
        let text = text.replace("allowance 20", &format!("allowance {allowance}"));
        let listed = finder(&["list"], text.as_bytes()).text();
        assert!(
            listed.contains(&format!("equator: {kind} at longitude 2.")),
            "{listed}"
        );
    }
}

#[test]
fn the_example_with_other_allowances() {
    let expected = "\
A: examples/field_of_view.job
B: A with every allowance 4

command  job              walk              allowance A  allowance B  steps A  steps B  differs
      5  arc              equator                    20            4        5        4  yes
      5  arc              north cap, first           20            4        3        3  no
      9  arc              south cap, first           20            4        3        3  no
      9  arc              equator                    20            4        5        4  yes
     11  cone-in-equator  -                          20            4        5        4  yes
     12  cone-in-cap      -                          20            4        8        4  yes

4 of 17 replies differ between A and B: commands 5, 9, 11 and 12.
";
    assert_eq!(printed(&[EXAMPLE, "--allowance", "4"], 3), expected);
    let one = printed(&[EXAMPLE, "--allowance", "7"], 3);
    assert!(
        one.ends_with("\n1 of 17 replies differs between A and B: command 12.\n"),
        "{one}"
    );
    let none = "\
A: examples/field_of_view.job
B: A with every allowance 8

No reply differs between A and B. Where its two allowances differ, a reply is the same for every allowance from the smaller on.
";
    assert_eq!(printed(&[EXAMPLE, "--allowance", "8"], 0), none);
}

#[test]
fn replies_in_a_row_are_named_by_the_first_and_the_last() {
    let cone = Job::new(EQUATORIAL_CONE, [0.302, 0.274, 0.035], [1]);
    let (precision, allowance) = (Job::precision(0.0), Job::allowance(3));
    let (four, two) = ([cone; 4], [cone; 2]);
    let job = job_of(&[&[precision, allowance], &four[..], &[precision], &two].concat());
    let printed = printed(&[&file("row.job", &job), "--allowance", "2"], 3);
    let expected = "\n6 of 9 replies differ between A and B: commands 3 to 6, 8 and 9.\n";
    assert!(printed.ends_with(expected), "{printed}");
}

#[test]
fn two_files_are_compared_as_one_with_an_allowance() {
    for (allowance, status) in [(0, 3), (4, 3), (7, 3), (8, 0), (255, 0)] {
        let mut job = example();
        job[OPERAND] = allowance;
        let other = file(&format!("other_{allowance}.job"), &job);
        let two = printed(&[EXAMPLE, &other], status);
        let one = printed(&[EXAMPLE, "--allowance", &allowance.to_string()], status);
        let name = format!("B: A with every allowance {allowance}");
        assert_eq!(two, one.replace(&name, &format!("B: {other}")));
    }
}

#[test]
fn files_that_are_not_alike() {
    let mut operand = example();
    for place in [17, 18, 30] {
        operand[place] ^= 1;
    }
    operand[OPERAND] = 3;
    let operand = file("operand.job", &operand);
    let expected = format!(
        "finder: {EXAMPLE} and {operand} are not alike: the first place is 17 (in the operands of command 3, arc: 1e in the first and 1f in \
         the second)\n"
    );
    assert_eq!(said(&[EXAMPLE, &operand], 2), expected);
    let mut flag = example();
    flag[300] = 0;
    let said_of_flag = said(&[EXAMPLE, &file("flag.job", &flag)], 2);
    let expected = " 300 (in the operands of command 11, cone-in-equator: 01 in the first and 00 in the second)\n";
    assert!(said_of_flag.ends_with(expected), "{said_of_flag}");
    let settings = job_of(&[Job::precision(1e-9), Job::allowance(3)]);
    let shorter = file("shorter.job", &settings);
    let expected = format!(
        "finder: {shorter} and {EXAMPLE} are not alike: the first place is 11 (command 3: end in the first and arc in the second)\n"
    );
    assert_eq!(said(&[&shorter, EXAMPLE], 2), expected);
}

#[test]
fn a_refused_file_fails() {
    let refused = file("refused.job", &[0x02, 0x14, 0xF0]);
    let ways: [&[&str]; 4] = [
        &[&refused],
        &[&refused, "--allowance", "3"],
        &[&refused, EXAMPLE],
        &[EXAMPLE, &refused],
    ];
    for way in ways {
        let said = said(way, 1);
        assert!(
            said.starts_with("finder: ") && said.contains(&refused),
            "{said}"
        );
    }
    let both = said(&[&refused, "no such file"], 1);
    assert!(
        both.lines().count() == 2 && both.contains("no such file"),
        "{both}"
    );
}

/// Whoever closes the pipe may still ask for the status.
#[test]
fn a_closed_pipe() {
    for (allowance, status) in [("4", 3), ("8", 0)] {
        let mut finder = command();
        finder.args(["depends", EXAMPLE, "--allowance", allowance]);
        let mut gone = Command::new("true");
        let mut gone = gone.stdin(Stdio::piped()).spawn().expect("it starts");
        let pipe = gone.stdin.take().expect("it has a standard input");
        gone.wait().expect("it ends");
        let finder = finder.current_dir(repository()).stdout(pipe);
        let output = finder.output().expect("the program can be run");
        let said = String::from_utf8_lossy(&output.stderr);
        assert_eq!((output.status.code(), &*said), (Some(status), ""));
    }
}

/// Of texts the lines are named too.
#[test]
fn texts_that_are_not_alike() {
    let settings = "# settings\nprecision 1e-9\nallowance 20\n";
    let a = file(
        "a.txt",
        format!("{settings}arc 0.1 0.2 0.3 0.4\nend\n").as_bytes(),
    );
    let b = file(
        "b.txt",
        format!("{settings}\narc 0.1 0.2 0.3 0.5\nend\n").as_bytes(),
    );
    let expected = format!(
        "finder: {a} and {b} are not alike: the first place is 36 (in the operands of command 3, arc: 9a in the first (line 4) and 00 in the \
         second (line 5))\n"
    );
    assert_eq!(said(&[&a, &b], 2), expected);
}
