//! The section for a certificate's form.

use super::{example, file, printed, EXAMPLE, OPERAND};
use crate::process::{command, finder, repository};
use std::fs;
use std::process::Command;

/// As `sha256sum` prints it for the file.
fn sum_of(path: &str) -> String {
    let mut sum = Command::new("sha256sum");
    let output = sum.current_dir(repository()).arg(path).output();
    let output = output.expect("sha256sum can be run").stdout;
    String::from_utf8_lossy(&output[..64]).into_owned()
}

#[test]
fn a_section_for_the_form() {
    let section = printed(&[EXAMPLE, "--format", "markdown"], 0);
    let head = format!(
        "## Which replies depend on the iteration allowance\n\n- Job file: `{EXAMPLE}`\n- SHA-256: `{}`\n- Allowances: 20 (command 2)\n",
        sum_of(EXAMPLE)
    );
    assert!(section.starts_with(&head), "{section}");
    let table = "\n\n| command | job | allowance | settled from |\n| ---: | --- | ---: | ---: |\n| 1 | precision | - | any |\n";
    assert!(section.contains(table), "{section}");
    assert!(
        section.contains("\n| 12 | cone-in-cap | 20 | 8 |\n"),
        "{section}"
    );
    for name in [
        "`one_run_tells` in `crates/claims/proofs/EachReply.antt`",
        "`OneRunTells` in `crates/claims/specs/EachReply.antt`",
    ] {
        assert!(section.contains(name), "{section}");
    }
    let version = finder(&["--version"], b"").text();
    assert!(
        !version.is_empty() && version.lines().all(|line| section.contains(line)),
        "{section}"
    );
}

#[test]
fn a_section_for_two_files() {
    let mut job = example();
    job[OPERAND] = 4;
    let other = file("section.job", &job);
    let section = printed(&[EXAMPLE, &other, "--format", "markdown"], 3);
    let head = format!(
        "## Which replies depend on the iteration allowance\n\n- Job file A: `{EXAMPLE}`\n- SHA-256 of A: `{}`\n- Allowances of A: 20 \
         (command 2)\n- Job file B: `{other}`\n- SHA-256 of B: `{}`\n- Allowances of B: 4 (command 2)\n",
        sum_of(EXAMPLE),
        sum_of(&other)
    );
    assert!(section.starts_with(&head), "{section}");
    assert!(
        section.contains("\n| 5 | arc | equator | 20 | 4 | 5 | 4 | yes |\n"),
        "{section}"
    );
    assert!(
        section.contains("\n4 of 17 replies differ between A and B: commands 5, 9, 11 and 12.\n"),
        "{section}"
    );
    for name in [
        "`reply_by_reply` and `slot_by_slot`",
        "`ReplyByReply` and `SlotBySlot`",
    ] {
        assert!(section.contains(name), "{section}");
    }
}

#[test]
fn without_sha256sum_its_line_is_left_out() {
    let with = printed(&[EXAMPLE, "--format", "markdown"], 0);
    let mut finder = command();
    let finder = finder
        .current_dir(repository())
        .env("PATH", "no such folder");
    let output = finder
        .args(["depends", EXAMPLE, "--format", "markdown"])
        .output();
    let without = output.expect("the program can be run").stdout;
    let line = format!("- SHA-256: `{}`\n", sum_of(EXAMPLE));
    assert_eq!(String::from_utf8_lossy(&without), with.replace(&line, ""));
    assert_ne!(String::from_utf8_lossy(&without), with);
}

/// A text's section says whose SHA-256 it is; a name may have any characters.
#[test]
fn a_section_for_a_text() {
    let text = fs::read(repository().join("examples/field_of_view.txt"));
    let name = file("a `strange`\nname", &text.expect("the example can be read"));
    let section = printed(&[&name, "--format", "markdown"], 0);
    let head = format!(
        "- Text: `` {} ``\n- SHA-256 of the job file that the text makes: `{}`\n",
        name.replace('\n', "\\n"),
        sum_of(EXAMPLE)
    );
    assert!(section.contains(&head), "{section}");
}

/// Allowances 20, 3 and 20, a walk without end, and one that 3 cuts short.
const TEXT: &str = "precision 0\nallowance 20\ncone-in-equator 0.302 0.274 0.035 north\nprecision 1e-9\nallowance 3\n\
                    cone-in-cap 0.887 0.7 0.841 0.1 east north\nallowance 20\ncone-in-equator 0.276 0.199 0.1 north\nend\n";

/// A file with a text, and the SHA-256 of the job file that the text makes.
fn text(name: &str, text: &str) -> (String, String) {
    let job = finder(&["write"], text.as_bytes()).done();
    let sum = sum_of(&file(&format!("{name}.job"), &job));
    (file(name, text.as_bytes()), sum)
}

/// A section without the lines that say which program it is and which theorem it rests on.
fn section(arguments: &[&str]) -> String {
    let section = printed(&[arguments, &["--format", "markdown"]].concat(), 3);
    let kept = section.lines().filter(|line| {
        let left_out = ["## ", "- Program: ", "This rests on "];
        !left_out.iter().any(|start| line.starts_with(start))
    });
    kept.collect::<Vec<_>>().join("\n").trim().to_string()
}

#[test]
fn a_section_with_all_that_it_can_say() {
    let (name, sum) = text("all.txt", TEXT);
    let expected = format!(
        "- Text: `{name}`
- SHA-256 of the job file that the text makes: `{sum}`
- Allowances: 20 (commands 2 and 7), 3 (command 5)

| command | job | allowance | settled from |
| ---: | --- | ---: | ---: |
| 1 | precision | - | any |
| 2 | allowance 20 | - | any |
| 3 | cone-in-equator | 20 | not by 255 |
| 4 | precision | - | any |
| 5 | allowance 3 | - | any |
| 6 | cone-in-cap | 3 | 8 |
| 7 | allowance 20 | - | any |
| 8 | cone-in-equator | 20 | 5 |

An allowance of 255 does not settle command 3: of a walk of 255 steps the step byte can't tell whether it has ended. Every other reply stays the \
same for every allowance from 8 on. This file's own allowances do not settle commands 3 and 6. Larger ones change the replies to commands 3 and 6."
    );
    assert_eq!(section(&[&name]), expected);
}

#[test]
fn a_section_for_a_text_and_an_allowance() {
    let (name, sum) = text("with_4.txt", TEXT);
    let expected = format!(
        "- Text A: `{name}`
- SHA-256 of the job file that A makes: `{sum}`
- Allowances of A: 20 (commands 2 and 7), 3 (command 5)
- Job file B: A with every allowance 4

| command | job | walk | allowance A | allowance B | steps A | steps B | differs |
| ---: | --- | --- | ---: | ---: | ---: | ---: | --- |
| 3 | cone-in-equator | - | 20 | 4 | 20 | 4 | yes |
| 6 | cone-in-cap | - | 3 | 4 | 3 | 4 | yes |
| 8 | cone-in-equator | - | 20 | 4 | 5 | 4 | yes |

3 of 8 replies differ between A and B: commands 3, 6 and 8."
    );
    assert_eq!(section(&[&name, "--allowance", "4"]), expected);
}

#[test]
fn a_section_for_two_texts() {
    let (a, of_a) = text("first.txt", TEXT);
    let (b, of_b) = text("second.txt", &TEXT.replace("allowance 20", "allowance 9"));
    let expected = format!(
        "- Text A: `{a}`
- SHA-256 of the job file that A makes: `{of_a}`
- Allowances of A: 20 (commands 2 and 7), 3 (command 5)
- Text B: `{b}`
- SHA-256 of the job file that B makes: `{of_b}`
- Allowances of B: 9 (commands 2 and 7), 3 (command 5)

| command | job | walk | allowance A | allowance B | steps A | steps B | differs |
| ---: | --- | --- | ---: | ---: | ---: | ---: | --- |
| 3 | cone-in-equator | - | 20 | 9 | 20 | 9 | yes |

1 of 8 replies differs between A and B: command 3."
    );
    assert_eq!(section(&[&a, &b]), expected);
}

#[test]
fn a_section_without_allowances() {
    let (name, _) = text("none.txt", "precision 1\nend\n");
    let section = printed(&[&name, "--format", "markdown"], 0);
    assert!(
        section.contains("\n- Allowances: none is set\n"),
        "{section}"
    );
}
