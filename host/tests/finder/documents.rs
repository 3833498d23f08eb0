//! What README.md and the manual show of the program is what it prints.

use super::process::{finder, repository};
use std::fs;

const INDENT: &str = "    ";
const COMMAND: &str = "    ./finder ";

/// The command lines that stand alone, each with what is shown below it.
fn shown(page: &str) -> Vec<(Vec<String>, String)> {
    let lines: Vec<&str> = page.lines().collect();
    let alone = |place: usize| {
        let near = [place.wrapping_sub(1), place + 1];
        near.iter().all(|place| lines.get(*place) == Some(&""))
    };
    let commands = (0..lines.len()).filter(|place| lines[*place].starts_with(COMMAND));
    let commands = commands.filter(|place| alone(*place)).map(|place| {
        let arguments = lines[place][COMMAND.len()..].split(' ');
        let below = lines[place + 2..].iter();
        let below = below.take_while(|line| line.is_empty() || line.starts_with(INDENT));
        let below: Vec<&str> = below
            .map(|line| line.strip_prefix(INDENT).unwrap_or(line))
            .collect();
        let output = below.join("\n");
        (arguments.map(str::to_string).collect(), output)
    });
    commands.collect()
}

#[test]
fn what_is_shown_is_printed() {
    for (name, least) in [("README.md", 2), ("docs/MANUAL.md", 4)] {
        let page = fs::read_to_string(repository().join(name)).expect("the page can be read");
        let mut found = 0;
        for (arguments, output) in shown(&page) {
            if !output.is_empty() {
                let ran = finder(&arguments, b"");
                let printed = String::from_utf8(ran.out).expect("the output is UTF-8");
                assert_eq!(
                    output.trim_end(),
                    printed.trim_end(),
                    "{name}: {arguments:?}"
                );
                found += 1;
            }
        }
        assert!(found >= least, "{name} shows {found}");
    }
}
