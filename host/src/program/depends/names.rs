//! Commands by name and number, as the reports speak of them.

use crate::commands::{Command, ALLOWANCE};
use crate::program::input::Input;
use crate::program::names::of_code;
use crate::program::replies::commands;

/// A command in short: an allowance with its operand, others by their names.
pub fn short(command: &Command) -> String {
    let name = of_code(command.code).name;
    match command.code {
        ALLOWANCE => format!("{name} {}", command.bytes[0]),
        _ => name.to_string(),
    }
}

/// What stands at the first place where two accepted files are not alike. It lies in the same command of both.
pub fn difference(a: &Input, b: &Input, place: usize) -> String {
    let commands = commands(&a.job);
    let number = commands.partition_point(|(at, _)| *at < place);
    let [of_a, of_b] = [a, b].map(|input| input.job[place]);
    match commands[..number].last() {
        Some((at, command)) if place <= at + command.row().operands() => {
            let name = of_code(command.code).name;
            let at = [a, b].map(|input| line(input, number));
            format!(
                "in the operands of command {number}, {name}: {of_a:02x} in the first{} and {of_b:02x} in the second{}",
                at[0], at[1]
            )
        }
        _ => {
            let [of_a, of_b] = [of_a, of_b].map(|code| of_code(code).name);
            let number = number + 1;
            let at = [a, b].map(|input| line(input, number));
            format!(
                "command {number}: {of_a} in the first{} and {of_b} in the second{}",
                at[0], at[1]
            )
        }
    }
}

/// Where a text has the command with this number.
fn line(input: &Input, number: usize) -> String {
    let lines = input.lines.as_ref();
    lines.map_or(String::new(), |lines| {
        format!(" (line {})", lines[number - 1])
    })
}

/// Command numbers, from places that count from 0: `command 5`, `commands 3, 5 to 8 and 12`.
pub fn listed(places: &[usize]) -> String {
    let mut runs: Vec<[usize; 2]> = Vec::new();
    for number in places.iter().map(|place| place + 1) {
        match runs.last_mut() {
            Some([_, last]) if *last + 1 == number => *last = number,
            _ => runs.push([number; 2]),
        }
    }
    let shown = |[first, last]: &[usize; 2]| match last - first {
        0 => vec![first.to_string()],
        1 => vec![first.to_string(), last.to_string()],
        _ => vec![format!("{first} to {last}")],
    };
    let parts: Vec<_> = runs.iter().flat_map(shown).collect();
    match &parts[..] {
        [one] if places.len() == 1 => format!("command {one}"),
        [others @ .., last] if !others.is_empty() => {
            format!("commands {} and {last}", others.join(", "))
        }
        parts => format!("commands {}", parts.concat()),
    }
}
