//! The command patterns for the rig, listed as document 02 orders them, to compare the proved program with.

/// The lines of every pattern of one up to `most` commands, shorter ones first.
pub fn listing(most: usize) -> String {
    let lines = (1..=most).flat_map(of_length);
    lines.map(|line| line + "\n").collect()
}

/// The patterns of one length: each code, from the least, in front of every pattern that is one shorter.
fn of_length(commands: usize) -> Vec<String> {
    if commands == 0 {
        return vec!["00".to_string()];
    }
    let shorter = of_length(commands - 1);
    let begun_with = |code: u8| shorter.iter().map(move |rest| format!("{code:02x} {rest}"));
    (1..=6).flat_map(begun_with).collect()
}
