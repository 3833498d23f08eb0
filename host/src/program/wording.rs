//! What messages are made of: words of the user's, names that may have been meant, and counts.

/// That there is no such thing, which names there are, and which of them is nearest.
pub fn unknown<'a>(what: &str, given: &str, names: impl Iterator<Item = &'a str>) -> String {
    let names: Vec<&str> = names.collect();
    let meant = match nearest(given, &names) {
        Some(name) => format!(" (did you mean `{name}`?)"),
        None => String::new(),
    };
    let names = names.join(", ");
    format!(
        "there is no {what} {}{meant}; there are {names}",
        quoted(given)
    )
}

/// The nearest name, if at most two characters and half the word are to be put in, taken out or changed.
fn nearest<'a>(given: &str, names: &[&'a str]) -> Option<&'a str> {
    let given = given.to_lowercase();
    let distances = names.iter().map(|name| (distance(&given, name), *name));
    let (distance, name) = distances.min_by_key(|(distance, _)| *distance)?;
    let most = 2.min(given.chars().count() / 2);
    (distance <= most).then_some(name)
}

/// Levenshtein's distance, row by row.
fn distance(a: &str, b: &str) -> usize {
    let b: Vec<char> = b.chars().collect();
    let mut row: Vec<usize> = (0..=b.len()).collect();
    for (place, x) in a.chars().enumerate() {
        let mut diagonal = row[0];
        row[0] = place + 1;
        for (column, y) in b.iter().enumerate() {
            let changed = diagonal + usize::from(x != *y);
            diagonal = row[column + 1];
            row[column + 1] = changed.min(diagonal + 1).min(row[column] + 1);
        }
    }
    row[b.len()]
}

/// A word of the user's as a message shows it: with its control characters escaped, and not longer than a line.
pub fn quoted(word: &str) -> String {
    const MOST: usize = 40;
    let shown: String = word
        .chars()
        .take(MOST)
        .flat_map(char::escape_debug)
        .collect();
    let rest = if word.chars().nth(MOST).is_some() {
        "…"
    } else {
        ""
    };
    format!("`{shown}{rest}`")
}

/// A text with its control characters escaped. Names of files may hold any, and neither break a line so nor steer a terminal.
pub fn on_one_line(text: &str) -> String {
    let mut line = String::new();
    for character in text.chars() {
        match character.is_control() {
            true => line.extend(character.escape_debug()),
            false => line.push(character),
        }
    }
    line
}

/// So many things of which one has this name.
pub fn counted(count: usize, what: &str) -> String {
    let s = if count == 1 { "" } else { "s" };
    format!("{count} {what}{s}")
}
