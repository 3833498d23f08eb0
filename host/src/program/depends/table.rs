//! A table, in words or as markdown.

pub struct Column {
    pub head: &'static str,
    /// Numbers stand to the right.
    pub right: bool,
}

pub const fn text(head: &'static str) -> Column {
    Column { head, right: false }
}

pub const fn number(head: &'static str) -> Column {
    Column { head, right: true }
}

pub struct Table {
    pub columns: &'static [Column],
    pub rows: Vec<Vec<String>>,
}

impl Table {
    fn heads(&self) -> Vec<String> {
        let heads = self.columns.iter().map(|column| column.head.to_string());
        heads.collect()
    }

    pub fn words(&self) -> String {
        let lines: Vec<_> = [self.heads()]
            .into_iter()
            .chain(self.rows.clone())
            .collect();
        let width = |place: usize| {
            let widths = lines.iter().map(|line| line[place].chars().count());
            widths.max().unwrap_or(0)
        };
        let widths: Vec<_> = (0..self.columns.len()).map(width).collect();
        let padded = |line: &Vec<String>| {
            let cells = line.iter().zip(self.columns).zip(&widths);
            let cells = cells.map(|((cell, column), width)| {
                if column.right {
                    format!("{cell:>width$}")
                } else {
                    format!("{cell:<width$}")
                }
            });
            let line = cells.collect::<Vec<_>>().join("  ");
            format!("{}\n", line.trim_end())
        };
        lines.iter().map(padded).collect()
    }

    pub fn markdown(&self) -> String {
        let line = |cells: &Vec<String>| format!("| {} |\n", cells.join(" | "));
        let sides = self
            .columns
            .iter()
            .map(|column| if column.right { "---:" } else { "---" });
        let sides = sides.map(str::to_string);
        let above = line(&self.heads()) + &line(&sides.collect());
        above + &self.rows.iter().map(line).collect::<String>()
    }
}
