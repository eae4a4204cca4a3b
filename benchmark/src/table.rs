//! Tables as text that is also Markdown.

use std::fmt;

pub struct Table {
    rows: Vec<Vec<String>>,
    /// So many columns stand to the left, the others to the right.
    left: usize,
}

impl Table {
    /// A column of names, and figures.
    pub fn new(head: &[&str]) -> Table {
        Table { rows: vec![head.iter().map(|cell| cell.to_string()).collect()], left: 1 }
    }

    /// All columns are words.
    pub fn of_text(head: &[&str]) -> Table {
        Table { left: head.len(), ..Table::new(head) }
    }

    pub fn row(&mut self, cells: Vec<String>) {
        self.rows.push(cells);
    }
}

impl fmt::Display for Table {
    fn fmt(&self, out: &mut fmt::Formatter<'_>) -> fmt::Result {
        let width =
            |column: usize| self.rows.iter().map(|row| row[column].len()).max().unwrap_or(0);
        for (number, row) in self.rows.iter().enumerate() {
            for (column, cell) in row.iter().enumerate() {
                match column < self.left {
                    true => write!(out, "| {cell:<0$} ", width(column))?,
                    false => write!(out, "| {cell:>0$} ", width(column))?,
                }
            }
            writeln!(out, "|")?;
            if number == 0 {
                for column in 0..row.len() {
                    match column < self.left {
                        true => write!(out, "|:{}-", "-".repeat(width(column)))?,
                        false => write!(out, "|-{}:", "-".repeat(width(column)))?,
                    }
                }
                writeln!(out, "|")?;
            }
        }
        Ok(())
    }
}

/// A number with a comma before each three digits.
pub fn thousands(number: usize) -> String {
    match number {
        0..1_000 => number.to_string(),
        _ => format!("{},{:03}", thousands(number / 1_000), number % 1_000),
    }
}
