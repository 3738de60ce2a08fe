//! Tables in Markdown with even columns, and how figures are spelled in them.

use std::fmt;

/// The rows, the head first.
pub struct Table(Vec<Vec<String>>);

impl Table {
    pub fn new(heads: &[&str]) -> Self {
        Self(vec![heads.iter().map(|head| head.to_string()).collect()])
    }

    pub fn row(&mut self, cells: Vec<String>) {
        assert_eq!(cells.len(), self.0[0].len(), "the cells of a row");
        self.0.push(cells);
    }

    /// How many characters the longest cell of a column has.
    fn width(&self, column: usize) -> usize {
        let lengths = self.0.iter().map(|row| row[column].chars().count());
        lengths.max().unwrap_or(0)
    }
}

/// The first column is aligned left, the others right.
impl fmt::Display for Table {
    fn fmt(&self, f: &mut fmt::Formatter) -> fmt::Result {
        let widths: Vec<usize> = (0..self.0[0].len()).map(|k| self.width(k)).collect();
        for (number, row) in self.0.iter().enumerate() {
            write!(f, "| {:<1$} |", row[0], widths[0])?;
            for (cell, width) in row.iter().zip(&widths).skip(1) {
                write!(f, " {cell:>width$} |")?;
            }
            writeln!(f)?;
            if number == 0 {
                write!(f, "|{}|", "-".repeat(widths[0] + 2))?;
                for width in &widths[1..] {
                    write!(f, "{}:|", "-".repeat(width + 1))?;
                }
                writeln!(f)?;
            }
        }
        Ok(())
    }
}

/// Mebibytes.
pub fn mib(bytes: usize) -> f64 {
    bytes as f64 / (1 << 20) as f64
}

/// Kibibytes.
pub fn kib(bytes: usize) -> f64 {
    bytes as f64 / 1024.0
}

pub fn milliseconds(seconds: f64) -> String {
    format!("{:.2} ms", seconds * 1e3)
}

pub fn nanoseconds(seconds: f64) -> String {
    format!("{:.0} ns", seconds * 1e9)
}

pub fn ratio(one: f64, other: f64) -> String {
    format!("{:.2}", one / other)
}

/// The least and the greatest of some figures.
pub fn range(figures: impl Iterator<Item = f64> + Clone) -> String {
    let least = figures.clone().fold(f64::INFINITY, f64::min);
    let greatest = figures.fold(0.0, f64::max);
    format!("{least:.2} to {greatest:.2}")
}

/// Milliseconds, with the multiple of another time in brackets.
pub fn beside(seconds: f64, other: f64) -> String {
    format!("{} ({})", milliseconds(seconds), ratio(seconds, other))
}

#[cfg(test)]
mod tests {
    use super::*;

    #[test]
    fn columns_are_even() {
        let mut table = Table::new(&["Call", "KiB"]);
        table.row(vec!["put".to_string(), "82.1".to_string()]);
        let lines = "| Call |  KiB |\n|------|-----:|\n| put  | 82.1 |\n";
        assert_eq!(table.to_string(), lines);
    }

    #[test]
    fn a_range_has_both_ends() {
        assert_eq!(range([0.7, 0.654, 1.2].into_iter()), "0.65 to 1.20");
    }
}
