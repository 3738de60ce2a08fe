//! What one part of the benchmark found.

use crate::plot::Panel;
use std::fmt::Display;

/// A section of the page, rows of the table at its head, and for some parts a panel of the plot.
pub struct Part {
    pub text: String,
    pub short: Vec<Vec<String>>,
    pub panel: Option<Panel>,
}

impl Part {
    pub fn new(heading: &str) -> Self {
        Self {
            text: format!("## {heading}\n"),
            short: Vec::new(),
            panel: None,
        }
    }

    /// Adds a paragraph or a table.
    pub fn add(&mut self, block: impl Display) {
        let block = block.to_string();
        self.text += &format!("\n{}\n", block.trim_end());
    }

    /// Adds a row to the table at the page's head: what it is, the figure, and what it shall be.
    pub fn add_short(&mut self, what: &str, figure: String, aim: String) {
        self.short.push(vec![what.to_string(), figure, aim]);
    }
}

/// Says on standard error what is measured now.
pub fn progress(part: &str, what: &str) {
    eprintln!("bench: {part}: {what}");
}
