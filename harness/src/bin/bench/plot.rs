//! The plot: panels side by side, each with lines over two axes that start at the lower left.

use crate::scale::{marks, spread, Scale};
use crate::svg::{Anchor, Pen, Svg};

pub use crate::scale::Spacing;

/// Colours that people who see few colours can tell apart (Okabe and Ito), and a grey.
pub const BLUE: &str = "#0072B2";
pub const RED: &str = "#D55E00";
pub const GREEN: &str = "#009E73";
pub const GREY: &str = "#666666";

pub struct Panel {
    pub title: &'static str,
    /// What is below the axis that goes across, and how it is spaced.
    pub across: &'static str,
    pub spacing: Spacing,
    /// The unit of the values upwards.
    pub unit: &'static str,
    pub lines: Vec<Line>,
    pub limits: Vec<Limit>,
}

pub struct Line {
    /// What is at its end, before the last value.
    pub name: &'static str,
    pub legend: &'static str,
    pub colour: &'static str,
    pub points: Vec<(f64, f64)>,
}

/// A value that the lines are to stay below, over a part of the axis.
pub struct Limit {
    pub from: f64,
    pub to: f64,
    pub height: f64,
}

// The sizes of the drawing, and of the field of a panel within its part.
const WIDTH: f64 = 520.0;
const HEIGHT: f64 = 450.0;
const LEFT: f64 = 52.0;
const RIGHT: f64 = 360.0;
const TOP: f64 = 108.0;
const BOTTOM: f64 = 392.0;
/// Where the legend begins, and how wide a column of it is.
const LEGEND: f64 = 48.0;
const COLUMN: f64 = 210.0;
/// From the title's start to the axis.
const MARGIN: f64 = 36.0;
/// From one line of text to the next, and from its foot to its middle.
const ROW: f64 = 18.0;
const HALF: f64 = 4.5;

const GRID: Pen = Pen {
    colour: "#e4e4e4",
    width: 1.0,
    dashed: false,
};
const AXIS: Pen = Pen {
    colour: "#222222",
    width: 1.0,
    dashed: false,
};
const LIMIT: Pen = Pen {
    colour: "#222222",
    width: 1.5,
    dashed: true,
};

/// The whole drawing, with words for those who do not see it.
pub fn draw(panels: &[Panel], words: &str) -> String {
    let mut svg = Svg::new(WIDTH * panels.len() as f64, HEIGHT, words);
    for (number, panel) in panels.iter().enumerate() {
        Field::new(panel, WIDTH * number as f64).draw(&mut svg);
    }
    svg.finish()
}

/// A panel with its axes.
struct Field<'a> {
    panel: &'a Panel,
    across: Scale,
    up: Scale,
    marks_across: Vec<f64>,
    marks_up: Vec<f64>,
}

impl<'a> Field<'a> {
    /// The panel whose part of the drawing begins at a place.
    fn new(panel: &'a Panel, start: f64) -> Self {
        let points = panel.lines.iter().flat_map(|line| &line.points);
        let widest = points.clone().map(|point| point.0).fold(0.0, f64::max);
        let highest = points.map(|point| point.1).fold(0.0, f64::max);
        let highest = panel
            .limits
            .iter()
            .map(|limit| limit.height)
            .fold(highest, f64::max);
        let marks_across = marks(panel.spacing, widest);
        let marks_up = marks(Spacing::Even, highest);
        let ends = |marks: &[f64]| (marks[0], marks[marks.len() - 1]);
        Self {
            panel,
            across: Scale {
                spacing: panel.spacing,
                values: ends(&marks_across),
                places: (start + LEFT, start + RIGHT),
            },
            up: Scale {
                spacing: Spacing::Even,
                values: ends(&marks_up),
                places: (BOTTOM, TOP),
            },
            marks_across,
            marks_up,
        }
    }

    fn place(&self, (x, y): (f64, f64)) -> (f64, f64) {
        (self.across.place(x), self.up.place(y))
    }

    fn draw(&self, svg: &mut Svg) {
        self.axes(svg);
        self.legend(svg);
        self.limits(svg);
        for line in &self.panel.lines {
            let places: Vec<(f64, f64)> = line.points.iter().map(|&p| self.place(p)).collect();
            svg.line(&places, pen(line));
            places.iter().for_each(|&place| svg.dot(place, line.colour));
        }
        self.ends(svg);
    }

    fn axes(&self, svg: &mut Svg) {
        let (left, right) = self.across.places;
        svg.title((left - MARGIN, 26.0), self.panel.title);
        svg.text((left - 8.0, TOP - 16.0), Anchor::End, self.panel.unit);
        for &mark in &self.marks_up {
            let y = self.up.place(mark);
            svg.line(&[(left, y), (right, y)], GRID);
            svg.text((left - 8.0, y + HALF), Anchor::End, &number(mark));
        }
        for &mark in &self.marks_across {
            let x = self.across.place(mark);
            svg.line(&[(x, BOTTOM), (x, BOTTOM + 5.0)], AXIS);
            svg.text((x, BOTTOM + 20.0), Anchor::Middle, &number(mark));
        }
        svg.line(&[(left, TOP), (left, BOTTOM), (right, BOTTOM)], AXIS);
        let middle = (left + right) / 2.0;
        svg.text((middle, BOTTOM + 42.0), Anchor::Middle, self.panel.across);
    }

    fn limits(&self, svg: &mut Svg) {
        for limit in &self.panel.limits {
            let ends = [limit.from, limit.to].map(|x| self.place((x, limit.height)));
            svg.line(&ends, LIMIT);
            let words = format!("limit {} {}", number(limit.height), self.panel.unit);
            svg.text((ends[0].0 + 6.0, ends[0].1 - 6.0), Anchor::Start, &words);
        }
    }

    /// At the end of each line, its name and last value.
    fn ends(&self, svg: &mut Svg) {
        let lasts = self
            .panel
            .lines
            .iter()
            .map(|line| line.points[line.points.len() - 1]);
        let places: Vec<f64> = lasts.clone().map(|last| self.up.place(last.1)).collect();
        let places = spread(&places, ROW - 2.0);
        for ((line, last), y) in self.panel.lines.iter().zip(lasts).zip(places) {
            let words = format!("{} {:.0} {}", line.name, last.1, self.panel.unit);
            let x = self.across.place(last.0) + 10.0;
            svg.text((x, y + HALF), Anchor::Start, &words);
        }
    }

    /// Above the field, what each line is, in two columns.
    fn legend(&self, svg: &mut Svg) {
        let left = self.across.places.0 - MARGIN;
        for (number, line) in self.panel.lines.iter().enumerate() {
            let x = left + COLUMN * (number % 2) as f64;
            let y = LEGEND + ROW * (number / 2) as f64;
            svg.line(&[(x, y), (x + 22.0, y)], pen(line));
            svg.text((x + 30.0, y + HALF), Anchor::Start, line.legend);
        }
    }
}

fn pen(line: &Line) -> Pen {
    Pen {
        colour: line.colour,
        width: 2.0,
        dashed: false,
    }
}

/// A mark's number, without a needless fraction.
fn number(value: f64) -> String {
    let rounded = (value * 100.0).round() / 100.0;
    rounded.to_string()
}

#[cfg(test)]
mod tests {
    use super::*;

    #[test]
    fn every_line_and_limit_is_drawn() {
        let panel = Panel {
            title: "a title",
            across: "levels",
            spacing: Spacing::Doubling,
            unit: "KiB",
            lines: vec![Line {
                name: "check",
                legend: "what it is",
                colour: BLUE,
                points: vec![(1.0, 10.0), (4.0, 20.0)],
            }],
            limits: vec![Limit {
                from: 1.0,
                to: 4.0,
                height: 32.0,
            }],
        };
        let svg = draw(&[panel], "words");
        for part in [
            "<title>words</title>",
            ">check 20 KiB<",
            ">what it is<",
            ">limit 32 KiB<",
            ">a title<",
        ] {
            assert!(svg.contains(part), "{part} is missing in {svg}");
        }
        assert_eq!(svg.matches("<circle").count(), 2);
    }

    #[test]
    fn numbers_are_short() {
        assert_eq!(
            [0.0, 0.5, 120.0, 0.1 + 0.2].map(number),
            ["0", "0.5", "120", "0.3"]
        );
    }
}
