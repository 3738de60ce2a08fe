//! Check's stack by the levels of the cache tree.

use crate::calls::depth;
use crate::part::progress;
use crate::plot::{Limit, Line, Panel, Spacing, BLUE, RED};
use crate::table::{kib, Table};
use harness::deepest::{LEVELS, SHALLOW, SHORT};
use harness::kind::Kind;
use harness::replies::WORKSPACE;
use harness::{ffi, hostile};

/// The object names of the files.
const KIND: Kind = Kind::Sha1;

pub const TEXT: &str = "Check by the levels of the tree: on a plain file, with one entry on the last level, and on the \
    file that takes most. The plot shows the same figures.";

/// How many KiB a call shall take at most, on any file and on one with a shallow tree.
pub const AIM: f64 = 64.0;
pub const SHALLOW_AIM: f64 = 32.0;

/// Check's bytes of stack on a tree of the given number of levels: on a plain file, and on the file that takes most.
pub struct Level {
    levels: usize,
    plain: usize,
    most: usize,
}

pub fn measure() -> Result<Vec<Level>, String> {
    LEVELS.into_iter().map(level).collect()
}

fn level(levels: usize) -> Result<Level, String> {
    progress("stack", &format!("check on {levels} levels"));
    let plain = check_depth(&hostile::entry_on_level(KIND, levels, 2))?;
    let mut cases = hostile::deep_cases(KIND, levels, SHORT);
    cases.extend(hostile::search_cases(KIND, levels));
    let depths: Result<Vec<usize>, String> =
        cases.iter().map(|case| check_depth(&case.bytes)).collect();
    Ok(Level {
        levels,
        plain,
        most: depths?.into_iter().max().unwrap_or(0),
    })
}

fn check_depth(file: &[u8]) -> Result<usize, String> {
    let mut work = vec![0; WORKSPACE];
    let mut refusal = 0;
    let bytes = depth(|| refusal = ffi::check(KIND.number(), file, &mut work).refusal);
    match refusal {
        0 => Ok(bytes),
        _ => Err(format!("a deep file is refused with {refusal}")),
    }
}

pub fn table(series: &[Level]) -> Table {
    let mut table = Table::new(&["Levels", "plain file, KiB", "the most, KiB"]);
    for level in series {
        table.row(vec![
            level.levels.to_string(),
            format!("{:.1}", kib(level.plain)),
            format!("{:.1}", kib(level.most)),
        ]);
    }
    table
}

pub fn panel(series: &[Level]) -> Panel {
    let points = |bytes: fn(&Level) -> usize| {
        let point = |level: &Level| (level.levels as f64, kib(bytes(level)));
        series.iter().map(point).collect()
    };
    Panel {
        title: "Stack of check by depth",
        across: "levels of the cache tree",
        spacing: Spacing::Doubling,
        unit: "KiB",
        lines: vec![
            Line {
                name: "worst",
                legend: "the file that takes most",
                colour: RED,
                points: points(|level| level.most),
            },
            Line {
                name: "plain",
                legend: "a plain file with one entry",
                colour: BLUE,
                points: points(|level| level.plain),
            },
        ],
        limits: vec![
            Limit {
                from: 1.0,
                to: SHALLOW as f64,
                height: SHALLOW_AIM,
            },
            Limit {
                from: SHALLOW as f64,
                to: hostile::LEVELS as f64,
                height: AIM,
            },
        ],
    }
}
