//! The deepest stack of each call over the files that take most.

use crate::calls::{Request, CALLS};
use crate::levels::{self, AIM, SHALLOW_AIM};
use crate::part::{progress, Part};
use crate::table::{kib, Table};
use harness::deepest::{files, SHALLOW};
use harness::kind::Kind;

const TEXT: &str = "The deepest stack of each call in KiB: on files of every depth, whose cache trees have up to 128 levels, \
    and on those of at most 16 levels; the root is the first. The files are chains of directories, searches of every \
    kind for a sibling, long names, and short ones of the files that were made to be slow. A call runs on a stack that \
    was painted before, and what lost the paint is counted.";

pub fn figures() -> Result<Part, String> {
    let (any, shallow) = deepest()?;
    let series = levels::measure()?;
    let mut part = Part::new("Stack");
    part.add(TEXT);
    part.add(call_table(&any, &shallow));
    part.add(verdict(&any, &shallow));
    part.add(levels::TEXT);
    part.add(levels::table(&series));
    for (what, deepest, aim) in [
        ("the deepest stack of a call", &any, AIM),
        (
            "the same on trees of at most 16 levels",
            &shallow,
            SHALLOW_AIM,
        ),
    ] {
        part.add_short(
            what,
            format!("{:.1} KiB", most(deepest)),
            format!("{aim:.0} KiB"),
        );
    }
    part.panel = Some(levels::panel(&series));
    Ok(part)
}

/// The bytes that a call took at most, and on which file.
type Deepest = Vec<(usize, String)>;

/// The deepest of each call on all files, and on those with shallow trees.
fn deepest() -> Result<(Deepest, Deepest), String> {
    let mut any = vec![(0, String::new()); CALLS.len()];
    let mut shallow = any.clone();
    let files = Kind::ALL
        .into_iter()
        .flat_map(|kind| files(kind).into_iter().map(move |file| (kind, file)));
    for (kind, file) in files {
        let name = named(kind, &file.case.name);
        progress("stack", &name);
        let mut request = Request::new(kind, &file.case, file.levels)?;
        for asked in [2, 4] {
            request.asked = asked;
            let depths = CALLS.map(|(_, call)| call(&mut request));
            keep(&mut any, &depths, &name);
            if file.levels <= SHALLOW {
                keep(&mut shallow, &depths, &name);
            }
        }
    }
    Ok((any, shallow))
}

/// A file's name, with its kind where that is not SHA-1.
fn named(kind: Kind, name: &str) -> String {
    match kind {
        Kind::Sha1 => name.to_string(),
        _ => format!("{}: {name}", kind.name()),
    }
}

fn keep(deepest: &mut Deepest, depths: &[usize], name: &str) {
    for (most, &bytes) in deepest.iter_mut().zip(depths) {
        if bytes > most.0 {
            *most = (bytes, name.to_string());
        }
    }
}

fn call_table(any: &Deepest, shallow: &Deepest) -> Table {
    let shallow_head = format!("at most {SHALLOW} levels");
    let mut table = Table::new(&[
        "Call",
        "any depth",
        "deepest on",
        &shallow_head,
        "deepest on",
    ]);
    for ((call, _), (any, shallow)) in CALLS.iter().zip(any.iter().zip(shallow)) {
        table.row(vec![
            call.to_string(),
            format!("{:.1}", kib(any.0)),
            any.1.clone(),
            format!("{:.1}", kib(shallow.0)),
            shallow.1.clone(),
        ]);
    }
    table
}

/// The KiB of the deepest call.
fn most(deepest: &Deepest) -> f64 {
    kib(deepest.iter().map(|(bytes, _)| *bytes).max().unwrap_or(0))
}

fn verdict(any: &Deepest, shallow: &Deepest) -> String {
    let told = |kib: f64, aim: f64| {
        let met = if kib <= aim { "is kept" } else { "is not kept" };
        format!("{kib:.1} KiB, and the limit of {aim:.0} {met}")
    };
    format!(
        "The deepest call takes {}; on files of at most {SHALLOW} levels, {}. The start of a thread takes some KiB \
        more.",
        told(most(any), AIM),
        told(most(shallow), SHALLOW_AIM)
    )
}
