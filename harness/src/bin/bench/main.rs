//! The figures of the library, each beside the one that it is to be read with. Without an argument all are measured,
//! and the page docs/SPEED.md is written.

#![deny(warnings)]

mod calls;
mod check;
mod edits;
mod entries;
mod hash;
mod hostile;
mod levels;
mod machine;
mod page;
mod part;
mod plot;
mod rewritten;
mod scale;
mod size;
mod stack;
mod svg;
mod table;
mod trees;
mod versions;

use part::Part;
use std::env;
use std::process::exit;

/// A part's name, and what measures it.
type Measure = (&'static str, fn() -> Result<Part, String>);

/// The parts in the page's order.
const PARTS: [Measure; 8] = [
    ("size", size::figures),
    ("check", check::figures),
    ("hash", hash::figures),
    ("entries", entries::figures),
    ("edits", edits::figures),
    ("versions", versions::figures),
    ("stack", stack::figures),
    ("hostile", hostile::figures),
];

fn main() {
    let arguments = env::args_os().skip(1);
    let arguments: Vec<String> = arguments
        .map(|argument| argument.to_string_lossy().into_owned())
        .collect();
    let arguments: Vec<&str> = arguments.iter().map(String::as_str).collect();
    if let Err(message) = run(&arguments) {
        eprintln!("bench: {message}");
        exit(1);
    }
}

fn run(arguments: &[&str]) -> Result<(), String> {
    match arguments {
        [] => all(),
        [name] => {
            let part = PARTS.into_iter().find(|part| part.0 == *name);
            let (_, figures) = part.unwrap_or_else(|| usage());
            one(arguments, figures)
        }
        ["hostile", kib, rest @ ..] if rest.len() <= 1 => {
            let kib = kib.parse().unwrap_or_else(|_| usage());
            let name = rest.first().unwrap_or(&"");
            one(arguments, || hostile::figures_of(kib, name))
        }
        ["versions", files @ ..] => one(arguments, || versions::figures_of(files)),
        _ => usage(),
    }
}

/// Prints one part, and nothing where it can't be measured.
fn one(arguments: &[&str], figures: impl FnOnce() -> Result<Part, String>) -> Result<(), String> {
    let command = [&["./bench"], arguments].concat().join(" ");
    let part = figures()?;
    println!("{}", page::head(&command));
    print!("{}", part.text);
    Ok(())
}

/// Prints all parts, each when it is measured, and writes the page.
fn all() -> Result<(), String> {
    page::writable()?;
    println!("{}", page::head("./bench"));
    let mut parts = Vec::new();
    for (number, (name, figures)) in PARTS.iter().enumerate() {
        eprintln!("bench: part {} of {}: {name}", number + 1, PARTS.len());
        let part = figures()?;
        println!("{}", part.text);
        parts.push(part);
    }
    page::write(parts)
}

fn usage() -> ! {
    eprintln!(
        "usage: bench [size | check | hash | entries | edits | versions [INDEX...] | stack | hostile [KIB [NAME]]]"
    );
    exit(2);
}
