//! The cases of `harness::edits` notice wrong writers: copies of the independent library with one mistake each, which
//! are built into one program.

#![deny(warnings)]

use std::env;
use std::fs;
use std::path::Path;
use std::process::Command;

const OPPONENT: &str = concat!(env!("CARGO_MANIFEST_DIR"), "/src/opponent");
/// The folder of the program.
const FOLDER: &str = concat!(env!("CARGO_TARGET_TMPDIR"), "/wrong-writers");

const MANIFEST: &str = concat!(
    r#"[package]
name = "wrong-writers"
version = "0.1.0"
edition = "2021"

[dependencies]
harness = { path = ""#,
    env!("CARGO_MANIFEST_DIR"),
    r#"" }
nerupazhil = { path = ""#,
    env!("CARGO_MANIFEST_DIR"),
    r#"/../rust" }

[profile.dev]
debug = false
incremental = false

[profile.dev.package."*"]
opt-level = 2
"#
);

/// Prints, for each writer, the first case that it answers otherwise.
const MAIN: &str = r#"
fn main() {
    std::panic::set_hook(Box::new(|_| ()));
    let kinds = kind::Kind::ALL;
    let groups = |kind| edits::GROUPS.iter().flat_map(move |(_, group)| group(kind));
    let mut cases: Vec<_> = kinds.into_iter().flat_map(groups).collect();
    cases.sort_by_key(|case| case.file.len());
    for writer in WRITERS {
        println!("{}", edits::first_difference(writer, &cases, kinds[0]).unwrap_or_default());
    }
}
"#;

/// What is wrong with a writer: a file, and the texts that are there with the texts in their places.
#[derive(Default)]
struct Mistake {
    what: &'static str,
    file: &'static str,
    edits: Vec<(String, String)>,
}

/// The mistakes of the table, after a writer that has none.
fn writers() -> Vec<Mistake> {
    let mut found = vec![Mistake::default()];
    let mut before = "";
    for line in include_str!("mistakes.txt").lines() {
        let (sign, text) = line.split_at(line.len().min(2));
        let edits = found.last_mut().map(|mistake| &mut mistake.edits);
        match (sign.trim_end(), edits) {
            ("=", _) => {
                let (file, what) = text.split_once(": ").expect("a file and what is wrong");
                let edits = Vec::new();
                found.push(Mistake { what, file, edits });
            }
            ("-", Some(edits)) if before == "- " => {
                add_line(&mut edits.last_mut().unwrap().0, text)
            }
            ("-", Some(edits)) => edits.push((text.to_string(), String::new())),
            ("+", Some(edits)) => add_line(&mut edits.last_mut().unwrap().1, text),
            _ => (),
        }
        before = sign;
    }
    found
}

fn add_line(to: &mut String, line: &str) {
    if !to.is_empty() {
        to.push('\n');
    }
    to.push_str(line);
}

#[test]
fn every_wrong_writer_is_noticed() {
    let writers = writers();
    let source = Path::new(FOLDER).join("src");
    let _ = fs::remove_dir_all(&source);
    fs::create_dir_all(&source).unwrap();
    for (k, mistake) in writers.iter().enumerate() {
        copy(mistake, &source.join(format!("writer_{k}")));
    }
    fs::write(source.join("main.rs"), program(writers.len())).unwrap();
    fs::write(Path::new(FOLDER).join("Cargo.toml"), MANIFEST).unwrap();
    let told = run();
    let told: Vec<&str> = told.lines().collect();
    assert_eq!(told.len(), writers.len());
    assert_eq!(told[0], "", "the right writer");
    for (mistake, told) in writers.iter().zip(told).skip(1) {
        assert_ne!(told, "", "no case notices this: {}", mistake.what);
    }
}

/// The program that tries a number of writers.
fn program(writers: usize) -> String {
    let mut text =
        "#![allow(warnings)]\nuse harness::{answers, comparison, edits, kind, replies};\n"
            .to_string();
    let mut names = String::new();
    for k in 0..writers {
        text += &format!("mod writer_{k};\nanswers!(answer_{k}, writer_{k});\n");
        names += &format!("answer_{k}, ");
    }
    text += &format!("const WRITERS: [comparison::Answering; {writers}] = [{names}];\n");
    text + MAIN
}

/// Copies the independent library with a mistake.
fn copy(mistake: &Mistake, to: &Path) {
    fs::create_dir_all(to).unwrap();
    for file in fs::read_dir(OPPONENT).unwrap() {
        let (path, name) = file.map(|file| (file.path(), file.file_name())).unwrap();
        let mut text = fs::read_to_string(path).unwrap();
        if name == mistake.file {
            for (old, new) in &mistake.edits {
                let times = text.matches(&old[..]).count();
                assert_eq!(times, 1, "{}: how often there is {old}", mistake.what);
                text = text.replace(&old[..], new);
            }
        }
        fs::write(to.join(name), text).unwrap();
    }
}

/// Builds the program, in a folder of its own, and answers what it prints.
fn run() -> String {
    let mut command = Command::new(env!("CARGO"));
    command.args(["run", "--offline", "--quiet"]);
    command.current_dir(FOLDER);
    command.env("CARGO_TARGET_DIR", Path::new(FOLDER).join("target"));
    let output = command.output().expect("cargo runs");
    let told = String::from_utf8_lossy(&output.stderr);
    assert!(output.status.success(), "{told}");
    String::from_utf8(output.stdout).expect("text")
}
