//! The listing of a file, as the listing program prints it.

use crate::kind::Kind;
use crate::replies::{CheckReply, Fields};
use crate::vectors::left_out;

/// The listing of an accepted file: `entry` gives the fields and the name of an entry by its number.
pub fn listing(
    kind: Kind,
    checked: &CheckReply,
    mut entry: impl FnMut(u32) -> (Fields, Vec<u8>),
) -> String {
    let mut text = format!(
        "version {} entries {}{}\n",
        checked.version,
        checked.entries,
        left_out(checked)
    );
    for k in 0..checked.entries {
        let (fields, name) = entry(k);
        add_line(&mut text, kind, &fields, &name);
    }
    let tree = present(checked.has_tree, checked.nodes, "nodes");
    let undo = present(checked.has_undo, checked.records, "paths");
    text + &format!("cache tree {tree}\nresolve-undo {undo}\n")
}

/// The listing of a file that is refused.
pub fn refused(checked: &CheckReply) -> String {
    format!("refused {} at {}\n", checked.refusal, checked.place)
}

/// A number and what it counts, or the word for an absent extension.
fn present(present: bool, number: u32, counted: &str) -> String {
    match present {
        true => format!("{number} {counted}"),
        false => "none".to_string(),
    }
}

fn add_line(text: &mut String, kind: Kind, fields: &Fields, name: &[u8]) {
    *text += &format!("{:06o} ", fields.mode);
    for byte in &fields.object[..kind.width()] {
        *text += &format!("{byte:02x}");
    }
    *text += &format!(" {}\t", fields.stage);
    for byte in name {
        match byte {
            b'\\' | 0..=31 | 127.. => *text += &format!("\\{byte:03o}"),
            _ => text.push(char::from(*byte)),
        }
    }
    text.push('\n');
}
