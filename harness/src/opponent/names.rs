//! Names of entries and paths of resolve undo.

/// The most bytes of a name.
const LONGEST: usize = 8192;

/// One more than the bytes of the longest bad component.
const ENOUGH: usize = 5;

/// Whether an entry may have this name, of which the first `kept` bytes begin a name that one may have.
pub fn sound(name: &[u8], kept: usize) -> bool {
    // A component of which enough is kept is a good one, whatever follows.
    let near = kept.saturating_sub(ENOUGH);
    let slash = name[near..kept].iter().rposition(|byte| *byte == b'/');
    let start = slash.map_or(near, |slash| near + slash + 1);
    name.len() <= LONGEST
        && !name[kept..].contains(&0)
        && name[start..].split(|byte| *byte == b'/').all(good)
}

/// The place of the first NUL from a place on.
pub fn nul(bytes: &[u8], from: usize) -> Option<usize> {
    let length = bytes[from..].iter().position(|byte| *byte == 0)?;
    Some(from + length)
}

/// How many bytes two names have in common at their beginning.
pub fn common(one: &[u8], other: &[u8]) -> usize {
    let pairs = one.iter().zip(other);
    pairs.take_while(|(a, b)| a == b).count()
}

fn good(component: &[u8]) -> bool {
    !matches!(component, b"" | b"." | b".." | b".git")
}
