//! The header and the Rust crate speak of the same functions.

use std::collections::BTreeSet;
use std::path::Path;

/// The names in a file that begin with the project's prefix and are followed by one of these characters.
fn names(path: &str, behind: &[char]) -> BTreeSet<String> {
    let path = Path::new(env!("CARGO_MANIFEST_DIR"))
        .join("../..")
        .join(path);
    let text = std::fs::read_to_string(path).expect("a file of the project");
    let mut names = BTreeSet::new();
    for (place, prefix) in text.match_indices("pealvixen_") {
        let rest = &text[place + prefix.len()..];
        let end = rest
            .find(|c: char| !c.is_ascii_alphanumeric() && c != '_')
            .unwrap_or(rest.len());
        if rest[end..].starts_with(behind) {
            names.insert(rest[..end].to_string());
        }
    }
    names
}

#[test]
fn header_and_crate_declare_the_same_functions() {
    let header = names("include/pealvixen.h", &['(']);
    let declared = names("rust/pealvixen/src/lent.rs", &['(', ':']);
    assert_eq!(header, declared);
    assert_eq!(header.len(), 15);
}
