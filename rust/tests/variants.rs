//! The examples of `docs/VARIANTS.md` in the repository are read as the variants that they stand for, and come back as they were.
#![cfg(feature = "spargebra")]

use gandeuch::layout::{self, ReadError, WriteError};

const PAGE: &str = include_str!("../../docs/VARIANTS.md");

/// From each row of a table the variant's name, and the example: a space stands for a tab, ` / ` for a line end but the last.
fn examples() -> impl Iterator<Item = (String, String)> {
    let rows = PAGE.lines().filter(|line| line.starts_with("| `"));
    rows.map(|row| {
        let row = row.replace("\\|", "\0");
        let cells: Vec<_> = row.split(" | ").collect();
        let (first, last) = (cells[0], cells[cells.len() - 1]);
        let (_, name) = first.split_once("::").expect("a variant");
        let name = name.split('`').next().expect("a name");
        let example = last.trim_end_matches(" |").trim_matches('`');
        let lines = example.split(" / ").map(|line| line.replace(' ', "\t"));
        let text: String = lines.map(|line| line + "\n").collect();
        (name.to_string(), text.replace('\0', "|"))
    })
}

type Written = Result<Vec<u8>, WriteError>;

/// How Rust shows what a text is read as, and what is written for it.
fn read(text: &str) -> Result<(String, Written), ReadError> {
    if text.starts_with("query\t") {
        let query = layout::read_query(text.as_bytes())?;
        Ok((format!("{query:?}"), layout::write_query(&query)))
    } else {
        let tree = layout::read_pattern(text.as_bytes())?;
        Ok((format!("{tree:?}"), layout::write_pattern(&tree)))
    }
}

#[test]
fn examples_are_read_as_their_variants_and_come_back() {
    let mut count = 0;
    for (name, text) in examples() {
        // Its dataset isn't spelled as SPARQL's clauses.
        if text.starts_with("query\tconstruct\t<g>\t") {
            assert_eq!(read(&text), Err(ReadError::Term { line: 1 }));
            continue;
        }
        let (shown, written) = read(&text).expect(&text);
        let mut words = shown.split(|character: char| !character.is_alphanumeric());
        assert!(words.any(|word| word == name), "{name}: {shown}");
        assert_eq!(written, Ok(text.clone().into_bytes()), "{text}");
        count += 1;
    }
    assert!(count > 100);
}
