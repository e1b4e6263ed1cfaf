//! Round trips of the recorded trees, damaged texts held against the proved check, and one text for each form of a field.

use super::opaque::Opaque;
use super::tree::{Reader, Writer};
use super::{ReadError, read_pattern, read_query, write_pattern, write_query};
use crate::Refusal;
use crate::tests::recorded;

/// The text with the two lines that an empty file is read as.
fn whole(mut text: Vec<u8>) -> Vec<u8> {
    let lines = text.split_inclusive(|byte| *byte == b'\n').count();
    if lines == usize::from(is_query(&text)) {
        text.extend(b"project\nbgp\t0\n");
    }
    text
}

/// The trees and queries of all recorded inputs and answers.
fn texts() -> Vec<Vec<u8>> {
    let mut texts = Vec::new();
    for (name, cases) in recorded::all() {
        let inputs = if name.starts_with("merge") { 2 } else { 1 };
        for case in cases {
            texts.extend(case.texts.into_iter().take(inputs).map(whole));
            if name != "scope" {
                texts.push(case.answer);
            }
        }
    }
    texts
}

fn is_query(text: &[u8]) -> bool {
    text.starts_with(b"query\t")
}

/// Read and written with fields as they are, each byte as the character of its number.
fn copied(text: &[u8]) -> Result<Vec<u8>, ReadError> {
    let text: String = text.iter().map(|byte| char::from(*byte)).collect();
    let mut out = String::new();
    let mut reader = Reader::new(&text, Opaque::new(false));
    let mut writer = Writer::<Opaque>::new(&mut out);
    let written = if is_query(text.as_bytes()) {
        writer.query(&reader.query()?)
    } else {
        writer.pattern(&reader.tree()?)
    };
    written.expect("what was read");
    reader.end()?;
    Ok(out.chars().map(|character| character as u8).collect())
}

/// Read and written as a user's text.
fn rewritten(text: &[u8]) -> Result<Vec<u8>, ReadError> {
    let written = if is_query(text) {
        write_query(&read_query(text)?)
    } else {
        write_pattern(&read_pattern(text)?)
    };
    Ok(written.expect("what was read"))
}

#[test]
fn recorded_trees_come_back() {
    let texts = texts();
    assert!(texts.len() > 1_000);
    for text in &texts {
        let copy = copied(text);
        assert_eq!(copy.as_ref(), Ok(text), "{}", text.escape_ascii());
    }
}

/// The recorded trees have many fields that spargebra can't hold; the others come back as they were.
#[test]
fn recorded_trees_of_spargebra_come_back() {
    let mut came_back = 0;
    for text in texts() {
        match rewritten(&text) {
            Ok(written) => {
                assert_eq!(written, text, "{}", text.escape_ascii());
                came_back += 1;
            }
            Err(ReadError::Term { .. } | ReadError::NotUtf8) => {}
            Err(error) => panic!("{error}: {}", text.escape_ascii()),
        }
    }
    println!("came back: {came_back}");
    assert!(came_back > 100);
}

/// Numbers that look random, the same every time.
struct Numbers(u64);

impl Numbers {
    fn below(&mut self, bound: usize) -> usize {
        self.0 = self.0.wrapping_mul(6364136223846793005).wrapping_add(1);
        (self.0 >> 33) as usize % bound.max(1)
    }
}

/// The text with one thing changed: a byte, a field's or line's end, a line taken out, doubled or moved.
fn damaged(text: &[u8], numbers: &mut Numbers) -> Vec<u8> {
    let mut lines: Vec<_> = text.split_inclusive(|byte| *byte == b'\n').collect();
    let place = numbers.below(lines.len());
    let other = numbers.below(lines.len());
    match numbers.below(6) {
        0 => drop(lines.remove(place)),
        1 => lines.insert(other, lines[place]),
        2 => lines.swap(place, other),
        3 => return text[..numbers.below(text.len())].to_vec(),
        _ => {
            let marks = b"\t\n?<>\"_-012:abt ";
            let mut text = text.to_vec();
            let place = numbers.below(text.len());
            match numbers.below(3) {
                0 => drop(text.remove(place)),
                1 => text[place] = marks[numbers.below(marks.len())],
                _ => text.insert(place, marks[numbers.below(marks.len())]),
            }
            return text;
        }
    }
    lines.concat()
}

/// A text is read exactly if the library takes it, but for what the reader leaves to the library: bounds, and a name's length.
#[test]
fn damaged_texts_are_read_where_the_library_takes_them() {
    let mut numbers = Numbers(1);
    let (mut taken, mut refused) = (0, 0);
    for text in texts() {
        for _ in 0..10 {
            let text = damaged(&text, &mut numbers);
            let long = |field: &[u8]| field.len() > 129;
            let checked = match is_query(&text) {
                true => crate::negate(&text),
                false => crate::scope(&text),
            };
            match checked {
                Ok(_) => {
                    let given = whole(text.clone());
                    assert_eq!(copied(&text), Ok(given), "{}", text.escape_ascii());
                    taken += 1;
                }
                Err(Refusal::OverBound) => {}
                Err(_) if text.split(|byte| b"\t\n".contains(byte)).any(long) => {}
                Err(_) => {
                    assert!(copied(&text).is_err(), "{}", text.escape_ascii());
                    refused += 1;
                }
            }
            if let Ok(written) = rewritten(&text) {
                assert_eq!(rewritten(&written).as_ref(), Ok(&written));
            }
        }
    }
    println!("taken: {taken}, refused: {refused}");
    assert!(taken > 1_000 && refused > 1_000);
}
