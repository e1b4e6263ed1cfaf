//! The recorded inputs and answers of `tests/vectors` in the repository. `compare/vectors.py` says how they are laid out.

use std::fs;
use std::path::Path;

/// What a program reads, in its texts, and what it has to write.
pub struct Case {
    pub texts: Vec<Vec<u8>>,
    pub answer: Vec<u8>,
}

/// Each file's name and cases.
pub fn all() -> Vec<(String, Vec<Case>)> {
    let folder = Path::new(env!("CARGO_MANIFEST_DIR")).join("../tests/vectors");
    let mut files: Vec<_> = fs::read_dir(folder)
        .expect("the folder of vectors")
        .map(|file| file.expect("a file").path())
        .filter(|file| file.extension().is_some_and(|end| end == "txt"))
        .collect();
    files.sort();
    files
        .iter()
        .map(|file| {
            let name = file.file_stem().expect("a name").to_string_lossy();
            let text = fs::read_to_string(file).expect("a file of ASCII");
            let cases: Vec<_> = text
                .split_terminator("\n====\n")
                .skip(1)
                .map(case)
                .collect();
            assert!(!cases.is_empty(), "{name}: no cases");
            (name.into_owned(), cases)
        })
        .collect()
}

fn case(text: &str) -> Case {
    let (input, answer) = text.split_once("\n->\n").expect("a line ->");
    let mut texts = vec![Vec::new()];
    for line in input.split('\n') {
        match line {
            "--" => texts.push(Vec::new()),
            line => {
                let text = texts.last_mut().expect("one at least");
                text.extend(unescaped(line));
                text.push(b'\n');
            }
        }
    }
    let mut answer = unescaped(answer);
    answer.push(b'\n');
    Case { texts, answer }
}

/// `%` and two hexadecimal digits stand for a byte.
fn unescaped(text: &str) -> Vec<u8> {
    let mut parts = text.split('%');
    let mut bytes = parts.next().unwrap_or_default().as_bytes().to_vec();
    for part in parts {
        bytes.push(u8::from_str_radix(&part[..2], 16).expect("two digits"));
        bytes.extend(&part.as_bytes()[2..]);
    }
    bytes
}
