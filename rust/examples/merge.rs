//! Merges two queries: the files LEFT, RIGHT and JOINS, or the answer's refusal.

use std::error::Error;
use std::io::{self, Write};
use std::{env, fs};

fn main() -> Result<(), Box<dyn Error>> {
    let texts: Vec<Vec<u8>> = env::args()
        .skip(1)
        .map(fs::read)
        .collect::<Result<_, _>>()?;
    let [left, right, joins] = texts.as_slice() else {
        return Err("expected LEFT RIGHT JOINS".into());
    };
    let merged = gandeuch::merge_queries(left, right, joins, b"", b"")?;
    io::stdout().write_all(&merged)?;
    Ok(())
}
