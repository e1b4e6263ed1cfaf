//! Runs nemo's query rewriting on texts in the layout. Takes well-formed texts only.
//!
//!     driver MODE                one case, from standard input to standard output
//!     driver batch MODE          many cases, each followed by a line `====`; the answers likewise
//!     driver bench MODE FILE N   nanoseconds for one call, over N calls from memory to memory
//!
//! MODE is `scope` (a tree), `rename` (a tree, a mapping), `standardize PREFIX` (a tree), `copy` (a tree, read and
//! written back), `merge` or `merge_queries` (two trees or queries, a join list, two constant lists), `push` (a query, a
//! constant list), `negate` (a query), `bindings` (a tree, binding sets) or `filters` (a tree, filters). The texts are
//! parted by lines `--`.
//!
//! Where nemo's function gives None the answer is a line `none`, where it panics a line `panicked`.

#[allow(dead_code)]
mod functions;
mod opaque;
#[allow(dead_code)]
mod queries;
mod read;
#[allow(dead_code, unused_imports)]
mod tree;
mod write;

use std::collections::HashSet;
use std::io::{Read, Write};
use std::{env, fs, hint, io, panic, time};

use oxrdf::Variable;
use opaque::Places;

enum Mode {
    Scope,
    Rename,
    Standardize(String),
    Copy,
    Merge,
    MergeQueries,
    Push,
    Negate,
    Bindings,
    Filters,
}

fn main() {
    let mut arguments = env::args().skip(1);
    let command = arguments.next().expect("a mode, batch or bench");
    match command.as_str() {
        "batch" => batch(&mode(&mut arguments)),
        "bench" => {
            let mode = mode(&mut arguments);
            bench(&mode, &mut arguments);
        }
        _ => {
            let mode = mode(&mut [command].into_iter().chain(arguments));
            print(&answer(&mode, &parted(&decode(&input()))));
        }
    }
}

fn mode(arguments: &mut impl Iterator<Item = String>) -> Mode {
    match arguments.next().expect("a mode").as_str() {
        "scope" => Mode::Scope,
        "rename" => Mode::Rename,
        "standardize" => Mode::Standardize(arguments.next().expect("a prefix")),
        "copy" => Mode::Copy,
        "merge" => Mode::Merge,
        "merge_queries" => Mode::MergeQueries,
        "push" => Mode::Push,
        "negate" => Mode::Negate,
        "bindings" => Mode::Bindings,
        "filters" => Mode::Filters,
        other => panic!("{other} is no mode"),
    }
}

fn answer(mode: &Mode, texts: &[&str]) -> String {
    panic::catch_unwind(|| {
        let mut out = String::new();
        work(mode, texts, &mut out);
        out
    })
    .unwrap_or("panicked\n".to_string())
}

/// Reads the texts, does the work and writes the answer.
fn work(mode: &Mode, texts: &[&str], out: &mut String) {
    match (mode, texts) {
        (Mode::Scope, [tree]) => {
            let (tree, places) = read::tree_and_places(tree);
            let (in_scope, hidden) = queries::scope(&tree);
            write::set(out, "in", by_place(&in_scope, &places));
            write::set(out, "hid", by_place(&hidden, &places));
        }
        (Mode::Rename, [tree, mapping]) => {
            let renamed = queries::rename(&read::tree(tree), &read::mapping(mapping));
            write::pattern(out, &renamed);
        }
        (Mode::Standardize(prefix), [tree]) => {
            write::pattern(out, &queries::standardize(prefix, &read::tree(tree)));
        }
        (Mode::Copy, [tree]) => write::pattern(out, &read::tree(tree)),
        (Mode::Merge, [left, right, joins, left_constants, right_constants]) => {
            let merged = queries::merge_project_patterns(
                &read::tree(left),
                &read::tree(right),
                &read::joins(joins),
                &read::constants(left_constants),
                &read::constants(right_constants),
            );
            write::or_none(out, merged.as_ref(), write::pattern);
        }
        (Mode::MergeQueries, [left, right, joins, left_constants, right_constants]) => {
            let merged = queries::merge_queries(
                &read::query(left),
                &read::query(right),
                &read::joins(joins),
                &read::constants(left_constants),
                &read::constants(right_constants),
            );
            write::or_none(out, merged.as_ref(), write::query);
        }
        (Mode::Push, [query, constants]) => {
            let pushed = queries::push_constants(&read::query(query), &read::constants(constants));
            write::query(out, &pushed);
        }
        (Mode::Negate, [query]) => {
            write::query(out, &queries::negate_query(&read::query(query)));
        }
        (Mode::Bindings, [tree, sets]) => {
            let bound = queries::pattern_with_bindings(&read::tree(tree), &read::sets(sets));
            write::pattern(out, &bound);
        }
        (Mode::Filters, [tree, filters]) => {
            let (filtered, remaining) =
                queries::pattern_with_filters(&read::tree(tree), &read::filters(filters));
            assert!(remaining.is_empty());
            write::pattern(out, &filtered);
        }
        _ => panic!("another number of texts"),
    }
}

fn by_place<'s>(set: &'s HashSet<Variable>, places: &Places) -> Vec<&'s Variable> {
    let mut variables: Vec<_> = set.iter().collect();
    variables.sort_by_key(|variable| places[variable.as_str()]);
    variables
}

fn batch(mode: &Mode) {
    panic::set_hook(Box::new(|_| {}));
    let text = decode(&input());
    let mut out = String::new();
    let mut rest = text.as_str();
    while let Some((case, after)) = rest.split_once("\n====\n") {
        out.push_str(&answer(mode, &parted(&format!("{case}\n"))));
        out.push_str("====\n");
        rest = after;
    }
    print(&out);
}

fn bench(mode: &Mode, arguments: &mut impl Iterator<Item = String>) {
    let file = arguments.next().expect("a file");
    let count: u32 = arguments.next().expect("a count").parse().expect("a count");
    let text = decode(&fs::read(file).expect("a file that can be read"));
    let mut out = String::with_capacity(1 << 17);
    let start = time::Instant::now();
    for _ in 0..count {
        out.clear();
        work(mode, &parted(hint::black_box(&text)), &mut out);
        hint::black_box(&out);
    }
    println!("{}", start.elapsed().as_nanos() / u128::from(count.max(1)));
}

/// The texts before, between and after lines `--`.
fn parted(case: &str) -> Vec<&str> {
    let mut texts = Vec::new();
    let (mut start, mut end) = (0, 0);
    for line in case.split_inclusive('\n') {
        if line == "--\n" {
            texts.push(&case[start..end]);
            start = end + line.len();
        }
        end += line.len();
    }
    texts.push(&case[start..]);
    texts
}

fn input() -> Vec<u8> {
    let mut bytes = Vec::new();
    io::stdin().read_to_end(&mut bytes).expect("standard input");
    bytes
}

fn print(text: &str) {
    io::stdout()
        .write_all(&encode(text))
        .expect("standard output");
}

/// Each byte as the character of its number, so that any byte may stand in a name.
fn decode(bytes: &[u8]) -> String {
    bytes.iter().map(|byte| char::from(*byte)).collect()
}

fn encode(text: &str) -> Vec<u8> {
    text.chars().map(|character| character as u8).collect()
}
