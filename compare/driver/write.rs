//! Writes trees, queries and scopes in the layout.

use oxrdf::Variable;
use spargebra::Query;
use spargebra::algebra::GraphPattern;

use crate::opaque::Opaque;
use crate::tree::Writer;

/// A line with a set of variables.
pub fn set<'v>(out: &mut String, word: &str, variables: impl IntoIterator<Item = &'v Variable>) {
    let written = writer(out).variables(word, variables);
    written.expect("variables");
}

/// What a function gave, by its writer, or a line `none`.
pub fn or_none<T>(out: &mut String, given: Option<&T>, writer: fn(&mut String, &T)) {
    match given {
        None => out.push_str("none\n"),
        Some(given) => writer(out, given),
    }
}

pub fn query(out: &mut String, query: &Query) {
    writer(out).query(query).expect("a query");
}

pub fn pattern(out: &mut String, tree: &GraphPattern) {
    writer(out).pattern(tree).expect("a tree");
}

fn writer(out: &mut String) -> Writer<'_, Opaque<'static>> {
    Writer::new(out)
}
