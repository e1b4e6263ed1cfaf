//! Property paths in their field.
#![cfg(feature = "spargebra")]

use gandeuch::layout::{self, ReadError};
use spargebra::algebra::GraphPattern;

fn path(path: &str) -> Result<GraphPattern, ReadError> {
    layout::read_pattern(format!("path\t?a\t{path}\t?b\n").as_bytes())
}

#[test]
fn paths_come_back() {
    let good = [
        "<p>",
        "^<p>",
        "<p>*",
        "^<p>+",
        "(^<p>)?",
        "(<p>*)*",
        "^(^<p>)",
        "<p>/<q>",
        "<p>/<q>/<r>",
        "<p>/(<q>/<r>)",
        "<p>/(<q>|<r>)",
        "<p>|^<q>/<r>",
        "<p>|(<q>|<r>)",
        "(<p>*/!(<q>|<r>))*",
        "!()",
        "!(<p>)",
    ];
    for spelled in good {
        let text = format!("path\t?a\t{spelled}\t?b\n").into_bytes();
        let tree = path(spelled).expect(spelled);
        assert_eq!(layout::write_pattern(&tree), Ok(text), "{spelled}");
    }
}

#[test]
fn paths_are_read_as_in_sparql() {
    let same = [
        ("( <p> / <q> )", "<p>/<q>"),
        ("(<p>/<q>)/<r>", "<p>/<q>/<r>"),
        ("<p>|<q>/<r>", "<p>|(<q>/<r>)"),
        ("<p>/<q>|<r>", "(<p>/<q>)|<r>"),
        ("^<p>*", "^(<p>*)"),
        ("<p>/^<q>", "<p>/(^<q>)"),
        ("!<p>", "!(<p>)"),
        ("((<p>))", "<p>"),
    ];
    for (spelled, written) in same {
        assert_eq!(path(spelled), path(written), "{spelled}");
        assert!(path(spelled).is_ok(), "{spelled}");
    }
    let bad = [
        "?p", "p", "a", "<p", "(<p>", "(<p>/<q>", "<p>/", "^^<p>", "<p>**", "!(<p>|)", "<p><q>",
        "<p>x", "!(^<p>)",
    ];
    for spelled in bad {
        assert_eq!(path(spelled), Err(ReadError::Term { line: 1 }), "{spelled}");
    }
}
