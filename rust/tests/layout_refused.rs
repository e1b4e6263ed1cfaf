//! What isn't read, and what isn't written.
#![cfg(feature = "spargebra")]

mod written;

use gandeuch::layout::{self, ReadError, WriteError};
use spargebra::Query;
use spargebra::algebra::{GraphPattern, PropertyPathExpression, QueryDataset};
use spargebra::term::{NamedNodePattern, TermPattern, TriplePattern};

use written::{iri, named, text};

#[test]
fn what_is_no_tree_says_why() {
    let cases = [
        ("bgp|1", ReadError::Missing { line: 2 }),
        ("bgp|0/bgp|0", ReadError::LeftOver { line: 2 }),
        ("bgp|01", ReadError::Field { line: 1 }),
        ("bgp|+1", ReadError::Field { line: 1 }),
        ("bgp|4294967296", ReadError::Field { line: 1 }),
        ("bgp|4294967295", ReadError::Missing { line: 2 }),
        ("bgp", ReadError::Field { line: 1 }),
        ("bgp|0|", ReadError::Field { line: 1 }),
        ("bgp|1/x|?a|<p>|?b", ReadError::Word { line: 2 }),
        ("bgp|1/t|?a|\"p\"|?b", ReadError::Field { line: 2 }),
        ("bgp|1/t|?|<p>|?b", ReadError::Field { line: 2 }),
        ("bgp|1/t|?a|<p>|b", ReadError::Field { line: 2 }),
        ("filter/bgp|0/bgp|0", ReadError::Word { line: 3 }),
        ("values|1|1/cols|?a/row", ReadError::Field { line: 3 }),
        ("values|2|0/cols|?a", ReadError::Field { line: 2 }),
        ("leftjoin|2/bgp|0/bgp|0", ReadError::Field { line: 1 }),
        ("query|select|-|-/bgp|0", ReadError::Word { line: 1 }),
    ];
    for (lines, error) in cases {
        assert_eq!(layout::read_pattern(&text(lines)), Err(error), "{lines}");
    }
    assert_eq!(layout::read_query(b""), Err(ReadError::Missing { line: 1 }));
    assert_eq!(
        layout::read_pattern(b"\n"),
        Err(ReadError::Word { line: 1 })
    );
    assert_eq!(
        layout::read_pattern(b"bgp\t0"),
        Err(ReadError::Missing { line: 1 })
    );
    assert_eq!(
        layout::read_pattern(b"bgp\t\xFF\n"),
        Err(ReadError::NotUtf8)
    );
    let kind = layout::read_query(&text("query|delete|-|-/bgp|0"));
    assert_eq!(kind, Err(ReadError::Field { line: 1 }));
    let datasets = [
        "FROM<a>",
        "FROM <a>  FROM <b>",
        "FROM <a> ",
        "FROM NAMED",
        "FROM NAMED <a> FROM NAMED *",
        "<a>",
    ];
    for dataset in datasets {
        let read = layout::read_query(&text(&format!("query|ask|{dataset}|-/bgp|0")));
        assert_eq!(read, Err(ReadError::Term { line: 1 }), "{dataset}");
    }
}

/// Lines again and again, then a last one.
fn deep(lines: &str, count: usize, last: &str) -> Vec<u8> {
    [text(lines).repeat(count), text(last)].concat()
}

#[test]
fn depth_is_bounded() {
    for lines in ["distinct", "join/bgp|0", "filter/bgp|0/exists"] {
        let levels = lines.matches("exists").count() + 1;
        let text = deep(lines, 250 / levels, "bgp|0");
        let tree = layout::read_pattern(&text).expect(lines);
        assert_eq!(layout::write_pattern(&tree), Ok(text), "{lines}");
        let deeper = layout::read_pattern(&deep(lines, 100_000, "bgp|0"));
        assert!(matches!(deeper, Err(ReadError::TooDeep { .. })), "{lines}");
    }
}

#[test]
fn depth_of_paths_is_bounded() {
    let tree = |path: &str| {
        [
            text("distinct").repeat(255),
            format!("path\t?a\t{path}\t?b\n").into_bytes(),
        ]
        .concat()
    };
    for start in ["(", "^(", "<p>/(", "<p>|("] {
        let path = |count| {
            let (starts, ends) = (start.repeat(count), ")".repeat(count));
            layout::read_pattern(&tree(&format!("{starts}<p>{ends}")))
        };
        let deepest = path(64).expect(start);
        assert!(layout::write_pattern(&deepest).is_ok(), "{start}");
        assert_eq!(path(65), Err(ReadError::Term { line: 256 }), "{start}");
        assert_eq!(path(100_000), Err(ReadError::Term { line: 256 }), "{start}");
    }
    for long in ["/<p>", "|<p>", "|!<p>", "/(<p>)"] {
        let path = |count| layout::read_pattern(&tree(&format!("<p>{}", long.repeat(count))));
        let longest = path(200).expect(long);
        assert!(layout::write_pattern(&longest).is_ok(), "{long}");
        assert_eq!(path(200_000), Err(ReadError::Term { line: 256 }), "{long}");
    }
}

/// A filter below 63 patterns, 256 parts in one chain of `and`, the first with 63 times `Unequals`; and a chain that is longer.
#[test]
fn the_deepest_answer_is_read() {
    let tree = [text("distinct").repeat(62), text("project|?a/bgp|0")].concat();
    let first = [text("bin|Unequals").repeat(63), text("ref|0").repeat(64)].concat();
    let filters = [first, text("ref|0").repeat(255)].concat();
    let (answer, left) = gandeuch::filters(&tree, &filters).expect("an answer");
    assert!(left.is_empty());
    let read = layout::read_pattern(&answer).expect("a tree");
    assert_eq!(layout::write_pattern(&read), Ok(answer));
    let chain = |count: usize| {
        let parts = text("bound|?a").repeat(count + 1);
        [text("filter/bgp|0"), text("and").repeat(count), parts].concat()
    };
    assert!(layout::read_pattern(&chain(510)).is_ok());
    let longer = layout::read_pattern(&chain(511));
    assert_eq!(longer, Err(ReadError::TooDeep { line: 514 }));
    let chains = [
        text("filter/bgp|0"),
        [text("and").repeat(200), text("not")].concat().repeat(3),
    ]
    .concat();
    let read = layout::read_pattern(&chains);
    assert_eq!(read, Err(ReadError::TooDeep { line: 514 }));
}

#[test]
fn what_no_field_holds_is_not_written() {
    for (variable, node) in [
        ("", "p"),
        ("a\tb", "p"),
        ("a\n", "p"),
        ("a", "p\tq"),
        ("a", "p\n"),
    ] {
        let written = layout::write_pattern(&named(variable, node));
        assert_eq!(written, Err(WriteError::Name), "{variable:?} {node:?}");
    }
    let slice = GraphPattern::Slice {
        inner: Box::new(GraphPattern::default()),
        start: 4_294_967_296,
        length: None,
    };
    assert_eq!(layout::write_pattern(&slice), Err(WriteError::Number));
    let path = GraphPattern::Path {
        subject: TermPattern::NamedNode(iri("a")),
        path: PropertyPathExpression::NamedNode(iri("p>/<q")),
        object: TermPattern::NamedNode(iri("b")),
    };
    assert_eq!(layout::write_pattern(&path), Err(WriteError::Name));
    let construct = Query::Construct {
        template: vec![TriplePattern {
            subject: TermPattern::NamedNode(iri("a")),
            predicate: NamedNodePattern::NamedNode(iri("p")),
            object: TermPattern::NamedNode(iri("b")),
        }],
        dataset: None,
        pattern: GraphPattern::default(),
        base_iri: None,
    };
    assert_eq!(layout::write_query(&construct), Err(WriteError::Template));
    let empty = Query::Ask {
        dataset: Some(QueryDataset {
            default: vec![],
            named: Some(vec![]),
        }),
        pattern: GraphPattern::default(),
        base_iri: None,
    };
    assert_eq!(layout::write_query(&empty), Err(WriteError::Unsupported));
    let joins = layout::write_joins(&[(0, 4_294_967_296)]);
    assert_eq!(joins, Err(WriteError::Number));
    let [from, to] = ["", "a"].map(spargebra::term::Variable::new_unchecked);
    assert_eq!(layout::write_mapping(&[(from, to)]), Err(WriteError::Name));
}
