//! Texts as they are written, field by field; answers read back.
#![cfg(feature = "spargebra")]

mod written;

use gandeuch::layout::{self, ReadError};
use spargebra::Query;
use spargebra::algebra::{
    AggregateExpression, AggregateFunction, Expression, Function, GraphPattern, QueryDataset,
};
use spargebra::term::{GroundTerm, Literal, Variable};

use written::{iri, named, text};

#[test]
fn every_word_comes_back() {
    let trees = [
        "bgp|0",
        "bgp|2/t|?s|<p>|?o/t|_:b|?p|\"l\"",
        "join/bgp|0/union/bgp|0/minus/bgp|0/bgp|0",
        "leftjoin|0/bgp|0/bgp|0",
        "leftjoin|1/bgp|0/bgp|0/bound|?x",
        "filter/bgp|0/or/and/term|?a/term|<i>/term|\"1\"",
        "graph|?g/service|<s>|1/service|?s|0/bgp|0",
        "extend|?v/bgp|0/if/eq/term|?a/term|?b/same/term|?a/term|?b/bound|?c",
        "values|2|2/cols|?a|?b/row|-|<i>/row|\"l\"|-",
        "values|0|2/cols/row/row",
        "orderby|2/bgp|0/asc/gt/term|?a/term|?b/desc/ge/term|?a/term|?b",
        "project|?a|?b/distinct/reduced/slice|0|-/slice|4294967295|10/bgp|0",
        "project/bgp|0",
        "group|1|3/cols|?a/bgp|0/agg|?n|COUNT|1/term|?b/aggall|?m|0/agg|?k|<f>|0/term|?c",
        "filter/bgp|0/lt/add/term|?a/term|?b/sub/mul/term|?a/term|?b/div/term|?a/term|?b",
        "filter/bgp|0/le/plus/term|?a/neg/not/exists/bgp|0",
        "filter/bgp|0/in|2/term|?a/coalesce|0/coalesce|1/call|LANG|1/term|?b",
    ];
    for lines in trees {
        let text = text(lines);
        let tree = layout::read_pattern(&text).expect(lines);
        assert_eq!(layout::write_pattern(&tree), Ok(text), "{lines}");
    }
}

#[test]
fn heads_come_back() {
    for kind in ["select", "ask", "construct", "describe"] {
        for dataset in [
            "-",
            "FROM <a>",
            "FROM NAMED <c>",
            "FROM NAMED *",
            "FROM <a> FROM <b> FROM NAMED *",
            "FROM <a> FROM <b> FROM NAMED <c> FROM NAMED <d>",
        ] {
            let text = text(&format!("query|{kind}|{dataset}|<http:base>/bgp|0"));
            let query = layout::read_query(&text).expect(kind);
            assert_eq!(layout::write_query(&query), Ok(text));
        }
    }
    let dataset = QueryDataset {
        default: vec![iri("a")],
        named: Some(vec![iri("b")]),
    };
    let Ok(Query::Ask { dataset: read, .. }) =
        layout::read_query(&text("query|ask|FROM <a> FROM NAMED <b>|-/bgp|0"))
    else {
        panic!("no ask");
    };
    assert_eq!(read, Some(dataset));
}

#[test]
fn an_empty_file_is_two_lines() {
    let tree = layout::read_pattern(b"").expect("a tree");
    assert_eq!(layout::write_pattern(&tree), Ok(text("project/bgp|0")));
    let query = layout::read_query(&text("query|ask|-|-")).expect("a query");
    let lines = text("query|ask|-|-/project/bgp|0");
    assert_eq!(layout::write_query(&query), Ok(lines));
}

fn expression(lines: &str) -> Result<Expression, ReadError> {
    layout::read_expression(&text(lines))
}

fn comes_back(expression: &Expression) {
    let text = layout::write_expression(expression).expect("written");
    assert_eq!(layout::read_expression(&text).as_ref(), Ok(expression));
}

#[test]
fn parts_stand_in_order() {
    let variable = |name| Expression::Variable(Variable::new_unchecked(name));
    let [a, b, c] = ["a", "b", "c"].map(|name| Box::new(variable(name)));
    let minus = Expression::Subtract(a.clone(), b.clone());
    assert_eq!(expression("sub/term|?a/term|?b"), Ok(minus));
    let test = Expression::If(a.clone(), b.clone(), c);
    assert_eq!(expression("if/term|?a/term|?b/term|?c"), Ok(test));
    let within = Expression::In(a, vec![*b, variable("c")]);
    assert_eq!(expression("in|2/term|?a/term|?b/term|?c"), Ok(within));

    let sides = layout::read_pattern(&text("minus/bgp|1/t|?a|<p>|\"o\"/bgp|1/t|?b|<q>|\"o\""));
    let minus = GraphPattern::Minus {
        left: Box::new(named("a", "p")),
        right: Box::new(named("b", "q")),
    };
    assert_eq!(sides, Ok(minus));
}

#[test]
fn literals_are_escaped_and_come_back() {
    let values = [
        "",
        "a",
        "\t\n\r\"\\",
        "\u{8}\u{c}\0",
        "Gändeuch \u{1F50C}",
        "\\u0041",
    ];
    for value in values {
        let typed = Literal::new_typed_literal(value, iri("http://www.w3.org/2001/XMLSchema#int"));
        let tagged = Literal::new_language_tagged_literal_unchecked(value, "en-gb");
        for literal in [Literal::new_simple_literal(value), typed, tagged] {
            comes_back(&Expression::Literal(literal));
        }
    }
    let quoted = Expression::Literal(Literal::new_simple_literal("a\tb\r\n\"c\"\\"));
    let written = layout::write_expression(&quoted);
    assert_eq!(
        written,
        Ok(b"term\t\"a\\tb\\r\\n\\\"c\\\"\\\\\"\n".to_vec())
    );
}

#[test]
fn literals_of_another_origin_are_read_as_what_they_stand_for() {
    let a = Expression::Literal(Literal::new_simple_literal("A"));
    let string = "\"A\"^^<http://www.w3.org/2001/XMLSchema#string>";
    let forms = ["\"A\"", "\"\\u0041\"", "\"\\U00000041\"", string];
    for form in forms {
        let read = layout::read_expression(format!("term\t{form}\n").as_bytes());
        assert_eq!(read.as_ref(), Ok(&a), "{form}");
    }
    let bad = [
        "\"",
        "\"a",
        "\"a\"@",
        "\"a\"^^<b",
        "\"a\"x",
        "\"\\q\"",
        "\"\\u00g0\"",
        "\"\\uD800\"",
        "\"\\u+041\"",
    ];
    for form in bad {
        let read = layout::read_expression(format!("term\t{form}\n").as_bytes());
        assert_eq!(read, Err(ReadError::Term { line: 1 }), "{form}");
    }
}

#[test]
fn functions_and_aggregates_come_back() {
    comes_back(&Expression::FunctionCall(
        Function::Custom(iri("f")),
        vec![],
    ));
    let names = "STR LANG LANGMATCHES DATATYPE IRI BNODE RAND ABS CEIL FLOOR ROUND CONCAT SUBSTR STRLEN REPLACE UCASE LCASE \
                 ENCODE_FOR_URI CONTAINS STRSTARTS STRENDS STRBEFORE STRAFTER YEAR MONTH DAY HOURS MINUTES SECONDS TIMEZONE \
                 TZ NOW UUID STRUUID MD5 SHA1 SHA256 SHA384 SHA512 STRLANG STRDT isIRI isBLANK isLITERAL isNUMERIC REGEX";
    for name in names.split_whitespace() {
        comes_back(&expression(&format!("call|{name}|0")).expect(name));
    }
    assert_eq!(
        expression("call|DATATYPE|1/term|?a"),
        Ok(Expression::FunctionCall(
            Function::Datatype,
            vec![Expression::Variable(Variable::new_unchecked("a"))]
        ))
    );
    assert_eq!(
        expression("call|datatype|0"),
        Err(ReadError::Term { line: 1 })
    );
    for name in [
        "SUM",
        "AVG",
        "MIN",
        "MAX",
        "SAMPLE",
        "GROUP_CONCAT",
        "GROUP_CONCAT;SEPARATOR=\", \"",
        "<f>",
    ] {
        let text = text(&format!("group|0|1/cols/bgp|0/agg|?n|{name}|0/term|?a"));
        let tree = layout::read_pattern(&text).expect(name);
        assert_eq!(layout::write_pattern(&tree), Ok(text), "{name}");
    }
    let separated = AggregateFunction::GroupConcat {
        separator: Some("\t".to_string()),
    };
    let text = text("group|0|1/cols/bgp|0/agg|?n|GROUP_CONCAT;SEPARATOR=\"\\t\"|0/term|?a");
    let Ok(GraphPattern::Group { aggregates, .. }) = layout::read_pattern(&text) else {
        panic!("no group");
    };
    assert!(matches!(
        &aggregates[0].1,
        AggregateExpression::FunctionCall { name, .. } if *name == separated
    ));
}

#[test]
fn trees_are_merged() {
    let tree = |variable: &str| GraphPattern::Project {
        inner: Box::new(named(variable, "in")),
        variables: vec![Variable::new_unchecked(variable)],
    };
    let site = GroundTerm::Literal(Literal::new_simple_literal("bay \"7\"\t"));
    let merged = gandeuch::merge_patterns(
        &layout::write_pattern(&tree("relay")).unwrap(),
        &layout::write_pattern(&tree("breaker")).unwrap(),
        &layout::write_joins(&[(0, 0)]).unwrap(),
        &layout::write_constants([]).unwrap(),
        &layout::write_constants([(0, &site)]).unwrap(),
    );
    let Ok(GraphPattern::Project { inner, variables }) =
        layout::read_pattern(&merged.expect("merged"))
    else {
        panic!("no project");
    };
    assert_eq!(variables, [Variable::new_unchecked("j0")]);
    let GraphPattern::Join { left, right } = *inner else {
        panic!("no join");
    };
    let j0 = Variable::new_unchecked("j0");
    assert_eq!(*left, named("j0", "in"));
    let bound = GraphPattern::Values {
        variables: vec![j0],
        bindings: vec![vec![Some(site)]],
    };
    assert_eq!(
        *right,
        GraphPattern::Join {
            left: Box::new(named("j0", "in")),
            right: Box::new(bound)
        }
    );
}

#[test]
fn scopes_are_read() {
    let scope = gandeuch::scope(&text("project|?a/bgp|1/t|?a|<p>|?b")).expect("a scope");
    let [a, b] = ["a", "b"].map(Variable::new_unchecked);
    assert_eq!(
        layout::read_scope(&scope),
        Ok((vec![a.clone()], vec![a, b]))
    );
    assert_eq!(
        layout::read_scope(b"in\n"),
        Err(ReadError::Missing { line: 2 })
    );
}

#[test]
fn queries_are_merged() {
    let query = |columns: [&str; 2]| Query::Select {
        dataset: None,
        pattern: GraphPattern::Project {
            inner: Box::new(named(columns[0], "in")),
            variables: columns.map(Variable::new_unchecked).to_vec(),
        },
        base_iri: None,
    };
    let merged = gandeuch::merge_queries(
        &layout::write_query(&query(["event", "relay"])).unwrap(),
        &layout::write_query(&query(["relay", "breaker"])).unwrap(),
        &layout::write_joins(&[(1, 0)]).unwrap(),
        b"",
        b"",
    );
    let Ok(Query::Select { pattern, .. }) = layout::read_query(&merged.expect("merged")) else {
        panic!("no select");
    };
    let joined = GraphPattern::Join {
        left: Box::new(named("l0", "in")),
        right: Box::new(named("j0", "in")),
    };
    assert_eq!(
        pattern,
        GraphPattern::Project {
            inner: Box::new(joined),
            variables: ["l0", "j0", "r1"].map(Variable::new_unchecked).to_vec(),
        }
    );
}
