//! Reads well-formed texts of trees, queries and lists. On any other text it panics.

use std::collections::HashMap;
use std::str::SplitTerminator;

use nemo_physical::datasources::bindings::Bindings;
use nemo_physical::datavalues::{AnyDataValue, ValueDomain};
use nemo_physical::function::definitions::{
    BinaryFunctionEnum, NaryFunctionEnum, TernaryFunctionEnum, UnaryFunctionEnum,
};
use nemo_physical::function::tree::{FunctionLeaf, FunctionTree};
use nemo_physical::tabular::filters::FilterTransformPattern;
use nemo_physical::tabular::operations::OperationColumnMarker;
use oxrdf::{NamedNode, Variable};
use spargebra::Query;
use spargebra::algebra::GraphPattern;
use spargebra::term::GroundTerm;

use crate::opaque::{Opaque, Places, literal};
use crate::tree::Reader;

pub fn tree(text: &str) -> GraphPattern {
    let mut reader = Reader::new(text, Opaque::new(cfg!(ordered)));
    reader.pattern().expect("a tree")
}

pub fn tree_and_places(text: &str) -> (GraphPattern, Places<'_>) {
    let mut reader = Reader::new(text, Opaque::new(true));
    let tree = reader.pattern().expect("a tree");
    (tree, reader.leaves.places.expect("was asked for"))
}

/// A construct has no template in the layout.
pub fn query(text: &str) -> Query {
    let mut reader = Reader::new(text, Opaque::new(cfg!(ordered)));
    reader.query().expect("a query")
}

pub fn mapping(text: &str) -> HashMap<Variable, Variable> {
    pairs(text)
        .map(|(from, to)| {
            (
                Variable::new_unchecked(&from[1..]),
                Variable::new_unchecked(&to[1..]),
            )
        })
        .collect()
}

pub fn joins(text: &str) -> Vec<(usize, usize)> {
    pairs(text)
        .map(|(left, right)| {
            (
                left.parse().expect("a number"),
                right.parse().expect("a number"),
            )
        })
        .collect()
}

pub fn constants(text: &str) -> HashMap<usize, GroundTerm> {
    pairs(text)
        .map(|(position, term)| (position.parse().expect("a number"), ground_term(term)))
        .collect()
}

pub fn sets(text: &str) -> Vec<Bindings> {
    let mut lines = text.split_terminator('\n').map(|line| line.split('\t'));
    let mut result = Vec::new();
    while let Some(mut head) = lines.next() {
        assert_eq!(head.next(), Some("set"));
        let rows: usize = head.nth(1).expect("a count").parse().expect("a number");
        let positions = lines.next().expect("positions").skip(1);
        let positions = positions.map(|field| field.parse().expect("a number"));
        let rows = (0..rows).map(|_| {
            let fields: Vec<_> = lines.next().expect("a row").skip(1).collect();
            let values = fields.chunks(3);
            values
                .map(|value| data_value(value[0], value[1], value[2]))
                .collect()
        });
        result.push(Bindings::new(positions.collect(), rows.collect()));
    }
    result
}

pub fn filters(text: &str) -> Vec<FilterTransformPattern> {
    let mut filters = Filters {
        lines: text.split_terminator('\n'),
    };
    let mut result = Vec::new();
    while let Some(line) = filters.lines.next() {
        result.push(FilterTransformPattern::new(filters.filter(line)));
    }
    result
}

fn data_value(domain: &str, lexical: &str, extra: &str) -> AnyDataValue {
    use ValueDomain::*;
    let domain = match domain {
        "PlainString" => PlainString,
        "LanguageTaggedString" => LanguageTaggedString,
        "Iri" => Iri,
        "Float" => Float,
        "Double" => Double,
        "UnsignedLong" => UnsignedLong,
        "NonNegativeLong" => NonNegativeLong,
        "UnsignedInt" => UnsignedInt,
        "NonNegativeInt" => NonNegativeInt,
        "Long" => Long,
        "Int" => Int,
        "Boolean" => Boolean,
        "Null" => Null,
        "Tuple" => Tuple,
        "Map" => Map,
        "Other" => Other,
        other => panic!("{other} is no domain"),
    };
    let extra = extra
        .strip_prefix('<')
        .and_then(|rest| rest.strip_suffix('>'))
        .unwrap_or(extra);
    AnyDataValue {
        domain,
        lexical: lexical.to_string(),
        extra: extra.to_string(),
    }
}

struct Filters<'t> {
    lines: SplitTerminator<'t, char>,
}

impl<'t> Filters<'t> {
    fn filter(&mut self, line: &'t str) -> FunctionTree<OperationColumnMarker> {
        let fields: Vec<_> = line.split('\t').collect();
        match fields[0] {
            "leaf" => FunctionTree::Leaf(FunctionLeaf::Constant(data_value(
                fields[1], fields[2], fields[3],
            ))),
            "ref" => FunctionTree::Leaf(FunctionLeaf::Reference(OperationColumnMarker(
                fields[1].parse().expect("a number"),
            ))),
            "un" => {
                let function = match fields[1] {
                    "Datatype" => UnaryFunctionEnum::Datatype(()),
                    "LanguageTag" => UnaryFunctionEnum::LanguageTag(()),
                    other => UnaryFunctionEnum::Other(other.to_string()),
                };
                FunctionTree::Unary(function, self.filter_part())
            }
            "bin" => {
                let function = match fields[1] {
                    "Equals" => BinaryFunctionEnum::Equals(()),
                    "Unequals" => BinaryFunctionEnum::Unequals(()),
                    other => BinaryFunctionEnum::Other(other.to_string()),
                };
                FunctionTree::Binary {
                    function,
                    left: self.filter_part(),
                    right: self.filter_part(),
                }
            }
            "tern" => FunctionTree::Ternary {
                function: TernaryFunctionEnum(fields[1].to_string()),
                first: self.filter_part(),
                second: self.filter_part(),
                third: self.filter_part(),
            },
            "nary" => {
                let count: usize = fields[2].parse().expect("a number");
                FunctionTree::Nary {
                    function: NaryFunctionEnum(fields[1].to_string()),
                    parameters: (0..count).map(|_| *self.filter_part()).collect(),
                }
            }
            other => panic!("{other} is no filter"),
        }
    }

    fn filter_part(&mut self) -> Box<FunctionTree<OperationColumnMarker>> {
        let line = self.lines.next().expect("a line");
        Box::new(self.filter(line))
    }
}

fn pairs(text: &str) -> impl Iterator<Item = (&str, &str)> {
    text.split_terminator('\n')
        .map(|line| line.split_once('\t').expect("two fields"))
}

fn ground_term(field: &str) -> GroundTerm {
    match field
        .strip_prefix('<')
        .and_then(|rest| rest.strip_suffix('>'))
    {
        Some(iri) => GroundTerm::NamedNode(NamedNode::new_unchecked(iri)),
        None => GroundTerm::Literal(literal(field)),
    }
}
