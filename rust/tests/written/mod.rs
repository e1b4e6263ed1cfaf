//! Texts and trees for tests, in short.

use spargebra::algebra::GraphPattern;
use spargebra::term::{Literal, NamedNode, NamedNodePattern, TermPattern, TriplePattern, Variable};

/// Lines with `/` for a line end, the last not shown, and `|` for tabs.
pub fn text(lines: &str) -> Vec<u8> {
    (lines.replace('/', "\n").replace('|', "\t") + "\n").into_bytes()
}

pub fn iri(text: &str) -> NamedNode {
    NamedNode::new_unchecked(text)
}

/// One triple: a variable, an IRI and a literal.
pub fn named(variable: &str, node: &str) -> GraphPattern {
    GraphPattern::Bgp {
        patterns: vec![TriplePattern {
            subject: TermPattern::Variable(Variable::new_unchecked(variable)),
            predicate: NamedNodePattern::NamedNode(iri(node)),
            object: TermPattern::Literal(Literal::new_simple_literal("o")),
        }],
    }
}
