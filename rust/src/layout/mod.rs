//! Trees of spargebra as texts, and back. Feature `spargebra`.
//!
//! The calls take and give texts in Gandeuch's layout: a line a record, fields parted by tabs, in preorder. Here such a text is
//! written from a [`GraphPattern`], [`Query`] or [`Expression`], and an answer is read back.
//!
//! ```
//! use gandeuch::layout;
//! use spargebra::algebra::GraphPattern;
//! use spargebra::term::{NamedNode, NamedNodePattern, TermPattern, TriplePattern, Variable};
//!
//! let [event, relay, device] = ["event", "relay", "device"].map(Variable::new_unchecked);
//! let reported = TriplePattern {
//!     subject: TermPattern::Variable(event),
//!     predicate: NamedNodePattern::NamedNode(NamedNode::new_unchecked("by")),
//!     object: TermPattern::Variable(relay.clone()),
//! };
//! let tree = GraphPattern::Project {
//!     inner: Box::new(GraphPattern::Bgp { patterns: vec![reported] }),
//!     variables: vec![relay.clone()],
//! };
//! let text = layout::write_pattern(&tree)?;
//! assert_eq!(text, b"project\t?relay\nbgp\t1\nt\t?event\t<by>\t?relay\n");
//! assert_eq!(layout::read_pattern(&text)?, tree);
//!
//! let mapping = layout::write_mapping(&[(relay, device.clone())])?;
//! let renamed = layout::read_pattern(&gandeuch::rename(&text, &mapping)?)?;
//! assert!(matches!(renamed, GraphPattern::Project { variables, .. } if variables == [device]));
//! # Ok::<(), Box<dyn std::error::Error>>(())
//! ```
//!
//! **Not exercised: the real crates.** This module is compiled and tested against stand-ins for spargebra 0.4 and oxrdf 0.3
//! (`compare/stand-ins` of the repository), which have the shape of their types and do no checks; a `[patch]` of this crate's own
//! folder puts them in, so a program that depends on it gets the real ones. Nothing here is proved; what is proved is what the
//! calls do with the texts.
//!
//! What is written can be read back, and one tree has one text, so that two heads are the same for the calls exactly if they are for
//! spargebra. The lines of all variants stand in the repository's `docs/VARIANTS.md`. What the layout leaves open is written so:
//! - a literal in N-Triples form, escaped where it must be;
//! - a property path as in SPARQL, as `^<p>/<q>*`; the names of functions and aggregates too, a separator as
//!   `GROUP_CONCAT;SEPARATOR=","`;
//! - a dataset as SPARQL's clauses `FROM <g> FROM NAMED <h>`, with `FROM NAMED *` where spargebra has no list; a base as `<iri>`.
//!
//! Reading takes IRIs, blank nodes and the names of variables as they are, unchecked: they come from trees that were written
//! before. A text of another origin may spell a literal or a path in another way (`"\u0041"`, `"a"` with the datatype xsd:string,
//! `<p> / <q>`); it is read as what it stands for, and written anew in the one form above.
//!
//! Bounds are left to the calls: a tree that is too large is written, and refused there. Reading stops at depth 256, which no
//! answer passes; it took up to 1.5 MiB of stack then without optimisation, 0.5 MiB with it. A tree's depth is the caller's: writing
//! takes stack for it, as dropping it does. Binding sets and filters have no types in spargebra; write them as texts.

mod lists;
mod literals;
mod names;
#[cfg(test)]
#[path = "../../../compare/driver/opaque.rs"]
mod opaque;
mod paths;
mod terms;
#[cfg(test)]
mod tests;
mod tree;

use spargebra::Query;
use spargebra::algebra::{Expression, GraphPattern};
use spargebra::term::Variable;

pub use lists::{write_constants, write_joins, write_mapping};
use terms::Terms;
pub use tree::{ReadError, WriteError};
use tree::{Reader, Writer};

/// The text of a pattern.
pub fn write_pattern(pattern: &GraphPattern) -> Result<Vec<u8>, WriteError> {
    written(|writer| writer.pattern(pattern))
}

/// The text of a query. The layout has no place for a construct's template: one that isn't empty is refused.
pub fn write_query(query: &Query) -> Result<Vec<u8>, WriteError> {
    written(|writer| writer.query(query))
}

/// The text of an expression, as it stands below its pattern.
pub fn write_expression(expression: &Expression) -> Result<Vec<u8>, WriteError> {
    written(|writer| writer.expression(expression))
}

/// The pattern of a text; an empty file is a project without columns over no triples.
pub fn read_pattern(text: &[u8]) -> Result<GraphPattern, ReadError> {
    read(text, Reader::tree)
}

/// The query of a text. A construct comes back without its template.
pub fn read_query(text: &[u8]) -> Result<Query, ReadError> {
    read(text, Reader::query)
}

/// The expression of a text.
pub fn read_expression(text: &[u8]) -> Result<Expression, ReadError> {
    read(text, Reader::expression)
}

/// What [`scope`](crate::scope) answers: the variables in scope, then the hidden ones.
pub fn read_scope(text: &[u8]) -> Result<(Vec<Variable>, Vec<Variable>), ReadError> {
    read(text, |reader| {
        let line = reader.after("in")?;
        let in_scope = reader.variables(line)?;
        let line = reader.after("hid")?;
        Ok((in_scope, reader.variables(line)?))
    })
}

fn written(
    write: impl FnOnce(&mut Writer<'_, Terms>) -> Result<(), WriteError>,
) -> Result<Vec<u8>, WriteError> {
    let mut out = String::new();
    write(&mut Writer::new(&mut out))?;
    Ok(out.into_bytes())
}

fn read<'t, T>(
    text: &'t [u8],
    read: impl FnOnce(&mut Reader<'t, Terms>) -> Result<T, ReadError>,
) -> Result<T, ReadError> {
    let text = std::str::from_utf8(text).or(Err(ReadError::NotUtf8))?;
    let mut reader = Reader::new(text, Terms);
    let result = read(&mut reader)?;
    reader.end()?;
    Ok(result)
}
