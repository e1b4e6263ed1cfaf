//! Terms and names in the layout's fields: N-Triples for literals, SPARQL's spelling for the rest.

use spargebra::algebra::{AggregateFunction, Function, PropertyPathExpression, QueryDataset};
use spargebra::term::{Literal, Variable};

use super::tree::{ReadLeaves, WriteError, WriteLeaves};
use super::{literals, names, paths};

pub struct Terms;

impl ReadLeaves<'_> for Terms {
    fn variable(&mut self, name: &str) -> Variable {
        Variable::new_unchecked(name)
    }

    fn literal(&mut self, field: &str) -> Option<Literal> {
        literals::read(field)
    }

    fn path(&mut self, field: &str) -> Option<PropertyPathExpression> {
        paths::read(field)
    }

    fn function(&mut self, name: &str) -> Option<Function> {
        names::read_function(name)
    }

    fn aggregate(&mut self, name: &str) -> Option<AggregateFunction> {
        names::read_aggregate(name)
    }

    fn dataset(&mut self, field: &str) -> Option<QueryDataset> {
        names::read_dataset(field)
    }

    fn base(field: &str) -> Option<&str> {
        field.strip_prefix('<')?.strip_suffix('>')
    }
}

impl WriteLeaves for Terms {
    /// Bytes 9 and 10 part fields and lines.
    fn name(out: &mut String, name: &str) -> Result<(), WriteError> {
        if name.contains(['\t', '\n']) {
            return Err(WriteError::Name);
        }
        out.push_str(name);
        Ok(())
    }

    fn literal(out: &mut String, literal: &Literal) -> Result<(), WriteError> {
        literals::write(out, literal)
    }

    fn path(out: &mut String, path: &PropertyPathExpression) -> Result<(), WriteError> {
        paths::write(out, path)
    }

    fn function(out: &mut String, function: &Function) -> Result<(), WriteError> {
        names::write_function(out, function)
    }

    fn aggregate(out: &mut String, function: &AggregateFunction) -> Result<(), WriteError> {
        names::write_aggregate(out, function)
    }

    fn dataset(out: &mut String, dataset: &QueryDataset) -> Result<(), WriteError> {
        names::write_dataset(out, dataset)
    }

    fn base(out: &mut String, iri: &str) -> Result<(), WriteError> {
        names::iri(out, iri)
    }
}
