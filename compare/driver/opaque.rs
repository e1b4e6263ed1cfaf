//! What the layout leaves open, as it stands. A literal's text is kept as the value of a literal with an empty language tag, which
//! no literal of nemo's has; paths, names and datasets as an IRI.

use std::collections::HashMap;

use spargebra::algebra::{AggregateFunction, Function, PropertyPathExpression, QueryDataset};
use spargebra::term::{Literal, NamedNode, Variable};

use super::tree::{ReadLeaves, WriteError, WriteLeaves};

/// Each variable's number by first place in the text.
pub type Places<'t> = HashMap<&'t str, usize>;

pub struct Opaque<'t> {
    pub places: Option<Places<'t>>,
}

impl Opaque<'_> {
    pub fn new(with_places: bool) -> Self {
        Self {
            places: with_places.then(Places::new),
        }
    }
}

pub fn literal(text: &str) -> Literal {
    Literal::new_language_tagged_literal_unchecked(text, "")
}

impl<'t> ReadLeaves<'t> for Opaque<'t> {
    fn variable(&mut self, name: &'t str) -> Variable {
        if let Some(places) = &mut self.places {
            let next = places.len();
            let _place = *places.entry(name).or_insert(next);
            #[cfg(ordered)]
            return Variable::placed(name, _place);
        }
        Variable::new_unchecked(name)
    }

    fn literal(&mut self, field: &str) -> Option<Literal> {
        Some(literal(field))
    }

    fn path(&mut self, field: &str) -> Option<PropertyPathExpression> {
        let text = NamedNode::new_unchecked(field);
        Some(PropertyPathExpression::NamedNode(text))
    }

    fn function(&mut self, name: &str) -> Option<Function> {
        Some(match name {
            "DATATYPE" => Function::Datatype,
            "LANG" => Function::Lang,
            _ => Function::Custom(NamedNode::new_unchecked(name)),
        })
    }

    fn aggregate(&mut self, name: &str) -> Option<AggregateFunction> {
        Some(AggregateFunction::Custom(NamedNode::new_unchecked(name)))
    }

    fn dataset(&mut self, field: &str) -> Option<QueryDataset> {
        Some(QueryDataset {
            default: vec![NamedNode::new_unchecked(field)],
            named: None,
        })
    }

    fn base(field: &str) -> Option<&str> {
        Some(field)
    }
}

impl WriteLeaves for Opaque<'_> {
    fn name(out: &mut String, name: &str) -> Result<(), WriteError> {
        out.push_str(name);
        Ok(())
    }

    /// The value is escaped already.
    fn literal(out: &mut String, literal: &Literal) -> Result<(), WriteError> {
        const STRING: &str = "http://www.w3.org/2001/XMLSchema#string";
        let value = literal.value();
        match (literal.language(), literal.datatype().as_str()) {
            (Some(""), _) => out.push_str(value),
            (Some(tag), _) => out.push_str(&format!("\"{value}\"@{tag}")),
            (None, STRING) => out.push_str(&format!("\"{value}\"")),
            (None, datatype) => out.push_str(&format!("\"{value}\"^^<{datatype}>")),
        }
        Ok(())
    }

    fn path(out: &mut String, path: &PropertyPathExpression) -> Result<(), WriteError> {
        match path {
            PropertyPathExpression::NamedNode(text) => Self::name(out, text.as_str()),
            _ => Err(WriteError::Unsupported),
        }
    }

    fn function(out: &mut String, function: &Function) -> Result<(), WriteError> {
        match function {
            Function::Datatype => Self::name(out, "DATATYPE"),
            Function::Lang => Self::name(out, "LANG"),
            Function::Custom(name) => Self::name(out, name.as_str()),
            _ => Err(WriteError::Unsupported),
        }
    }

    fn aggregate(out: &mut String, function: &AggregateFunction) -> Result<(), WriteError> {
        match function {
            AggregateFunction::Custom(name) => Self::name(out, name.as_str()),
            _ => Err(WriteError::Unsupported),
        }
    }

    fn dataset(out: &mut String, dataset: &QueryDataset) -> Result<(), WriteError> {
        match dataset.default.as_slice() {
            [text] => Self::name(out, text.as_str()),
            _ => Err(WriteError::Unsupported),
        }
    }

    fn base(out: &mut String, iri: &str) -> Result<(), WriteError> {
        Self::name(out, iri)
    }
}
