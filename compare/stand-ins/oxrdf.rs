//! The types of oxrdf that nemo's query rewriting and the crate's layout name, in the real crate's shape. Nothing is checked.

use std::hash::{Hash, Hasher};

/// A variable, without its `?`. In the ordered build it carries its place in its tree, which equality doesn't see.
#[derive(Debug, Clone)]
pub struct Variable {
    name: String,
    #[cfg(ordered)]
    place: usize,
}

impl Variable {
    pub fn new_unchecked(name: impl Into<String>) -> Self {
        Self {
            name: name.into(),
            #[cfg(ordered)]
            place: usize::MAX,
        }
    }

    /// Not in oxrdf.
    #[cfg(ordered)]
    pub fn placed(name: impl Into<String>, place: usize) -> Self {
        Self {
            name: name.into(),
            place,
        }
    }

    pub fn as_str(&self) -> &str {
        &self.name
    }
}

impl PartialEq for Variable {
    fn eq(&self, other: &Self) -> bool {
        self.name == other.name
    }
}

impl Eq for Variable {}

impl Hash for Variable {
    fn hash<H: Hasher>(&self, state: &mut H) {
        self.name.hash(state);
    }
}

#[cfg(ordered)]
impl PartialOrd for Variable {
    fn partial_cmp(&self, other: &Self) -> Option<std::cmp::Ordering> {
        Some(self.cmp(other))
    }
}

#[cfg(ordered)]
impl Ord for Variable {
    fn cmp(&self, other: &Self) -> std::cmp::Ordering {
        (self.place, &self.name).cmp(&(other.place, &other.name))
    }
}

/// An IRI, without its brackets.
#[derive(Debug, Clone, PartialEq, Eq, Hash)]
pub struct NamedNode {
    iri: String,
}

impl NamedNode {
    pub fn new_unchecked(iri: impl Into<String>) -> Self {
        Self { iri: iri.into() }
    }

    pub fn as_str(&self) -> &str {
        &self.iri
    }
}

/// A blank node, without its `_:`.
#[derive(Debug, Clone, PartialEq, Eq, Hash)]
pub struct BlankNode {
    id: String,
}

impl BlankNode {
    pub fn new_unchecked(id: impl Into<String>) -> Self {
        Self { id: id.into() }
    }

    pub fn as_str(&self) -> &str {
        &self.id
    }
}

/// An IRI that is lent.
#[derive(Debug, Clone, Copy, PartialEq, Eq, Hash)]
pub struct NamedNodeRef<'a> {
    iri: &'a str,
}

impl<'a> NamedNodeRef<'a> {
    pub fn as_str(self) -> &'a str {
        self.iri
    }
}

/// A literal by its lexical form, not escaped, and its language tag or datatype.
#[derive(Debug, Clone, PartialEq, Eq, Hash)]
pub struct Literal(LiteralContent);

#[derive(Debug, Clone, PartialEq, Eq, Hash)]
enum LiteralContent {
    String(String),
    LanguageTaggedString { value: String, language: String },
    TypedLiteral { value: String, datatype: NamedNode },
}

impl Literal {
    const STRING: &'static str = "http://www.w3.org/2001/XMLSchema#string";
    const LANG_STRING: &'static str = "http://www.w3.org/1999/02/22-rdf-syntax-ns#langString";

    pub fn new_simple_literal(value: impl Into<String>) -> Self {
        Self(LiteralContent::String(value.into()))
    }

    /// The datatype xsd:string makes a simple literal.
    pub fn new_typed_literal(value: impl Into<String>, datatype: impl Into<NamedNode>) -> Self {
        let (value, datatype) = (value.into(), datatype.into());
        Self(if datatype.as_str() == Self::STRING {
            LiteralContent::String(value)
        } else {
            LiteralContent::TypedLiteral { value, datatype }
        })
    }

    pub fn new_language_tagged_literal_unchecked(
        value: impl Into<String>,
        language: impl Into<String>,
    ) -> Self {
        Self(LiteralContent::LanguageTaggedString {
            value: value.into(),
            language: language.into(),
        })
    }

    pub fn new_language_tagged_literal(
        value: impl Into<String>,
        language: impl Into<String>,
    ) -> Result<Self, String> {
        Ok(Self::new_language_tagged_literal_unchecked(value, language))
    }

    pub fn value(&self) -> &str {
        match &self.0 {
            LiteralContent::String(value)
            | LiteralContent::LanguageTaggedString { value, .. }
            | LiteralContent::TypedLiteral { value, .. } => value,
        }
    }

    pub fn language(&self) -> Option<&str> {
        match &self.0 {
            LiteralContent::LanguageTaggedString { language, .. } => Some(language),
            _ => None,
        }
    }

    pub fn datatype(&self) -> NamedNodeRef<'_> {
        let iri = match &self.0 {
            LiteralContent::String(_) => Self::STRING,
            LiteralContent::LanguageTaggedString { .. } => Self::LANG_STRING,
            LiteralContent::TypedLiteral { datatype, .. } => datatype.as_str(),
        };
        NamedNodeRef { iri }
    }
}
