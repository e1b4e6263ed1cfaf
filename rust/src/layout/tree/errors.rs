//! Why a text isn't read, or a tree isn't written.

use std::error::Error;
use std::fmt::{Display, Formatter, Result};

/// Why a text isn't read as a tree of spargebra. Lines are counted from 1.
#[derive(Debug, Clone, Copy, PartialEq, Eq, Hash)]
#[non_exhaustive]
pub enum ReadError {
    /// The text isn't UTF-8.
    NotUtf8,
    /// A line that has to come is missing, or isn't ended.
    Missing { line: usize },
    /// The line's word isn't one that may stand there.
    Word { line: usize },
    /// A field is missing, left over, or not of the form that the layout asks for there.
    Field { line: usize },
    /// A field that the layout leaves open, and that spargebra's types don't hold.
    Term { line: usize },
    /// The tree has ended, and lines are left over.
    LeftOver { line: usize },
    /// The line is deeper in its tree than any answer is.
    TooDeep { line: usize },
}

impl Display for ReadError {
    fn fmt(&self, f: &mut Formatter<'_>) -> Result {
        match self {
            Self::NotUtf8 => write!(f, "the text isn't UTF-8"),
            Self::Missing { line } => write!(f, "line {line} is missing or isn't ended"),
            Self::Word { line } => write!(f, "line {line}: the word may not stand here"),
            Self::Field { line } => write!(f, "line {line}: a field is missing, left over or bad"),
            Self::Term { line } => write!(f, "line {line}: spargebra can't hold a term or name"),
            Self::LeftOver { line } => write!(f, "line {line}: the tree has ended before it"),
            Self::TooDeep { line } => write!(f, "line {line} is too deep in its tree"),
        }
    }
}

impl Error for ReadError {}

/// Why a tree of spargebra can't be written in the layout.
#[derive(Debug, Clone, Copy, PartialEq, Eq, Hash)]
#[non_exhaustive]
pub enum WriteError {
    /// A name, IRI, tag or base that no field may hold: with a tab or line end, a `>` where it would end an IRI too soon, or
    /// an empty name.
    Name,
    /// A number over 4294967295.
    Number,
    /// The template of a construct, which has no place in the layout.
    Template,
    /// A kind that the layout doesn't have, as a quoted triple.
    Unsupported,
}

impl Display for WriteError {
    fn fmt(&self, f: &mut Formatter<'_>) -> Result {
        f.write_str(match self {
            Self::Name => "a name or IRI that no field may hold",
            Self::Number => "a number over 4294967295",
            Self::Template => "a construct's template has no place in the layout",
            Self::Unsupported => "a kind that the layout doesn't have",
        })
    }
}

impl Error for WriteError {}
