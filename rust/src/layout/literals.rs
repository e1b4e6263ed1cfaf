//! Literals in N-Triples form. One literal has one text: equal literals are equal bytes, and others aren't.

use spargebra::term::Literal;

use super::names::{iri, whole_iri};
use super::terms::Terms;
use super::tree::{WriteError, WriteLeaves};

const STRING: &str = "http://www.w3.org/2001/XMLSchema#string";
const LANG_STRING: &str = "http://www.w3.org/1999/02/22-rdf-syntax-ns#langString";

pub fn write(out: &mut String, literal: &Literal) -> Result<(), WriteError> {
    write_quoted(out, literal.value());
    match (literal.language(), literal.datatype().as_str()) {
        (Some(""), _) => Err(WriteError::Name),
        (Some(tag), LANG_STRING) => {
            out.push('@');
            Terms::name(out, tag)
        }
        // A base direction, which the layout has no place for.
        (Some(_), _) => Err(WriteError::Unsupported),
        (None, STRING) => Ok(()),
        (None, datatype) => {
            out.push_str("^^");
            iri(out, datatype)
        }
    }
}

pub fn read(field: &str) -> Option<Literal> {
    let (value, behind) = read_quoted(field)?;
    if behind.is_empty() {
        return Some(Literal::new_simple_literal(value));
    }
    if let Some(tag) = behind.strip_prefix('@').filter(|tag| !tag.is_empty()) {
        return Some(Literal::new_language_tagged_literal_unchecked(value, tag));
    }
    let datatype = whole_iri(behind.strip_prefix("^^")?)?;
    Some(Literal::new_typed_literal(value, datatype))
}

/// Between quotes, with escapes for what N-Triples doesn't allow there and for tabs, which part fields.
pub fn write_quoted(out: &mut String, value: &str) {
    out.push('"');
    for character in value.chars() {
        match character {
            '\t' => out.push_str("\\t"),
            '\n' => out.push_str("\\n"),
            '\r' => out.push_str("\\r"),
            '"' => out.push_str("\\\""),
            '\\' => out.push_str("\\\\"),
            other => out.push(other),
        }
    }
    out.push('"');
}

/// What stands between the first quote and the next that isn't escaped, without escapes, and what stands behind it.
pub fn read_quoted(field: &str) -> Option<(String, &str)> {
    let mut value = String::new();
    let mut rest = field.strip_prefix('"')?.chars();
    loop {
        match rest.next()? {
            '"' => return Some((value, rest.as_str())),
            '\\' => {
                let (character, behind) = escaped(rest.as_str())?;
                value.push(character);
                rest = behind.chars();
            }
            other => value.push(other),
        }
    }
}

/// The character that stands behind a backslash, and the rest.
fn escaped(text: &str) -> Option<(char, &str)> {
    let mut rest = text.chars();
    let character = match rest.next()? {
        't' => '\t',
        'b' => '\u{8}',
        'n' => '\n',
        'r' => '\r',
        'f' => '\u{c}',
        mark @ ('"' | '\'' | '\\') => mark,
        'u' => return coded(rest.as_str(), 4),
        'U' => return coded(rest.as_str(), 8),
        _ => return None,
    };
    Some((character, rest.as_str()))
}

/// A character by its number, in as many hexadecimal digits.
fn coded(text: &str, digits: usize) -> Option<(char, &str)> {
    let (code, rest) = text.split_at_checked(digits)?;
    if !code.bytes().all(|byte| byte.is_ascii_hexdigit()) {
        return None;
    }
    let character = char::from_u32(u32::from_str_radix(code, 16).ok()?)?;
    Some((character, rest))
}
