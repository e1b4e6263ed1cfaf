//! Names of functions and aggregates, and datasets. Each has one text, and no two share one.

use spargebra::algebra::{AggregateFunction, Function, QueryDataset};
use spargebra::term::NamedNode;

use super::literals::{read_quoted, write_quoted};
use super::terms::Terms;
use super::tree::{WriteError, WriteLeaves};

static FUNCTIONS: [(Function, &str); 46] = [
    (Function::Str, "STR"),
    (Function::Lang, "LANG"),
    (Function::LangMatches, "LANGMATCHES"),
    (Function::Datatype, "DATATYPE"),
    (Function::Iri, "IRI"),
    (Function::BNode, "BNODE"),
    (Function::Rand, "RAND"),
    (Function::Abs, "ABS"),
    (Function::Ceil, "CEIL"),
    (Function::Floor, "FLOOR"),
    (Function::Round, "ROUND"),
    (Function::Concat, "CONCAT"),
    (Function::SubStr, "SUBSTR"),
    (Function::StrLen, "STRLEN"),
    (Function::Replace, "REPLACE"),
    (Function::UCase, "UCASE"),
    (Function::LCase, "LCASE"),
    (Function::EncodeForUri, "ENCODE_FOR_URI"),
    (Function::Contains, "CONTAINS"),
    (Function::StrStarts, "STRSTARTS"),
    (Function::StrEnds, "STRENDS"),
    (Function::StrBefore, "STRBEFORE"),
    (Function::StrAfter, "STRAFTER"),
    (Function::Year, "YEAR"),
    (Function::Month, "MONTH"),
    (Function::Day, "DAY"),
    (Function::Hours, "HOURS"),
    (Function::Minutes, "MINUTES"),
    (Function::Seconds, "SECONDS"),
    (Function::Timezone, "TIMEZONE"),
    (Function::Tz, "TZ"),
    (Function::Now, "NOW"),
    (Function::Uuid, "UUID"),
    (Function::StrUuid, "STRUUID"),
    (Function::Md5, "MD5"),
    (Function::Sha1, "SHA1"),
    (Function::Sha256, "SHA256"),
    (Function::Sha384, "SHA384"),
    (Function::Sha512, "SHA512"),
    (Function::StrLang, "STRLANG"),
    (Function::StrDt, "STRDT"),
    (Function::IsIri, "isIRI"),
    (Function::IsBlank, "isBLANK"),
    (Function::IsLiteral, "isLITERAL"),
    (Function::IsNumeric, "isNUMERIC"),
    (Function::Regex, "REGEX"),
];

static AGGREGATES: [(AggregateFunction, &str); 7] = [
    (AggregateFunction::Count, "COUNT"),
    (AggregateFunction::Sum, "SUM"),
    (AggregateFunction::Avg, "AVG"),
    (AggregateFunction::Min, "MIN"),
    (AggregateFunction::Max, "MAX"),
    (AggregateFunction::Sample, "SAMPLE"),
    (
        AggregateFunction::GroupConcat { separator: None },
        "GROUP_CONCAT",
    ),
];

/// What stands before a separator between quotes.
const SEPARATED: &str = "GROUP_CONCAT;SEPARATOR=";

/// An IRI in brackets, in a text that goes on behind it.
pub fn iri(out: &mut String, iri: &str) -> Result<(), WriteError> {
    if iri.contains('>') {
        return Err(WriteError::Name);
    }
    out.push('<');
    Terms::name(out, iri)?;
    out.push('>');
    Ok(())
}

/// The IRI of a field that is one.
pub fn whole_iri(field: &str) -> Option<NamedNode> {
    let iri = field.strip_prefix('<')?.strip_suffix('>')?;
    (!iri.contains('>')).then(|| NamedNode::new_unchecked(iri))
}

/// An entry's name in a table.
fn name_in<T: PartialEq>(table: &[(T, &'static str)], entry: &T) -> Option<&'static str> {
    let (_, name) = table.iter().find(|(known, _)| known == entry)?;
    Some(name)
}

/// The entry of a name in a table.
fn named_in<T: Clone>(table: &[(T, &str)], name: &str) -> Option<T> {
    let (entry, _) = table.iter().find(|(_, known)| *known == name)?;
    Some(entry.clone())
}

pub fn write_function(out: &mut String, function: &Function) -> Result<(), WriteError> {
    if let Function::Custom(node) = function {
        return iri(out, node.as_str());
    }
    out.push_str(name_in(&FUNCTIONS, function).ok_or(WriteError::Unsupported)?);
    Ok(())
}

pub fn read_function(name: &str) -> Option<Function> {
    named_in(&FUNCTIONS, name).or_else(|| whole_iri(name).map(Function::Custom))
}

pub fn write_aggregate(out: &mut String, function: &AggregateFunction) -> Result<(), WriteError> {
    match function {
        AggregateFunction::Custom(node) => return iri(out, node.as_str()),
        AggregateFunction::GroupConcat {
            separator: Some(separator),
        } => {
            out.push_str(SEPARATED);
            write_quoted(out, separator);
        }
        _ => out.push_str(name_in(&AGGREGATES, function).ok_or(WriteError::Unsupported)?),
    }
    Ok(())
}

pub fn read_aggregate(name: &str) -> Option<AggregateFunction> {
    if let Some(separator) = name.strip_prefix(SEPARATED) {
        let (separator, behind) = read_quoted(separator)?;
        let separator = Some(separator);
        return behind
            .is_empty()
            .then_some(AggregateFunction::GroupConcat { separator });
    }
    named_in(&AGGREGATES, name).or_else(|| whole_iri(name).map(AggregateFunction::Custom))
}

/// What stands for named graphs where spargebra has no list of them.
const NOT_LISTED: &str = "FROM NAMED *";

/// SPARQL's clauses, parted by spaces; it has none for a dataset without graphs.
pub fn write_dataset(out: &mut String, dataset: &QueryDataset) -> Result<(), WriteError> {
    let start = out.len();
    for node in &dataset.default {
        write_clause(out, start, "FROM ");
        iri(out, node.as_str())?;
    }
    for node in dataset.named.iter().flatten() {
        write_clause(out, start, "FROM NAMED ");
        iri(out, node.as_str())?;
    }
    if dataset.named.is_none() {
        write_clause(out, start, NOT_LISTED);
    }
    match out.len() == start {
        true => Err(WriteError::Unsupported),
        false => Ok(()),
    }
}

fn write_clause(out: &mut String, start: usize, clause: &str) {
    if out.len() > start {
        out.push(' ');
    }
    out.push_str(clause);
}

pub fn read_dataset(field: &str) -> Option<QueryDataset> {
    let (mut default, mut named) = (Vec::new(), Vec::new());
    let mut rest = field;
    while rest != NOT_LISTED {
        let (list, behind) = match rest.strip_prefix("FROM NAMED ") {
            Some(behind) => (&mut named, behind),
            None => (&mut default, rest.strip_prefix("FROM ")?),
        };
        let (iri, behind) = behind.strip_prefix('<')?.split_once('>')?;
        list.push(NamedNode::new_unchecked(iri));
        if behind.is_empty() {
            let named = Some(named);
            return Some(QueryDataset { default, named });
        }
        rest = behind.strip_prefix(' ')?;
    }
    named.is_empty().then_some(QueryDataset {
        default,
        named: None,
    })
}
