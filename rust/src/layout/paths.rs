//! Property paths as SPARQL spells them, IRIs in full: read by its grammar (rules 88 to 96), written without spaces and with the
//! parentheses that this grammar needs.

use spargebra::algebra::PropertyPathExpression as Path;
use spargebra::term::NamedNode;

use super::names::iri;
use super::tree::WriteError;

/// The marks of a path that is read, each parenthesis, IRI and operator being one, and parentheses in one another. A path with more
/// would need too much stack.
const MOST: usize = 1_024;
const DEEPEST: usize = 64;

pub fn write(out: &mut String, path: &Path) -> Result<(), WriteError> {
    match path {
        Path::NamedNode(node) => iri(out, node.as_str()),
        Path::NegatedPropertySet(nodes) => write_negated(out, nodes),
        Path::ZeroOrMore(inner) => write_repeated(out, inner, '*'),
        Path::OneOrMore(inner) => write_repeated(out, inner, '+'),
        Path::ZeroOrOne(inner) => write_repeated(out, inner, '?'),
        Path::Reverse(inner) => {
            out.push('^');
            write_part(out, inner, REPEATED)
        }
        Path::Sequence(left, right) => {
            write_part(out, left, SEQUENCE)?;
            out.push('/');
            write_part(out, right, REVERSE)
        }
        Path::Alternative(left, right) => {
            write_part(out, left, ALTERNATIVE)?;
            out.push('|');
            write_part(out, right, SEQUENCE)
        }
        #[allow(unreachable_patterns)]
        _ => Err(WriteError::Unsupported),
    }
}

// How tightly a path holds together. A part that holds less than its place asks for is put in parentheses.
const ALTERNATIVE: u8 = 0;
const SEQUENCE: u8 = 1;
const REVERSE: u8 = 2;
const REPEATED: u8 = 3;
const WHOLE: u8 = 4;

fn hold(path: &Path) -> u8 {
    match path {
        Path::Alternative(..) => ALTERNATIVE,
        Path::Sequence(..) => SEQUENCE,
        Path::Reverse(_) => REVERSE,
        Path::ZeroOrMore(_) | Path::OneOrMore(_) | Path::ZeroOrOne(_) => REPEATED,
        _ => WHOLE,
    }
}

fn write_part(out: &mut String, part: &Path, place: u8) -> Result<(), WriteError> {
    if hold(part) >= place {
        return write(out, part);
    }
    out.push('(');
    write(out, part)?;
    out.push(')');
    Ok(())
}

fn write_repeated(out: &mut String, part: &Path, mark: char) -> Result<(), WriteError> {
    write_part(out, part, WHOLE)?;
    out.push(mark);
    Ok(())
}

fn write_negated(out: &mut String, nodes: &[NamedNode]) -> Result<(), WriteError> {
    out.push_str("!(");
    for (index, node) in nodes.iter().enumerate() {
        if index > 0 {
            out.push('|');
        }
        iri(out, node.as_str())?;
    }
    out.push(')');
    Ok(())
}

pub fn read(field: &str) -> Option<Path> {
    let mut text = Text {
        rest: field,
        left: MOST,
        depth: 0,
    };
    let path = text.alternative()?;
    text.skip();
    text.rest.is_empty().then_some(path)
}

struct Text<'t> {
    rest: &'t str,
    /// How many marks may come yet.
    left: usize,
    depth: usize,
}

impl Text<'_> {
    fn skip(&mut self) {
        self.rest = self.rest.trim_start_matches(' ');
    }

    /// Whether a mark comes next, which is then passed.
    fn passes(&mut self, mark: char) -> bool {
        self.skip();
        match (self.rest.strip_prefix(mark), self.left) {
            (Some(behind), 1..) => {
                self.rest = behind;
                self.left -= 1;
                true
            }
            _ => false,
        }
    }

    fn alternative(&mut self) -> Option<Path> {
        let mut path = self.sequence()?;
        while self.passes('|') {
            path = Path::Alternative(Box::new(path), Box::new(self.sequence()?));
        }
        Some(path)
    }

    fn sequence(&mut self) -> Option<Path> {
        let mut path = self.step()?;
        while self.passes('/') {
            path = Path::Sequence(Box::new(path), Box::new(self.step()?));
        }
        Some(path)
    }

    /// A part, maybe repeated, maybe turned round.
    fn step(&mut self) -> Option<Path> {
        let turned = self.passes('^');
        let mut path = self.part()?;
        if self.passes('*') {
            path = Path::ZeroOrMore(Box::new(path));
        } else if self.passes('+') {
            path = Path::OneOrMore(Box::new(path));
        } else if self.passes('?') {
            path = Path::ZeroOrOne(Box::new(path));
        }
        Some(match turned {
            true => Path::Reverse(Box::new(path)),
            false => path,
        })
    }

    fn part(&mut self) -> Option<Path> {
        if self.passes('(') {
            return self.parenthesised();
        }
        if self.passes('!') {
            return self.negated().map(Path::NegatedPropertySet);
        }
        self.named_node().map(Path::NamedNode)
    }

    /// What follows an opening parenthesis, up to its end.
    fn parenthesised(&mut self) -> Option<Path> {
        if self.depth == DEEPEST {
            return None;
        }
        self.depth += 1;
        let path = self.alternative()?;
        self.depth -= 1;
        self.passes(')').then_some(path)
    }

    /// One IRI, or any number in parentheses.
    fn negated(&mut self) -> Option<Vec<NamedNode>> {
        if !self.passes('(') {
            return Some(vec![self.named_node()?]);
        }
        let mut nodes = Vec::new();
        while !self.passes(')') {
            if !nodes.is_empty() && !self.passes('|') {
                return None;
            }
            nodes.push(self.named_node()?);
        }
        Some(nodes)
    }

    fn named_node(&mut self) -> Option<NamedNode> {
        if !self.passes('<') {
            return None;
        }
        let (iri, behind) = self.rest.split_once('>')?;
        self.rest = behind;
        Some(NamedNode::new_unchecked(iri))
    }
}
