//! Reads a query and its patterns. Any text is allowed; nothing panics.

use spargebra::Query;
use spargebra::algebra::{
    AggregateFunction, Function, GraphPattern, PropertyPathExpression, QueryDataset,
};
use spargebra::term::{Literal, TriplePattern, Variable};

use super::errors::ReadError;
use super::line::Line;

/// How fields are taken as what spargebra holds; None is one that it can't.
pub trait ReadLeaves<'t> {
    fn variable(&mut self, name: &'t str) -> Variable;
    /// The field starts with a quote.
    fn literal(&mut self, field: &str) -> Option<Literal>;
    fn path(&mut self, field: &str) -> Option<PropertyPathExpression>;
    fn function(&mut self, name: &str) -> Option<Function>;
    fn aggregate(&mut self, name: &str) -> Option<AggregateFunction>;
    fn dataset(&mut self, field: &str) -> Option<QueryDataset>;
    /// The IRI of a base's field.
    fn base(field: &str) -> Option<&str>;
}

/// Levels that are read by descent, a chain of `and` being one. No answer has more: at most 63 patterns stand above a filter, a chain
/// of `and` joins its parts, and a part with 63 `Unequals`, of two words each, has depth 127.
const DEEPEST: usize = 256;

/// Levels of the tree that is read, each `and` of a chain being one. No answer has more: a chain has 255, which join 256 filters.
const MOST: usize = 512;

/// Parts that there is room for before they are read.
const ROOM: usize = 256;

pub struct Reader<'t, L> {
    rest: &'t str,
    read: usize,
    depth: usize,
    levels: usize,
    pub leaves: L,
}

pub(super) type Read<T> = Result<T, ReadError>;

impl<'t, L: ReadLeaves<'t>> Reader<'t, L> {
    pub fn new(text: &'t str, leaves: L) -> Self {
        Self {
            rest: text,
            read: 0,
            depth: 0,
            levels: 0,
            leaves,
        }
    }

    /// Nothing is left over.
    pub fn end(&self) -> Read<()> {
        match self.rest {
            "" => Ok(()),
            _ => Err(ReadError::LeftOver {
                line: self.read + 1,
            }),
        }
    }

    pub fn line(&mut self) -> Read<Line<'t>> {
        let place = self.read + 1;
        let (line, rest) = self
            .rest
            .split_once('\n')
            .ok_or(ReadError::Missing { line: place })?;
        (self.rest, self.read) = (rest, place);
        Ok(Line::new(line, place))
    }

    /// A line that has to have this word.
    pub fn after(&mut self, word: &str) -> Read<Line<'t>> {
        let line = self.line()?;
        if line.word == word {
            Ok(line)
        } else {
            Err(line.bad_word())
        }
    }

    /// A part of the tree that stands one deeper, by its first line.
    pub(super) fn below<T>(
        &mut self,
        part: impl FnOnce(&mut Self, Line<'t>) -> Read<T>,
    ) -> Read<T> {
        let line = self.line()?;
        if self.depth == DEEPEST {
            return Err(self.too_deep());
        }
        self.depth += 1;
        self.level()?;
        let part = part(self, line)?;
        self.depth -= 1;
        self.levels -= 1;
        Ok(part)
    }

    /// One more level of the tree.
    pub(super) fn level(&mut self) -> Read<()> {
        if self.levels == MOST {
            return Err(self.too_deep());
        }
        self.levels += 1;
        Ok(())
    }

    /// So many levels less.
    pub(super) fn above(&mut self, levels: usize) {
        self.levels -= levels;
    }

    /// The next line, if it is this word alone.
    pub(super) fn next_is(&mut self, word: &str) -> bool {
        let rest = self
            .rest
            .strip_prefix(word)
            .and_then(|rest| rest.strip_prefix('\n'));
        if let Some(rest) = rest {
            (self.rest, self.read) = (rest, self.read + 1);
        }
        rest.is_some()
    }

    fn too_deep(&self) -> ReadError {
        ReadError::TooDeep { line: self.read }
    }

    /// As many parts as a line says, which may be more than there are.
    pub(super) fn several<T>(
        &mut self,
        count: usize,
        mut part: impl FnMut(&mut Self) -> Read<T>,
    ) -> Read<Vec<T>> {
        let mut parts = Vec::with_capacity(count.min(ROOM));
        for _ in 0..count {
            parts.push(part(self)?);
        }
        Ok(parts)
    }

    /// An empty file is a project without columns over no triples.
    pub fn tree(&mut self) -> Read<GraphPattern> {
        if !self.rest.is_empty() {
            return self.pattern();
        }
        let patterns = Vec::new();
        Ok(GraphPattern::Project {
            inner: Box::new(GraphPattern::Bgp { patterns }),
            variables: Vec::new(),
        })
    }

    /// A construct has no template in the layout.
    pub fn query(&mut self) -> Read<Query> {
        let mut line = self.after("query")?;
        let kind = line.field()?;
        let dataset = match line.open()? {
            "-" => None,
            field => Some(self.leaves.dataset(field).ok_or(line.bad_term())?),
        };
        let base_iri = match line.open()? {
            "-" => None,
            field => {
                let base = L::base(field).ok_or(line.bad_term())?;
                Some(base.parse().or(Err(line.bad_term()))?)
            }
        };
        let bad_kind = line.bad_field();
        line.end()?;
        let pattern = self.tree()?;
        match kind {
            "select" => Ok(Query::Select {
                dataset,
                pattern,
                base_iri,
            }),
            "ask" => Ok(Query::Ask {
                dataset,
                pattern,
                base_iri,
            }),
            "construct" => Ok(Query::Construct {
                template: Vec::new(),
                dataset,
                pattern,
                base_iri,
            }),
            "describe" => Ok(Query::Describe {
                dataset,
                pattern,
                base_iri,
            }),
            _ => Err(bad_kind),
        }
    }

    pub fn pattern(&mut self) -> Read<GraphPattern> {
        self.below(Self::pattern_at)
    }

    pub(super) fn inner(&mut self) -> Read<Box<GraphPattern>> {
        Ok(Box::new(self.pattern()?))
    }

    fn pattern_at(&mut self, line: Line<'t>) -> Read<GraphPattern> {
        match line.word {
            "bgp" => self.bgp(line),
            "path" => self.path(line),
            "join" => self.pair(line, |left, right| GraphPattern::Join { left, right }),
            "union" => self.pair(line, |left, right| GraphPattern::Union { left, right }),
            "minus" => self.pair(line, |left, right| GraphPattern::Minus { left, right }),
            "leftjoin" => self.left_join(line),
            "filter" => self.filter(line),
            "graph" => self.graph(line),
            "extend" => self.extend(line),
            "values" => self.values(line),
            "orderby" => self.order_by(line),
            "project" => self.project(line),
            "distinct" => self.single(line, |inner| GraphPattern::Distinct { inner }),
            "reduced" => self.single(line, |inner| GraphPattern::Reduced { inner }),
            "slice" => self.slice(line),
            "group" => self.group(line),
            "service" => self.service(line),
            _ => Err(line.bad_word()),
        }
    }

    fn bgp(&mut self, mut line: Line<'t>) -> Read<GraphPattern> {
        let count = line.number()?;
        line.end()?;
        let patterns = self.several(count, Self::triple)?;
        Ok(GraphPattern::Bgp { patterns })
    }

    fn triple(&mut self) -> Read<TriplePattern> {
        let mut line = self.after("t")?;
        let triple = TriplePattern {
            subject: self.term_pattern(&mut line)?,
            predicate: self.name(&mut line)?,
            object: self.term_pattern(&mut line)?,
        };
        line.end()?;
        Ok(triple)
    }

    fn path(&mut self, mut line: Line<'t>) -> Read<GraphPattern> {
        let subject = self.term_pattern(&mut line)?;
        let field = line.open()?;
        let path = self.leaves.path(field).ok_or(line.bad_term())?;
        let object = self.term_pattern(&mut line)?;
        line.end()?;
        Ok(GraphPattern::Path {
            subject,
            path,
            object,
        })
    }

    fn pair(
        &mut self,
        line: Line<'t>,
        pattern: fn(Box<GraphPattern>, Box<GraphPattern>) -> GraphPattern,
    ) -> Read<GraphPattern> {
        line.end()?;
        Ok(pattern(self.inner()?, self.inner()?))
    }

    fn single(
        &mut self,
        line: Line<'t>,
        pattern: fn(Box<GraphPattern>) -> GraphPattern,
    ) -> Read<GraphPattern> {
        line.end()?;
        Ok(pattern(self.inner()?))
    }

    fn left_join(&mut self, mut line: Line<'t>) -> Read<GraphPattern> {
        let with_expression = line.flag()?;
        line.end()?;
        let (left, right) = (self.inner()?, self.inner()?);
        let expression = match with_expression {
            true => Some(self.expression()?),
            false => None,
        };
        Ok(GraphPattern::LeftJoin {
            left,
            right,
            expression,
        })
    }

    fn filter(&mut self, line: Line<'t>) -> Read<GraphPattern> {
        line.end()?;
        let inner = self.inner()?;
        let expr = self.expression()?;
        Ok(GraphPattern::Filter { expr, inner })
    }

    fn graph(&mut self, mut line: Line<'t>) -> Read<GraphPattern> {
        let name = self.name(&mut line)?;
        line.end()?;
        let inner = self.inner()?;
        Ok(GraphPattern::Graph { name, inner })
    }

    fn service(&mut self, mut line: Line<'t>) -> Read<GraphPattern> {
        let name = self.name(&mut line)?;
        let silent = line.flag()?;
        line.end()?;
        let inner = self.inner()?;
        Ok(GraphPattern::Service {
            name,
            inner,
            silent,
        })
    }
}
