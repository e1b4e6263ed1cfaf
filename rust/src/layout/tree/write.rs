//! Writes a query and its patterns.

use std::marker::PhantomData;

use spargebra::Query;
use spargebra::algebra::{
    AggregateExpression, AggregateFunction, Expression, Function, GraphPattern, OrderExpression,
    PropertyPathExpression, QueryDataset,
};
use spargebra::term::{GroundTerm, Literal, TermPattern, TriplePattern, Variable};

use super::errors::WriteError;

/// How what spargebra holds is put into fields.
pub trait WriteLeaves {
    /// A name or an IRI, as it is.
    fn name(out: &mut String, name: &str) -> Result<(), WriteError>;
    fn literal(out: &mut String, literal: &Literal) -> Result<(), WriteError>;
    fn path(out: &mut String, path: &PropertyPathExpression) -> Result<(), WriteError>;
    fn function(out: &mut String, function: &Function) -> Result<(), WriteError>;
    fn aggregate(out: &mut String, function: &AggregateFunction) -> Result<(), WriteError>;
    fn dataset(out: &mut String, dataset: &QueryDataset) -> Result<(), WriteError>;
    fn base(out: &mut String, iri: &str) -> Result<(), WriteError>;
}

pub struct Writer<'o, L> {
    pub(super) out: &'o mut String,
    leaves: PhantomData<L>,
}

pub(super) type Written = Result<(), WriteError>;

impl<'o, L: WriteLeaves> Writer<'o, L> {
    pub fn new(out: &'o mut String) -> Self {
        Self {
            out,
            leaves: PhantomData,
        }
    }

    pub fn query(&mut self, query: &Query) -> Written {
        let (kind, dataset, pattern, base_iri) = match query {
            Query::Select {
                dataset,
                pattern,
                base_iri,
            } => ("select", dataset, pattern, base_iri),
            Query::Ask {
                dataset,
                pattern,
                base_iri,
            } => ("ask", dataset, pattern, base_iri),
            Query::Construct {
                template,
                dataset,
                pattern,
                base_iri,
            } if template.is_empty() => ("construct", dataset, pattern, base_iri),
            Query::Construct { .. } => return Err(WriteError::Template),
            Query::Describe {
                dataset,
                pattern,
                base_iri,
            } => ("describe", dataset, pattern, base_iri),
        };
        self.word("query");
        self.put(kind);
        match dataset {
            None => self.put("-"),
            Some(dataset) => L::dataset(self.tab(), dataset)?,
        }
        match base_iri.as_ref().map(|base| base.as_str()) {
            None => self.put("-"),
            Some(base) => L::base(self.tab(), base)?,
        }
        self.end();
        self.pattern(pattern)
    }

    pub fn pattern(&mut self, tree: &GraphPattern) -> Written {
        match tree {
            GraphPattern::Bgp { patterns } => self.bgp(patterns),
            GraphPattern::Path {
                subject,
                path,
                object,
            } => self.path(subject, path, object),
            GraphPattern::Join { left, right } => self.pair("join", left, right),
            GraphPattern::Union { left, right } => self.pair("union", left, right),
            GraphPattern::Minus { left, right } => self.pair("minus", left, right),
            GraphPattern::LeftJoin {
                left,
                right,
                expression,
            } => self.left_join(left, right, expression.as_ref()),
            GraphPattern::Filter { expr, inner } => {
                self.line("filter");
                self.pattern(inner)?;
                self.expression(expr)
            }
            GraphPattern::Extend {
                inner,
                variable,
                expression,
            } => {
                self.variables("extend", [variable])?;
                self.pattern(inner)?;
                self.expression(expression)
            }
            GraphPattern::Values {
                variables,
                bindings,
            } => self.values(variables, bindings),
            GraphPattern::OrderBy { inner, expression } => self.order_by(inner, expression),
            GraphPattern::Group {
                inner,
                variables,
                aggregates,
            } => self.group(inner, variables, aggregates),
            _ => self.over_one(tree),
        }
    }

    /// The patterns with one pattern below them and nothing else.
    fn over_one(&mut self, tree: &GraphPattern) -> Written {
        let inner = match tree {
            GraphPattern::Project { inner, variables } => {
                self.variables("project", variables)?;
                inner
            }
            GraphPattern::Distinct { inner } => {
                self.line("distinct");
                inner
            }
            GraphPattern::Reduced { inner } => {
                self.line("reduced");
                inner
            }
            GraphPattern::Slice {
                inner,
                start,
                length,
            } => {
                self.word("slice");
                self.number(*start)?;
                match length {
                    None => self.put("-"),
                    Some(length) => self.number(*length)?,
                }
                self.end();
                inner
            }
            GraphPattern::Graph { name, inner } => {
                self.word("graph");
                self.name(name)?;
                self.end();
                inner
            }
            GraphPattern::Service {
                name,
                inner,
                silent,
            } => {
                self.word("service");
                self.name(name)?;
                self.flag(*silent);
                self.end();
                inner
            }
            _ => return Err(WriteError::Unsupported),
        };
        self.pattern(inner)
    }

    fn bgp(&mut self, patterns: &[TriplePattern]) -> Written {
        self.counted("bgp", [patterns.len()])?;
        for triple in patterns {
            self.word("t");
            self.term_pattern(&triple.subject)?;
            self.name(&triple.predicate)?;
            self.term_pattern(&triple.object)?;
            self.end();
        }
        Ok(())
    }

    fn path(
        &mut self,
        subject: &TermPattern,
        path: &PropertyPathExpression,
        object: &TermPattern,
    ) -> Written {
        self.word("path");
        self.term_pattern(subject)?;
        L::path(self.tab(), path)?;
        self.term_pattern(object)?;
        self.end();
        Ok(())
    }

    fn pair(&mut self, word: &str, left: &GraphPattern, right: &GraphPattern) -> Written {
        self.line(word);
        self.pattern(left)?;
        self.pattern(right)
    }

    fn left_join(
        &mut self,
        left: &GraphPattern,
        right: &GraphPattern,
        expression: Option<&Expression>,
    ) -> Written {
        self.word("leftjoin");
        self.flag(expression.is_some());
        self.end();
        self.pattern(left)?;
        self.pattern(right)?;
        expression.map_or(Ok(()), |expression| self.expression(expression))
    }

    fn values(&mut self, variables: &[Variable], rows: &[Vec<Option<GroundTerm>>]) -> Written {
        self.counted("values", [variables.len(), rows.len()])?;
        self.variables("cols", variables)?;
        for cells in rows {
            self.word("row");
            for cell in cells {
                match cell {
                    None => self.put("-"),
                    Some(term) => self.ground_term(term)?,
                }
            }
            self.end();
        }
        Ok(())
    }

    fn order_by(&mut self, inner: &GraphPattern, conditions: &[OrderExpression]) -> Written {
        self.counted("orderby", [conditions.len()])?;
        self.pattern(inner)?;
        for condition in conditions {
            let (word, part) = match condition {
                OrderExpression::Asc(part) => ("asc", part),
                OrderExpression::Desc(part) => ("desc", part),
            };
            self.line(word);
            self.expression(part)?;
        }
        Ok(())
    }

    fn group(
        &mut self,
        inner: &GraphPattern,
        variables: &[Variable],
        aggregates: &[(Variable, AggregateExpression)],
    ) -> Written {
        self.counted("group", [variables.len(), aggregates.len()])?;
        self.variables("cols", variables)?;
        self.pattern(inner)?;
        for (variable, aggregate) in aggregates {
            self.aggregate(variable, aggregate)?;
        }
        Ok(())
    }

    fn aggregate(&mut self, variable: &Variable, aggregate: &AggregateExpression) -> Written {
        match aggregate {
            AggregateExpression::CountSolutions { distinct } => {
                self.word("aggall");
                self.variable(variable)?;
                self.flag(*distinct);
                self.end();
                Ok(())
            }
            AggregateExpression::FunctionCall {
                name,
                expr,
                distinct,
            } => {
                self.word("agg");
                self.variable(variable)?;
                L::aggregate(self.tab(), name)?;
                self.flag(*distinct);
                self.end();
                self.expression(expr)
            }
        }
    }
}
