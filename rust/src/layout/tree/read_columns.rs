//! Reads the patterns that name columns, order them or cut their rows.

use spargebra::algebra::{AggregateExpression, GraphPattern, OrderExpression};
use spargebra::term::{GroundTerm, Variable};

use super::line::Line;
use super::read::{Read, ReadLeaves, Reader};

impl<'t, L: ReadLeaves<'t>> Reader<'t, L> {
    pub(super) fn project(&mut self, line: Line<'t>) -> Read<GraphPattern> {
        let variables = self.variables(line)?;
        let inner = self.inner()?;
        Ok(GraphPattern::Project { inner, variables })
    }

    pub(super) fn extend(&mut self, mut line: Line<'t>) -> Read<GraphPattern> {
        let variable = self.variable(&mut line)?;
        line.end()?;
        let inner = self.inner()?;
        let expression = self.expression()?;
        Ok(GraphPattern::Extend {
            inner,
            variable,
            expression,
        })
    }

    pub(super) fn values(&mut self, mut line: Line<'t>) -> Read<GraphPattern> {
        let (width, count) = (line.number()?, line.number()?);
        line.end()?;
        let variables = self.columns(width)?;
        let bindings = self.several(count, |reader| reader.row(width))?;
        Ok(GraphPattern::Values {
            variables,
            bindings,
        })
    }

    fn row(&mut self, width: usize) -> Read<Vec<Option<GroundTerm>>> {
        let mut line = self.after("row")?;
        let cells = self.several(width, |reader| reader.cell(&mut line))?;
        line.end()?;
        Ok(cells)
    }

    pub(super) fn order_by(&mut self, mut line: Line<'t>) -> Read<GraphPattern> {
        let count = line.number()?;
        line.end()?;
        let inner = self.inner()?;
        let expression = self.several(count, Self::condition)?;
        Ok(GraphPattern::OrderBy { inner, expression })
    }

    fn condition(&mut self) -> Read<OrderExpression> {
        let line = self.line()?;
        let condition = match line.word {
            "asc" => OrderExpression::Asc,
            "desc" => OrderExpression::Desc,
            _ => return Err(line.bad_word()),
        };
        line.end()?;
        Ok(condition(self.expression()?))
    }

    pub(super) fn slice(&mut self, mut line: Line<'t>) -> Read<GraphPattern> {
        let (start, length) = (line.number()?, line.number_or_none()?);
        line.end()?;
        let inner = self.inner()?;
        Ok(GraphPattern::Slice {
            inner,
            start,
            length,
        })
    }

    pub(super) fn group(&mut self, mut line: Line<'t>) -> Read<GraphPattern> {
        let (width, count) = (line.number()?, line.number()?);
        line.end()?;
        let variables = self.columns(width)?;
        let inner = self.inner()?;
        let aggregates = self.several(count, Self::aggregate)?;
        Ok(GraphPattern::Group {
            inner,
            variables,
            aggregates,
        })
    }

    fn aggregate(&mut self) -> Read<(Variable, AggregateExpression)> {
        let mut line = self.line()?;
        match line.word {
            "aggall" => {
                let variable = self.variable(&mut line)?;
                let distinct = line.flag()?;
                line.end()?;
                Ok((variable, AggregateExpression::CountSolutions { distinct }))
            }
            "agg" => {
                let variable = self.variable(&mut line)?;
                let name = line.open()?;
                let name = self.leaves.aggregate(name).ok_or(line.bad_term())?;
                let distinct = line.flag()?;
                line.end()?;
                let expr = self.expression()?;
                let call = AggregateExpression::FunctionCall {
                    name,
                    expr,
                    distinct,
                };
                Ok((variable, call))
            }
            _ => Err(line.bad_word()),
        }
    }

    fn columns(&mut self, width: usize) -> Read<Vec<Variable>> {
        let line = self.after("cols")?;
        let bad = line.bad_field();
        let variables = self.variables(line)?;
        if variables.len() == width {
            Ok(variables)
        } else {
            Err(bad)
        }
    }
}
