//! Reads expressions, and terms in their fields.

use spargebra::algebra::Expression;
use spargebra::term::{
    BlankNode, GroundTerm, Literal, NamedNode, NamedNodePattern, TermPattern, Variable,
};

use super::line::Line;
use super::read::{Read, ReadLeaves, Reader};

impl<'t, L: ReadLeaves<'t>> Reader<'t, L> {
    pub fn expression(&mut self) -> Read<Expression> {
        self.below(Self::expression_at)
    }

    fn expression_at(&mut self, mut line: Line<'t>) -> Read<Expression> {
        match line.word {
            "term" => self.term(line),
            "bound" => {
                let variable = self.variable(&mut line)?;
                line.end()?;
                Ok(Expression::Bound(variable))
            }
            "or" => self.two(line, Expression::Or),
            "and" => self.all(line),
            "eq" => self.two(line, Expression::Equal),
            "same" => self.two(line, Expression::SameTerm),
            "gt" => self.two(line, Expression::Greater),
            "ge" => self.two(line, Expression::GreaterOrEqual),
            "lt" => self.two(line, Expression::Less),
            "le" => self.two(line, Expression::LessOrEqual),
            "add" => self.two(line, Expression::Add),
            "sub" => self.two(line, Expression::Subtract),
            "mul" => self.two(line, Expression::Multiply),
            "div" => self.two(line, Expression::Divide),
            "plus" => self.one(line, Expression::UnaryPlus),
            "neg" => self.one(line, Expression::UnaryMinus),
            "not" => self.one(line, Expression::Not),
            "if" => {
                line.end()?;
                Ok(Expression::If(self.part()?, self.part()?, self.part()?))
            }
            "exists" => {
                line.end()?;
                Ok(Expression::Exists(self.inner()?))
            }
            "in" | "coalesce" | "call" => self.many(line),
            _ => Err(line.bad_word()),
        }
    }

    fn one(
        &mut self,
        line: Line<'t>,
        expression: fn(Box<Expression>) -> Expression,
    ) -> Read<Expression> {
        line.end()?;
        Ok(expression(self.part()?))
    }

    fn two(
        &mut self,
        line: Line<'t>,
        expression: fn(Box<Expression>, Box<Expression>) -> Expression,
    ) -> Read<Expression> {
        line.end()?;
        Ok(expression(self.part()?, self.part()?))
    }

    /// A chain of `and` down its first parts, read without descent: filters are joined so, as many as there are.
    fn all(&mut self, line: Line<'t>) -> Read<Expression> {
        line.end()?;
        let mut more = 0;
        while self.next_is("and") {
            self.level()?;
            more += 1;
        }
        let mut all = self.expression()?;
        self.above(more);
        for _ in 0..=more {
            all = Expression::And(Box::new(all), self.part()?);
        }
        Ok(all)
    }

    /// The words whose line says how many parts follow.
    fn many(&mut self, mut line: Line<'t>) -> Read<Expression> {
        match line.word {
            "in" => {
                let count = line.number()?;
                line.end()?;
                Ok(Expression::In(self.part()?, self.parts(count)?))
            }
            "coalesce" => {
                let count = line.number()?;
                line.end()?;
                Ok(Expression::Coalesce(self.parts(count)?))
            }
            _ => {
                let name = line.open()?;
                let function = self.leaves.function(name).ok_or(line.bad_term())?;
                let count = line.number()?;
                line.end()?;
                Ok(Expression::FunctionCall(function, self.parts(count)?))
            }
        }
    }

    fn part(&mut self) -> Read<Box<Expression>> {
        Ok(Box::new(self.expression()?))
    }

    fn parts(&mut self, count: usize) -> Read<Vec<Expression>> {
        self.several(count, Self::expression)
    }

    fn term(&mut self, mut line: Line<'t>) -> Read<Expression> {
        let field = line.open()?;
        let term = match field.as_bytes()[0] {
            b'?' => Expression::Variable(self.variable_in(field, &line)?),
            b'<' => Expression::NamedNode(named_node(field, &line)?),
            _ => Expression::Literal(self.literal(field, &line)?),
        };
        line.end()?;
        Ok(term)
    }

    pub(super) fn term_pattern(&mut self, line: &mut Line<'t>) -> Read<TermPattern> {
        let field = line.open()?;
        Ok(match field.as_bytes()[0] {
            b'?' => TermPattern::Variable(self.variable_in(field, line)?),
            b'<' => TermPattern::NamedNode(named_node(field, line)?),
            b'_' => {
                let id = field.strip_prefix("_:").ok_or(line.bad_field())?;
                TermPattern::BlankNode(BlankNode::new_unchecked(id))
            }
            _ => TermPattern::Literal(self.literal(field, line)?),
        })
    }

    /// A predicate, or the name of a graph or a service.
    pub(super) fn name(&mut self, line: &mut Line<'t>) -> Read<NamedNodePattern> {
        let field = line.open()?;
        Ok(match field.as_bytes()[0] {
            b'?' => NamedNodePattern::Variable(self.variable_in(field, line)?),
            _ => NamedNodePattern::NamedNode(named_node(field, line)?),
        })
    }

    pub fn cell(&mut self, line: &mut Line<'t>) -> Read<Option<GroundTerm>> {
        let field = line.open()?;
        Ok(match field.as_bytes()[0] {
            b'-' if field == "-" => None,
            b'<' => Some(GroundTerm::NamedNode(named_node(field, line)?)),
            _ => Some(GroundTerm::Literal(self.literal(field, line)?)),
        })
    }

    pub(super) fn variable(&mut self, line: &mut Line<'t>) -> Read<Variable> {
        let field = line.field()?;
        self.variable_in(field, line)
    }

    /// All fields of a line.
    pub fn variables(&mut self, mut line: Line<'t>) -> Read<Vec<Variable>> {
        let mut variables = Vec::new();
        while let Some(field) = line.next() {
            variables.push(self.variable_in(field, &line)?);
        }
        Ok(variables)
    }

    fn variable_in(&mut self, field: &'t str, line: &Line<'t>) -> Read<Variable> {
        match field.strip_prefix('?') {
            None | Some("") => Err(line.bad_field()),
            Some(name) => Ok(self.leaves.variable(name)),
        }
    }

    fn literal(&mut self, field: &str, line: &Line<'t>) -> Read<Literal> {
        match field.as_bytes()[0] {
            b'"' => self.leaves.literal(field).ok_or(line.bad_term()),
            _ => Err(line.bad_field()),
        }
    }
}

fn named_node(field: &str, line: &Line<'_>) -> Read<NamedNode> {
    let iri = field
        .strip_prefix('<')
        .and_then(|rest| rest.strip_suffix('>'));
    Ok(NamedNode::new_unchecked(iri.ok_or(line.bad_field())?))
}
