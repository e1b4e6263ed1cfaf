//! Writes expressions, lines and fields.

use spargebra::algebra::Expression;
use spargebra::term::{GroundTerm, NamedNode, NamedNodePattern, TermPattern, Variable};

use super::errors::WriteError;
use super::write::{WriteLeaves, Writer, Written};

impl<L: WriteLeaves> Writer<'_, L> {
    pub fn expression(&mut self, tree: &Expression) -> Written {
        match tree {
            Expression::Or(left, right) => self.parts("or", [left, right]),
            Expression::And(left, right) => self.parts("and", [left, right]),
            Expression::Equal(left, right) => self.parts("eq", [left, right]),
            Expression::SameTerm(left, right) => self.parts("same", [left, right]),
            Expression::Greater(left, right) => self.parts("gt", [left, right]),
            Expression::GreaterOrEqual(left, right) => self.parts("ge", [left, right]),
            Expression::Less(left, right) => self.parts("lt", [left, right]),
            Expression::LessOrEqual(left, right) => self.parts("le", [left, right]),
            Expression::Add(left, right) => self.parts("add", [left, right]),
            Expression::Subtract(left, right) => self.parts("sub", [left, right]),
            Expression::Multiply(left, right) => self.parts("mul", [left, right]),
            Expression::Divide(left, right) => self.parts("div", [left, right]),
            Expression::UnaryPlus(part) => self.parts("plus", [part]),
            Expression::UnaryMinus(part) => self.parts("neg", [part]),
            Expression::Not(part) => self.parts("not", [part]),
            Expression::If(test, yes, no) => self.parts("if", [test, yes, no]),
            Expression::In(first, others) => {
                self.counted("in", [others.len()])?;
                self.expression(first)?;
                self.list(others)
            }
            Expression::Coalesce(parts) => {
                self.counted("coalesce", [parts.len()])?;
                self.list(parts)
            }
            Expression::FunctionCall(function, parts) => {
                self.word("call");
                L::function(self.tab(), function)?;
                self.number(parts.len())?;
                self.end();
                self.list(parts)
            }
            Expression::Exists(inner) => {
                self.line("exists");
                self.pattern(inner)
            }
            Expression::Bound(variable) => self.variables("bound", [variable]),
            _ => self.term(tree),
        }
    }

    fn term(&mut self, tree: &Expression) -> Written {
        self.word("term");
        match tree {
            Expression::NamedNode(node) => self.named_node(node)?,
            Expression::Literal(literal) => L::literal(self.tab(), literal)?,
            Expression::Variable(variable) => self.variable(variable)?,
            _ => return Err(WriteError::Unsupported),
        }
        self.end();
        Ok(())
    }

    fn parts<const N: usize>(&mut self, word: &str, parts: [&Expression; N]) -> Written {
        self.line(word);
        parts.into_iter().try_for_each(|part| self.expression(part))
    }

    fn list(&mut self, parts: &[Expression]) -> Written {
        parts.iter().try_for_each(|part| self.expression(part))
    }

    pub(super) fn term_pattern(&mut self, term: &TermPattern) -> Written {
        match term {
            TermPattern::NamedNode(node) => self.named_node(node),
            TermPattern::Literal(literal) => L::literal(self.tab(), literal),
            TermPattern::Variable(variable) => self.variable(variable),
            TermPattern::BlankNode(node) => {
                self.put("_:");
                L::name(self.out, node.as_str())
            }
            #[allow(unreachable_patterns)]
            _ => Err(WriteError::Unsupported),
        }
    }

    /// A predicate, or the name of a graph or a service.
    pub(super) fn name(&mut self, name: &NamedNodePattern) -> Written {
        match name {
            NamedNodePattern::NamedNode(node) => self.named_node(node),
            NamedNodePattern::Variable(variable) => self.variable(variable),
        }
    }

    pub fn ground_term(&mut self, term: &GroundTerm) -> Written {
        match term {
            GroundTerm::NamedNode(node) => self.named_node(node),
            GroundTerm::Literal(literal) => L::literal(self.tab(), literal),
            #[allow(unreachable_patterns)]
            _ => Err(WriteError::Unsupported),
        }
    }

    fn named_node(&mut self, node: &NamedNode) -> Written {
        self.put("<");
        L::name(self.out, node.as_str())?;
        self.out.push('>');
        Ok(())
    }

    pub fn variable(&mut self, variable: &Variable) -> Written {
        if variable.as_str().is_empty() {
            return Err(WriteError::Name);
        }
        self.put("?");
        L::name(self.out, variable.as_str())
    }

    /// A line with variables alone.
    pub fn variables<'v>(
        &mut self,
        word: &str,
        variables: impl IntoIterator<Item = &'v Variable>,
    ) -> Written {
        self.word(word);
        variables
            .into_iter()
            .try_for_each(|variable| self.variable(variable))?;
        self.end();
        Ok(())
    }

    /// A line with numbers alone.
    pub(super) fn counted<const N: usize>(&mut self, word: &str, counts: [usize; N]) -> Written {
        self.word(word);
        counts
            .into_iter()
            .try_for_each(|count| self.number(count))?;
        self.end();
        Ok(())
    }

    pub fn number(&mut self, number: usize) -> Written {
        let number = u32::try_from(number).or(Err(WriteError::Number))?;
        self.put(&number.to_string());
        Ok(())
    }

    pub(super) fn flag(&mut self, yes: bool) {
        self.put(if yes { "1" } else { "0" });
    }

    /// A line without fields.
    pub(super) fn line(&mut self, word: &str) {
        self.word(word);
        self.end();
    }

    pub fn word(&mut self, word: &str) {
        self.out.push_str(word);
    }

    pub(super) fn put(&mut self, field: &str) {
        self.tab().push_str(field);
    }

    /// The start of a field, and where to put it.
    pub(super) fn tab(&mut self) -> &mut String {
        self.out.push('\t');
        self.out
    }

    pub fn end(&mut self) {
        self.out.push('\n');
    }
}
