//! Lists of two fields a line.

use spargebra::term::{GroundTerm, Variable};

use super::terms::Terms;
use super::tree::{WriteError, WriteLeaves, Writer};
use super::written;

/// A join list: for each pair a position on the left and one on the right.
pub fn write_joins(joins: &[(usize, usize)]) -> Result<Vec<u8>, WriteError> {
    written(|writer| {
        joins.iter().try_for_each(|(left, right)| {
            position(writer, *left)?;
            writer.number(*right)?;
            writer.end();
            Ok(())
        })
    })
}

/// A constant list: positions with the terms that they are fixed to.
pub fn write_constants<'c>(
    constants: impl IntoIterator<Item = (usize, &'c GroundTerm)>,
) -> Result<Vec<u8>, WriteError> {
    written(|writer| {
        constants.into_iter().try_for_each(|(column, term)| {
            position(writer, column)?;
            writer.ground_term(term)?;
            writer.end();
            Ok(())
        })
    })
}

/// A mapping: names with the names that they become.
pub fn write_mapping(mapping: &[(Variable, Variable)]) -> Result<Vec<u8>, WriteError> {
    written(|writer| {
        mapping.iter().try_for_each(|(from, to)| {
            let mut first = "?".to_string();
            match from.as_str() {
                "" => Err(WriteError::Name),
                name => Terms::name(&mut first, name),
            }?;
            writer.word(&first);
            writer.variable(to)?;
            writer.end();
            Ok(())
        })
    })
}

/// A line's first field.
fn position(writer: &mut Writer<'_, Terms>, position: usize) -> Result<(), WriteError> {
    let position = u32::try_from(position).or(Err(WriteError::Number))?;
    writer.word(&position.to_string());
    Ok(())
}
