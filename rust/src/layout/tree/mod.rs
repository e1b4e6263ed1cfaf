//! Lines of a tree for spargebra's types, whatever stands in a term or a name. `compare/driver` has this folder too, with
//! leaves of its own.

mod errors;
mod line;
mod read;
mod read_columns;
mod read_expression;
mod write;
mod write_expression;

pub use errors::{ReadError, WriteError};
pub use read::{ReadLeaves, Reader};
pub use write::{WriteLeaves, Writer};
