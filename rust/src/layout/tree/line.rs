//! One line: its word, then its fields.

use std::str::Split;

use super::errors::ReadError;

pub struct Line<'t> {
    pub word: &'t str,
    place: usize,
    fields: Split<'t, char>,
}

impl<'t> Line<'t> {
    /// The line at a place, without its end.
    pub fn new(text: &'t str, place: usize) -> Self {
        let mut fields = text.split('\t');
        let word = fields.next().unwrap_or_default();
        Self {
            word,
            place,
            fields,
        }
    }

    pub fn bad_word(&self) -> ReadError {
        ReadError::Word { line: self.place }
    }

    pub fn bad_field(&self) -> ReadError {
        ReadError::Field { line: self.place }
    }

    pub fn bad_term(&self) -> ReadError {
        ReadError::Term { line: self.place }
    }

    pub fn next(&mut self) -> Option<&'t str> {
        self.fields.next()
    }

    pub fn field(&mut self) -> Result<&'t str, ReadError> {
        self.next().ok_or(self.bad_field())
    }

    /// A field that may hold anything, but isn't empty.
    pub fn open(&mut self) -> Result<&'t str, ReadError> {
        match self.field()? {
            "" => Err(self.bad_field()),
            field => Ok(field),
        }
    }

    /// In base ten, no leading zeros, at most 4294967295.
    pub fn number(&mut self) -> Result<usize, ReadError> {
        let field = self.field()?;
        number(field).ok_or(self.bad_field())
    }

    /// A number, or `-` for none.
    pub fn number_or_none(&mut self) -> Result<Option<usize>, ReadError> {
        match self.field()? {
            "-" => Ok(None),
            field => Ok(Some(number(field).ok_or(self.bad_field())?)),
        }
    }

    pub fn flag(&mut self) -> Result<bool, ReadError> {
        match self.field()? {
            "0" => Ok(false),
            "1" => Ok(true),
            _ => Err(self.bad_field()),
        }
    }

    /// No field is left over.
    pub fn end(mut self) -> Result<(), ReadError> {
        match self.next() {
            None => Ok(()),
            Some(_) => Err(self.bad_field()),
        }
    }
}

fn number(field: &str) -> Option<usize> {
    let digit = field.bytes().next()?;
    if !digit.is_ascii_digit() || (digit == b'0' && field.len() > 1) {
        return None;
    }
    usize::try_from(field.parse::<u32>().ok()?).ok()
}
