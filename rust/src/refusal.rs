//! The numbers with which a call refuses its texts.

use std::error::Error;
use std::fmt::{Display, Formatter, Result};

/// Why a call has no answer. Texts are checked in the order of the parameters ([`Malformed`](Refusal::Malformed),
/// [`OverBound`](Refusal::OverBound)); then 5, 4, 11, 3, 10, 14, 15, 7 in this order, as far as a call has them.
#[derive(Debug, Clone, Copy, PartialEq, Eq, Hash)]
#[non_exhaustive]
pub enum Refusal {
    /// A text is malformed.
    Malformed,
    /// A text is over a bound.
    OverBound,
    /// A position is outside its projection.
    Outside,
    /// A tree's root isn't project.
    NotProject,
    /// The heads of two queries differ, or their kind can't be merged.
    NotMergeable,
    /// The answer is longer than the room for it. No function of this crate returns it, as they make room for every answer.
    TooShort,
    /// A value can't be used: a tuple or a map.
    NotUsable,
    /// More numbers are to be listed than there is room for. No function of this crate returns it, as they make room for all.
    ListTooShort,
    /// A join list has a position twice on one side.
    Repeated,
    /// A join list of [`without`](crate::without) is empty.
    NoPairs,
    /// A namespace table is unsorted, or two of its old starts overlap.
    NotInOrder,
    /// No line of a namespace table covers an IRI of the tree.
    NotCovered,
    /// A number that this version of the crate has no name for.
    Other(u8),
}

impl Refusal {
    /// All that have a name, by rising number.
    pub const ALL: &'static [Self] = &[
        Self::Malformed,
        Self::OverBound,
        Self::Outside,
        Self::NotProject,
        Self::NotMergeable,
        Self::TooShort,
        Self::NotUsable,
        Self::ListTooShort,
        Self::Repeated,
        Self::NoPairs,
        Self::NotInOrder,
        Self::NotCovered,
    ];

    /// The number that the library returns for it.
    pub fn number(self) -> u8 {
        match self {
            Self::Malformed => 1,
            Self::OverBound => 2,
            Self::Outside => 3,
            Self::NotProject => 4,
            Self::NotMergeable => 5,
            Self::TooShort => 6,
            Self::NotUsable => 7,
            Self::ListTooShort => 9,
            Self::Repeated => 10,
            Self::NoPairs => 11,
            Self::NotInOrder => 14,
            Self::NotCovered => 15,
            Self::Other(number) => number,
        }
    }

    /// What a number stands for; 0 is an answer.
    pub(crate) fn of(number: u8) -> Option<Self> {
        let known = Self::ALL.iter().find(|known| known.number() == number);
        match number {
            0 => None,
            _ => Some(known.copied().unwrap_or(Self::Other(number))),
        }
    }
}

impl Display for Refusal {
    fn fmt(&self, f: &mut Formatter<'_>) -> Result {
        f.write_str(match self {
            Self::Malformed => "a text is malformed",
            Self::OverBound => "a text is over a bound",
            Self::Outside => "a position is outside its projection",
            Self::NotProject => "a tree's root isn't project",
            Self::NotMergeable => "the heads of two queries differ, or can't be merged",
            Self::TooShort => "the answer is longer than the room for it",
            Self::NotUsable => "a value can't be used",
            Self::ListTooShort => "more numbers are to be listed than there is room for",
            Self::Repeated => "a join list has a position twice on one side",
            Self::NoPairs => "a join list of without is empty",
            Self::NotInOrder => "a namespace table is unsorted, or two of its old starts overlap",
            Self::NotCovered => "no line of a namespace table covers an IRI of the tree",
            Self::Other(number) => return write!(f, "refused by the number {number}"),
        })
    }
}

impl Error for Refusal {}
