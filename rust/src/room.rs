//! How many bytes a call's answer has at most, by the lengths of its texts: the `GANDEUCH_…_ROOM` of gandeuch.h. A text over the
//! bound has no answer, so it counts as one at the bound, and no more is asked for than an answer can need.

/// No longer text is accepted.
const TEXT: usize = 16_384;

fn length(text: &[u8]) -> usize {
    text.len().min(TEXT)
}

pub fn scope(tree: &[u8]) -> usize {
    length(tree) + 7
}

pub fn rename(tree: &[u8]) -> usize {
    44 * length(tree) + 14
}

/// For trees and for queries.
pub fn merge(left: &[u8], right: &[u8], left_constants: &[u8], right_constants: &[u8]) -> usize {
    3 * (length(left) + length(right)) + length(left_constants) + length(right_constants) + 84
}

pub fn push(query: &[u8], constants: &[u8]) -> usize {
    3 * length(query) + length(constants) + 42
}

pub fn negate(query: &[u8]) -> usize {
    length(query) + 38
}

pub fn without(left: &[u8], right: &[u8]) -> usize {
    3 * (length(left) + length(right)) + 84
}

pub fn bindings(tree: &[u8], sets: &[u8]) -> usize {
    length(tree) + 65 * length(sets) + 14
}

pub fn filters(tree: &[u8], filters: &[u8]) -> usize {
    length(tree) + 24 * length(filters) + 14
}

pub fn namespaces(tree: &[u8]) -> usize {
    33 * length(tree) + 14
}

/// Entries of a list: as many as there are filters at most.
pub const LIST: usize = 256;
