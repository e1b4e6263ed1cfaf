//! Rewriting of SPARQL queries that is proved right, for test benches of grid protection relays.
//!
//! This crate calls Gandeuch, a proved port of the query rewriting of [nemo](https://github.com/knowsys/nemo), through
//! its calls for C. A text in Gandeuch's layout goes in, another comes out, or a [`Refusal`].
//!
//! Which relay reported an event, which breaker a relay trips; joined on the relay:
//!
//! ```
//! let relay = b"query\tselect\t-\t-
//! project\t?event\t?relay
//! bgp\t2
//! t\t?event\t<by>\t?relay
//! t\t?event\t<at>\t?x
//! ";
//! let breaker = b"query\tselect\t-\t-
//! project\t?relay\t?breaker
//! bgp\t2
//! t\t?relay\t<trips>\t?breaker
//! t\t?breaker\t<in>\t?x
//! ";
//! let merged = gandeuch::merge_queries(relay, breaker, b"1\t0\n", b"", b"")?;
//! assert_eq!(
//!     String::from_utf8(merged)?,
//!     "query\tselect\t-\t-
//! project\t?l0\t?j0\t?r1
//! join
//! bgp\t2
//! t\t?l0\t<by>\t?j0
//! t\t?l0\t<at>\t?l4
//! bgp\t2
//! t\t?j0\t<trips>\t?r1
//! t\t?r1\t<in>\t?r4
//! "
//! );
//! # Ok::<(), Box<dyn std::error::Error>>(())
//! ```
//!
//! The two `?x` have nothing to do with each other, and don't meet.
//!
//! What can't be merged is refused:
//!
//! ```
//! use gandeuch::Refusal;
//!
//! let tree = b"project\t?r\t?bay\nbgp\t1\nt\t?r\t<in>\t?bay\n";
//! let outside = gandeuch::merge_patterns(tree, tree, b"2\t0\n", b"", b"");
//! assert_eq!(outside, Err(Refusal::Outside));
//! assert_eq!(Refusal::Outside.number(), 3);
//!
//! let unprojected = gandeuch::merge_patterns(b"bgp\t0\n", tree, b"", b"", b"");
//! assert_eq!(unprojected, Err(Refusal::NotProject));
//! ```
//!
//! An empty file is a tree: no columns over no triples, the lines `project` and `bgp 0`. So is what follows a query's head line:
//!
//! ```
//! let tree = b"project\t?r\nbgp\t1\nt\t?r\t<in>\t?bay\n";
//! let merged = gandeuch::merge_patterns(tree, b"", b"", b"", b"")?;
//! assert_eq!(merged, b"project\t?l0\njoin\nbgp\t1\nt\t?l0\t<in>\t?l2\nbgp\t0\n");
//! # Ok::<(), gandeuch::Refusal>(())
//! ```
//!
//! **What is proved** is the library: number, length and every byte of each answer, for every text. **What is not** is this
//! crate: the declarations of the calls, the buffers that it lends them, and the module `layout`.
//!
//! A call needs 256 KiB of stack, with room to spare, and no heap but for its answer. Where less stack is left the program ends, as
//! with any overflow of the stack. Calls keep nothing, so threads may call at the same time.

mod ffi;
#[cfg(feature = "spargebra")]
pub mod layout;
mod refusal;
mod room;
#[cfg(test)]
mod tests;

use std::hint;
use std::mem::MaybeUninit;

pub use refusal::Refusal;

/// What a call answers to its texts, in a buffer with room for it.
macro_rules! answer {
    ($call:ident, $room:expr, $($text:ident),+ $(; $list:ident, $many:ident)?) => {{
        $(let $text: &[u8] = $text;)+
        answered($room, |out: &mut [u8], size: &mut usize| {
            // SAFETY: gandeuch.h asks for five things.
            // "no pointer is null, also where the number of bytes or entries beside it is 0": pointers of slices never are.
            // "each pointer is good for as many bytes, or entries of `list`, as the number beside it says, at most PTRDIFF_MAX
            // bytes, and a text's bytes have values": each pointer goes with its own slice's length, and a slice promises
            // just this.
            // "`out` overlaps no text, `list` neither a text nor `out`, and `size` and `many` lie in none of them, nor in each
            // other": the four are lent exclusively.
            // "nothing else writes the texts, or reads or writes `out`, `size`, `list` and `many`, before the call returns":
            // the texts are lent until then, the other four exclusively.
            // "GANDEUCH_STACK bytes of stack are left": `answered` has touched more than that before it comes here.
            unsafe {
                ffi::$call(
                    $($text.as_ptr(), $text.len(),)+
                    out.as_mut_ptr(),
                    out.len(),
                    size
                    $(, $list.as_mut_ptr(), $list.len(), &mut $many)?
                )
            }
        })
    }};
}

/// The variables of a tree that are in scope and those that are hidden, as a line `in` and a line `hid`.
///
/// ```
/// let tree = b"project\t?relay\nbgp\t1\nt\t?event\t<by>\t?relay\n";
/// assert_eq!(gandeuch::scope(tree)?, b"in\t?relay\nhid\t?relay\t?event\n");
/// # Ok::<(), gandeuch::Refusal>(())
/// ```
pub fn scope(tree: &[u8]) -> Result<Vec<u8>, Refusal> {
    answer!(gandeuch_scope, room::scope(tree), tree)
}

/// The tree under the names that the mapping gives, a line `?from ?to` each.
///
/// ```
/// let renamed = gandeuch::rename(b"bgp\t1\nt\t?r\t<in>\t?bay\n", b"?r\t?relay\n")?;
/// assert_eq!(renamed, b"bgp\t1\nt\t?relay\t<in>\t?bay\n");
/// # Ok::<(), gandeuch::Refusal>(())
/// ```
pub fn rename(tree: &[u8], mapping: &[u8]) -> Result<Vec<u8>, Refusal> {
    answer!(gandeuch_rename, room::rename(tree), tree, mapping)
}

/// Two trees whose roots are project, merged into one whose answer joins the columns of `joins`, a line `left right` for each pair
/// of positions. The constants fix columns, a line `position term` each.
pub fn merge_patterns(
    left: &[u8],
    right: &[u8],
    joins: &[u8],
    left_constants: &[u8],
    right_constants: &[u8],
) -> Result<Vec<u8>, Refusal> {
    let room = room::merge(left, right, left_constants, right_constants);
    answer!(
        gandeuch_merge_patterns,
        room,
        left,
        right,
        joins,
        left_constants,
        right_constants
    )
}

/// Like [`merge_patterns`], for two queries with one head, which the answer has too; select and ask can be merged.
pub fn merge_queries(
    left: &[u8],
    right: &[u8],
    joins: &[u8],
    left_constants: &[u8],
    right_constants: &[u8],
) -> Result<Vec<u8>, Refusal> {
    let room = room::merge(left, right, left_constants, right_constants);
    answer!(
        gandeuch_merge_queries,
        room,
        left,
        right,
        joins,
        left_constants,
        right_constants
    )
}

/// Two queries with one head, which the answer has too, and the rows of the left one that no row of the right one matches: none that
/// agrees with it on a column of `joins` bound in both and contradicts it on no other. The answer has the left columns. Select and ask
/// can be given; an empty join list is [`NoPairs`](Refusal::NoPairs).
///
/// ```
/// let event = b"query\tselect\t-\t-\nproject\t?event\t?relay\nbgp\t1\nt\t?event\t<by>\t?relay\n";
/// let tripped = b"query\tselect\t-\t-\nproject\t?relay\nbgp\t1\nt\t?relay\t<tripped>\t?breaker\n";
/// let silent = gandeuch::without(event, tripped, b"1\t0\n")?;
/// assert_eq!(
///     silent,
///     b"query\tselect\t-\t-\nproject\t?l0\t?j0\nminus\nbgp\t1\nt\t?l0\t<by>\t?j0\nbgp\t1\nt\t?j0\t<tripped>\t?r2\n"
/// );
/// # Ok::<(), gandeuch::Refusal>(())
/// ```
pub fn without(left: &[u8], right: &[u8], joins: &[u8]) -> Result<Vec<u8>, Refusal> {
    answer!(
        gandeuch_without,
        room::without(left, right),
        left,
        right,
        joins
    )
}

/// The query, under new names, with the columns fixed for which there is a line `position term`. It is copied if it is a construct
/// or describe or its root isn't project.
///
/// ```
/// let query = b"query\tselect\t-\t-\nproject\t?event\t?relay\nbgp\t1\nt\t?event\t<by>\t?relay\n";
/// let pushed = gandeuch::push_constants(query, b"1\t<r7>\n")?;
/// assert_eq!(
///     pushed,
///     b"query\tselect\t-\t-\nproject\t?v0\njoin\nbgp\t1\nt\t?v0\t<by>\t?v1\nvalues\t1\t1\ncols\t?v1\nrow\t<r7>\n"
/// );
/// # Ok::<(), gandeuch::Refusal>(())
/// ```
pub fn push_constants(query: &[u8], constants: &[u8]) -> Result<Vec<u8>, Refusal> {
    answer!(
        gandeuch_push_constants,
        room::push(query, constants),
        query,
        constants
    )
}

/// The query with the pattern below its outermost projection asked not to exist. It is copied if it is a construct or describe or
/// has no such projection.
///
/// ```
/// let negated = gandeuch::negate(b"query\task\t-\t-\nproject\t?r\nbgp\t1\nt\t?r\t<in>\t?bay\n")?;
/// assert_eq!(
///     negated,
///     b"query\task\t-\t-\nproject\t?r\nfilter\nbgp\t0\nnot\nexists\nbgp\t1\nt\t?r\t<in>\t?bay\n"
/// );
/// # Ok::<(), gandeuch::Refusal>(())
/// ```
pub fn negate(query: &[u8]) -> Result<Vec<u8>, Refusal> {
    answer!(gandeuch_negate, room::negate(query), query)
}

/// The tree with the pattern below its outermost projection joined with the Values of each binding set, at the columns of its line
/// `at`. It is copied if there is no set or no such projection. A tuple or a map is [`NotUsable`](Refusal::NotUsable).
///
/// ```
/// let tree = b"project\t?event\t?relay\nbgp\t1\nt\t?event\t<by>\t?relay\n";
/// let bound = gandeuch::bindings(tree, b"set\t1\t2\nat\t1\nrow\tIri\tr7\t-\nrow\tIri\tr8\t-\n")?;
/// assert_eq!(
///     bound,
///     b"project\t?event\t?relay\njoin\nbgp\t1\nt\t?event\t<by>\t?relay\nvalues\t1\t2\ncols\t?relay\nrow\t<r7>\nrow\t<r8>\n"
/// );
/// # Ok::<(), gandeuch::Refusal>(())
/// ```
pub fn bindings(tree: &[u8], sets: &[u8]) -> Result<Vec<u8>, Refusal> {
    answer!(gandeuch_bindings, room::bindings(tree, sets), tree, sets)
}

/// The tree with those filters that can be expressed in SPARQL put below its outermost projection. It is copied if there is none,
/// or no such projection. Beside it are the numbers of the filters that were not placed, counted from 0 and rising: those that can't
/// be expressed, those that are always true, and all of them where there is no such projection.
///
/// ```
/// let tree = b"project\t?event\t?relay\nbgp\t1\nt\t?event\t<by>\t?relay\n";
/// let given = b"un\tStringLength\nref\t0\nbin\tUnequals\nref\t1\nleaf\tIri\tr7\t-\n";
/// let (filtered, left) = gandeuch::filters(tree, given)?;
/// assert_eq!(
///     filtered,
///     b"project\t?event\t?relay\nfilter\nbgp\t1\nt\t?event\t<by>\t?relay\nnot\neq\nterm\t?relay\nterm\t<r7>\n"
/// );
/// assert_eq!(left, [0]);
/// # Ok::<(), gandeuch::Refusal>(())
/// ```
pub fn filters(tree: &[u8], filters: &[u8]) -> Result<(Vec<u8>, Vec<u16>), Refusal> {
    let (mut list, mut many) = (vec![0; room::LIST], 0);
    let room = room::filters(tree, filters);
    let answer = answer!(gandeuch_filters, room, tree, filters; list, many)?;
    list.truncate(many);
    Ok((answer, list))
}

/// The tree in which each IRI has its old start replaced by the new one, by the lines `old new` of a table that is sorted by its old
/// starts, from one edition of a model to the next. Datatypes, paths, and the names of calls and aggregates stay. An IRI that no line
/// covers is [`NotCovered`](Refusal::NotCovered). Two IRIs may become one.
///
/// ```
/// let tree = b"project\t?relay\nbgp\t1\nt\t?relay\t<http://grid/2019/bay>\t<http://site/b4>\n";
/// let table = b"http://grid/2019/\thttp://grid/2026/\nhttp://site/\thttp://site/\n";
/// let converted = gandeuch::namespaces(tree, table)?;
/// assert_eq!(
///     converted,
///     b"project\t?relay\nbgp\t1\nt\t?relay\t<http://grid/2026/bay>\t<http://site/b4>\n"
/// );
/// # Ok::<(), gandeuch::Refusal>(())
/// ```
pub fn namespaces(tree: &[u8], table: &[u8]) -> Result<Vec<u8>, Refusal> {
    answer!(gandeuch_namespaces, room::namespaces(tree), tree, table)
}

/// More than any answer has.
const MOST: usize = 1 << 24;

/// What gandeuch.h asks for, and a page for the frames between here and the call.
const STACK: usize = 262_144 + 4_096;

/// Touches each page of the stack that a call needs, as Rust does for a frame of that size. The library doesn't look for the
/// stack's end; Rust does, and where there isn't enough the program ends here.
#[inline(never)]
fn touch_stack() {
    hint::black_box(MaybeUninit::<[u8; STACK]>::uninit().as_mut_ptr());
}

/// The answer of a call that is lent a buffer of `room` bytes. These suffice; should a call say that they don't, it is lent more.
fn answered(
    room: usize,
    mut call: impl FnMut(&mut [u8], &mut usize) -> u8,
) -> Result<Vec<u8>, Refusal> {
    touch_stack();
    let mut room = room;
    loop {
        let mut out = vec![0; room];
        let mut size = 0;
        match Refusal::of(call(&mut out, &mut size)) {
            None => {
                out.truncate(size);
                out.shrink_to_fit();
                return Ok(out);
            }
            Some(Refusal::TooShort) if room < MOST => room = 2 * room.max(1),
            Some(refusal) => return Err(refusal),
        }
    }
}

/// The examples of the README, as tests.
#[cfg(all(doctest, feature = "spargebra"))]
#[doc = include_str!("../README.md")]
struct Readme;
