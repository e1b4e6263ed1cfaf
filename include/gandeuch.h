/* Gandeuch for C: SPARQL query rewriting that is proved right. Link libgandeuch.a; `./install PREFIX` puts it, this header and a
 * pkg-config file there. docs/SPECIFICATION.md says what the texts are and what each call answers; examples/merge.c is an example.
 *
 * A text is a pointer and a number of bytes; no byte is special, and no zero byte ends it. A call returns a number: 0, and the answer
 * stands in the first `*size` bytes of `out`, the bytes behind it unchanged; or the number of a refusal, and `*size` is 0 and `out` is
 * unchanged. Texts are checked in the order of the parameters (1, 2); then come 5, 4, 11, 3, 10, 14, 15, 7, 6, 9 in this order, as far
 * as a call has them. `gandeuch_filters` also lists numbers: they stand in the first `*many` entries of `list`, those behind them unchanged; after
 * a refusal `*many` is 0 and `list` is unchanged.
 *
 * An empty file is a tree: each call reads a tree of no bytes, and a query of its head line alone, as if the lines `project` and `bgp 0`
 * stood there, and writes them where it copies.
 *
 * Every text is allowed. What a caller owes is what C asks of any such call, as nothing in C can test it:
 *
 * - no pointer is null, also where the number of bytes or entries beside it is 0: an empty text is "" and 0;
 * - each pointer is good for as many bytes, or entries of `list`, as the number beside it says, at most PTRDIFF_MAX bytes, and a
 *   text's bytes have values;
 * - `out` overlaps no text, `list` neither a text nor `out`, and `size` and `many` lie in none of them, nor in each other;
 * - nothing else writes the texts, or reads or writes `out`, `size`, `list` and `many`, before the call returns;
 * - GANDEUCH_STACK bytes of stack are left.
 *
 * The calls keep nothing between calls, so threads may call them at the same time, and use no heap.
 */
#ifndef GANDEUCH_H
#define GANDEUCH_H

#include <stddef.h>
#include <stdint.h>

#define GANDEUCH_VERSION "0.2.0"

/* What a call returns. A new call may bring new numbers; every number but 0 is a refusal. */
enum {
    GANDEUCH_WRITTEN = 0,        /* the answer stands in `out` */
    GANDEUCH_MALFORMED = 1,      /* a text is malformed */
    GANDEUCH_OVER_BOUND = 2,     /* a text is over a bound */
    GANDEUCH_OUTSIDE = 3,        /* a position is outside its projection */
    GANDEUCH_NOT_PROJECT = 4,    /* a root isn't project */
    GANDEUCH_NOT_MERGEABLE = 5,  /* the heads of two queries differ, or their kind can't be merged */
    GANDEUCH_TOO_SHORT = 6,      /* the answer is longer than `out_size` */
    GANDEUCH_NOT_USABLE = 7,     /* a value can't be used */
    GANDEUCH_LIST_TOO_SHORT = 9, /* more numbers are to be listed than `list_size` */
    GANDEUCH_REPEATED = 10,      /* a join list has a position twice on one side */
    GANDEUCH_NO_PAIRS = 11,      /* a join list of without is empty */
    GANDEUCH_NOT_IN_ORDER = 14,  /* a namespace table is unsorted, or two of its old starts overlap */
    GANDEUCH_NOT_COVERED = 15    /* no line of a namespace table covers an IRI of the tree */
};

/* The stack that a call needs, with room to spare: bench/stack measures it. */
#define GANDEUCH_STACK ((size_t)262144)

/* A text of more bytes is over a bound. */
#define GANDEUCH_TEXT ((size_t)16384)

/* How many bytes to lend as `out`, from the sizes of the texts: a call that is lent so many never returns GANDEUCH_TOO_SHORT. It is proved
 * (crates/room). For texts within their bound no sum is too large for 32 bits. */
#define GANDEUCH_SCOPE_ROOM(tree_size) ((size_t)(tree_size) + 7)
#define GANDEUCH_RENAME_ROOM(tree_size) (44 * (size_t)(tree_size) + 14)
#define GANDEUCH_MERGE_ROOM(left_size, right_size, left_constants_size, right_constants_size) \
    (3 * ((size_t)(left_size) + (size_t)(right_size)) + (size_t)(left_constants_size) + (size_t)(right_constants_size) + 84)
#define GANDEUCH_PUSH_ROOM(query_size, constants_size) (3 * (size_t)(query_size) + (size_t)(constants_size) + 42)
#define GANDEUCH_NEGATE_ROOM(query_size) ((size_t)(query_size) + 38)
#define GANDEUCH_WITHOUT_ROOM(left_size, right_size) (3 * ((size_t)(left_size) + (size_t)(right_size)) + 84)
#define GANDEUCH_BINDINGS_ROOM(tree_size, sets_size) ((size_t)(tree_size) + 65 * (size_t)(sets_size) + 14)
#define GANDEUCH_FILTERS_ROOM(tree_size, filters_size) ((size_t)(tree_size) + 24 * (size_t)(filters_size) + 14)
#define GANDEUCH_NAMESPACES_ROOM(tree_size) (33 * (size_t)(tree_size) + 14)

/* How many entries to lend as `list`: a call that is lent so many never returns GANDEUCH_LIST_TOO_SHORT. It is proved too. */
#define GANDEUCH_LIST_ROOM ((size_t)256)

#ifdef __cplusplus
extern "C" {
#endif

/* scope: the variables of a tree that are in scope and those that are hidden, as a line `in` and a line `hid`. */
uint8_t gandeuch_scope(const uint8_t *tree, size_t tree_size,
                       uint8_t *out, size_t out_size, size_t *size);

/* rename: the tree under the names that the mapping gives. */
uint8_t gandeuch_rename(const uint8_t *tree, size_t tree_size,
                        const uint8_t *mapping, size_t mapping_size,
                        uint8_t *out, size_t out_size, size_t *size);

/* merge_patterns: two trees whose roots are project, merged into one whose answer joins the columns of `joins`, a line `left right`
 * for each pair of positions; `left_constants` and `right_constants` fix columns, a line `position term` each. Numbers 1, 2, 4, 3, 10, 6. */
uint8_t gandeuch_merge_patterns(const uint8_t *left, size_t left_size,
                                const uint8_t *right, size_t right_size,
                                const uint8_t *joins, size_t joins_size,
                                const uint8_t *left_constants, size_t left_constants_size,
                                const uint8_t *right_constants, size_t right_constants_size,
                                uint8_t *out, size_t out_size, size_t *size);

/* merge_queries: the same for two queries with one head, which the answer has too; select and ask can be merged. Numbers 1, 2, 5, 4, 3, 10, 6. */
uint8_t gandeuch_merge_queries(const uint8_t *left, size_t left_size,
                               const uint8_t *right, size_t right_size,
                               const uint8_t *joins, size_t joins_size,
                               const uint8_t *left_constants, size_t left_constants_size,
                               const uint8_t *right_constants, size_t right_constants_size,
                               uint8_t *out, size_t out_size, size_t *size);

/* without: two queries with one head, and the rows of the left one that no row of the right one matches: none that agrees with it on a column
 * of `joins` bound in both and contradicts it on no other. The answer has the left columns over a `minus` of the two. Select and ask can be
 * given; the join list must have a pair. Numbers 1, 2, 5, 4, 11, 3, 10, 6. */
uint8_t gandeuch_without(const uint8_t *left, size_t left_size,
                         const uint8_t *right, size_t right_size,
                         const uint8_t *joins, size_t joins_size,
                         uint8_t *out, size_t out_size, size_t *size);

/* push_constants: the query, under new names, with the columns fixed for which there is a line `position term`. It is copied if it is a
 * construct or describe or its root isn't project. Numbers 1, 2, 6, and where it isn't copied 3. */
uint8_t gandeuch_push_constants(const uint8_t *query, size_t query_size,
                                const uint8_t *constants, size_t constants_size,
                                uint8_t *out, size_t out_size, size_t *size);

/* negate: the query with the pattern below its outermost projection asked not to exist. It is copied if it is a construct or describe or
 * has no such projection. Numbers 1, 2, 6. */
uint8_t gandeuch_negate(const uint8_t *query, size_t query_size,
                        uint8_t *out, size_t out_size, size_t *size);

/* bindings: the tree with the pattern below its outermost projection joined with the Values of each binding set, at the columns of its line
 * `at`. It is copied if there is no set or no such projection. Numbers 1, 2, 3, 7, 6; 3 for a position outside the projection, 7 for
 * a value of the domains Tuple and Map. */
uint8_t gandeuch_bindings(const uint8_t *tree, size_t tree_size,
                          const uint8_t *sets, size_t sets_size,
                          uint8_t *out, size_t out_size, size_t *size);

/* filters: the tree with those filters that can be expressed in SPARQL put below its outermost projection. It is copied if there is none, or no
 * such projection. The filters that were not placed are listed by their numbers, counted from 0, rising: those that can't be expressed, those
 * that are always true, and all of them where there is no such projection. Numbers 1, 2, 3, 6, 9; 3 for any reference outside the
 * projection, also in a filter that can't be expressed. */
uint8_t gandeuch_filters(const uint8_t *tree, size_t tree_size,
                         const uint8_t *filters, size_t filters_size,
                         uint8_t *out, size_t out_size, size_t *size,
                         uint16_t *list, size_t list_size, size_t *many);

/* namespaces: the tree in which each IRI, graph and service names included, has its old start replaced by the new one, by the lines `old new` of
 * a table that is sorted by its old starts. Datatypes, paths, and the names of calls and aggregates stay. Numbers 1, 2, 14, 15, 6. */
uint8_t gandeuch_namespaces(const uint8_t *tree, size_t tree_size,
                            const uint8_t *table, size_t table_size,
                            uint8_t *out, size_t out_size, size_t *size);

#ifdef __cplusplus
}
#endif

#endif
