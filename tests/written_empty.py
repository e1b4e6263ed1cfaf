"""Inputs with an empty file, a tree of no bytes or a query of its head line alone, with answers written by hand."""
from written_merges import BAD_CONSTANT, BAD_JOIN, BAY, MANY_CONSTANTS, NO_PROJECT, SELECT, merge, merge_queries, negate, push
from written_placings import bindings, filters
from written_texts import BAR, MALFORMED, OVER, refused, text

LINES = "project/bgp 0"
HEAD = SELECT[:-1]  # without the line end that parts it from a tree
ASK = "query ask <d> <b>"
NEGATED = "/project/filter/bgp 0/not/exists/bgp 0"
BAY_RIGHT = "project ?r0 ?r1/join/bgp 0/bgp 1/t ?r0 <in> ?r1"
BAY_LEFT = "project ?l0 ?l1/join/bgp 1/t ?l0 <in> ?l1/bgp 0"
BOTH = "project/join/bgp 0/bgp 0"


def rename(name, expected, mapping):
    return "rename", name, BAR + text(mapping), refused(expected) if isinstance(expected, int) else text(expected)


TREES = [
    ("scope", "empty-line", b"\n", refused(1)), ("scope", "empty-unended", b"p", refused(1)),
    rename("empty-mapped", LINES, "?a ?b/?b ?a"), rename("empty-mapping-malformed", 1, "?a"),
    rename("empty-mapping-over-bound", 2, "/".join("?c%d ?d" % i for i in range(257))), ("rename", "empty-line", b"\n" + BAR, refused(1)),
    merge("empty-left", BAY_RIGHT, "", BAY), merge("empty-right", BAY_LEFT, BAY, ""), merge("empty-both", BOTH, "", ""),
    merge("empty-written-out", BAY_RIGHT, LINES, BAY),
    merge("empty-left-constants-of-right", "project ?r1/join/bgp 0/join/bgp 1/t ?r0 <in> ?r1/values 1 1/cols ?r0/row <k>", "", BAY, "", "", "0 <k>"),
    merge("empty-left-joined", 3, "", BAY, "0 0"), merge("empty-right-joined", 3, BAY, "", "0 0"), merge("empty-left-joined-twice", 3, "", BAY, "0 0/0 0"),
    merge("empty-left-constant", 3, "", BAY, "", "0 <k>"), merge("empty-right-constant", 3, BAY, "", "", "", "0 <k>"),
    merge("empty-left-no-project", 4, "", NO_PROJECT), merge("empty-right-no-project", 4, "bgp 0", ""),
    merge("empty-left-malformed", 1, "", MALFORMED), merge("empty-left-over-bound", 2, "", OVER), merge("over-bound-empty-right", 2, OVER, ""),
    merge("empty-joins-malformed", 1, "", "", BAD_JOIN), merge("empty-constants-malformed", 1, "", "", "", "", BAD_CONSTANT),
    merge("empty-line-left", 1, b"\n", BAY), merge("empty-line-right", 1, BAY, b"\n"),
]

# A head line alone, and what is no head line.
QUERIES = [
    merge_queries("empty-left", ASK + "/" + BAY_RIGHT, ASK, ASK + "/" + BAY), merge_queries("empty-right", SELECT + BAY_LEFT, SELECT + BAY, HEAD),
    merge_queries("empty-both", SELECT + BOTH, HEAD, HEAD), merge_queries("empty-written-out", SELECT + BOTH, SELECT + LINES, HEAD),
    merge_queries("empty-left-constants-of-right", SELECT + "project ?r1/join/bgp 0/join/bgp 1/t ?r0 <in> ?r1/values 1 1/cols ?r0/row <k>",
                  HEAD, SELECT + BAY, "", "", "0 <k>"),
    merge_queries("empty-heads-differ", 5, HEAD, ASK), merge_queries("empty-kinds-differ", 5, HEAD, "query ask - -/" + BAY),
    merge_queries("empty-construct", 5, "query construct - -", "query construct - -"), merge_queries("empty-five-first", 5, HEAD, ASK + "/" + NO_PROJECT, "9 9"),
    merge_queries("empty-no-project", 4, HEAD, SELECT + NO_PROJECT, "9 9"), merge_queries("empty-joined", 3, HEAD, SELECT + BAY, "0 0"),
    merge_queries("empty-right-constant", 3, SELECT + BAY, HEAD, "", "", "0 <k>"), merge_queries("no-left-query", 1, "", SELECT + BAY),
    merge_queries("no-right-query", 1, SELECT + BAY, ""), merge_queries("no-queries", 1, "", ""), merge_queries("empty-line-behind-head", 1, SELECT[:-1] + "/", HEAD),
    merge_queries("empty-joins-malformed", 1, HEAD, HEAD, BAD_JOIN), merge_queries("empty-constants-before-five", 2, HEAD, ASK, "", MANY_CONSTANTS),
    push("empty", SELECT + LINES, HEAD), push("empty-ask", ASK + "/" + LINES, ASK), push("empty-constant", 3, HEAD, "0 <k>"),
    push("empty-construct", "query construct - -/" + LINES, "query construct - -", "0 <k>"), push("empty-describe", "query describe d b/" + LINES, "query describe d b", "7 <k>"),
    push("empty-constants-malformed", 1, "query construct - -", BAD_CONSTANT), push("empty-line", 1, b"\n"), push("empty-line-behind-head", 1, HEAD + "/"),
    negate("empty", HEAD + NEGATED, HEAD), negate("empty-ask", ASK + NEGATED, ASK), negate("empty-construct", "query construct - <b>/" + LINES, "query construct - <b>"),
    negate("empty-describe", "query describe - -/" + LINES, "query describe - -"), negate("empty-line", 1, b"\n"), negate("empty-line-behind-head", 1, HEAD + "/"),
    negate("head-unended", 1, text(HEAD)[:-1]), negate("head-short", 1, "query ask -"), negate("head-long", 1, "query ask - - -"),
    negate("head-kind", 1, "query update - -"), negate("head-field-empty", 1, "query ask  -"), negate("head-twice", 1, HEAD + "/" + HEAD), negate("head-word", 1, "ask - - -"),
]


# The bound of 16,384 bytes speaks of the text as it stands: the two lines are 14 bytes more.

def head(size):
    """A head line of so many bytes, its line end counted."""
    return "query ask - " + "b" * (size - len("query ask - \n"))


LONG_HEADS = [
    *[case for size in (16370, 16371, 16384) for case in (
        negate("head-of-%d" % size, head(size) + NEGATED, head(size)),
        push("head-of-%d" % size, head(size) + "/" + LINES, head(size)),
        merge_queries("heads-of-%d" % size, head(size) + "/" + BOTH, head(size), head(size)))],
    negate("head-of-16385", 2, head(16385)), push("head-of-16385", 2, head(16385)), merge_queries("heads-of-16385", 2, head(16384), head(16385)),
    negate("head-of-16370-written-out", head(16370) + NEGATED, head(16370) + "/" + LINES), negate("head-of-16371-written-out", 2, head(16371) + "/" + LINES),
    merge_queries("one-head-written-out", head(16370) + "/" + BOTH, head(16370) + "/" + LINES, head(16370)),
    negate("head-of-16384-malformed", 1, head(16384).replace("ask", "asks").replace("bb", "b", 1)), negate("head-of-16384-unended", 1, text(head(16385))[:-1]),
    push("head-of-16384-constants", 3, head(16384), "0 <k>"),
]

PLACINGS = [
    bindings("empty", LINES, ""), bindings("empty-no-columns", "project/join/bgp 0/values 0 2/cols/row/row", "", "set 0 2/at/row/row"),
    bindings("empty-no-rows", "project/join/bgp 0/values 0 0/cols", "", "set 0 0/at"),
    bindings("empty-two-sets", "project/join/join/bgp 0/values 0 1/cols/row/values 0 0/cols", "", "set 0 1/at/row/set 0 0/at"),
    bindings("empty-position", 3, "", "set 1 0/at 0"), bindings("empty-position-before-value", 3, "", "set 0 0/at/set 1 1/at 0/row Map x -"),
    bindings("empty-sets-malformed", 1, "", "set 0"), bindings("empty-sets-over", 2, "", "/".join(["set 0 0/at"] * 257)), bindings("empty-line", 1, b"\n"),
    filters("empty", LINES, ""), filters("empty-constant", 'project/filter/bgp 0/term "false"^^<d>', "", "leaf Boolean false <d>"),
    filters("empty-two", 'project/filter/bgp 0/and/term <k>/eq/term "1"/term "1"', "", "leaf Iri k -/bin Equals/leaf PlainString 1 -/leaf PlainString 1 -"),
    filters("empty-true", LINES, "", "leaf Boolean true <d>", [0]), filters("empty-dropped", LINES, "", "nary f 0", [0]), filters("empty-reference", 3, "", "ref 0"),
    filters("empty-reference-dropped", 3, "", "nary f 1/ref 0"), filters("empty-filters-malformed", 1, "", "un f"),
    filters("empty-filters-over", 2, "", "/".join(["nary f 0"] * 257)), filters("empty-line", 1, b"\n"),
]

WRITTEN = TREES + QUERIES + LONG_HEADS + PLACINGS
