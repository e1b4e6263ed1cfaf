"""Inputs of merge, merge_queries, without, push and negate with answers written by hand."""
import itertools

from written_texts import BAR, LONG, MALFORMED, OVER, padded, refused, text

SELECT = "query select - -/"


def parted(*texts):
    return BAR.join(written if isinstance(written, bytes) else text(written) for written in texts)


def answer(expected):
    return expected if isinstance(expected, bytes) else refused(expected) if isinstance(expected, int) else text(expected)


def merge(name, expected, left, right, joins="", left_constants="", right_constants=""):
    return "merge", name, parted(left, right, joins, left_constants, right_constants), answer(expected)


def merge_queries(name, expected, left, right, joins="", left_constants="", right_constants=""):
    return "merge_queries", name, parted(left, right, joins, left_constants, right_constants), answer(expected)


def without(name, expected, left, right, joins=""):
    return "without", name, parted(left, right, joins), answer(expected)


def push(name, expected, query, constants=""):
    return "push", name, parted(query, constants), answer(expected)


def negate(name, expected, query):
    return "negate", name, parted(query), answer(expected)


EVENT = "project ?event ?relay/bgp 1/t ?event <by> ?relay"
BAY = "project ?r ?bay/bgp 1/t ?r <in> ?bay"
MERGED = "project ?l0 ?j0 ?r1/join/bgp 1/t ?l0 <by> ?j0/bgp 1/t ?j0 <in> ?r1"
NO_PROJECT = "distinct/project ?a/bgp 0"
BAD_JOIN, BAD_CONSTANT, TWICE = "0", "0 ?a", "0 <k>/0 <l>"
MANY_JOINS = "/".join(["0 0"] * 257)
MANY_CONSTANTS = "/".join("%d <k>" % i for i in range(257))
OVER_QUERY = text(SELECT[:-1]) + OVER
BAD_QUERY = text(SELECT[:-1]) + MALFORMED

# The worked cases of docs/SPECIFICATION.md, in their order.
CASES = [
    merge("case-1", MERGED, EVENT, BAY, "1 0"),
    merge("case-2", "project ?j0 ?j0Label ?j0Label/join/bgp 1/t ?j0 <l> ?j0Label/bgp 1/t ?j0 <m> ?j0Label",
          "project ?s ?sLabel/bgp 1/t ?s <l> ?sLabel", "project ?t ?tLabel/bgp 1/t ?t <m> ?tLabel", "0 0"),
    merge("case-3", 10, "project ?a/bgp 1/t ?a <p> <o>", "project ?b ?c/bgp 1/t ?b <q> ?c", "0 0/0 1"),
    merge("case-4", 3, EVENT, BAY, "2 0"),
    merge("case-5", 4, "distinct/" + EVENT, BAY, "1 0"),
    merge_queries("case-6", 5, SELECT + EVENT, "query ask - -/" + BAY, "1 0"),
    push("case-7", SELECT + "project ?v1/join/bgp 1/t ?v0 <p> ?v1/values 1 1/cols ?v0/row <k>",
         SELECT + "project ?a ?b/bgp 1/t ?a <p> ?b", "0 <k>"),
    push("case-8", SELECT + "project ?v0Label ?v1/bgp 1/t ?v1 <p> ?v0Label", SELECT + "project ?xLabelLabel ?x/bgp 1/t ?x <p> ?xLabelLabel"),
    push("case-9", SELECT + "project ?v0Label/bgp 1/t ?v0Label <p> ?v0Label", SELECT + "project ?Label/bgp 1/t ?Label <p> ?Label"),
    merge("case-10", "project ?r0 ?r1/join/bgp 0/bgp 1/t ?r0 <in> ?r1", "", BAY),
]

# Constants: by rising position, on a join column, one on each side.
CONSTANTS = [
    merge("constants", "project ?r1/join/join/bgp 1/t ?l0 <by> ?j0/values 2 1/cols ?l0 ?j0/row <e> <k>/bgp 1/t ?j0 <in> ?r1",
          EVENT, BAY, "1 0", "1 <k>/0 <e>"),
    merge("constants-of-both", "project ?l0/join/join/bgp 1/t ?l0 <by> ?j0/values 1 1/cols ?j0/row <k>/join/bgp 1/t ?j0 <in> ?r1/"
          "values 2 1/cols ?j0 ?r1/row <l> \"b\"", EVENT, BAY, "1 0", "1 <k>", "1 \"b\"/0 <l>"),
    push("constants-falling", SELECT + "project/join/bgp 0/values 2 1/cols ?v0 ?v1/row <k> <l>", SELECT + "project ?a ?b/bgp 0", "1 <l>/0 <k>"),
    push("constant-of-twin", SELECT + "project ?v0/join/bgp 0/values 1 1/cols ?v0/row <l>", SELECT + "project ?a ?a/bgp 0", "1 <l>"),
    push("no-columns", SELECT + "project/bgp 1/t ?v0 <p> ?v1", SELECT + "project/bgp 1/t ?a <p> ?b"),
]

# The order of constants: one answer for every order of a list's lines, 9 before 10, a Values for each side.
TEN = "project " + " ".join("?c%d" % i for i in range(11)) + "/bgp 0"
TEN_PUSHED = "project " + " ".join("?v%d" % i for i in range(9)) + "/join/bgp 0/values 2 1/cols ?v9 ?v10/row <k> <l>"
THREE = "project ?a ?b ?c/bgp 1/t ?a ?b ?c"
THREE_PUSHED = "project/join/bgp 1/t ?v0 ?v1 ?v2/values 3 1/cols ?v0 ?v1 ?v2/row <m> <l> <k>"
BOUND = "project/join/join/bgp 1/t ?l0 <by> ?j0/values 2 1/cols ?l0 ?j0/row <z> <y>/join/bgp 1/t ?j0 <in> ?r1/values 2 1/cols ?j0 ?r1/row <y> <x>"
LEFT_LISTS, RIGHT_LISTS = ("0 <z>/1 <y>", "1 <y>/0 <z>"), ("0 <y>/1 <x>", "1 <x>/0 <y>")
ORDERS = [
    *[merge("order-%d" % i, BOUND, EVENT, BAY, "1 0", *lists) for i, lists in enumerate(itertools.product(LEFT_LISTS, RIGHT_LISTS), 1)],
    *[merge_queries("order-%d" % i, SELECT + BOUND, SELECT + EVENT, SELECT + BAY, "1 0", *lists)
      for i, lists in enumerate(itertools.product(LEFT_LISTS, RIGHT_LISTS), 1)],
    *[push("order-%d" % i, SELECT + THREE_PUSHED, SELECT + THREE, "/".join(lines))
      for i, lines in enumerate(itertools.permutations(("0 <m>", "1 <l>", "2 <k>")), 1)],
    *[push("order-of-%s" % name, SELECT + TEN_PUSHED, SELECT + TEN, lines) for name, lines in (("nine", "9 <k>/10 <l>"), ("ten", "10 <l>/9 <k>"))],
]

# Roots and kinds: what is copied, and how far down a negation goes.
COPIED = [SELECT + NO_PROJECT, "query construct - -/project ?a/bgp 0", "query describe d b/project ?a/bgp 0"]
NEGATED = "filter/bgp 0/not/exists/bgp 1/t ?a <p> ?b"
KINDS = [
    merge_queries("select", SELECT + MERGED, SELECT + EVENT, SELECT + BAY, "1 0"),
    merge_queries("ask", "query ask <d> <b>/" + MERGED, "query ask <d> <b>/" + EVENT, "query ask <d> <b>/" + BAY, "1 0"),
    *[push("copied-%d" % i, query, query, "7 <k>") for i, query in enumerate(COPIED, 1)],
    push("ask", "query ask - -/project ?v0/bgp 0", "query ask - -/project ?a/bgp 0"),
    negate("project", SELECT + "project ?a/" + NEGATED, SELECT + "project ?a/bgp 1/t ?a <p> ?b"),
    negate("ask", "query ask <d> -/project/" + NEGATED, "query ask <d> -/project/bgp 1/t ?a <p> ?b"),
    negate("below", SELECT + "slice 0 5/orderby 1/distinct/group 1 1/cols ?a/reduced/project ?a/" + NEGATED + "/aggall ?n 0/asc/bound ?a",
           SELECT + "slice 0 5/orderby 1/distinct/group 1 1/cols ?a/reduced/project ?a/bgp 1/t ?a <p> ?b/aggall ?n 0/asc/bound ?a"),
    negate("inner-project", SELECT + "project ?a/filter/bgp 0/not/exists/project ?a/bgp 0", SELECT + "project ?a/project ?a/bgp 0"),
    *[negate("copied-%d" % i, query, query) for i, query in enumerate(
        [SELECT + "filter/project ?a/bgp 0/bound ?a", SELECT + "distinct/join/project ?a/bgp 0/bgp 0", *COPIED[1:]], 1)],
]

# Heads that differ in one field, and kinds that are not merged: 5 before 4 and 3.
FIVE = [
    merge_queries("five-%s" % name, 5, left + EVENT, right + BAY, "1 0")
    for name, left, right in [
        ("dataset", SELECT, "query select <d> -/"), ("base", SELECT, "query select - <b>/"),
        ("fields-apart", "query select <d> -/", "query select - <d>/"), ("construct", "query construct - -/", "query construct - -/"),
        ("describe", "query describe - -/", "query describe - -/"), ("kind", "query ask - -/", SELECT),
    ]
]

# Positions of a join list that stand twice on one side: 10 after all 3, also those of the other side, and before 6. A column's name
# at two positions is none.
ONE, TWO, TWINS = "project ?a/bgp 1/t ?a <p> <o>", "project ?b ?c/bgp 1/t ?b <q> ?c", "project ?a ?a/bgp 1/t ?a <p> <o>"
REPEATED = [
    merge("ten-left", 10, ONE, TWO, "0 0/0 1"), merge("ten-right", 10, TWO, ONE, "0 0/1 0"), merge("ten-both", 10, ONE, ONE, "0 0/0 0"),
    merge("ten-far-apart", 10, THREE, THREE, "0 2/1 1/2 0/0 1"), merge("ten-last", 10, THREE, TEN, "0 10/1 9/2 10"),
    merge("ten-with-constants", 10, TWO, THREE, "0 0/0 1", "1 <k>", "2 <l>"), merge("ten-on-twins", 10, TWINS, TWO, "1 0/1 1"),
    merge("three-left-before-ten", 3, TWO, ONE, "0 0/2 0"), merge("three-right-before-left-ten", 3, ONE, TWO, "0 0/0 2"),
    merge("three-left-before-right-ten", 3, TWO, TWO, "0 0/1 0/2 1"), merge("three-left-constant-before-ten", 3, ONE, TWO, "0 0/0 1", "1 <k>"),
    merge("three-right-constant-before-ten", 3, ONE, TWO, "0 0/0 1", "", "2 <k>"), merge("four-before-ten", 4, ONE, "bgp 0", "0 0/0 0"),
    merge("one-before-ten", 1, ONE, TWO, "0 0/0 1", "", BAD_CONSTANT),
    merge("twins", "project ?j0 ?j0 ?j1/join/bgp 1/t ?j0 <p> <o>/bgp 1/t ?j0 <q> ?j1", TWINS, TWO, "0 0/1 1"),
    merge("twins-right", "project ?j0 ?j1/join/bgp 1/t ?j0 <q> ?j1/bgp 1/t ?j0 <p> <o>", TWO, TWINS, "0 0/1 1"),
    merge("turned", "project ?j0 ?j1/join/bgp 1/t ?j0 <q> ?j1/bgp 1/t ?j1 <q> ?j0", TWO, TWO, "0 1/1 0"),
    merge_queries("ten-left", 10, SELECT + ONE, SELECT + TWO, "0 0/0 1"), merge_queries("ten-right", 10, SELECT + TWO, SELECT + ONE, "0 0/1 0"),
    merge_queries("three-before-ten", 3, SELECT + ONE, SELECT + TWO, "0 0/0 2"), merge_queries("five-before-ten", 5, SELECT + ONE, "query ask - -/" + ONE, "0 0/0 0"),
    merge_queries("twins", SELECT + "project ?j0 ?j0 ?j1/join/bgp 1/t ?j0 <p> <o>/bgp 1/t ?j0 <q> ?j1", SELECT + TWINS, SELECT + TWO, "0 0/1 1"),
]

# The order of the numbers: texts one by one, then 5, 4, 3; 10 is above.
ORDER = [
    merge("left-first", 2, OVER, MALFORMED, BAD_JOIN), merge("right-second", 2, NO_PROJECT, OVER, BAD_JOIN),
    merge("joins-third", 2, NO_PROJECT, BAY, MANY_JOINS, BAD_CONSTANT), merge("left-constants-fourth", 2, NO_PROJECT, BAY, "9 9", MANY_CONSTANTS, BAD_CONSTANT),
    merge("right-constants-fifth", 2, NO_PROJECT, BAY, "9 9", "", MANY_CONSTANTS), merge("constant-repeated", 1, NO_PROJECT, BAY, "9 9", "", TWICE),
    merge("four-of-left", 4, NO_PROJECT, BAY, "9 9"), merge("four-of-right", 4, EVENT, NO_PROJECT, "9 9"), merge("four-of-constants", 4, EVENT, "bgp 0", "", "9 <k>"),
    merge("three-left-join", 3, EVENT, BAY, "0 0/2 0"), merge("three-right-join", 3, EVENT, BAY, "0 0/0 2"),
    merge("three-left-constant", 3, EVENT, BAY, "", "2 <k>"), merge("three-right-constant", 3, EVENT, BAY, "", "", "0 <k>/4294967295 <k>"),
    merge("three-no-columns", 3, "project/bgp 0", BAY, "0 0"),
    merge_queries("left-first", 2, OVER_QUERY, BAD_QUERY, BAD_JOIN), merge_queries("right-second", 2, SELECT + NO_PROJECT, OVER_QUERY, BAD_JOIN),
    merge_queries("joins-third", 1, "query ask - -/" + NO_PROJECT, SELECT + BAY, BAD_JOIN, MANY_CONSTANTS),
    merge_queries("constants-before-five", 1, "query ask - -/" + NO_PROJECT, SELECT + BAY, "9 9", "", BAD_CONSTANT),
    merge_queries("five-before-four", 5, "query ask - -/" + NO_PROJECT, SELECT + BAY, "9 9"),
    merge_queries("four-before-three", 4, SELECT + NO_PROJECT, SELECT + BAY, "9 9"), merge_queries("three", 3, SELECT + EVENT, SELECT + BAY, "9 9"),
    merge_queries("tree-for-query", 1, EVENT, SELECT + BAY, "1 0"), merge("query-for-tree", 1, SELECT + EVENT, BAY, "1 0"),
    push("query-first", 2, OVER_QUERY, BAD_CONSTANT), push("malformed-first", 1, BAD_QUERY, MANY_CONSTANTS), push("constants-second", 2, SELECT + EVENT, MANY_CONSTANTS),
    push("constant-repeated", 1, SELECT + EVENT, TWICE), push("three", 3, SELECT + EVENT, "2 <k>"), push("three-ask", 3, "query ask - -/" + EVENT, "0 <k>/2 <k>"),
    push("no-query", 1, "", "0 <k>"), negate("no-query", 1, ""), negate("malformed", 1, BAD_QUERY), negate("over-bound", 2, OVER_QUERY), negate("tree", 1, EVENT),
]

# Without: the left columns over a minus. Names of both sides meet in join columns only, and in their Label partners.
ASK = "query ask - -/"
ON = "project ?r/bgp 1/t ?event <on> ?r"
WITHOUT = [
    without("events", SELECT + "project ?l0 ?j0/minus/bgp 1/t ?l0 <by> ?j0/bgp 1/t ?r2 <on> ?j0", SELECT + EVENT, SELECT + ON, "1 0"),
    without("ask", "query ask <d> <b>/project ?l0 ?j0/minus/bgp 1/t ?l0 <by> ?j0/bgp 1/t ?j0 <in> ?r1",
            "query ask <d> <b>/" + EVENT, "query ask <d> <b>/" + BAY, "1 0"),
    without("itself", SELECT + "project ?j0 ?j1/minus/bgp 1/t ?j0 <by> ?j1/bgp 1/t ?j0 <by> ?j1", SELECT + EVENT, SELECT + EVENT, "0 0/1 1"),
    without("one-of-itself", SELECT + "project ?l0 ?j0/minus/bgp 1/t ?l0 <by> ?j0/bgp 1/t ?r0 <by> ?j0", SELECT + EVENT, SELECT + EVENT, "1 1"),
    without("turned", SELECT + "project ?j0 ?j1/minus/bgp 1/t ?j0 <q> ?j1/bgp 1/t ?j1 <q> ?j0", SELECT + TWO, SELECT + TWO, "0 1/1 0"),
    without("all-left-columns", SELECT + "project ?l0 ?j0 ?l2/minus/bgp 1/t ?l0 ?j0 ?l2/bgp 1/t ?j0 <q> ?r1", SELECT + THREE, SELECT + TWO, "1 0"),
    without("labels", SELECT + "project ?j0 ?j0Label/minus/bgp 1/t ?j0 <l> ?j0Label/bgp 1/t ?j0 <m> ?j0Label",
            SELECT + "project ?s ?sLabel/bgp 1/t ?s <l> ?sLabel", SELECT + "project ?t ?tLabel/bgp 1/t ?t <m> ?tLabel", "0 0"),
    without("twins", SELECT + "project ?j0 ?j0/minus/bgp 1/t ?j0 <p> <o>/bgp 1/t ?j0 <q> ?j1", SELECT + TWINS, SELECT + TWO, "0 0/1 1"),
    without("minus-inside", SELECT + "project ?j0/minus/minus/bgp 1/t ?j0 <p> ?l2/bgp 1/t ?l2 <q> ?j0/bgp 0",
            SELECT + "project ?a/minus/bgp 1/t ?a <p> ?b/bgp 1/t ?b <q> ?a", SELECT + "project ?c/bgp 0", "0 0"),
    without("nine-ten", SELECT + "project " + " ".join("?j0" if i == 10 else "?l%d" % i for i in range(11)) + "/minus/bgp 0/bgp 0",
            SELECT + TEN, SELECT + TEN, "10 9"),
    # the texts one by one, 5, 4, 11, 3, 10
    without("left-first", 2, OVER_QUERY, BAD_QUERY, BAD_JOIN), without("right-second", 2, SELECT + NO_PROJECT, OVER_QUERY, BAD_JOIN),
    without("right-malformed", 1, ASK + NO_PROJECT, BAD_QUERY, MANY_JOINS), without("joins-third", 1, ASK + NO_PROJECT, SELECT + BAY, BAD_JOIN),
    without("joins-over-bound", 2, ASK + NO_PROJECT, SELECT + BAY, MANY_JOINS), without("tree-for-query", 1, EVENT, SELECT + BAY, "1 0"),
    without("five-before-four", 5, ASK + NO_PROJECT, SELECT + BAY), without("five-dataset", 5, SELECT + EVENT, "query select <d> -/" + BAY, "1 0"),
    without("five-construct", 5, "query construct - -/" + EVENT, "query construct - -/" + BAY, "1 0"), without("five-before-eleven", 5, ASK + EVENT, SELECT + BAY),
    without("four-of-left", 4, SELECT + NO_PROJECT, SELECT + BAY, "9 9"), without("four-of-right", 4, SELECT + EVENT, SELECT + NO_PROJECT, "9 9"),
    without("four-before-eleven", 4, SELECT + EVENT, SELECT + "bgp 0"), without("eleven", 11, SELECT + EVENT, SELECT + BAY),
    without("eleven-no-columns", 11, SELECT + "project/bgp 0", SELECT + "project/bgp 0"), without("three-left", 3, SELECT + EVENT, SELECT + BAY, "0 0/2 0"),
    without("three-right", 3, SELECT + EVENT, SELECT + BAY, "0 0/0 2"), without("three-before-ten", 3, SELECT + ONE, SELECT + TWO, "0 0/0 2"),
    without("ten-left", 10, SELECT + ONE, SELECT + TWO, "0 0/0 1"), without("ten-right", 10, SELECT + TWO, SELECT + ONE, "0 0/1 0"),
    # a head line alone has no column to join; the number of texts is three
    without("empty-left", 3, SELECT[:-1], SELECT + BAY, "0 0"), without("empty-right", 3, SELECT + BAY, SELECT[:-1], "0 0"),
    without("empty-both", 11, SELECT[:-1], SELECT[:-1]), without("no-queries", 1, "", ""),
    ("without", "no-input", b"", refused(1)), ("without", "one-bar", parted(OVER_QUERY, SELECT + BAY), refused(1)),
    ("without", "three-bars", parted(OVER_QUERY, SELECT + BAY, "1 0", ""), refused(1)), ("without", "four-bars", parted(OVER_QUERY, SELECT + BAY, "1 0", "", ""), refused(1)),
    ("without", "unended-bar", parted(OVER_QUERY, SELECT + BAY, "1 0") + b"--", refused(2)),
    ("without", "too-long-input", padded(OVER + BAR * 2, LONG + 1), refused(2)),
]

# Bars: their number is looked at before the texts.
BARS = [
    ("merge", "no-input", b"", refused(1)), ("merge", "no-texts", BAR * 4, text("project/join/bgp 0/bgp 0")), ("merge", "three-bars", parted(OVER, BAY, "1 0", ""), refused(1)),
    ("merge", "five-bars", parted(OVER, BAY, "1 0", "", "", ""), refused(1)), ("merge", "unended-fourth-bar", parted(OVER, BAY, "1 0", "") + b"--", refused(1)),
    ("merge", "unended-fifth-bar", parted(OVER, BAY, "1 0", "", "") + b"--", refused(2)), ("merge", "unended-bar-behind", parted(EVENT, BAY, "1 0", "", "") + b"--", refused(1)),
    ("merge_queries", "three-bars", parted(OVER_QUERY, SELECT + BAY, "1 0", ""), refused(1)), ("merge_queries", "five-bars", parted(OVER_QUERY, SELECT + BAY, "1 0", "", "", ""), refused(1)),
    ("push", "no-bar", OVER_QUERY, refused(1)), ("push", "two-bars", parted(OVER_QUERY, "", ""), refused(1)),
    ("negate", "bar-behind", OVER_QUERY + BAR, refused(1)), ("negate", "bar-before", BAR + OVER_QUERY, refused(1)), ("negate", "unended-bar", OVER_QUERY + b"--", refused(2)),
    *[(program, "longest-input", padded(OVER, LONG), refused(1)) for program in ("merge_queries", "push")],
    ("negate", "longest-input", padded(OVER, LONG), refused(2)),
    *[(program, "too-long-input", padded(OVER + BAR * bars, LONG + 1), refused(2)) for program, bars in (("merge", 4), ("merge_queries", 4), ("push", 1), ("negate", 0))],
]


# 256 columns on each side: all shown, all joined, all bound, each the other way round; the last one joined and bound; one more column.

MOST = 256


def fields(pattern, numbers=range(MOST)):
    return " ".join(pattern % number for number in numbers)


def listed(pattern, numbers=range(MOST)):
    return "/".join(pattern.replace("%d", str(number)) for number in numbers)


def bound(prefix, numbers=range(MOST)):
    return "join/bgp 0/values %d 1/cols %s/row %s" % (len(numbers), fields("?%s%%d" % prefix, numbers), fields("<k%d>", numbers))


WIDE = "project %s/bgp 0" % fields("?c%d")
BACK = range(MOST - 1, -1, -1)
WIDEST = [
    merge("columns-512", "project %s %s/join/bgp 0/bgp 0" % (fields("?l%d"), fields("?r%d")), WIDE, WIDE),
    merge_queries("columns-512", SELECT + "project %s %s/join/bgp 0/bgp 0" % (fields("?l%d"), fields("?r%d")), SELECT + WIDE, SELECT + WIDE),
    merge("joined-256", "project %s/join/bgp 0/bgp 0" % fields("?j%d"), WIDE, WIDE, listed("%d %d")),
    merge("joined-256-back", "project %s/join/bgp 0/bgp 0" % fields("?j%d", BACK), WIDE, WIDE, listed("%d %d", BACK)),
    merge("joined-255-0", "project %s ?j0 %s/join/bgp 0/bgp 0" % (fields("?l%d", range(255)), fields("?r%d", range(1, MOST))), WIDE, WIDE, "255 0"),
    merge("joined-256-outside", 3, WIDE, WIDE, "0 256"),
    merge("joined-twice-of-256", 10, WIDE, WIDE, listed("%d %d", [*range(255), 0])),
    merge("bound-256", "project/join/%s/%s" % (bound("l"), bound("r")), WIDE, WIDE, "", listed("%d <k%d>"), listed("%d <k%d>", BACK)),
    merge("bound-255", "project %s %s/join/%s/bgp 0" % (fields("?l%d", range(255)), fields("?r%d"), bound("l", [255])), WIDE, WIDE, "", "255 <k255>"),
    merge("bound-256-outside", 3, WIDE, WIDE, "", "", "256 <k>"),
    merge("columns-257-left", 2, "project ?more %s/bgp 0" % fields("?c%d"), WIDE),
    merge("columns-257-right", 2, WIDE, "project ?more %s/bgp 0" % fields("?c%d")),
    push("bound-256", SELECT + "project/" + bound("v"), SELECT + WIDE, listed("%d <k%d>", BACK)),
    push("bound-64-to-127", SELECT + "project %s/%s" % (fields("?v%d", [*range(64), *range(128, MOST)]), bound("v", range(64, 128))), SELECT + WIDE, listed("%d <k%d>", range(64, 128))),
    push("bound-256-outside", 3, SELECT + WIDE, "256 <k>"),
]


# An input of exactly 65,536 bytes whose answer has as many, and one with one more byte in the answer.

TREE_BYTES = 16384


def long_tree(once):
    """A tree of 16,384 bytes, with a name of 5 bytes in three places and one of so many bytes in one place; and the path in it."""
    start, end = "project ?nnnn ?nnnn/path ?nnnn ", " ?" + "m" * (once - 1)
    path = "p" * (TREE_BYTES - len(text(start + end)))
    return text(start + path + end), path


def longest(once):
    """A merge of two such trees, in 65,536 bytes, with a constant on a column of each side; and its answer. The name of column 0 and
    1 has the numbers 0 and, where it is hidden, 1, so the other one has 2."""
    (left, left_path), (right, right_path) = long_tree(once), long_tree(10)
    room = LONG - len(parted(left, right, "", '0 ""', '1 ""'))
    first, second = "a" * (room // 2), "b" * (room - room // 2)
    given = parted(left, right, "", '0 "%s"' % first, '1 "%s"' % second)
    side = 'join/path ?%s0 %s ?%s2/values 1 1/cols ?%s0/row "%s"'
    sides = [side % (prefix, path, prefix, prefix, term) for prefix, path, term in (("l", left_path, first), ("r", right_path, second))]
    return given, text("project ?l0 ?r0/join/" + "/".join(sides))


def limits():
    once = next(once for once in range(128, 1, -1) if len(longest(once)[1]) == LONG)
    (given, written), (over, too_long) = longest(once), longest(once - 1)
    assert len(given) == len(over) == LONG == len(written) == len(too_long) - 1
    return [("merge", "longest-input-and-answer", given, written), ("merge", "answer-too-long", over, refused(6))]


WRITTEN = CASES + CONSTANTS + ORDERS + KINDS + FIVE + REPEATED + ORDER + WITHOUT + BARS + WIDEST + limits()
