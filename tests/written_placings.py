"""Inputs of bindings and filters with answers written by hand."""
from written_merges import answer, parted
from written_texts import BAR, LONG, MALFORMED, OVER, padded, refused, text


def bindings(name, expected, tree, sets=""):
    return "bindings", name, parted(tree, sets), answer(expected)


def filters(name, expected, tree, placed="", left=()):
    """`left` are the numbers of the filters that are not placed, in a line of their own behind the answer."""
    line = "left " + " ".join(map(str, left)) if left else ""
    return "filters", name, parted(tree, placed), answer(expected) + (text(line) if line else b"")


TREE = "project ?a ?b/bgp 1/t ?a <p> ?b"
INNER = "bgp 1/t ?a <p> ?b"
NONE = "filter/project ?a/bgp 0/bound ?a"
TYPED = "Float Double UnsignedLong NonNegativeLong UnsignedInt NonNegativeInt Long Int Boolean".split()


def bound(cells, columns="?a", many=1):
    """TREE joined with one set."""
    return "project ?a ?b/join/%s/values %d %d/cols %s%s" % (INNER, len(columns.split()), many, columns, cells)


def one(value):
    """A set of one row at position 0."""
    return "set 1 1/at 0/row " + value


def filtered(*lines):
    """TREE with an expression below its projection."""
    return "/".join(["project ?a ?b", "filter", INNER, *lines])


# Each value domain's bytes.
VALUES = [
    bindings("plain-string", bound('/row "x"'), TREE, one("PlainString x -")),
    bindings("tagged-string", bound('/row "x"@en'), TREE, one("LanguageTaggedString x en")),
    bindings("iri", bound("/row <x>"), TREE, one("Iri x -")),
    bindings("empty-iri", bound("/row <>"), TREE, parted("set 1 1/at 0")[:-1] + b"\nrow\tIri\t\t-\n"),
    bindings("empty-string", bound('/row ""'), TREE, parted("set 1 1/at 0")[:-1] + b"\nrow\tPlainString\t\t-\n"),
    bindings("null", bound("/row -"), TREE, one("Null x -")),
    bindings("other", bound('/row "x"^^<d>'), TREE, one("Other x <d>")),
    bindings("tuple", 7, TREE, one("Tuple x -")),
    bindings("map", 7, TREE, one("Map x -")),
    *[bindings("typed-" + name, bound('/row "1"^^<d>'), TREE, one(name + " 1 <d>")) for name in TYPED],
    filters("plain-string", filtered('eq/term ?a/term "x"'), TREE, "bin Equals/ref 0/leaf PlainString x -"),
    filters("tagged-string", filtered('eq/term ?a/term "x"@en-gb'), TREE, "bin Equals/ref 0/leaf LanguageTaggedString x en-gb"),
    filters("iri", filtered("eq/term ?a/term <x>"), TREE, "bin Equals/ref 0/leaf Iri x -"),
    *[filters("typed-" + name, filtered('eq/term ?b/term "1"^^<d>'), TREE, "bin Equals/ref 1/leaf %s 1 <d>" % name) for name in TYPED],
    *[filters("dropped-" + name, TREE, TREE, "bin Equals/ref 0/leaf %s x %s" % (name, extra), [0])
      for name, extra in (("Null", "-"), ("Tuple", "-"), ("Map", "-"), ("Other", "<d>"))],
]

# Where the sets go, in which order, and what is refused.
BINDINGS = [
    bindings("no-sets", TREE, TREE),
    bindings("no-projection", NONE, NONE, one("Map x -").replace("at 0", "at 9")),
    bindings("two-sets", "project ?a ?b/join/join/%s/values 1 1/cols ?b/row <x>/values 1 1/cols ?a/row <y>" % INNER, TREE,
             "set 1 1/at 1/row Iri x -/set 1 1/at 0/row Iri y -"),
    bindings("position-twice", bound("/row <x> <y>", "?b ?b"), TREE, "set 2 1/at 1 1/row Iri x - Iri y -"),
    bindings("nothing-bound", "project ?a ?b/join/%s/values 0 2/cols/row/row" % INNER, TREE, "set 0 2/at/row/row"),
    bindings("no-rows", bound("", "?a", 0), TREE, "set 1 0/at 0"),
    bindings("below-all", "distinct/reduced/slice 1 2/orderby 1/group 1 1/cols ?g/project ?a/join/bgp 0/values 1 1/cols ?a/row <x>/aggall ?n 0/asc/bound ?a",
             "distinct/reduced/slice 1 2/orderby 1/group 1 1/cols ?g/project ?a/bgp 0/aggall ?n 0/asc/bound ?a", one("Iri x -")),
    bindings("outermost-only", "project ?a/join/project ?b/bgp 0/values 1 1/cols ?a/row <x>", "project ?a/project ?b/bgp 0", one("Iri x -")),
    bindings("position-outside", 3, TREE, "set 1 0/at 2"),
    bindings("three-before-seven", 3, TREE, one("Map x -") + "/set 1 0/at 2"),
    bindings("seven-in-second", 7, TREE, one("Null x -") + "/" + one("Tuple x -")),
    bindings("tree-malformed", 1, MALFORMED, "set 1 0/at 2"),
    bindings("sets-malformed", 1, TREE, "set 1 0"),
    bindings("tree-first", 2, OVER, "set 1 0"),
    bindings("sets-over", 2, TREE, "/".join(["set 0 0/at"] * 257)),
    bindings("too-long", 6, "project ?%s/bgp 0" % ("a" * 128), "set 600 0/at" + " 0" * 600),
    ("bindings", "no-bar", text(TREE), refused(1)),
    ("bindings", "too-long-input", padded(text(TREE) + BAR, LONG + 1), refused(2)),
]

# What is expressed, dropped, placed and refused.
FILTERS = [
    filters("no-filters", TREE, TREE),
    filters("no-projection", NONE, NONE, "ref 9", [0]),
    filters("reference", filtered("term ?b"), TREE, "ref 1"),
    filters("unequals", filtered("not/eq/term ?a/term ?b"), TREE, "bin Unequals/ref 0/ref 1"),
    filters("datatype", filtered("call DATATYPE 1/term ?a"), TREE, "un Datatype/ref 0"),
    filters("language-tag", filtered("call LANG 1/term ?a"), TREE, "un LanguageTag/ref 0"),
    filters("nested-left", filtered("and/and/term ?a/term ?b/call LANG 1/term ?a"), TREE, "ref 0/ref 1/un LanguageTag/ref 0"),
    filters("always-true", TREE, TREE, "leaf Boolean true <d>", [0]),
    filters("false-stays", filtered('term "false"^^<d>'), TREE, "leaf Boolean false <d>"),
    filters("true-inside", filtered('eq/term "true"^^<d>/term ?a'), TREE, "bin Equals/leaf Boolean true <d>/ref 0"),
    filters("one-part-drops-all", filtered("term ?b"), TREE, "bin Equals/un Other/ref 0/ref 1/ref 1", [0]),
    filters("other-shapes", TREE, TREE, "un Equals/ref 0/bin Datatype/ref 0/ref 0/tern Equals/ref 0/ref 0/ref 0/nary Equals 2/ref 0/ref 1", [0, 1, 2, 3]),
    filters("below-slice", "slice 0 5/project ?a/filter/bgp 0/term ?a", "slice 0 5/project ?a/bgp 0", "ref 0"),
    filters("outside", 3, TREE, "ref 2"),
    filters("outside-though-dropped", 3, TREE, "nary Other 1/ref 2"),
    filters("outside-behind-dropped", 3, TREE, "bin Equals/leaf Null x -/ref 2"),
    filters("tree-malformed", 1, MALFORMED, "ref 2"),
    filters("filters-malformed", 1, TREE, "un Datatype"),
    filters("filters-over", 2, TREE, "/".join(["ref 0"] * 257)),
    ("filters", "two-bars", text(TREE) + BAR + BAR, refused(1)),
]

# Which filters are listed, by number from 0.
LISTS = [
    filters("left-first", filtered("term ?b"), TREE, "un Other/ref 0/ref 1", [0]),
    filters("left-last", filtered("term ?b"), TREE, "ref 1/un Other/ref 0", [1]),
    filters("left-between", filtered("and/term ?a/term ?b"), TREE, "ref 0/un Other/ref 0/ref 1", [1]),
    filters("left-around", filtered("term ?a"), TREE, "leaf Boolean true <d>/ref 0/nary f 0", [0, 2]),
    filters("left-counts-filters", filtered("term ?b"), TREE, "bin Equals/un Other/ref 0/ref 1/tern x/ref 0/ref 0/ref 0/ref 1/nary x 1/ref 0", [0, 1, 3]),
    filters("left-true-whatever-datatype", TREE, TREE, "leaf Boolean true <d>/leaf Boolean true <e>", [0, 1]),
    filters("left-not-true", filtered('and/term "True"^^<d>/term "true"'), TREE, "leaf Boolean True <d>/leaf PlainString true -"),
    filters("left-true-below-not", filtered('eq/term "true"^^<d>/term "true"^^<d>'), TREE, "bin Equals/leaf Boolean true <d>/leaf Boolean true <d>"),
    filters("left-all-not-found", "minus/project ?a/bgp 0/bgp 0", "minus/project ?a/bgp 0/bgp 0", "ref 9/leaf Boolean false <d>/leaf Boolean true <d>/ref 0", [0, 1, 2, 3]),
    filters("left-none-not-found", NONE, NONE),
    filters("left-below-group", "group 0 0/cols/project ?a/filter/bgp 0/term ?a", "group 0 0/cols/project ?a/bgp 0", "nary x 0/ref 0", [0]),
    filters("left-two-digits", "project ?a/filter/bgp 0/term ?a", "project ?a/bgp 0", "/".join(["nary x 0"] * 10 + ["ref 0"] + ["nary x 0"] * 2), [*range(10), 11, 12]),
    filters("left-256", "project ?a/bgp 0", "project ?a/bgp 0", "/".join(["nary x 0"] * 256), range(256)),
    filters("left-256-not-found", NONE, NONE, "/".join(["ref 9"] * 256), range(256)),
    filters("left-last-of-256", "project ?a/filter/bgp 0/" + "and/" * 254 + "/".join(["term ?a"] * 255), "project ?a/bgp 0", "/".join(["ref 0"] * 255 + ["nary x 0"]), [255]),
    filters("left-none-of-256", "project ?a/filter/bgp 0/" + "and/" * 255 + "/".join(["term ?a"] * 256), "project ?a/bgp 0", "/".join(["ref 0"] * 256)),
    filters("refused-lists-none", 3, TREE, "nary x 0/ref 2"),
    filters("too-long-lists-none", 6, "project ?%s/bgp 0" % ("a" * 128), "nary x 0/nary x 0" + ("/bin Equals" * 9 + "/ref 0" * 10) * 62),
]

# 256 columns, sets and references: the last ones.
WIDE = "project %s/" % " ".join("?c%d" % i for i in range(256))
WIDEST = [
    bindings("at-255", WIDE + "join/bgp 0/values 1 1/cols ?c255/row <x>", WIDE + "bgp 0", "set 1 1/at 255/row Iri x -"),
    bindings("at-256", 3, WIDE + "bgp 0", "set 1 1/at 256/row Iri x -"),
    bindings("sets-256", WIDE + "join/" * 256 + "bgp 0/" + "/".join(["values 0 1/cols/row"] * 256), WIDE + "bgp 0", "/".join(["set 0 1/at/row"] * 256)),
    filters("ref-255", WIDE + "filter/bgp 0/term ?c255", WIDE + "bgp 0", "ref 255"),
    filters("ref-256", 3, WIDE + "bgp 0", "ref 256"),
]

WRITTEN = VALUES + BINDINGS + FILTERS + LISTS + WIDEST
