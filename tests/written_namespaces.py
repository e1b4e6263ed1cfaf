"""Tables of namespaces with their numbers, and inputs of the call with answers, written by hand."""
from written_merges import answer, parted
from written_texts import BAR, LONG, MALFORMED, OVER, padded, refused


def namespaces(name, expected, tree, table=""):
    return "namespaces", name, parted(tree, table), answer(expected)


TRIPLE = "bgp 1/t %s %s %s"
ONE = TRIPLE % ("<a:x>", "<a:p>", "?o")
MANY = "/".join("a%02d b" % i for i in range(64))
LONGEST = "n" * 128

# What becomes of terms: in every place of a line where one may stand, and nowhere else.
TERMS = [
    namespaces("triple", TRIPLE % ("<c:x>", "<c:p>", "<d:y>"), TRIPLE % ("<a:x>", "<a:p>", "<b:y>"), "a: c:/b: d:"),
    namespaces("other-terms", TRIPLE % ("_:a:x", "?a:p", '"<a:x>"'), TRIPLE % ("_:a:x", "?a:p", '"<a:x>"'), "a: c:"),
    namespaces("literal-subject", TRIPLE % ('"a:x"@en', "<c:p>", "?o"), TRIPLE % ('"a:x"@en', "<a:p>", "?o"), "a: c:"),
    namespaces("datatype", TRIPLE % ("?s", "<c:p>", '"1"^^<a:int>'), TRIPLE % ("?s", "<a:p>", '"1"^^<a:int>'), "a: c:"),
    namespaces("datatype-uncovered", TRIPLE % ("?s", "<c:p>", '"1"^^<z:int>'), TRIPLE % ("?s", "<a:p>", '"1"^^<z:int>'), "a: c:"),
    namespaces("path", "path <c:s> <a:p>+ <c:o>", "path <a:s> <a:p>+ <a:o>", "a: c:"),
    namespaces("path-like-iri", "path ?s <z:p> <c:o>", "path ?s <z:p> <a:o>", "a: c:"),
    namespaces("graph", "graph <c:g>/bgp 0", "graph <a:g>/bgp 0", "a: c:"),
    namespaces("graph-variable", "graph ?a:g/bgp 0", "graph ?a:g/bgp 0", "a: c:"),
    namespaces("service", "service <c:s> 1/bgp 0", "service <a:s> 1/bgp 0", "a: c:"),
    namespaces("cells", 'values 2 2/cols ?x ?y/row <c:1> -/row "a:" <c:2>', 'values 2 2/cols ?x ?y/row <a:1> -/row "a:" <a:2>', "a: c:"),
    namespaces("expression", "filter/bgp 0/in 1/term <c:k>/term ?x", "filter/bgp 0/in 1/term <a:k>/term ?x", "a: c:"),
    namespaces("call-name", "filter/bgp 0/call <a:f> 1/term <c:k>", "filter/bgp 0/call <a:f> 1/term <a:k>", "a: c:"),
    namespaces("aggregate-name", "group 1 1/cols ?k/bgp 0/agg ?n <a:f> 1/term <c:k>", "group 1 1/cols ?k/bgp 0/agg ?n <a:f> 1/term <a:k>", "a: c:"),
    namespaces("exists", "filter/bgp 0/exists/bgp 1/t ?s <c:p> ?o", "filter/bgp 0/exists/bgp 1/t ?s <a:p> ?o", "a: c:"),
    namespaces("order", "orderby 1/bgp 0/desc/term <c:k>", "orderby 1/bgp 0/desc/term <a:k>", "a: c:"),
    namespaces("extend", "extend ?v/bgp 0/term <c:k>", "extend ?v/bgp 0/term <a:k>", "a: c:"),
    namespaces("leftjoin", "leftjoin 1/bgp 0/graph <c:g>/bgp 0/same/term <c:k>/term ?x", "leftjoin 1/bgp 0/graph <a:g>/bgp 0/same/term <a:k>/term ?x", "a: c:"),
]

# How a start is replaced: once, the covering line's, up to any byte.
STARTS = [
    namespaces("whole-iri", TRIPLE % ("<b>", "?p", "?o"), TRIPLE % ("<a>", "?p", "?o"), "a b"),
    namespaces("once", TRIPLE % ("<aa>", "<aaa>", "?o"), TRIPLE % ("<a>", "<aa>", "?o"), "a aa"),
    namespaces("not-again", TRIPLE % ("<b1>", "<a1>", "?o"), TRIPLE % ("<a1>", "<b1>", "?o"), "a b/b a"),
    namespaces("become-one", TRIPLE % ("<c1>", "<c1>", "?o"), TRIPLE % ("<a1>", "<b1>", "?o"), "a c/b c"),
    namespaces("inside-not", TRIPLE % ("<c-a>", "?p", "?o"), TRIPLE % ("<a-a>", "?p", "?o"), "a c"),
    namespaces("behind-more", TRIPLE % ("<c>b>", "?p", "?o"), TRIPLE % ("<a>b>", "?p", "?o"), "a c"),
    namespaces("other-bytes", TRIPLE % ("<?\xff>", "?p", "?o"), TRIPLE % ("<\x00\xff>", "?p", "?o"), "\x00 ?"),
    namespaces("less-in-start", TRIPLE % ("<x<y>", "?p", "?o"), TRIPLE % ("<<<y>", "?p", "?o"), "<< x<"),
    namespaces("same-table", ONE, ONE, "a: a:"),
    namespaces("first-of-many", TRIPLE % ("<bx>", "<bx>", "<bx>"), TRIPLE % ("<a00x>", "<a31x>", "<a63x>"), MANY),
    namespaces("longest", TRIPLE % ("<%s>" % LONGEST, "<%sx>" % LONGEST, "?o"), TRIPLE % ("<a>", "<ax>", "?o"), "a " + LONGEST),
    namespaces("longest-old", TRIPLE % ("<a>", "<ax>", "?o"), TRIPLE % ("<%s>" % LONGEST, "<%sx>" % LONGEST, "?o"), LONGEST + " a"),
    namespaces("unused-line", ONE.replace("a:", "c:"), ONE, "+ x/a: c:/z y"),
    namespaces("no-iri-no-line", "project ?a/bgp 0", "project ?a/bgp 0"),
    namespaces("no-iri", "project ?a/bgp 0", "project ?a/bgp 0", "a b"),
    namespaces("empty-file", "project/bgp 0", "", "a b"),
    namespaces("no-texts", "project/bgp 0", ""),
    # a converted tree may pass the bound of bytes, and is written
    namespaces("over-a-bound", "values 1 %d/cols ?x" % 200 + ("/row <%s>" % LONGEST) * 200, "values 1 %d/cols ?x" % 200 + "/row <a>" * 200, "a " + LONGEST),
]

# 15 for the tree as a whole, after 14; 14 after the table's 1 and 2; these after the tree's.
REFUSED = [
    namespaces("gap", 15, TRIPLE % ("<a:x>", "<b:p>", "?o"), "a: c:"),
    namespaces("gap-no-table", 15, ONE), namespaces("gap-short", 15, TRIPLE % ("<a>", "?p", "?o"), "ab c"),
    namespaces("gap-empty-iri", 15, TRIPLE % ("<>", "?p", "?o"), "a c"), namespaces("gap-between", 15, TRIPLE % ("<b>", "?p", "?o"), "a x/c y"),
    namespaces("gap-above", 15, TRIPLE % ("<A>", "?p", "?o"), "a x/c y"), namespaces("gap-behind", 15, TRIPLE % ("<d>", "?p", "?o"), "a x/c y"),
    namespaces("gap-of-graph", 15, "graph <z>/bgp 0", "a x"), namespaces("gap-of-service", 15, "service <z> 0/bgp 0", "a x"),
    namespaces("gap-of-cell", 15, "values 1 1/cols ?x/row <z>", "a x"), namespaces("gap-of-last", 15, ONE.replace("?o", "<z>"), "a: c:"),
    namespaces("unsorted", 14, ONE, "b x/a: y"), namespaces("unsorted-before-gap", 14, TRIPLE % ("<z>", "?p", "?o"), "b x/a y"),
    namespaces("equal", 14, ONE, "a: x/a: y"), namespaces("equal-lines", 14, ONE, "a: x/a: x"), namespaces("beginning", 14, ONE, "a x/a: y"),
    namespaces("beginning-first", 14, ONE, "a: x/a y"), namespaces("beginning-further", 14, ONE, "a x/a- y/b z/c z"),
    namespaces("unsorted-last", 14, ONE, "a: x/c y/b z"), namespaces("order-of-bytes", 14, ONE, "a: x/B y"),
    namespaces("order-of-bytes-high", ONE.replace("a:", "x"), ONE, "Z y/a: x/\xe9 z"), namespaces("unsorted-no-iri", 14, "bgp 0", "b x/a y"),
    namespaces("empty-file-unsorted", 14, "", "b x/a y"), namespaces("new-starts-free", ONE.replace("a:", "z"), ONE, "a: z/b a/c a"),
    namespaces("table-malformed", 1, ONE, "a"), namespaces("table-malformed-first", 1, ONE, "b x/a y/c"), namespaces("table-over", 2, ONE, MANY + "/b c"),
    namespaces("table-over-then-unsorted", 2, ONE, MANY + "/a c"), namespaces("table-full", ONE.replace("a:", "b"), ONE, MANY.replace("a63", "a:")),
    namespaces("tree-malformed", 1, MALFORMED, "b x/a y"), namespaces("tree-over", 2, OVER, "a"), namespaces("tree-first", 1, MALFORMED, MANY + "/b c"),
    ("namespaces", "no-input", b"", refused(1)), ("namespaces", "two-bars", parted(ONE, "a: c:", ""), refused(1)),
    ("namespaces", "unended-bar", parted(OVER, "") + b"--", refused(2)), ("namespaces", "too-long-input", padded(OVER + BAR, LONG + 1), refused(2)),
    namespaces("answer-too-long", 6, "values 1 500/cols ?x" + "/row <a>" * 500, "a " + LONGEST),
    namespaces("gap-before-too-long", 15, "values 1 500/cols ?x" + "/row <a>" * 499 + "/row <b>", "a " + LONGEST),
]

WRITTEN = TERMS + STARTS + REFUSED


def texts(case):
    """Tables by themselves."""
    for expect, label, written in (
            (0, "empty", ""), (0, "one", "a b"), (0, "two", "a x/b x"), (0, "same-new", "a a/b a"), (0, "marks", "? -/_ </~ \""),
            (0, "high-bytes", "\x7f a/\x80 b/\xff c"), (0, "byte-0", "\x00 a/\x01 \x00"), (0, "shared", "ab x/ac y/b z"),
            (1, "empty-old", " b"), (1, "empty-new", "a "), (1, "empty-line", "a b/"), (1, "one-field", "a"), (1, "three-fields", "a b c"),
            (1, "more-old", "a> b"), (1, "more-new", "a >b"), (1, "more-alone", "> b"), (1, "bad-before-order", "b x/a y/c"),
            (14, "unsorted", "b x/a y"), (14, "equal", "a x/a y"), (14, "beginning", "a x/ab y"), (14, "longer-first", "ab x/a y"),
            (14, "further", "a x/aa y/b z"), (14, "unsorted-far", "a x/b y/ab z"), (14, "high-first", "\xff x/a y"), (14, "upper", "a x/B y")):
        case(expect, "namespaces", "table-" + label, written)
    for size, expect in ((127, 0), (128, 0), (129, 1), (300, 1)):
        case(expect, "namespaces", "table-old-%d" % size, "a" * size + " b")
        case(expect, "namespaces", "table-new-%d" % size, "b " + "a" * size)
    for many, expect in ((1, 0), (2, 0), (63, 0), (64, 0), (65, 2), (66, 2)):
        case(expect, "namespaces", "table-lines-%d" % many, "/".join("a%03d b" % i for i in range(many)))
    case(1, "namespaces", "table-lines-65-malformed", MANY + "/b")
    case(2, "namespaces", "table-lines-65-then-malformed", MANY + "/b c/d")
    case(2, "namespaces", "table-lines-65-unsorted", MANY + "/a c")
    case(14, "namespaces", "table-lines-64-unsorted", MANY.replace("a63", "a00"))
    case(1, "namespaces", "table-unended", b"a\tb\nc\td")
    case(1, "namespaces", "table-return", b"a\tb\r\nc>\td\r\n")
    case(0, "namespaces", "table-returns", b"a\tb\r\nc\td\r\n")
    full = b"".join(b"%02d%s\t%s\n" % (i, b"a" * 126, b"b" * 128) for i in range(63))
    for size, expect in ((16384, 0), (16385, 2)):
        case(expect, "namespaces", "table-bytes-%d" % size, full + b"a" * (size - len(full) - 3) + b"\tb\n")
