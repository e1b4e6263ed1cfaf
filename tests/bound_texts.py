"""Texts at the bounds of docs/SPECIFICATION.md: each exactly met (0) and passed by
one (2), and which number comes first. Part of make_texts.py, which calls
add(case); each call case(number, kind, label, text) has its number written by
hand.

In a text given as str, / is a line end, the last one left out, and a space a tab.
"""

def lines(written):
    """The bytes of a text in that notation."""
    return written.replace(" ", "\t").replace("/", "\n").encode() + b"\n"


def add(case):
    for section in (bytes_bound, lines_bound, depth_bound, depth_order, names_bound, columns_bound, entries_bound,
                    first_bad_line):
        section(case)


# A text has at most 16,384 bytes.

def bytes_bound(case):
    wraps = {"tree": "path ?s @ ?o", "query": "query select @ -/bgp 0", "constants": '0 "@',
             "bindings": "set 1 1/at 0/row PlainString @ -", "filters": "leaf PlainString @ -"}
    for kind, wrap in wraps.items():
        for size, expect in ((16384, 0), (16385, 2)):
            fill = b"a" * (size - len(lines(wrap)) + 1)
            case(expect, kind, "bytes-%d-%s" % (size, kind), lines(wrap).replace(b"@", fill))
    # A mapping of 64 entries, the longest but for two, just fills the text.
    pairs = b"".join(b"?%02d%s\t?%s\n" % (i, b"a" * 126, b"b" * 128) for i in range(62))
    last = b"?A\t?A\n?B\t?" + b"b" * 128 + b"\n"
    for size, expect in ((16384, 0), (16385, 2)):
        fill = b"A" * (size - len(pairs + last))
        case(expect, "mapping", "bytes-%d-mapping" % size, pairs + last.replace(b"?A\t", b"?A" + fill + b"\t"))
    # A join list never gets so long: malformed within the bound, and past it over the bound first.
    for size, expect in ((16384, 1), (16385, 2)):
        case(expect, "joins", "bytes-%d-joins-malformed" % size, b"x" * (size - 1) + b"\n")


# A text has at most 2,048 lines.

def rows(n):
    return b"values\t0\t%d\ncols\n" % (n - 2) + b"row\n" * (n - 2)


def sets(n):
    return b"set\t0\t%d\nat\n" % (n - 2) + b"row\n" * (n - 2)


def refs(n):
    return b"nary\tf\t%d\n" % (n - 1) + b"ref\t0\n" * (n - 1)


def lines_bound(case):
    for n, expect in ((2048, 0), (2049, 2)):
        case(expect, "tree", "lines-%d-rows" % n, rows(n))
        case(expect, "tree", "lines-%d-pattern-last" % n, b"join\n" + rows(n - 2) + b"bgp\t0\n")
        case(expect, "query", "lines-%d-query" % n, b"query\task\t-\t-\n" + rows(n - 1))
        case(expect, "bindings", "lines-%d-bindings" % n, sets(n))
        case(expect, "filters", "lines-%d-filters" % n, refs(n))
    case(2, "tree", "lines-2049-expression-last", b"filter\n" + rows(2047) + b"bound\t?x\n")
    case(1, "tree", "lines-2048-more-wanted", rows(2048).replace(b"2046", b"4294967295"))
    case(1, "tree", "lines-2049-left-over", rows(2048) + b"row\n")
    case(1, "tree", "lines-2101-left-over", b"bgp\t0\n" + b"\n" * 2100)
    case(1, "tree", "lines-2049-malformed", rows(2049)[:-4] + b"roe\n")
    case(1, "tree", "lines-2049-other-word", rows(2049)[:-4] + b"bgp\t0\n")
    case(1, "tree", "lines-2049-unended", rows(2049)[:-1])
    case(2, "tree", "lines-2049-then-malformed", rows(2050)[:-4] + b"roe\n")
    case(1, "bindings", "lines-2049-bindings-malformed", sets(2048) + b"set\t0\n")
    case(2, "bindings", "lines-2049-bindings-new-set", sets(2048) + b"set\t0\t0\n")
    case(2, "filters", "lines-2049-filters-new", refs(2048) + b"ref\t0\n")


# A tree and a filter have a depth of at most 64. Chains: a step down, what
# follows it on the way up, the last part, the levels of a step and of the last.

E = 'term "'
CHAINS = {
    "distinct": ("distinct", "", "bgp 0", 1, 1),
    "reduced": ("reduced", "", "bgp 0", 1, 1),
    "project": ("project ?a", "", "bgp 0", 1, 1),
    "graph": ("graph ?g", "", "bgp 0", 1, 1),
    "slice": ("slice 0 -", "", "bgp 0", 1, 1),
    "service": ("service <s> 0", "", "bgp 0", 1, 1),
    "join-left": ("join", "bgp 0", "bgp 0", 1, 1),
    "join-right": ("join/bgp 0", "", "bgp 0", 1, 1),
    "union-left": ("union", "bgp 0", "bgp 0", 1, 1),
    "union-right": ("union/bgp 0", "", "bgp 0", 1, 1),
    "minus-left": ("minus", "bgp 0", "bgp 0", 1, 1),
    "minus-right": ("minus/bgp 0", "", "bgp 0", 1, 1),
    "leftjoin-left": ("leftjoin 1", "bgp 0/" + E, "bgp 0", 1, 1),
    "leftjoin-right": ("leftjoin 1/bgp 0", E, "bgp 0", 1, 1),
    "filter-inner": ("filter", E, "bgp 0", 1, 1),
    "extend-inner": ("extend ?v", E, "bgp 0", 1, 1),
    "orderby-none": ("orderby 0", "", "bgp 0", 1, 1),
    "orderby-inner": ("orderby 1", "asc/" + E, "bgp 0", 1, 1),
    "group-inner": ("group 0 1/cols", "agg ?v f 0/" + E, "bgp 0", 1, 1),
    "group-cols": ("group 1 0/cols ?a", "", "bgp 0", 1, 1),
    "bgp-lines": ("distinct", "", "bgp 2/t ?s ?s ?s/t ?s ?s ?s", 1, 1),
    "values-lines": ("distinct", "", "values 1 2/cols ?a/row -/row -", 1, 1),
    "path": ("distinct", "", "path ?s p ?o", 1, 1),
    "aggall-last": ("distinct", "", "group 0 1/cols/bgp 0/aggall ?v 0", 1, 2),
    "asc-last": ("distinct", "", "orderby 1/bgp 0/asc/" + E, 1, 2),
    "filter-last": ("distinct", "", "filter/bgp 0/" + E, 1, 2),
    "exists": ("filter/bgp 0/exists", "", "filter/bgp 0/" + E, 2, 2),
    "exists-leftjoin": ("leftjoin 1/bgp 0/bgp 0/exists", "", "distinct/bgp 0", 2, 2),
    "exists-asc": ("orderby 3/bgp 0/asc/exists", "desc/%s/asc/%s" % (E, E), "orderby 1/bgp 0/desc/" + E, 2, 2),
    "exists-agg": ("group 1 3/cols ?a/bgp 0/agg ?v f 0/exists", "aggall ?w 1/agg ?v f 0/" + E, "distinct/bgp 0", 2, 2),
    "not-exists": ("distinct/filter/bgp 0/not/exists", "", "reduced/distinct/distinct/bgp 0", 4, 4),
    "and-exists": ("project ?a/filter/bgp 0/and/exists", E, "reduced/minus/distinct/bgp 0/union/bgp 0/bgp 0", 4, 4),
}
EXPRESSIONS = {  # an expression's step down, and what follows it
    "not": ("not", ""), "plus": ("plus", ""), "neg": ("neg", ""), "and-left": ("and", E), "or-right": ("or/" + E, ""),
    "add-left": ("add", E), "same-right": ("same/" + E, ""), "in-first": ("in 2", E + "/" + E),
    "in-last": ("in 2/%s/%s" % (E, E), ""), "in-zero": ("in 0", ""), "if-first": ("if", E + "/" + E),
    "if-middle": ("if/" + E, E), "if-last": ("if/%s/%s" % (E, E), ""), "coalesce": ("coalesce 3/" + E, E),
    "call": ("call f 1", ""), "call-first": ("call f 3", E + "/" + E),
}
ABOVE = {  # lines before and after an expression at depth 2
    "filter": ("filter/bgp 0", ""), "asc": ("orderby 2/bgp 0/asc", "desc/" + E),
    "desc": ("orderby 2/bgp 0/asc/%s/desc" % E, ""), "agg": ("group 0 2/cols/bgp 0/agg ?v f 0", "aggall ?w 0"),
    "extend": ("extend ?v/bgp 0", ""), "leftjoin": ("leftjoin 1/bgp 0/bgp 0", ""),
}
PARTS = {
    "un": ("un f", ""), "bin-left": ("bin f", "ref 0"), "bin-right": ("bin f/ref 0", ""),
    "tern-first": ("tern f", "ref 0/ref 1"), "tern-last": ("tern f/ref 0/ref 1", ""),
    "nary-middle": ("nary f 3/ref 0", "ref 0"),
}


def chain(step, after, last, steps):
    return "/".join(part for part in [step] * steps + [last] + [after] * steps if part)


def depth_bound(case):
    for label, (step, after, last, levels, last_levels) in CHAINS.items():
        steps, rest = divmod(64 - last_levels, levels)
        whole = "distinct/" * rest + chain(step, after, last, steps)
        case(0, "tree", "depth-64-" + label, whole)
        case(2, "tree", "depth-65-" + label, "distinct/" + whole)
        if label in ("distinct", "exists"):
            case(0, "query", "depth-64-query-" + label, "query select - -/" + whole)
            case(2, "query", "depth-65-query-" + label, "query select - -/distinct/" + whole)
    for label, (step, after) in EXPRESSIONS.items():
        whole = "filter/bgp 0/" + chain(step, after, "term <k>", 62)
        case(0, "tree", "depth-64-expr-" + label, whole)
        case(2, "tree", "depth-65-expr-" + label, "distinct/" + whole)
    for label, (before, after) in ABOVE.items():
        for n, expect in ((64, 0), (65, 2)):
            deep = chain("not", "", E, n - 2)
            case(expect, "tree", "depth-%d-below-%s" % (n, label), "/".join(filter(None, [before, deep, after])))
    for label, leaf, levels in [("coalesce-0", "coalesce 0", 1), ("call-0", "call f 0", 1), ("bound", "bound ?x", 1),
                                ("exists", "exists/bgp 0", 2)]:
        for n, expect in ((64, 0), (65, 2)):
            deep = chain("not", "", leaf, n - 1 - levels)
            case(expect, "tree", "depth-%d-leaf-%s" % (n, label), "filter/bgp 0/" + deep)
    down = chain("distinct", "", "bgp 0", 62)
    case(0, "tree", "depth-64-twice", "join/%s/%s" % (down, down))
    case(2, "tree", "depth-65-second", "join/%s/distinct/%s" % (down, down))
    case(2, "tree", "depth-65-first", "join/distinct/%s/%s" % (down, down))
    for label, (step, after) in PARTS.items():
        for last in ("ref 0", "leaf Null  -", "nary f 0")[:3 if label == "un" else 1]:
            for n, expect in ((64, 0), (65, 2)):
                case(expect, "filters", "depth-%d-%s-%s" % (n, label, last.split()[0]), chain(step, after, last, n - 1))
    case(0, "filters", "depth-64-two-filters", lines(chain("un f", "", "ref 0", 63)) * 2)
    case(2, "filters", "depth-65-second-filter", "ref 0/" + chain("un f", "", "ref 0", 64))


def depth_order(case):
    """A malformed line past the depth is 1; a good one past it is 2, whatever follows."""
    top = b"distinct\n" * 64
    for label, line in {"word": b"foo\n", "field": b"bgp\n", "integer": b"bgp\t01\n", "expression": b"bound\t?x\n",
                        "triple": b"t\t?s\t?s\t?s\n", "empty": b"\n", "missing": b"", "unended": b"bgp\t0",
                        "cols": b"cols\n", "variable": b"project\t?\n", "flag": b"leftjoin\t2\n"}.items():
        case(1, "tree", "depth-65-malformed-" + label, top + line)
    for label, line in {"malformed": b"distinct\nfoo\n", "unended": b"distinct\nb", "left-over": b"bgp\t0\nbgp\t0\n",
                        "columns": b"project\t?a\nproject\t?\n"}.items():
        case(2, "tree", "depth-65-then-" + label, top + line)
    # A last line that wants lines below it: they are missing at depth 64, it is over the bound at 65.
    for n, expect in ((64, 1), (65, 2)):
        for line in ("bgp 1", "join", "leftjoin 0", "filter", "graph <g>", "extend ?v", "values 1 1", "orderby 1",
                     "project", "distinct", "slice 0 0", "group 1 1", "service <s> 0"):
            case(expect, "tree", "depth-%d-last-%s" % (n, line.split()[0]), chain("reduced", "", line, n - 1))
        for line in ("eq", "in 0", "neg", "exists", "if", "coalesce 1", "call f 1"):
            deep = chain("not", "", line, n - 2)
            case(expect, "tree", "depth-%d-last-%s" % (n, line.split()[0]), "filter/bgp 0/" + deep)
        for line in ("un f", "bin f", "tern f", "nary f 1"):
            case(expect, "filters", "depth-%d-last-%s" % (n, line.split()[0]), chain("un f", "", line, n - 1))
    case(1, "tree", "depth-malformed-before", b"foo\n" + top + b"bgp\t0\n")
    case(1, "tree", "depth-malformed-at-64", b"distinct\n" * 63 + b"distinct\t0\ndistinct\nbgp\t0\n")
    case(1, "tree", "depth-65-malformed-below-not", "filter/bgp 0/" + chain("not", "", "bound x", 63))
    case(1, "tree", "depth-65-pattern-below-not", "filter/bgp 0/" + chain("not", "", "bgp 0", 63))
    case(1, "tree", "depth-65-expression-below-exists", "filter/bgp 0/" + chain("not", "", "exists/bound ?x", 62))
    case(1, "filters", "depth-65-malformed-part", chain("un f", "", "ref 01", 64))
    case(1, "filters", "depth-64-missing-part", chain("un f", "", "un f", 63))
    case(2, "filters", "depth-65-then-malformed-part", chain("un f", "", "foo", 65))


# A text has at most 1,024 distinct variables.

def names(n):
    letters = "abcdefghijklmnopqrstuvwxyzABCDEFGHIJKLMNOPQRSTUVWXYZ0123456789"
    return ["?" + letters[i // 62] + letters[i % 62] for i in range(n)]


def cols(*variables):
    return " ".join(["values %d 0/cols" % len(variables), *variables])


def triples(n):
    variables = names(n) + ["?aa"] * (-n % 3)
    return "/".join(["bgp %d" % (len(variables) // 3)] +
                    ["t " + " ".join(variables[i:i + 3]) for i in range(0, len(variables), 3)])


# Each field that holds a variable, and each that is opaque or another term.
HOLD = {
    "subject": "bgp 1/t @ <p> <o>", "predicate": "bgp 1/t <s> @ <o>", "object": "bgp 1/t <s> <p> @",
    "path-left": "path @ p <o>", "path-right": "path <s> p @", "graph": "graph @/bgp 0", "service": "service @ 0/bgp 0",
    "extend": "extend @/bgp 0/term <k>", "cols": "values 1 0/cols @", "project": "project @/bgp 0",
    "group": "group 1 0/cols @/bgp 0", "agg": "group 0 1/cols/bgp 0/agg @ f 0/coalesce 0",
    "aggall": "group 0 1/cols/bgp 0/aggall @ 0", "term": "filter/bgp 0/term @", "bound": "filter/bgp 0/bound @",
}
HOLD_NONE = ["path ?aa ?%% ?ab", "filter/bgp 0/call ?%% 0", "filter/bgp 0/call ?%$ 1/coalesce 0",
             "group 0 1/cols/bgp 0/agg ?aa ?%% 0/coalesce 0", "bgp 1/t <?%%> <?%%> \"?%%", "bgp 1/t _:?%% ?aa _:?%%",
             "values 1 1/cols ?aa/row <?%%>"]


def names_bound(case):
    full = cols(*names(1024))
    for n, expect in ((1024, 0), (1025, 2)):
        case(expect, "tree", "names-%d-cols" % n, cols(*names(n)))
        case(expect, "tree", "names-%d-triples" % n, triples(n))
        case(expect, "query", "names-%d-query" % n, "query select ?%% ?%$/" + cols(*names(n)))
    for label, frame in HOLD.items():
        case(2, "tree", "names-1025-in-" + label, "join/%s/%s" % (full, frame.replace("@", "?%%")))
    known = [frame.replace("@", "?aa") for frame in HOLD.values()]
    case(0, "tree", "names-1024-each-again", "join/" + "/join/".join(known) + "/" + full)
    case(0, "tree", "names-1024-opaque", "join/" + "/join/".join(HOLD_NONE) + "/" + full)
    case(0, "tree", "names-1024-case", cols(*names(1022), "?z", "?Z"))
    case(2, "tree", "names-1025-prefix", cols(*names(1022), "?a", "?aaa", "?aa\x00"))
    case(0, "tree", "names-1024-one-twice", cols(*names(1024), "?aa"))
    case(1, "tree", "names-1025-malformed-column", cols(*names(1025), "?"))
    case(1, "tree", "names-1026-one-column-more", cols(*names(1026)).replace("1026", "1025"))
    case(1, "tree", "names-1025-malformed-triple", "join/%s/bgp 1/t ?%%%% <p> -" % full)
    case(2, "tree", "names-1025-then-malformed", "join/%s/graph ?%%%%/foo" % full)
    case(1, "tree", "names-1025-left-over", full + "/graph ?%%/bgp 0")


# A project has at most 256 columns; values, group and at may have more.

def project(n, *more):
    return " ".join(["project", *names(n), *more])


def columns_bound(case):
    for n, expect in ((255, 0), (256, 0), (257, 2), (258, 2), (400, 2)):
        case(expect, "tree", "columns-%d" % n, project(n) + "/bgp 0")
    for n, expect in ((256, 0), (257, 2)):
        case(expect, "tree", "columns-%d-inner" % n, "join/bgp 0/distinct/%s/bgp 0" % project(n))
        case(expect, "tree", "columns-%d-exists" % n, "filter/bgp 0/exists/%s/bgp 0" % project(n))
        case(expect, "tree", "columns-%d-below-project" % n, "%s/%s/bgp 0" % (project(256), project(n)))
        case(expect, "tree", "columns-%d-repeated" % n, "project%s/bgp 0" % (" ?a" * n))
        for kind in ("select", "ask", "construct", "describe"):
            case(expect, "query", "columns-%d-%s" % (n, kind), "query %s - -/%s/bgp 0" % (kind, project(n)))
    case(1, "tree", "columns-257-malformed", project(256, "?") + "/bgp 0")
    case(1, "tree", "columns-258-malformed", project(257, "<k>") + "/bgp 0")
    case(1, "tree", "columns-258-empty", project(257, "") + "/bgp 0")
    case(1, "tree", "columns-257-unended", lines(project(257))[:-1])
    case(2, "tree", "columns-257-then-missing", project(257))
    case(2, "tree", "columns-257-then-malformed", project(257) + "/foo")
    case(1, "tree", "columns-malformed-then-257", "distinct x/%s/bgp 0" % project(257))
    case(1, "tree", "columns-257-left-over", "bgp 0/%s/bgp 0" % project(257))
    case(1, "tree", "columns-257-not-wanted", "filter/bgp 0/%s/bgp 0" % project(257))
    case(0, "tree", "columns-257-values", "values 257 1/cols%s/row%s" % (" ?a" * 257, " -" * 257))
    case(0, "tree", "columns-257-group", "group 257 0/cols%s/bgp 0" % (" ?a" * 257))
    case(0, "tree", "aggregates-257", "group 0 257/cols/bgp 0" + "/aggall ?v 0" * 257)
    case(0, "tree", "conditions-257", "orderby 257/bgp 0" + "/asc/bound ?v" * 257)
    case(0, "tree", "triples-257", "bgp 257" + "/t ?s ?p ?o" * 257)
    case(0, "tree", "children-257", "filter/bgp 0/call f 257" + "/bound ?v" * 257)
    case(0, "tree", "rows-257", "values 1 257/cols ?a" + "/row -" * 257)
    case(0, "bindings", "columns-257-at", "set 257 0/at" + " 0" * 257)
    case(0, "bindings", "columns-260-row", "set 260 1/at%s/row%s" % (" 0" * 260, " Null  -" * 260))
    case(0, "bindings", "rows-257-bindings", "set 1 257/at 0" + "/row Null  -" * 257)
    case(0, "filters", "parts-257", "nary f 257" + "/ref 0" * 257)


# A list has at most 256 entries, a whole binding set or filter being one.

LISTS = {"joins": "%d 0", "constants": "%d <k>", "mapping": "?m%d ?n", "bindings": "set 1 0/at %d",
         "filters": "un f/ref %d"}


def entries(kind, n):
    return "/".join(LISTS[kind] % i for i in range(n))


def entries_bound(case):
    for kind, entry in LISTS.items():
        for n, expect in ((1, 0), (2, 0), (255, 0), (256, 0), (257, 2)):
            case(expect, kind, "entries-%d-%s" % (n, kind), entries(kind, n))
        full, first = entries(kind, 256), entry.split("/")[0].replace("%d", "256")
        label = "entries-257-%s-" % kind
        case(2, kind, label + "first-line", full + "/" + first)
        case(2, kind, label + "then-malformed", "%s/%s/foo" % (full, first))
        case(2, kind, label + "then-unended", lines(full + "/" + first) + b"x")
        case(1, kind, label + "malformed", full + "/foo")
        case(1, kind, label + "empty", full + "/")
        case(1, kind, label + "field-more", "%s/%s 0" % (full, first))
        case(1, kind, label + "unended", lines(full + "/" + first)[:-1])
        case(1, kind, label + "after-malformed", "%s/foo/%s" % (entries(kind, 255), first))
        case(1, kind, label + "malformed-first", "foo/" + entries(kind, 257))
    for kind, first, last in (("constants", "0 <k>", "255 <k>"), ("mapping", "?m0 ?x", "?m255 ?x")):
        case(1, kind, "entries-257-%s-repeat" % kind, entries(kind, 256) + "/" + first)
        case(1, kind, "entries-257-%s-repeat-last" % kind, entries(kind, 256) + "/" + last)
        case(2, kind, "entries-257-%s-then-repeat" % kind, entries(kind, 257) + "/" + first)
    for kind, entry, label in (("joins", b"0\t0\n", "repeated"), ("bindings", b"set\t0\t0\nat\n", "empty-sets"),
                               ("filters", b"ref\t0\n", "refs"), ("filters", b"un\tf\n" * 3 + b"ref\t0\n", "deep")):
        case(0, kind, "entries-256-%s-%s" % (kind, label), entry * 256)
        case(2, kind, "entries-257-%s-%s" % (kind, label), entry * 257)
    sets_ = b"set\t0\t0\nat\n" * 256
    case(2, "bindings", "entries-257-count-max", sets_ + b"set\t4294967295\t4294967295\n")
    case(1, "bindings", "entries-256-left-over-row", sets_ + b"row\n")
    case(2, "filters", "entries-257-missing-part", b"ref\t0\n" * 256 + b"bin\tf\n")
    case(1, "filters", "entries-256-missing-part", b"ref\t0\n" * 255 + b"bin\tf\nref\t0\n")
    case(1, "filters", "entries-257-malformed-part", b"ref\t0\n" * 256 + b"ref\t01\n")


# The first bad line decides; on a line 1 comes before 2.

def first_bad_line(case):
    wide = "project" + " ?a" * 257
    case(2, "tree", "order-wide-then-malformed", wide + "/bgp x")
    case(1, "tree", "order-malformed-then-wide", "join/bgp x/%s/bgp 0" % wide)
    case(2, "tree", "order-wide-then-cut", "join/" + wide)
    case(2, "query", "order-query-wide-then-malformed", "query ask - -/%s/x" % wide)
    case(1, "query", "order-query-head-then-wide", "query asks - -/%s/bgp 0" % wide)
    case(1, "query", "order-query-head-missing-then-wide", wide + "/bgp 0")
    case(1, "tree", "order-count-then-wide", "bgp 1/" + wide)
    case(1, "tree", "order-cols-then-wide", "join/values 1 0/cols/%s/bgp 0" % wide)
    case(1, "tree", "order-wide-as-expression", "filter/bgp 0/" + wide)
    case(1, "tree", "order-all-on-one-line", chain("distinct", "", wide + " ?", 64))
