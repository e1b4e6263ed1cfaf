"""Inputs of report with answers written by hand."""
from written_merges import SELECT, answer, parted
from written_texts import MALFORMED, OVER, refused, text

ASK = "query ask - -/"
EVENT = "project ?event ?relay/bgp 1/t ?event <by> ?relay"
BAY = "project ?r ?bay/bgp 1/t ?r <in> ?bay"
STATION = "project ?b ?station/bgp 1/t ?b <at> ?station"
EVENT_BAY = "project ?l0 ?j0 ?r1/join/bgp 1/t ?l0 <by> ?j0/bgp 1/t ?j0 <in> ?r1"
EVENT_BAY_STATION = "project ?l0 ?l1 ?j0 ?r1/join/join/bgp 1/t ?l0 <by> ?l1/bgp 1/t ?l1 <in> ?j0/bgp 1/t ?j0 <at> ?r1"


def report(name, expected, first, *steps):
    """A step is a query, and as many of its lists as aren't empty."""
    texts = [each for step in steps for each in (*step, "", "", "")[:4]]
    return "report", name, parted(first, *texts), answer(expected)


def texts(name, expected, *given):
    return "report", name, parted(*given), answer(expected)


def empties(count):
    """Merged with so many empty files, on the right: each is one more join with a bgp of no triples."""
    return SELECT + "project ?l0/" + "join/" * count + "bgp 1/t ?l0 <p> ?l2" + "/bgp 0" * count


ONE = SELECT + "project ?a/bgp 1/t ?a <p> ?b"
NONE = SELECT[:-1]
HEAD = text(NONE)
ROWS = SELECT + "project ?a/values 1 2040/cols ?a" + "/row -" * 2040  # 2,044 lines

STEPS = [
    report("one-step", SELECT + EVENT_BAY, SELECT + EVENT, (SELECT + BAY, "1 0")),
    report("two-steps", SELECT + EVENT_BAY_STATION, SELECT + EVENT, (SELECT + BAY, "1 0"), (SELECT + STATION, "2 0")),
    report("left-position-of-result", 3, SELECT + EVENT, (SELECT + BAY, "1 0", "0 <e>/1 <r>"), (SELECT + STATION, "1 0")),
    report("left-constant-gone", SELECT + "project ?j0 ?r1/join/join/join/bgp 1/t ?l2 <by> ?l3/values 2 1/cols ?l2 ?l3/row <e> <r>/bgp 1/t ?l3 <in> ?j0/bgp 1/t ?j0 <at> ?r1",
           SELECT + EVENT, (SELECT + BAY, "1 0", "0 <e>/1 <r>"), (SELECT + STATION, "0 0")),
    report("ask", ASK + "project ?j0/join/bgp 0/bgp 0", ASK + "project ?a/bgp 0", (ASK + "project ?b/bgp 0", "0 0")),
    report("empty-file", empties(1), ONE, (NONE,)),
    report("eight-queries", empties(7), ONE, *[(NONE,)] * 7),
    report("empty-first", SELECT + "project ?r0/join/bgp 0/bgp 1/t ?r0 <p> ?r2", NONE, (ONE,)),
    report("all-empty", SELECT + "project/join/join/bgp 0/bgp 0/bgp 0", NONE, (NONE,), (NONE,)),
    texts("pushed", SELECT + "project ?v1/join/bgp 1/t ?v0 <p> ?v1/values 1 1/cols ?v0/row <k>", SELECT + "project ?a ?b/bgp 1/t ?a <p> ?b", "0 <k>"),
    texts("pushed-nothing", SELECT + "project ?v0/bgp 1/t ?v0 <p> ?v2", ONE, ""),
    texts("pushed-copied", "query construct - -/" + EVENT, "query construct - -/" + EVENT, "7 <k>"),
    texts("pushed-outside", 3, ONE, "1 <k>"),
]

# How many texts, before any of them is looked at.
MANY = [
    texts("no-input", 1, ""), texts("one-text", 1, ONE), texts("one-over", 1, OVER), texts("three-texts", 1, ONE, ONE, "0 0"),
    texts("four-texts", 1, ONE, ONE, "0 0", ""), texts("six-texts", 1, ONE, ONE, "0 0", "", "", ONE), texts("seven-over", 1, OVER, *[""] * 6),
    texts("eight-texts", 1, *[""] * 8), texts("twenty-eight-texts", 1, *[""] * 28), texts("thirty-texts", 2, *[""] * 30), texts("thirty-malformed", 2, MALFORMED, *[""] * 29),
    texts("thirty-three-texts", 2, *[""] * 33), texts("twenty-nine-malformed", 1, *[""] * 29),
    ("report", "unended-bar", parted(ONE, ONE, "0 0", "") + b"--", refused(1)),
    ("report", "unended-text", parted(ONE, NONE, "", "", "") + b"0\t<k>", refused(1)),
]

# Then each text's own number, in the order given; then 8; then the steps.
CHECKED = [
    report("first-malformed", 1, SELECT + "bgp 1", (SELECT + OVER.decode().replace("\t", " ").replace("\n", "/")[:-1],)),
    report("first-over", 2, HEAD + OVER, (ONE, "0")),
    report("joins-malformed-before-later", 1, ONE, (ONE, "0"), (HEAD + OVER,)),
    report("later-over-before-step", 2, ONE, (ASK + "bgp 0",), (HEAD + OVER,)),
    report("later-malformed-before-step", 1, ONE, (ASK + "bgp 0", "9 9"), (ONE, "", "", "0 ?a")),
    report("not-a-query", 1, EVENT, (ONE,)),
    report("five-of-first-step", 5, ONE, (ASK + EVENT,), (ONE, "7 0")),
    report("five-of-second-step", 5, ONE, (ONE, "0 0"), (ASK + EVENT,)),
    report("five-of-kind", 5, "query construct - -/" + EVENT, ("query construct - -/" + EVENT,)),
    report("four-of-first", 4, SELECT + "distinct/" + EVENT, (ONE,)), report("four-of-second", 4, ONE, (ONE,), (SELECT + "bgp 0",)),
    report("three-of-second-step", 3, ONE, (ONE, "0 0"), (ONE, "1 0")), report("three-right", 3, ONE, (ONE, "0 0"), (ONE, "0 1")),
    report("ten-of-second-step", 10, ONE, (ONE, "0 0"), (SELECT + EVENT, "0 0/0 1")), report("three-before-ten", 3, ONE, (ONE, "", "1 <k>", ""), (SELECT + EVENT, "0 0/0 1")),
    report("first-step-first", 10, SELECT + EVENT, (SELECT + EVENT, "0 0/0 1"), (ASK + EVENT,)),
]

LONG = SELECT + "project ?a/bgp 1/t ?a <%s> ?a" % ("p" * 9000)
WIDE = SELECT + "project %s/bgp 0"
NAMED = SELECT + "project/values %d 0/cols %s"
DEEP = SELECT + "project ?a" + "/distinct" * 61 + "/bgp 0"  # depth 63


def columns(start, count):
    return " ".join("?c%d" % i for i in range(start, start + count))


def joined(count, first):
    """What is written of that many columns, in order, with new names."""
    return " ".join("?%s%d" % (first, i) for i in range(count))


# A result over a bound that another step would merge is 2, before that step's 5; the last one has no bound but the buffer.
BETWEEN = [
    report("columns-256-between", SELECT + "project %s/join/join/bgp 0/bgp 0/bgp 0" % joined(256, "l"), WIDE % columns(0, 128), (WIDE % columns(0, 128),), (NONE,)),
    report("columns-257-between", 2, WIDE % columns(0, 128), (WIDE % columns(0, 129),), (NONE,)),
    report("columns-257-between-before-5", 2, WIDE % columns(0, 128), (WIDE % columns(0, 129),), (ASK + "bgp 0",)),
    report("columns-257-last", SELECT + "project %s %s/join/bgp 0/bgp 0" % (joined(128, "l"), joined(129, "r")), WIDE % columns(0, 128), (WIDE % columns(0, 129),)),
    report("depth-65-between", 2, DEEP, (NONE,), (NONE,), (NONE,)),
    report("depth-65-last", SELECT + "project ?l0/join/join" + "/distinct" * 61 + "/bgp 0/bgp 0/bgp 0", DEEP, (NONE,), (NONE,)),
    report("lines-between", 2, ROWS, (SELECT + "project ?a/values 1 3/cols ?a/row -/row -/row -",), (NONE,)),
    report("names-1025-between", 2, NAMED % (512, columns(0, 512)), (NAMED % (513, columns(0, 513)),), (NONE,)),
    report("bytes-between", 2, LONG, (LONG,), (NONE,)),
    report("bytes-between-before-5", 2, LONG, (LONG,), (ASK + "bgp 0",)),
    report("bytes-last", SELECT + "project ?l0 ?r0/join/bgp 1/t ?l0 <%s> ?l0/bgp 1/t ?r0 <%s> ?r0" % ("p" * 9000, "p" * 9000), LONG,
           (LONG,)),
]

FULL = SELECT + "project ?a/values 1 2044/cols ?a" + "/row -" * 2044  # 2,048 lines
LESS = SELECT + "project ?a/values 1 2043/cols ?a" + "/row -" * 2043  # 2,047 lines


# 8 for more than 8,192 lines, after all texts' numbers and before 5; the two lines of an empty file are not counted.
LINES = [
    report("lines-8193", 8, FULL, (FULL, "0 0"), (FULL,), (FULL,)),
    report("lines-8194-before-5", 8, FULL, (FULL,), (FULL,), (FULL,), (ASK + "bgp 0",)),
    report("lines-8192", 2, FULL, (FULL,), (FULL,), (FULL,)),
    report("lines-8192-with-a-head-line", 2, FULL, (FULL,), (FULL,), (LESS,), (NONE,)),
    report("lines-8193-by-a-head-line", 8, FULL, (FULL,), (FULL,), (FULL,), (NONE,)),
    report("lines-8193-malformed-first", 1, FULL, (FULL,), (FULL,), (FULL,), (SELECT + "bgp 1",)),
]

WRITTEN = STEPS + MANY + CHECKED + BETWEEN + LINES
