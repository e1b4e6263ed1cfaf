#!/usr/bin/env python3
"""The recorded texts with their numbers.

    python3 make_texts.py OUTDIR

writes OUTDIR/texts and OUTDIR/expected, in the format that random_texts.py
describes, the same bytes each time. 0 is well formed, 1 malformed, 2 over a
bound.

How the numbers were obtained: each text but the damaged random ones at the
end is made together with its number, written by hand from the rules of
docs/SPECIFICATION.md: text by text in small_texts and
bound_texts.py; here, for each sort of field and each specimen, for each place
and each form, for each domain and each extra; and in the examples of
docs/SPECIFICATION.md and docs/VARIANTS.md. The program stops if
second_reader.py gives another number. A damaged random text has the number of
second_reader.py.

A text is written here with / for a line end, the last one left out, and spaces
for tabs.
"""
import os
import random
import re
import sys

import bound_texts
import specification
import written_namespaces
from random_texts import damaged, well_formed, write
from second_reader import KINDS, number

RECORDS = []
LABELS = set()


def record(kind, label, data, expect):
    assert re.fullmatch("[a-z0-9-]{1,60}", label) and label not in LABELS, label
    assert len(data) <= 20000, label
    LABELS.add(label)
    RECORDS.append((kind, label, data, expect))


def case(expect, kind, label, data):
    """A text with its number."""
    data = text(data) if isinstance(data, str) else data
    found = number(kind, data)
    assert found == expect, "%s: %d by hand, %d by the reader\n%r" % (label, expect, found, data[:400])
    record(kind, label, data, expect)


def text(written):
    """The bytes of a text in that notation; nothing written is no line."""
    return written.replace(" ", "\t").replace("/", "\n").encode("latin-1") + b"\n" if written else b""


# 1. Small texts one by one.

def small():
    with open(os.path.join(os.path.dirname(os.path.abspath(__file__)), "small_texts")) as file:
        for line in file:
            if line.strip() and not line.startswith("#"):
                expect, kind, label, written = re.fullmatch(r"([012]) (\S+) +(\S+) *(.*)\n", line).groups()
                case(int(expect), kind, label, text(written.encode().decode("unicode_escape")))
    case(1, "joins", "join-space", b"0 0\n")
    case(0, "tree", "opaque-long-mark", "path ?s ?%s ?o" % ("n" * 129))
    case(1, "tree", "return-tree-longest", "project ?%s\r/bgp 0" % ("n" * 128))
    case(1, "tree", "return-for-line-end", b"join\rbgp\t0\rbgp\t0\r")
    for kind in KINDS:
        case(1, kind, "line-end-alone-" + kind, b"\n")
        case(1, kind, "return-unended-" + kind, b"\r")
        case(1, kind, "byte-0-alone-" + kind, b"\x00")
        case(0 if kind == "namespaces" else 1, kind, "mark-of-order-" + kind, b"\xef\xbb\xbf" + text("bgp 0"))


# 2. Field by field. A specimen is well formed as the sorts of field it names;
# as an opaque field if it is not empty; as a lexical form always.

VARIABLE = "variable name operand term"
IRI = "name operand term constant cell extra"
LITERAL = "operand term constant cell"
BLANK = "term"
DASH = "cell length none"
TERMS = {
    "empty": (b"", ""), "mark": (b"?", ""), "variable": (b"?q", VARIABLE), "two-marks": (b"??", VARIABLE),
    "byte-0": (b"?\x00", VARIABLE), "byte-13": (b"?\r", VARIABLE), "byte-255": (b"?\xff", VARIABLE),
    "space": (b"? ", VARIABLE), "name-128": (b"?" + b"n" * 128, VARIABLE), "name-129": (b"?" + b"n" * 129, ""),
    "space-first": (b" ?q", ""), "dollar": (b"$q", ""),
    "iri": (b"<k>", IRI), "iri-empty": (b"<>", IRI), "iri-inner": (b"<a>b>", IRI), "iri-odd": (b"<\x00\r\xff>", IRI),
    "iri-open": (b"<k", ""), "less": (b"<", ""), "iri-after": (b"<k>x", ""), "iri-space": (b"<k> ", ""),
    "greater": (b">", ""), "iri-late": (b"k>", ""),
    "literal": (b'"a"', LITERAL), "tagged": (b'"a"@en', LITERAL), "typed": (b'"1"^^<d>', LITERAL),
    "quote": (b'"', LITERAL), "quote-odd": (b'"\x00\r\xff', LITERAL), "quote-late": (b'a"', ""),
    "apostrophe": (b"'a'", ""),
    "blank": (b"_:b", BLANK), "blank-mark": (b"_:", BLANK), "underscore": (b"_", ""), "colon": (b"_b:", ""),
    "dash": (b"-", DASH), "dashes": (b"--", ""), "zero": (b"0", "integer length flag zero parts"), "word": (b"a", ""),
}
NUMBERS = {
    "empty": (b"", ""), "zero": (b"0", "integer length flag zero parts"),
    "one": (b"1", "integer length flag one parts"), "two": (b"2", "integer length"),
    "max": (b"4294967295", "integer length"), "max-below": (b"4294967294", "integer length"),
    "ten-digits": (b"1000000000", "integer length"), "over": (b"4294967296", ""), "over-digit": (b"4294967300", ""),
    "nines": (b"9999999999", ""), "eleven": (b"10000000000", ""), "wrapped": (b"18446744073709551617", ""),
    "huge": (b"1" + b"0" * 60, ""), "leading": (b"01", ""), "zeros": (b"00", ""), "plus": (b"+1", ""),
    "minus": (b"-1", ""), "minus-zero": (b"-0", ""), "space-first": (b" 1", ""), "space-last": (b"1 ", ""),
    "return": (b"1\r", ""), "byte-0": (b"1\x00", ""), "point": (b"1.0", ""), "exponent": (b"1e0", ""),
    "hex": (b"0x1", ""), "letter": (b"1a", ""), "joined": (b"1_0", ""), "arabic": (b"\xd9\xa1", ""),
    "colon": (b":", ""), "slash": (b"/", ""), "true": (b"true", ""), "false": (b"false", ""),
    "dash": (b"-", DASH), "dashes": (b"--", ""), "variable": (b"?q", VARIABLE), "iri": (b"<k>", IRI),
    "quote": (b'"', LITERAL),
}
# In each kind of text the first field of a sort takes all specimens, the others these.
USUAL = ("empty mark variable name-128 name-129 iri iri-open less quote blank dash zero one two max over leading "
         "minus true").split()

BINARY = "or and eq same gt ge lt le add sub mul div".split()
# The line under test is starred; after it the sort of each of its fields. In
# these texts a count can only be the one given: one, or zero; parts is either.
FRAMES = [
    ("tree", "*bgp 1/t ?s <p> ?o", "one"),
    ("tree", "bgp 1/*t ?s <p> ?o", "term name term"),
    ("tree", "*path ?s <p>* ?o", "term opaque term"),
    ("tree", "*join/bgp 0/bgp 0", ""),
    ("tree", "*union/bgp 0/bgp 0", ""),
    ("tree", "*minus/bgp 0/bgp 0", ""),
    ("tree", "*leftjoin 1/bgp 0/bgp 0/bound ?v", "one"),
    ("tree", "*leftjoin 0/bgp 0/bgp 0", "zero"),
    ("tree", "*filter/bgp 0/bound ?v", ""),
    ("tree", "*graph ?g/bgp 0", "name"),
    ("tree", "*extend ?v/bgp 0/term <k>", "variable"),
    ("tree", "*values 1 1/cols ?a/row <k>", "one one"),
    ("tree", "values 2 1/*cols ?a ?b/row <k> -", "variable variable"),
    ("tree", "values 2 2/cols ?a ?b/*row <k> -/row - -", "cell cell"),
    ("tree", "*orderby 1/bgp 0/asc/bound ?v", "one"),
    ("tree", "orderby 1/bgp 0/*asc/bound ?v", ""),
    ("tree", "orderby 2/bgp 0/asc/bound ?v/*desc/bound ?v", ""),
    ("tree", "*project ?a ?b/bgp 0", "variable variable"),
    ("tree", "*distinct/bgp 0", ""),
    ("tree", "*reduced/bgp 0", ""),
    ("tree", "*slice 1 1/bgp 0", "integer length"),
    ("tree", "*group 1 1/cols ?a/bgp 0/agg ?v count 0/bound ?v", "one one"),
    ("tree", "group 2 0/*cols ?a ?b/bgp 0", "variable variable"),
    ("tree", "group 0 2/cols/bgp 0/*agg ?v count 0/bound ?v/aggall ?w 1", "variable opaque flag"),
    ("tree", "group 0 2/cols/bgp 0/*aggall ?v 0/aggall ?w 1", "variable flag"),
    ("tree", "*service <s> 0/bgp 0", "name flag"),
    ("tree", "filter/bgp 0/*term ?x", "operand"),
    ("tree", "filter/bgp 0/*bound ?x", "variable"),
    *[("tree", "filter/bgp 0/*%s/bound ?x/term <k>" % word, "") for word in BINARY],
    ("tree", "filter/bgp 0/*in 1/bound ?x/term <k>", "one"),
    ("tree", "filter/bgp 0/*in 0/bound ?x", "zero"),
    *[("tree", "filter/bgp 0/*%s/bound ?x" % word, "") for word in "plus neg not".split()],
    ("tree", "filter/bgp 0/*exists/bgp 0", ""),
    ("tree", "filter/bgp 0/*if/bound ?x/bound ?y/bound ?z", ""),
    ("tree", "filter/bgp 0/*coalesce 1/bound ?x", "one"),
    ("tree", "filter/bgp 0/*call f 1/bound ?x", "opaque one"),
    ("query", "*query select - -/bgp 0", "kind opaque opaque"),
    ("joins", "*1 0", "integer integer"),
    ("constants", "*1 <k>", "integer constant"),
    ("mapping", "*?a ?b", "variable variable"),
    ("bindings", "*set 1 1/at 0/row Iri k -", "one one"),
    ("bindings", "set 2 0/*at 0 1/set 0 0/at", "integer integer"),
    ("bindings", "set 1 2/at 0/*row Iri k -/row Null  -", "domain lexical none"),
    ("bindings", "set 2 1/at 0 1/*row Iri k - Int 1 <d>", "domain lexical none domain lexical extra"),
    ("filters", "*leaf Iri k -", "domain lexical none"),
    ("filters", "un f/*leaf Int 1 <d>", "domain lexical extra"),
    ("filters", "bin f/*ref 0/ref 1", "integer"),
    ("filters", "*un f/ref 0", "opaque"),
    ("filters", "*bin f/ref 0/ref 1", "opaque"),
    ("filters", "*tern f/ref 0/ref 1/ref 2", "opaque"),
    ("filters", "*nary f 1/ref 0", "opaque parts"),
]


def fields():
    met = set()
    for kind, frame, sorts in FRAMES:
        before, line, after = re.fullmatch(r"(.*/)?\*([^/]*)(/.*)?", frame).groups("")
        good = [f.encode() for f in line.split(" ")]
        worded = kind not in ("joins", "constants", "mapping")
        start = (kind + "-" if kind != "tree" else "") + (good[0].decode() + "-" if worded else "")
        start += "second-" if start + "good" in LABELS else ""

        def put(expect, label, new):
            case(expect, kind, start + label, text(before[:-1]) + b"\t".join(new) + b"\n" + text(after[1:]))

        put(0, "good", good)
        free = good[0] == b"project"  # may have any number of columns
        for i, sort in enumerate(sorts.split(), 1 if worded else 0):
            put(0 if free else 1, "%d-missing" % i, good[:i] + good[i + 1:])
            numeric = sort in ("one", "zero", "parts", "integer", "length", "flag")
            usual = USUAL if sort not in ("lexical", "opaque") else ("empty", "mark", "dash")
            for label, (field, well_as) in (NUMBERS if numeric else TERMS).items():
                well = sort in well_as.split() or sort == "lexical" or sort == "opaque" and field != b""
                if label in usual or (kind, sort) not in met:
                    put(0 if well else 1, "%d-%s" % (i, label), good[:i] + [field] + good[i + 1:])
            met.add((kind, sort))
        put(1, "more", good + [b"x"])
        put(0 if free else 1, "more-variable", good + [b"?q"])
        put(1, "more-empty", good + [b""])
        put(1, "tab-first", [b""] + good)
        put(1, "line-empty", [])
        if sorts:
            put(1, "space-for-tab", [good[0] + b" " + good[1]] + good[2:])
        if worded:
            word = good[0]
            for label, other in [("upper", word.upper()), ("cut", word[:-1]), ("longer", word + b"x"),
                                 ("space", word + b" "), ("unknown", b"foo")]:
                put(1, "word-" + label, [other] + good[1:])
            if len(word) > 1:
                put(1, "word-capital", [word.capitalize()] + good[1:])


# 3. Each form in each place: well formed exactly if the form is of the place.

FORMS = {
    "pattern": [
        "bgp 0", "bgp 2/t ?s <p> ?o/t _:b ?p \"a\"", "path _:b ?text \"o\"", "join/bgp 0/bgp 0", "union/bgp 0/bgp 0",
        "minus/bgp 0/bgp 0", "leftjoin 0/bgp 0/bgp 0", "leftjoin 1/bgp 0/bgp 0/bound ?v", "filter/bgp 0/bound ?v",
        "graph <g>/bgp 0", "graph ?g/bgp 0", "extend ?v/bgp 0/bound ?v", "values 0 0/cols", "values 0 2/cols/row/row",
        "values 2 2/cols ?a ?b/row - \"a\"/row <k> -", "orderby 0/bgp 0",
        "orderby 2/bgp 0/asc/bound ?v/desc/term ?v", "project/bgp 0", "project ?a ?b/bgp 0", "distinct/bgp 0",
        "reduced/bgp 0", "slice 0 -/bgp 0", "slice 4294967295 4294967295/bgp 0", "group 0 0/cols/bgp 0",
        "group 2 2/cols ?a ?b/bgp 0/agg ?c ?count 1/bound ?a/aggall ?d 0", "service <s> 0/bgp 0", "service ?s 1/bgp 0"],
    "expression": [
        "term ?x", "term <k>", "term \"a\"@en", "bound ?v", *["%s/bound ?x/bound ?y" % word for word in BINARY],
        "in 0/bound ?x", "in 2/bound ?x/term <k>/term <l>", "plus/bound ?x", "neg/bound ?x", "not/bound ?x",
        "exists/bgp 0", "if/bound ?x/term <k>/term <l>", "coalesce 0", "coalesce 2/bound ?x/bound ?y", "call f 0",
        "call ?f 2/bound ?x/bound ?y"],
    "condition": ["asc/bound ?v", "desc/term <k>"],
    "aggregate": ["agg ?v count 0/bound ?x", "aggall ?v 1"],
    "triple": ["t ?s <p> ?o"],
    "columns": ["cols ?a"],
    "row": ["row <k>", "row -"],
    "head": ["query select - -", "query ask ?d <b>", "query construct - -", "query describe - -"],
    "join": ["1 0"],
    "constant": ["1 <k>"],
    "renaming": ["?a ?b"],
    "set": ["set 0 0/at", "set 0 2/at/row/row", "set 2 1/at 1 0/row Iri k - Null  -"],
    "positions": ["at 0"],
    "values": ["row Iri k -", "row LanguageTaggedString a en"],
    "part": [
        "leaf Iri k -", "leaf Boolean true <b>", "ref 4294967295", "un f/ref 0", "bin f/ref 0/ref 1",
        "tern f/ref 0/ref 1/ref 2", "nary f 0", "nary f 2/ref 0/ref 1", "un Datatype/ref 0", "un LanguageTag/ref 0",
        "bin Equals/ref 0/ref 1", "bin Unequals/ref 0/ref 1"],
    "nothing": "foo -- ?a 0 t cols row at set query leaf term - asc agg bgp".split(),
}
PLACES = [
    ("root", "tree", "pattern", "@"),
    ("below-query", "query", "pattern", "query ask - -/@"),
    ("below-project", "tree", "pattern", "project ?a/@"),
    ("join-right", "tree", "pattern", "join/bgp 0/@"),
    ("below-exists", "tree", "pattern", "filter/bgp 0/exists/@"),
    ("group-inner", "tree", "pattern", "group 0 1/cols/@/aggall ?v 0"),
    ("orderby-inner", "tree", "pattern", "orderby 1/@/asc/bound ?v"),
    ("leftjoin-right", "tree", "pattern", "leftjoin 1/bgp 0/@/bound ?v"),
    ("filter-expr", "tree", "expression", "filter/bgp 0/@"),
    ("extend-expr", "tree", "expression", "extend ?v/bgp 0/@"),
    ("leftjoin-expr", "tree", "expression", "leftjoin 1/bgp 0/bgp 0/@"),
    ("asc-expr", "tree", "expression", "orderby 1/bgp 0/asc/@"),
    ("agg-expr", "tree", "expression", "group 0 1/cols/bgp 0/agg ?v sum 0/@"),
    ("in-last", "tree", "expression", "filter/bgp 0/in 1/bound ?x/@"),
    ("if-first", "tree", "expression", "filter/bgp 0/if/@/bound ?x/bound ?x"),
    ("triple", "tree", "triple", "bgp 2/@/t ?a ?a ?a"),
    ("values-cols", "tree", "columns", "values 1 0/@"),
    ("group-cols", "tree", "columns", "group 1 0/@/bgp 0"),
    ("values-row", "tree", "row", "values 1 1/cols ?a/@"),
    ("condition", "tree", "condition", "orderby 1/bgp 0/@"),
    ("aggregate", "tree", "aggregate", "group 0 1/cols/bgp 0/@"),
    ("head", "query", "head", "@/bgp 0"),
    ("join", "joins", "join", "0 0/@"),
    ("constant", "constants", "constant", "0 <k>/@"),
    ("renaming", "mapping", "renaming", "?c ?d/@"),
    ("set", "bindings", "set", "@/set 0 0/at"),
    ("positions", "bindings", "positions", "set 1 0/@"),
    ("values", "bindings", "values", "set 1 1/at 0/@"),
    ("filter", "filters", "part", "@/ref 0"),
    ("part", "filters", "part", "un f/@"),
]


def places():
    for place, kind, wanted, frame in PLACES:
        for family, forms in FORMS.items():
            if place not in ("root", "filter-expr", "filter"):
                forms = forms[:5 if family == wanted else 3 if family == "nothing" else 1]
            for i, form in enumerate(forms):
                case(0 if family == wanted else 1, kind, "at-%s-%s-%d" % (place, family, i), frame.replace("@", form))


def cut_and_left_over():
    """Every start of a form lacks lines, but a query's head; what follows a whole one is left over, or the next entry."""
    for kind, family, frame in [("tree", "pattern", "@"), ("tree", "expression", "filter/bgp 0/@"),
                                ("query", "pattern", "query select - -/@"), ("bindings", "set", "@"),
                                ("filters", "part", "@")]:
        listed = kind in ("bindings", "filters")
        for i, form in enumerate(FORMS[family][:3 if kind == "query" else None]):
            whole = frame.replace("@", form)
            label = "%s-%s-%d" % (kind, family, i)
            lines = whole.split("/")
            for n in range(1, len(lines)):
                alone = kind == "query" and n == 1
                case(0 if alone else 1, kind, "cut-%s-%d" % (label, n), "/".join(lines[:n]))
            case(1, kind, "unended-" + label, text(whole)[:-1])
            case(1, kind, "over-%s-empty" % label, whole + "/")
            case(1, kind, "over-%s-bgp" % label, whole + "/bgp 0")
            case(0 if listed else 1, kind, "over-%s-again" % label, whole + "/" + form)
            if i < 3:
                case(1, kind, "over-%s-unended" % label, text(whole) + b"x")
                case(1, kind, "over-%s-tab" % label, whole + "/ ")
    for kind, one, two in [("joins", "1 0", "2 0"), ("constants", "1 <k>", "2 <k>"), ("mapping", "?a ?b", "?c ?b")]:
        case(1, kind, "unended-" + kind, text(one)[:-1])
        case(1, kind, "unended-second-" + kind, text(one) + text(two)[:-1])
        case(1, kind, "over-%s-empty" % kind, one + "/")
        case(1, kind, "over-%s-between" % kind, one + "//" + two)
        case(1, kind, "empty-first-" + kind, "/" + one)


# 4. Values: each domain with each extra, tags, lexical forms.

TAGGED = ["LanguageTaggedString"]
DASHED = ["PlainString", "Iri", "Null", "Tuple", "Map"]
TYPED = ["Float", "Double", "UnsignedLong", "NonNegativeLong", "UnsignedInt", "NonNegativeInt", "Long", "Int",
         "Boolean", "Other"]
XSD = "<http://www.w3.org/2001/XMLSchema#"
RDF = "<http://www.w3.org/1999/02/22-rdf-syntax-ns#"
EXTRAS = [  # label, extra, and the domains that take it
    ("dash", "-", DASHED), ("tag", "en", TAGGED), ("iri", "<d>", TYPED), ("xsd-string", XSD + "string>", []),
    ("lang-string", RDF + "langString>", []), ("empty", "", []), ("iri-empty", "<>", TYPED),
    ("xsd-int", XSD + "int>", TYPED), ("iri-open", "<d", []), ("less", "<", []), ("bare", "d", []),
    ("variable", "?d", []), ("blank", "_:b", []), ("literal", '"d"', []), ("tag-upper", "EN", []),
    ("dashes", "--", []), ("zero", "0", []),
]
NEAR = [  # datatypes that come near the two that are malformed, and are not they
    ("xsd-strin", XSD + "strin>"), ("xsd-strings", XSD + "strings>"), ("xsd-upper", XSD + "String>"),
    ("xsd-https", XSD.replace("http", "https") + "string>"), ("xsd-other", XSD.replace("2001", "2000") + "string>"),
    ("xsd-space", XSD + "string >"), ("lang-lower", RDF + "langstring>"), ("lang-longer", RDF + "langStrings>"),
    ("lang-of-xsd", XSD + "langString>"), ("string-of-rdf", RDF + "string>"), ("string-inner", XSD + "string>>"),
    ("string-first", "<" + XSD + "string>"),
]
TAGS = {
    0: ["en", "de", "aa", "zz", "deu", "zzz", "en-us", "zho-cn", "aaa-zz", "zz-aa"],
    1: ["", "e", "abcd", "EN", "En", "eN", "en-US", "en-Us", "en_us", "en-u", "en-usa", "en-", "en--us", "-us", "-",
        "en-us-", "en-us-x", "en-us-xx", "abcd-us", "e-us", "e1", "1n", "en-u1", "en-12", "en.us", "@en", "en ", " en",
        "en\r", "en\x00", "\xe4n", "e\xff", "{n", "`n", "en-`a", "en-{a", "<en>", "?en", "\"en\"", "und-latn"],
}
NO_DOMAINS = {"integer": "Integer", "string": "String", "anyuri": "AnyUri", "iri": "IRI", "langstring": "Langstring",
              "empty": "", "dash": "-", "any": "Any", "return": "Null\r", "date": "Date", "prefixed": "xsd:int"}
LEXICAL = ["", "-", "?x", "?", "<", "<k>", "\"", "\\\"", "_:b", " ", "\x00", "\r", "\xff\xfe", "true", "a b", "row",
           "^^<d>"]


def values():
    def leaf(expect, label, *fields):
        case(expect, "filters", "leaf-" + label, "\t".join(("leaf",) + fields).encode("latin-1") + b"\n")

    def both(expect, label, *fields):
        leaf(expect, label, *fields)
        row = "\t".join(("row", "Null", "", "-") + fields).encode("latin-1") + b"\n"
        case(expect, "bindings", "value-" + label, text("set 2 1/at 0 1") + row)

    for domain in TAGGED + DASHED + TYPED:
        low = domain.lower()
        for i, (label, extra, takes) in enumerate(EXTRAS):
            (both if i < 6 else leaf)(0 if domain in takes else 1, low + "-" + label, domain, "1", extra)
        good = "en" if domain in TAGGED else "-" if domain in DASHED else "<d>"
        both(0, low + "-no-lexical", domain, "", good)
        for label, other in [("lower", low), ("upper", domain.upper()), ("cut", domain[:-1]), ("longer", domain + "s")]:
            leaf(1, "domain-%s-%s" % (low, label), other, "1", good)
    for label, extra in NEAR:
        both(0, "type-" + label, "Other", "1", extra)
        leaf(1, "type-dashed-" + label, "PlainString", "1", extra)
    both(1, "type-no-brackets", "Other", "1", "http://www.w3.org/2001/XMLSchema#int")
    for expect, tags in TAGS.items():
        for i, tag in enumerate(tags):
            both(expect, "tag-%s-%d" % (["good", "bad"][expect], i), "LanguageTaggedString", "a", tag)
    for label, domain in NO_DOMAINS.items():
        leaf(1, "no-domain-" + label, domain, "1", "-")
        leaf(1, "no-domain-typed-" + label, domain, "1", "<d>")
    for i, lexical in enumerate(LEXICAL):
        both(0, "lexical-%d" % i, "PlainString", lexical, "-")
        leaf(0, "lexical-typed-%d" % i, "Boolean", lexical, "<d>")


# 5. Random texts, each whole and damaged.

def random_cases():
    rng = random.Random(20240117)
    shares = {"tree": 160, "query": 40, "joins": 10, "constants": 15, "mapping": 15, "bindings": 30, "filters": 30, "namespaces": 15}
    for kind, share in shares.items():
        for i in range(share):
            data = well_formed(kind, rng)
            while len(data) < rng.choice([1, 20, 60, 120]):
                data = well_formed(kind, rng)
            case(0, kind, "random-%s-%d" % (kind, i), data)
            hurt = damaged(data, rng)
            while hurt == data:
                hurt = damaged(data, rng)
            record(kind, "random-%s-%d-damaged" % (kind, i), hurt, number(kind, hurt))


# 6. The examples of the documents.

def documented():
    for label, kind, data, expect in specification.texts():
        case(expect, kind, "documented-" + label, data)


if __name__ == "__main__":
    if len(sys.argv) != 2:
        sys.exit("usage: make_texts.py OUTDIR")
    for section in (small, fields, places, cut_and_left_over, values):
        section()
    bound_texts.add(case)
    written_namespaces.texts(case)
    random_cases()
    documented()
    write(RECORDS, sys.argv[1])
