"""Queries and their texts for editions of SPARQL, or their numbers, written by hand. A text has a space behind each token, the last one too."""
from written_texts import refused

HEAD = "query select - -"
SPOKEN = (11, "sparql_1_1"), (10, "sparql_1_0")


def laid(written):
    """The bytes of a query with / for a line end and a space for a tab; `~` stands for a space and `|` for a slash."""
    return written.replace(" ", "\t").replace("/", "\n").replace("~", " ").replace("|", "/").encode("latin-1") + b"\n"


def says(name, query, eleven, ten=None):
    """A query in both editions: a text, or a number; by 1.0 as by 1.1 if nothing else is said."""
    given = laid(HEAD + "/" + query)
    for number, program in SPOKEN:
        expected = eleven if number == 11 or ten is None else ten
        yield program, name, given, refused(expected) if isinstance(expected, int) else expected.encode("latin-1") + b" "


def condition(expression):
    return "project ?a/filter/bgp 0/" + expression


CHECKED = "SELECT ?a WHERE { { } FILTER ( %s ) }"
TRIPLE = "project ?a/bgp 1/t %s"

WRITTEN = [case for cases in [
    # each kind
    says("bgp", "project ?a/bgp 2/t ?a <p> ?b/t ?b ?q \"x~y\"@en", 'SELECT ?a WHERE { ?a <p> ?b . ?b ?q "x y"@en . }'),
    says("join", "project ?a/join/bgp 1/t ?a <p> ?b/bgp 1/t ?b <p> ?c", "SELECT ?a WHERE { { ?a <p> ?b . } { ?b <p> ?c . } }"),
    says("union", "project ?a/union/bgp 0/union/bgp 0/bgp 0", "SELECT ?a WHERE { { } UNION { { } UNION { } } }"),
    says("leftjoin", "project ?a/leftjoin 0/bgp 0/bgp 1/t ?a <p> ?b", "SELECT ?a WHERE { { } OPTIONAL { { ?a <p> ?b . } } }"),
    says("leftjoin-if", "project ?a/leftjoin 1/bgp 0/bgp 0/term ?a", "SELECT ?a WHERE { { } OPTIONAL { { } FILTER ( ?a ) } }"),
    says("leftjoin-filter", "project ?a/leftjoin 0/bgp 0/filter/bgp 0/term ?a", "SELECT ?a WHERE { { } OPTIONAL { { { } FILTER ( ?a ) } } }"),
    says("filters", "project ?a/filter/filter/bgp 0/term ?a/term ?b", "SELECT ?a WHERE { { { } FILTER ( ?a ) } FILTER ( ?b ) }"),
    says("graph", "project ?a/graph <g>/graph ?g/bgp 0", "SELECT ?a WHERE { GRAPH <g> { GRAPH ?g { } } }"),
    says("minus", "project ?a/minus/bgp 0/bgp 0", "SELECT ?a WHERE { { } MINUS { } }", 12),
    says("extend", "project ?a/extend ?v/bgp 0/term \"k\"", 'SELECT ?a WHERE { { } BIND ( "k" AS ?v ) }', 12),
    says("values", "project ?a/values 2 2/cols ?a ?b/row <x> -/row - \"\"", 'SELECT ?a WHERE { VALUES ( ?a ?b ) { ( <x> UNDEF ) ( UNDEF "" ) } }', 12),
    says("values-none", "project ?a/values 0 1/cols/row", "SELECT ?a WHERE { VALUES ( ) { ( ) } }", 12),
    says("inner", "project ?a/join/project ?b/bgp 0/bgp 0", "SELECT ?a WHERE { { SELECT ?b WHERE { } } { } }", 12),
    says("inner-stack", "project ?a/slice 1 2/reduced/project ?b/orderby 1/bgp 0/asc/term ?b",
         "SELECT ?a WHERE { SELECT REDUCED ?b WHERE { } ORDER BY ASC ( ?b ) OFFSET 1 LIMIT 2 }", 12),
    says("stack", "slice 0 -/distinct/project ?a ?b/orderby 2/bgp 0/asc/term ?a/desc/bound ?b",
         "SELECT DISTINCT ?a ?b WHERE { } ORDER BY ASC ( ?a ) DESC ( BOUND ( ?b ) ) OFFSET 0"),
    says("columns-repeated", "project ?a ?a/bgp 0", "SELECT ?a ?a WHERE { }"),
    says("order-of-inner", "project ?a/orderby 1/project ?b/bgp 0/desc/term ?a", "SELECT ?a WHERE { SELECT ?b WHERE { } } ORDER BY DESC ( ?a )", 12),
    # each expression
    says("operators", condition("or/and/eq/term ?a/term <k>/same/term ?a/term \"x\"/not/bound ?a"),
         CHECKED % '( ( ( ?a = <k> ) && sameTerm ( ?a , "x" ) ) || ( ! BOUND ( ?a ) ) )'),
    says("exists", condition("not/exists/bgp 1/t ?a <p> ?b"), CHECKED % "( ! EXISTS { ?a <p> ?b . } )", 12),
    # what is not said
    *(says("unsaid-" + line.split()[0], "project ?a/" + line, 12) for line in (
        "path ?a <p>* ?b", "group 0 0/cols/bgp 0", "service <s> 0/bgp 0", "distinct/bgp 0", "slice 0 -/bgp 0", "orderby 0/bgp 0",
        "reduced/bgp 0")),
    says("unsaid-orders", "project ?a/orderby 1/orderby 1/bgp 0/asc/term ?a/asc/term ?a", 12),
    *(says("unsaid-" + line.split("/")[0].split()[0], condition(line), 12) for line in (
        "gt/term ?a/term ?a", "add/term ?a/term ?a", "in 1/term ?a/term ?a", "if/term ?a/term ?a/term ?a", "coalesce 0", "call datatype 0", "neg/term ?a")),
    says("root-bgp", "bgp 0", 12), says("root-orderby", "orderby 1/project ?a/bgp 0/asc/term ?a", 12),
    says("distinct-twice", "distinct/reduced/project ?a/bgp 0", 12), says("slice-under-distinct", "distinct/slice 0 1/project ?a/bgp 0", 12),
    says("distinct-over-orderby", "distinct/orderby 1/project ?a/bgp 0/asc/term ?a", 12),
    says("no-columns", "project/bgp 0", 12), says("inner-no-columns", "project ?a/project/bgp 0", 12),
    says("values-repeated", "project ?a/values 2 0/cols ?a ?a", 12), says("values-repeated-bad", "project ?a/values 2 0/cols ?a. ?a.", 12),
    says("blank-subject", TRIPLE % "_:b <p> ?a", 12), says("blank-object", TRIPLE % "?a <p> _:b", 12),
    # an extend of a variable in scope beneath it, and what hides it
    says("scope-triple", "project ?a/extend ?b/bgp 1/t ?a <p> ?b/term ?a", 12), says("scope-graph", "project ?a/extend ?b/graph ?b/bgp 0/term ?a", 12),
    says("scope-service", "project ?a/extend ?\xfc/service ?\xfc 0/bgp 0/term ?a", 12), says("scope-path", "project ?a/extend ?\xfc/path ?x p ?\xfc/term ?a", 12),
    says("scope-group", "project ?a/extend ?\xfc/group 1 1/cols ?x/bgp 0/aggall ?\xfc 0/term ?a", 12),
    says("scope-values", "project ?a/extend ?b/values 1 0/cols ?b/term ?a", 12), says("scope-extend", "project ?a/extend ?b/extend ?b/bgp 0/term ?a/term ?a", 12),
    says("scope-optional", "project ?a/extend ?b/leftjoin 0/bgp 0/bgp 1/t ?a ?b ?a/term ?a", 12),
    says("scope-minus", "project ?a/extend ?b/minus/bgp 0/bgp 1/t ?a <p> ?b/term ?a", "SELECT ?a WHERE { { { } MINUS { ?a <p> ?b . } } BIND ( ?a AS ?b ) }", 12),
    says("scope-filter", "project ?a/extend ?b/filter/bgp 0/bound ?b/term ?b", "SELECT ?a WHERE { { { } FILTER ( BOUND ( ?b ) ) } BIND ( ?b AS ?b ) }", 12),
    says("scope-exists", "project ?a/extend ?b/filter/bgp 0/exists/bgp 1/t ?a <p> ?b/term ?a",
         "SELECT ?a WHERE { { { } FILTER ( EXISTS { ?a <p> ?b . } ) } BIND ( ?a AS ?b ) }", 12),
    says("scope-condition", "project ?a/extend ?b/leftjoin 1/bgp 0/bgp 0/term ?b/term ?a", "SELECT ?a WHERE { { { } OPTIONAL { { } FILTER ( ?b ) } } BIND ( ?a AS ?b ) }", 12),
    says("scope-hidden", "project ?a/extend ?b/project ?a/bgp 1/t ?a <p> ?b/term ?a", "SELECT ?a WHERE { { SELECT ?a WHERE { ?a <p> ?b . } } BIND ( ?a AS ?b ) }", 12),
    # names, IRIs and literals
    *(says("name-%d" % i, "project %s/bgp 0" % name, 13) for i, name in enumerate(("?a-b", "?a.b", "?\xc3\xbc", "?a:b", "?a?"))),
    says("name-fine", "project ?1_A/bgp 0", "SELECT ?1_A WHERE { }"),
    *(says("iri-%d" % i, TRIPLE % "?a %s ?b" % iri, 13) for i, iri in enumerate(
        ("<a~b>", "<a<b>", "<a>b>", "<a\"b>", "<a{b>", "<a}b>", "<a^b>", "<a`b>", "<a\\b>", "<\xff>", "<\xed\xa0\x80>", "<\xc0\xaf>", "<\x01>",
         "<\x80>", "<\xc1\xbf>", "<\xe0\x9f\xbf>", "<\xf0\x8f\xbf\xbf>", "<\xf4\x90\x80\x80>", "<\xf5\x80\x80\x80>", "<\xc2>", "<\xc2\xc0>"))),
    *(says("utf8-%d" % i, TRIPLE % "?a <%s> ?a" % text, "SELECT ?a WHERE { ?a <%s> ?a . }" % text) for i, text in enumerate(
        ("\xc2\x80", "\xdf\xbf", "\xe0\xa0\x80", "\xed\x9f\xbf", "\xee\x80\x80", "\xef\xbf\xbf", "\xf0\x90\x80\x80", "\xf4\x8f\xbf\xbf"))),
    says("iri-fine", TRIPLE % "?a <> <#\xc3\xbc||\xf0\x9f\x98\x80>", "SELECT ?a WHERE { ?a <> <#\xc3\xbc//\xf0\x9f\x98\x80> . }"),
    *(says("literal-%d" % i, condition("term " + literal), 13) for i, literal in enumerate(
        ('"', '"a"b"', '"\\', '"\\"', '"\\x"', '"\\u0041"', '"\\U00000041"', '"\\\\u0041"', '"a"@', '"a"@1', '"a"@en-', '"a"@en_US', '"a"^^', '"a"^<b>', '"a"^^<b~c>',
         '"a"^^xsd:int', '"\r"', '"\xe2\x82"', '"a"@en^^<b>'))),
    says("literal-fine", condition('term "\\t\\b\\n\\r\\f\\"\\\'\\\\~{~}\xe2\x82\xac"@de-AT-1996'), CHECKED % '"\\t\\b\\n\\r\\f\\"\\\'\\\\ { }\xe2\x82\xac"@de-AT-1996'),
    says("literal-datatype", condition('term "1"^^<>'), CHECKED % '"1"^^<>'),
    # the first line that is refused, 12 before 13 on a line
    says("same-line", TRIPLE % "_:b <a~b> ?a.b", 12), says("line-above", "project ?a.b/path ?a p ?b", 13), says("line-below", "project ?a/path ?a p ?b.c", 12),
    says("graph-line", "distinct/graph <a~b>/bgp 0", 12), says("extend-line", "project ?a/extend ?b.c/bgp 1/t ?a <p> ?b.c/term ?a", 12),
    says("extend-name", "project ?a/extend ?b.c/path ?a p ?b/term ?a", 13, 12), says("values-before-cells", "project ?a/values 1 1/cols ?a/row <a~b>", 13, 12),
    says("order-behind", "project ?a/orderby 1/bgp 1/t ?a <a~b> ?a/asc/gt/term ?a/term ?a", 13),
    # the deepest trees
    says("levels", "project ?a/" + "graph <g>/" * 62 + "bgp 0", "SELECT ?a WHERE { " + "GRAPH <g> { " * 62 + "} " * 62 + "}"),
    says("levels-over", "project ?a/" + "graph <g>/" * 63 + "bgp 0", 2),
    says("malformed", "project ?a/bgp 1", 1),
] for case in cases] + [
    (program, name, laid(query), refused(number)) for _, program in SPOKEN for name, query, number in (
        ("ask", "query ask - -/project ?a/bgp 0", 12), ("dataset", "query select d -/project ?a.b/bgp 0", 12), ("base", "query select - <b>/project ?a/bgp 0", 12),
        ("empty-file", "query select - -", 12), ("empty-file-ask", "query ask - -", 12), ("no-head", "project ?a/bgp 0", 1), ("two-texts", "query select - -/--/bgp 0", 1))
] + [(program, "no-query", b"", refused(1)) for _, program in SPOKEN]
