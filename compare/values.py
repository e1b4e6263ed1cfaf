"""Random values, binding sets and filters for a projection of some width."""

import trees

HUGE = 4294967295
UNTYPED = [b"PlainString", b"Iri", b"Null"]
UNUSABLE = [b"Tuple", b"Map"]
TYPED = [b"Float", b"Double", b"UnsignedLong", b"NonNegativeLong", b"UnsignedInt", b"NonNegativeInt", b"Long", b"Int", b"Boolean", b"Other"]
LEXICAL = [b"", b"a", b"true", b"false", b"1", b"-", b"?x", b"http://example.org/a", b'\\"', b"\\t", b"a b", b"\x00\xff", "é".encode(), b"en"]
TAGS = [b"en", b"de", b"deu", b"en-gb", b"zho-cn"]
DATATYPES = [b"<http://www.w3.org/2001/XMLSchema#%s>" % name for name in b"int boolean double long".split()] + [b"<>", b"<d>", b"<a>b>"]
FUNCTIONS = {
    b"un": [b"Datatype", b"LanguageTag", b"Equals", b"StringLength", b"?x"],
    b"bin": [b"Equals", b"Unequals", b"Datatype", b"NumericLessthan", b"-"],
    b"tern": [b"Equals", b"StringSubstring"],
    b"nary": [b"Equals", b"NumericSum"],
}
PARTS = {b"un": 1, b"bin": 2, b"tern": 3}


def lines(records):
    return b"".join(b"\t".join(fields) + b"\n" for fields in records)


class Values:
    """Makes values, sets and filters from one source of chance."""

    def __init__(self, rng):
        self.rng = rng

    def chance(self, share):
        return self.rng.random() < share

    def value(self, unusable):
        """The three fields of a value, of a domain that can't be used with that chance."""
        lexical = self.rng.choice(LEXICAL)
        if self.chance(unusable):
            return [self.rng.choice(UNUSABLE), lexical, b"-"]
        kind = self.rng.randrange(10)
        if kind < 2:
            return [b"LanguageTaggedString", lexical, self.rng.choice(TAGS)]
        return [self.rng.choice(UNTYPED), lexical, b"-"] if kind < 6 else [self.rng.choice(TYPED), lexical, self.rng.choice(DATATYPES)]

    def position(self, width, outside):
        if width == 0 or self.chance(outside):
            return b"%d" % self.rng.choice([width, width, width + 1, trees.COLUMNS, HUGE])
        return b"%d" % self.rng.randrange(width)

    def binding_set(self, width):
        """One set; in some a position is outside or a value can't be used."""
        columns = self.rng.choice([0, 1, 1, 1, 2, 2, 3, 5]) if width or self.chance(0.1) else 0
        rows = self.rng.choice([0, 1, 1, 2, 3, 8])
        outside, unusable = self.rng.choice([0, 0, 0, 0, 0, 0, 0, 0.2]), self.rng.choice([0, 0, 0, 0, 0, 0, 0, 0.1])
        places = [self.position(width, outside) for _ in range(columns)]
        values = [[field for _ in places for field in self.value(unusable)] for _ in range(rows)]
        return [[b"set", b"%d" % columns, b"%d" % rows], [b"at", *places], *[[b"row", *row] for row in values]]

    def bindings(self, width):
        if width and self.chance(0.02):
            return self.growing(width)
        many = self.rng.choice([0, 1, 1, 1, 2, 2, 3, 5] + [trees.ENTRIES] * self.chance(0.02))
        return within(lines(record for _ in range(many) for record in self.binding_set(width)))

    def growing(self, width):
        """A position many times over: an answer far longer than its texts."""
        many = self.rng.choice([70, 500, 5000, 8000])
        return lines([[b"set", b"%d" % many, b"0"], [b"at", *[self.position(min(width, 10), 0) for _ in range(many)]]])

    def part(self, width, outside, size):
        """A filter, or a part of one."""
        if size <= 0 or self.chance(0.2):
            if self.chance(0.6):
                return [[b"ref", self.position(width, outside)]]
            return [[b"leaf", *self.value(0.05)]]
        word = self.rng.choice([b"un", b"un", b"bin", b"bin", b"bin", b"bin", b"tern", b"nary"])
        usual = word in (b"un", b"bin") and self.chance(0.85)
        name = self.rng.choice(FUNCTIONS[word][:2] if usual else FUNCTIONS[word])
        count = PARTS.get(word, self.rng.randrange(4))
        below = [record for _ in range(count) for record in self.part(width, outside, size - 1 - self.rng.randrange(2))]
        return [[word, name] + [b"%d" % count] * (word == b"nary"), *below]

    def filter(self, width, outside):
        if self.chance(0.1):
            return [[b"leaf", b"Boolean", self.rng.choice([b"true", b"true", b"false", b"1"]), self.rng.choice(DATATYPES)]]
        if self.chance(0.01):
            return [[b"un", b"Datatype"]] * (trees.DEPTH - 1) + [[b"ref", self.position(width, outside)]]
        return self.part(width, outside, self.rng.choice([0, 1, 1, 2, 3, 5]))

    def filters(self, width):
        many = self.rng.choice([0, 1, 1, 1, 2, 2, 3, 5] + [trees.ENTRIES] * self.chance(0.02))
        outside = self.rng.choice([0, 0, 0, 0, 0, 0.1])
        return within(lines(record for _ in range(many) for record in self.filter(width, outside)))


def within(text):
    """The text, or none where it is over the bound of bytes or lines."""
    return text if len(text) <= trees.BYTES and text.count(b"\n") <= trees.LINES else b""
