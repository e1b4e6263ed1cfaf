"""Random select queries, most of them of kinds that an edition of SPARQL can say."""

VARIABLES = ['?a', '?b', '?c', '?v_1', '?2']
IRIS = ['<u:p>', '<u:q>', '<http://grid.example/bay#4>', '<u:\u00fc>']
LITERALS = ['"x"', '"a b"@en', '"1"^^<u:t>', '"\\"\\\\n"', '"\u20ac { }"@de-AT', '""']


class Queries:
    """Random select queries; `odd` is how likely a line is of a kind, or has a field, that is refused."""

    def __init__(self, rng, eleven, odd):
        self.rng, self.eleven, self.odd = rng, eleven, odd

    def strange(self):
        return self.rng.random() < self.odd

    def variable(self):
        return '?x.y' if self.strange() else self.rng.choice(VARIABLES)

    def iri(self):
        return '<a b>' if self.strange() else self.rng.choice(IRIS)

    def literal(self):
        return self.rng.choice(['"\\u0041"', '"x"@e-', '"x"^^<a>b>']) if self.strange() else self.rng.choice(LITERALS)

    def term(self):
        return self.rng.choice([self.variable, self.variable, self.iri, self.literal])()

    def node(self):
        return '_:b' if self.strange() else self.term()

    def columns(self, least):
        return self.rng.sample(VARIABLES, self.rng.randint(least, 3))

    def bgp(self, depth):
        count = self.rng.choice([0, 1, 1, 2, 3])
        lines = [['t', self.node(), self.rng.choice([self.variable, self.iri])(), self.node()] for _ in range(count)]
        return [['bgp', str(count)], *lines]

    def expression(self, depth):
        kinds = ['term', 'term', 'bound'] + (['or', 'and', 'eq', 'same', 'not'] if depth else [])
        if depth and (self.eleven or self.strange()): kinds += ['exists']
        if depth and self.strange(): kinds = ['gt', 'neg', 'call']
        kind = self.rng.choice(kinds)
        if kind == 'term': return [['term', self.term()]]
        if kind == 'bound': return [['bound', self.variable()]]
        if kind == 'exists': return [['exists'], *self.pattern(depth - 1)]
        if kind == 'call': return [['call', 'STR', '1'], *self.expression(depth - 1)]
        count = 1 if kind in ('not', 'neg') else 2
        return [[kind], *sum((self.expression(depth - 1) for _ in range(count)), [])]

    def values(self):
        columns = self.columns(0)
        if self.strange(): columns += columns
        rows = [['row', *(self.rng.choice(['-', self.iri(), self.literal()]) for _ in columns)] for _ in range(self.rng.choice([0, 1, 2]))]
        return [['values', str(len(columns)), str(len(rows))], ['cols', *columns], *rows]

    def extend(self, depth):
        inner = self.pattern(depth - 1)
        there = {field for line in inner for field in line[1:]}
        free = [v for v in VARIABLES + ['?w', '?z'] if v not in there]
        return [['extend', self.variable() if self.strange() or not free else self.rng.choice(free)], *inner, *self.expression(depth - 1)]

    def pattern(self, depth):
        if not depth: return self.bgp(0)
        kinds = ['bgp', 'join', 'join', 'leftjoin', 'filter', 'union', 'graph']
        if self.eleven or self.strange(): kinds += ['minus', 'extend', 'values', 'stack']
        if self.strange(): kinds = ['path', 'group', 'service', 'distinct', 'orderby']
        kind = self.rng.choice(kinds)
        below = lambda: self.pattern(depth - 1)
        if kind in ('bgp', 'values'): return self.bgp(0) if kind == 'bgp' else self.values()
        if kind == 'extend': return self.extend(depth)
        if kind == 'stack': return self.stack(depth)
        if kind == 'leftjoin':
            flag = self.rng.choice('01')
            return [['leftjoin', flag], *below(), *below(), *(self.expression(depth - 1) if flag == '1' else [])]
        if kind == 'filter': return [['filter'], *below(), *self.expression(depth - 1)]
        if kind == 'graph': return [['graph', self.rng.choice([self.variable, self.iri])()], *below()]
        if kind == 'path': return [['path', '?a', '<u:p>*', '?b']]
        if kind == 'group': return [['group', '1', '0'], ['cols', '?a'], *below()]
        if kind == 'service': return [['service', '<u:s>', '0'], *below()]
        if kind == 'distinct': return [['distinct'], *below()]
        if kind == 'orderby': return [['orderby', '1'], *below(), ['asc'], ['term', '?a']]
        return [[kind], *below(), *below()]

    def stack(self, depth):
        """slice over distinct or reduced over project over orderby; with what is strange, another stacking."""
        lines = []
        if self.rng.random() < 0.4: lines += [['slice', str(self.rng.randrange(3)), self.rng.choice(['-', '0', '7'])]]
        if self.rng.random() < 0.5: lines += [[self.rng.choice(['distinct', 'reduced'])]]
        lines += [['project', *self.columns(0 if self.strange() else 1)]]
        inner = self.pattern(depth - 1) if depth else self.bgp(0)
        if self.rng.random() < 0.4:
            count = self.rng.choice([0, 1, 2]) if self.strange() else self.rng.choice([1, 2])
            lines += [['orderby', str(count)]]
            inner += sum(([[self.rng.choice(['asc', 'desc'])], *self.expression(1)] for _ in range(count)), [])
        if self.strange(): self.rng.shuffle(lines)
        return lines + inner

    def query(self):
        head = ['query', 'ask' if self.strange() else 'select', '-', '<b>' if self.strange() else '-']
        return ''.join('\t'.join(line) + '\n' for line in [head, *self.stack(self.rng.randint(0, 5))]).encode()
