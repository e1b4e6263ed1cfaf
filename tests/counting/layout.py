"""Trees of the counting part, as semantics.py has them, in the layout, and back."""


def line(*fields):
    return '\t'.join(fields) + '\n'


def expression_text(e):
    k = e[0]
    if k == 'bound': return line('bound', e[1])
    if k == 'same': return line('same') + line('term', e[1]) + line('term', e[2])
    return line(k) + ''.join(expression_text(part) for part in e[1:])


def text(p):
    k = p[0]
    if k == 'bgp': return line('bgp', str(len(p[1]))) + ''.join(line('t', *t) for t in p[1])
    if k in ('join', 'union', 'minus'): return line(k) + text(p[1]) + text(p[2])
    if k == 'leftjoin':
        return line(k, '0' if p[3] is None else '1') + text(p[1]) + text(p[2]) + ('' if p[3] is None else expression_text(p[3]))
    if k == 'filter': return line(k) + text(p[1]) + expression_text(p[2])
    if k == 'extend': return line(k, p[1]) + text(p[2]) + line('term', p[3])
    if k == 'values':
        return line(k, str(len(p[1])), str(len(p[2]))) + line('cols', *p[1]) + ''.join(line('row', *xs) for xs in p[2])
    if k == 'project': return line(k, *p[1]) + text(p[2])
    if k == 'distinct': return line(k) + text(p[1])


class Reader:
    """Reads a well-formed text of the counting part."""

    def __init__(self, written):
        self.lines = iter(written.split('\n')[:-1])

    def fields(self):
        return next(self.lines).split('\t')

    def term(self):
        word, term = self.fields()
        assert word == 'term', word
        return term

    def expression(self):
        k, *rest = self.fields()
        if k == 'bound': return k, rest[0]
        if k == 'same': return k, self.term(), self.term()
        if k == 'not': return k, self.expression()
        assert k in ('and', 'or'), k
        return k, self.expression(), self.expression()

    def pattern(self):
        k, *rest = self.fields()
        if k == 'bgp': return k, [tuple(self.fields()[1:]) for _ in range(int(rest[0]))]
        if k in ('join', 'union', 'minus'): return k, self.pattern(), self.pattern()
        if k == 'leftjoin': return k, self.pattern(), self.pattern(), self.expression() if rest[0] == '1' else None
        if k == 'filter': return k, self.pattern(), self.expression()
        if k == 'extend': return k, rest[0], self.pattern(), self.term()
        if k == 'values':
            cols = self.fields()[1:]
            return k, cols, [self.fields()[1:] for _ in range(int(rest[1]))]
        if k == 'project': return k, rest, self.pattern()
        assert k == 'distinct', k
        return k, self.pattern()


def tree(written):
    reader = Reader(written)
    found = reader.pattern()
    assert next(reader.lines, None) is None, 'left over'
    return found
