"""Apache Jena ARQ as an evaluator of trees: makes and runs Arq.java (Debian packages libapache-jena-java and a JDK)."""
import collections, os, subprocess, tempfile, zipfile

JARS = '/usr/share/java/'
NAMES = '''jena-arq jena-base jena-core jena-iri commons-cli commons-codec commons-compress commons-csv commons-io commons-lang3 dexx
gson guava httpclient httpcore jackson-core jackson-databind jackson-annotations jsonld-java jakarta.json-api protobuf thrift
titanium-json-ld slf4j-api slf4j-nop'''.split()


def expression(e):
    k = e[0]
    if k == 'bound': return f'(bound {e[1]})'
    if k == 'same': return f'(sameTerm {e[1]} {e[2]})'
    if k == 'not': return f'(! {expression(e[1])})'
    return f"({'&&' if k == 'and' else '||'} {expression(e[1])} {expression(e[2])})"


def algebra(p):
    """The tree in ARQ's own algebra syntax: operator by operator, nothing translated."""
    k = p[0]
    if k == 'bgp': return '(bgp' + ''.join(f" (triple {' '.join(t)})" for t in p[1]) + ')'
    if k in ('join', 'union', 'minus'): return f'({k} {algebra(p[1])} {algebra(p[2])})'
    if k == 'leftjoin': return f"(leftjoin {algebra(p[1])} {algebra(p[2])}{'' if p[3] is None else ' ' + expression(p[3])})"
    if k == 'filter': return f'(filter {expression(p[2])} {algebra(p[1])})'
    if k == 'extend': return f'(extend (({p[1]} {p[3]})) {algebra(p[2])})'
    if k == 'values':
        rows = ' '.join('(row ' + ' '.join(f'({c} {x})' for c, x in zip(p[1], xs) if x != '-') + ')' for xs in p[2])
        return f"(table (vars {' '.join(p[1])}) {rows})"
    if k == 'project': return f"(project ({' '.join(p[1])}) {algebra(p[2])})"
    if k == 'distinct': return f'(distinct {algebra(p[1])})'


def answers(cases, variables, engine):
    """For each (triples, tree) the count of each row, or a text that says why there is none."""
    here = os.path.dirname(os.path.abspath(__file__))
    with tempfile.TemporaryDirectory() as room:
        # Debian's jena-core keeps these messages under another name than its classes look for
        with zipfile.ZipFile(JARS + 'jena-core.jar') as jar:
            prefix = 'org/apache/jena/ext/xerces/'
            for name in jar.namelist():
                if name.startswith(prefix) and name.endswith('.properties'):
                    to = os.path.join(room, 'xerces', name[len(prefix):])
                    os.makedirs(os.path.dirname(to), exist_ok=True)
                    open(to, 'wb').write(jar.read(name))
        path = ':'.join([room] + [JARS + n + '.jar' for n in NAMES if os.path.exists(JARS + n + '.jar')])
        subprocess.run(['javac', '-cp', path, '-d', room, os.path.join(here, 'Arq.java')], check=True)
        text = ''.join(' '.join(' '.join(t) + ' .' for t in sorted(g)) + '\n' + algebra(p) + '\n' for g, p in cases)
        run = subprocess.run(['java', '-cp', path, 'Arq', engine] + [v[1:] for v in variables], input=text.encode(), stdout=subprocess.PIPE, check=True)
    lines = iter(run.stdout.decode().split('\n'))
    out = []
    for _ in cases:
        word, rest = next(lines).split(' ', 1)
        out.append(collections.Counter(tuple(next(lines).split('\t')) for _ in range(int(rest))) if word == 'rows' else rest)
    return out
