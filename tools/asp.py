"""Scenes by gringo and clasp: a book becomes a ground answer set program.

Chains (luk, godel), K the top: ge(s,d), d = 1..K, says that the degree of s reaches d.
Hours: on(s,i) says that hour i is in the degree of s.
lacking becomes default negation; bounds become integrity constraints; nothing is guessed.
"""
import itertools
import json
import subprocess

DIRECT = 1100  # combinations up to which a body is written out in full


def chain_product(kind, k, a, b):
    return min(a, b) if kind == 'godel' else max(a + b - k, 0)


def reaches(k, lit, e):
    """The condition that a literal's degree reaches e: '' always, None never."""
    if e == 0:
        return ''
    if lit[0] == 'plain':
        return 'ge(%d,%d)' % (lit[1], e)
    if lit[0] == 'lack':
        # K - U(s) >= e exactly when U(s) does not reach K - e + 1
        return 'not ge(%d,%d)' % (lit[1], k - e + 1)
    return 'ge(%d,%d)' % (lit[1], lit[2] + 1) if lit[2] < k else None


def grades(k, lit):
    """The degrees that a literal can take."""
    return (0, k) if lit[0] == 'above' else range(k + 1)


def combined(kind, k, weight, combo):
    y = weight
    for e in combo:
        y = chain_product(kind, k, y, e)
    return y


def needed(kind, k, weight, body, combo, y):
    """Whether no literal could reach less and the yield still be y."""
    for i, lit in enumerate(body):
        less = 0 if lit[0] == 'above' else combo[i] - 1
        if combo[i] > 0 and combined(kind, k, weight, combo[:i] + (less,) + combo[i + 1:]) == y:
            return False
    return True


def clause(head, conds):
    body = ', '.join(c for c in conds if c)
    return '%s :- %s.' % (head, body or '#true')


def chain_rule(kind, k, number, rule, out):
    head, weight, body = rule

    def conclude(y, conds):
        # a yield of at least y: the head reaches y, or the bound is broken
        if head[0] == 's':
            if y > 0:
                out.append(clause('ge(%d,%d)' % (head[1], y), conds))
        elif y > head[1]:
            out.append(clause('', conds))

    size = 1
    for lit in body:
        size *= len(grades(k, lit))
    if size <= DIRECT:
        # every combination of degrees of the literals
        for combo in itertools.product(*[grades(k, x) for x in body]):
            y = combined(kind, k, weight, combo)
            conds = [reaches(k, x, e) for x, e in zip(body, combo)]
            if y > 0 and None not in conds and needed(kind, k, weight, body, combo, y):
                conclude(y, conds)
        return
    # long bodies: part(r,j,e) says that weight and first j literals together reach e
    for e in range(1, weight + 1):
        out.append('part(%d,0,%d).' % (number, e))
    for j, lit in enumerate(body):
        for e1 in range(1, k + 1):
            for e2 in grades(k, lit):
                y = chain_product(kind, k, e1, e2)
                cond = reaches(k, lit, e2)
                if y > 0 and cond is not None and needed(kind, k, k, (('plain', 0), lit), (e1, e2), y):
                    out.append(clause('part(%d,%d,%d)' % (number, j + 1, y),
                                      ['part(%d,%d,%d)' % (number, j, e1), cond]))
    for e in range(1, k + 1):
        conclude(e, ['part(%d,%d,%d)' % (number, len(body), e)])


def hours_rule(m, rule, out):
    head, weight, body = rule
    for i in range(m):
        if not weight >> i & 1:
            continue
        conds = []
        for lit in body:
            if lit[0] == 'plain':
                conds.append('on(%d,%d)' % (lit[1], i))
            elif lit[0] == 'lack':
                conds.append('not on(%d,%d)' % (lit[1], i))
            else:
                conds.append('over(%d,%d)' % (lit[1], lit[2]))
        if head[0] == 's':
            out.append(clause('on(%d,%d)' % (head[1], i), conds))
        elif not head[1] >> i & 1:
            out.append(clause('', conds))


def program(book):
    kind, size, names, rules = book
    out = []
    if kind == 'hours':
        # over(s,d): some hour of s is not in d
        for s, d in sorted({(x[1], x[2]) for r in rules for x in r[2] if x[0] == 'above'}):
            for i in range(size):
                if not d >> i & 1:
                    out.append('over(%d,%d) :- on(%d,%d).' % (s, d, s, i))
        for rule in rules:
            hours_rule(size, rule, out)
        out.append('#show on/2.')
    else:
        # reaching d is reaching d - 1
        for s in range(len(names)):
            for d in range(2, size + 1):
                out.append('ge(%d,%d) :- ge(%d,%d).' % (s, d - 1, s, d))
        for number, rule in enumerate(rules):
            chain_rule(kind, size, number, rule, out)
        out.append('#show ge/2.')
    return '\n'.join(out) + '\n'


def solve(book, most):
    """The scenes by clasp, sorted, or None where there are more than most."""
    kind, size, names, _ = book
    ground = subprocess.run(['gringo', '-Wnone', '-'], input=program(book).encode(),
                            stdout=subprocess.PIPE, check=True).stdout
    run = subprocess.run(['clasp', str(most + 1), '--outf=2', '--quiet=0', '-'],
                         input=ground, stdout=subprocess.PIPE)
    if run.returncode not in (10, 20, 30):
        raise SystemExit('clasp ended with %d' % run.returncode)
    said = json.loads(run.stdout)
    if said['Result'] == 'UNSATISFIABLE':
        return []
    witnesses = said['Call'][0].get('Witnesses', [])
    if len(witnesses) > most:
        return None
    if said['Models']['More'] != 'no':
        raise SystemExit('clasp did not exhaust the answer sets')
    found = set()
    for w in witnesses:
        row = [0] * len(names)
        for atom in w['Value']:
            s, d = map(int, atom[3:-1].split(','))
            row[s] = row[s] | 1 << d if kind == 'hours' else max(row[s], d)
        found.add(tuple(row))
    if len(found) != len(witnesses):
        raise SystemExit('two answer sets for one setting')
    return sorted(found)


def versions():
    return [subprocess.run([t, '--version'], stdout=subprocess.PIPE).stdout.decode().split('\n')[0]
            for t in ('gringo', 'clasp')]
