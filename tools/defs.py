"""The definitions, one by one, with no cleverness: scales, values, raisings, scenes, pairs.

A book is (kind, size, names, rules).  A rule is (head, weight, body).
A head is ('s', statement) or ('b', degree).
A literal is ('plain', s), ('above', s, d) or ('lack', s).
"""
import itertools


class Scale:
    def __init__(self, kind, size):
        self.kind, self.size = kind, size
        self.levels = 2 ** size if kind == 'hours' else size + 1
        self.top = self.levels - 1
        n = self.levels
        # tables of the operations
        self.prod = [[self.product(a, b) for b in range(n)] for a in range(n)]
        self.under = [[self.below(a, b) for b in range(n)] for a in range(n)]
        self.joint = [[self.join(a, b) for b in range(n)] for a in range(n)]
        self.lacks = [self.lack(a) for a in range(n)]

    def below(self, a, b):
        if self.kind == 'hours':
            return a & b == a
        return a <= b

    def join(self, a, b):
        if self.kind == 'hours':
            return a | b
        return max(a, b)

    def product(self, a, b):
        if self.kind == 'hours':
            return a & b
        if self.kind == 'godel':
            return min(a, b)
        return max(0, a + b - self.size)

    def lack(self, a):
        if self.kind == 'hours':
            return self.top & ~a
        return self.size - a


_scales = {}


def scale_of(book):
    key = book[0], book[1]
    if key not in _scales:
        _scales[key] = Scale(*key)
    return _scales[key]


def value(sc, lit, low, up):
    if lit[0] == 'plain':
        return low[lit[1]]
    if lit[0] == 'above':
        return 0 if sc.under[low[lit[1]]][lit[2]] else sc.top
    return sc.lacks[up[lit[1]]]


def rule_yield(sc, rule, low, up):
    y = rule[1]
    for lit in rule[2]:
        y = sc.prod[y][value(sc, lit, low, up)]
    return y


def holds(sc, rule, low, up):
    head = rule[0]
    goal = low[head[1]] if head[0] == 's' else head[1]
    return sc.under[rule_yield(sc, rule, low, up)][goal]


def raising(sc, rules, n, low, up):
    new = [0] * n
    for rule in rules:
        if rule[0][0] == 's':
            s = rule[0][1]
            new[s] = sc.joint[new[s]][rule_yield(sc, rule, low, up)]
    return tuple(new)


def least_model(sc, rules, n, up):
    """The least model under up, and the rounds."""
    low, rounds = (0,) * n, 0
    while True:
        nxt = raising(sc, rules, n, low, up)
        if nxt == low:
            return low, rounds
        low, rounds = nxt, rounds + 1


def settings(sc, n):
    """All settings, in position order."""
    return itertools.product(range(sc.levels), repeat=n)


def position(sc, row):
    p = 0
    for d in row:
        p = p * sc.levels + d
    return p


def scenes(book):
    """Every scene with its rounds, in position order."""
    sc, n, rules = scale_of(book), len(book[2]), book[3]
    heads = [r for r in rules if r[0][0] == 's']
    bounds = [r for r in rules if r[0][0] == 'b']
    found = []
    for up in settings(sc, n):
        low, rounds = least_model(sc, heads, n, up)
        if low == up and all(holds(sc, r, up, up) for r in bounds):
            found.append((up, rounds))
    return found


def scene_set(sc, n, rules):
    book = sc.kind, sc.size, [''] * n, rules
    return [up for up, _ in scenes(book)]


def lower_settings(sc, up):
    """All settings below up."""
    return itertools.product(*[[d for d in range(sc.levels) if sc.under[d][u]] for u in up])


def differing_pair(one, two):
    """The first pair (L, U) that one book has and the other has not, or None."""
    sc, n = scale_of(one), len(one[2])
    heads = [[r for r in b[3] if r[0][0] == 's'] for b in (one, two)]
    for up in settings(sc, n):
        ok1 = all(holds(sc, r, up, up) for r in one[3])
        ok2 = all(holds(sc, r, up, up) for r in two[3])
        if ok1 != ok2:
            return up, up
        if not ok1:
            continue
        for low in lower_settings(sc, up):
            if (all(holds(sc, r, low, up) for r in heads[0])
                    != all(holds(sc, r, low, up) for r in heads[1])):
                return low, up
    return None


def literal_text(names, lit):
    if lit[0] == 'plain':
        return names[lit[1]]
    if lit[0] == 'above':
        return '%s > %d' % (names[lit[1]], lit[2])
    return '~' + names[lit[1]]


def rule_text(names, rule):
    head, w, body = rule
    line = 'rule %d %s' % (w, names[head[1]]) if head[0] == 's' else 'bound %d %d' % (head[1], w)
    if body:
        line += ' : ' + ', '.join(literal_text(names, x) for x in body)
    return line


def book_text(book):
    kind, size, names, rules = book
    lines = ['scale %s %d' % (kind, size)]
    lines += ['name ' + x for x in names]
    lines += [rule_text(names, r) for r in rules]
    return '\n'.join(lines) + '\n'
