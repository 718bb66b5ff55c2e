"""Pairs of books, strongly equivalent or not: decided by brute force over all pairs (L, U),
cross-checked by searching for rules that, added to both, set their scenes apart.

usage: python3 tools/pairs.py [SEED] [OUT]
"""
import os
import random
import sys
from collections import Counter

import books
import defs
import reader

HERE = os.path.dirname(os.path.abspath(__file__))
SEARCHED = 64     # settings up to which all addenda of the complete family are tried
GUESSED = 130     # settings up to which addenda are guessed
EQUAL, UNEQUAL = 100, 110
PARTLY = 40       # unequal ones that have the same scenes as they stand


# ---- changes that keep the meaning (None where one does not apply) ----

def twice(rng, sc, rules, n):
    return rules + [rng.choice(rules)]


def reorder(rng, sc, rules, n):
    new = rules[:]
    rng.shuffle(new)
    return [(h, w, tuple(rng.sample(b, len(b)))) for h, w, b in new]


def weaker_weight(rng, sc, rules, n):
    h, w, b = rng.choice(rules)
    less = [d for d in range(sc.levels) if sc.under[d][w]]
    return put(rng, rules, (h, rng.choice(less), b))


def longer_body(rng, sc, rules, n):
    fit = [r for r in rules if len(r[2]) < 4]
    if not fit or n == 0:
        return None
    h, w, b = rng.choice(fit)
    return put(rng, rules, (h, w, b + (books.literal(rng, sc, n),)))


def chained(rng, sc, rules, n):
    """From a rule with b in its body and a rule for b, the rule that leads through both."""
    fits = [(r, i, q) for r in rules for i, x in enumerate(r[2]) if x[0] == 'plain'
            for q in rules if q[0] == ('s', x[1]) and len(r[2]) + len(q[2]) <= 5]
    if not fits:
        return None
    r, i, q = rng.choice(fits)
    return put(rng, rules, (r[0], sc.prod[r[1]][q[1]], r[2][:i] + q[2] + r[2][i + 1:]))


def idle(rng, sc, rules, n):
    """A rule that says nothing: its head is in its body, or its weight is 0, or its bound is no bound."""
    if n == 0:
        return None
    s = rng.randrange(n)
    extra = tuple(books.literal(rng, sc, n) for _ in range(rng.randint(0, 2)))
    return put(rng, rules, rng.choice([
        (('s', s), sc.top, (('plain', s),) + extra),
        (('s', s), 0, extra),
        (('b', sc.top), sc.top, extra),
        (('s', s), sc.top, extra + (('above', s, sc.top),))]))


def split_weight(rng, sc, rules, n):
    """A weight in two parts; on a chain the smaller part is idle."""
    fit = [i for i, r in enumerate(rules) if r[1] > 0]
    if not fit:
        return None
    i = rng.choice(fit)
    h, w, b = rules[i]
    if sc.kind == 'hours':
        part = w & rng.randrange(sc.levels)
        two = [(h, part, b), (h, w & ~part | rng.choice([0, part]), b)]
    else:
        two = [(h, w, b), (h, rng.randrange(w), b)]
    rng.shuffle(two)
    return rules[:i] + two + rules[i + 1:]


def split_plain(rng, sc, rules, n):
    """On a chain, a plain literal becomes one above literal for each degree."""
    if sc.kind == 'hours' or sc.size > 8:
        return None
    fit = [(k, i) for k, r in enumerate(rules) for i, x in enumerate(r[2]) if x[0] == 'plain']
    if not fit:
        return None
    k, i = rng.choice(fit)
    h, w, b = rules[k]
    steps = [(h, sc.prod[w][d + 1], b[:i] + (('above', b[i][1], d),) + b[i + 1:]) for d in range(sc.top)]
    steps = [r for r in steps if r[1] > 0]
    return rules[:k] + steps + rules[k + 1:]


def double_literal(rng, sc, rules, n):
    """Where the product of a degree with itself is that degree, a literal may stand twice."""
    fit = [(k, x) for k, r in enumerate(rules) for x in r[2]
           if len(r[2]) < 4 and (sc.kind != 'luk' or x[0] == 'above' or sc.size == 1)]
    if not fit:
        return None
    k, x = rng.choice(fit)
    h, w, b = rules[k]
    return rules[:k] + [(h, w, b + (x,))] + rules[k + 1:]


def two_aboves(rng, sc, rules, n):
    """Above d needs above e for each e below d."""
    fit = [(k, x) for k, r in enumerate(rules) for x in r[2] if len(r[2]) < 4 and x[0] == 'above']
    if not fit:
        return None
    k, x = rng.choice(fit)
    h, w, b = rules[k]
    e = rng.choice([d for d in range(sc.levels) if sc.under[d][x[2]]])
    return rules[:k] + [(h, w, b + (('above', x[1], e),))] + rules[k + 1:]


def moved_bound(rng, sc, rules, n):
    """On luk and hours, what a bound allows may be taken off the weight instead."""
    if sc.kind == 'godel':
        return None
    fit = [k for k, r in enumerate(rules) if r[0][0] == 'b' and sc.under[r[0][1]][r[1]]]
    if not fit:
        return None
    k = rng.choice(fit)
    (_, c), w, b = rules[k]
    return rules[:k] + [(('b', 0), w - c, b)] + rules[k + 1:]


def bound_through(rng, sc, rules, n):
    """A bound on a statement bounds each rule for it."""
    fits = [(r, i, q) for r in rules if r[0][0] == 'b' for i, x in enumerate(r[2]) if x[0] == 'plain'
            for q in rules if q[0] == ('s', x[1]) and len(r[2]) + len(q[2]) <= 5]
    if not fits:
        return None
    r, i, q = rng.choice(fits)
    return put(rng, rules, (r[0], sc.prod[r[1]][q[1]], r[2][:i] + q[2] + r[2][i + 1:]))


def from_fact(rng, sc, rules, n):
    """With a fact at the top, its literal goes, and rules that lack it go."""
    s = rng.randrange(n)
    fact = (('s', s), sc.top, ())
    one = rules + [fact]
    two = []
    for h, w, b in rules:
        if ('lack', s) in b or h == ('s', s):
            continue
        keep = tuple(x for x in b if not (x == ('plain', s) or x[0] == 'above' and x[1] == s and x[2] < sc.top))
        two.append((h, w, keep))
    return ('both', one, two + [fact])


def from_ban(rng, sc, rules, n):
    """With a bound that holds a statement at 0, rules that need it go, and lacks of it go."""
    s = rng.randrange(n)
    ban = (('b', 0), sc.top, (('plain', s),))
    one = rules + [ban]
    two = []
    for h, w, b in rules:
        if any(x[1] == s and x[0] != 'lack' for x in b):
            continue
        two.append((h, w, tuple(x for x in b if x != ('lack', s))))
    return ('both', one, two + [ban])


def contradiction(rng, sc, rules, n):
    """A rule whose body is 0 wherever L is below U."""
    s = rng.randrange(n)
    h = ('s', rng.randrange(n))
    pair = (('plain', s), ('lack', s)) if sc.kind != 'godel' else (('above', s, sc.top - 1), ('lack', s))
    return put(rng, rules, (h, books.degree(rng, sc), pair + tuple(books.literal(rng, sc, n) for _ in range(rng.randint(0, 2)))))


KEEPING = [twice, reorder, weaker_weight, longer_body, chained, chained, idle, split_weight, split_plain, double_literal,
           two_aboves, moved_bound, bound_through, bound_through, from_fact, from_ban, contradiction]


# ---- near misses ----

def nudge_weight(rng, sc, rules, n):
    k = rng.randrange(len(rules))
    h, w, b = rules[k]
    return change(rules, k, (h, nudged(rng, sc, w), b))


def nudged(rng, sc, d):
    if sc.kind == 'hours':
        return d ^ 1 << rng.randrange(sc.size)
    return min(sc.top, max(0, d + rng.choice([-1, 1])))


def nudge_above(rng, sc, rules, n):
    fit = [(k, i) for k, r in enumerate(rules) for i, x in enumerate(r[2]) if x[0] == 'above']
    if not fit:
        return None
    k, i = rng.choice(fit)
    h, w, b = rules[k]
    return change(rules, k, (h, w, b[:i] + (('above', b[i][1], nudged(rng, sc, b[i][2])),) + b[i + 1:]))


def nudge_bound(rng, sc, rules, n):
    fit = [k for k, r in enumerate(rules) if r[0][0] == 'b']
    if not fit:
        return None
    k = rng.choice(fit)
    (_, c), w, b = rules[k]
    return change(rules, k, (('b', nudged(rng, sc, c)), w, b))


def drop_rule(rng, sc, rules, n):
    k = rng.randrange(len(rules))
    return rules[:k] + rules[k + 1:]


def drop_literal(rng, sc, rules, n):
    fit = [(k, i) for k, r in enumerate(rules) for i in range(len(r[2]))]
    if not fit:
        return None
    k, i = rng.choice(fit)
    h, w, b = rules[k]
    return change(rules, k, (h, w, b[:i] + b[i + 1:]))


def other_literal(rng, sc, rules, n):
    fit = [(k, i) for k, r in enumerate(rules) for i in range(len(r[2]))]
    if not fit:
        return None
    k, i = rng.choice(fit)
    h, w, b = rules[k]
    return change(rules, k, (h, w, b[:i] + (books.literal(rng, sc, n),) + b[i + 1:]))


def unfolded(rng, sc, rules, n):
    """The rule that leads through two others stands in place of the first: right for scenes only."""
    fits = [(k, i, q) for k, r in enumerate(rules) for i, x in enumerate(r[2]) if x[0] == 'plain'
            for q in rules if q[0] == ('s', x[1]) and len(r[2]) + len(q[2]) <= 5]
    if not fits:
        return None
    k, i, q = rng.choice(fits)
    r = rules[k]
    return change(rules, k, (r[0], sc.prod[r[1]][q[1]], r[2][:i] + q[2] + r[2][i + 1:]))


def known_lack(rng, sc, rules, n):
    """A lack of a statement that no rule gives goes: right for scenes only."""
    heads = {r[0][1] for r in rules if r[0][0] == 's'}
    fit = [k for k, r in enumerate(rules) if any(x[0] == 'lack' and x[1] not in heads for x in r[2])]
    if not fit:
        return None
    k = rng.choice(fit)
    h, w, b = rules[k]
    return change(rules, k, (h, w, tuple(x for x in b if not (x[0] == 'lack' and x[1] not in heads))))


def rule_to_bound(rng, sc, rules, n):
    """A rule becomes a bound on its body and the lack of its head, or the other way."""
    fit = [k for k, r in enumerate(rules) if r[0][0] == 's' and len(r[2]) < 4]
    if not fit:
        return None
    k = rng.choice(fit)
    (_, s), w, b = rules[k]
    return change(rules, k, (('b', 0), w, b + (('lack', s),)))


def luk_double(rng, sc, rules, n):
    """A literal twice where that matters."""
    fit = [(k, x) for k, r in enumerate(rules) for x in r[2] if len(r[2]) < 4]
    if not fit:
        return None
    k, x = rng.choice(fit)
    h, w, b = rules[k]
    return change(rules, k, (h, w, b + (x,)))


def at_a_scene(rng, sc, rules, n):
    """A rule is added that no scene breaks, so that the scenes stay but may come apart later."""
    found = defs.scene_set(sc, n, rules)
    for _ in range(30):
        r = books.some_rule(rng, sc, n) if rng.random() < 0.7 else books.bound(rng, sc, n)
        if all(defs.holds(sc, r, u, u) for u in found):
            return put(rng, rules, r)
    return None


MISSING = [nudge_weight, nudge_above, nudge_bound, drop_rule, drop_literal, other_literal, unfolded, unfolded, known_lack,
           known_lack, rule_to_bound, luk_double, at_a_scene, at_a_scene]


def put(rng, rules, rule):
    i = rng.randint(0, len(rules))
    return rules[:i] + [rule] + rules[i:]


def change(rules, k, rule):
    return rules[:k] + [rule] + rules[k + 1:]


# ---- by hand ----

def by_hand():
    """(name, head of the text, first rules, second rules)"""
    two = 'scale luk 1\nname a\nname b\n'
    luk = 'scale luk 4\nname a\nname b\n'
    god = 'scale godel 4\nname a\nname b\n'
    hrs = 'scale hours 2\nname a\nname b\n'
    return [
        ('no_rules', two, '', ''),
        ('idle_rule', two, '', 'rule 1 a : a\n'),
        ('no_statements_same', 'scale luk 3\n', 'bound 0 1\n', 'bound 2 3\n'),
        ('no_statements_other', 'scale luk 3\n', 'bound 1 1\n', 'bound 0 1\n'),
        ('lack_of_nothing', two, 'rule 1 a\n', 'rule 1 a : ~b\n'),
        ('loop_of_two', two, '', 'rule 1 a : b\nrule 1 b : a\n'),
        ('self_lack_is_a_bound', two, 'rule 1 a : ~a\n', 'bound 0 1 : ~a\n'),
        ('self_lack_luk', luk, 'rule 4 a : ~a\n', 'rule 2 a\n'),
        ('fact_through_rule', two, 'rule 1 a\nrule 1 b : a\n', 'rule 1 a\nrule 1 b\n'),
        ('lack_through_rule', two, 'rule 1 a : ~b\nrule 1 b : a\n', 'rule 1 a : ~b\nrule 1 b : ~b\nrule 1 b : a\n'),
        ('both_lacks', two, 'rule 1 a : ~b\nrule 1 b : ~a\n', 'rule 1 a : ~b\nrule 1 b : ~a\nbound 0 1 : ~a, ~b\n'),
        ('choice_and_bound', two, 'rule 1 a : ~b\nrule 1 b : ~a\n', 'rule 1 a : ~b\nrule 1 b : ~a\nbound 0 1 : a, b\n'),
        ('weight_less', luk, 'rule 3 a : b\n', 'rule 3 a : b\nrule 2 a : b\n'),
        ('weight_other', luk, 'rule 3 a : b\n', 'rule 2 a : b\n'),
        ('above_split', luk, 'rule 4 a : b\n', 'rule 1 a : b > 0\nrule 2 a : b > 1\nrule 3 a : b > 2\nrule 4 a : b > 3\n'),
        ('above_split_short', luk, 'rule 4 a : b\n', 'rule 1 a : b > 0\nrule 2 a : b > 1\nrule 4 a : b > 3\n'),
        ('above_split_weight', luk, 'rule 3 a : b\n', 'rule 1 a : b > 1\nrule 2 a : b > 2\nrule 3 a : b > 3\n'),
        ('above_split_godel', god, 'rule 3 a : b\n', 'rule 1 a : b > 0\nrule 2 a : b > 1\nrule 3 a : b > 2\n'),
        ('twice_luk', luk, 'rule 4 a : b\n', 'rule 4 a : b, b\n'),
        ('twice_godel', god, 'rule 4 a : b\n', 'rule 4 a : b, b\n'),
        ('twice_hours', hrs, 'rule 3 a : ~b\n', 'rule 3 a : ~b, ~b\n'),
        ('plain_and_lack_luk', luk, '', 'rule 4 a : b, ~b\n'),
        ('plain_and_lack_godel', god, '', 'rule 4 a : b, ~b\n'),
        ('plain_and_lack_hours', hrs, '', 'rule 3 a : b, ~b\n'),
        ('above_and_lack_hours', hrs, '', 'rule 3 a : b > 0, ~b\n'),
        ('above_never', luk, '', 'rule 4 a : b > 4\n'),
        ('hours_split', hrs, 'rule 3 a : b\n', 'rule 1 a : b\nrule 2 a : b\n'),
        ('hours_split_above', hrs, 'rule 3 a : b\n', 'rule 1 a : b > 2\nrule 2 a : b > 1\n'),
        ('hours_split_above_other', hrs, 'rule 3 a : b\n', 'rule 1 a : b > 1\nrule 2 a : b > 2\n'),
        ('hours_bound_moved', hrs, 'bound 1 3 : a\n', 'bound 0 2 : a\n'),
        ('bound_moved_luk', luk, 'bound 1 4 : a, b\n', 'bound 0 3 : a, b\n'),
        ('bound_moved_godel', god, 'bound 1 4 : a, b\n', 'bound 0 3 : a, b\n'),
        ('bound_as_above_godel', god, 'bound 1 4 : a, b\n', 'bound 0 1 : a > 1, b > 1\n'),
        ('no_model', two, 'bound 0 1\n', 'bound 0 1\nrule 1 a\n'),
        ('no_model_two_ways', luk, 'rule 4 a\nbound 0 4 : a\n', 'bound 0 1\n'),
        ('shifted', two, 'rule 1 a : ~b\nrule 1 b : ~a\nrule 1 a : b\nrule 1 b : a\n', 'rule 1 a\nrule 1 b\n'),
    ]


# ---- the cross-check: addenda, by the definition of scene alone ----

def apart(sc, n, one, two, more):
    """Whether adding more rules sets the scenes apart."""
    return defs.scene_set(sc, n, one + more) != defs.scene_set(sc, n, two + more)


def one_literal_rule(rng, sc, n):
    b = () if rng.random() < 0.4 else (books.literal(rng, sc, n, 0.2, 0.4),)
    return ('s', rng.randrange(n)), books.degree(rng, sc), b


def guess(rng, sc, n, one, two, tries):
    """A distinguishing addendum by chance: facts and rules of one literal."""
    if apart(sc, n, one, two, []):
        return []
    for i in range(tries if n else 0):
        more = [one_literal_rule(rng, sc, n) for _ in range(1 + i % 6)]
        if apart(sc, n, one, two, more):
            return more
    return None


def addendum(n, low, up):
    """The facts of L, and whatever rises over L raises all to U."""
    more = [(('s', s), low[s], ()) for s in range(n)]
    return more + [(('s', s), up[s], (('above', t, low[t]),)) for s in range(n) for t in range(n)]


def search(sc, n, one, two):
    """The first (L, U), L below U, whose addendum sets the two apart, or None."""
    for up in defs.settings(sc, n):
        for low in defs.lower_settings(sc, up):
            if apart(sc, n, one, two, addendum(n, low, up)):
                return low, up
    return None


# ---- making ----

def base(rng, sc, n):
    m = rng.randint(1, 6)
    rules = [books.bound(rng, sc, n) if rng.random() < 0.22 else books.some_rule(rng, sc, n) for _ in range(m)]
    if rng.random() < 0.3 and n > 1:
        a, b = rng.sample(range(n), 2)
        rules += [(('s', a), sc.top, (('lack', b),)), (('s', b), sc.top, (('lack', a),))]
    return rules


def shape(rng):
    """A scale and a number of statements; few large ones."""
    small = [('luk', 1, 3), ('luk', 1, 4), ('luk', 2, 2), ('luk', 2, 3), ('luk', 3, 2), ('luk', 4, 2), ('luk', 6, 1),
             ('luk', 8, 2), ('luk', 10, 2), ('luk', 25, 1), ('luk', 63, 1),
             ('godel', 1, 3), ('godel', 2, 2), ('godel', 2, 3), ('godel', 3, 2), ('godel', 4, 2), ('godel', 5, 2),
             ('godel', 9, 2), ('godel', 40, 1),
             ('hours', 1, 4), ('hours', 2, 2), ('hours', 2, 2), ('hours', 3, 1), ('hours', 2, 3), ('hours', 3, 2),
             ('hours', 4, 1), ('hours', 5, 1), ('hours', 6, 1)]
    large = [('luk', 1, 10), ('luk', 3, 4), ('luk', 7, 3), ('luk', 30, 2), ('godel', 1, 9), ('godel', 3, 4),
             ('godel', 6, 3), ('godel', 20, 2), ('hours', 3, 3), ('hours', 4, 2), ('hours', 2, 5), ('hours', 1, 12),
             ('hours', 6, 2), ('hours', 3, 4), ('luk', 1, 12)]
    return rng.choice(large if rng.random() < 0.14 else small)


def main():
    seed = int(sys.argv[1]) if len(sys.argv) > 1 else 1
    path = sys.argv[2] if len(sys.argv) > 2 else os.path.join(HERE, '../crates/vectors/data/pairs.txt')
    rng = random.Random(seed)
    made, tally, cross = [], Counter(), Counter()

    def text_of(book):
        text = defs.book_text(book)
        result = reader.read(text.encode())
        if result != ('granted', book) or reader.verdict(text.encode()) != reader.printed(result):
            raise SystemExit('text and book differ:\n' + text)
        return text

    def settle(name, one, two):
        """Decide, cross-check, keep; gives the verdict."""
        sc, n = defs.scale_of(one), len(one[2])
        pair = defs.differing_pair(one, two)
        equal = pair is None
        count = sc.levels ** n
        same = defs.scene_set(sc, n, one[3]) == defs.scene_set(sc, n, two[3])
        if equal and not same:
            raise SystemExit('same pairs, other scenes: ' + name)
        if equal and tally['equal'] >= EQUAL or not equal and tally['unequal'] >= UNEQUAL:
            return
        if not equal and not same and tally['unequal, other scenes'] >= UNEQUAL - PARTLY:
            return
        if equal and name.split('_')[-1] in MISS_NAMES and tally['equal by a harmless change'] >= 12:
            return
        label = 'equal' if equal else 'unequal'
        if not equal:
            if not apart(sc, n, one[3], two[3], addendum(n, *pair)):
                raise SystemExit('the addendum of the differing pair fails: ' + name)
            cross['unequal, set apart by the addendum of the differing pair'] += 1
        if count <= GUESSED:
            more = guess(rng, sc, n, one[3], two[3], 60)
            if equal and more is not None:
                raise SystemExit('equal, yet set apart: ' + name)
            cross[label + ', guessed'] += 1
            cross[label + ', set apart by a guess'] += more is not None
        if count <= SEARCHED:
            more = search(sc, n, one[3], two[3])
            if (more is None) != equal:
                raise SystemExit('the search does not bear out the verdict: ' + name)
            cross[label + ', searched'] += 1
            cross[label + ', set apart by the search'] += more is not None
        tally[label] += 1
        if not equal:
            tally['unequal, ' + ('same scenes' if same else 'other scenes')] += 1
        if equal and name.split('_')[-1] in MISS_NAMES:
            tally['equal by a harmless change'] += 1
        tally[label + ' ' + one[0]] += 1
        tally['settings ' + ('<=64' if count <= 64 else '<=130' if count <= 130 else '<=4096')] += 1
        made.append((name, text_of(one), text_of(two), label))

    MISS_NAMES = {m.__name__.replace('_', '') for m in MISSING}
    for name, head, first, second in by_hand():
        one, two = [reader.read((head + x).encode())[1] for x in (first, second)]
        settle('hand_' + name.replace('_', '-'), one, two)
    while tally['equal'] < EQUAL or tally['unequal'] < UNEQUAL:
        kind, size, n = shape(rng)
        sc = defs.scale_of((kind, size))
        rules = base(rng, sc, n)
        first, second, how = rules, rules, []
        keeping = tally['equal'] < EQUAL and rng.random() < 0.5
        for _ in range(rng.randint(1, 3) if keeping else rng.choice([0, 0, 1])):
            f = rng.choice(KEEPING)
            out = f(rng, sc, second, n) if second else None
            if out is None:
                continue
            if out[0] == 'both':
                first, second = out[1], out[2]
                how = []
            else:
                second = out
            how.append(f.__name__.replace('_', ''))
        if not keeping and second:
            f = rng.choice(MISSING)
            second = f(rng, sc, second, n)
            how.append(f.__name__.replace('_', ''))
        if not second or not how or first == second or len(second) > 64:
            continue
        if rng.random() < 0.3:
            first, second = second, first
        names = books.names_for(rng, n)
        settle('%s_%d_%d_%s' % (kind, size, n, '_'.join(how)), (kind, size, names, first), (kind, size, names, second))
    with open(path, 'w') as f:
        for i, (name, a, b, label) in enumerate(made):
            f.write('#pair %03d_%s\n%s#second\n%s#expect %s\n' % (i, name, a, b, label))
    print('seed', seed)
    print('pairs of books', len(made))
    for k in sorted(tally):
        print(' ', k, tally[k])
    print('cross-check by the definition of scene')
    for k in sorted(cross):
        print(' ', k, cross[k])


if __name__ == '__main__':
    main()
