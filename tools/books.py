"""Books with their scenes: made from a seed, solved by gringo and clasp, checked by brute force.

usage: python3 tools/books.py [SEED] [OUT]
"""
import os
import random
import sys
from collections import Counter

import asp
import defs
import reader

MOST = 200        # scenes listed at most
SETTINGS = 65536  # settings at most
HERE = os.path.dirname(os.path.abspath(__file__))
WORDS = ('rain wind sun wet dry cold warm road open shut lamp bell door gate north south tide moon '
         'bus tram late early full empty red green a b c d e f g h p q r s t u x y z x1 x2 a_b b_ c3d '
         'rule name bound scale luk godel hours twelve_bytes abcdefghijkl z99999999999 long_name_12').split()


def names_for(rng, n):
    return rng.sample(WORDS, n)


def degree(rng, sc, high=0.45):
    """A degree, often the top; seldom 0."""
    x = rng.random()
    if x < high:
        return sc.top
    if x < high + 0.04:
        return 0
    return rng.randrange(1, sc.levels)


def literal(rng, sc, n, p_lack=0.35, p_above=0.2):
    s = rng.randrange(n)
    x = rng.random()
    if x < p_lack:
        return 'lack', s
    if x < p_lack + p_above:
        return 'above', s, rng.randrange(sc.levels)
    return 'plain', s


def body(rng, sc, n, lengths=(1, 4, 4, 2, 1), **ps):
    if n == 0:
        return ()
    k = rng.choices(range(5), lengths)[0]
    out = [literal(rng, sc, n, **ps) for _ in range(k)]
    # now and then the same literal twice
    if k >= 2 and rng.random() < 0.2:
        out[rng.randrange(1, k)] = out[0]
    return tuple(out)


def bound(rng, sc, n):
    return ('b', rng.choice([0, sc.levels // 2, rng.randrange(sc.levels)])), degree(rng, sc), \
        body(rng, sc, n, (0, 3, 4, 2, 1))


def some_rule(rng, sc, n, **ps):
    return ('s', rng.randrange(n)), degree(rng, sc), body(rng, sc, n, **ps)


# ---- makers: each gives a list of rules ----

def mixed(rng, sc, n):
    m = rng.randint(1, 4 + 2 * min(n, 8))
    return [bound(rng, sc, n) if rng.random() < 0.12 else some_rule(rng, sc, n) for _ in range(m)]


def choices(rng, sc, n):
    """Statements in twos, each lacking the other: many scenes, thinned by bounds."""
    order = rng.sample(range(n), n)
    rules = []
    for a, b in zip(order[::2], order[1::2]):
        if rng.random() < 0.75:
            wa, wb = degree(rng, sc, 0.75), degree(rng, sc, 0.75)
            rules += [(('s', a), wa, (('lack', b),)), (('s', b), wb, (('lack', a),))]
    rules += [some_rule(rng, sc, n) for _ in range(rng.randint(0, 3))]
    rules += [bound(rng, sc, n) for _ in range(rng.choice([0, 0, 1, 1, 2, 3]))]
    rng.shuffle(rules)
    return rules


def rings(rng, sc, n):
    """Loops through plain literals, with or without a way in from outside."""
    rules = []
    order = rng.sample(range(n), n)
    for i in range(n):
        extra = (literal(rng, sc, n),) if rng.random() < 0.25 else ()
        rules.append((('s', order[i]), degree(rng, sc, 0.7), (('plain', order[i - 1]),) + extra))
    for _ in range(rng.randint(0, 3)):
        rules.append((('s', rng.randrange(n)), degree(rng, sc), body(rng, sc, n, (2, 4, 2, 0, 0), p_lack=0.7)))
    if rng.random() < 0.3:
        rules.append(bound(rng, sc, n))
    rng.shuffle(rules)
    return rules


def ladder(rng, sc, n):
    """Steps up by above literals: many rounds."""
    rules = [(('s', 0), rng.randrange(1, sc.levels), (('lack', n - 1),) if rng.random() < 0.6 else ())]
    if sc.kind == 'hours':
        for i in range(sc.size):
            for j in range(n):
                if rng.random() < 0.7 and len(rules) < 60:
                    rules.append((('s', (j + 1) % n), rng.randrange(1, sc.levels),
                                  (('above', j, rng.randrange(sc.levels)),)))
    else:
        step = max(1, (sc.size + 25) // 50 if n == 1 else sc.size // 12)
        for d in range(0, sc.size, step):
            a = rng.randrange(n)
            b = a if rng.random() < 0.5 else rng.randrange(n)
            if len(rules) < 60:
                rules.append((('s', a), min(sc.top, d + step), (('above', b, max(0, d - step)),)))
                if rng.random() < 0.4:
                    rules.append((('s', b), min(sc.top, d + step), (('plain', a),)))
    rules = rules[:60]
    if rng.random() < 0.4:
        rules.append(bound(rng, sc, n))
    return rules


def odd(rng, sc, n):
    """Loops of an odd number of lackings: often no scene."""
    k = rng.choice([x for x in (1, 3, 5) if x <= n])
    ring = rng.sample(range(n), k)
    rules = [(('s', ring[i]), degree(rng, sc, 0.8), (('lack', ring[i - 1]),)) for i in range(k)]
    rules += [some_rule(rng, sc, n) for _ in range(rng.randint(0, 4))]
    rng.shuffle(rules)
    return rules


def fenced(rng, sc, n):
    """More bounds than rules."""
    rules = choices(rng, sc, n) if n > 1 else mixed(rng, sc, n)
    rules += [bound(rng, sc, n) for _ in range(rng.randint(2, 5))]
    return rules


def crowded(rng, sc, n):
    """Up to 64 rules, of small weights and long bodies."""
    m = rng.choice([64, 64, rng.randint(30, 63)])
    rules = []
    for _ in range(m):
        if rng.random() < 0.1:
            rules.append((('b', rng.randrange(sc.levels // 2, sc.levels)), degree(rng, sc, 0.1),
                          body(rng, sc, n, (0, 0, 2, 3, 2))))
        else:
            rules.append((('s', rng.randrange(n)), degree(rng, sc, 0.2), body(rng, sc, n, (0, 1, 3, 3, 3))))
    return rules


MAKERS = [mixed, mixed, choices, rings, rings, ladder, odd, fenced, crowded, crowded]
OPEN = [choices, choices, choices, fenced, odd, mixed]  # where many scenes are wanted


def by_hand():
    """Small books with a point each: (name, text)."""
    out = [
        ('only_scale', 'scale luk 7\n'),
        ('no_names_bound_holds', 'scale godel 4\nbound 2 2\n'),
        ('no_names_bound_fails', 'scale godel 4\nbound 2 3\n'),
        ('names_only', 'scale hours 2\nname a\nname b\n'),
        ('fact', 'scale luk 1\nname a\nrule 1 a\n'),
        ('fact_of_weight_0', 'scale luk 9\nname a\nrule 0 a\n'),
        ('self_support', 'scale luk 5\nname a\nrule 5 a : a\n'),
        ('self_lack_even', 'scale luk 4\nname a\nrule 4 a : ~a\n'),
        ('self_lack_odd', 'scale luk 5\nname a\nrule 5 a : ~a\n'),
        ('self_lack_godel', 'scale godel 6\nname a\nrule 6 a : ~a\n'),
        ('self_lack_hours', 'scale hours 3\nname a\nrule 5 a : ~a\n'),
        ('self_lack_twice', 'scale luk 6\nname a\nrule 6 a : ~a, ~a\n'),
        ('two_crisp', 'scale luk 1\nname a\nname b\nrule 1 a : ~b\nrule 1 b : ~a\n'),
        ('two_luk_63', 'scale luk 63\nname a\nname b\nrule 63 a : ~b\nrule 63 b : ~a\n'),
        ('two_godel_63', 'scale godel 63\nname a\nname b\nrule 63 a : ~b\nrule 63 b : ~a\n'),
        ('two_hours_6', 'scale hours 6\nname a\nname b\nrule 63 a : ~b\nrule 63 b : ~a\n'),
        ('three_lack', 'scale luk 1\nname a\nname b\nname c\nrule 1 a : ~b\nrule 1 b : ~c\nrule 1 c : ~a\n'),
        ('ring_unfounded', 'scale godel 9\nname a\nname b\nname c\nrule 9 a : b\nrule 9 b : c\nrule 9 c : a\n'),
        ('ring_fed', 'scale luk 9\nname a\nname b\nname c\nrule 9 a : b\nrule 9 b : c\nrule 9 c : a\nrule 4 b\n'),
        ('ring_paid', 'scale luk 9\nname a\nname b\nname c\nrule 8 a : b\nrule 8 b : c\nrule 8 c : a\nrule 9 b\n'),
        ('bound_top', 'scale luk 3\nname a\nrule 3 a\nbound 3 3 : a\n'),
        ('bound_exact', 'scale luk 8\nname a\nrule 5 a\nbound 3 6 : a\n'),
        ('bound_one_less', 'scale luk 8\nname a\nrule 5 a\nbound 2 6 : a\n'),
        ('bound_lacking', 'scale luk 8\nname a\nrule 5 a\nbound 2 8 : ~a\n'),
        ('bound_not_comparable', 'scale hours 2\nname a\nrule 1 a\nbound 2 3 : a\n'),
        ('bound_kept_hours', 'scale hours 2\nname a\nrule 1 a\nbound 1 3 : a\n'),
        ('above_top_never', 'scale luk 4\nname a\nname b\nrule 4 a\nrule 4 b : a > 4\n'),
        ('above_met', 'scale luk 4\nname a\nname b\nrule 3 a\nrule 2 b : a > 2\n'),
        ('above_equal_not_met', 'scale luk 4\nname a\nname b\nrule 3 a\nrule 2 b : a > 3\n'),
        ('above_hours_no_order', 'scale hours 3\nname a\nname b\nrule 4 a\nrule 7 b : a > 3\n'),
        ('above_hours_inside', 'scale hours 3\nname a\nname b\nrule 4 a\nrule 7 b : a > 6\n'),
        ('four_same_luk', 'scale luk 12\nname a\nname b\nrule 10 a\nrule 12 b : a, a, a, a\n'),
        ('four_same_godel', 'scale godel 12\nname a\nname b\nrule 10 a\nrule 12 b : a, a, a, a\n'),
        ('four_lacks', 'scale luk 12\nname a\nname b\nrule 2 a\nrule 11 b : ~a, ~a, ~a, ~a\n'),
        ('plain_and_lack', 'scale luk 10\nname a\nname b\nrule 5 a : ~b\nrule 10 b : a, ~a\nrule 5 a\n'),
        ('keywords_as_names', 'scale luk 2\nname rule\nname name\nname bound\nname scale\nname luk\n'
                              'rule 2 rule : ~name\nrule 2 name : ~rule\nbound 1 2 : bound > 0, scale, luk\n'),
        ('spaces', '\n   scale   hours   2  \n\n name a\n  name   b   \n   \nrule 3 a:~b\n rule  3   b  :~  a  \n'
                   'bound 1 3:a>1,b>  0\n\n'),
        ('leading_zeros', 'scale luk 007\nname a\nname b\nrule 05 a\nrule 007 b : a > 004, a\n'),
        ('long_names', 'scale godel 3\nname abcdefghijkl\nname abcdefghijkm\nrule 3 abcdefghijkl : ~abcdefghijkm\n'
                       'rule 2 abcdefghijkm : ~abcdefghijkl\n'),
    ]
    # one step a round: as many rounds as the top
    for k in (1, 20, 63):
        lines = ['scale luk %d' % k, 'name a', 'rule 1 a']
        lines += ['rule %d a : a > %d' % (d + 1, d - 1) for d in range(1, k)]
        out.append(('steps_%d' % k, '\n'.join(lines) + '\n'))
    lines = ['scale godel 63', 'name a', 'name b', 'rule 1 a', 'rule 63 b : a']
    lines += ['rule %d a : b > %d' % (d + 1, d - 1) for d in range(1, 61)]
    lines += ['bound 60 63 : a']
    out.append(('steps_two_names', '\n'.join(lines[:4 + 62]) + '\n'))
    # sixteen names
    names = ['n%d' % i for i in range(16)]
    head = ['scale luk 1'] + ['name ' + x for x in names]
    out.append(('sixteen_chain', '\n'.join(head + ['rule 1 n0'] + [
        'rule 1 n%d : n%d' % (i + 1, i) for i in range(15)]) + '\n'))
    out.append(('sixteen_twos', '\n'.join(head + [
        'rule 1 n%d : ~n%d' % (i, i ^ 1) for i in range(14)]) + '\n'))
    out.append(('sixteen_64_rules', '\n'.join(head + [
        'rule 1 n%d : ~n%d, ~n%d' % (i, (i + 1) % 16, (i + 5) % 16) for i in range(16)] + [
        'rule 1 n%d : n%d, n%d > 0' % (i, (i * 7 + 3) % 16, (i + 2) % 16) for i in range(16)] + [
        'bound 0 1 : n%d, n%d' % (i, (i + 1) % 16) for i in range(16)] + [
        'bound 1 1 : n%d, n%d, ~n%d, n%d' % (i, i, i, (i + 3) % 16) for i in range(16)]) + '\n'))
    return out


def styled(rng, text):
    """The same text with other spaces, blank lines and zeros before numbers."""
    out = []
    for line in text.split('\n')[:-1]:
        words = line.replace(':', ' : ').replace(',', ' , ').replace('>', ' > ').replace('~', ' ~ ').split()
        new = ''
        for i, w in enumerate(words):
            if w.isdigit() and rng.random() < 0.15:
                w = w.zfill(3)
            gap = ''
            if i and (w not in ':,>~' and words[i - 1] not in ':,>~'):
                gap = ' '
            new += gap + ' ' * rng.choice([0, 0, 0, 1, 1, 3]) + w
        out.append(new + ' ' * rng.choice([0, 0, 2]))
        if rng.random() < 0.1:
            out.append(' ' * rng.choice([0, 0, 4]))
    return '\n'.join(out) + '\n'


def most_names(levels, cap):
    n = 0
    while levels ** (n + 1) <= cap and n < 16:
        n += 1
    return n


def draw(rng, kind, size, many):
    """A book of this scale; many: two or more scenes are wanted."""
    sc = defs.scale_of((kind, size))
    cap = rng.choices([300, 1500, 5000, SETTINGS], [3, 6, 6, 1])[0]
    top = max(1, most_names(sc.levels, max(cap, sc.levels)))
    if many:
        top = max(top, 2)
        n = rng.choice([top, top, rng.randint(2, top)])
    else:
        n = rng.choice([top, top, rng.randint(1, top)])
    maker = rng.choice(OPEN if many else MAKERS)
    if maker is crowded and (sc.levels ** n > 3000 or kind != 'hours' and size > 16):
        maker = mixed
    rules = maker(rng, sc, n)[:64]
    return maker.__name__, (kind, size, names_for(rng, n), rules)


def bucket(count):
    return '0' if count == 0 else '1' if count == 1 else '2-9' if count < 10 else '10-200'


def sizes(rng):
    """The scales to cover: every size of every kind, small ones more often."""
    todo = []
    for kind in ('luk', 'godel'):
        todo += [(kind, k) for k in range(1, 64)]
        todo += [(kind, rng.choice([1, 1, 2, 2, 3, 3, 4, 5, 6, 7, 8, 9, 10, 15])) for _ in range(47)]
    todo += [('hours', 1 + i % 6) for i in range(102)]
    return todo


def main():
    seed = int(sys.argv[1]) if len(sys.argv) > 1 else 1
    path = sys.argv[2] if len(sys.argv) > 2 else os.path.join(HERE, '../crates/vectors/data/books.txt')
    rng = random.Random(seed)
    cases = []
    for name, text in by_hand():
        cases.append((name, text, asp.solve(reader.read(text.encode())[1], MOST)))
    wanted = ['0', '1', '1', '2-9', '2-9', '10-200', '10-200', '10-200']
    for number, (kind, size) in enumerate(sizes(rng)):
        # draw until the number of scenes is as wanted, a few times; then take what comes
        want = rng.choice(wanted)
        for attempt in range(24):
            how, book = draw(rng, kind, size, want in ('2-9', '10-200'))
            found = asp.solve(book, MOST)
            if found is not None and (bucket(len(found)) == want or attempt >= 12):
                break
        else:
            raise SystemExit('no book for %s %d' % (kind, size))
        text = defs.book_text(book)
        if rng.random() < 0.25:
            text = styled(rng, text)
        if reader.read(text.encode()) != ('granted', book):
            raise SystemExit('text and book differ:\n' + text)
        cases.append(('%s_%d_%s_%03d' % (kind, size, how, number), text, found))
    out, tally, agreed, largest = [], Counter(), 0, Counter()
    for name, text, found in cases:
        result = reader.read(text.encode())
        if result[0] != 'granted' or reader.verdict(text.encode()) != reader.printed(result):
            raise SystemExit('not granted: ' + name)
        book = result[1]
        brute = defs.scenes(book)
        if found != [up for up, _ in brute]:
            raise SystemExit('clasp and brute force differ on %s:\n%s' % (name, text))
        agreed += 1
        sc = defs.scale_of(book)
        out.append('#case ' + name)
        out += text.split('\n')[:-1]
        out.append('#expect')
        for up, rounds in brute:
            out.append(' '.join(map(str, (defs.position(sc, up), rounds) + up)))
        out.append('scenes %d' % len(brute))
        tally['kind ' + book[0]] += 1
        lv = sc.levels
        tally['levels ' + ('2' if lv == 2 else '3-4' if lv < 5 else '5-8' if lv < 9 else '9-16' if lv < 17
                           else '17-32' if lv < 33 else '33-64')] += 1
        tally['scenes ' + bucket(len(brute))] += 1
        tally['listed scenes'] += len(brute)
        st = lv ** len(book[2])
        tally['settings ' + ('<=256' if st <= 256 else '<=4096' if st <= 4096 else '<=65536')] += 1
        rules = book[3]
        tally['with bounds'] += any(r[0][0] == 'b' for r in rules)
        tally['with above'] += any(x[0] == 'above' for r in rules for x in r[2])
        tally['with lacking'] += any(x[0] == 'lack' for r in rules for x in r[2])
        tally['with a repeated literal'] += any(len(set(r[2])) < len(r[2]) for r in rules)
        tally['with a plain loop'] += looped(book)
        tally['with 64 rules'] += len(rules) == 64
        top_round = max([r for _, r in brute], default=0)
        largest['rounds'] = max(largest['rounds'], top_round)
        largest['scenes'] = max(largest['scenes'], len(brute))
        largest['rules'] = max(largest['rules'], len(rules))
        largest['statements'] = max(largest['statements'], len(book[2]))
        largest['text bytes'] = max(largest['text bytes'], len(text))
    out.append('#end')
    with open(path, 'w') as f:
        f.write('\n'.join(out) + '\n')
    print('seed', seed, '|', ', '.join(asp.versions()))
    print('books', len(cases), '- clasp and brute force agree on', agreed)
    for k in sorted(tally):
        print(' ', k, tally[k])
    for k in sorted(largest):
        print('  largest', k, largest[k])


def looped(book):
    """Whether plain literals lead from some statement back to it."""
    n = len(book[2])
    reach = [set() for _ in range(n)]
    for head, _, lits in book[3]:
        if head[0] == 's':
            reach[head[1]] |= {x[1] for x in lits if x[0] == 'plain'}
    for _ in range(n):
        for s in range(n):
            for t in list(reach[s]):
                reach[s] |= reach[t]
    return any(s in reach[s] for s in range(n))


if __name__ == '__main__':
    main()
