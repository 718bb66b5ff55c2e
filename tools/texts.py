"""Good and damaged texts with the verdict on each, by two readings written apart.

usage: python3 tools/texts.py [SEED] [OUT]
"""
import os
import random
import sys
from collections import Counter

import books
import defs
import reader

HERE = os.path.dirname(os.path.abspath(__file__))
QUOTA = {1: 14, 2: 36, 3: 36, 4: 96, 5: 44, 6: 26, 7: 22, 9: 32, 10: 26, 11: 22, 'granted': 120}

MORE = 20000


def good(rng):
    """A text that is granted, as bytes."""
    kind = rng.choice(['luk', 'godel', 'hours'])
    size = rng.randint(1, 6) if kind == 'hours' else rng.choice([1, 2, 3, 5, 9, 31, 62, 63])
    sc = defs.scale_of((kind, size))
    n = rng.choice([1, 2, 3, 4, 4, 5, 15, 16])
    m = rng.choice([0, 1, 2, 3, 4, 5, 6, 8])
    rules = [books.bound(rng, sc, n) if rng.random() < 0.3 else books.some_rule(rng, sc, n) for _ in range(m)]
    text = defs.book_text((kind, size, books.names_for(rng, n), rules))
    if rng.random() < 0.3:
        text = books.styled(rng, text)
    if rng.random() < 0.25:
        text = text[:-1]
    return text.encode()


def top_of(text):
    """The scale's top in a good text."""
    r = reader.read(text)
    if r[0] != 'granted':
        return 9
    return defs.scale_of(r[1]).top


def names_of(text):
    r = reader.read(text)
    return [x.encode() for x in r[1][2]] if r[0] == 'granted' and r[1][2] else [b'a']


# ---- damages: each takes a text and gives one ----

def insert(rng, t):
    i = rng.randint(0, len(t))
    return t[:i] + bytes([rng.choice(b' :,>~_az09\n\nq17')]) + t[i:]


def delete(rng, t):
    i = rng.randrange(max(1, len(t)))
    return t[:i] + t[i + rng.choice([1, 1, 1, 4]):]


def replace(rng, t):
    i = rng.randrange(max(1, len(t)))
    return t[:i] + bytes([rng.choice(b' :,>~_az09\n5b')]) + t[i + 1:]


def odd_byte(rng, t):
    i = rng.randint(0, len(t))
    c = rng.choice([b'A', b'Z', b'\t', b'\r', b'\r\n', b'\x00', b'#', b'-', b'.', b'<', b'@', b'[', b'`', b'{', b'/',
                    b';', b'=', b'\x7f', b'\x80', b'\xff', b'\xc3\xa9', b'\xe2\x89\xa4', b'\xc2\xa0', b'!', b'"'])
    return t[:i] + c + t[i:]


def lines_of(t):
    return t.split(b'\n')


def swap_lines(rng, t):
    ls = lines_of(t)
    i, j = rng.randrange(len(ls)), rng.randrange(len(ls))
    ls[i], ls[j] = ls[j], ls[i]
    return b'\n'.join(ls)


def double_line(rng, t):
    ls = lines_of(t)
    ls.insert(rng.randint(0, len(ls)), rng.choice(ls))
    return b'\n'.join(ls)


def drop_line(rng, t):
    ls = lines_of(t)
    del ls[rng.randrange(len(ls))]
    return b'\n'.join(ls)


def blank_lines(rng, t):
    ls = lines_of(t)
    for _ in range(rng.randint(1, 3)):
        ls.insert(rng.randint(0, len(ls)), b' ' * rng.choice([0, 0, 1, 7]))
    return b'\n'.join(ls)


def numbers_at(t):
    """Where the words of digits stand."""
    out, i = [], 0
    while i < len(t):
        j = i
        while j < len(t) and t[j] in reader.WORDY:
            j += 1
        if j > i and reader.is_number(t[i:j]):
            out.append((i, j))
        i = max(j, i + 1)
    return out


def set_number(rng, t, word):
    at = numbers_at(t)
    if not at:
        return t + b'\nrule ' + word + b' a'
    i, j = rng.choice(at)
    return t[:i] + word + t[j:]


def long_number(rng, t):
    return set_number(rng, t, rng.choice([b'0001', b'0000', b'1000', b'12345', b'0' * 30 + b'1', b'9' * 25,
                                          b'256', b'4294967297', b'18446744073709551617', b'065', b'000', b'001']))


def large_number(rng, t):
    top = top_of(t)
    return set_number(rng, t, str(rng.choice([top + 1, top + 1, top + 2, 64, 99, 255, 256, 257, 999, top])).encode())


def scale_size(rng, t):
    at = numbers_at(t)
    if not at:
        return t
    i, j = at[0]
    return t[:i] + rng.choice([b'0', b'00', b'000', b'7', b'63', b'64', b'064', b'65', b'255', b'256', b'257', b'999',
                               b'6', b'8', b'320']) + t[j:]


def unknown_name(rng, t):
    x = rng.choice([b'nobody', b'aa', b'zz9', b'thirteenbytes', b'abcdefghijklm', rng.choice(names_of(t)) + b'_',
                    rng.choice(names_of(t))[:-1] + b'k'])
    w = str(rng.randrange(top_of(t) + 1)).encode()
    y = rng.choice(names_of(t))
    line = rng.choice([b'rule ' + w + b' ' + x, b'rule ' + w + b' ' + y + b' : ' + x,
                       b'rule ' + w + b' ' + y + b' : ' + y + b', ~' + x, b'bound 0 ' + w + b' : ' + x + b' > 0',
                       b'name ' + x])
    return put(rng, t, line)


def put(rng, t, line):
    """A line put in, mostly near the end."""
    ls = lines_of(t)
    i = rng.choice([len(ls), len(ls), max(0, len(ls) - 1), rng.randint(0, len(ls))])
    ls.insert(i, line)
    return b'\n'.join(ls)


def rule_line(rng, t, literals):
    ns = names_of(t)
    top = top_of(t)
    lits = []
    for _ in range(literals):
        y = rng.choice(ns)
        lits.append(rng.choice([y, b'~' + y, y + b' > ' + str(rng.randint(0, top)).encode()]))
    w = str(rng.randint(0, top)).encode()
    start = rng.choice([b'rule ' + w + b' ' + rng.choice(ns), b'bound ' + w + b' ' + w])
    return start + (rng.choice([b' : ', b':']) + rng.choice([b', ', b',']).join(lits) if lits else b'')


def many_literals(rng, t):
    return put(rng, t, rule_line(rng, t, rng.choice([4, 5, 5, 6, 9, 40])))


def many_rules(rng, t):
    r = reader.read(t)
    have = len(r[1][3]) if r[0] == 'granted' else 0
    ls = [rule_line(rng, t, rng.choice([0, 0, 1])) for _ in range(rng.choice([64, 65, 65, 66, 80]) - have)]
    return t.rstrip(b'\n') + b'\n' + b'\n'.join(ls) + rng.choice([b'', b'\n'])


def many_names(rng, t):
    r = reader.read(t)
    if r[0] != 'granted':
        return t
    have = len(r[1][2])
    ls = lines_of(t)
    last = max([i for i, x in enumerate(ls) if x.split()[:1] == [b'name'] or x.split()[:1] == [b'scale']])
    new = [b'name w%d' % i for i in range(rng.choice([16, 17, 17, 18, 20]) - have)]
    return b'\n'.join(ls[:last + 1] + new + ls[last + 1:])


def pad(rng, t, size):
    """Spaces or blank lines, up to a size in bytes."""
    need = size - len(t)
    if need <= 0:
        return t[:size]
    i = rng.choice([0, len(t), t.find(b'\n') + 1 or len(t)])
    filler = b''.join(rng.choice([b' ', b' ', b'\n']) for _ in range(need)) if rng.random() < 0.5 else b' ' * need
    if i != len(t) and i != 0:
        filler = filler[:-1] + b'\n'
    elif i == 0:
        filler = filler[:-1] + b'\n'
    else:
        filler = b'\n' + filler[1:]
    return t[:i] + filler + t[i:]


def too_long(rng, t):
    return pad(rng, t, rng.choice([8191, 8192, 8193, 8194, 8200, 8300]))


def bad_shape(rng, t):
    y = rng.choice(names_of(t))
    z = rng.choice(names_of(t))
    shapes = [b'rule', b'rule 1', b'rule ' + y, b'rule 1 1', b'rule ' + y + b' 1', b'rule 1 ' + y + b' :', b'bound 1',
              b'rule 1 ' + y + b' : ,', b'rule 1 ' + y + b' : ' + z + b',', b'rule 1 ' + y + b' : ' + z + b' ' + z,
              b'rule 1 ' + y + b' ' + z, b'rule 1 ' + y + b' : ~~' + z, b'rule 1 ' + y + b' : ' + z + b' > ' + y,
              b'rule 1 ' + y + b' : ~' + z + b' > 0', b'rule 1 ' + y + b' : ' + z + b' >', b'rule 1 ' + y + b' : 1',
              b'rule 1 ' + y + b' : > 1', b'rule 1 ' + y + b' :: ' + z, b'rule 1 ' + y + b', ' + z, b'bound 1 ' + y,
              b'bound 1 1 1', b'bound ' + y + b' 1 : ' + z, b'bound 1 1 ' + z, b'bound 1 1 : ', b'name', b'name 1',
              b'name _a', b'name 1a', b'name a b', b'name a:', b'scale luk 3', b'scale', b'scale luk', b'scale crisp 2',
              b'scale 3 luk', b'scale luk 3 3', b'names a', b'rules 1 ' + y, b'rule1 ' + y, b'rule 1' + y, b'_', b'7',
              b':', b'~', b'>', b',', b'rule 1 ' + y + b' : ' + z + b' > 1a', b'rule 1 _' + y, b'rule _1 ' + y,
              b'rule 1 ' + y + b' : ' + z + b', , ' + z, b'rule 1 ~' + y, b'rule 1 ' + y + b' > 0', b'la', b'bound']
    return put(rng, t, rng.choice(shapes))


def no_last_newline(rng, t):
    return t.rstrip(b'\n')


def two_faults(rng, t):
    """One line with two or three faults: the lowest number counts, wherever it stands."""
    y = rng.choice(names_of(t))
    bad = [b'nobody', y]
    big = [b'999', b'64', b'0']
    lits = [rng.choice(bad) + rng.choice([b'', b' > ' + rng.choice(big), b' > 1234']) for _ in range(rng.choice([1, 4, 5, 6]))]
    line = b'rule ' + rng.choice(big + [b'0001']) + b' ' + rng.choice(bad) + b' : ' + b', '.join(lits)
    line += rng.choice([b'', b'', b'', b' ,', b'!', b' 77777'])
    return put(rng, t, line)


DAMAGES = [insert, delete, replace, odd_byte, swap_lines, double_line, drop_line, blank_lines, long_number, large_number,
           scale_size, unknown_name, many_literals, many_rules, many_names, too_long, bad_shape, no_last_newline,
           two_faults]


def by_hand():
    n16 = b'scale luk 1\n' + b''.join(b'name n%d\n' % i for i in range(16))
    r64 = b'scale luk 1\nname a\n' + b'rule 1 a\n' * 64
    out = [
        b'', b' ', b'   ', b'\n', b'\n\n', b'  \n \n   ', b'\n  ', b'scale luk 1', b'scale luk 1\n', b'\nscale luk 63',
        b'   scale   godel   63   ', b'scale hours 6\n\n\n', b'scale hours 7', b'scale hours 0', b'scale luk 0',
        b'scale luk 64', b'scale godel 0\nname a', b'scale godel 100', b'scale luk 001', b'scale luk 0001',
        b'scale luk', b'scale', b'scale luk1', b'scaleluk 1', b'scale 1', b'scale luk 1 1', b'scale lukk 1', b'Scale luk 1',
        b'scale luk 1:', b'scale hours 3\nscale hours 3', b'name a', b'rule 1 a', b'bound 0 1', b'a', b'name a\nscale luk 1',
        b'scale luk 1\nrule 1 a\nname a', b'scale luk 1\nbound 0 1\nname a', b'scale luk 1\nname a\nbound 0 1\nname b',
        b'scale luk 1\nname a\nname a', b'scale luk 1\nname abcdefghijkl', b'scale luk 1\nname abcdefghijklm',
        b'scale luk 1\nname a1234', b'scale luk 1\nname 1234', b'scale luk 1\nname 1234a', b'scale luk 1\nname _1234',
        b'scale luk 1\nname a_', b'scale luk 1\nname _', b'scale luk 1\nname a b 12345', b'scale luk 1\nfoo 1234',
        b'scale luk 1\nfoo 1234 A', b'scale luk 1 \nname a \nrule 1 a ', b'scale luk 1\nname rule\nrule 1 rule:rule',
        b'scale luk 1\nname a\nrule 1 a:', b'scale luk 1\nname a\nrule 1 a : ', b'scale luk 1\nname a\nrule 1 a:a',
        b'scale luk 1\nname a\nrule 1 a:~a', b'scale luk 1\nname a\nrule 1 a:~ a', b'scale luk 1\nname a\nrule 1 a: ~a > 0',
        b'scale luk 1\nname a\nrule 1 a:a>0', b'scale luk 1\nname a\nrule 1 a:a>1', b'scale luk 1\nname a\nrule 1 a:a>2',
        b'scale luk 1\nname a\nrule 2 a', b'scale luk 1\nname a\nbound 2 0', b'scale luk 1\nname a\nbound 0 2',
        b'scale luk 1\nname a\nbound 1 1', b'scale luk 1\nbound 1 1:a', b'scale luk 1\nbound 1 1\nbound 0 0',
        b'scale hours 2\nname a\nrule 3 a', b'scale hours 2\nname a\nrule 4 a', b'scale hours 6\nname a\nrule 63 a : a > 63',
        b'scale hours 6\nname a\nrule 64 a', b'scale luk 63\nname a\nrule 63 a', b'scale luk 63\nname a\nrule 64 a',
        b'scale luk 5\nname a\nrule 1 a : a,a,a,a', b'scale luk 5\nname a\nrule 1 a : a,a,a,a,a',
        b'scale luk 5\nname a\nrule 6 a : a,a,a,a,a', b'scale luk 5\nname a\nrule 6 b : a,a,a,a,a',
        b'scale luk 5\nname a\nrule 6 b : a,a,a,a,a,', b'scale luk 5\nname a\nrule 6666 b : a,a,a,a,a,',
        b'scale luk 5\nname a\nrule 6666 b : a,a,a,a,a,?', b'scale luk 5\nname a\nrule 1 a : a,a,a,a,a > 7',
        b'scale luk 5\nname a\nrule 1 a : a,a,a,a,a > 1000', b'scale luk 5\nname a\nrule 1 a : a,a,a,a > 5,b',
        b'scale luk 5\nname a\nrule 5a', b'scale luk 5\nname a\nrule5 a', b'scale luk 5\nname a\nrule 5 a a',
        b'scale luk 5\nname a\nrule 5 a b : c', b'scale luk 5\nname a\nrule 7 a\nrule A', b'scale luk 5\nname a\nrule A\nrule 7 a',
        b'scale luk 5\nname a\n \n\nrule 7 a', b'scale luk 5\r\nname a\r\n', b'scale luk 5\n\tname a', b'scale luk 5\n\x00',
        b'scale luk 5\nname \xc3\xa9', b'\xef\xbb\xbfscale luk 5', b'scale luk 5\nname a\x0b', b'\x80', b'#',
        n16, n16 + b'name m', n16 + b'name n3', n16 + b'name abcdefghijklm', n16 + b'name 1', n16 + b'name m 7777',
        n16 + b'\n  \nname m\nname k', n16 + b'rule 1 n15 : n0, ~n1, n14 > 1', n16 + b'rule 1 n16', n16 + b'rule 1 n0\nname m',
        r64, r64 + b'rule 1 a', r64 + b'bound 0 1', r64 + b'rule 2 a', r64 + b'rule 1 b', r64 + b'rule 1 a :',
        r64 + b'rule 1 a : a,a,a,a,a', r64 + b'rule 0001 a', r64 + b'\n \n', r64 + b'name b', r64 + b'rule 1 a\nrule 1 b',
        b'scale luk 1\nbound 0 0' + b'\nbound 0 0' * 63, b'scale luk 1\nbound 0 0' + b'\nbound 0 0' * 64,
        b' ' * 8192, b' ' * 8193, b'\n' * 8192, b'\n' * 8193, b'\n' * 8191 + b'A\n', b'scale luk 1\n' + b'\n' * 8180,
        b'scale luk 1\n' + b'\n' * 8181, b'scale luk 1\n' + b' ' * 8179 + b'A', b'scale luk 1\n' + b' ' * 8180 + b'A',
    ]
    return out


def main():
    seed = int(sys.argv[1]) if len(sys.argv) > 1 else 1
    path = sys.argv[2] if len(sys.argv) > 2 else os.path.join(HERE, '../crates/vectors/data/texts.txt')
    rng = random.Random(seed)
    kept, seen, tally, damage = [], set(), Counter(), Counter()

    def judge(text):
        said = reader.printed(reader.read(text))
        if said != reader.verdict(text):
            raise SystemExit('the two readings differ on %r: %s, %s' % (text, said, reader.verdict(text)))
        return said

    def keep(text, said):
        seen.add(text)
        kept.append((text, said))
        tally[what(said)] += 1

    def what(said):
        return 'granted' if said.startswith('granted') else int(said.split()[1])

    for text in by_hand():
        keep(text, judge(text))
    tried = 0
    while any(tally[w] < QUOTA[w] for w in QUOTA):
        tried += 1
        text = good(rng)
        how = []
        for _ in range(rng.choice([0, 1, 1, 1, 1, 2, 2, 3])):
            d = rng.choice(DAMAGES)
            text = d(rng, text)
            how.append(d.__name__)
        said = judge(text)
        if text in seen or tally[what(said)] >= QUOTA[what(said)]:
            continue
        # few very long texts, to keep the file small
        if len(text) > 4000 and what(said) != 1:
            if tally['long'] >= 8:
                continue
            tally['long'] += 1
        keep(text, said)
        damage.update(how or ['none'])
    # the two readings are compared on many more texts than are kept
    for _ in range(MORE):
        tried += 1
        text = good(rng)
        for _ in range(rng.choice([1, 1, 2, 3])):
            text = rng.choice(DAMAGES)(rng, text)
        judge(text)
    with open(path, 'w') as f:
        for text, said in kept:
            f.write('#text %s\n#expect %s\n' % (text.hex(), said))
    print('seed', seed)
    print('texts', len(kept), '(by hand %d)' % len(by_hand()), '- the two readings agree on all of them, and on all',
          tried, 'tried')
    for k in [1, 2, 3, 4, 5, 6, 7, 9, 10, 11, 'granted']:
        print('  ', 'refused' if k != 'granted' else '', k, tally[k])
    print('  without a last newline', sum(not t.endswith(b'\n') for t, _ in kept))
    print('  over 8192 bytes', sum(len(t) > 8192 for t, _ in kept), '; exactly 8192', sum(len(t) == 8192 for t, _ in kept))
    print('  damages', dict(sorted(damage.items())))


if __name__ == '__main__':
    main()
