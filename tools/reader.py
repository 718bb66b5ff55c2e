"""Two readings of texts, written apart from one another: one with plain strings, one with patterns.

Both give ('granted', book) or ('refused', number, line, byte).
"""
import re

LIMIT, NAMES, RULES, LITERALS, NAME_BYTES = 8192, 16, 64, 4, 12
SIZES = {b'luk': 63, b'godel': 63, b'hours': 6}
LETTERS = b'abcdefghijklmnopqrstuvwxyz'
DIGITS = b'0123456789'
MARKS = b':,>~'
WORDY = LETTERS + DIGITS + b'_'


# ---- first reading: cut into pieces, then walk over them ----

def pieces(line):
    """Words and marks of a line; spaces part them."""
    out, word = [], b''
    for i in range(len(line)):
        c = line[i:i + 1]
        if c in WORDY:
            word += c
            continue
        if word:
            out.append(word)
            word = b''
        if c != b' ':
            out.append(c)
    if word:
        out.append(word)
    return out


def is_number(w):
    return w != b'' and all(c in DIGITS for c in w)


def is_name(w):
    return w[:1] != b'' and w[:1] in LETTERS


def literal_shape(part):
    """A literal, or None."""
    if len(part) == 1 and is_name(part[0]):
        return 'plain', part[0]
    if len(part) == 2 and part[0] == b'~' and is_name(part[1]):
        return 'lack', part[1]
    if len(part) == 3 and is_name(part[0]) and part[1] == b'>' and is_number(part[2]):
        return 'above', part[0], int(part[2])
    return None


def line_shape(ps):
    """What a line says, or None where it has no listed shape."""
    if ps[0] == b'scale' and len(ps) == 3 and ps[1] in SIZES and is_number(ps[2]):
        return 'scale', ps[1], int(ps[2])
    if ps[0] == b'name' and len(ps) == 2 and is_name(ps[1]):
        return 'name', ps[1]
    if ps[0] not in (b'rule', b'bound') or len(ps) < 3:
        return None
    if ps[0] == b'rule':
        if not (is_number(ps[1]) and is_name(ps[2])):
            return None
        start = ['rule', int(ps[1]), ps[2]]
    else:
        if not (is_number(ps[1]) and is_number(ps[2])):
            return None
        start = ['bound', int(ps[1]), int(ps[2])]
    body, rest = [], ps[3:]
    if rest:
        if rest[0] != b':':
            return None
        part = []
        for p in rest[1:] + [b',']:
            if p == b',':
                lit = literal_shape(part)
                if lit is None:
                    return None
                body.append(lit)
                part = []
            else:
                part.append(p)
    return tuple(start) + (body,)


def read(text):
    if len(text) > LIMIT:
        return 'refused', 1, 1 + text[:LIMIT].count(b'\n'), LIMIT
    scale, names, rules = None, [], []
    start = 0
    for number, line in enumerate(text.split(b'\n'), 1):
        here, start = start, start + len(line) + 1
        if line.strip(b' ') == b'':
            continue
        causes = set()
        if any(line[i] not in WORDY + MARKS + b' ' for i in range(len(line))):
            causes.add(2)
        ps = pieces(line)
        if any(is_number(p) and len(p) > 3 for p in ps):
            causes.add(3)
        said = line_shape(ps)
        if said is None:
            causes.add(4)
        elif (said[0] == 'scale') != (scale is None):
            causes.add(4)
        elif said[0] == 'scale':
            if not 1 <= said[2] <= SIZES[said[1]]:
                causes.add(6)
            scale = said[1], said[2]
        elif said[0] == 'name':
            if rules:
                causes.add(4)
            if said[1] in names or len(said[1]) > NAME_BYTES:
                causes.add(5)
            if len(names) == NAMES:
                causes.add(7)
            names.append(said[1])
        else:
            levels = 2 ** scale[1] if scale[0] == b'hours' else scale[1] + 1
            body = said[3]
            used = [x[1] for x in body]
            degrees = [said[1]] + [x[2] for x in body if x[0] == 'above']
            if said[0] == 'rule':
                used.append(said[2])
            else:
                degrees.append(said[2])
            if any(u not in names for u in used):
                causes.add(5)
            if any(d >= levels for d in degrees):
                causes.add(9)
            if len(body) > LITERALS:
                causes.add(10)
            if len(rules) == RULES:
                causes.add(11)
            rules.append(said)
        if causes:
            return 'refused', min(causes), number, here
    if scale is None:
        return 'refused', 4, 1 + text.count(b'\n'), len(text)
    return 'granted', made(scale, names, rules)


def made(scale, names, rules):
    """The book that granted lines say."""
    out = []
    for what, a, b, body in rules:
        head, weight = (('s', names.index(b)), a) if what == 'rule' else (('b', a), b)
        lits = [(x[0], names.index(x[1])) + tuple(x[2:]) for x in body]
        out.append((head, weight, tuple(lits)))
    return scale[0].decode(), scale[1], [x.decode() for x in names], out


# ---- second reading: patterns over whole lines, cause by cause from the lowest ----

W = rb'(?<![a-z0-9_])%s(?![a-z0-9_])'
NUM = W % rb'[0-9]+'
NAM = W % rb'[a-z][a-z0-9_]*'
LIT = rb'(?:~ *' + NAM + rb'|' + NAM + rb'(?: *> *' + NUM + rb')?)'
BODY = rb'(?: *: *(?P<body>' + LIT + rb'(?: *, *' + LIT + rb')*))?'
SCALE_LINE = re.compile(rb' *scale +(luk|godel|hours) +(' + NUM + rb') *')
NAME_LINE = re.compile(rb' *name +(' + NAM + rb') *')
RULE_LINE = re.compile(rb' *rule +(' + NUM + rb') +(' + NAM + rb')' + BODY + rb' *')
BOUND_LINE = re.compile(rb' *bound +(' + NUM + rb') +(' + NUM + rb')' + BODY + rb' *')


def verdict(text):
    """granted or refused, as printed, by the patterns."""
    if len(text) >= LIMIT + 1:
        return 'refused 1 line %d byte %d' % (len(re.findall(rb'\n', text[:LIMIT])) + 1, LIMIT)
    kind = size = None
    names, count, ruled = {}, 0, 0
    spots = [(m.start(), m.group()) for m in re.finditer(rb'[^\n]+', text)]
    for at, line in spots:
        if re.fullmatch(rb' *', line):
            continue
        cause = None
        s, n = SCALE_LINE.fullmatch(line), NAME_LINE.fullmatch(line)
        r, b = RULE_LINE.fullmatch(line), BOUND_LINE.fullmatch(line)
        if re.search(rb'[^a-z0-9_ :,>~]', line):
            cause = 2
        elif re.search(W % rb'[0-9]{4,}', line):
            cause = 3
        elif not (s or n or r or b) or bool(s) != (kind is None) or (n and ruled):
            cause = 4
        elif s:
            kind, size = s.group(1).decode(), int(s.group(2))
            if size == 0 or size > (6 if kind == 'hours' else 63):
                cause = 6
        elif n:
            count += 1
            if n.group(1) in names or len(n.group(1)) > 12:
                cause = 5
            elif count > 16:
                cause = 7
            names[n.group(1)] = True
        else:
            m = r or b
            ruled += 1
            body = m.group('body') or b''
            lits = re.findall(LIT, body)
            mentioned = re.findall(NAM, body) + ([r.group(2)] if r else [])
            degrees = re.findall(NUM, body) + ([r.group(1)] if r else list(b.group(1, 2)))
            top = 2 ** size - 1 if kind == 'hours' else size
            if [x for x in mentioned if x not in names]:
                cause = 5
            elif max(map(int, degrees)) > top:
                cause = 9
            elif len(lits) > 4:
                cause = 10
            elif ruled > 64:
                cause = 11
        if cause:
            return 'refused %d line %d byte %d' % (cause, text[:at].count(b'\n') + 1, at)
    if kind is None:
        return 'refused 4 line %d byte %d' % (text.count(b'\n') + 1, len(text))
    return 'granted %s %d %d %d' % (kind, size, count, ruled)


def printed(result):
    """The first reading's result, as printed."""
    if result[0] == 'refused':
        return 'refused %d line %d byte %d' % result[1:]
    kind, size, names, rules = result[1]
    return 'granted %s %d %d %d' % (kind, size, len(names), len(rules))
