"""Reads the three data files as a consumer would and settles every case again by brute force.

usage: python3 tools/check.py [DIRECTORY]
"""
import os
import sys

import defs
import reader

HERE = os.path.dirname(os.path.abspath(__file__))


def book_cases(path):
    """(name, text, expected lines)"""
    out, lines = [], open(path).read().split('\n')
    assert lines[-2:] == ['#end', '']
    mode = None
    for line in lines[:-2]:
        if line.startswith('#case '):
            out.append((line[6:], [], []))
            mode = 1
        elif line == '#expect':
            mode = 2
        else:
            assert not line.startswith('#')
            out[-1][mode].append(line)
    return [(n, '\n'.join(t) + '\n', e) for n, t, e in out]


def text_cases(path):
    lines = open(path).read().split('\n')[:-1]
    for a, b in zip(lines[::2], lines[1::2]):
        assert a.startswith('#text ') and b.startswith('#expect ')
        yield bytes.fromhex(a[6:]), b[8:]


def pair_cases(path):
    out, mode = [], None
    for line in open(path).read().split('\n')[:-1]:
        if line.startswith('#pair '):
            out.append([line[6:], '', '', None])
            mode = 1
        elif line == '#second':
            mode = 2
        elif line.startswith('#expect '):
            out[-1][3] = line[8:]
        else:
            assert not line.startswith('#')
            out[-1][mode] += line + '\n'
    return out


def expected(book):
    sc = defs.scale_of(book)
    found = defs.scenes(book)
    return [' '.join(map(str, (defs.position(sc, u), r) + u)) for u, r in found] + ['scenes %d' % len(found)]


def main():
    where = sys.argv[1] if len(sys.argv) > 1 else os.path.join(HERE, '../crates/vectors/data')
    n = 0
    for name, text, want in book_cases(os.path.join(where, 'books.txt')):
        assert len(text) <= 8192 and expected(reader.read(text.encode())[1]) == want, name
        n += 1
    print('books', n, 'hold')
    n = 0
    for text, want in text_cases(os.path.join(where, 'texts.txt')):
        assert reader.printed(reader.read(text)) == reader.verdict(text) == want, text
        n += 1
    print('texts', n, 'hold')
    n = 0
    for name, a, b, want in pair_cases(os.path.join(where, 'pairs.txt')):
        one, two = reader.read(a.encode())[1], reader.read(b.encode())[1]
        assert one[:3] == two[:3], name
        assert (defs.differing_pair(one, two) is None) == (want == 'equal'), name
        n += 1
    print('pairs', n, 'hold')


if __name__ == '__main__':
    main()
