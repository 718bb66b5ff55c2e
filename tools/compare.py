#!/usr/bin/env python3
"""Runs the program scenes over the books and texts of crates/vectors/data and counts how many answers agree.

usage: tools/compare.py [PROGRAM]    (default: crates/scenes/out/scenes, which ./scenes builds)
"""
import os
import subprocess
import sys

HERE = os.path.dirname(os.path.abspath(__file__))
PROGRAM = sys.argv[1] if len(sys.argv) > 1 else os.path.join(HERE, '../crates/scenes/out/scenes')


def printed(text):
    return subprocess.run([PROGRAM], input=text, capture_output=True, check=True).stdout


def books():
    case, text, expected, part = None, [], [], None
    for line in open(os.path.join(HERE, '../crates/vectors/data/books.txt')).read().split('\n'):
        if line.startswith('#case') or line.startswith('#end'):
            if case:
                yield case, '\n'.join(text) + '\n', '\n'.join(expected) + '\n'
            case, text, expected, part = line[6:], [], [], text
            part = text
        elif line.startswith('#expect'):
            part = expected
        elif part is not None:
            part.append(line)


def texts():
    text = None
    for line in open(os.path.join(HERE, '../crates/vectors/data/texts.txt')).read().split('\n'):
        if line.startswith('#text'):
            text = bytes.fromhex(line[6:].strip())
        elif line.startswith('#expect'):
            yield text, line[8:]


def main():
    good = bad = 0
    for case, text, expected in books():
        if printed(text.encode()).decode() == expected:
            good += 1
        else:
            bad += 1
            print('book', case)
    print(f'books: {good} agree, {bad} differ')
    wrong = bad
    good = bad = 0
    for text, expected in texts():
        first = printed(text).decode().split('\n')[0]
        # a granted text prints scenes, or a refusal that does not come from the text
        same = first == expected if expected.startswith('refused') else not first.startswith('refused') or first.endswith('line 0 byte 0')
        if same:
            good += 1
        else:
            bad += 1
            print('text', text[:60], expected, first)
    print(f'texts: {good} agree, {bad} differ')
    sys.exit(1 if wrong + bad else 0)


main()
