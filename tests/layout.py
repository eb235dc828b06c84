#!/usr/bin/env python3
"""Holds every file to the layout that CONTRIBUTING.md asks: no line of a .rt, .antt or .md file over 160 columns; in proofs one `let` to a line, and a path
of more than six `.before` only in a helper at the top of its file, typed by the places that it leads from and to.

Tries itself first on small files that break each rule. Run from the repository's root. Prints one line; exits with 1 where something does not hold."""
import os
import re
import sys

WIDEST = 160
LONGEST = 6
PATH = re.compile(r'(?:\s*\.before\b){%d,}' % (LONGEST + 1))
ANSWER = re.compile(r'^(?:pub )?\S+ : (?:goal\.|tie\.Need-)', re.M)
HELPER = re.compile(r'^(?:abbrev )?\S+ : (?:\(\S+ : )?tie\.', re.M)


def declarations(text):
    """Each stretch between blank lines, with the place where it begins."""
    at = 0
    for part in re.split(r'(\n\n+)', text):
        if part.strip():
            yield at, part
        at += len(part)


def line_of(text, at):
    return text.count('\n', 0, at) + 1


def faults(name, text):
    """What a file of that name and text breaks: line and rule."""
    for number, line in enumerate(text.split('\n'), 1):
        if len(line) > WIDEST:
            yield number, '%d columns' % len(line)
        if name.endswith('.antt') and re.search(r'\blet\b.*\bin let\b', line.split('--')[0]):
            yield number, 'two `let`s on a line'
    if name.endswith('.antt'):
        first = ANSWER.search(text)
        for at, part in declarations(text):
            for path in PATH.finditer(part):
                if not (first and at < first.start() and HELPER.search(part)):
                    yield line_of(text, at + path.start()), 'a path of more than %d steps outside a helper at the top' % LONGEST


SIX = ' .before' * 6
BROKEN = (
    ('wide.rt', '// ' + 'x' * WIDEST),
    ('wide.antt', '-- ' + 'x' * WIDEST),
    ('wide.md', 'x' * (WIDEST + 1)),
    ('lets.antt', 'f c = let a = c in let b = a in b'),
    ('answer.antt', 'returns : tie.Need-returns\nreturns c = c .before%s .pre' % SIX),
    ('lines.antt', 'returns : tie.Need-returns\nreturns c = c%s\n    .before .pre' % SIX),
    ('late.antt', 'returns : tie.Need-returns\nreturns c = tt\n\nentry : tie.Else1 → tie.Start\nentry c = c .before%s' % SIX),
    ('law.antt', 'entry : ℕ → ℕ\nentry c = c .before%s\n\nreturns : tie.Need-returns\nreturns c = tt' % SIX),
)
SOUND = (
    ('wide.rt', '//' + 'x' * (WIDEST - 2)),
    ('lets.antt', 'f c =\n    let a = c in\n    let b = a in\n    b'),
    ('answer.antt', 'returns : tie.Need-returns\nreturns c = c%s .pre' % SIX),
    ('entry.antt', 'abbrev entry : tie.Else1 → tie.Start\nentry c = c .before%s\n\nreturns : tie.Need-returns\nreturns c = tt' % SIX),
)


def files():
    for folder, below, names in os.walk('.'):
        below[:] = sorted(d for d in below if d not in ('.git', 'target', 'out'))
        for name in sorted(names):
            if name.endswith(('.rt', '.antt', '.md')):
                yield os.path.join(folder, name)


def main():
    for name, text in BROKEN:
        if not list(faults(name, text)):
            sys.exit('layout: the example %s breaks a rule and was not told' % name)
    for name, text in SOUND:
        if list(faults(name, text)):
            sys.exit('layout: the example %s keeps the rules and was told' % name)
    told = 0
    count = 0
    for path in files():
        count += 1
        with open(path, encoding='utf-8') as file:
            for line, rule in faults(path, file.read()):
                print('%s:%d: %s' % (path[2:], line, rule))
                told += 1
    if told:
        sys.exit('layout: %d places' % told)
    print('layout: %d files, none over %d columns' % (count, WIDEST))


main()
