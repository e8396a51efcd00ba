#!/usr/bin/env python3
"""Lets the program read its own open answers: python3 docs/read_again.py PROGRAM [FIRST]

It makes a random file for each seed from FIRST on, every second one with predicates and moves of a game, until the program has given
1,000 open answers. Where a statement S is answered `n open F`, `n else G`, `n holds A`, `n fails B`, a second file with the same
declarations asks for `(F) <-> (S)`, `~((G) <-> (S))`, and whether some trees satisfy `(A) & (S)` and `(B) & ~(S)`. Each of these
has to be `true`. PROGRAM may have several words, in one argument."""
import os
import random
import re
import shlex
import subprocess
import sys
import tempfile

WANTED = 1000
STATEMENTS = 10
SECONDS = 60
MOST_LATE = 100
# What may stand in one statement is 1000 `&`, `|` and variables of quantifiers together; an answer stands in it with its question.
JOINTS = 900
FREE = ('X', 'Y', 'Z', 'V0')
SYMBOLS = 'symbol f/1, g/2, a/0, b/0.'


def term(r, variables, depth):
    if depth == 0 or r.random() < .5:
        return r.choice(variables + ('a', 'b', '$1'))
    symbol, arity = r.choice((('f', 1), ('f', 1), ('g', 2), ('g', 2), ('$2', 1), ('$0', 2)))
    return '%s(%s)' % (symbol, ', '.join(term(r, variables, depth - 1) for _ in range(arity)))


def atom(r, variables, calls):
    form = r.choice(('%s = %s', '%s = %s', '%s != %s', 'finite(%s)') + calls)
    return form % tuple(term(r, variables, r.randrange(3)) for _ in range(form.count('%s')))


def formula(r, variables, depth, calls):
    if depth == 0 or r.random() < .1:
        return atom(r, variables, calls)
    kind = r.choice(('&', '&', '|', '|', '->', '<->', '~', 'exists', 'exists', 'forall', 'forall'))
    if kind == '~':
        return '~(%s)' % formula(r, variables, depth - 1, calls)
    if kind in ('exists', 'forall'):
        bound = tuple(r.sample(('U', 'V1') + FREE, r.randint(1, 2)))
        return '%s %s: (%s)' % (kind, ' '.join(bound), formula(r, variables + bound, depth - 1, calls))
    return '(%s) %s (%s)' % (formula(r, variables, depth - 1, calls), kind, formula(r, variables, depth - 1, calls))


MOVES = ('X = f(Y)', 'X = f(f(Y))', 'X = g(Y, Y)', 'X = g(a, Y)', 'exists U: X = g(U, Y)', 'exists U: (X = g(Y, U) & U != Y)', 'X = a & Y = b',
         'X = $2(Y) & finite(Y)', 'X = f(Y) & ~finite(X)')


def declarations(seed, r):
    """The declarations of a file, and the forms of the calls that they allow."""
    if seed % 2 == 0:
        return SYMBOLS, ()
    moves = 'pred move(X, Y) := %s.' % ' | '.join(r.sample(MOVES, r.randint(1, 2)))
    calls = ('move(%s, %s)', 'win(move, 1, %s)', 'win(move, 2, %s)')
    other = 'pred is(X) := %s.' % formula(r, ('X',), 2, ('move(%s, %s)', 'win(move, 1, %s)'))
    return '\n'.join((SYMBOLS, moves, other)), calls + ('is(%s)', 'is(%s)')


def run(words, path, head, statements):
    """The lines of each statement's answer, each without its number, or None where the time does not suffice."""
    with open(path, 'w') as file:
        file.write('\n'.join([head] + ['solve %s.' % s for s in statements]) + '\n')
    try:
        ended = subprocess.run(words + [path], capture_output=True, text=True, timeout=SECONDS)
    except subprocess.TimeoutExpired:
        return None
    if ended.returncode != 0 or ended.stderr:
        sys.exit('exit %d, %s, of\n%s' % (ended.returncode, ended.stderr.strip(), open(path).read()))
    answers = [[] for _ in statements]
    for line in ended.stdout.splitlines():
        found = re.fullmatch(r'(\d+) (.+)', line)
        if not found or not 1 <= int(found[1]) <= len(statements):
            sys.exit('no line of an answer: %s' % line)
        answers[int(found[1]) - 1].append(found[2])
    return answers


def questions(statement, answer):
    """What the four lines of an open answer are asked."""
    words, _, texts = zip(*(line.partition(' ') for line in answer)) if answer else ((), (), ())
    if words != ('open', 'else', 'holds', 'fails'):
        sys.exit('no answer: %s\nto %s' % (answer, statement))
    some = 'exists %s: ' % ' '.join(FREE)
    forms = ('(%s) <-> (%s)', '~((%s) <-> (%s))', some + '((%s) & (%s))', some + '((%s) & ~(%s))')
    return [form % (text, statement) for form, text in zip(forms, texts)]


def joints(question):
    lists = re.findall(r'(?:exists|forall) ([^:]*):', question)
    return question.count('&') + question.count('|') + sum(len(names.split()) for names in lists)


def main(words, seed):
    given = left_out = late = 0
    with tempfile.TemporaryDirectory() as folder:
        path = os.path.join(folder, 'file.tree')
        while given < WANTED:
            r = random.Random(seed)
            head, calls = declarations(seed, r)
            statements = [formula(r, FREE[:r.randint(1, len(FREE))], r.randint(1, 3), calls) for _ in range(STATEMENTS)]
            answers = run(words, path, head, statements)
            asked = [q for s, a in zip(statements, answers or []) if a not in (['true'], ['false']) for q in questions(s, a)]
            short = [q for q in asked if joints(q) <= JOINTS]
            again = run(words, path, head, short)
            if answers is None or again is None:
                late += 1
                if late == MOST_LATE:
                    sys.exit('%d files are too slow' % late)
            else:
                wrong = [q for q, a in zip(short, again) if a != ['true']]
                if wrong:
                    sys.exit('seed %d: not true: %s\nwith %s' % (seed, wrong[0], head))
                given += len(asked) // 4
                left_out += len(asked) - len(short)
            seed += 1
    print('%d open answers read again, and right; %d questions on them left out as too long, and %d files as too slow' % (given, left_out, late))


main(shlex.split(sys.argv[1]), int(sys.argv[2]) if len(sys.argv) > 2 else 1)
