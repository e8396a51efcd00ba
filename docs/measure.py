#!/usr/bin/env python3
"""Processor times of the built program, on equations and on long files, and the stack that it takes: python3 docs/measure.py PROGRAM"""
import os
import resource
import subprocess
import sys
import tempfile

RUNS = 200


def chain(n):
    """Each of n variables is f of the next; the last one is free to be anything."""
    return ['X%d' % i for i in range(n + 1)], ['X%d = f(X%d)' % (i, i + 1) for i in range(n)]


def rings(n):
    """Two rings of lengths without a common divisor, of n - 1 equations in all, and one that makes them one tree."""
    a, b = n // 2, n - 1 - n // 2
    equations = ['X%d = f(X%d)' % (i, (i + 1) % a) for i in range(a)] + ['Y%d = f(Y%d)' % (i, (i + 1) % b) for i in range(b)]
    return ['X%d' % i for i in range(a)] + ['Y%d' % i for i in range(b)], equations + ['X0 = Y0']


def once(program, path):
    """The processor's time of one run, in milliseconds, and what it writes."""
    run = subprocess.Popen([program, path], stdout=subprocess.PIPE, stderr=subprocess.DEVNULL)
    answer = run.stdout.read().decode().strip()
    _, status, used = os.wait4(run.pid, 0)
    return (used.ru_utime + used.ru_stime) * 1000, answer, os.waitstatus_to_exitcode(status)


def least(program, path, text, runs=RUNS, wanted=0):
    """The least time of a run, and what each writes."""
    with open(path, 'w') as file:
        file.write(text)
    taken, answer, status = min(once(program, path) for _ in range(runs))
    assert status == wanted, status
    return taken, answer


HEAD = 'symbol f/8, g/2, a/0.\n'

QUESTION = 'solve exists X Y: (X = g(Y, X) & g(a, Y) = g(Y, a)).\n'

# a last statement for which a file is refused when all before it was read
FAULT = 'solve q.\n'


def padded(text, n):
    assert len(text) <= n
    return text + ' ' * (n - len(text))


def repeated(line, n, end=''):
    """The declarations, this line as often as it fits, and this end."""
    return padded(HEAD + line * ((n - len(HEAD) - len(end)) // len(line)) + end, n)


def term(parts):
    """A term of symbols with 8 arguments, in which these stand from left to right."""
    while len(parts) > 1:
        parts = parts + ['a'] * (-len(parts) % 8)
        parts = ['f(%s)' % ','.join(parts[i:i + 8]) for i in range(0, len(parts), 8)]
    return parts[0]


def long_term(head, name, n):
    """This head, a term of as many variables as fit, and a fault."""
    low, high = 1, n // 2
    while low < high:
        middle = (low + high + 1) // 2
        fits = len(head) + len(term([name(i) for i in range(middle)])) + len(FAULT) + 2 <= n
        low, high = (middle, high) if fits else (low, middle - 1)
    return padded(head + term([name(i) for i in range(low)]) + '.\n' + FAULT, n)


def declarations(n):
    """4096 symbols, each with a long name and a comment behind it."""
    room = (n - 100) // 4093
    lines = ['symbol s%d_%s/8. %%' % (i, 'x' * (40 - len(str(i)))) for i in range(4093)]
    return padded(HEAD + ''.join(line + 'c' * (room - len(line) - 1) + '\n' for line in lines), n)


def bound(n):
    """999 variables of two letters behind one quantifier, and then uses of the last of them."""
    tails = [chr(c) for c in list(range(65, 91)) + list(range(97, 123)) + list(range(48, 58))]
    names = [chr(c) + tail for c in range(65, 91) for tail in tails][:999]
    return long_term(HEAD + 'pred p(X) := exists %s: X = ' % ' '.join(names), lambda i: names[-1], n)


KINDS = {
    'declarations of 4096 symbols': declarations,
    'questions': lambda n: repeated(QUESTION, n),
    'questions between comments': lambda n: repeated('% a comment, which takes most of the file, and says nothing\n' + QUESTION, n),
    'one comment': lambda n: HEAD + 'solve exists X: X = a %' + 'c' * (n - 60) + '\n.',
    'one formula, all variables distinct': lambda n: long_term(HEAD + 'solve X = ', lambda i: 'V%d' % i, n),
    'uses of one of 999 bound variables': bound,
    '1000 times `&`, again and again': lambda n: repeated('solve true%s.\n' % (' & true' * 1000), n, FAULT),
    '200 nestings, again and again': lambda n: repeated('solve %sX = a%s.\n' % ('(' * 200, ')' * 200), n, FAULT),
    '199 quantifiers of 5 variables, again and again': lambda n: repeated(
        'solve %sA0 = E198.\n' % ''.join('exists A%d B%d C%d D%d E%d: ' % (5 * (i,)) for i in range(199)), n, FAULT),
    'predicates of 999 `&`, `|` and variables': lambda n: padded(HEAD + ''.join(
        'pred p%03d(X, Y) := %strue.\n' % (i, 'exists Z: (X = g(Z, Y) & finite(Z)) | ' * 333) for i in range((n - 40) // 12_700)) + FAULT, n),
    'questions, and a fault': lambda n: repeated(QUESTION, n, FAULT),
}


def long_files(program, path, start):
    for kind, text in KINDS.items():
        times = []
        for n in (250_000, 1_000_000):
            with open(path, 'w') as file:
                file.write(text(n))
            times.append(min(once(program, path)[0] for _ in range(10)) - start)
        _, answer, status = once(program, path)
        told = '%d answers' % len(answer.splitlines()) if status == 0 else 'refused'
        print('%s: %s, %.0f and %.0f ms more, ratio %.1f' % (kind, told, *times, times[1] / times[0]))
    taken, _ = least(program, path, '(' * 1_048_576, 10, 1)
    print('1048576 times `(`: refused, %.2f ms more' % (taken - start))
    taken, _ = least(program, path, 'solve ' + '(' * 1_048_570, 10, 1)
    print('`solve ` and 1048570 times `(`: refused, %.2f ms more' % (taken - start))


DEEP = {
    '200 parentheses round a formula': 'solve %sX = X%s.' % ('(' * 200, ')' * 200),
    '200 quantifiers, one in the other': 'solve %sX = X.' % ('exists X: ' * 200),
    '200 arrows in a row': 'solve %strue.' % ('true -> ' * 200),
    '199 terms, one in the other': 'symbol f/1. solve exists X: X = %sX%s.' % ('f(' * 199, ')' * 199),
    '1000 times `&` in a row': 'solve true%s.' % (' & true' * 1000),
    '1000 variables behind one quantifier': 'solve exists%s: X0 = X999.' % ''.join(' X%d' % i for i in range(1000)),
}


def with_stack(program, path, kilobytes):
    """What a run on this much stack writes, and how it ends."""
    def limit():
        resource.setrlimit(resource.RLIMIT_STACK, (kilobytes * 1024, kilobytes * 1024))
    run = subprocess.run([program, path], capture_output=True, preexec_fn=limit)
    return run.returncode, run.stdout, run.stderr


def stacks(program, path):
    for kind, text in DEEP.items():
        with open(path, 'w') as file:
            file.write(text)
        wanted = with_stack(program, path, 8192)
        low, high = 0, 8192
        while high - low > 16:
            middle = (low + high) // 2
            low, high = (low, middle) if with_stack(program, path, middle) == wanted else (middle, high)
        print('%s: %s, on %d KB of stack' % (kind, (wanted[1] or wanted[2]).decode().strip(), high))


def main(program):
    with tempfile.TemporaryDirectory() as folder:
        path = os.path.join(folder, 'file.tree')
        start = least(program, path, 'symbol f/1.')[0]
        print('no equation: %.2f ms' % start)
        for form in (chain, rings):
            first = None
            for n in (10, 100, 480):
                variables, equations = form(n)
                text = 'symbol f/1. solve exists %s: (%s).' % (' '.join(variables), ' & '.join(equations))
                taken, answer = least(program, path, text)
                work = taken - start
                first = first or work
                print('%s of %d: %s, %.3f ms more, ratio %.1f' % (form.__name__, n, answer, work, work / first))
        long_files(program, path, start)
        stacks(program, path)


main(sys.argv[1])
