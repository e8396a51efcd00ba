#!/usr/bin/env python3
"""Draws an assignment of an open answer: python3 draw.py < LINE > PICTURE.dot

LINE is a line `n holds ..` or `n fails ..` of the program's output. The picture is a graph in DOT. It has one node for each bound
variable, which shows its symbol, and from there an edge to each argument, with the argument's number; and it has the name of each
free variable, with an arrow to the root of its tree."""
import re
import sys

WORD = r'[A-Z]\w*'
LINE = re.compile(r'\d+ (?:holds|fails) exists (%s(?: %s)*): \((.*)\)\n?' % (WORD, WORD), re.ASCII)
NODE = re.compile(r'(%s) = ([a-z]\w*|\$\d+)(?:\((%s(?:, %s)*)\))?' % (WORD, WORD, WORD), re.ASCII)
ROOT = re.compile(r'(%s) = (%s)' % (WORD, WORD), re.ASCII)


def refuse(what):
    sys.exit('draw.py: %s' % what)


def equation(form, text):
    """What stands at the places of an equation of this form."""
    found = form.fullmatch(text)
    return found.groups() if found else refuse('no equation of an assignment: %s' % text)


def assignment(line):
    """The nodes, each with its symbol and its arguments, and each free variable with its node."""
    found = LINE.fullmatch(line)
    if not found:
        refuse('this is not one line `n holds ..` or `n fails ..`')
    names = found[1].split(' ')
    equations = found[2].split(' & ')
    nodes = [equation(NODE, text) for text in equations[:len(names)]]
    roots = [equation(ROOT, text) for text in equations[len(names):]]
    if [node[0] for node in nodes] != names:
        refuse('there is not one equation for each bound variable, in their order')
    nodes = [(name, symbol, args.split(', ') if args else []) for name, symbol, args in nodes]
    pointed = [arg for _, _, args in nodes for arg in args] + [root for _, root in roots]
    if not set(pointed) <= set(names):
        refuse('an argument or a root is no bound variable')
    return nodes, roots


def dot(nodes, roots):
    """The lines of the graph."""
    yield 'digraph {'
    for name, symbol, _ in nodes:
        yield '  "%s" [label="%s"];' % (name, symbol)
    for name, _ in roots:
        yield '  "%s" [shape=plaintext];' % name
    for name, _, args in nodes:
        for number, arg in enumerate(args, 1):
            yield '  "%s" -> "%s" [label="%d"];' % (name, arg, number)
    for name, root in roots:
        yield '  "%s" -> "%s" [style=dashed];' % (name, root)
    yield '}'


print('\n'.join(dot(*assignment(sys.stdin.read()))))
