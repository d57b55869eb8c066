"""Prints the facts that stand in the `requires` of three functions or more of crates/*/src, the most frequent first (docs/DESIGN-PASS.md, point 5)."""
import collections
import glob
import re

REQUIRES = re.compile(r'fn \w+[^{]*?\n\s*requires(?: \w+)? \{ (.*) \}\n')


def at_top(text):
    """The parts of a text between the products that stand in no parentheses."""
    parts, depth, part = [], 0, ''
    for c in text:
        depth += (c == '(') - (c == ')')
        if c == '×' and depth == 0:
            parts.append(part)
            part = ''
        else:
            part += c
    return [p.strip() for p in parts + [part]]


def wrapped(text):
    """Whether the text's first parenthesis is closed by its last."""
    depth = 0
    for i, c in enumerate(text):
        depth += (c == '(') - (c == ')')
        if depth == 0:
            return text.startswith('(') and i == len(text) - 1
    return False


def facts(text):
    parts = at_top(text)
    if len(parts) > 1:
        return [f for p in parts for f in facts(p)]
    return facts(parts[0][1:-1]) if wrapped(parts[0]) else parts


counts = collections.Counter()
for path in sorted(glob.glob('crates/*/src/**/*.rt', recursive=True)):
    with open(path) as source:
        for clause in REQUIRES.findall(source.read()):
            counts.update(facts(clause))
for fact, n in counts.most_common():
    if n >= 3:
        print(n, fact)
