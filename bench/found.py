#!/usr/bin/env python3
"""Counts how many entailments a search for certificates finds in programs without their own.

usage: bench/found.py PROGRAM [FILE ..]          (PROGRAM is the built program `covern`; with no file, those of examples/ and the programs of docs/GUIDE.md,
which are cases of crates/covern_cases/data/guide)

Of each program that `check` accepts, the certificates are taken out, and `annotate` is asked at each depth. A row has the entailments, how many certificates the
program gives, and how many entailments stay open at each depth; or the rule that refuses the program without certificates, where that isn't V9. Programs without a
certificate in which all is shown without one have no row, and count in the last.
"""
import os
import re
import subprocess
import sys
import tempfile

TOP = os.path.dirname(os.path.dirname(os.path.abspath(__file__)))
TOKEN = re.compile(r'//[^\n]*|[a-z_][a-z0-9_]*|\s+|.', re.S)


def without_certificates(text):
    """The text without each `by { .. }`, and how many certificates these gave."""
    made, depth, given, rest = [], None, 0, list(TOKEN.findall(text))
    for at, token in enumerate(rest):
        if depth is None:
            if token == 'by':
                depth = 0
            else:
                made.append(token)
        elif token == '{':
            depth += 1
        elif token == '}':
            depth -= 1
            if depth == 0:
                depth = None
        elif token == ':':
            given += 1
    return ''.join(made), given


def guide():
    """The programs of the guide, by the names of their cases."""
    with open(os.path.join(TOP, 'crates', 'covern_cases', 'data', 'guide'), encoding='utf-8') as cases:
        parts = re.findall(r'^//// ([^\n]*)\n(.*?)^\$ check p$', cases.read(), re.M | re.S)
    return [('guide, ' + name, text) for name, text in parts]


def examples():
    folder = os.path.join(TOP, 'examples')
    for name in sorted(os.listdir(folder)):
        if name.endswith('.cov'):
            with open(os.path.join(folder, name), encoding='utf-8') as text:
                yield name, text.read()


def main():
    if len(sys.argv) < 2:
        print(__doc__, file=sys.stderr)
        return 2
    program = os.path.abspath(sys.argv[1])
    texts = [(name, open(name, encoding='utf-8').read()) for name in sys.argv[2:]] or [*examples(), *guide()]
    total = [0, 0, 0, 0, 0]
    with tempfile.TemporaryDirectory() as room:
        path = os.path.join(room, 'p')

        def says(text, *words):
            with open(path, 'w', encoding='utf-8') as file:
                file.write(text)
            return subprocess.run([program, *words], stdout=subprocess.PIPE, encoding='utf-8').stdout

        print('| program | entailments | certificates given | open at depth 0 | 1 | 2 |')
        print('|---|---|---|---|---|---|')
        for name, text in texts:
            accepted = re.match(r'accepted: .* (\d+) entailments', says(text, 'check', path))
            if not accepted:
                continue
            bare, given = without_certificates(text)
            row = [int(accepted.group(1)), given]
            for depth in '012':
                answer = says(bare, 'annotate', path, depth)
                refused = re.match(r'refused (\w+)', answer)
                row.append(refused.group(1) if refused and refused.group(1) != 'V9' else len(re.findall(r'^open ', answer, re.M)))
            total = [a + b if isinstance(b, int) else a for a, b in zip(total, row)]
            if row[1:] != [0, 0, 0, 0]:
                print('| %s | %s |' % (name, ' | '.join(map(str, row))))
        print('| in all | %s |' % ' | '.join(map(str, total)))
    return 0


sys.exit(main())
