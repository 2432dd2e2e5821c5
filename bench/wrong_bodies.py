#!/usr/bin/env python3
"""Tries wrong bodies that the check must refuse, and that the gate doesn't try.

usage: bench/wrong_bodies.py [CRATE ..]          (with no crate, those of all crates)

wrong_bodies/CRATE/NAME.edit is an edit of the sources of a crate, in the form of those in crates/CRATE/must-fail. `rt must-fail` tries them in a copy of the
repository, over the libraries that are built in it or are built then. It prints a line for each, and the status is 0 where each is refused. An edit takes half a
minute or so, and the first of a crate what its proof takes.
"""
import os
import shutil
import subprocess
import sys
import tempfile

HERE = os.path.dirname(os.path.abspath(__file__))
TOP = os.path.dirname(HERE)
EDITS = os.path.join(HERE, 'wrong_bodies')


def main():
    crates = sys.argv[1:] or sorted(os.listdir(EDITS))
    without = [it for it in crates if not os.path.isdir(os.path.join(EDITS, it))]
    if without:
        print('no edits here: ' + ' '.join(without))
        return 2
    with tempfile.TemporaryDirectory(prefix='covern-wrong-bodies-') as room:
        for name in ('crates.txt', 'HANDLES'):
            shutil.copy(os.path.join(TOP, name), room)
        shutil.copytree(os.path.join(TOP, 'crates'), os.path.join(room, 'crates'), ignore=shutil.ignore_patterns('must-fail'))
        for crate in crates:
            shutil.copytree(os.path.join(EDITS, crate), os.path.join(room, 'crates', crate, 'must-fail'))
        return subprocess.run(['rt', 'must-fail', *crates], cwd=room).returncode


sys.exit(main())
