#!/usr/bin/env python3
"""Proves a program of the repository with all that it stands on, and builds it: for the launcher.

usage: build.py CRATE PROGRAM [BACKEND]      (as build.py covern_cli /tmp/covern)

The kit's `rattle` proves the crates side by side, one a processor where there is memory for them, or as many as `RT_JOBS` says, first those behind which most is still to be
proved (by the bytes and the `?` of their code). LLVM then builds the program CRATE, or the kit's own compiler where BACKEND is `rattle`, which is sooner done and whose programs
are slower. It is written to PROGRAM, as old as the start of its build: what is edited meanwhile is newer. What is proved is kept in the folder out/ of each crate, by a sum of the
kit, of the crate's files and of all crates below it: a later build proves what has changed and what stands on that, and another program only what it needs besides. A line comes
for each crate, and the status is 1, with what `rattle` said, where one isn't proved, or takes a handle or has anything that nothing proves.

This is no gate. `rt ci` proves every crate from nothing, whatever is kept, and also that contracts can be met; it tries the must-fail edits, and plays the cases.
"""
import concurrent.futures
import hashlib
import os
import shutil
import signal
import subprocess
import sys
import tempfile
import threading
import time

TOP = os.path.dirname(os.path.abspath(__file__))
PARTS = ('src', 'specs', 'proofs')

# what a proof may take, in KiB: the largest were seen to take less
MEMORY = 3_000_000

# words of a proof that no crate of this repository may have: each says that something is done which nothing proves, or which HANDLES doesn't allow
REFUSED = {'foreign', 'hides', 'partial', 'may-abort', 'may-serve', 'may-wait', 'bugs'}


class Failed(Exception):
    """A crate isn't proved, or a program isn't built; what `rattle` said of it."""


class Kit:
    """The toolchain that `rt` on the path belongs to."""

    def __init__(self):
        rt = shutil.which('rt')
        if rt is None:
            raise Failed("rt isn't on the path")
        self.folder = os.path.dirname(os.path.dirname(os.path.realpath(rt)))
        with open(os.path.join(self.folder, 'KIT-ID'), 'rb') as identity:
            self.identity = identity.read()
        self.running = set()
        self.lock = threading.Lock()

    def path(self, *parts):
        return os.path.join(self.folder, *parts)

    def run(self, program, words, folder):
        """Runs a program of the kit, whose output is an error where it fails or proves nothing."""
        with self.lock:
            process = subprocess.Popen([self.path('bin', program), *words], cwd=folder, stdin=subprocess.DEVNULL, stdout=subprocess.PIPE,
                                       stderr=subprocess.STDOUT, encoding='utf-8', errors='replace', start_new_session=True)
            self.running.add(process)
        said, _ = process.communicate()
        with self.lock:
            self.running.discard(process)
        if process.returncode != 0:
            raise Failed('%s%s ended with status %s' % (said, program, process.returncode))
        return said

    def end(self, status):
        """Ends what runs, with all that it has begun, and this program."""
        for process in list(self.running):
            try:
                os.killpg(process.pid, signal.SIGKILL)
            except ProcessLookupError:
                pass  # it has ended
        sys.stdout.flush()
        os._exit(status)


def crates_of(root):
    """The crates that a crate stands on, itself included, each behind those below it, with the libraries that its line names."""
    with open(os.path.join(TOP, 'crates.txt'), encoding='utf-8') as text:
        lines = [line.split('#')[0].split(':') for line in text if line.split('#')[0].strip()]
    named = {name.strip(): libraries.split() for name, libraries in lines}
    if root not in named:
        raise Failed('crates.txt has no crate %s' % root)
    found = {}

    def add(name):
        for library in named[name]:
            if library in named and library not in found:
                add(library)
        found[name] = named[name]

    add(root)
    return found


def files_of(name, parts):
    """The files in these folders of a crate, by their paths in it, in order."""
    folder = os.path.join(TOP, 'crates', name)
    for part in parts:
        for at, folders, files in sorted(os.walk(os.path.join(folder, part))):
            for path in [at, *(os.path.join(at, it) for it in [*folders, *files])]:
                if os.path.islink(path):
                    raise Failed('%s is a symbolic link' % path)
            for file in sorted(files):
                yield os.path.relpath(os.path.join(at, file), folder)


def lanes_free():
    """How many proofs run side by side: one a processor, or what `RT_JOBS` says, as many as there is memory for."""
    told = os.environ.get('RT_JOBS', '')
    if told.isdecimal():
        return max(1, int(told))
    with open('/proc/meminfo', encoding='utf-8') as lines:
        free = next(int(line.split()[1]) for line in lines if line.startswith('MemAvailable:'))
    return max(1, min(len(os.sched_getaffinity(0)), free // MEMORY))


class Build:
    """The crates of a program, with the sum of each, and what is left to prove behind it."""

    def __init__(self, kit, root, backend):
        self.kit, self.root, self.backend = kit, root, backend
        self.crates = crates_of(root)
        self.sums, self.below, self.weight, self.behind = {}, {}, {}, {}
        for name, libraries in self.crates.items():
            self.below[name] = list(dict.fromkeys(it for library in self.ours(name) for it in [*self.below[library], library]))
            self.sums[name] = self.sum_of(name)
            self.weight[name] = self.weight_of(name)
        for name in reversed(list(self.crates)):
            self.behind[name] = self.weight[name] + max((self.behind[it] for it in self.crates if name in self.crates[it]), default=0)

    def ours(self, name):
        """The crates of the repository that a crate names."""
        return [it for it in self.crates[name] if it in self.crates]

    def sum_of(self, name):
        """The sum of all that a crate is proved of."""
        total = hashlib.sha256(self.kit.identity)
        total.update(repr((name, self.crates[name], [self.sums[it] for it in self.ours(name)])).encode())
        for file in files_of(name, PARTS):
            with open(os.path.join(TOP, 'crates', name, file), 'rb') as its:
                total.update(repr((file, its.read())).encode())
        return total.hexdigest()

    def weight_of(self, name):
        """About how long a proof takes, in bytes of code: as for so many, whatever the crate has; and for each `?` as for so many more (as fitted over 27 crates)."""
        texts = [open(os.path.join(TOP, 'crates', name, it), 'rb').read() for it in files_of(name, PARTS[:1])]
        return 7000 + sum(len(text) + 440 * text.count(b'?') for text in texts)

    def kept(self, name):
        """The folder in which a crate is kept. `rt ci` looks for no sources there, and leaves it as it is."""
        return os.path.join(TOP, 'crates', name, 'out', 'rlib', 'proved')

    def rlib(self, name):
        return os.path.join(self.kept(name), self.sums[name], name + '.rlib')

    def is_kept(self, name):
        """Whether a crate is kept, and all below it, over which it was proved."""
        return all(os.path.isdir(self.rlib(it)) for it in [name, *self.below[name]])

    def words(self, name, jobs):
        """What `rattle` is told of a crate."""
        kit, libraries = self.kit, self.crates[name]
        words = ['--crate-name', name, 'src/main.rt' if name == self.root else 'src/lib.rt']
        for library in ['std', *libraries]:
            found = self.rlib(library) if library in self.crates else kit.path('rlibs', library + '.rlib')
            words += ['--extern', '%s=%s' % (library, found)]
        for folder in [kit.path('rlibs'), *(os.path.dirname(self.rlib(it)) for it in self.below[name])]:
            words += ['-L', 'dependency=' + folder]
        words += ['--antt-project', kit.path('rattle', 'logic', 'antt-project.json'), '--links', name + '=']
        return words, ['--logic-built', kit.path('logic_built'), '--jobs', str(jobs)]

    def is_well(self, name, said):
        """Fails where no proof is told, or one with a word that no crate may have, or the files aren't those of the sum."""
        lines = [line for line in said.splitlines() if line.startswith('logic=proved ')]
        words = dict(word.partition('=')[::2] for word in lines[-1].split()) if lines else {}
        if not lines:
            raise Failed(said)
        beyond = sorted(word for word in words if word in REFUSED or word == 'main' and words[word])
        if beyond:
            raise Failed('%sno crate of this repository may have the words %s' % (said, ', '.join(beyond)))
        self.is_as_begun(name)

    def is_as_begun(self, name):
        """Fails where the files of a crate aren't those of its sum any more."""
        if self.sum_of(name) != self.sums[name]:
            raise Failed('the files of %s were changed meanwhile' % name)

    def prove(self, name, jobs):
        """Proves a library, and keeps its statements for the crates above it."""
        words, how = self.words(name, jobs)
        shutil.rmtree(self.kept(name), ignore_errors=True)
        os.makedirs(self.kept(name))
        made = os.path.join(tempfile.mkdtemp(prefix='new.', dir=self.kept(name)), name + '.rlib')
        said = self.kit.run('rattle', ['build', *words, *how, '--statements', '-o', made], os.path.join(TOP, 'crates', name))
        self.is_well(name, said)
        os.rename(os.path.dirname(made), os.path.dirname(self.rlib(name)))

    def program(self, jobs, to, began):
        """Proves the program, and has it compiled and linked."""
        folder, kit = os.path.join(TOP, 'crates', self.root), self.kit
        words, how = self.words(self.root, jobs)
        with tempfile.TemporaryDirectory() as made:
            compiled, linked = os.path.join(made, 'program.o'), os.path.join(made, 'program')
            said = kit.run('rattle', ['build', *words, *how, '--toolchain', kit.path('toolchain'), '--backend', self.backend, '-o', compiled], folder)
            self.is_well(self.root, said)
            kit.run('rattle-link', ['--target', 'x86_64-unknown-linux-gnu', '--toolchain', kit.path('toolchain'), '-o', linked, compiled,
                                    kit.path('c', 'libos_c.a'), kit.path('c', 'liblibc_c.a')], folder)
            for name in self.crates:
                self.is_as_begun(name)
            os.utime(linked, (began, began))
            shutil.move(linked, to)

    def parts(self, name, left, running, lanes):
        """In how many parts a crate is proved: its share of the processors, by weight beside what needn't wait for it; what runs already counts half."""
        beside = sum(self.weight[it] for it in left if it != name and name not in self.below[it]) + sum(self.weight[it] for it in running) / 2
        return max(1, min(4, lanes, round(lanes * self.weight[name] / (self.weight[name] + beside))))

    def all(self, to, began):
        """Proves all that isn't kept, side by side, and the program last."""
        lanes = lanes_free()
        done = {it for it in self.crates if self.is_kept(it)}
        left = sorted((it for it in self.crates if it not in done and it != self.root), key=lambda it: -self.behind[it])
        for name in sorted(done):
            print('%s is kept' % name, flush=True)
        running = {}
        with concurrent.futures.ThreadPoolExecutor(lanes) as pool:
            while left or running:
                ready = [it for it in left if all(below in done for below in self.below[it])]
                for name in ready:
                    if len(running) < lanes:
                        jobs = self.parts(name, left, running.values(), lanes)
                        left.remove(name)
                        running[pool.submit(self.prove, name, jobs)] = name
                for ended in concurrent.futures.wait(running, return_when=concurrent.futures.FIRST_COMPLETED).done:
                    name = running.pop(ended)
                    try:
                        ended.result()
                    except (Failed, OSError) as failed:
                        print('%s\n%s is not proved' % (failed, name), flush=True)
                        self.kit.end(1)
                    done.add(name)
                    print('%s is proved' % name, flush=True)
        self.program(lanes, to, began)
        print('%s is proved' % self.root, flush=True)


def main():
    backend = sys.argv[3] if len(sys.argv) == 4 else 'llvm'
    if len(sys.argv) not in (3, 4) or backend not in ('llvm', 'rattle'):
        print(__doc__, file=sys.stderr)
        return 2
    root, to = sys.argv[1], os.path.abspath(sys.argv[2])
    began = time.time()
    try:
        kit = Kit()
        for number in (signal.SIGTERM, signal.SIGINT, signal.SIGHUP):
            signal.signal(number, lambda number, _: kit.end(128 + number))
        os.makedirs(os.path.dirname(to), exist_ok=True)
        Build(kit, root, backend).all(to, began)
    except (Failed, OSError) as failed:
        print(failed)
        return 1
    return 0


sys.exit(main())
