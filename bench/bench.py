#!/usr/bin/env python3
"""Times `covern check` and `covern fmt` on texts that it makes, and checks of certificates and of modes, and prints a table of each.

usage: bench/bench.py [PROGRAM [PARTS]]    (the built programs; without them, the one that the launcher built, and what
                                           `rt run` or `rt ci` left in crates/covern_cases/out)

A time is the least processor time (user and system) of several runs, less that of a run on the empty text. The peak memory
is what the system counts as the most that was resident. Where valgrind is on the path, callgrind counts the instructions of one run
of each text, a count that is the same whatever else the machine does. Where rustc is on the path, the same texts are given to programs in plain
Rust that do the same work: bench/plain/check.rs for `check`, bench/plain/main.rs for the rest. It wants Linux.

A time of a check of a certificate is the difference of two runs of PARTS that differ in how often they check, over how often
that is.

The status is 1 where a criterion fails: twice the text takes at most 2.3 times the time, memory stays under 100 bytes per
byte of text, and that of `fmt` under 300 bytes per token. Twice the nodes that a check of a certificate looks at take at most
2.3 times the time, where the expressions fit into a processor's cache, and no check takes more than three times that of the
plain program. The rules of modes take less than a millisecond for as many variables, locks and threads as there may be, and less
than ten times the time of the plain program.
"""
import os
import re
import shutil
import subprocess
import sys
import tempfile
import time

import certificates

TOP = os.path.dirname(os.path.dirname(os.path.abspath(__file__)))
ROUNDS, RUNS = 6, 10
LIMIT = 1_048_576
MOST_GROWTH = 2.3
MOST_MEMORY = 100
MOST_PER_TOKEN = 300
MOST_OF_PLAIN = 3
MOST_FOR_MODES, MOST_OF_PLAIN_MODES = 0.001, 10


def program_text(statements, variables, threads=16, name_length=22):
    """A text that is accepted: assignments between low variables, of about 50 bytes each."""
    names = [f"v{i:03}".ljust(name_length, "_") for i in range(variables)]
    lines = [f"var {name}: low;" for name in names]
    made = 0
    for t in range(threads):
        lines.append(f"thread t{t} {{")
        for _ in range(statements * (t + 1) // threads - statements * t // threads):
            lines.append(f"{names[made * 7 % variables]} := {names[(made * 5 + 1) % variables]};")
            made += 1
        lines.append("}")
    return ("\n".join(lines) + "\n").encode()


def whole_text(statements, variables, threads=16):
    """A text of the whole language: every kind of statement, with expressions, states and certificates."""
    names = [f"v{i:03}___" for i in range(variables)]
    lines = [f"var {name}: low;" for name in names]
    lines.append(f"lock l nowrite {names[0]} hide {names[1]} inv {names[0]} <= 3;")
    made = 0

    def name():
        nonlocal made
        made += 1
        return names[made * 7 % variables]

    forms = [
        lambda: f"{name()} := ({name()} + 1) * {name()} as {name()} == 0;",
        lambda: f"{name()} := {name()} & 255 retype {name()} as {name()} by {{ 1: hyp 1 }};",
        lambda: f"if {name()} < {name()} && !{name()} {{ skip; }} else {{ }} join {{ {name()} <= 3 ; {name()}: 0 }}",
        lambda: f"while {name()} inv {{ {name()} }} {{ lock l; unlock l; }}",
        lambda: f"note {{ {name()} }} by {{ 1: have [{name()} == 0] (hyp 1) (and auto calc) }};",
    ]
    counts = [1, 1, 2, 3, 1]
    total = 0
    for t in range(threads):
        lines.append(f"thread t{t} {{")
        i = 0
        while total < statements * (t + 1) // threads:
            lines.append(forms[i % len(forms)]())
            total += counts[i % len(forms)]
            i += 1
        lines.append("}")
    return ("\n".join(lines) + "\n").encode()


def modes_text(variables, locks, threads):
    """A text of declarations with many modes: half the variables under locks, the others assumed by threads and guaranteed by all
    other threads, each second variable with a control."""
    half = variables // 2
    per_lock, per_thread = half // locks, half // threads
    lines = []
    for x in range(variables):
        first = x - x % (per_lock if x < half else per_thread)
        lines.append(f"var x{x}: low{'' if x == first else f' when x{first} == 0'};")
    for l in range(locks):
        names = ", ".join(f"x{x}" for x in range(l * per_lock, (l + 1) * per_lock))
        lines.append(f"lock l{l} nowrite {names};")
    for t in range(threads):
        own = [f"x{x}" for x in range(half + t * per_thread, half + (t + 1) * per_thread)]
        others = [f"x{x}" for x in range(half, half + threads * per_thread) if f"x{x}" not in own]
        lines.append(f"thread t{t} assume nowrite {', '.join(own)} guarantee nowrite {', '.join(others)} {{ }}")
    return ("//// modes\n" + "\n".join(lines) + "\n").encode()


def tokens_in(text):
    """How many tokens a text has."""
    return len(re.findall(rb"[a-z][a-z0-9_]*|[0-9]+|:=|==|!=|<=|&&|\|\||[^ \t\r\n]", re.sub(rb"//[^\n]*", b"", text)))


def comment_text(end=b""):
    """A text of comments alone in front of an end, as long as a text may be."""
    line = b"// " + b"x" * 76 + b"\n"
    text = line * ((LIMIT - len(end)) // len(line))
    return text + b"/" * (LIMIT - len(text) - len(end)) + end


def started(words, output):
    return os.posix_spawn(words[0], words, os.environ, file_actions=[(os.POSIX_SPAWN_DUP2, output, 1)])


def ended(child):
    """What a run used, which has to judge the text: accepted, refused or malformed."""
    _, status, usage = os.wait4(child, 0)
    if os.waitstatus_to_exitcode(status) not in (0, 1, 3):
        sys.exit(f"a run ended with status {os.waitstatus_to_exitcode(status)}")
    return usage


def time_of(words, runs=RUNS):
    """The least processor seconds of several runs."""
    times = []
    with open(os.devnull, "wb") as nowhere:
        for _ in range(runs):
            usage = ended(started(words, nowhere.fileno()))
            times.append(usage.ru_utime + usage.ru_stime)
    return min(times)


def instructions_of(words):
    """How many instructions a run takes, where there is a valgrind to count them."""
    if not shutil.which("valgrind"):
        return None
    counting = ["valgrind", "--tool=callgrind", "--callgrind-out-file=/dev/null"]
    done = subprocess.run(counting + words, stdout=subprocess.DEVNULL, stderr=subprocess.PIPE, check=False)
    return int(re.search(rb"Collected : (\d+)", done.stderr).group(1))


def counted_cells(program, plain, empty, row):
    """The millions of instructions of a text and their ratio to those of the plain program, less what the empty text takes."""
    counts = [[instructions_of([made, row.command, path]) for path in (row.path, empty.path)] if made else [None] for made in (program, plain)]
    if counts[0][0] is None:
        return ["", ""]
    ours, theirs = (count[0] - count[1] if count[0] else None for count in counts)
    return [f"{ours / 1e6:.1f}", f"{ours / theirs:.2f}" if theirs else ""]


COUNTED_HEAD = ["million instructions", "of plain's"]


def peak_of(program, command, path):
    """The peak resident bytes of a run. It is read while the program waits to write its report to a full pipe.

    (The peak that wait4 gives isn't less than what this script itself has.)
    """
    read_end, write_end = os.pipe()
    os.set_blocking(write_end, False)
    try:
        while True:
            os.write(write_end, bytes(4096))
    except BlockingIOError:
        os.set_blocking(write_end, True)
    child = started([program, command, path], write_end)
    os.close(write_end)
    while True:
        with open(f"/proc/{child}/status") as status:
            said = dict(line.split(":", 1) for line in status)
        if said["State"].split()[0] in "SZ":
            break
        time.sleep(0.001)
    with os.fdopen(read_end, "rb") as output:
        output.read()
    ended(child)
    return int(said["VmHWM"].split()[0]) * 1024


class Row:
    """A text, and the least times of a command of the program and of the plain one on it. `half` is the row of half the text."""

    def __init__(self, folder, command, name, text, half=None):
        self.command, self.name, self.size, self.half = command, name, len(text), half
        self.tokens = tokens_in(text) if command == "fmt" else None
        self.path = os.path.join(folder, name.split()[0] + str(id(self)))
        with open(self.path, "wb") as out:
            out.write(text)
        self.seconds = self.plain_seconds = float("inf")

    def run(self, program, plain):
        self.seconds = min(self.seconds, time_of([program, self.command, self.path]))
        if plain:
            self.plain_seconds = min(self.plain_seconds, time_of([plain, self.command, self.path]))


class CertificateRow:
    """A text with a certificate, and the least times of both programs for one check of it and for so many."""

    def __init__(self, folder, measured, half):
        self.name, self.nodes, self.times, self.is_small = measured.name, measured.nodes, measured.times, measured.is_small
        self.half = half
        self.path = os.path.join(folder, str(id(self)))
        with open(self.path, "w") as out:
            out.write(measured.text)
        self.least = {}

    def run(self, program):
        """Measures a program, which is given by the words before the number of checks."""
        for count in (1, 1 + self.times):
            seconds = time_of([*program, str(count), self.path], RUNS // 2)
            key = (program[0], count)
            self.least[key] = min(self.least.get(key, seconds), seconds)

    def seconds(self, program):
        """The time of a check."""
        return (self.least[program[0], 1 + self.times] - self.least[program[0], 1]) / self.times


def modes_table(program, plain, folder):
    """Prints how long the rules of modes take, and gives the criteria that fail. `program` and `plain` are the words before the
    number of times."""
    print("\n| rules of modes | us |" + (" of plain |" if plain else ""))
    print("| --- | --- |" + (" --- |" if plain else ""))
    for size in ((128, 32, 8), (256, 64, 16)):
        path = os.path.join(folder, "modes")
        with open(path, "wb") as out:
            out.write(modes_text(*size))
        seconds, plain_seconds = ((time_of([*words, "2001", path]) - time_of([*words, "1", path])) / 2000 if words else None for words in (program, plain))
        of_plain = seconds / plain_seconds if plain else 0
        name = "{} variables, {} locks, {} threads".format(*size)
        print(f"| {name} | {seconds * 1e6:.1f} |" + (f" {of_plain:.2f} |" if plain else ""))
        if seconds > MOST_FOR_MODES or of_plain > MOST_OF_PLAIN_MODES:
            yield f"{name}: {seconds * 1e6:.1f} us, {of_plain:.2f} times the time of the plain program"


def certificate_rows(folder):
    before = None
    for measured in certificates.measured():
        before = CertificateRow(folder, measured, before if measured.is_double else None)
        yield before


def certificate_table(program, plain, rows):
    """Prints the table of certificates, and gives the criteria that fail."""
    head = ["certificate", "nodes", "us", "growth"] + (["of plain"] if plain else [])
    print("\n| " + " | ".join(head) + " |")
    print("|" + " --- |" * len(head))
    for row in rows:
        seconds = row.seconds(program)
        growth = seconds / row.half.seconds(program) if row.half else None
        cells = [row.name, f"{row.nodes:,}", f"{seconds * 1e6:.1f}", f"{growth:.2f}" if growth else ""]
        of_plain = seconds / row.seconds(plain) if plain else 0
        if plain:
            cells.append(f"{of_plain:.2f}")
        print("| " + " | ".join(cells) + " |")
        if growth and growth > MOST_GROWTH and row.is_small:
            yield f"{row.name}: {growth:.2f} times the time of half the nodes"
        if of_plain > MOST_OF_PLAIN:
            yield f"{row.name}: {of_plain:.2f} times the time of the plain program"


def checked(folder):
    """The rows of `check`: the empty text, and the others."""
    yield Row(folder, "check", "empty", b"")
    half = None
    for statements in (2_500, 5_000, 10_000, 20_000):
        half = Row(folder, "check", f"{statements:,} statements, 256 variables", program_text(statements, 256), half)
        yield half
    for variables in (16, 32, 64, 128):
        yield Row(folder, "check", f"20,000 statements, {variables} variables", program_text(20_000, variables))
    yield Row(folder, "check", "comments alone", comment_text())
    yield Row(folder, "check", "semicolons alone (malformed)", b";" * LIMIT)
    most = (LIMIT - 20) // 5
    yield Row(folder, "check", "209,711 statements (malformed)", b"var a:low;thread t{" + b"a:=a;" * most + b"}")


def formatted(folder):
    """The rows of `fmt`, each of a text that has a spelling: a short text, and the others."""
    short = b"\nvar a:low;\n"
    yield Row(folder, "fmt", "short", short)
    half = None
    for statements in (2_500, 5_000, 10_000, 20_000):
        half = Row(folder, "fmt", f"{statements:,} statements, 256 variables", whole_text(statements, 256), half)
        yield half
    yield Row(folder, "fmt", "20,000 statements, 16 variables", whole_text(20_000, 16))
    yield Row(folder, "fmt", "comments", comment_text(short))


def table(program, plain, empty, rows):
    """Prints the table, and gives the criteria that fail."""
    counted = empty.command == "fmt"
    head = ["text", "bytes", "ms", "growth", "memory/token" if counted else "memory/byte"] + (["of plain"] if plain else []) + COUNTED_HEAD
    print("| " + " | ".join(head) + " |")
    print("|" + " --- |" * len(head))
    for row in rows:
        seconds = row.seconds - empty.seconds
        growth = seconds / (row.half.seconds - empty.seconds) if row.half else None
        peak = peak_of(program, row.command, row.path)
        memory = peak / (row.tokens if counted else row.size)
        cells = [row.name, f"{row.size:,}", f"{seconds * 1000:.1f}", f"{growth:.2f}" if growth else "", f"{memory:.0f}" if row.half or not counted else ""]
        if plain:
            cells.append(f"{seconds / (row.plain_seconds - empty.plain_seconds):.2f}")
        print("| " + " | ".join(cells + counted_cells(program, plain, empty, row)) + " |")
        if growth and growth > MOST_GROWTH:
            yield f"{row.name}: {growth:.2f} times the time of half the text"
        if peak > MOST_MEMORY * row.size:
            yield f"{row.name}: {peak / row.size:.0f} bytes of memory per byte of text"
        if row.half and counted and memory > MOST_PER_TOKEN:
            yield f"{row.name}: {memory:.0f} bytes of memory per token"


def built_plain(folder, name):
    """A plain program, where there is a rustc to build it."""
    if not shutil.which("rustc"):
        return None
    made = os.path.join(folder, name)
    subprocess.run(["rustc", "-O", "--edition", "2021", "-o", made, f"{TOP}/bench/plain/{name}.rs"], check=True)
    return made


def main():
    program = os.path.abspath(sys.argv[1]) if len(sys.argv) > 1 else f"{TOP}/.build/covern"
    parts = os.path.abspath(sys.argv[2]) if len(sys.argv) > 2 else f"{TOP}/crates/covern_cases/out/covern_cases"
    for made in (program, parts):
        if not os.path.exists(made):
            sys.exit(f"no built program {made}: run ./covern once, and rt run in crates/covern_cases")
    with tempfile.TemporaryDirectory() as folder:
        plain, checker = built_plain(folder, "main"), built_plain(folder, "check")
        tables = [list(checked(folder)), list(formatted(folder))]
        certificate_texts = list(certificate_rows(folder))
        # (rounds, so that what else the machine does meets each text alike)
        for _ in range(ROUNDS):
            for row in (row for rows in tables for row in rows):
                row.run(program, checker if row.command == "check" else plain)
            for row in certificate_texts:
                row.run([parts, "--times", "certificates"])
                if plain:
                    row.run([plain, "certs"])
        failures = []
        for rows in tables:
            print(f"`{rows[0].command}`:\n")
            failures += table(program, checker if rows[0].command == "check" else plain, rows[0], rows[1:])
            least = peak_of(program, rows[0].command, rows[0].path) / 2**20
            print(f"\n{rows[0].name} text: {rows[0].seconds * 1000:.1f} ms, {least:.1f} MiB\n")
        failures += certificate_table([parts, "--times", "certificates"], [plain, "certs"] if plain else None, certificate_texts)
        failures += modes_table([parts, "--times", "declared"], [plain, "modes"] if plain else None, folder)
        for failure in failures:
            print(f"FAILED {failure}")
        return 1 if failures else 0


if __name__ == "__main__":
    sys.exit(main())
