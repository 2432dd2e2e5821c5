#!/usr/bin/env python3
"""Times `covern check` on large programs that it makes, against a plain checker of the same rules, and prints tables.

usage: bench/check.py [PROGRAM]    (the built program; without it, the one that the launcher built)

It times and counts instructions as bench/bench.py does. The plain checker is bench/plain/check.rs, where rustc is on the path; both have to print the
same line for each text, which is an acceptance.

The status is 1 where a criterion fails: twice the statements take at most 2.3 times the time, memory stays under 100 bytes per byte of
text and what the empty text takes, and no text takes more than 3 times as long as with the plain checker. Texts of large classes, which
are there for their growth, are given 4 times: reading expressions is most of them.
"""
import os
import subprocess
import sys
import tempfile

from bench import COUNTED_HEAD, MOST_GROWTH, TOP, Row, built_plain, counted_cells, peak_of

ROUNDS = 4
MOST_MEMORY = 100
MOST_OF_PLAIN, MOST_OF_PLAIN_READING = 3, 4


def names(letter, count):
    return [f"{letter}{i}" for i in range(count)]


def declared(variables, class_text="low"):
    return [f"var {x}: {class_text};" for x in variables]


def listed(words, variables):
    """A list of modes, or nothing where it is empty."""
    return f" {words} {', '.join(variables)}" if variables else ""


def text_of(lines):
    return ("\n".join(lines) + "\n").encode()


def straight(statements, predicates, tracked):
    """Assignments, with so many predicates known all along and so many variables that only this thread writes."""
    known, own = names("p", predicates), names("v", max(tracked, 10))
    lines = declared(known + own + ["out"])
    lines.append(f"thread t{listed('assume nowrite', known + own[:tracked])} {{")
    lines += [f"{x} := {i};" for i, x in enumerate(known)]
    for i in range(statements - predicates):
        x = own[i * 7 % len(own)]
        lines.append(f"{x} := {x} + 1;" if i % 2 else f"out := {x};")
    return text_of(lines + ["}"])


def branching(statements, tracked):
    """Branches one after the other, with a type for one variable at each end."""
    own = names("v", max(tracked, 2))
    lines = declared(own) + [f"thread t{listed('assume nowrite', own)} {{"]
    for i in range(statements // 3):
        x, y = own[i % len(own)], own[(i + 1) % len(own)]
        lines.append(f"if {x} {{ {y} := 1; }} else {{ {y} := 2; }} join {{ ; {y}: 1 }}")
    return text_of(lines + ["}"])


def looping(statements, tracked):
    """Loops one after the other, with a predicate and a type each."""
    own = names("v", max(tracked, 2))
    lines = declared(own) + [f"thread t{listed('assume nowrite', own)} {{"]
    for i in range(statements // 3):
        x, y = own[i % len(own)], own[(i + 1) % len(own)]
        lines.append(f"{y} := 1; while {x} inv {{ {y} == 1 ; {y}: 1 }} {{ {x} := {x} - 1; }}")
    return text_of(lines + ["}"])


def nested(statements, blocks):
    """Branches and loops in each other, as many blocks around the innermost statement as there may be."""
    lines = declared(["x", "y"]) + ["thread t assume nowrite x {"]
    for _ in range(statements // blocks):
        inner = "y := x;"
        for i in range(blocks - 1):
            inner = f"while x {{ {inner} }}" if i % 2 else f"if x {{ {inner} }} else {{ }}"
        lines.append(inner)
    return text_of(lines + ["}"])


def threads(statements, count):
    """Threads that share a lock with an invariant, each with variables of its own."""
    own = [names(f"t{t}_", 12) for t in range(count)]
    lines = declared(sum(own, []) + ["n"]) + ["lock l nowrite n inv n == n;"]
    for t in range(count):
        others = sum(own[:t] + own[t + 1:], [])
        lines.append(f"thread t{t}{listed('assume nowrite', own[t])}{listed('guarantee nowrite', others)} {{")
        for i in range(statements // count // 4):
            x = own[t][i % 12]
            lines.append(f"lock l; n := {x}; unlock l by {{ 1: refl }}; {x} := {x} + {i};")
        lines.append("}")
    return text_of(lines)


def locking(statements, hidden):
    """A lock that hides so many variables, whose class has to give the type of each when it is given back."""
    under = names("b", hidden)
    lines = declared(["m"]) + declared(under, "low when m == 0") + [f"lock l{listed('hide', ['m'] + under)};", "thread t {"]
    for i in range(statements // 3):
        lines.append(f"lock l; {under[i % hidden]} := {i}; unlock l;")
    return text_of(lines + ["}"])


def controlling(statements, controlled):
    """A control of so many variables that others may read."""
    own = names("b", controlled)
    lines = declared(["m"]) + declared(own, "low when m == 0") + [f"thread t{listed('assume nowrite', ['m'] + own)} {{"]
    lines += [f"{x} := 0;" for x in own[:30]]
    lines += [f"m := {i + 1};" for i in range(statements - 30)]
    return text_of(lines + ["}"])


def hypotheses(statements, predicates):
    """Reads of a variable whose class is the last of so many predicates."""
    known = names("p", predicates - 1)
    lines = declared(known + ["m", "out"]) + declared(["w"], f"low when m == {predicates}")
    lines.append(f"thread t{listed('assume nowrite', known + ['m'])} {{")
    lines += [f"{x} := {i};" for i, x in enumerate(known)] + [f"if m == {predicates} {{"]
    return text_of(lines + ["out := w;"] * (statements - predicates) + ["} else { } }"])


def notes(count, predicates):
    """Notes of so many predicates, each of which follows from the same predicates."""
    known = names("p", predicates)
    lines = declared(known) + [f"thread t{listed('assume nowrite', known)} {{"]
    lines += [f"{x} := {i};" for i, x in enumerate(known)]
    state = ",".join(f"{x}=={i}" for i, x in enumerate(known))
    return text_of(lines + [f"note {{{state}}};"] * count + ["}"])


def expressions(statements, leaves):
    """Right sides with so many leaves over variables that only this thread writes."""
    own = names("v", 60)
    lines = declared(own + ["out"]) + [f"thread t{listed('assume nowrite', own)} {{"]
    for i in range(statements):
        sides = ["*".join(own[(i + j + k) % 60] for k in range(5)) for j in range(0, leaves, 5)]
        lines.append(f"out := {'+'.join(sides)};")
    return text_of(lines + ["}"])


def doubled(folder, title, sizes, text):
    """Rows of one kind of text, each of twice as many statements as the one before."""
    half = None
    for size in sizes:
        half = Row(folder, "check", title.format(f"{size:,}"), text(size), half)
        yield half


def measured(folder):
    """The rows: the empty text, and the others."""
    yield Row(folder, "check", "empty", b"")
    sizes = (2_500, 5_000, 10_000, 20_000)
    yield from doubled(folder, "{} assignments", sizes, lambda n: straight(n, 0, 0))
    for predicates in (8, 64):
        yield from doubled(folder, f"{{}} assignments, {predicates} predicates", sizes[2:], lambda n: straight(n, predicates, 0))
    for tracked in (50, 250):
        yield from doubled(folder, f"{{}} assignments, {tracked} tracked variables", sizes[2:], lambda n: straight(n, 0, tracked))
    for tracked in (2, 50, 250):
        yield from doubled(folder, f"{{}} statements, branches, {tracked} tracked variables", sizes[2:], lambda n: branching(n, tracked))
    for tracked in (2, 250):
        yield from doubled(folder, f"{{}} statements, loops, {tracked} tracked variables", sizes[2:], lambda n: looping(n, tracked))
    yield from doubled(folder, "{} statements, 64 blocks in each other", sizes[2:], lambda n: nested(n, 64))
    yield from doubled(folder, "{} statements, 16 threads", sizes[2:], lambda n: threads(n, 16))
    yield from doubled(folder, "{} statements, a lock that hides 100 variables", sizes[1:3], lambda n: locking(n, 100))
    yield from doubled(folder, "{} statements, a control of 250 variables", sizes[:2], lambda n: controlling(n, 250))
    yield from doubled(folder, "{} reads with 64 hypotheses", sizes[2:], lambda n: hypotheses(n, 64))
    yield from doubled(folder, "{} notes of 64 predicates", (500, 1_000), lambda n: notes(n, 64))
    yield from doubled(folder, "{} assignments, a large class for each 250", sizes[1:], lambda n: classes(n, False))
    yield from doubled(folder, "{} statements, branches, a large class for each 250", sizes[1:], lambda n: classes(n, True))
    yield from doubled(folder, "{} right sides of 60 leaves", (1_250, 2_500), lambda n: expressions(n, 60))


def classes(statements, branches):
    """Statements beside a variable with a large class for each 250 of them, so that declarations grow with the text."""
    own = names("v", statements // 250)
    large = "low when " + " || ".join(["(" + " && ".join(["c == 0"] * 40) + ")"] * 6)
    lines = declared(["c", "out"]) + declared(own, large) + [f"thread t{listed('assume nowrite', ['c', 'out'] + own)} {{"]
    if branches:
        lines += ["if out { out := 1; } else { out := 2; } join { ; out: 1 }"] * (statements // 3)
    else:
        lines += [f"out := {i};" for i in range(statements)]
    return text_of(lines + ["}"])


def line_of(program, row):
    """What a program prints, which has to be an acceptance."""
    done = subprocess.run([program, "check", row.path], stdout=subprocess.PIPE, check=False)
    if done.returncode != 0:
        sys.exit(f"{row.name}: status {done.returncode}, {done.stdout[:200]}")
    return done.stdout


def table(program, plain, empty, rows):
    """Prints the table, and gives the criteria that fail."""
    head = ["program", "bytes", "ms", "growth", "memory/byte"] + (["of plain"] if plain else []) + COUNTED_HEAD
    print("| " + " | ".join(head) + " |")
    print("|" + " --- |" * len(head))
    least = peak_of(program, empty.command, empty.path)
    for row in rows:
        seconds = row.seconds - empty.seconds
        growth = seconds / (row.half.seconds - empty.seconds) if row.half else None
        memory = (peak_of(program, row.command, row.path) - least) / row.size
        cells = [row.name, f"{row.size:,}", f"{seconds * 1000:.1f}", f"{growth:.2f}" if growth else "", f"{memory:.0f}"]
        of_plain = seconds / (row.plain_seconds - empty.plain_seconds) if plain else 0
        cells += [f"{of_plain:.2f}"] if plain else []
        print("| " + " | ".join(cells + counted_cells(program, plain, empty, row)) + " |")
        if growth and growth > MOST_GROWTH:
            yield f"{row.name}: {growth:.2f} times the time of half the statements"
        if memory > MOST_MEMORY:
            yield f"{row.name}: {memory:.0f} bytes of memory per byte of text"
        if of_plain > (MOST_OF_PLAIN_READING if "large class" in row.name else MOST_OF_PLAIN):
            yield f"{row.name}: {of_plain:.2f} times the time of the plain checker"


def main():
    program = os.path.abspath(sys.argv[1]) if len(sys.argv) > 1 else f"{TOP}/.build/covern"
    if not os.path.exists(program):
        sys.exit(f"no built program {program}: run ./covern once")
    with tempfile.TemporaryDirectory() as folder:
        plain = built_plain(folder, "check")
        empty, *rows = measured(folder)
        for row in rows:
            if plain and line_of(program, row) != line_of(plain, row):
                sys.exit(f"{row.name}: the two programs differ: {line_of(program, row)}, {line_of(plain, row)}")
        # (rounds, so that what else the machine does meets each text alike)
        for _ in range(ROUNDS):
            for row in (empty, *rows):
                row.run(program, plain)
        failures = list(table(program, plain, empty, rows))
        for failure in failures:
            print(f"FAILED {failure}")
        return 1 if failures else 0


if __name__ == "__main__":
    sys.exit(main())
