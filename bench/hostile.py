#!/usr/bin/env python3
"""Uses the built program as somebody would who means it harm, and prints what it finds.

usage: bench/hostile.py [--only PART] [--count N] [--jobs N] [PROGRAM [PARTS [EXPLAINS]]]

PROGRAM is crates/covern_cli/out/covern_cli, PARTS, the program of cases, crates/covern_cases/out/covern_cases, and EXPLAINS, the one that explains,
crates/explain_cli/out/explain_cli, if they aren't given.
The parts are

- `outside`: each read and each write of each command fails in turn, is interrupted, or is short, where there is strace;
- `texts`: N mutated programs (100,000 if N isn't given) by `check`, against bench/machines.py for faults of texts and of declarations, and
  against bench/plain/check.rs for the rules of statements, where rustc is on the path;
- `inputs`: N mutated starts and schedules, and N / 10 mutated expressions, by `run`, `pair` and `run-until`, and their programs by `refute`, against
  bench/machines.py;
- `listings`: N mutated listings by PARTS, against bench/machines.py;
- `objects`: N mutated objects by `unobject`, against bench/machines.py;
- `limits`: deep, wide and long files, with the time and the memory that each takes, as a table;
- `memory`: commands in more and more room for addresses: they answer whole, or with status 6 and nothing;
- `allocations`: each request for memory of each command is refused in turn, where there is cc: the same;
- `explanations`: N mutated programs by EXPLAINS: the first line and the status are those of `check`, with the line and the column in front, V9 shows what was asked,
  and a wrong token what could stand at its place; with `--points` they are the same, points are told where the names are in order, and those of one line are among those of all; with `--code` the lines are those
  that `compile` lists, each once with its position, or what `--first` tells; and with `--suggest` the text and
  the status are those of `annotate` at depth 2, or `check` says of the text what stands behind it, and no more is told as open there than `annotate` tells.

A text that takes more than ten seconds is told, and so is a process that a signal ends. The status is 1 where something is told. With all parts it
takes an hour or so on one processor, and some ten minutes with `--count 10000`.
"""
import argparse
import concurrent.futures
import json
import os
import random
import re
import resource
import shutil
import subprocess
import sys
import tempfile
import time

from bench import built_plain
from machines import KEYWORDS, Fault, Refused, code_of, listed, object_of, program_of, reply, rules_of_declarations, unobject

TOP = os.path.dirname(os.path.dirname(os.path.abspath(__file__)))
DATA = os.path.join(TOP, "crates", "covern_cases", "data")
SECONDS = 10
BATCH = 500
EDGES = [0, 1, 2, 3, 25, 64, 65, 255, 256, 1000, 2**31, 2**32 - 1, 2**32, 2**64 - 1, 2**64, 10**40]


class Found:
    """What was tried, and what is told."""

    def __init__(self):
        self.tried = self.told = 0

    def case(self, title, found, due):
        self.tried += 1
        if found != due:
            self.told += 1
            print(f"{title}: {str(found)[:300]} and not {str(due)[:300]}", flush=True)


def ended(program, words, folder, front=(), **options):
    """What a run puts out, and its status; a run that takes too long has none."""
    options.setdefault("stdout", subprocess.PIPE)
    try:
        done = subprocess.run([*front, program, *words], cwd=folder, stdin=subprocess.DEVNULL, stderr=subprocess.DEVNULL, timeout=SECONDS,
                              check=False, **options)
    except subprocess.TimeoutExpired:
        return b"", "too long"
    return done.stdout, done.returncode


def write(folder, name, text):
    path = os.path.join(folder, name)
    with open(path, "wb") as out:
        out.write(text)
    return path


# Calls of the system that fail.

WRITER = (b"var mode: low; var buf: low when mode == 0; var key: high; lock l hide mode, buf; thread w { lock l; buf := key; mode := 1; "
          b"unlock l by { 1: have [1 == 0] (rev 1 [_ == 0] (hyp 2)) (clash 3) }; }")
LEVELS = b"level pub; level sec: pub; level all: pub, sec; var key: sec when 1 else all;"
UNSEEN = b"level sec; level pub; var mode: sec;"
WORDS = [["check", "p"], ["fmt", "p"], ["migrate", "p"], ["compile", "p"], ["run", "p", "s", "k"], ["run-code", "p", "s", "k"],
         ["run-until", "p", "s", "k", "mode == 1"], ["pair", "p", "s", "t", "k"], ["pair-code", "p", "s", "t", "k"], ["object", "p"], ["unobject", "o"], ["refute", "p", "20"], ["swap", "p", "e"],
         ["levels", "p", "l"], ["levels", "p", "u"], ["annotate", "p", "1"]]


def write_writer(folder):
    write(folder, "p", WRITER + b"\n" * 70_000)
    for name, key in (("s", 1), ("t", 2)):
        write(folder, name, b" " * 70_000 + json.dumps({"mode": 0, "buf": 0, "key": key}).encode())
    write(folder, "k", b" " * 70_000 + b"[0,0,0,0,0,0,0,0,0,0]")
    write(folder, "e", b" " * 70_000 + b"thread w { skip; } thread w { lock l; }")
    write(folder, "l", b" " * 70_000 + LEVELS)
    write(folder, "u", b" " * 70_000 + UNSEEN)
    write(folder, "o", object_of(code_of(b"code 1\nthread t 70000\n" + b"1 nop\n" * 70_000)))


def injected(folder, call, what, when, path=None):
    """The words that make a call of the system do something else."""
    only = ["-P", path, "-P", os.path.join(folder, path)] if path else []
    return ["strace", "-qq", "-o", os.path.join(folder, "calls"), *only, "-e", f"trace={call}", "-e", f"inject={call}:{what}:when={when}"]


def outside(options, folder, found):
    if not shutil.which("strace"):
        print("calls that fail aren't tried: there is no strace")
        return
    write_writer(folder)
    for words in WORDS:
        due = ended(options.program, words, folder)
        names = list(dict.fromkeys(word for word in words[1:] if os.path.exists(os.path.join(folder, word))))
        for name in names:
            ended(options.program, words, folder, injected(folder, "read", "error=EIO", 9999, name))
            with open(os.path.join(folder, "calls"), encoding="utf-8", errors="replace") as lines:
                reads = sum(line.startswith("read(") for line in lines)
            for number in range(1, reads + 1):
                title = f"{' '.join(words)}, read {number} of {reads} of {name}"
                fault = ended(options.program, words, folder, injected(folder, "read", "error=EIO", number, name))
                found.case(f"{title} fails", fault, (f"read fault: {name}\n".encode(), 4))
                found.case(f"{title} is interrupted", ended(options.program, words, folder, injected(folder, "read", "error=EINTR", number, name)), due)
            fault = ended(options.program, words, folder, injected(folder, "openat", "error=EMFILE", 1, name))
            found.case(f"{' '.join(words)}, {name} isn't opened", fault, (f"read fault: {name}\n".encode(), 4))
        for error in ("EIO", "ENOSPC", "EPIPE"):
            fault = ended(options.program, words, folder, injected(folder, "write", f"error={error}", 1))
            found.case(f"{' '.join(words)}, the write fails by {error}", fault, (b"", 5))
        for length in (1, 7, len(due[0]) - 1):
            # (the call isn't made: what it says that it has put isn't there)
            short = ended(options.program, words, folder, injected(folder, "write", f"retval={length}", 1))
            found.case(f"{' '.join(words)}, the write puts {length}", short, (due[0][length:], due[1]))
        found.case(f"{' '.join(words)}, the write puts nothing", ended(options.program, words, folder, injected(folder, "write", "retval=0", 1)), (b"", 5))
        with open("/dev/full", "wb") as full:
            found.case(f"{' '.join(words)}, a full output", ended(options.program, words, folder, stdout=full)[1], 5)


# Mutated files.

def corpus():
    """The texts of the cases and of the examples that have no fault of the text or its declarations."""
    texts = []
    for name in sorted(os.listdir(os.path.join(TOP, "examples"))):
        if name.endswith(".cov"):
            with open(os.path.join(TOP, "examples", name), "rb") as text:
                texts.append(text.read())
    for name in ("statements", "declarations", "outputs", "pairs", "texts", "masks", "operators"):
        with open(os.path.join(DATA, name), "rb") as cases:
            for case in cases.read().split(b"\n//// ")[1:]:
                text = re.split(rb"\n[$%>]", case.split(b"\n", 1)[-1])[0]
                if len(text) < 3000 and b"@" not in text:
                    texts.append(text)
    return [text for text in texts if judged(text) is None]


PIECES = re.compile(rb"[a-z][a-z0-9_]*|[0-9]+|:=|==|!=|<=|&&|\|\||//[^\n]*|\s+|.", re.DOTALL)
SPARE = [b"var", b"low", b"high", b"when", b"lock", b"nowrite", b"hide", b"inv", b"thread", b"assume", b"guarantee", b"skip", b"unlock", b"if", b"else",
         b"join", b"while", b"note", b"as", b"retype", b"by", b"auto", b"hyp", b"calc", b"use", b"cases", b"split", b"have", b"fwd", b"ring", b"range",
         b"output", b"version", b"a", b"x", b"_", b"{", b"}", b"(", b")", b"[", b"]", b";", b",", b":", b":=", b"==", b"<", b"<=", b"!", b"+", b"-",
         b"*", b"&&", b"||", b"//", b"\x00", b"\xff", b"\n"]


OPERATORS = [b"+", b"-", b"*", b"&", b"|", b"^", b"==", b"!=", b"<", b"<=", b"&&", b"||"]


def akin(piece, pieces, chance):
    """A piece of the same kind: a number, an operator, a name or a keyword."""
    if piece.isdigit():
        return str(chance.choice(EDGES)).encode()
    if piece in OPERATORS:
        return chance.choice(OPERATORS)
    if not piece[:1].islower():
        return piece
    word = piece.decode()
    return chance.choice([other for other in pieces if other[:1].islower() and (other.decode() in KEYWORDS) == (word in KEYWORDS)] or [piece])


def change_kind(pieces, chance):
    """Puts a piece of the same kind in the place of one."""
    at = chance.choice([i for i, piece in enumerate(pieces) if not piece.isspace()] or [0])
    pieces[at] = akin(pieces[at], pieces, chance)


def change_part(pieces, chance):
    """Leaves out, doubles or moves what stands between two semicolons."""
    ends = [i + 1 for i, piece in enumerate(pieces) if piece in (b";", b"{", b"}")]
    if len(ends) < 2:
        return
    i = chance.randrange(len(ends) - 1)
    part = pieces[ends[i]:ends[i + 1]]
    if chance.random() < 0.6:
        del pieces[ends[i]:ends[i + 1]]
    if chance.random() < 0.6:
        at = min(chance.choice(ends), len(pieces))
        pieces[at:at] = part


def change_any(pieces, others, chance):
    """Changes what stands at any place, whatever becomes of it."""
    at = chance.randrange(len(pieces) + 1)
    to = min(len(pieces), at + chance.choice((0, 1, 1, 1, 2, 5, 20)))
    kind = chance.randrange(6)
    if kind == 0:
        pieces[at:at] = pieces[at:to]
    elif kind == 1:
        pieces[at:to] = [b" ", chance.choice(SPARE), b" "]
    elif kind == 2:
        other = PIECES.findall(chance.choice(others))
        begin = chance.randrange(len(other) + 1)
        pieces[at:to] = other[begin:begin + chance.choice((1, 3, 10, 40))]
    elif kind == 3:
        pieces[at:to] = [b"(" * chance.randrange(3), *pieces[at:to], b")" * chance.randrange(3)]
    elif kind == 4 and chance.random() < 0.3:
        del pieces[at:]
    else:
        del pieces[at:to]


def mutated(text, others, chance):
    """A text with one to four changes, most of which leave it a text of the language."""
    pieces = PIECES.findall(text)
    for _ in range(chance.choice((1, 1, 2, 4))):
        kind = chance.random()
        if kind < 0.55 and pieces:
            change_kind(pieces, chance)
        elif kind < 0.8:
            change_part(pieces, chance)
        else:
            change_any(pieces, others, chance)
    return b"".join(pieces)


def judged(text):
    """What is said of a text that has a fault or breaks a rule of declarations, with its status, or None."""
    try:
        rules_of_declarations(program_of(text))
    except Fault as fault:
        return f"malformed p: {fault.kind} at {fault.at}\n".encode(), 3
    except Refused as refusal:
        return f"{refusal}\n".encode(), 1
    return None


def batches(options, part, work):
    """Does a part of the work for each number of a batch, side by side, and adds what is told."""
    with concurrent.futures.ProcessPoolExecutor(options.jobs) as workers:
        numbers = range((options.count + BATCH - 1) // BATCH)
        yield from workers.map(work, [(options.program, options.parts, options.plain, part, number) for number in numbers])


def some_texts(order):
    """A batch of mutated programs: how many are tried, accepted and well formed, and what is told."""
    program, _, plain, part, number = order
    chance, texts, found, accepted, sound = random.Random(f"{part} {number}"), corpus(), [], 0, 0
    with tempfile.TemporaryDirectory() as folder:
        open_texts = []
        for i in range(BATCH):
            text = mutated(chance.choice(texts), texts, chance)
            os.makedirs(os.path.join(folder, str(i)))
            path = write(os.path.join(folder, str(i)), "p", text)
            due, answer = judged(text), ended(program, ["check", "p"], os.path.join(folder, str(i)))
            if due is None:
                open_texts.append((path, text, answer))
            elif answer != due:
                found.append((text, answer, due))
        sound = len(open_texts)
        lines = verdicts(plain, [path for path, _, _ in open_texts])
        for (_, text, answer), line in zip(open_texts, lines):
            due = (line + b"\n", 0 if line.startswith(b"accepted") else 1) if line else (answer[0], answer[1] if answer[1] in (0, 1) else 0)
            accepted += due[1] == 0
            if answer != due:
                found.append((text, answer, due))
    return BATCH, sound, accepted, found


def verdicts(plain, paths):
    """What the plain checker says of each file, or nothing where there is none."""
    if not plain or not paths:
        return [b""] * len(paths)
    done = subprocess.run([plain, "check", *paths], stdout=subprocess.PIPE, check=False)
    return done.stdout.split(b"\n")[:len(paths)]


def texts_part(options, folder, found):
    sound = accepted = 0
    for tried, some_sound, some_accepted, differ in batches(options, "texts", some_texts):
        found.tried, sound, accepted = found.tried + tried, sound + some_sound, accepted + some_accepted
        for text, answer, due in differ:
            found.tried -= 1
            found.case(f"check of {text!r}", answer, due)
    print(f"texts: {found.tried} tried, {sound} without a fault in the text or its declarations, {accepted} accepted")


PROGRAMS = [b"var a: low; var b: low when a == 0; var h: high; lock l hide h inv a == a; thread t { lock l; h := b + 1; unlock l; if a { a := 2; } else { } }"
            b" thread u { while b { b := b - 1; } lock l; unlock l; }",
            b"version 2; var a: low; thread t { output a; a := a + 1; output a * a; }", b"var a: low; var h: high; thread t { a := h; } thread u { h := a; }",
            b"var a: low; thread a { }", b"thread t { skip; }"]
PIECES_OF_JSON = [b"{", b"}", b"[", b"]", b",", b":", b'"', b"a", b'"a"', b'"h"', b"null", b"true", b"false", b"-", b"-0", b"0.0", b"1e1", b"1e999", b" ", b"\n",
                  b"\\", b'"\\u0061"', b'"\\ud800"', b"\x00", b"\xff", b"\xef\xbb\xbf", b"00", b"[" * 130 + b"]" * 130, b"[" * 126 + b"]" * 126]
JSON_PIECES = re.compile(rb'"[^"]*"|[0-9]+|\s+|.', re.DOTALL)
EXPRESSIONS = [b"a == 2", b"a + b * 2 <= 5 && !h", b"(a | b) != 0", b"1", b"a < b || a == b", b"!!a", b"0 - 1"]


def mutated_json(text, chance):
    pieces = JSON_PIECES.findall(text)
    for _ in range(chance.choice((0, 1, 1, 2))):
        at = chance.randrange(len(pieces) + 1)
        to = min(len(pieces), at + chance.choice((0, 1, 1, 2)))
        pieces[at:to] = [chance.choice([chance.choice(PIECES_OF_JSON), str(chance.choice(EDGES)).encode(), b"".join(pieces[at:to]) * 2, b""])]
    return b"".join(pieces)


def some_inputs(order):
    """A batch of mutated starts, schedules and expressions."""
    program, _, _, part, number = order
    chance, found, done = random.Random(f"{part} {number}"), [], 0
    with tempfile.TemporaryDirectory() as folder:
        for i in range(BATCH):
            text = chance.choice(PROGRAMS)
            p = program_of(text)
            memory = {name: chance.choice((0, 1, 2, 4294967295)) for name, _, _ in p.vars}
            other = {name: word if value == 1 else 7 for (name, _, value), word in zip(p.vars, memory.values())}
            entries = [chance.randrange(len(p.threads)) for _ in range(chance.randrange(40))]
            files = {"p": text, "s": json.dumps(memory).encode(), "t": json.dumps(other).encode(), "k": json.dumps(entries).encode()}
            changed = chance.choice("sk") if i % 10 else "e"
            expression = chance.choice(EXPRESSIONS)
            if changed == "e":
                expression = mutated(expression, EXPRESSIONS, chance).replace(b"\0", b"")
            else:
                files[changed] = mutated_json(files[changed], chance)
            for name, piece in files.items():
                write(folder, name, piece)
            words = ["run-until", "p", "s", "k", os.fsdecode(expression)] if changed == "e" else chance.choice((["run", "p", "s", "k"], ["pair", "p", "s", "t", "k"], ["refute", "p", chance.choice("1259")]))
            if changed == "e" and not expression.isascii():
                continue
            due, answer = reply(words, files), ended(program, words, folder)
            done += due[1] in (0, 8)
            if answer != due:
                found.append(((words, files), answer, due))
    return BATCH, done, found


def inputs_part(options, folder, found):
    done = 0
    for tried, some_done, differ in batches(options, "inputs", some_inputs):
        found.tried, done = found.tried + tried, done + some_done
        for files, answer, due in differ:
            found.tried -= 1
            found.case(f"{files}", answer, due)
    print(f"inputs: {found.tried} tried, of which {done} ran")


LISTINGS = [b"code 2\nvar a\nvar bc\nlock l\nthread t 11\n0 load r0 a\n1 store a r7\n2 jump 11\n0 jz r1 0\n0 nop\n1 movc r2 4294967295\n0 movr r3 r4\n1 op + r5 r6\n"
            b"1 acquire l\n1 release l\n2 out r0\nthread u 0\n",
            b"code 1\nvar a\nvar s\nthread t 3\n1 load r7 a\n0 movr r0 r7\n1 store s r0\n",
            b"code 1\nlock l\nthread t 4\n0 op <= r0 r1\n0 op && r0 r1\n1 jz r0 4\n1 acquire l\nthread u 2\n1 release l\n0 jump 0\n",
            b"code 1\n", b"code 2\nthread t 1\n2 out r7\n"]
LISTING_PIECES = re.compile(rb"[a-z][a-z0-9_]*|[0-9]+|\n|.", re.DOTALL)
LISTING_SPARE = [b"code", b"var", b"lock", b"thread", b"load", b"store", b"jump", b"jz", b"nop", b"movc", b"movr", b"op", b"acquire", b"release", b"out", b" ", b"  ",
                 b"\n", b"\t", b"r0", b"r8", b"r7", b"low", b"a", b"t", b"l", b"zz", b"+", b"==", b"00", b"01", b"-1", b"\r\n", b"\x00", b"\xff"]


def mutated_listing(chance):
    pieces = LISTING_PIECES.findall(chance.choice(LISTINGS))
    for _ in range(chance.choice((1, 1, 1, 2, 3))):
        at = chance.randrange(len(pieces) + 1)
        to = min(len(pieces), at + chance.choice((0, 1, 1, 1, 2, 4)))
        pieces[at:to] = chance.choice(([], pieces[at:to] * 2, [chance.choice(LISTING_SPARE)], [str(chance.choice(EDGES)).encode()], [chance.choice(pieces or [b""])]))
    return b"".join(pieces)


def case_of(number, text):
    """A case on a listing, or None where a file of cases can't have the text."""
    *lines, last = text.split(b"\n")
    if any(line[:1] in (b"$", b"%", b">", b"@") or line.startswith(b"//// ") for line in [*lines, last]):
        return None
    if last and (last.strip() != last or b"#" in last or b"~" in last):
        return None
    spelled = b"".join(line + b"\n" for line in lines) + (b"@1 " + last + b"\n" if last else b"")
    return b"//// %d\n%b%% listing\n%b" % (number, spelled, listed(text))


def some_listings(order):
    """A batch of mutated listings, played as one file of cases."""
    _, parts, _, part, number = order
    chance = random.Random(f"{part} {number}")
    texts = [mutated_listing(chance) for _ in range(BATCH)]
    cases = [case for case in (case_of(i, text) for i, text in enumerate(texts)) if case]
    sound = sum(listed(text) == text for text in texts)
    with tempfile.TemporaryDirectory() as folder:
        write(folder, "cases", b"".join(cases))
        answer = ended(parts, ["cases"], folder)
    due = b"cases: %d cases\n" % len(cases), 0
    return len(cases), sound, [] if answer == due else [(number, answer, due)]


def listings_part(options, folder, found):
    if not os.access(options.parts, os.X_OK):
        print(f"listings aren't tried: there is no {options.parts}")
        return
    sound = 0
    for tried, some_sound, differ in batches(options, "listings", some_listings):
        found.tried, sound = found.tried + tried, sound + some_sound
        for number, answer, due in differ:
            found.case(f"listings {number}", answer, due)
    print(f"listings: {found.tried} tried, of which {sound} are listings")


OBJECTS = [object_of(code_of(text)) for text in LISTINGS]


def mutated_object(chance):
    """An object with one to three changes: bytes that are other ones, that are left out, or that stand twice."""
    data = bytearray(chance.choice(OBJECTS))
    for _ in range(chance.choice((1, 1, 2, 3))):
        at = chance.randrange(len(data) + 1)
        to = min(len(data), at + chance.choice((0, 1, 1, 1, 4, 9)))
        data[at:to] = chance.choice((b"", data[at:to] * 2, bytes([chance.randrange(256)]), bytes([chance.choice((0, 1, 2, 7, 8, 20, 26, 32, 33, 95, 97, 122, 255))]),
                                     chance.choice(EDGES[:12]).to_bytes(8, "little")[:4]))
    return bytes(data)


def some_objects(order):
    """A batch of mutated objects: how many are tried, how many are objects of code, and what is told."""
    program, _, _, part, number = order
    chance, found, sound = random.Random(f"{part} {number}"), [], 0
    with tempfile.TemporaryDirectory() as folder:
        for _ in range(BATCH):
            data = mutated_object(chance)
            write(folder, "o", data)
            due, answer = unobject("o", data), ended(program, ["unobject", "o"], folder)
            sound += due[1] == 0
            if answer != due:
                found.append((data, answer, due))
    return BATCH, sound, found


def objects_part(options, folder, found):
    sound = 0
    for tried, some_sound, differ in batches(options, "objects", some_objects):
        found.tried, sound = found.tried + tried, sound + some_sound
        for data, answer, due in differ:
            found.tried -= 1
            found.case(f"unobject of {data!r}", answer, due)
    print(f"objects: {found.tried} tried, of which {sound} are of code")


# Files at the limits.

def repeated(first, piece, last, limit):
    """A text of a piece as often as the limit allows."""
    return first + piece * ((limit - len(first) - len(last)) // len(piece)) + last


def low(count, value="low", letter="v"):
    return "".join(f"var {letter}{i}: {value}; " for i in range(count))


def large_class(nodes, name="c"):
    """A class that mentions a variable, of so many nodes."""
    return " || ".join(["(" + " && ".join([f"{name} == 0"] * 40) + ")"] * (nodes // 160))


def spelled(number):
    """A short name for a number."""
    letters = b"abcdefghij"
    return bytes(letters[int(digit)] for digit in str(number)) + b"_"


def all_of(variables):
    return ", ".join(f"v{i}" for i in range(variables))


def limit_rows():
    """Texts and files at the limits: the title, the words, and the files."""
    most, longest = 1_048_576, 4_194_304
    start = {"s": b'{"v0":0}', "k": b"[" + b",".join([b"0"] * 100_000) + b"]"}

    def row(title, text, words="check p", **files):
        return title, words.split(" "), {"p": text.encode() if isinstance(text, str) else text, **files}

    yield row("1 MiB of `{`", "{" * most)
    yield row("1 MiB of `thread t {` and `if 1 {`", repeated("thread t {", "if 1 {", "", most))
    yield row("1 MiB of `(` in an expression", repeated("var a: low when ", "(", "", most))
    yield row("1 MiB of `!` in an expression", repeated("var a: low when ", "!", "", most))
    yield row("an expression of 1 MiB that leans left", repeated("var a: low when 1", "+1", ";", most))
    yield row("1 MiB of declarations", repeated("", "var a: low;", "", most))
    yield row("1 MiB of `;`", ";" * most)
    yield row("1 MiB of one number", "1" * most)
    yield row("1 MiB of one name", "a" * most)
    yield row("1 MiB of zero bytes", b"\0" * most)
    yield row("a certificate of 1 MiB", repeated("thread t { note { 0 } by { 1: ", "split [0] auto (", "", most))
    yield row("20,000 statements, of which the last has a name that isn't declared", low(1) + "thread t {" + "v0 := v0 + 1; " * 19_999 + "a := 1; }")
    yield row("20,000 `skip`", "thread t {" + "skip;" * 20_000 + "}")
    yield row("20,000 statements in blocks of 64 in each other", "var x: low; thread t assume nowrite x {" + ("if x {" * 63 + "x := 1;" + "} else { }" * 63) * 312 + "}")
    yield row("63 predicates of 959 nodes, and 2,000 assignments", low(64) + f"thread t assume nowrite {all_of(64)} {{ "
              + "".join(f"if {large_class(960, f'v{i}')} {{ " for i in range(63)) + "v63 := v0; v63 := v1; " * 1000 + "} else { }" * 63 + "}")
    yield row("a control of 254 classes of 959 nodes, and 500 assignments to it", "var c: low; " + low(254, f"low when {large_class(960)}")
              + f"thread t assume nowrite c, {all_of(254)} {{ " + "c := 1; " * 500 + "}")
    yield row("1,200 notes of 64 predicates", low(64) + f"thread t assume nowrite {all_of(64)} {{ " + "".join(f"v{i} := {i}; " for i in range(64))
              + ("note { " + ", ".join(f"v{i} == {i}" for i in range(64)) + " }; ") * 1200 + "}")
    square = "(" + " + ".join(f"v{i}" for i in range(22)) + ")"
    square = f"65536 * ({square} * {square})"
    yield row("200 `ring` of 64,009 products of terms", low(22) + f"thread t assume nowrite {all_of(22)} {{ "
              + f"note {{ ({square}) * ({square}) == 0 }} by {{ 1: ring }}; " * 200 + "}")
    yield row("256 variables, 64 locks, 16 threads that take them all", low(256) + "".join(f"lock l{i} nowrite {', '.join(f'v{4 * i + j}' for j in range(4))}; " for i in range(64))
              + "".join(f"thread t{t} {{ " + "".join(f"lock l{i}; " for i in range(64)) + "".join(f"unlock l{i}; " for i in range(64)) + "} " for t in range(16)))
    yield row("the same nine times", low(256) + "".join(f"lock l{i} nowrite {', '.join(f'v{4 * i + j}' for j in range(4))}; " for i in range(64))
              + "".join(f"thread t{t} {{ " + ("".join(f"lock l{i}; " for i in range(64)) + "".join(f"unlock l{i}; " for i in range(64))) * 9 + "} " for t in range(16)))
    yield row("`fmt` of 20,000 statements of 51 bytes", "thread t {" + f"{'a' * 16}:={'b' * 16}+{'c' * 15};" * 20_000 + "}", "fmt p")
    code = low(7) + f"thread t assume nowrite {all_of(7)} {{ " + "v0 := v1+(v2+(v3+(v4+(v5+(v6+v0))))); note {}; " * 9_990 + "}"
    yield row("`compile` of 9,990 assignments of width 7", code, "compile p")
    yield row("`run-code` of it, 100,000 entries", code, "run-code p s k", s=("{" + ",".join(f'"v{i}":{i}' for i in range(7)) + "}").encode(), k=start["k"])
    loop = "var v0: low; thread t { while 1 { v0 := v0 + 1; } }"
    for command in ("run", "run-code"):
        yield row(f"`{command}` of a loop, 100,000 entries", loop, f"{command} p s k", **start)
    stop = "&&".join(["(" + "&&".join(["v0==1"] * 30) + "&&0)"] * 8)
    yield row("`run-until` of a loop, 100,000 entries and an expression of 975 nodes", loop, f"run-until p s k {stop}", **start)
    for command in ("pair", "pair-code"):
        yield row(f"`{command}` of a loop, 100,000 entries", loop, f"{command} p s s k", **start)
    wide = low(256) + f"thread t assume nowrite {all_of(256)} {{ while 1 {{ " + "".join(f"v{i} := {i}; note {{}}; " for i in range(256)) + "} }"
    many = ("{" + ",".join(f'"v{i}":0' for i in range(256)) + "}").encode()
    for command in ("pair", "pair-code"):
        yield row(f"`{command}` of 256 variables, 100,000 entries", wide, f"{command} p s s k", s=many, k=start["k"])
    deep = low(1) + "thread t { while 1 {" + "if v0 == 0 {" * 62 + "v0 := 0;" + "} else { }" * 62 + "} }"
    yield row("`pair` of 64 blocks, 100,000 entries", deep, "pair p s s k", **start)
    yield row("`object` of 9,990 assignments of width 7", code, "object p")
    heads = b"COVO\1" + b"\0" * 8 + b"\1\0\0\0\1t"
    yield row("`unobject` of an object of 16 MiB, a line for each byte", "", "unobject o", o=heads + (16_777_193).to_bytes(4, "little") + b"\x14" * 16_777_193)
    yield row("`unobject` of an object of 16 MiB and a byte", "", "unobject o", o=b"COVO" + b"\0" * 16_777_213)
    yield row("`unobject` of a count of 4,294,967,295 lines that aren't there", "", "unobject o", o=heads + b"\xff" * 4)
    yield row("`refute` of a program of 256 variables, 1000 trials", wide, "refute p 1000")
    yield row("`refute` of 9,990 assignments, 1000 trials", code, "refute p 1000")
    parts = "".join(f"thread t{t} {{ {'skip; ' * 1_250}}} " for t in range(16))
    yield row("`swap` of 16 threads of 1,250 statements, each by itself", parts, "swap p e", e=parts.encode())
    one = "thread t0 { " + "skip; " * 1_250 + "} "
    yield row("`swap` of one of them 16 times", parts, "swap p e", e=(one * 16).encode())
    yield row("`swap` by a text of 1 MiB of `{`", parts, "swap p e", e=b"{" * most)
    eight = "".join(f"level l{i}{': ' if i else ''}{', '.join(f'l{j}' for j in range(i))}; " for i in range(8))
    listings = eight + "".join(f"var v{i}: l{i % 8}; " for i in range(256))
    small = "var a: low; thread t { a := 1; }"
    yield row("`levels` by a text of 1 MiB", small, "levels p l", l=repeated(b"level b; var a: b; //", b"/", b"", most))
    yield row("`levels` by a text of 1 MiB and a byte", small, "levels p l", l=b"level b;" + b" " * (most - 7))
    yield row("`levels` by a text of 1 MiB of `{`", small, "levels p l", l=b"{" * most)
    yield row("`levels` by a text of 1 MiB of `!`", small, "levels p l", l=repeated(b"level b; var a: b when ", b"!", b"", most))
    yield row("`levels` by an expression of 1 MiB that leans left", small, "levels p l", l=repeated(b"level b; var a: b when 1", b"+1", b" else b;", most))
    yield row("`levels` by a text of 1 MiB of levels", small, "levels p l", l=repeated(b"", b"level b;", b"", most))
    yield row("`levels` by a text of 1 MiB of listings", small, "levels p l", l=repeated(b"level b;", b"var a:b;", b"", most))
    yield row("`levels` by a text of 1 MiB of listings that differ", small, "levels p l", l=b"level b;" + b"".join(b"var %s:b;" % spelled(i) for i in range(80_000)))
    yield row("`levels` by a level that names another 70,000 times", small, "levels p l", l=b"level b; level c: " + b", ".join([b"b"] * 70_000) + b"; var a: c;")
    yield row("`levels` by a text of 1 MiB of a level that names another", small, "levels p l", l=repeated(b"level b;level c:b", b",b", b";", most))
    yield row("`levels` by a level that names 70,000 that aren't declared", small, "levels p l", l=b"level b; level c: " + b", ".join(map(spelled, range(70_000))) + b";")
    yield row("`levels` of 20,000 statements in 16 threads and 256 variables, for 8 levels", low(256) + parts, "levels p l", l=listings.encode())
    yield row("`levels` of 256 variables, 64 locks, 16 threads that take them all nine times, for 8 levels", low(256)
              + "".join(f"lock k{i} nowrite {', '.join(f'v{4 * i + j}' for j in range(4))}; " for i in range(64))
              + "".join(f"thread t{t} {{ " + ("".join(f"lock k{i}; " for i in range(64)) + "".join(f"unlock k{i}; " for i in range(64))) * 9 + "} " for t in range(16)),
              "levels p l", l=listings.encode())
    yield row("`levels` of 9,990 assignments of width 7, for 8 levels", code, "levels p l", l=(eight + "".join(f"var v{i}: l7; " for i in range(7))).encode())
    yield row("`levels` of 1,200 notes of 64 predicates, for 8 levels", low(64) + f"thread t assume nowrite {all_of(64)} {{ " + "".join(f"v{i} := {i}; " for i in range(64))
              + ("note { " + ", ".join(f"v{i} == {i}" for i in range(64)) + " }; ") * 1200 + "}", "levels p l", l=eight.encode())
    yield row("`levels` by 250 classes of 964 nodes, and 10 assignments to their control, for 8 levels", "var c: low; " + low(250)
              + f"thread t assume nowrite c, {all_of(250)} {{ " + "c := 1; " * 10 + "}", "levels p l",
              l=(eight + "".join(f"var v{i}: l{i % 8} when {large_class(480)} else l7; " for i in range(250))).encode())
    yield row("`annotate` of 9,990 assignments of width 7, of up to 2 steps", code, "annotate p 2")
    yield row("`annotate` of 1,200 notes of 64 predicates, of up to 2 steps", low(64) + f"thread t assume nowrite {all_of(64)} {{ " + "".join(f"v{i} := {i}; " for i in range(64))
              + ("note { " + ", ".join(f"v{i} == {i}" for i in range(64)) + " }; ") * 1200 + "}", "annotate p 2")
    sums = [(f"v{i}", f"{i} + v0") for i in range(1, 64)]
    for steps, notes in ((1, 900), (2, 4)):
        yield row(f"`annotate` of {notes} predicates that don't follow from 63 equations, of up to {steps} steps", low(65) + f"thread t assume nowrite {all_of(65)} {{ "
                  + "".join(f"{x} := {e}; " for x, e in sums)
                  + "".join(f"note {{ {', '.join(f'{x} == {e}' for x, e in sums)}, v64 == v1 * {i} }}; " for i in range(2, notes + 2)) + "}", f"annotate p {steps}")
    last = "\n" + "skip; " * 256
    yield row("`--code` of 20,000 statements", low(128) + f"thread t assume nowrite {all_of(128)} {{ " + "v0 := 1; " * 20_000 + "}", "--code p")
    yield row("`--points` of 20,000 statements", low(128) + f"thread t assume nowrite {all_of(128)} {{ " + "v0 := 1; " * 20_000 + "}", "--points p")
    yield row("`--points` of 256 statements behind 19,700 assignments to 128 variables", low(128) + f"thread t assume nowrite {all_of(128)} {{ "
              + "".join(f"v{i % 128} := {i % 7}; " for i in range(19_700)) + last + "}", "--points p 2")
    yield row("`--points` of 256 statements behind a note of 64 predicates of 959 nodes", low(64) + f"thread t assume nowrite {all_of(64)} {{ note {{ "
              + ", ".join(" + ".join(["(" + " + ".join([f"v{i}"] * 40) + ")"] * 12) for i in range(64)) + " }; " + last + "}", "--points p 2")
    yield row("a start of 4 MiB of blanks", loop, "run p s k", s=b" " * (longest - 8) + b'{"v0":0}', k=b"[]")
    yield row("a start of 4 MiB of one string", loop, "run p s k", s=b'{"' + b"a" * (longest - 6) + b'":0}', k=b"[]")
    yield row("a start of 4 MiB of keys", loop, "run p s k", s=repeated(b'{"v0":0', b',"a":0', b"}", longest), k=b"[]")
    yield row("a start of 4 MiB of keys that differ", loop, "run p s k", s=b'{"v0":0' + b"".join(b',"%06d":0' % i for i in range(380_000)) + b"}", k=b"[]")
    yield row("a start of 127 brackets", loop, "run p s k", s=b"[" * 127 + b"]" * 127, k=b"[]")
    yield row("a schedule of 4 MiB of `[`", loop, "run p s k", s=b'{"v0":0}', k=b"[" * longest)
    yield row("a schedule of 2,097,151 entries", loop, "run p s k", s=b'{"v0":0}', k=repeated(b"[0", b",0", b"]", longest))
    yield row("a schedule of 1,398,101 lists", loop, "run p s k", s=b'{"v0":0}', k=repeated(b"[0", b",[]", b"]", longest))


def measured(program, words, folder):
    """Status and seconds of processor time of a run."""
    with open(os.path.join(folder, "out"), "wb") as out:
        child = subprocess.Popen([program, *words], cwd=folder, stdout=out, stderr=subprocess.DEVNULL)
        begun = time.monotonic()
        while True:
            done, status, used = os.wait4(child.pid, os.WNOHANG)
            if done or time.monotonic() - begun > 6 * SECONDS:
                break
            time.sleep(0.002)
        if not done:
            child.kill()
            os.wait4(child.pid, 0)
        child.returncode = 0
    return os.waitstatus_to_exitcode(status) if done else "too long", used.ru_utime + used.ru_stime


def peak_of(program, words, folder):
    """The most memory that was resident in a run, in MiB, read while the program waits to write its report to a full pipe."""
    read_end, write_end = os.pipe()
    os.set_blocking(write_end, False)
    try:
        while True:
            os.write(write_end, bytes(4096))
    except BlockingIOError:
        os.set_blocking(write_end, True)
    with subprocess.Popen([program, *words], cwd=folder, stdout=write_end, stderr=subprocess.DEVNULL) as child:
        os.close(write_end)
        while True:
            with open(f"/proc/{child.pid}/status", encoding="utf-8") as status:
                said = dict(line.split(":", 1) for line in status)
            if said["State"].split()[0] in "SZ":
                break
            time.sleep(0.001)
        with os.fdopen(read_end, "rb") as output:
            output.read()
    return int(said["VmHWM"].split()[0]) / 1024 if "VmHWM" in said else 0


def limits_part(options, folder, found):
    print("| files | bytes | answer | ms | MiB |")
    print("| --- | --- | --- | --- | --- |")
    for title, words, files in limit_rows():
        for name, text in files.items():
            write(folder, name, text)
        program = options.explains if words[0].startswith("--") else options.program
        status, seconds = measured(program, words, folder)
        memory = peak_of(program, words, folder)
        with open(os.path.join(folder, "out"), "rb") as out:
            line = out.readline().decode("latin-1").strip()[:60]
        size = sum(len(files[name]) for name in set(words) & set(files))
        print(f"| {title} | {size:,} | `{line}` | {seconds * 1000:.0f} | {memory:.1f} |", flush=True)
        found.case(title, status if status in (0, 1, 2, 3, 7, 8, 9) else f"status {status}", status)


# Less memory than is asked for.

def memory_part(options, folder, found):
    """Each command in more and more room for addresses, from what the program needs to begin."""
    write_writer(folder)
    write(folder, "q", b"thread t {" + b"skip; " * 20_000 + b"}")
    for words in [*WORDS, ["check", "q"], ["compile", "q"], ["fmt", "q"]]:
        due = ended(options.program, words, folder)
        room, refused, step, whole = 1 << 20, 0, 1 << 14, 0
        while whole < 3 and room < 1 << 32:
            def small(size=room):
                resource.setrlimit(resource.RLIMIT_AS, (size, size))

            try:
                answer = ended(options.program, words, folder, preexec_fn=small)
            except (OSError, subprocess.SubprocessError):
                answer = b"", "not begun"
            room += step
            if answer[1] in ("not begun", 127, -11, -9) and not refused:
                continue
            if answer == (b"", 6):
                refused += 1
                continue
            found.case(f"{' '.join(words)} in {room - step} bytes", answer, due)
            whole += answer == due
        print(f"memory: {' '.join(words)}: status 6 in {refused} sizes, whole from {(room - whole * step) / (1 << 20):.2f} MiB")


# Each request for memory, refused in turn.

REFUSER = r"""
#define _GNU_SOURCE
#include <dlfcn.h>
#include <stdlib.h>

static int refuses(void) {
    static long left = -1;
    if (left < 0) left = getenv("REFUSED") ? atol(getenv("REFUSED")) : 0;
    return left > 0 && --left == 0;
}

void *malloc(size_t size) {
    static void *(*next)(size_t);
    if (!next) next = dlsym(RTLD_NEXT, "malloc");
    return refuses() ? 0 : next(size);
}

void *realloc(void *old, size_t size) {
    static void *(*next)(void *, size_t);
    if (!next) next = dlsym(RTLD_NEXT, "realloc");
    return refuses() ? 0 : next(old, size);
}
"""
SHARED = (b"var mode: low; var buf: low when mode == 0; var key: high; var tmp: high; var net: low; lock l hide mode, buf; "
          b"thread w guarantee hide tmp { lock l; buf := key; mode := 1; unlock l by { 1: have [1 == 0] (rev 1 [_ == 0] (hyp 2)) (clash 3) }; } "
          b"thread r assume hide tmp { lock l; if mode == 0 { tmp := buf as 1; } else { tmp := 0; } join { ; buf: mode == 0, tmp: 1 } unlock l; "
          b"net := tmp; }")


UNPROVED = (b"var mode: low; var buf: low when mode == 0; var key: high; lock l hide mode, buf; thread w { lock l; buf := key; mode := 1; "
            b"unlock l by { 1: have [1 == 0] (rev 1 [_ == 0] (hyp 1)) (clash 3) }; }")


def refused_in_turn(program, words, folder, refuser, title, found):
    """The first request alone is refused, then the second alone, and so on until none is left to refuse."""
    due = ended(program, words, folder)
    number = refused = whole = 0
    # (a few requests can be done without; behind the last one every answer is whole)
    while whole < 50:
        number += 1
        answer = ended(program, words, folder, env={"LD_PRELOAD": refuser, "REFUSED": str(number)})
        found.case(f"{title}, request {number}", answer if answer in (due, (b"", 6)) else "another answer", answer)
        refused, whole = (refused + 1, 0) if answer == (b"", 6) else (refused, whole + 1)
    print(f"allocations: {title}: status 6 for {refused} of {number - whole} requests")


def allocations_part(options, folder, found):
    if not shutil.which("cc"):
        print("requests for memory aren't refused: there is no cc")
        return
    made = os.path.join(folder, "refuser.so")
    subprocess.run(["cc", "-O1", "-shared", "-fPIC", "-o", made, write(folder, "refuser.c", REFUSER.encode()), "-ldl"], check=True)
    entries = json.dumps([0, 1] * 50).encode()
    for title, text, starts in (("writer", WRITER, {"mode": 0, "buf": 0}), ("shared", SHARED, {"mode": 0, "buf": 0, "tmp": 0, "net": 0})):
        write(folder, "p", text)
        write(folder, "o", OBJECTS[0])
        write(folder, "e", b"thread w { skip; } thread w { lock l; }")
        write(folder, "l", LEVELS)
        write(folder, "u", UNSEEN)
        write(folder, "k", entries if title == "shared" else b"[0,0,0,0,0,0,0,0,0,0]")
        for name, key in (("s", 5), ("t", 9)):
            write(folder, name, json.dumps({**starts, "key": key}).encode())
        for words in [*WORDS, *([["big", "1", "k"]] if title == "shared" else [])]:
            refused_in_turn(options.program, words, folder, made, f"{title}: {' '.join(words)}", found)
    for title, text in (("writer", WRITER), ("unproved", UNPROVED), ("malformed", b"var ring: low;"), ("twice", b"var a: low; var a: low;")):
        write(folder, "p", text)
        for words in (["p"], ["--points", "p"], ["--points", "p", "1"], ["--suggest", "p"], ["--code", "p"]):
            refused_in_turn(options.explains, words, folder, made, f"{title}: explain {' '.join(words)}", found)


# The explanation of each answer.

ADDRESS = re.compile(rb"^(?:refused|malformed) .*?\bat (\d+)")


def explained(text, answer):
    """The first line of an explanation, by the text and what `check` answers, and its status."""
    line, status = answer
    place = ADDRESS.match(line)
    if not place:
        return line, status
    front = text[:int(place.group(1))]
    return b"p:%d:%d: %s" % (front.count(b"\n") + 1, len(front) - front.rfind(b"\n"), line), status


POINT = re.compile(rb"^line (\d+), thread [a-z0-9_]+, in front of:$", re.M)
KNOWN = re.compile(rb"^  (?:held:         |nothing is told here: )", re.M)
UNNAMED = re.compile(rb"refused W[12] |malformed |too long: |read fault: ")


def told_points(explains, folder, due):
    """What is told of the points of the file p, and whether it isn't as it has to be, by the first line and the status that are due."""
    answer = ended(explains, ["--points", "p"], folder)
    first = answer[0][:answer[0].find(b"\n") + 1]
    begins = POINT.search(answer[0])
    none = b"\nno statement begins there\n" in answer[0]
    wrong = (first, answer[1]) != due or (begins is not None or none) == bool(UNNAMED.search(first)) \
        or len(KNOWN.findall(answer[0])) < len(POINT.findall(answer[0]))
    if begins and b"\nand as many more statements, " not in answer[0]:
        one = ended(explains, ["--points", "p", begins.group(1).decode()], folder)
        place = POINT.search(one[0])
        wrong = wrong or one[1] != answer[1] or not place or one[0][:place.start()] != answer[0][:begins.start()] \
            or not answer[0][begins.start():].startswith(one[0][place.start():])
    return answer, wrong


PLACE = re.compile(rb" at \d+")
CODE_LINE = re.compile(rb"^ *(\d+)  (\d .*)$", re.M)
CODE_END = re.compile(rb"^ *(\d+)  // the end of the thread$", re.M)


def told_code(program, explains, folder, due):
    """What is told of the code of the file p, and whether it isn't as it has to be: of an accepted program the lines that `compile` lists, each once, in order and with its
    position, and of others what `--first` tells."""
    answer = ended(explains, ["--code", "p"], folder)
    if due[1] != 0:
        return answer, answer != ended(explains, ["--first", "p"], folder)
    listed, sizes = ended(program, ["compile", "p"], folder)[0], []
    lines = [line for line in listed.splitlines() if line[:1].isdigit()]
    for name in re.finditer(rb"^thread \S+ (\d+)$", listed, re.M):
        sizes.append(int(name.group(1)))
    told = CODE_LINE.findall(answer[0])
    positions = [i for size in sizes for i in range(size)]
    wrong = not answer[0].startswith(due[0]) or answer[1] != 0 or [line for _, line in told] != lines \
        or [int(i) for i, _ in told] != positions or [int(i) for i in CODE_END.findall(answer[0])] != sizes
    return answer, wrong


def told_suggestions(program, explains, folder):
    """What is suggested for the file p, and whether it isn't as it has to be by `annotate p 2` and `check`: where `annotate` accepts, the same text and status. Else a text of which
    `check` says what the first comment behind it says, places aside, or which it accepts; and what is told there as open, `annotate` tells too, in that order."""
    due, answer = ended(program, ["annotate", "p", "2"], folder), ended(explains, ["--suggest", "p"], folder)
    if due[1] == 0:
        return answer, answer != due
    if b" W" in due[0][:10] or due[1] != 1:
        return answer, answer[1] != due[1]
    lines = answer[0].splitlines(keepends=True)
    comments = [line[3:] for line in lines if line.startswith(b"// ")]
    write(folder, "q", b"".join(lines[:len(lines) - len(comments)]))
    judged, rest = ended(program, ["check", "q"], folder), iter(due[0].splitlines(keepends=True)[1:])
    wrong = judged[1] != answer[1] or bool(comments) != (answer[1] == 1) or any(line not in rest for line in comments[1:])
    return answer, wrong or bool(comments) and PLACE.sub(b"", comments[0]) != PLACE.sub(b"", judged[0])


def some_explanations(order):
    """A batch of mutated programs: how many are tried, for how many V9 shows what was asked, and what is told."""
    program, explains, _, part, number = order
    chance, texts, found, shown = random.Random(f"{part} {number}"), corpus(), [], 0
    with tempfile.TemporaryDirectory() as folder:
        for _ in range(BATCH):
            text = mutated(chance.choice(texts), texts, chance)
            write(folder, "p", text)
            due, answer = explained(text, ended(program, ["check", "p"], folder)), ended(explains, ["p"], folder)
            shown += b"\n  goal:         " in answer[0]
            first = answer[0][:answer[0].find(b"\n") + 1]
            alone = ended(explains, ["--first", "p"], folder)
            if alone[1] != answer[1] or not alone[0].startswith(first) or alone[0].count(b" refused V9 ") > 1:
                found.append((text, alone, due))
            asked, wrong = b" refused V9 " in first, b" malformed p: token at " in first
            if (first, answer[1]) != due or wrong != (b"\n  here could stand: " in answer[0]) \
                    or asked != all(word in answer[0] for word in (b"\n  goal:         ", b"\n  hypotheses:  ", b"\n  certificate:  ")):
                found.append((text, answer, due))
            points, wrong = told_points(explains, folder, due)
            if wrong:
                found.append((text, points, due))
            coded, wrong = told_code(program, explains, folder, due)
            if wrong:
                found.append((text, coded, due))
            suggested, wrong = told_suggestions(program, explains, folder)
            if wrong:
                found.append((text, suggested, due))
    return BATCH, shown, found


def explanations_part(options, folder, found):
    shown = 0
    parts, options.parts = options.parts, options.explains
    for tried, some_shown, differ in batches(options, "explanations", some_explanations):
        found.tried, shown = found.tried + tried, shown + some_shown
        for text, answer, due in differ:
            found.tried -= 1
            found.case(f"explain of {text!r}", answer, due)
    options.parts = parts
    print(f"explanations: {found.tried} tried, {shown} by V9")


PARTS = {"outside": outside, "texts": texts_part, "inputs": inputs_part, "listings": listings_part, "objects": objects_part, "limits": limits_part, "memory": memory_part,
         "allocations": allocations_part, "explanations": explanations_part}


def main():
    words = argparse.ArgumentParser(description="Hostile use of the built program; the head of this file says what it does.")
    words.add_argument("--only", choices=sorted(PARTS))
    words.add_argument("--count", type=int, default=100_000)
    words.add_argument("--jobs", type=int, default=1)
    for name, crate in (("program", "covern_cli"), ("parts", "covern_cases"), ("explains", "explain_cli")):
        words.add_argument(name, nargs="?", type=os.path.abspath, default=os.path.join(TOP, "crates", crate, "out", crate))
    options = words.parse_args()
    if not os.access(options.program, os.X_OK):
        sys.exit(f"no built program {options.program}")
    told = 0
    with tempfile.TemporaryDirectory() as made:
        options.plain = built_plain(made, "check")
        for name, part in PARTS.items():
            if options.only in (None, name):
                found, begun = Found(), time.monotonic()
                with tempfile.TemporaryDirectory() as folder:
                    part(options, folder, found)
                print(f"{name}: {found.tried} tried, {found.told} told, {time.monotonic() - begun:.0f} seconds", flush=True)
                told += found.told
    return 1 if told else 0


if __name__ == "__main__":
    sys.exit(main())
