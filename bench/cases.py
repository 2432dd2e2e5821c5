#!/usr/bin/env python3
"""Makes those files of crates/covern_cases/data that have many cases of one kind.

usage: bench/cases.py [NAME..]    (all files where none is named)

What a case has to show is worked out by bench/machines.py, or stands here. That code does what its program does is made a case by running
both to their ends, where their memories are the same and the positions of threads tell nothing of the code.
"""
import os
import re
import sys

from machines import (Fault, Refused, SourceRun, code_of, four, named, object_of, pair_report, program_of, reply, rules_of_declarations, run_report,
                      schedule_of, start_of)

DATA = os.path.join(os.path.dirname(os.path.dirname(os.path.abspath(__file__))), "crates", "covern_cases", "data")


def expanded(text):
    """A text whose lines `@N PIECE` are written out."""
    lines = []
    for line in text.splitlines(keepends=True):
        if line.startswith("@"):
            count, piece = line[1:].rstrip().split(" ", 1)
            line = "".join(piece.replace("#", str(turn)).replace("~", "\n") for turn in range(int(count)))
        lines.append(line)
    return "".join(lines)


class Cases:
    """The lines of a file of cases."""

    def __init__(self, head):
        self.pieces = [f"// {head}\n"]

    def case(self, name, text, **files):
        """Begins a case with a text `p` and other files. Each text gets the line feed that a file of cases gives it."""
        written = {"p": text + "\n", **{other: piece + "\n" for other, piece in files.items()}}
        self.files = {other: expanded(piece) for other, piece in written.items()}
        self.pieces.append(f"//// {name}\n{written.pop('p')}")
        self.pieces += [f"> {other}\n{piece}" for other, piece in written.items()]

    def call(self, words, due, status=0):
        self.pieces.append(f"$ {words}\n{due}" + (f"[{status}]\n" if status else ""))

    def works_out(self, *words):
        """A call that replays a program."""
        due, status = reply(list(words), {name: text.encode() for name, text in self.files.items()})
        self.call(" ".join(f"'{word}'" if " " in word or not word else word for word in words), due.decode(), status)

    def ends(self, program="p", start="s", schedule="k", commands=("run", "run-code")):
        """A run of a program and of its code, to the end of each thread."""
        p = program_of(self.files[program].encode())
        entries = schedule_of(self.files[schedule].encode(), len(p.threads))
        run = SourceRun(p, start_of(self.files[start].encode(), p)).run(entries)
        if not all(run.is_done(t) for t in range(len(p.threads))) or run.stayed:
            sys.exit(f"{self.files[program]} doesn't end, or waits")
        due = "".join(line + "\n" for line in run_report(p, run, len(entries)))
        for command in commands:
            self.call(f"{command} {program} {start} {schedule}", due)

    def agrees(self, program="p", first="s", second="t", schedule="k", commands=("pair", "pair-code")):
        """Two runs of a program and of its code, which agree and end."""
        p = program_of(self.files[program].encode())
        entries = schedule_of(self.files[schedule].encode(), len(p.threads))
        runs = [SourceRun(p, start_of(self.files[start].encode(), p)) for start in (first, second)]
        lines, status = pair_report(p, *runs, entries)
        if status or not all(runs[0].is_done(t) for t in range(len(p.threads))):
            sys.exit(f"{self.files[program]} doesn't end, or differs: {lines}")
        for command in commands:
            self.call(f"{command} {program} {first} {second} {schedule}", "".join(line + "\n" for line in lines))

    def close(self):
        self.pieces.append("\n")


def turns(*runs):
    """A schedule of pairs: a thread, or several in turn, and how often."""
    (first, times), *others = runs
    lines = [f"@1 [{first}"] + [f"@{count} ,{t}" for t, count in [(first, times - 1), *others] if count]
    return "\n".join(lines + ["@1 ]"])


def start(**words):
    return "{" + ",".join(f'"{name}":{word}' for name, word in words.items()) + "}"


DECLARED = "var x: low; var y: low; var s: low; var c: low; var n: low; lock l nowrite n; thread t assume nowrite s, c {{ {} }}"
STATEMENTS = {
    "skip": "skip;",
    "a number is stored": "x := 3;",
    "what the thread assumes is stored": "x := s;",
    "what others may write is stored": "x := y + s;",
    "what the thread assumes changes": "s := s + 1;",
    "a lock is taken and given back": "lock l; n := n + s; unlock l;",
    "a lock and nothing under it": "lock l; unlock l;",
    "a branch": "if y { x := x + 5; } else { s := 6; }",
    "a branch that gives a lock back": "lock l; if s { n := 4; unlock l; } else { unlock l; }",
    "a branch of nothing": "if s { } else { }",
    "a loop": "while s { s := s - 1; }",
    "a loop that isn't entered": "while 0 { x := 9; }",
    "a note": "note {};",
    "an output": "output y + s;",
}
POSITIONS = {
    "alone": "{}",
    "first": "{} x := x + 1;",
    "last": "x := x + 1; {}",
    "between": "s := s + 7; {} x := s;",
    "one": "if s {{ {} }} else {{ }}",
    "other": "if s {{ }} else {{ {} }}",
    "both": "if s {{ x := 2; {} }} else {{ {} x := s; }}",
    "behind": "if s {{ x := s; }} else {{ }} {}",
    "turn": "while c {{ {} c := c - 1; }}",
    "back": "while c {{ c := c - 1; {} }} x := s;",
}


def positions():
    """Each kind of statement at each place of a body."""
    cases = Cases("Each kind of statement alone, first, last, between others, in an arm beside an empty one, in both arms, behind a branch, and first\n"
                  "// and last in a loop: a run of the code ends with the memory with which one of the program ends.")
    for name, statement in STATEMENTS.items():
        version = "version 2; " if "output" in statement else ""
        texts = {place: version + DECLARED.format(body.format(statement, statement)) for place, body in POSITIONS.items()}
        cases.case(name, texts.pop("alone"), **texts, k=turns((0, 300)), s=start(x=10, y=1, s=2, c=3, n=20), z=start(x=10, y=0, s=0, c=1, n=20))
        for place in POSITIONS:
            program = "p" if place == "alone" else place
            cases.ends(program, commands=["run-code"])
            cases.ends(program, "z", commands=["run-code"])
        cases.close()
    return cases


def sums(names):
    """A sum that groups to the right: as wide as it has names."""
    return names[0] if len(names) == 1 else f"{names[0]} + ({sums(names[1:])})"


def registers():
    """What registers keep, and code of many blocks and threads."""
    cases = Cases("What registers keep while code runs, wide expressions, and many blocks and threads: each program and its code end with the same memory.")
    names = list("abcdefg")
    declared = " ".join(f"var {x}: low;" for x in names) + " var x: low; var y: low; "
    thread = f"thread t assume nowrite {', '.join(names)} {{{{ {{}} }}}}"
    words = start(a=1, b=20, c=300, d=4000, e=50000, f=600000, g=7000000, x=8, y=90000000)
    kept = " ".join(f"x := {name};" for name in names)
    bodies = {
        "all registers are kept, and a sum of width 7": f"{kept} x := {sums(names)}; x := x + a;",
        "all registers are kept, and what others may write in the last place": f"{kept} x := {sums(names[:6] + ['y'])}; y := g;",
        "all registers are kept, and what others may write in the first place": f"{kept} x := {sums(['y'] + names[:6])}; y := g;",
        "all registers are kept, and numbers": f"{kept} x := {sums(list('1234567'))}; y := a + g;",
        "all registers are kept, and a guard of width 7": f"{kept} if {sums(names)} == 7654321 {{ x := a; }} else {{ x := b; }} y := c;",
        "a sum of width 7 and nothing kept": f"x := {sums(names)}; y := {sums(names[::-1])};",
        "marks of width 7": f"x := !!{sums(['a', 'b', 'c', 'd', 'e', '!f'])}; y := !{sums(['a', 'b', 'c', 'd', '!(e - e)'])};",
        "four variables and one that others may write": "x := (a + b) * (c + d) + y; x := y - (a + b) - (c + d); y := a & b | c ^ d; x := d - (c - (b - (a - y)));",
        "four variables that change": "a := b; b := a + c; c := b + a; d := c; a := d - b; x := a; y := d;",
        "a variable is stored to itself": "a := a; x := a; a := a + a; b := a; a := 7; b := a + b;",
        "a loop that changes what is kept": "x := a; c := 3; while c { a := a + b; c := c - 1; } x := a;",
        "an arm that changes what is kept": "x := a; if b == 20 { a := 5; } else { } x := a; if b { } else { b := 6; } y := b;",
        "arms that keep another variable": "if a { x := b; } else { x := c; } y := b; x := c;",
        "loops in each other": "a := 0; b := 4; while b { c := 3; while c { a := a + b * c; c := c - 1; } b := b - 1; } x := a;",
        "an arm that ends with a loop": "if a { d := 2; while d { x := x + d; d := d - 1; } } else { skip; } y := x;",
        "a loop that ends with a branch": "c := 3; while c { c := c - 1; if c == 1 { x := c; } else { a := a + c; } } y := a;",
        "guards that are kept": "while a { a := a - 1; } if a { x := 1; } else { x := 2; } if a == 0 { y := 3; } else { }",
    }
    for name, body in bodies.items():
        cases.case(name, declared + thread.format(body), s=words, k=turns((0, 400)))
        cases.ends()
        cases.close()
    cases.case("what was kept under a lock is loaded again", "var n: low; var go: low; var o: low; var p: low; lock l nowrite n;\n"
               "thread a { lock l; o := n; unlock l; while go == 0 { } lock l; p := n; unlock l; }\n"
               "thread b { lock l; n := n + 9; unlock l; go := 1; }",
               s=start(n=3, go=0, o=0, p=0), k=turns((0, 60), (1, 40), (0, 60)))
    cases.ends()
    cases.close()
    cases.case("what others may write is loaded again", "var y: low; var go: low; var o: low; var p: low;\n"
               "thread a { o := y; while go == 0 { } p := y; }\nthread b { y := 5; go := 1; }",
               s=start(y=3, go=0, o=0, p=0), k=turns((0, 60), (1, 40), (0, 60)))
    cases.ends()
    cases.close()
    for opening, closing, name in (("if x { ", " } else { }", "branches"), ("if y { } else { ", " }", "other branches"),
                                   ("while x { ", " }", "loops")):
        inner = "x := 0;" if name == "loops" else "skip;"
        text = "var x: low; var y: low; thread t assume nowrite x, y { " + opening * 63 + inner + closing * 63 + " y := x; }"
        cases.case(f"64 blocks in each other: {name}", text, s=start(x=1, y=0), k=turns((0, 600)))
        cases.ends()
        cases.close()
    cases.case("16 threads, one after the other", "var n: low; lock l nowrite n;\n"
               + " ".join(f"thread t{i} {{ lock l; n := n * 2 + {i % 2}; unlock l; }}" for i in range(16)),
               s=start(n=1), k=turns(*((t, 20) for t in reversed(range(16)))))
    cases.ends()
    cases.close()
    cases.case("16 threads in turn", " ".join(f"var v{i}: low;" for i in range(16)) + "\n"
               + " ".join(f"thread t{i} {{ v{i} := {i}; if v{i} {{ v{i} := v{i} * 3; }} else {{ skip; }} }}" for i in range(16)),
               s=start(**{f"v{i}": 9 for i in range(16)}), k=turns((",".join(str(t) for t in range(16)), 20)))
    cases.ends()
    cases.close()
    cases.case("256 variables, each of which is kept for a moment", " ".join(f"var v{i}: low;" for i in range(256)) + "\nthread t assume nowrite "
               + ", ".join(f"v{i}" for i in range(256)) + " { "
               + " ".join(f"v{i + 1} := v{i} + 1;" + " note {};" * (i % 50 == 0) for i in range(255)) + " v0 := v255 + v128; }",
               s=start(**{f"v{i}": 0 for i in range(256)}), k=turns((0, 1300)))
    cases.ends(commands=["run-code"])
    cases.close()
    secrets(cases)
    return cases


def secrets(cases):
    """Pairs of runs that end, with secrets on the way."""
    secret = "var a: low; var b: low; var h: high; var g: high; "
    words = {"s": start(a=2, b=3, h=5, g=0), "t": start(a=2, b=3, h=70, g=4294967295), "k": turns((0, 200))}
    for name, text in {
            "secrets are kept in registers": "thread t assume nowrite a, h, g { g := h; h := g + h; g := h * a; b := a; }",
            "secrets beside a branch": "thread t assume nowrite a, h { if a { g := h; } else { h := g; } g := g + h; b := a; }",
            "secrets in a loop": "thread t assume nowrite a, h, g { while a { g := g + h; a := a - 1; } b := a; }",
            "secrets under a lock": "lock l hide g, b; thread t assume nowrite a { lock l; g := h; b := a; h := g + b; unlock l; }"}.items():
        cases.case(name, secret + text, **words)
        cases.agrees()
        cases.close()


C = "var n: low; lock l nowrite n; thread a { lock l; n := 1; unlock l; } thread b { lock l; n := 2; unlock l; }"
LISTING_OF_C = """code 1
var n
lock l
thread a 4
1 acquire l
1 movc r0 1
1 store n r0
1 release l
thread b 4
1 acquire l
1 movc r0 2
1 store n r0
1 release l
"""
SPELLING_OF_C = """var n: low;
lock l nowrite n;
thread a {
  lock l;
  n := 1;
  unlock l;
}
thread b {
  lock l;
  n := 2;
  unlock l;
}
"""


def reports_of_c(files):
    """Each command on program C: its words, files and report."""
    named = {name: expanded(text).encode() for name, text in files.items()}

    def worked(*words):
        return reply(list(words), named)[0].decode()

    # (from the program's start to the end of its schedule no thread of C waits, so that code does the same)
    code = worked("run", "p", "s", "e")
    pair = worked("pair", "p", "s", "s", "e")
    return [("check p", "p", "accepted: 2 threads, 6 statements, 2 entailments\n"), ("compile p", "p", LISTING_OF_C), ("fmt p", "p", SPELLING_OF_C),
            ("migrate p", "p", "version 2;\n" + SPELLING_OF_C), ("run p s k", "psk", worked("run", "p", "s", "k")), ("run-code p s e", "pse", code),
            ("run-until p s k 'n == 1'", "psk", worked("run-until", "p", "s", "k", "n == 1")), ("pair p s t k", "pstk", worked("pair", "p", "s", "t", "k")),
            ("pair-code p s t e", "pste", pair), ("refute p 9", "p", worked("refute", "p", "9"))]


def fails_each(cases, words, names, report, status=0, step=7):
    """Each fetch and each put fails in turn."""
    for number, name in enumerate(names, 1):
        cases.call(f"fetch={number} {words}", f"read fault: {name}\n", 4)
    if names:
        cases.call(f"fetch={len(names) + 1} {words}", report, status)
    puts_each(cases, words, report, status, step)


def puts_each(cases, words, report, status, step):
    for put, length in enumerate(range(0, len(report), step), 1):
        cases.pieces.append(f"$ step={step} put={put} {words}\n{report[:length]}[5]\n")
    cases.call(f"step={step} put={(len(report) + step - 1) // step + 1} {words}", report, status)


def failures():
    """Files and outputs that fail, for each command and each answer."""
    cases = Cases("Files and outputs that fail: each fetch and each put in turn, for each command and for each answer; outputs that take little at once, or\n"
                  "// have too little room.")
    files = {"s": start(n=0), "t": start(n=0), "k": "[0,1,1,0,1]", "e": turns((0, 9), (1, 9))}
    reports = reports_of_c({"p": C, **files})
    for words, names, report in reports:
        cases.case(f"each call outside fails: {words.split()[0]}", C, **files)
        fails_each(cases, words, names, report)
        for step in (1, 7):
            cases.call(f"step={step} {words}", report)
        for room in (0, 1, len(report) - 1):
            cases.pieces.append(f"$ room={room} {words}\n{report[:room]}[5]\n")
            cases.pieces.append(f"$ step=7 room={room} {words}\n{report[:room]}[5]\n")
        cases.call(f"room={len(report)} {words}", report)
        cases.close()
    cases.case("each put of a byte fails", C, **files)
    puts_each(cases, "run p s k", dict((words, report) for words, _, report in reports)["run p s k"], 0, 1)
    cases.close()
    leak = "var a: low; var s: high; thread t { a := s; }"
    cases.case("each put of another answer fails", leak, s=start(a=0, s=0), t=start(a=0, s=1), u=start(a=1, s=0), k="[0,0]", q="thread", r="var a: low; var a: low;",
               o="COVO")
    for words, due, status in (("check", "usage: covern COMMAND WORDS\n", 2), ("check p p", "usage: covern COMMAND WORDS\n", 2),
                               ("check x", "read fault: x\n", 4), ("run p x k", "read fault: x\n", 4), ("check q", "malformed q: token at 7\n", 3),
                               ("run p k k", "malformed k: object\n", 3), ("run p s s", "malformed s: list\n", 3),
                               ("run-until p s k s+", "malformed expression: token at 2\n", 3), ("run-until p s k x", "malformed expression: unknown at 0\n", 3),
                               ("check r", "refused W1 at 16: a\n", 1), ("check p", "refused V9 in t at 36 entailment 1\n", 1),
                               ("pair p s u k", "bad starts: a\n", 9), ("pair p s t k", "differ at step 2: a\n", 8),
                               ("refute p 0", "usage: covern COMMAND WORDS\n", 2), ("refute x 1", "read fault: x\n", 4), ("refute r 1", "refused W1 at 16: a\n", 1),
                               ("refute p 1", "trial 1\ndiffer at step 2: a\nvar a 1 1\nvar s 1 2\nschedule 0 0\n", 8),
                               ("object p", "refused V9 in t at 36 entailment 1\n", 1), ("unobject o", "malformed o: object at 4\n", 3)):
        puts_each(cases, words, due, status, 7)
        cases.pieces.append(f"$ room={len(due) - 1} {words}\n{due[:-1]}[5]\n")
    cases.close()
    cases.case("a file that can't be read, and an output that fails", C, **files)
    for words, names, _ in reports:
        for number, name in enumerate(names, 1):
            cases.pieces.append(f"$ fetch={number} put=1 {words}\n[5]\n$ fetch={number} step=12 put=2 {words}\nread fault: [5]\n")
    cases.close()
    cases.case("each file is read before the next is fetched", "thread", s="{", k="[", q=C, t=start(n=0), r="thread a { } thread a { }", u="{}")
    for words, due in (("fetch=2 run p s k", "p: token at 7"), ("fetch=3 run q s k", "s: json"), ("fetch=4 run-until q t k !", "k: json"),
                       ("fetch=2 pair p s s k", "p: token at 7"), ("fetch=3 pair q s s k", "s: json"), ("fetch=4 pair q t s k", "s: json"),
                       ("fetch=2 run-code p s k", "p: token at 7"), ("fetch=3 run-code q s k", "s: json"),
                       ("fetch=3 pair-code q s s k", "s: json"), ("fetch=4 pair-code q t s k", "s: json")):
        cases.call(words, f"malformed {due}\n", 3)
    cases.call("fetch=2 run r u k", "read fault: u\n", 4)
    cases.call("fetch=3 run r u k", "read fault: k\n", 4)
    cases.close()
    return cases


ROW_7 = ("var mode: low; var buf: low when mode == 0; var tmp: high; var net: low; lock l hide mode, buf; thread r assume hide tmp { lock l; "
         "if mode == 0 { tmp := buf as 1; } else { tmp := 0; } join { ; buf: mode == 0, tmp: 1 } unlock l; net := tmp; }")
WHOLE = ("version 2; var a: low; var b: low when a == 0; lock l nowrite a hide b inv a <= 3; thread t guarantee nowrite c { lock l; a := 1 retype b as 0 "
         "by { 1: have [1 == 0] (rev 1 [_ == 0] (hyp 2)) (clash 3), 2: axiom 4 (a, !b) (split [a < 2] auto calc) }; while a inv { a <= 3 ; b: 1 } "
         "{ output 7; } note {} by { 1: fwd 2 [_ <= 3] range }; unlock l; }")


def checked(text):
    """What `check` says of a text without statements, or that isn't a program, or that has a fault in its declarations."""
    try:
        p = program_of(text.encode())
        rules_of_declarations(p)
    except Fault as fault:
        return f"malformed p: {fault.kind} at {fault.at}\n", 3
    except Refused as refusal:
        return f"{refusal}\n", 1
    if p.threads:
        sys.exit(f"the rules of statements aren't here: {text}")
    return "accepted: 0 threads, 0 statements, 0 entailments\n", 0


def cuts():
    """Texts cut behind each byte."""
    cases = Cases("Texts that are cut behind each of their bytes.")
    for name, text, whole in (("a program with annotations", ROW_7, "accepted: 1 threads, 6 statements, 8 entailments\n"),
                              ("a program of each kind of part", WHOLE, None)):
        cases.case(name, f"@1 {text}")
        for length in range(len(text)):
            due, status = checked(text[:length])
            cases.call(f"cut={length} check p", due, status)
        cases.call("check p", *((whole, 0) if whole else checked(text)))
        cases.close()
    whole = '{"n": 10, "m":2}'
    cases.case("a start", f"@1 {whole}", x="var n: low; var m: low; thread t { }", k="[0]")
    for length in range(len(whole)):
        cases.call(f"cut={length} run x p k", "malformed p: json\n", 3)
    cases.works_out("run", "x", "p", "k")
    cases.close()
    whole = "[0, 0,\t0]"
    cases.case("a schedule", f"@1 {whole}", x="var n: low; thread t { n := 1; }", s=start(n=0))
    for length in range(len(whole)):
        cases.call(f"cut={length} run x s p", "malformed p: json\n", 3)
    cases.works_out("run", "x", "s", "p")
    cases.close()
    cases.case("an expression", "var n: low; thread t { n := 1; }", s=start(n=0), k="[0,0]")
    expression = "(n + 1) * 2 == 4 && !0"
    for length in range(len(expression) + 1):
        cases.works_out("run-until", "p", "s", "k", expression[:length])
    cases.close()
    return cases


STARTS = ["", " ", "0", "null", "true", "\"n\"", "[]", "[0]", "{}", "{\"n\":0", "{\"n\":0}}", "{\"n\":0} {}", "{\"n\":0,}", "{,\"n\":0}", "{n:0}", "{'n':0}",
          "{\"n\" 0}", "{\"n\":}", "{\"n\":0 \"m\":0}", "// a\n{\"n\":0}", "{\"m\":0}", "{\"N\":0}", "{\"n \":0}", "{\"n\":0,\"m\":0}", "{\"\":0,\"n\":0}",
          "{\"n\":-1}", "{\"n\":-0}", "{\"n\":0.0}", "{\"n\":1e0}", "{\"n\":1E+2}", "{\"n\":00}", "{\"n\":01}", "{\"n\":+1}", "{\"n\":.5}", "{\"n\":1.}",
          "{\"n\":1e}", "{\"n\":0x1}", "{\"n\":NaN}", "{\"n\":Infinity}", "{\"n\":4294967295}", "{\"n\":4294967296}", "{\"n\":18446744073709551615}",
          "{\"n\":18446744073709551616}", "{\"n\":99999999999999999999999999}", "{\"n\":1e999}", "{\"n\":-1e999}", "{\"n\":1e-999}", "{\"n\":true}",
          "{\"n\":null}", "{\"n\":\"0\"}", "{\"n\":[0]}", "{\"n\":{}}", "{\"\\u006e\":7}", "{\"n\":1,\"\\u006e\":2}", "{\"n\":1,\"n\":true}",
          "{\"n\":true,\"n\":1}", "{\"n\\u0000\":0}", "{\"\\x6e\":0}", "{\"n\t\":0}", "\t{\r\n\"n\" :\t5 } ", "\f{\"n\":0}", "{\"n\":0}\v"]
SCHEDULES = ["", "0", "{}", "null", "\"\"", "[", "]", "[0", "[0,]", "[,0]", "[0 0]", "[0,0]]", "[0],[0]", "[]", "[1]", "[0,1]", "[0,0,2,1]", "[-1]", "[-0]", "[0.0]",
             "[0e0]", "[00]", "[1e400]", "[null]", "[\"0\"]", "[[0]]", "[[]]", "[{}]", "[true]", "[18446744073709551616]", "[4294967296]", " [ 0 , 0 ] "]


def lettered(number):
    return "f" + chr(ord("a") + number // 26) + chr(ord("a") + number % 26)


def inputs():
    """Starts and schedules with faults, and files at their limits."""
    cases = Cases("Starts and schedules with every fault, for each command that reads them, and files at their limits and past them.")
    program = "var n: low; thread t { n := n + 1; }"
    files = {lettered(i): text for i, text in enumerate(STARTS)}
    cases.case("starts", program, k="[0,0]", **files)
    for name in files:
        cases.works_out("run", "p", name, "k")
    cases.close()
    files = {lettered(i): text for i, text in enumerate(SCHEDULES)}
    cases.case("schedules", program, s=start(n=4), **files)
    for name in files:
        cases.works_out("run", "p", "s", name)
    cases.close()
    starts = {"ja": "{\"n\":", "oa": "[]", "ma": "{}", "ua": "{\"n\":0,\"q\":0}", "wa": "{\"n\":-5}"}
    schedules = {"jb": "[0", "lb": "{}", "eb": "[0,0,1]"}
    faults = {"ja": "json", "oa": "object", "ma": "missing n", "ua": "unknown", "wa": "word n", "jb": "json", "lb": "list", "eb": "entry 2", "mb": "many"}
    cases.case("each fault for each command", program, s=start(n=4), k="[0,0]", **starts, **schedules, mb="@1 [0\n@100000 ,0\n@1 ]")
    for command in ("run", "run-code", "run-until", "pair", "pair-code"):
        end = " n==9" if command == "run-until" else ""
        for name, fault in faults.items():
            if fault == "many" and command not in ("run-code", "pair"):
                continue
            if name in starts:
                forms = [f"{command} p {name} k{end}"] if "pair" not in command else [f"{command} p {name} s k", f"{command} p s {name} k"]
            else:
                forms = [f"{command} p s {name}{end}"] if "pair" not in command else [f"{command} p s s {name}"]
            for form in forms:
                cases.call(form, f"malformed {name}: {fault}\n", 3)
    cases.close()
    limits(cases)
    return cases


def limits(cases):
    """Files at their limits and one byte past them, for the commands that read them."""
    blanks = 1_048_576 // 64
    short = 64 - len("var n: low;thread t{n:=1;}")
    files = {"q": f"@{blanks - 1} " + "/" * 63 + f"~\n@1 var n: low;thread t{{n:=1;}}\n@{short + 1} /", "s": start(n=4), "k": "[0,0]"}
    cases.case("a program as long as it may be, and a byte longer", f"@{blanks - 1} " + "/" * 63 + f"~\n@1 var n: low;thread t{{n:=1;}}\n@{short} /", **files)
    at = (blanks - 1) * 64
    done = "var n 1\nthread t done\n"
    cases.call("check p", "accepted: 1 threads, 1 statements, 1 entailments\n")
    cases.call("fmt p", "var n: low;\nthread t {\n  n := 1;\n}\n")
    cases.call("migrate p", "version 2;\nvar n: low;\nthread t {\n  n := 1;\n}\n")
    cases.call("compile p", "code 1\nvar n\nthread t 2\n1 movc r0 1\n1 store n r0\n")
    cases.call("run p s k", "steps 2\nstayed 0\n" + done)
    cases.call("run-code p s k", "steps 2\nstayed 0\n" + done)
    cases.call("run-until p s k 0", "not reached\nsteps 2\nstayed 0\n" + done)
    cases.call("run-until p s k n==4", f"stopped after 0\nsteps 0\nstayed 0\nvar n 4\nthread t at {at + 20}\n")
    cases.call("pair p s s k", "agree: 2 steps\nvar n 1 1\nthread t done\n")
    cases.call("pair-code p s s k", "agree: 2 steps\nvar n 1 1\nthread t done\n")
    cases.works_out("refute", "p", "1")
    for words in ("check q", "compile q", "object q", "refute q 9", "fmt q", "migrate q", "run q s k", "run-code q s k", "run-until q s k 0", "pair q s s k", "pair-code q s s k"):
        cases.call(words, "too long: q\n", 7)
    cases.close()
    cases.case("starts and schedules as long as they may be, and a byte longer", "var n: low; thread t { n := 1; }", s="@4194297 ~\n@1 {\"n\":4}",
               k="@4194299 ~\n@1 [0,0]", t="@4194305 ~", r=start(n=4), j="[0,0]")
    cases.call("run-code p s k", "steps 2\nstayed 0\n" + done)
    for words in ("run p t j", "run p r t", "run-code p t t", "run-until p r t 0", "pair p r t j", "pair-code p r r t"):
        cases.call(words, "too long: t\n", 7)
    cases.close()
    cases.case("100,000 entries", "var n: low; var m: low; lock l nowrite m; thread t assume nowrite n { while 1 { n := n + 1; } } thread u guarantee nowrite n { lock l; lock l; }",
               s=start(n=4, m=5), k=turns((0, 100_000)), v="var n: low; thread t { n := 3; n := n + 4; }", r=start(n=9))
    cases.works_out("run", "p", "s", "k")
    cases.works_out("pair", "p", "s", "s", "k")
    cases.ends("v", "r", commands=["run-code"])
    cases.agrees("v", "r", "r", commands=["pair-code"])
    cases.close()


WILD = (0, 2, 3, 64, 65, 4294967295)


def numbers():
    """Certificates with numbers that name no hypothesis and no axiom."""
    cases = Cases("Certificates with numbers that name no hypothesis or no axiom: a line for each note.")
    forms = ["hyp {}", "clash {}", "absurd {} 1", "absurd 1 {}", "absurd {} {}", "use {} auto", "cases {} auto auto", "fwd {} [_ == 1] auto", "rev {} [_ == 1] auto"]
    for hypotheses, wild in (("a == 0, ", WILD), ("", (0, 1, 2, 4294967295))):
        certificates = [form.format(number, number) for form in forms for number in wild]
        certificates += [f"axiom {number} (a) auto" for number in (0, 25, 26, 4294967295)]
        cases.case(f"{'one hypothesis' if hypotheses else 'no hypothesis'}", "thread t {\n"
                   + "\n".join(f"note {{ {hypotheses}a == 1 }} by {{ 1: {certificate} }};" for certificate in certificates) + "\n}")
        cases.pieces.append("% certificates\n" + "invalid at top\n" * len(certificates))
        cases.close()
    below = {"have [1] calc (hyp 3)": "2", "have [1] (hyp 2) calc": "1", "split [a] (hyp 3) (hyp 3)": "1", "split [1] calc calc": "1", "not (hyp 3)": "top",
             "contra (hyp 3)": "1", "contra (absurd 1 3)": "1", "contra (clash 4294967295)": "1", "contra (contra (hyp 4))": "1 1", "rev 1 [_] (hyp 2)": "top",
             "axiom 14 (a) (hyp 3)": "1", "axiom 14 (a) (axiom 24 (a) (cases 4 auto auto))": "1 1", "have [a == 0] (hyp 1) (have [a == 0] (hyp 2) (hyp 4))": "2 2"}
    cases.case("numbers below the root", "thread t {\n" + "\n".join(f"note {{ a == 0, a == 1 }} by {{ 1: {certificate} }};" for certificate in below) + "\n}")
    cases.pieces.append("% certificates\n" + "".join(f"invalid at {path}\n" for path in below.values()))
    cases.close()
    text = "var a: low; thread t assume nowrite a { a := 0; note { a == 0 } by { 1: NUMBER }; }"
    cases.case("numbers past all words", text.replace("NUMBER", "hyp 4294967296"), q=text.replace("NUMBER", "hyp 00000000000000000000000000001"),
               r=text.replace("1: NUMBER", "4294967296: auto"), s=text.replace("1: NUMBER", "4294967295: auto"), t=text.replace("1: NUMBER", "00: auto"),
               u=text.replace("NUMBER", "axiom 18446744073709551617 (a) auto"))
    place, number = text.index("note"), text.index("1: NUMBER")
    cases.call("check p", f"malformed p: number at {text.index('NUMBER') + 4}\n", 3)
    cases.call("check q", "accepted: 1 threads, 2 statements, 2 entailments\n")
    cases.call("check r", f"malformed r: number at {number}\n", 3)
    for name, shown in (("s", 4294967295), ("t", 0)):
        cases.call(f"check {name}", f"refused V13 in t at {place} entailment {shown}\n", 1)
    cases.call("check u", f"malformed u: number at {text.index('NUMBER') + 6}\n", 3)
    cases.close()
    return cases


def example(name):
    with open(os.path.join(DATA, "..", "..", "..", "examples", name), encoding="utf-8") as text:
        return text.read().rstrip("\n")


def trials():
    """Numbered trials: of programs that leak and that don't, that are fit always, sometimes and never."""
    cases = Cases("`refute`: numbered trials of programs that leak and that don't, whose starts are fit always, sometimes and never.")
    cases.case("the smallest programs", "var a: low; var s: high; thread t { a := s; }", q="var a: low; thread t { a := 1; }", r="thread t { }", e="")
    for words in ("p 1", "p 1000", "q 1", "q 100", "q 1000", "r 7", "e 1", "e 1000"):
        cases.works_out("refute", *words.split())
    cases.close()
    cases.case("numbers of trials", "var a: low; thread t { a := 1; }")
    for word in ("0", "1001", "01", "00", "1e2", "-1", "+1", "4294967297", "100000000000000000000", "one", "1 ", " 1", "''"):
        cases.call(f"refute p {word if word.strip() == word else repr(word)}", "usage: covern COMMAND WORDS\n", 2)
    for words in ("refute", "refute p", "refute p 1 1", "refute 1 p"):
        cases.call(words, "usage: covern COMMAND WORDS\n", 2)
    cases.close()
    cases.case("what is asked of the program", "var a: low; var a: high;", q="var a: low; thread t assume hide a { } thread u { }", r="var a", s="var a: low; thread t { b := 1; }",
               t="var a: low; var s: high; lock l hide a; thread t { a := s; lock l; lock l; }")
    for words in ("p 1", "q 1", "r 1", "s 1", "t 1000", "u 1"):
        cases.works_out("refute", *words.split())
    cases.close()
    cases.case("starts that are fit never, and some that are", "var n: low; lock l nowrite n inv n < 0; thread t { }", q="var n: low; var s: high; lock l nowrite n inv n == 2; thread t { lock l; n := s; unlock l; }",
               r="var m: low; var b: low when m == 0; var s: high; thread t { b := s; }", z="var n: low; lock l nowrite n inv 0;")
    for words in ("p 1000", "q 1", "q 1000", "r 1", "r 1000", "z 3"):
        cases.works_out("refute", *words.split())
    cases.close()
    many = "".join(f"var v{i}: {'low when v0 == 0' if i % 3 == 2 else ('low', 'high')[i % 3]}; " for i in range(256))
    cases.case("256 variables", many + "thread t { v0 := 1; v255 := v1; }", q=many + "thread t { v0 := v253; }", r=many)
    for words in ("p 1000", "q 1000", "r 2"):
        cases.works_out("refute", *words.split())
    cases.close()
    sixteen = "".join(f"thread t{i} {{ lock l; n := n + {i}; if n == {7 * i} {{ o := s; }} else {{ }} unlock l; }} " for i in range(16))
    cases.case("16 threads", "var n: low; var o: high; var s: high; lock l nowrite n; " + sixteen, q="var n: low; var o: low; var s: high; lock l nowrite n; " + sixteen)
    for words in ("p 20", "q 1000"):
        cases.works_out("refute", *words.split())
    cases.close()
    cases.case("what two runs differ in", "version 2; var s: high; thread t { output s; }", q="var s: high; thread t { if s == 1 { skip; } else { } }",
               r="var s: high; lock l; thread t { if s == 1 { lock l; } else { skip; } }", v="var s: high; lock l; thread t { if s == 0 { skip; skip; } else { lock l; lock l; } }")
    for words in ("p 1000", "q 1000", "r 1000", "v 5"):
        cases.works_out("refute", *words.split())
    cases.close()
    leaks = ["leak", "switch_leak", "ring_leak", "message_leak", "counter_wraps", "gateway_leak", "mail_leak", "keys_leak"]
    for name in leaks + ["first", "switch", "gateway"]:
        cases.case(f"the example {name}", example(f"{name}.cov"))
        cases.works_out("refute", "p", "1000" if name in leaks else "50")
        cases.close()
    return cases


def raw(piece):
    """Bytes as a line of a file of cases, which has no line feed at its end."""
    if b"#" in piece or b"~" in piece or piece.endswith((b" ", b"\t", b"\f", b"\r")):
        sys.exit(f"no line has these bytes: {piece}")
    return "@1 " + piece.decode("latin-1").replace("\n", "~") + "\n"


def compiled():
    """The programs of the file `codes` that are compiled there, by the name of the case: text and listing."""
    with open(os.path.join(DATA, "codes"), encoding="latin-1") as file:
        pieces = file.read().split("//// ")[1:]
    for piece in pieces:
        name, rest = piece.split("\n", 1)
        text, *calls = re.split(r"^\$ ", rest, flags=re.MULTILINE)
        for call in calls:
            words, due = call.split("\n", 1)
            if words == "compile p" and due.startswith("code "):
                yield name, re.split(r"^> ", text, flags=re.MULTILINE)[0], due.split("\n\n")[0].rstrip("\n") + "\n"


ONE_LINE = "code 1\nthread t 1\n1 nop\n"
LISTED = {"a name that goes on behind a keyword": "code 1\nvar skips\n", "a target at the end": "code 1\nthread t 1\n1 jump 1\n"}
USAGE = "usage: covern COMMAND WORDS\n"
EACH_INSTRUCTION = """code 2
var a
var b_1
lock l
thread t 14
0 load r0 a
1 store b_1 r7
2 jump 14
0 jz r1 0
0 nop
1 movc r2 4294967295
0 movr r3 r4
1 op + r5 r6
0 op || r0 r1
1 acquire l
1 release l
2 out r0
0 out r3
1 load r7 b_1
thread u 0
thread a_name_that_has_thirty_two_bytes 1
1 jump 1
"""


def faulty_objects(front):
    """Bytes that are no object, each with its fault. `front` is what begins each object of version 1."""
    none, one = four(0), four(1)
    line = one + named("t") + one
    var = one + named("a") + none
    return {
        "nothing": (b"", "object at 0"),
        "a listing": (ONE_LINE.encode(), "object at 0"),
        "the mark with a small letter": (b"COVo" + front[4:], "object at 3"),
        "version 0": (b"COVO\0", "object at 4"),
        "version 3": (b"COVO\3", "object at 4"),
        "a count that claims more names than there are": (front + b"\xff\xff\xff\xff" + named("a"), "object at 11"),
        "a name of no bytes": (front + one + b"\0" + none, "object at 9"),
        "a name of 33 bytes": (front + one + bytes([33]) + b"a" * 33, "object at 9"),
        "a name that begins with a capital letter": (front + one + b"\1A" + none, "object at 10"),
        "a name that begins with a digit": (front + one + b"\0021a" + none, "object at 10"),
        "a name with a blank": (front + one + b"\3a b" + none, "object at 11"),
        "a keyword as a name": (front + one + named("skip") + none, "object at 13"),
        "a name that goes on behind a keyword": (front + one + named("skips") + none + none, None),
        "a weight of 3": (front + none + none + line + b"\x34", "object at 23"),
        "a line of no kind": (front + none + none + line + b"\x0b", "object at 23"),
        "an output in version 1": (front + none + none + line + b"\x1a\0", "object at 23"),
        "a variable where there is none": (front + none + none + line + b"\x10\0" + none, "object at 23"),
        "a lock where there is none": (front + none + none + line + b"\x18" + none, "object at 23"),
        "register 8": (front + none + none + line + b"\x15\x08" + none, "object at 24"),
        "the second variable of one": (front + var + line + b"\x10\0" + one, "object at 27"),
        "a variable far behind the last": (front + var + line + b"\x10\0\0\0\0\1", "object at 30"),
        "operator 12": (front + none + none + line + b"\x17\x0c\0\0", "object at 24"),
        "a target past the end": (front + none + none + line + b"\x12" + four(2), "code"),
        "a target at the end": (front + none + none + line + b"\x12" + one, None),
        "the largest target": (front + none + none + line + b"\x13\0\xff\xff\xff\xff", "code"),
        "two variables of one name": (front + four(2) + named("a") * 2 + none + none, "code"),
        "a lock with the name of a variable": (front + one + named("a") + one + named("a") + none, "code"),
        "a thread with the name of a variable": (front + var + one + named("a") + none, "code"),
        "equal names, and then a byte that is faulty": (front + four(2) + named("a") * 2 + none + none + b"\0", "object at 21"),
    }


def objects():
    """Objects that are written and listed, and bytes that are none."""
    cases = Cases("Objects of code: what is written of a program is listed as the program is compiled, and the first fault of bytes that are no object.")
    for name, text, listing in compiled():
        whole = raw(object_of(code_of(listing.encode())))
        cases.pieces.append(f"//// {name}\n{text}> o\n{whole}$ compile p\n{listing}$ object p\n{whole}$ unobject o\n{listing}\n")
    whole = object_of(code_of(EACH_INSTRUCTION.encode()))
    cases.pieces.append(f"//// each instruction\n{raw(whole)}$ unobject p\n{EACH_INSTRUCTION}")
    for length in range(len(whole)):
        cases.call(f"cut={length} unobject p", f"malformed p: object at {length}\n", 3)
    cases.close()
    whole = object_of(code_of(ONE_LINE.encode()))
    cases.pieces.append(f"//// one line\n{raw(whole)}> longer\n{raw(whole + b'0')}> twice\n{raw(whole * 2)}$ unobject p\n{ONE_LINE}")
    for name in ("longer", "twice"):
        cases.call(f"unobject {name}", f"malformed {name}: object at 24\n", 3)
    cases.close()
    for name, (piece, fault) in faulty_objects(b"COVO\1").items():
        cases.pieces.append(f"//// {name}\n{raw(piece) if piece else '@0 x' + chr(10)}")
        if fault is None:
            cases.call("unobject p", LISTED[name])
        else:
            cases.call("unobject p", f"malformed p: {fault}\n", 3)
        cases.close()
    cases.case("as many bytes as are read, and one more", "@262144 " + "C" * 64, o="@262144 " + "C" * 64 + "\n@1 C")
    cases.call("unobject p", "malformed p: object at 1\n", 3)
    cases.call("unobject o", "too long: o\n", 7)
    cases.close()
    cases.case("no object is written of these", "var a: low; var s: high; thread t { a := s; }", w="var a: low; var a: high; thread t { a := b; }", q="thread")
    for words, due, status in (("object p", "refused V9 in t at 36 entailment 1\n", 1), ("object w", "refused W1 at 16: a\n", 1),
                               ("object q", "malformed q: token at 7\n", 3), ("object x", "read fault: x\n", 4), ("unobject x", "read fault: x\n", 4),
                               ("object", USAGE, 2), ("unobject", USAGE, 2), ("object p p", USAGE, 2), ("unobject p p", USAGE, 2),
                               ("objects p", USAGE, 2), ("Object p", USAGE, 2)):
        cases.call(words, due, status)
    cases.close()
    text = "var a: low; thread t { a := 1; }"
    listing = "code 1\nvar a\nthread t 2\n1 movc r0 1\n1 store a r0\n"
    whole = object_of(code_of(listing.encode()))
    cases.pieces.append(f"//// each call outside fails\n{text}\n> o\n{raw(whole)}> f\n{raw(whole[:-1])}> g\n{raw(whole[:-4] + four(1))}")
    cases.call("fetch=1 object p", "read fault: p\n", 4)
    cases.call("fetch=1 unobject o", "read fault: o\n", 4)
    for put, length in enumerate(range(0, len(whole), 7), 1):
        cases.pieces.append(f"$ step=7 put={put} object p\n{raw(whole[:length] + b'[5]' + bytes([10]))}")
    puts_each(cases, "unobject o", listing, 0, 7)
    puts_each(cases, "unobject f", f"malformed f: object at {len(whole) - 1}\n", 3, 7)
    puts_each(cases, "unobject g", f"malformed g: object at {len(whole) - 4}\n", 3, 7)
    cases.close()
    return cases


FILES = {"positions": positions, "registers": registers, "failures": failures, "cuts": cuts, "inputs": inputs, "numbers": numbers, "trials": trials, "objects": objects}


def main():
    for name in sys.argv[1:] or FILES:
        cases = FILES[name]()
        with open(os.path.join(DATA, name), "w", encoding="latin-1", newline="") as out:
            out.write("".join(cases.pieces).rstrip("\n") + "\n")


if __name__ == "__main__":
    main()
