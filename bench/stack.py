#!/usr/bin/env python3
"""Measures how much stack the commands of `covern` need on the texts that nest deepest, and prints a table.

usage: bench/stack.py [PROGRAM]    (the built program; without it, the one that the launcher built)

The need is the least limit (`ulimit -s`), a multiple of STEP KiB, under which a call ends with the status and the report that it has
with AMPLE KiB. It wants Linux.
"""
import os
import subprocess
import sys
import tempfile

from hostile import WORDS

TOP = os.path.dirname(os.path.dirname(os.path.abspath(__file__)))
STEP, AMPLE = 8, 65536
BLOCKS, HEIGHT, BRACKETS, STEPS = 64, 64, 200, 500


def nested(head, tail, inner):
    """A program with as many blocks in each other as there may be, the thread's included."""
    return f"var a: low; thread t assume nowrite a {{ {head * (BLOCKS - 1)}{inner}{tail * (BLOCKS - 1)} }}"


def branches(inner):
    return nested("if a { ", " } else { }", inner)


def sum_of(atom, height=HEIGHT):
    """A sum of this height, by default as high as an expression may be."""
    return "(" * (height - 1) + atom + " + 1)" * (height - 1)


def certified(proof):
    """A statement with a certificate as high as one may be, which ends with the proof of an expression of nearly the height of one."""
    return f"a := 1 by {{ 1: {'have [1] calc (' * (HEIGHT - 2)}have [{proof} calc{')' * (HEIGHT - 2)} }};"


def brackets():
    free = BRACKETS - BLOCKS
    return branches(f"a := {'(' * free}a{')' * free};")


def texts():
    return {
        "flat": "var a: low; thread t assume nowrite a { a := 1; }",
        "branches": branches("a := 1;"),
        "loops": nested("while a { ", " }", "a := 1;"),
        "expression": branches(f"a := {sum_of('a')};"),
        "calc": branches(certified(f"0 < {sum_of('1', HEIGHT - 1)}] calc")),
        "ring": branches(certified(f"{sum_of('a', HEIGHT - 1)} == {sum_of('a', HEIGHT - 1)}] ring")),
        "range": branches(certified(f"0 <= {sum_of('a', HEIGHT - 1)}] range")),
        "brackets": brackets(),
        "start": '{"a":1}',
        "lists": "[" * 100_000 + "]" * 100_000,
        "schedule": f"[{', '.join('0' * STEPS)}]",
    }


def calls(path):
    programs = ["flat", "branches", "loops", "expression", "calc", "ring", "range", "brackets"]
    for name in programs:
        files = {"p": path(name), "s": path("start"), "t": path("start"), "k": path("schedule"), "mode == 1": sum_of("a")}
        for command, *words in WORDS:
            if "p" in words:
                yield [command, *(files.get(word, word) for word in words)]
    yield ["run", path("flat"), path("lists"), path("schedule")]


def shown(program, words, limit):
    ran = subprocess.run(["sh", "-c", f'ulimit -s {limit} && exec "$@"', "sh", program, *words], capture_output=True)
    return ran.returncode, ran.stdout


def need(program, words):
    due = shown(program, words, AMPLE)
    low, high = 0, AMPLE // STEP
    while high - low > 1:
        middle = (low + high) // 2
        low, high = (low, middle) if shown(program, words, middle * STEP) == due else (middle, high)
    return due[0], high * STEP


def main():
    program = os.path.abspath(sys.argv[1] if len(sys.argv) > 1 else os.path.join(TOP, ".build", "covern"))
    with tempfile.TemporaryDirectory() as room:
        for name, text in texts().items():
            with open(os.path.join(room, name), "w", encoding="utf-8") as file:
                file.write(text)
        print("| command | text | status | KiB |\n|---|---|---|---|")
        for words in calls(lambda name: os.path.join(room, name)):
            status, least = need(program, words)
            text = " ".join(os.path.basename(word) for word in words[1:3] if os.sep in word)
            print(f"| {words[0]} | {text} | {status} | {least} |", flush=True)


main()
