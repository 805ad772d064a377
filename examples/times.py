#!/usr/bin/env python3
"""Measures the times of docs/CHECKING.md: times.py PROGRAM

Prints processor milliseconds of the program, the best of several runs: loops beside CPython's, `fmt` and `compile` at three
lengths of source, what a take costs among few and many jobs, and a slice of work at two lengths of source and of saved state. The start of a process is taken off.
Run it with nothing else at work.
"""
import json
import resource
import subprocess
import sys
import time

LOOPS = [
    "let t := 0; while (t < 90000) { t := t + 1; } return t;",
    "fun f(n) { return n + 1; } let t := 0; while (t < 45000) { t := f(t); } return t;",
    "let d := {'a': 0, 'b': 0}; let t := 0; while (t < 60000) { d['a'] := d['a'] + 1; d['b'] := d['b'] + 2; t := t + 1; } return d;",
]


def additions():
    t = 0
    while t < 90000:
        t = t + 1
    return t


def successor(n):
    return n + 1


def calls():
    t = 0
    while t < 45000:
        t = successor(t)
    return t


def properties():
    d = {"a": 0, "b": 0}
    t = 0
    while t < 60000:
        d["a"] = d["a"] + 1
        d["b"] = d["b"] + 2
        t = t + 1
    return d


def once(program, word, text):
    """The processor milliseconds of one run."""
    before = resource.getrusage(resource.RUSAGE_CHILDREN)
    ran = subprocess.run([program, word], input=text.encode(), stdout=subprocess.DEVNULL)
    after = resource.getrusage(resource.RUSAGE_CHILDREN)
    assert ran.returncode == 0, (word, text[:80])
    return (after.ru_utime + after.ru_stime - before.ru_utime - before.ru_stime) * 1000


def best(program, word, text, runs):
    return min(once(program, word, text) for _ in range(runs))


def of_length(length, piece):
    """Pieces, numbered, as many as fit."""
    text = ""
    for i in range(10**6):
        more = text + piece.replace("#", str(i))
        if len(more) > length:
            return text
        text = more


def slices(source, cells, count):
    """A script in which a job makes so many dictionaries in one slice, and goes on for so many slices of 10 operations."""
    steps = [["enqueue", source, {}, 0, 0], ["take", 0, "hog", 0], ["work", 0, 40 * cells + 100], ["flush", 0]]
    for _ in range(count):
        steps += [["take", 0, "hog", 0], ["work", 0, 10], ["flush", 0]]
    return json.dumps(steps)


def job(length, cells):
    """A program of a length that makes an array of so many dictionaries, and then loops for most of its turns."""
    source = "let a := []; let i := 0; while (i < %d) { i := i + 1; a[i] := {'k': i, 'l': i, 'm': i}; } " % cells
    source += "let j := 0; while (j < 99999 - i) { j := j + 1; } "
    return source + of_length(length - len(source), "fun g#(x) { return x + #; } ")


def main():
    program = sys.argv[1]
    start = best(program, "eval", "", 31)
    print(f"start {start:.1f}")
    for source, same in zip(LOOPS, (additions, calls, properties)):
        own = best(program, "eval", source, 31) - start
        times = []
        for _ in range(31):
            begun = time.process_time()
            same()
            times.append(time.process_time() - begun)
        print(f"eval {own:.1f}, CPython in a function {min(times) * 1000:.1f}: {source}")
    for name, piece in [
        ("mixed", "if (a#) { print(f'x{a#}y', [1, {'k': b}], -c * (2 + #)); } else { d.e := x -> x; }\n"),
        ("let", "let a# := 1; "),
        ("fun", "fun a#() {} "),
    ]:
        for kib in (4, 8, 16):
            text = of_length(kib * 1024, piece)
            row = [f"{word} {best(program, word, text, 11) - start:.1f}" for word in ("fmt", "compile")]
            print(f"{', '.join(row)}: {kib} KiB of {name}")
    for jobs in (100, 16384):
        steps = [["enqueue", "while (true) {}", {}, 0, 0]] * jobs
        for name, pair in [
            ("take, work of one operation, flush", [["take", 0, "hog", 0], ["work", 0, 1], ["flush", 0]]),
            ("take, put back", [["take", 0, "hog", 0], ["back", 0, 0]]),
        ]:
            count = 10000
            more = best(program, "replay", json.dumps(steps + pair * count), 5) - best(program, "replay", json.dumps(steps), 5)
            print(f"replay {more / count * 1000:.1f} microseconds: {name}, among {jobs} jobs that are due")
    for length in (200, 16000):
        for cells, size in ((0, "a small state"), (170, "a state of 16 KiB"), (10934, "a state of 1 MiB")):
            source = job(length, cells)
            count = 5 if cells > 1000 else 50
            more = best(program, "replay", slices(source, cells, count), 5) - best(program, "replay", slices(source, cells, 0), 5)
            print(f"work {more / count:.2f}: a slice of 10 operations, {length} bytes of source, {size}")


main()
