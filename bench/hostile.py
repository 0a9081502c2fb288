#!/usr/bin/env python3
"""Times `mjrg scratch` and `mjrg check` on hostile files of 1 MiB beside one of ordinary methods, in one run.

Each file is of one kind: all its fields are faulty, its classes stand in one chain, and so on. Prints for each the least
time of some runs of `scratch`, of a first check and of an unchanged one, and how many times as long each is as the same
takes on the ordinary file; behind that both checks by several workers (--jobs), and what part of one worker's time they
take. Nothing is asserted. A file that takes longer than the limit is given up.
"""
import argparse
import shutil
import subprocess
import sys
import tempfile
import threading
import time
from pathlib import Path

sys.dont_write_bytecode = True
from measuring import asked, in_turn  # noqa: E402
from shapes import MAIN  # noqa: E402

MOST = 1_048_576


def filled(head, items, tail):
    """As many items as there is room for."""
    parts, room = [], MOST - len(MAIN) - len(head) - len(tail)
    for item in items:
        room -= len(item)
        if room < 0:
            break
        parts.append(item)
    return MAIN + head + "".join(parts) + tail


def numbers():
    number = 0
    while True:
        yield number
        number += 1


def ring(members=""):
    """As many classes as there is room for, each of which extends the next, and the last of which the first."""
    parts, room = [], MOST - len(MAIN) - len(f"class C00000 extends C0{{{members}}}\n")
    for i in numbers():
        part = f"class C{i} extends C{i + 1}{{{members}}}"
        room -= len(part)
        if room < 0:
            return MAIN + "".join(parts) + f"class C{i} extends C0{{{members}}}\n"
        parts.append(part)


def chain(members=""):
    """As many classes as there is room for, each of which extends the one before."""
    return filled(f"class C0{{{members}}}", (f"class C{i + 1} extends C{i}{{{members}}}" for i in numbers()), "\n")


def ordinary_methods(letter):
    """Forty methods with nothing at fault, whose names begin with this letter."""
    for i in range(40):
        yield (f"public int {letter}{i}(int x, boolean b) {{ int y; y = x * (n + {i}); while (b && y < 9) y = y + 1; "
               f"return this.{letter}{i}(y, !b); }}\n")


KINDS = {
    "ordinary methods": lambda: filled(
        "class A { int n; ", ordinary_methods("m"), "}\n") + "".join(
        f"class B{k} extends A {{ int n; " + "".join(ordinary_methods("p")) + "}\n" for k in range(210)),
    "faulty fields": lambda: filled("class A { ", (f"C f{i};" for i in numbers()), "}\n"),
    "repeated fields": lambda: filled("class A { ", ("int f;" for _ in numbers()), "}\n"),
    "undeclared names in one body": lambda: filled(
        "class A { public int f() { ", ("x=1;" for _ in numbers()), "return 1; } }\n"),
    "repeated locals": lambda: filled("class A { public int f() { ", ("int x;" for _ in numbers()), "return 1; } }\n"),
    "repeated classes": lambda: filled("", ("class A{}" for _ in numbers()), "\n"),
    "new of undeclared classes": lambda: filled(
        "class A { ", (f"public int m{i}(){{return new B{i}().f();}}" for i in numbers()), "}\n"),
    "one chain of classes": chain,
    "classes in a ring": ring,
    "a chain of a field each": lambda: chain("int f;"),
    "a ring of a field each": lambda: ring("int f;"),
    "a chain of a method each": lambda: chain("public int m(){return this.n();}"),
    "methods of one class": lambda: filled(
        "class A { ", (f"public int m{i}(){{return 1;}}" for i in numbers()), "}\n"),
    "calls in one class": lambda: filled(
        "class A { ", (f"public int m{i}(){{return this.m{i}();}}" for i in numbers()), "}\n"),
}


def timed(words, limit):
    """Seconds and status of one run; None if it takes longer than the limit. A wait with a timeout of its own would only
    look every 50 ms."""
    started = time.perf_counter()
    ran = subprocess.Popen(words, stdout=subprocess.DEVNULL, stderr=subprocess.DEVNULL)
    watch = threading.Timer(limit, ran.kill)
    watch.start()
    status = ran.wait()
    taken = time.perf_counter() - started
    watch.cancel()
    return (taken, status) if taken < limit else None


def runs_of(program, path, numbers):
    """The runs that are timed, in order: an unchanged check stands over the cache of the first one."""
    runs = {"scratch": [program, "scratch", path]}
    for number in numbers:
        behind = "" if number == 1 else f" by {number}"
        cache = Path(path).parent / f"cache{number}"
        check = [program, "check", "--cache", str(cache), "--jobs", str(number), path]
        shutil.rmtree(cache, ignore_errors=True)
        runs |= {f"first check{behind}": check, f"unchanged{behind}": check}
    return runs


def least_times(program, path, runs, limit, jobs):
    """The least seconds of each of these runs, or None if one takes longer than the limit."""
    least = {}
    for turn in range(runs):
        for run, words in runs_of(program, path, in_turn((1, jobs), turn)).items():
            if run in least and least[run] is None:
                continue
            took = timed(words, limit)
            if took is not None and took[1] not in (0, 1):
                raise SystemExit(f"{path}: {run} ends with status {took[1]}")
            seconds = took and took[0]
            before = least.get(run, seconds)
            least[run] = seconds and before and min(seconds, before)
    return least


def shown(run, took, ordinary, limit):
    """The seconds of a run beside those of the ordinary file, or by several workers beside those of one."""
    seconds, alone = took[run], run.partition(" by ")[0]
    if seconds is None:
        return f"over {limit} s"
    if run != alone and took[alone] is None:
        return f"{seconds:.3f} s, and one worker over {limit} s"
    if run != alone:
        return f"{seconds:.3f} s, {seconds / took[alone]:.2f} of one worker's"
    return f"{seconds:.3f} s, {seconds / ordinary[run]:.1f} times"


def main():
    parser = argparse.ArgumentParser(description=__doc__.splitlines()[0])
    parser.add_argument("--limit", type=int, default=60, help="seconds after which a run is given up")
    parser.add_argument("--jobs", type=int, default=4, help="how many workers make the checks by several")
    given = asked(parser)
    ordinary = None
    with tempfile.TemporaryDirectory() as folder:
        for kind, text in KINDS.items():
            path = Path(folder, "file.java")
            text = text()[:MOST]
            path.write_text(text)
            took = least_times(given.program, str(path), given.runs, given.limit, given.jobs)
            ordinary = ordinary or took
            told = "; ".join(f"{run} {shown(run, took, ordinary, given.limit)}" for run in took)
            print(f"{kind}: {len(text)} bytes; {told}", flush=True)


if __name__ == "__main__":
    main()
