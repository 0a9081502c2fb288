#!/usr/bin/env python3
"""Reports how the cost of `mjrg` grows with a project's size, in one run: the seconds and the memory of `scratch`, of a first
check, of an unchanged one behind it, and of an audit of the two session files.

  bench/growth.py dist/mjrg --runs 3 --json FILE --plot docs/growth.svg
  bench/growth.py --from FILE --plot docs/growth.svg

There are two families of projects: 250, 1,000 and 4,000 classes of five methods of some 1,700 bytes each, one in a file; and
one class of 1,000, 2,000, 4,000 and 8,000 methods in a file of just below 1 MiB, whose bodies are the shorter the more there
are. All are without faults.

Prints a table for each family: the least seconds of some runs, the most memory that one of them had, in MB and in bytes for
each byte of source, and below them the exponents of time and of memory. An exponent is the slope of the straight line that
fits the logarithms of the costs best over those of the sizes: bytes of source in the first family, and methods in the second,
whose bytes are the same. It is 1 if the cost is in proportion. Nothing is asserted.
"""
import argparse
import json
import math
import shutil
import subprocess
import sys
import tempfile
from collections import namedtuple
from pathlib import Path
from statistics import linear_regression

sys.dont_write_bytecode = True
from chains import session_files  # noqa: E402
from hostile import MOST  # noqa: E402
from measuring import asked, check, elsewhere, measured  # noqa: E402
from plots import Panel, picture  # noqa: E402
from projects import write_project, written  # noqa: E402
from shapes import MAIN  # noqa: E402

# A program's peak is at least what the process had that started it: 14 MB of this one by a fork, and 25 by a vfork.
subprocess._USE_VFORK = False

# What is counted, in which numbers, what writes a project, its size, and what stands at the axis and above the panels.
Family = namedtuple("Family", "counted numbers write size axis title")


def write_classes(folder, count):
    """So many classes of five methods, one in a file."""
    write_project(folder, count, 4, 5, 1)


def method_text(index, room):
    """A method that calls the one before it, with as many statements as there is room for."""
    head = f"  public int m{index:04}(int x) {{\n    int y; y = this.m{max(index - 1, 0):04}(x);\n"
    statement, tail = "    y = y * (x + 2) - 1;\n", "    return y;\n  }\n"
    return head + statement * ((room - len(head) - len(tail)) // len(statement)) + tail


def write_methods(folder, count):
    """One file of at most 1 MiB with a class of so many methods: the more there are, the shorter are their bodies."""
    head, tail, methods = MAIN + "class A {\n", "}\n", []
    room = MOST - len(head) - len(tail)
    for index in range(count):
        methods.append(method_text(index, room // (count - index)))
        room -= len(methods[-1])
    written(folder, {"A.java": head + "".join(methods) + tail})


FAMILIES = [
    Family("classes", (250, 1000, 4000), write_classes, lambda point: point["bytes"] / 1e6, "source, MB",
           "classes of five methods, one a file"),
    Family("methods", (1000, 2000, 4000, 8000), write_methods, lambda point: point["number"], "methods",
           "methods of one class in 1 MiB"),
]


# ---- measuring

def costs_of(program, folder, names):
    """What each subcommand costs. A check goes on from the one before it, and the audit is that of their sessions."""
    shutil.rmtree(Path(folder, "cache"), ignore_errors=True)
    scratch = measured([program, "scratch", *names], folder)
    first, unchanged = (check(program, folder, names) for _ in range(2))
    audit = measured([program, "audit", *session_files(folder)], folder)
    return {"scratch": scratch, "a first check": first, "an unchanged check": unchanged, "an audit of both sessions": audit}


def least(took):
    """The least seconds of each subcommand in these runs, and its most memory."""
    return {name: [min(costs[name].seconds for costs in took), max(costs[name].peak for costs in took)] for name in took[0]}


def point_of(program, family, number, runs):
    """What a project of so many classes or methods costs, with its size."""
    with tempfile.TemporaryDirectory() as folder:
        elsewhere(family.write, folder, number)
        files = sorted(Path(folder).iterdir())
        size = sum(file.stat().st_size for file in files)
        took = [costs_of(program, folder, [file.name for file in files]) for _ in range(runs)]
    return {"number": number, "bytes": size, "costs": least(took)}


def points_of(family, given):
    """What each project of a family costs: as an earlier run wrote it, or one after the other as they are asked for."""
    if given.known:
        return json.loads(given.known.read_text())[family.counted]
    return (point_of(given.program, family, number, given.runs) for number in family.numbers)


# ---- reporting

def row(*cells):
    print(f"| {' | '.join(cells)} |", flush=True)


def lines_of(family, points, place):
    """The sizes with the seconds (place 0) or the bytes of memory (place 1) of each subcommand."""
    return {name: [(family.size(point), point["costs"][name][place]) for point in points] for name in points[0]["costs"]}


def exponent(line):
    """The slope of the least-squares line through the logarithms."""
    return linear_regression(*zip(*((math.log(size), math.log(cost)) for size, cost in line))).slope


def told(family, points):
    """Reports what each project costs as soon as that is known, and the exponents. Answers all points."""
    known = []
    for point in points:
        if not known:
            row(family.title[0].upper() + family.title[1:], "bytes", *point["costs"])
            print("|---" * (2 + len(point["costs"])) + "|")
        known.append(point)
        cells = (f"{seconds:.3f} s, {peak / 1e6:.0f} MB, {peak / point['bytes']:.1f}" for seconds, peak in point["costs"].values())
        row(f"{point['number']:,} {family.counted}", f"{point['bytes']:,}", *cells)
    seconds, memory = (lines_of(family, known, place).values() for place in (0, 1))
    row("exponents", "", *(f"{exponent(one):.2f}, {exponent(other):.2f}" for one, other in zip(seconds, memory)))
    print()
    return known


def panels(family, points):
    """The panels of a family: its time and its memory."""
    memory = {name: [(size, peak / 1e6) for size, peak in line] for name, line in lines_of(family, points, 1).items()}
    return [Panel(f"Time: {family.title}", family.axis, "seconds", lines_of(family, points, 0)),
            Panel(f"Memory: {family.title}", family.axis, "memory at most, MB", memory)]


def main():
    parser = argparse.ArgumentParser(description=__doc__, formatter_class=argparse.RawDescriptionHelpFormatter)
    parser.add_argument("--json", metavar="FILE", type=Path, help="write the figures there")
    parser.add_argument("--from", metavar="FILE", type=Path, dest="known", help="run nothing: take the figures that --json wrote there")
    parser.add_argument("--plot", metavar="FILE", type=Path, help="draw the figures there, as SVG")
    given = asked(parser)
    figures = {family.counted: told(family, points_of(family, given)) for family in FAMILIES}
    if given.json:
        given.json.write_text(json.dumps(figures, indent=1) + "\n")
    if given.plot:
        rows = [panels(family, figures[family.counted]) for family in FAMILIES]
        given.plot.write_text(picture("How time and memory grow with the size of a project",
                                      "The least seconds and the most memory of some runs. Both axes of each panel are logarithmic.", rows))


if __name__ == "__main__":
    main()
