#!/usr/bin/env python3
"""Runs two programs in turns, an older and a newer one, on projects of each shape, and compares their least times.

  bench/turns.py OLD NEW [--runs 5] [--only WORDS] [--instructions]

Both run `scratch`, a first check, an unchanged one, one after a body was edited and one after a field was added, and an
audit of three unchanged sessions, which the older one has written. The turns begin with the one and with the other. A
line each has the least seconds of both, and how many times as long the newer one takes. Nothing is asserted.

With --instructions each runs once under valgrind, which counts instructions: they are the same in each run, whatever else the
machine does, and say nothing of memory and devices.
"""
import argparse
import re
import shutil
import subprocess
import sys
import tempfile
from pathlib import Path

sys.dont_write_bytecode = True
from chains import session_files, session_path  # noqa: E402
from measuring import check, in_turn, measured, program_path  # noqa: E402
from projects import EDITS, edit_file  # noqa: E402
from rechecks import times_of  # noqa: E402
from shapes import SHAPES  # noqa: E402

# What valgrind says of all instructions.
COUNT = re.compile(r"I +refs: +([\d,]+)")

AUDITED = 3


def chain(program, folder, names):
    """Writes unchanged sessions, which no check touches. Answers the session files."""
    for _ in range(AUDITED):
        check(program, folder, names)
    shutil.move(Path(folder, "cache"), Path(folder, "audited"))
    return session_files(folder, "audited")


def least_times(programs, folder, names, runs):
    """The least seconds of each run, by each program."""
    files = chain(programs[0], folder, names)
    least = [{} for _ in programs]
    for turn in range(runs):
        for place in in_turn(range(len(programs)), turn):
            took = times_of(programs[place], folder, names, 1)
            took["audit"] = measured([programs[place], "audit", *files], folder).seconds
            least[place] = {title: min(seconds, least[place].get(title, seconds)) for title, seconds in took.items()}
    return least


def instructions(words, folder):
    """How many instructions a run takes."""
    tool = ["valgrind", "--tool=cachegrind", "--cache-sim=no", "--cachegrind-out-file=/dev/null"]
    done = subprocess.run([*tool, *words], cwd=folder, stdin=subprocess.DEVNULL, stdout=subprocess.DEVNULL,
                          stderr=subprocess.PIPE, text=True)
    found = COUNT.search(done.stderr)
    if found is None:
        sys.exit(f"valgrind counts nothing of {words[0]}: {done.stderr[-400:]}")
    return int(found[1].replace(",", ""))


def counted(program, folder, names, files):
    """The instructions of `scratch`, of a first check, of one behind it after each edit, and of an audit of these session files."""
    counts = {"scratch": instructions([program, "scratch", *names], folder)}
    words = [program, "check", "--cache", "cache", *names]
    for title, edit in EDITS.items():
        if Path(folder, "cache").exists():
            # The first session stays, and what an edit's check has written behind it goes.
            session_path(folder, 1).unlink()
        else:
            counts["first"] = instructions(words, folder)
        text = edit_file(folder, names[-1], edit, 7)
        counts[title] = instructions(words, folder)
        Path(folder, names[-1]).write_text(text)
    shutil.rmtree(Path(folder, "cache"))
    counts["audit"] = instructions([program, "audit", *files], folder)
    return counts


def compare_counts(programs, shape):
    """Prints a line for each run of a shape, with the instructions of both programs."""
    with tempfile.TemporaryDirectory() as folder:
        names = SHAPES[shape](folder)
        files = chain(programs[0], folder, names)
        old, new = (counted(program, folder, names, files) for program in programs)
    print(shape)
    for title, count in old.items():
        print(f"  {title}: {count:,} and {new[title]:,} instructions, {new[title] / count:.4f} times", flush=True)


def compared(programs, shape, runs):
    """Prints a line for each run of a shape."""
    with tempfile.TemporaryDirectory() as folder:
        old, new = least_times(programs, folder, SHAPES[shape](folder), runs)
    print(shape)
    for title, seconds in old.items():
        print(f"  {title}: {seconds:.3f} and {new[title]:.3f} s, {new[title] / seconds:.2f} times", flush=True)


def main():
    parser = argparse.ArgumentParser(description=__doc__, formatter_class=argparse.RawDescriptionHelpFormatter)
    parser.add_argument("old", type=program_path, metavar="OLD")
    parser.add_argument("new", type=program_path, metavar="NEW")
    parser.add_argument("--runs", type=int, default=5, help="runs of which the shortest counts")
    parser.add_argument("--only", metavar="WORDS", default="", help="the shapes whose names have these words")
    parser.add_argument("--instructions", action="store_true", help="count them, by valgrind, in place of seconds")
    given = parser.parse_args()
    programs = given.old, given.new
    for shape in SHAPES:
        if given.only not in shape:
            continue
        if given.instructions:
            compare_counts(programs, shape)
        else:
            compared(programs, shape, given.runs)


if __name__ == "__main__":
    main()
