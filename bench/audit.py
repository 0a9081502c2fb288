#!/usr/bin/env python3
"""Times `mjrg audit` of a first session, of ten and of a hundred unchanged ones and of ten with one body edited each, on 400
classes with 2,000 methods, and of three unchanged ones of projects of other shapes, each in form 1 and in form 2, beside
`sha256sum` of the files and `mjrg scratch`, in one run, and says how much memory it has at most. Nothing is asserted."""
import argparse
import sys
import tempfile
from pathlib import Path

sys.dont_write_bytecode = True
from chains import lengthen, session_files  # noqa: E402
from measuring import asked, check, least_time, measured, summed  # noqa: E402
from projects import edit_body, edit_file  # noqa: E402
from shapes import SHAPES, ordinary  # noqa: E402

SESSIONS, MANY, FEW = 10, 100, 3
# What the lines say of the form, and the arguments for it.
FORMS = {"": [], " in form 2": ["--form", "2"]}


def told(about, program, folder, names, files, runs):
    """Reports how long an audit of these files takes. Answers its seconds and its peak bytes."""
    sizes = [Path(file).stat().st_size for file in files]
    audits = [measured([program, "audit", *files], folder) for _ in range(runs)]
    seconds, peak = min(seconds for seconds, _ in audits), max(peak for _, peak in audits)
    summing = min(summed(files, folder) for _ in range(runs))
    scratch = least_time([program, "scratch", *names], folder, runs)
    print(f"{about}: {sum(sizes)} bytes in {len(files)} files: {seconds:.3f} s, {seconds / summing:.1f} times sha256sum, "
          f"{seconds / scratch:.1f} times scratch, peak {peak / max(sizes):.1f} times the largest file", flush=True)
    return seconds, peak


def unchanged_chain(program, folder, names, count, words):
    """Makes a chain of so many sessions of these files, all but the first unchanged, and answers the session files."""
    for _ in range(2):
        check(program, folder, names, *words)
    lengthen(folder, count)
    return session_files(folder)


def unchanged(program, runs, form, words):
    with tempfile.TemporaryDirectory() as folder:
        names = ordinary(folder)
        files = unchanged_chain(program, folder, names, MANY, words)
        told(f"a first session{form}", program, folder, names, files[:1], runs)
        few = told(f"{SESSIONS} unchanged sessions{form}", program, folder, names, files[:SESSIONS], runs)
        many = told(f"{MANY} unchanged sessions{form}", program, folder, names, files, runs)
    longer, greater = many[0] / few[0], many[1] / few[1]
    print(f"{MANY} sessions beside {SESSIONS}{form}: {longer:.2f} times as long, {greater:.2f} times the memory", flush=True)


def edited(program, runs, form, words):
    with tempfile.TemporaryDirectory() as folder:
        names = ordinary(folder)
        for number in range(SESSIONS):
            edit_file(folder, names[number + 1], edit_body, number + 7)
            check(program, folder, names, *words)
        told(f"{SESSIONS} sessions with a body edited each{form}", program, folder, names, session_files(folder), runs)


def by_shapes(program, runs, form, words):
    """An audit of a few unchanged sessions of each shape."""
    for shape, write in SHAPES.items():
        with tempfile.TemporaryDirectory() as folder:
            names = write(folder)
            files = unchanged_chain(program, folder, names, FEW, words)
            told(f"{FEW} unchanged sessions of {shape}{form}", program, folder, names, files, runs)


def main():
    parser = argparse.ArgumentParser(description=__doc__)
    parser.add_argument("--only", choices=["chains", "shapes"], help="one of both parts")
    given = asked(parser)
    for form, words in FORMS.items():
        if given.only != "shapes":
            unchanged(given.program, given.runs, form, words)
            edited(given.program, given.runs, form, words)
        if given.only != "chains":
            by_shapes(given.program, given.runs, form, words)


if __name__ == "__main__":
    main()
