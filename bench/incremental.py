#!/usr/bin/env python3
"""Times `mjrg check` on projects that change, in one run: by shapes of projects, by profile and form, and by numbers of
workers.

Of each shape (400 classes with 2,000 methods, 4,096 files of a class each, a body that names 8,000 classes, a chain of 400
classes) a line each for `scratch`, a first check, and one behind it of the same files, of files of which a body was edited,
and of files in which a class got a field; each with how many times as long as `scratch` it takes.

Of the first of these a check of unchanged sources over a session of another profile, the bytes of an unchanged session in
both forms, and an unchanged check behind 1, 2, 10 and 50 sessions of form 2, each beside an unchanged check in form 1.

By 1, 2, 4 and 8 workers (--jobs) a first session, an unchanged one, and one in which a body was edited, each beside the time
of the first number of workers.
The runs take turns, which begin with the fewest and with the most workers, and the least of each counts. Nothing is asserted
but that all workers make the same files.
"""
import argparse
import filecmp
import shutil
import sys
import tempfile
from pathlib import Path

sys.dont_write_bytecode = True
from chains import session_files  # noqa: E402
from measuring import asked, in_turn, measured  # noqa: E402
from projects import EDITS, edit_file, write_project  # noqa: E402
from rechecks import by_shapes  # noqa: E402
from shapes import SHAPES  # noqa: E402
from terms import by_terms  # noqa: E402

# A name, and how to write the project.
PROJECTS = {
    "400 classes of 5 methods": lambda folder: write_project(folder, 400, 4, 5, 40),
    "100 classes of 60 methods": lambda folder: write_project(folder, 100, 4, 60, 5),
    "4,096 files of a class of 1 method": lambda folder: write_project(folder, 4095, 2, 1, 1),
    **{name: write for name, write in SHAPES.items() if name.startswith(("a body", "a chain"))},
}


def check_by(program, folder, names, jobs):
    """Seconds of a first session by so many workers, of an unchanged one, and of one behind it with a body edited, and the
    files that they made."""
    cache = f"cache{jobs}"
    shutil.rmtree(Path(folder, cache), ignore_errors=True)
    words = [program, "check", "--cache", cache, "--jobs", str(jobs), *names]
    took = [measured(words, folder).seconds for _ in range(2)]
    text = edit_file(folder, names[-1], EDITS["a body edited"], 7)
    took.append(measured(words, folder).seconds)
    Path(folder, names[-1]).write_text(text)
    return took, session_files(folder, cache)


def times_by(program, folder, names, numbers, runs):
    """The least seconds of each session by each number of workers. The turns begin with the fewest and with the most."""
    least = {}
    for turn in range(runs):
        made = None
        for jobs in in_turn(numbers, turn):
            took, files = check_by(program, folder, names, jobs)
            least[jobs] = [min(pair) for pair in zip(took, least.get(jobs, took))]
            made = made or files
            if not all(filecmp.cmp(one, other, shallow=False) for one, other in zip(made, files, strict=True)):
                sys.exit(f"{jobs} workers make other files than others")
    return least


def by_workers(program, numbers, runs):
    for title, write in PROJECTS.items():
        with tempfile.TemporaryDirectory() as folder:
            least = times_by(program, folder, write(folder), numbers, runs)
        print(title)
        for jobs in numbers:
            took = least[jobs]
            parts = (f"{seconds:.2f} s, {seconds / alone:.2f}" for seconds, alone in zip(took, least[numbers[0]]))
            first, again, edited = parts
            print(f"  {jobs} workers: a first session {first}; unchanged {again}; a body edited {edited}", flush=True)


def main():
    parser = argparse.ArgumentParser(description=__doc__, formatter_class=argparse.RawDescriptionHelpFormatter)
    parser.add_argument("--only", choices=["shapes", "terms", "jobs"], help="one of the parts")
    parser.add_argument("--jobs", type=int, nargs="+", default=[1, 2, 4, 8], help="numbers of workers")
    given = asked(parser)
    if given.only in (None, "shapes"):
        by_shapes(given.program, given.runs)
    if given.only in (None, "terms"):
        by_terms(given.program, given.runs)
    if given.only in (None, "jobs"):
        by_workers(given.program, given.jobs, given.runs)


if __name__ == "__main__":
    main()
