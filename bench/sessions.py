#!/usr/bin/env python3
"""Times session files and the checks that make them, in one run.

With --bench: reading and writing the file of a session of about 5 MB and of one of 50 MB beside `sha256sum`. The session
has the sources of 2,000 files, with results and prints such as a session has them. What a run costs without any
repetition is taken off each time, and reading is taken off writing, which begins with it.

Then `mjrg check` of 400 classes with 2,000 methods: a first session, an unchanged one, one after a body was edited, and
one after a field was added to a class that others extend, beside `mjrg scratch`, javac and `sha256sum` of the session's
file. Nothing is asserted.
"""
import argparse
import sys
import tempfile
from pathlib import Path

sys.dont_write_bytecode = True
from chains import session_files, session_of  # noqa: E402
from measuring import asked, check, elsewhere, measured, program_path, repeated, summed  # noqa: E402
from projects import EDITS  # noqa: E402
from rechecks import edited  # noqa: E402
from shapes import ordinary  # noqa: E402

FILES = 2000


def session(size):
    """The file of a first session of about so many bytes."""
    texts = {b"file%04d.java" % number: (b"class C%d { } " % number * (size // FILES // 12 + 1))[:size // FILES]
             for number in range(FILES)}
    return session_of(texts)


def of_bench(program, size, count, runs):
    """Reports how long reading and writing such a session takes. Answers the seconds of each."""
    data = session(size)
    took = repeated(program, ("read-session", "write-session"), data, count, runs)
    times = {"read": took["read-session"], "write": took["write-session"] - took["read-session"], "sha256sum": took["sha256sum"]}
    print(f"a session of {len(data)} bytes, {count} times")
    for step, seconds in times.items():
        print(f"{step}: {seconds / count:.3f} s, {seconds / max(times['sha256sum'], 1e-6):.1f} times sha256sum")
    return times


def by_sizes(program, count, runs):
    """Reports how long reading and writing a session of 5 MB takes, and one of 50 MB."""
    small, large = (of_bench(program, size, count, runs) for size in (5_000_000, 50_000_000))
    for step in ("read", "write"):
        print(f"{step}: ten times the bytes take {large[step] / small[step]:.1f} times as long")


def turns(program, folder, names, number):
    """What is run in turn, by its name."""
    def behind(edit):
        return lambda: edited(program, folder, names, edit, number)[1]

    return {"first session": lambda: check(program, folder, names), **{title: behind(edit) for title, edit in EDITS.items()},
            "scratch": lambda: measured([program, "scratch", *names], folder),
            "javac": lambda: measured(["javac", "-proc:none", "-nowarn", "-d", "classes", *names], folder)}


def checks(program, runs):
    """Reports the least seconds and the greatest peak of some runs of each kind of check."""
    took = {}
    for number in range(runs):
        with tempfile.TemporaryDirectory() as folder:
            for turn, run in turns(program, folder, ordinary(folder), number + 7).items():
                took.setdefault(turn, []).append(run())
            file = session_files(folder)[0]
            size = Path(file).stat().st_size
            took.setdefault("sha256sum", []).append((summed([file], folder), 0))
    least = {turn: min(seconds for seconds, _ in each) for turn, each in took.items()}
    print(f"400 classes with 2,000 methods, a session of {size} bytes")
    for turn, seconds in least.items():
        peak = max(peak for _, peak in took[turn])
        print(f"{turn}: {seconds:.3f} s, {seconds / least['javac']:.2f} times javac, "
              f"{seconds / least['first session']:.2f} times a first session, peak {peak / size:.1f} times the file")


def main():
    parser = argparse.ArgumentParser(description=__doc__, formatter_class=argparse.RawDescriptionHelpFormatter)
    parser.add_argument("--bench", type=program_path, metavar="CODEC_BENCH", help="the built program codec_bench")
    parser.add_argument("--count", type=int, default=5, help="repetitions of reading and writing")
    given = asked(parser)
    if given.bench:
        elsewhere(by_sizes, given.bench, given.count, given.runs)
    checks(given.program, given.runs)


if __name__ == "__main__":
    main()
