#!/usr/bin/env python3
"""Times `mjrg why` and `mjrg show --dot` of an unchanged session and of one of an edited body, beside an unchanged check, on projects
of several shapes, in one run. Nothing is asserted."""
import argparse
import sys
import tempfile

sys.dont_write_bytecode = True
from chains import session_files  # noqa: E402
from measuring import asked, check, least_time  # noqa: E402
from projects import edit_body, edit_file  # noqa: E402
from shapes import SHAPES  # noqa: E402

# What is asked of a chain, by the arguments that ask for it.
ASKED = {"why": ["why"], "why --of Answer": ["why", "--of", "Answer"], "show --dot": ["show", "--dot"]}


def told(about, program, folder, unchanged, runs):
    """Reports how long each question takes about the last session of the chain, beside an unchanged check."""
    for title, words in ASKED.items():
        seconds = least_time([program, *words, *session_files(folder)], folder, runs)
        print(f"  {title} of {about}: {seconds:.3f} s, {seconds / unchanged:.2f} times an unchanged check", flush=True)


def by_shape(program, folder, names, runs):
    """Asks of an unchanged session over a first one, and of one of an edited body over both."""
    check(program, folder, names)
    unchanged = check(program, folder, names).seconds
    told("an unchanged session", program, folder, unchanged, runs)
    edit_file(folder, names[-1], edit_body, 7)
    check(program, folder, names)
    told("a session of an edited body", program, folder, unchanged, runs)


def main():
    given = asked(argparse.ArgumentParser(description=__doc__))
    for shape, write in SHAPES.items():
        print(shape)
        with tempfile.TemporaryDirectory() as folder:
            by_shape(given.program, folder, write(folder), given.runs)


if __name__ == "__main__":
    main()
