"""What the tools that run a built program share: which one it is, how it is run, and how they say what passed."""
import argparse
import os
import re
import subprocess
from pathlib import Path

TOP = Path(__file__).resolve().parent.parent
BUILT = TOP / "crates" / "cli" / "out" / "cli"
# A run that takes longer has failed.
SECONDS = 60


def arguments(about):
    """A parser of a tool's arguments, of which the program is the first."""
    made = argparse.ArgumentParser(description=about, formatter_class=argparse.RawDescriptionHelpFormatter)
    made.add_argument("program", metavar="PROGRAM", nargs="?", default=BUILT, type=Path,
                      help="the executable (crates/cli/out/cli)")
    return made


def asked(parser):
    """What this parser reads of the command line, if the program is there."""
    options = parser.parse_args()
    options.program = options.program.resolve()
    if not (options.program.is_file() and os.access(options.program, os.X_OK)):
        parser.error(f"no program at {options.program}: tools/build builds it")
    return options


def run(words, folder, seconds=SECONDS, **how):
    """Runs a program in this folder, without input. Raises TimeoutExpired if it doesn't end."""
    return subprocess.run(words, cwd=folder, stdin=subprocess.DEVNULL, capture_output=True, timeout=seconds, check=False,
                          **how)


def ended(words, folder, **how):
    """The status, the standard output and the standard error of such a run, as texts."""
    ran = run(words, folder, text=True, **how)
    return ran.returncode, ran.stdout, ran.stderr


def is_met(expected, actual):
    """Whether a text, in bytes, is the expected one, in which a line '..' stands for any lines."""
    lines = expected.splitlines(keepends=True)
    if b"..\n" not in lines:
        return actual == expected
    pattern = b"".join(b"(?:.*\n)*" if line == b"..\n" else re.escape(line) for line in lines)
    return re.fullmatch(pattern, actual) is not None


def report(results, passing="passed"):
    """Prints the lines on what is wrong with each thing that was tried, none if it passed, and last how many passed and
    failed. Returns the exit status."""
    passed = failed = 0
    for wrong in results:
        passed, failed = passed + (not wrong), failed + bool(wrong)
        for text in wrong:
            print(text, flush=True)
    print(f"{passed} {passing}, {failed} failed")
    return 1 if failed else 0
