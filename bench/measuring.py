"""Runs a program, and says how long it took and how much memory it had."""
import collections
import multiprocessing
import os
import shutil
import subprocess
import sys
import tempfile
import time
from pathlib import Path

TOP = Path(__file__).resolve().parent.parent

Run = collections.namedtuple("Run", "seconds peak")


def program_path(word):
    """The whole path of a program that is given by a path or by its name, since it is run in other folders."""
    found = shutil.which(word)
    if found is None:
        sys.exit(f"{word} is no program")
    return os.path.abspath(found)


def asked(parser, runs=3):
    """What this parser reads of the command line, of which the program and the number of runs are the last."""
    parser.add_argument("program", nargs="?", type=program_path, default=str(TOP / "mjrg"))
    parser.add_argument("--runs", type=int, default=runs, help="runs of which the shortest counts")
    return parser.parse_args()


def measured(words, folder, statuses=(0,)):
    """Seconds and peak bytes of one run, which has to end in one of these statuses."""
    started = time.perf_counter()
    child = subprocess.Popen(words, cwd=folder, stdin=subprocess.DEVNULL, stdout=subprocess.DEVNULL,
                             stderr=subprocess.PIPE)
    told = child.stderr.read()
    _, status, usage = os.wait4(child.pid, 0)
    child.returncode = os.waitstatus_to_exitcode(status)
    if child.returncode not in statuses:
        sys.exit(f"{words[0]} ended with status {child.returncode}: {told[:400]!r}")
    return Run(time.perf_counter() - started, usage.ru_maxrss * 1024)


def least_time(words, folder, runs, statuses=(0,)):
    """The least seconds of so many runs."""
    return min(measured(words, folder, statuses).seconds for _ in range(runs))


def in_turn(things, turn):
    """These things in their order, and in every second turn in the other one, so that none is always the last of a turn."""
    return things if turn % 2 == 0 else things[::-1]


def repeated(program, steps, data, count, runs):
    """The least seconds in which a program does each of these steps on such bytes so many times, and `sha256sum` sums them.
    What a run costs without any repetition is taken off each time."""
    with tempfile.TemporaryDirectory() as folder:
        file, empty = Path(folder, "bytes"), Path(folder, "empty")
        file.write_bytes(data)
        empty.write_bytes(b"")
        took = {}
        for step in steps:
            none = least_time([program, step, "0", str(file)], folder, runs)
            took[step] = least_time([program, step, str(count), str(file)], folder, runs) - none
        summing = least_time(["sha256sum"] + [str(file)] * count, folder, runs)
        took["sha256sum"] = summing - least_time(["sha256sum"] + [str(empty)] * count, folder, runs)
    return took


def elsewhere(run, *given):
    """Runs a function that needs much memory in another process: what a program has at most is reported together with what the
    process that started it has had."""
    ran = multiprocessing.Process(target=run, args=given)
    ran.start()
    ran.join()
    if ran.exitcode != 0:
        sys.exit(1)


def check(program, folder, names, *words):
    """Makes the next session of these files, in the cache of their folder."""
    return measured([program, "check", "--cache", "cache", *words, *names], folder)


def summed(files, folder):
    """Seconds that sha256sum takes for files."""
    return measured(["sha256sum", *files], folder).seconds
