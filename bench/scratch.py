#!/usr/bin/env python3
"""Times `mjrg scratch` beside javac on projects of 400 and 4,000 classes, in one run.

Prints each project's size, the least time of some runs of each program, and their ratios. Nothing is
asserted: the times are those of this machine.
"""
import argparse
import subprocess
import sys
import tempfile
from pathlib import Path

sys.dont_write_bytecode = True
from measuring import asked, least_time  # noqa: E402
from projects import write_project  # noqa: E402


def compared(program, classes, fields, methods, runs):
    with tempfile.TemporaryDirectory() as folder:
        names = write_project(folder, classes, fields, methods)
        size = sum((Path(folder) / name).stat().st_size for name in names)
        ours = least_time([program, "scratch"] + names, folder, runs)
        javac = least_time(["javac", "-proc:none", "-nowarn", "-d", "classes"] + names, folder, runs)
    print(f"{classes} classes, {size} bytes: mjrg scratch {ours:.3f} s, javac {javac:.3f} s, "
          f"ratio mjrg/javac {ours / javac:.3f}")
    return ours


def main():
    parser = argparse.ArgumentParser(description=__doc__, formatter_class=argparse.RawDescriptionHelpFormatter)
    parser.add_argument("--fields", type=int, default=4, help="fields of a class beside its own (4)")
    parser.add_argument("--methods", type=int, default=0, help="long methods of a class (0: fields alone)")
    options = asked(parser)
    subprocess.run([options.program, "--help"], stdout=subprocess.DEVNULL, check=True)
    few = compared(options.program, 400, options.fields, options.methods, options.runs)
    many = compared(options.program, 4000, options.fields, options.methods, options.runs)
    print(f"4,000 classes take {many / few:.1f} times as long as 400")


if __name__ == "__main__":
    main()
