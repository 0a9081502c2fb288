#!/usr/bin/env python3
"""Times lexing and parsing beside javac's parser and beside reading the file alone, in one run.

The text stands in a class whose name an earlier file has declared: `mjrg scratch` lexes and parses it and checks
no body of it. What a run costs on an almost empty text is taken off each program's time. Nothing is asserted.
"""
import argparse
import subprocess
import sys
import tempfile

sys.dont_write_bytecode = True
from measuring import asked, least_time  # noqa: E402
from projects import MAIN, method_lines, written  # noqa: E402

LIMIT = 1_048_576


def ordinary():
    """Methods until the file is full."""
    head, tail = "class A {\n", "}\n"
    out, size, index = [head], len(head) + len(tail), 0
    while True:
        method = "".join(method_lines(0, index))
        if size + len(method) > LIMIT:
            return "".join(out) + tail
        out.append(method)
        size += len(method)
        index += 1


def repeated(head, part, tail):
    return head + part * ((LIMIT - len(head) - len(tail)) // len(part)) + tail


def shapes():
    body = "class A { public int f() { int x; "
    end = " return 0; } }\n"
    yield "ordinary methods", ordinary()
    yield "one method of statements", repeated(body, "x = 1; ", end)
    yield "one call of arguments", repeated(body + "x = this.f(0", ", 1", ");" + end)
    yield "one name a line", repeated("class A {\n", "int abcdefgh;\n", "}\n")
    yield "one comment", repeated("class A { /*", "*", "*/ }\n")
    yield "digits", repeated(body + "x = ", "7", ";" + end)
    yield "nested comments", "class A { " + "/*" * 260_000 + "*/" * 260_000 + " }\n"


# javac as a parser alone.
PARSE = ["javac", "-proc:none", "-XDshould-stop.ifError=PARSE", "-XDshould-stop.ifNoError=PARSE"]


def times_of(program, text, runs, statuses):
    """The least seconds of `mjrg scratch` over this text, of javac, which has to end in one of these statuses, and of reading."""
    with tempfile.TemporaryDirectory() as folder:
        files = written(folder, {"Main.java": MAIN, "First.java": "class A { }\n", "Text.java": text})
        return {"mjrg": least_time([program, "scratch", *files], folder, runs, (1,)),
                "javac": least_time([*PARSE, "Text.java"], folder, runs, statuses),
                "reading": least_time(["cat", "Text.java"], folder, runs)}


def compared(program, name, text, runs, base):
    # javac's comments don't nest and its literals end at 2147483647, so some of these texts it refuses
    took = times_of(program, text, runs, (0, 1))
    ours, javac, size = took["mjrg"] - base["mjrg"], took["javac"] - base["javac"], len(text)
    print(f"{name}: {size} bytes, mjrg {size / max(ours, 1e-6) / 1e6:.1f} MB/s, time beside javac's parser "
          f"{ours / max(javac, 1e-6):.2f}, time beside reading {ours / max(took['reading'], 1e-6):.1f}")


def main():
    parser = argparse.ArgumentParser(description=__doc__, formatter_class=argparse.RawDescriptionHelpFormatter)
    options = asked(parser, runs=5)
    subprocess.run([options.program, "--help"], stdout=subprocess.DEVNULL, check=True)
    base = times_of(options.program, "class A { }\n", options.runs, (0,))
    print(f"start: mjrg {base['mjrg']:.4f} s, javac {base['javac']:.3f} s")
    for name, text in shapes():
        compared(options.program, name, text, options.runs, base)


if __name__ == "__main__":
    main()
