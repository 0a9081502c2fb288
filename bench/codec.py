#!/usr/bin/env python3
"""Times reading, spelling and sealing the canonical bytes of a large tree beside `sha256sum`, in one run.

The tree has classes with methods of ordinary statements. What a run costs without any repetition is taken off each
time, and reading is taken off spelling and sealing, which begin with it. Nothing is asserted.
"""
import argparse
import sys

sys.dont_write_bytecode = True
from measuring import TOP, program_path, repeated  # noqa: E402

sys.path.append(str(TOP / "tools"))
from session_format import items, name, token  # noqa: E402


def identifier(mark, text):
    return b"\x0b" + token(mark) + name(text)


def literal(mark, value):
    return b"\x08" + token(mark) + token(value)


def statement(mark):
    """`number = number + 1;` whose first token has this number."""
    value = b"\x02" + token(mark + 3) + identifier(mark + 2, b"number") + literal(mark + 4, 1)
    return b"\x04" + token(mark + 1) + name(b"number") + token(mark) + value


def method(number):
    """`public int methodN(int number) { .. return number; }`"""
    count = 10
    formal = name(b"number") + b"\x00" + token(4)
    body = [statement(8 + 6 * i) for i in range(count)]
    end = 8 + 6 * count
    return (b"\x01" + name(b"method%d" % number) + b"\x00" + items([formal]) + items([]) + items(body)
            + identifier(end + 1, b"number") + token(end))


def tree(size):
    """A file without a main class, of about so many bytes."""
    behind = b"\x00" + items([]) + items([method(i) for i in range(20)])
    count = max(1, size // len(name(b"Class0000") + behind))
    return b"\x02\x01\x00" + items([name(b"Class%04d" % i) + behind for i in range(count)])


def main():
    parser = argparse.ArgumentParser(description=__doc__.splitlines()[0])
    parser.add_argument("program", type=program_path, help="the built program codec_bench")
    parser.add_argument("--size", type=int, default=4_000_000, help="bytes of the tree, about")
    parser.add_argument("--count", type=int, default=10, help="repetitions")
    parser.add_argument("--runs", type=int, default=3, help="runs of which the shortest counts")
    given = parser.parse_args()
    data = tree(given.size)
    times = repeated(given.program, ("decode", "encode", "seal"), data, given.count, given.runs)
    for step in ("encode", "seal"):
        times[step] -= times["decode"]
    whole = len(data) * given.count / 1e6
    print(f"a tree of {len(data)} bytes, {given.count} times")
    for step, seconds in times.items():
        seconds = max(seconds, 1e-6)
        print(f"{step}: {whole / seconds:.1f} MB/s, {seconds / max(times['sha256sum'], 1e-6):.1f} times sha256sum")


if __name__ == "__main__":
    main()
