#!/usr/bin/env python3
"""Times the library for other languages beside the program, in one run, and measures how much stack it takes.

Of 400 classes with 2,000 methods an unchanged check and one with a body edited, by a call and by a process, both by one worker;
the program reads and writes files, the call what stands in memory. Of one small file (examples/factorial) `scratch`, a first and
an unchanged check and an audit, a call each beside a process. The least of some runs counts.

Then files are made whose phrases have 500 levels, each of one form, and `scratch`, a first check, one of the same file, one behind an
edit and an audit are called in a thread of which the whole stack has a pattern: the deepest byte that a call has changed says how much
stack it took. Nothing is asserted. It wants a C compiler, `$CC` or cc.
"""
import argparse
import ctypes
import os
import sys
import tempfile
import time
from pathlib import Path

sys.dont_write_bytecode = True
from measuring import TOP, asked, least_time  # noqa: E402
from projects import EDITS, edit_file  # noqa: E402
from shapes import ordinary  # noqa: E402

sys.path += [str(TOP / "tools"), str(TOP / "examples" / "embed")]
import mjrg  # noqa: E402
from linked import ARCHIVE, link  # noqa: E402

# Calls on a small file that are timed together.
CALLS = 200
# Calls a function in a thread of which the stack has a pattern, and returns how many bytes it has changed, those of a thread that
# does nothing aside. The stack is larger than the library may need.
STACK = """#define _GNU_SOURCE
#include <pthread.h>
#include <string.h>
#include <sys/mman.h>
#include "mjrg.h"
enum { STACK = 16 << 20, ROOM = 64 << 20, PATTERN = 0xa5 };
static uint8_t session[ROOM], out[ROOM], err[ROOM];
struct call { int number; const uint8_t *files, *past; size_t files_size, past_size; uint32_t status; };

static void *run(void *given)
{
    struct call *call = given;
    if (call->number == 0)
        call->status = mjrg_scratch(call->files, call->files_size, 1, 1, out, ROOM, err, ROOM).status;
    if (call->number == 1)
        call->status = mjrg_check(call->files, call->files_size, call->past, call->past_size, 1, 1, 1, session, ROOM, out, ROOM,
                                  err, ROOM).status;
    if (call->number == 2)
        call->status = mjrg_audit(call->past, call->past_size, call->files, call->files_size, out, ROOM, err, ROOM).status;
    return NULL;
}

static size_t touched(struct call *call)
{
    pthread_attr_t attributes;
    pthread_t thread;
    size_t left = 0;
    uint8_t *stack = mmap(NULL, STACK, PROT_READ | PROT_WRITE, MAP_PRIVATE | MAP_ANONYMOUS, -1, 0);
    if (stack == MAP_FAILED)
        return 0;
    memset(stack, PATTERN, STACK);
    pthread_attr_init(&attributes);
    if (!pthread_attr_setstack(&attributes, stack, STACK) && !pthread_create(&thread, &attributes, run, call)) {
        pthread_join(thread, NULL);
        while (left < STACK && stack[left] == PATTERN)
            left++;
    }
    pthread_attr_destroy(&attributes);
    munmap(stack, STACK);
    return STACK - left;
}

size_t stack_of(int number, const uint8_t *files, size_t files_size, const uint8_t *past, size_t past_size, uint32_t *status)
{
    struct call none = {-1, NULL, NULL, 0, 0, 0}, call = {number, files, past, files_size, past_size, 0};
    size_t all = touched(&call);
    *status = call.status;
    return all - touched(&none);
}
"""
# A form of phrase: what stands in front of the innermost phrase, that phrase, and what stands behind it, for each level.
EXPRESSIONS = {
    "parentheses": ("(", "1", ")"),
    "sums, on the left": ("", "1", " + 1"),
    "sums, on the right": ("1 + ", "1", ""),
    "negations": ("!", "true", ""),
    "indices": ("a[", "1", "]"),
    "indexed calls": ("this.g(1)[", "1", "]"),
    "calls as arguments": ("this.f(", "1", ")"),
    "calls as receivers": ("", "this", ".h()"),
    "calls with three arguments": ("this.k(1, ", "1", ", true)"),
    "new arrays": ("(new int[", "1", "]).length"),
}
STATEMENTS = {
    "blocks": ("{", "i = 1;", "}"),
    "if": ("if (true) ", "i = 1;", " else i = 2;"),
    "else": ("if (true) i = 1; else ", "i = 1;", ""),
    "while": ("while (true) ", "i = 1;", ""),
}
CLASS = """class M { public static void main(String[] s) { System.out.println(1); } }
class A {
    int i; boolean b; int[] a; A o;
    public int f(int x) { return x; }
    public int[] g(int x) { return a; }
    public A h() { return this; }
    public int k(int x, int y, boolean z) { return y; }
    public int deep(int x) { %s return 1; }
}
"""


def text_of(form, levels):
    """A file with a phrase of this form, with so many phrases of its kind within one another."""
    front, inner, behind = (EXPRESSIONS | STATEMENTS)[form]
    phrase = front * levels + inner + behind * levels
    if form in EXPRESSIONS:
        to = {"negations": "b", "calls as receivers": "o"}.get(form, "i")
        phrase = f"{to} = {phrase};"
    return (CLASS % phrase).encode()


def deepest(library, form):
    """The most phrases of this form within one another that a file may have."""
    least, most = 1, 501
    while most - least > 1:
        middle = (least + most) // 2
        is_sentence = b"E101" not in library.scratch({b"A.java": text_of(form, middle)}).out
        least, most = (middle, most) if is_sentence else (least, middle)
    return least


def timed(task, runs, calls=1):
    """The least seconds of a task in so many runs, of so many calls each."""
    took = []
    for _ in range(runs):
        started = time.perf_counter()
        for _ in range(calls):
            task()
        took.append((time.perf_counter() - started) / calls)
    return min(took)


def sources_of(folder, names):
    return {os.fsencode(name): Path(folder, name).read_bytes() for name in names}


def checked(program, folder, names, runs, title, library):
    """Times a check over a first session, of unchanged files or edited ones: by the program, and by calls."""
    command = [program, "check", "--cache", "cache", "--jobs", "1", *names]
    first = library.check(sources_of(folder, names))
    processes = []
    for number in range(runs):
        with tempfile.TemporaryDirectory(dir=folder) as cache:
            command[3] = cache
            least_time(command, folder, 1)
            text = edit_file(folder, names[-1], EDITS[title], number + 7)
            processes.append(least_time(command, folder, 1))
            edited = sources_of(folder, names)
            Path(folder, names[-1]).write_text(text)
    files, past = mjrg.packed(edited), mjrg.runs([first.session])
    call = timed(lambda: library.call("check", 3, files, past, 1, 1, 0), runs)
    print(f"{title}: a call {call:.3f} s, a process {min(processes):.3f} s, ratio {call / min(processes):.2f}", flush=True)


def small(program, folder, runs, library):
    """Times calls on one small file beside processes."""
    text = (TOP / "examples" / "factorial" / "Factorial.java").read_bytes()
    Path(folder, "Factorial.java").write_bytes(text)
    sources = {b"Factorial.java": text}
    session = library.check(sources).session
    Path(folder, "s0000.mjrg").write_bytes(session)
    files, past = mjrg.packed(sources), mjrg.runs([session])
    process = least_time([program, "scratch", "Factorial.java"], folder, 20 * runs)
    audit = least_time([program, "audit", "s0000.mjrg"], folder, 20 * runs)
    calls = {"scratch": ("scratch", 2, files, 1, 0), "a first check": ("check", 3, files, b"", 1, 1, 0),
             "an unchanged check": ("check", 3, files, past, 1, 1, 0), "an audit": ("audit", 2, past, b"")}
    print(f"one file of {len(text)} bytes: a process of scratch {1e3 * process:.2f} ms, of audit {1e3 * audit:.2f} ms")
    for title, call in calls.items():
        print(f"  {title}: a call {1e3 * timed(lambda: library.call(*call), 5 * runs, CALLS):.3f} ms", flush=True)


def stacks(made, library):
    """Prints how much stack each call takes of each form."""
    stack_of, status = ctypes.CDLL(made).stack_of, ctypes.c_uint32()
    stack_of.restype = ctypes.c_size_t
    most = {}
    for form in EXPRESSIONS | STATEMENTS:
        count = deepest(library, form)
        sources = {b"A.java": text_of(form, count)}
        first = library.check(sources).session
        again = library.check(sources, [first]).session
        edited = {b"A.java": b"\n" + text_of(form, count)}
        took = {}
        for title, number, of, past in (("scratch", 0, sources, []), ("a first check", 1, sources, []), ("unchanged", 1, sources, [first]),
                                        ("edited", 1, edited, [first]), ("an audit", 2, sources, [first, again])):
            given = [word for data in (mjrg.packed(of), mjrg.runs(past)) for word in (data, ctypes.c_size_t(len(data)))]
            took[title] = stack_of(number, *given, ctypes.byref(status))
            if status.value > mjrg.DIAGNOSTICS:
                sys.exit(f"{form}: {title} ends with status {status.value}")
            most[title] = max(took[title], most.get(title, 0))
        print(f"{form}, {count} of them: " + ", ".join(f"{title} {size / 1024:.0f} KiB" for title, size in took.items()), flush=True)
    print("the most: " + ", ".join(f"{title} {size / 1024:.0f} KiB" for title, size in most.items()))


def main():
    parser = argparse.ArgumentParser(description=__doc__, formatter_class=argparse.RawDescriptionHelpFormatter)
    parser.add_argument("--archive", metavar="FILE", default=ARCHIVE, type=Path, help="the archive (crates/linkable/out/libmjrg.a)")
    parser.add_argument("--only", choices=["checks", "small", "stacks"], help="one of the parts")
    options = asked(parser)
    with tempfile.TemporaryDirectory() as folder:
        source, made = Path(folder, "stack.c"), Path(folder, "libmjrg.so")
        source.write_text(STACK)
        link(options.archive, made, source, f"-I{TOP / 'include'}", "-lpthread")
        os.environ["LIBMJRG"] = str(made)
        library = mjrg.Library()
        if options.only in (None, "checks"):
            names = ordinary(folder)
            for title in ("unchanged", "a body edited"):
                checked(options.program, folder, names, options.runs, title, library)
        if options.only in (None, "small"):
            small(options.program, folder, options.runs, library)
        if options.only in (None, "stacks"):
            stacks(made, library)


if __name__ == "__main__":
    main()
