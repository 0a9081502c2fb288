"""The library of an archive libmjrg.a, as tools/embed and bench/embed.py call it: linked as a shared object, and handed memory that ends
in front of a page that can't be touched."""
import collections
import ctypes
import mmap
import os
import shlex
import subprocess
import threading
from pathlib import Path

from built import TOP

ARCHIVE = TOP / "crates" / "linkable" / "out" / "libmjrg.a"
# How much stack include/mjrg.h asks a caller for.
STACK = 4 << 20
OUT_OF_MEMORY, TOO_SMALL = 4, 5
# What stands in a buffer, and in front of it, before a call.
EMPTY = b"\xaa"
# How many bytes in front of a buffer have to stay as they are.
FRONT = 64
# Room for what a call gets or writes, of which as much is taken as is needed.
ROOM = 64 << 20
# Counts the library's blocks of memory and its allocations, and refuses the one of this number, counted from 1.
MEMORY = """#include <stdlib.h>
long allocations, refused, blocks;
void *__real_malloc(size_t), *__real_realloc(void *, size_t), __real_free(void *);
static int refuses(void) { return __atomic_add_fetch(&allocations, 1, __ATOMIC_SEQ_CST) == refused; }
static void count(long more) { __atomic_add_fetch(&blocks, more, __ATOMIC_SEQ_CST); }
void *__wrap_malloc(size_t size) {
    void *made = refuses() ? NULL : __real_malloc(size);
    count(made != NULL);
    return made;
}
void *__wrap_realloc(void *block, size_t size) {
    void *made = refuses() ? NULL : __real_realloc(block, size);
    count(made && !block);
    return made;
}
void __wrap_free(void *block) { count(-(block != NULL)); __real_free(block); }
"""

Done = collections.namedtuple("Done", "status buffers lengths")


class Result(ctypes.Structure):
    _fields_ = [("status", ctypes.c_uint32), ("out_length", ctypes.c_size_t), ("err_length", ctypes.c_size_t)]


class SessionResult(ctypes.Structure):
    _fields_ = [("status", ctypes.c_uint32), ("session_length", ctypes.c_size_t), ("out_length", ctypes.c_size_t),
                ("err_length", ctypes.c_size_t)]


def runs(parts):
    """These bytes, each behind its length, as files of sessions are handed over."""
    return b"".join(len(part).to_bytes(8, "big") + part for part in parts)


def packed(files):
    """The files, as pairs of name and text, as they are handed over."""
    return runs(part for file in files for part in file)


def compile_c(words):
    compiler = shlex.split(os.environ.get("CC") or "cc")
    subprocess.run([*compiler, "-std=c99", "-O1", "-Wall", "-Wextra", "-Werror", *words], check=True)


def link(archive, made, *words):
    """Links a shared object from the archive, with these sources and options."""
    compile_c(["-shared", "-fPIC", *words, "-Wl,--whole-archive", archive, "-Wl,--no-whole-archive", "-Wl,-z,defs", "-o", made])


class Place:
    """Memory in front of a page that can't be touched. What is put there ends in front of that page."""

    def __init__(self):
        self.memory = mmap.mmap(-1, ROOM + mmap.PAGESIZE, flags=mmap.MAP_PRIVATE | mmap.MAP_ANONYMOUS)
        self.end = ctypes.addressof(ctypes.c_char.from_buffer(self.memory)) + ROOM
        if ctypes.CDLL(None, use_errno=True).mprotect(ctypes.c_void_p(self.end), ctypes.c_size_t(mmap.PAGESIZE), 0):
            raise OSError(ctypes.get_errno(), "mprotect")

    def put(self, data):
        """Puts these bytes there, and returns where they begin."""
        if len(data) > ROOM:
            raise MemoryError(f"no room for {len(data)} bytes")
        at = self.end - len(data)
        ctypes.memmove(at, data, len(data))
        return at

    def has(self, data):
        """Whether these bytes stand there."""
        return ctypes.string_at(self.end - len(data), len(data)) == data


class Library:
    """The archive as a shared library, and its functions."""

    def __init__(self, archive, folder):
        memory, made = Path(folder) / "memory.c", Path(folder) / "mjrg.so"
        memory.write_text(MEMORY, encoding="utf-8")
        link(archive, made, memory, *(f"-Wl,--wrap={name}" for name in ("malloc", "realloc", "free")))
        self.made, self.own = ctypes.CDLL(made), threading.local()
        # How many buffers each function writes into.
        self.writes = {"version": 1, "scratch": 2, "check": 3, "audit": 2}
        for name in self.writes:
            getattr(self.made, f"mjrg_{name}").restype = SessionResult if name == "check" else Result

    def count(self, name):
        return ctypes.c_long.in_dll(self.made, name)

    def places(self, count):
        """So many places of this thread's own."""
        found = self.own.__dict__.setdefault("places", [])
        found += [Place() for _ in range(count - len(found))]
        return found[:count]

    def call(self, name, *given, sizes):
        """Calls a function with these bytes and numbers, and with buffers of these sizes. Returns its status, what the buffers have,
        and the lengths; a status of None if the call wrote anywhere else."""
        whole = [part for part in given if isinstance(part, bytes)] + [EMPTY * (FRONT + size) for size in sizes]
        places = self.places(len(whole))
        left = zip([place.put(data) for place, data in zip(places, whole, strict=True)], whole, strict=True)
        words = []
        for part in given:
            if isinstance(part, bytes):
                at, _ = next(left)
                words += [ctypes.c_void_p(at), ctypes.c_size_t(len(part))]
            else:
                words.append(ctypes.c_uint32(part))
        buffers = [(at + FRONT, size) for (at, _), size in zip(left, sizes, strict=True)]
        words += [word for at, size in buffers for word in (ctypes.c_void_p(at), ctypes.c_size_t(size))]
        done = getattr(self.made, f"mjrg_{name}")(*words)
        stays = [place.has(data) for place, data in zip(places, whole[:-len(sizes)])]
        stays += [ctypes.string_at(at - FRONT, FRONT) == EMPTY * FRONT for at, _ in buffers]
        lengths = [getattr(done, field) for field, _ in done._fields_[1:]]
        return Done(done.status if all(stays) else None, [ctypes.string_at(*buffer) for buffer in buffers], lengths)

    def texts(self, name, *given):
        """The status and the bytes that a function writes into buffers that have just enough room. It is called without room before,
        and has to report the same lengths; else the status is None."""
        count = self.writes[name]
        first = self.call(name, *given, sizes=[0] * count)
        done = self.call(name, *given, sizes=first.lengths[:count])
        is_reported = first.status == (TOO_SMALL if any(first.lengths) else done.status) and first.lengths == done.lengths
        return (done.status if is_reported else None, *done.buffers)

    def scratch(self, files, profile=1, messages=False):
        """What mjrg_scratch writes of these packed files."""
        return self.texts("scratch", files, profile, int(messages))

    def check(self, files, past=b"", profile=1, form=1, messages=False):
        """What mjrg_check writes of these packed files and this past."""
        return self.texts("check", files, past, profile, form, int(messages))

    def audit(self, chain, sources=b""):
        """What mjrg_audit writes of these files of sessions, and of these sources."""
        return self.texts("audit", chain, sources)
