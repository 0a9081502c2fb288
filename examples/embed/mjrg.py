"""mjrg's functions for Python: checks of sources that stand in memory. They are those of include/mjrg.h, in a shared object that one
command links from the archive:

    cc -shared -o libmjrg.so -Wl,--whole-archive dist/libmjrg.a -Wl,--no-whole-archive

It is loaded from the folder in which Python runs, or from the path that $LIBMJRG names."""
import collections
import ctypes
import os

CLEAN, DIAGNOSTICS, REFUSED, CHAIN_REFUSED, OUT_OF_MEMORY, TOO_SMALL = range(6)

Result = collections.namedtuple("Result", "status out err")
SessionResult = collections.namedtuple("SessionResult", "status session out err")


class TwoLengths(ctypes.Structure):
    _fields_ = [("status", ctypes.c_uint32), ("lengths", ctypes.c_size_t * 2)]


class ThreeLengths(ctypes.Structure):
    _fields_ = [("status", ctypes.c_uint32), ("lengths", ctypes.c_size_t * 3)]


def runs(parts):
    """These bytes, each behind its length: the files of sessions, as `check` and `audit` take them."""
    return b"".join(len(part).to_bytes(8, "big") + part for part in parts)


def packed(sources):
    """The sources, a dictionary of texts by their names, both in bytes, in its order."""
    return runs(part for source in sources.items() for part in source)


class Library:
    """The functions, over buffers that are kept from one call to the next. Each thread has to make one of its own."""

    def __init__(self):
        made = ctypes.CDLL(os.path.abspath(os.environ.get("LIBMJRG", "libmjrg.so")))
        data, number = [ctypes.c_char_p, ctypes.c_size_t], ctypes.c_uint32
        self.functions = {name: getattr(made, f"mjrg_{name}") for name in ("scratch", "check", "audit")}
        for name, takes, gives in (("scratch", [*data, number, number, *data * 2], TwoLengths),
                                   ("check", [*data * 2, number, number, number, *data * 3], ThreeLengths),
                                   ("audit", [*data * 4], TwoLengths)):
            self.functions[name].argtypes, self.functions[name].restype = takes, gives
        self.buffers = [ctypes.create_string_buffer(1 << 16) for _ in range(3)]

    def call(self, name, count, *given):
        """Calls a function that writes into so many buffers, once more if they are too small. Returns the status and what it wrote."""
        words = [word for part in given for word in ((part, len(part)) if isinstance(part, bytes) else (part,))]
        while True:
            buffers = self.buffers[:count]
            done = self.functions[name](*words, *(word for it in buffers for word in (it, len(it))))
            if done.status != TOO_SMALL:
                return done.status, *(ctypes.string_at(it, length) for it, length in zip(buffers, done.lengths, strict=True))
            for place, length in enumerate(done.lengths):
                if len(buffers[place]) < length:
                    self.buffers[place] = ctypes.create_string_buffer(2 * length)

    def scratch(self, sources, profile=1, messages=True):
        return Result(*self.call("scratch", 2, packed(sources), profile, messages))

    def check(self, sources, past=(), profile=1, form=1, messages=True):
        """Checks the sources over the last of these files of sessions, if there are any."""
        return SessionResult(*self.call("check", 3, packed(sources), runs(past), profile, form, messages))

    def audit(self, chain, sources=None):
        """Audits these files of sessions, and demands that the last one is of these sources, if they are given."""
        return Result(*self.call("audit", 2, runs(chain), packed(sources or {})))
