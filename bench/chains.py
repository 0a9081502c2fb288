"""Chains of session files: those of a cache, longer ones with unchanged sessions behind, and large ones without a program."""
import sys
from pathlib import Path

from measuring import TOP, elsewhere

sys.path.append(str(TOP / "tools"))
from session_format import FILES, INPUT, NO_LINK, SOURCE, Record, Session, items, name, once_more, source  # noqa: E402


def session_path(folder, number):
    return Path(folder, "cache", "c0000", f"s{number:04}.mjrg")


def session_files(folder, cache="cache"):
    return sorted(str(path) for path in Path(folder, cache).glob("c*/s*.mjrg"))


def lengthen(folder, count):
    """Makes a chain, whose last session is an unchanged one, so many sessions long."""
    elsewhere(write_sessions, folder, count)


def write_sessions(folder, count):
    """Writes the sessions behind those that are there, each an unchanged one."""
    there = len(list(session_path(folder, 0).parent.iterdir()))
    unchanged = before = session_path(folder, there - 1).read_bytes()
    for number in range(there, count):
        before = once_more(unchanged, before)
        session_path(folder, number).write_bytes(before)


def session_of(texts):
    """The file of a first session that has these texts of files, by their names, and no query."""
    files = bytes([FILES]) + items([name(file) for file in texts])
    sources = [Record(SOURCE, file, b"", INPUT, [], bytes([SOURCE]) + source(text)) for file, text in texts.items()]
    return Session([Record(FILES, b"", b"", INPUT, [], files), *sources]).spelled(0, NO_LINK)
