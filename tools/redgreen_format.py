"""The files of sessions of anybody's queries, read and written from docs/REDGREEN.md alone, and what an audit tests of them
without a run. It shares nothing with the crates, so that scripts can compare both.

`read(data)` gives the session of a file, or raises a Refusal with the name of the first breach and its index, if it has one.
`write(session)` gives its file. `first_fault(past, session)` gives (index of the record, name of the fault), or None.
"""
import hashlib
from dataclasses import dataclass, field

MAGIC, VERSION = b"REDGREEN", b"\x00\x01"
INPUT, EXECUTED, GREEN = range(3)
MOST_OF_A_KEY = 65_536


class Refusal(Exception):
    """Why bytes are no session's file: the fault's name and, of a root or a record, its index."""

    def __init__(self, name, index=None):
        super().__init__(name if index is None else f"{name}({index})")
        self.name, self.index = name, index


@dataclass
class Record:
    """A key, its kind, the index of the unchanged record of the previous session or None, reads by index, and a value."""
    key: bytes
    kind: int
    previous: int | None
    reads: list[int]
    value: bytes


@dataclass
class Session:
    number: int
    link: bytes
    roots: list[bytes]
    records: list[Record] = field(default_factory=list)


# ---- reading


class Reader:
    """Bytes from left to right."""

    def __init__(self, data):
        self.data, self.at = data, 0

    def take(self, count):
        if len(self.data) - self.at < count:
            raise Refusal("Truncated")
        self.at += count
        return self.data[self.at - count:self.at]

    def number(self):
        return int.from_bytes(self.take(8), "big")

    def key(self, fault, index):
        count = self.number()
        if not 1 <= count <= MOST_OF_A_KEY:
            raise Refusal(fault, index)
        return self.take(count)

    def text(self):
        return self.take(self.number())

    def mark(self, index):
        kind, flag = self.take(1)[0], self.take(1)[0]
        if flag > 1:
            raise Refusal("UnknownMark", index)
        previous = self.number() if flag else None
        if kind > GREEN or (kind == GREEN and previous is None):
            raise Refusal("UnknownMark", index)
        return kind, previous

    def record(self, index):
        key = self.key("KeyLength", index)
        kind, previous = self.mark(index)
        reads = [self.number() for _ in counted(self.number())]
        return Record(key, kind, previous, reads, self.text())


def counted(count):
    """As many steps, also if no range has so many."""
    at = 0
    while at < count:
        yield at
        at += 1


def read(data):
    reader = Reader(data)
    if data[:len(MAGIC)] != MAGIC:
        raise Refusal("BadMagic")
    reader.take(len(MAGIC))
    if reader.take(2) != VERSION:
        raise Refusal("Version")
    number, link = reader.number(), reader.take(32)
    count = reader.number()
    if count == 0:
        raise Refusal("NoRoot")
    roots = [reader.key("RootLength", index) for index in counted(count)]
    records = [reader.record(index) for index in counted(reader.number())]
    body = data[:reader.at]
    if reader.take(32) != hashlib.sha256(body).digest():
        raise Refusal("BadDigest")
    if reader.at < len(data):
        raise Refusal("Trailing")
    return Session(number, link, roots, records)


# ---- writing


def number_bytes(number):
    return number.to_bytes(8, "big")


def text_bytes(text):
    return number_bytes(len(text)) + text


def record_bytes(record):
    place = b"\x00" if record.previous is None else b"\x01" + number_bytes(record.previous)
    reads = number_bytes(len(record.reads)) + b"".join(map(number_bytes, record.reads))
    return text_bytes(record.key) + bytes([record.kind]) + place + reads + text_bytes(record.value)


def write(session):
    body = b"".join([MAGIC, VERSION, number_bytes(session.number), session.link, number_bytes(len(session.roots)),
                     *map(text_bytes, session.roots), number_bytes(len(session.records)),
                     *map(record_bytes, session.records)])
    return body + hashlib.sha256(body).digest()


# ---- what is tested without a run


def fault_of(past, now, at):
    """The first fault of a record besides its key and its run."""
    record = now[at]
    if record.kind == INPUT:
        if record.reads:
            return "InputWithReads"
    elif any(place >= at for place in record.reads):
        return "LaterRead"
    elif record.kind == EXECUTED and len(set(record.reads)) < len(record.reads):
        return "RepeatedRead"
    had = None
    if record.previous is not None:
        had = past[record.previous] if record.previous < len(past) else None
        if had is None or (had.key, had.value) != (record.key, record.value):
            return "Changed"
    if record.kind == GREEN and (had.kind == INPUT or [now[place].previous for place in record.reads] != had.reads):
        return "NotGreen"
    return None


def first_fault(past, session):
    """Keys first, and then the records one by one."""
    seen = set()
    for at, record in enumerate(session.records):
        if record.key in seen:
            return at, "RepeatedKey"
        seen.add(record.key)
    for at in range(len(session.records)):
        fault = fault_of(past.records if past else [], session.records, at)
        if fault:
            return at, fault
    return None
