"""Session files by their byte format alone: records and sessions, spelled as a file, and read back from one.

tools/ and bench/ use it. Nothing is asked of the program, and little is tested here: a session may be
spelled that is none, and of what is read just the version and the lengths are looked at, and in form 2 that the
previous session has each green record's result.
"""
import hashlib
import struct
from dataclasses import dataclass

INPUT, EXECUTED, GREEN = 0, 1, 2
NO_LINK = bytes(32)
# What stands in front of what is there, and in place of what isn't.
SOME, NONE = b"\x01", b"\x00"
# The numbers of the profiles and of the forms.
PROFILES = FORMS = (1, 2)
# Kinds by their numbers.
(FILES, SOURCE, TREE, INDEX, HEADER, METHOD, SIG, SUPERS, MEMBERS, CHECK_CLASS, CHECK_BODY, DIAGS,
 ANSWER) = range(13)
KINDS = ["Files", "Source", "Tree", "Index", "Header", "Method", "Sig", "Supers", "Members", "CheckClass",
         "CheckBody", "Diags", "Answer"]


def count(number):
    return struct.pack(">Q", number)


def token(number):
    """The number of a token, or a literal."""
    return struct.pack(">I", number)


def name(text):
    """A name with its length in front, which is 0 if there is none."""
    return bytes([len(text)]) + text


def items(parts):
    return count(len(parts)) + b"".join(parts)


def source(text):
    """A file's text, which is there."""
    return SOME + count(len(text)) + text


def sha256(data):
    return hashlib.sha256(data).digest()


def ends_with_print(form, mark):
    """Whether a record ends with its print: in form 2 a green one has no result in its file."""
    return form == 2 and mark == GREEN


@dataclass
class Record:
    """A record of a key, with its edges by index. Its print is that of the result, unless another one is forged."""

    kind: int
    class_name: bytes
    member: bytes
    mark: int
    edges: list
    result: bytes
    forged_print: bytes = None

    def key(self):
        return self.kind, self.class_name, self.member

    def print(self):
        return sha256(self.result) if self.forged_print is None else self.forged_print

    def spelled(self, form):
        told = (bytes([self.kind]) + name(self.class_name) + name(self.member) + bytes([self.mark])
                + items([count(edge) for edge in self.edges]) + self.print())
        return told if ends_with_print(form, self.mark) else told + count(len(self.result)) + self.result


@dataclass
class Session:
    """A session, whose version is that of its profile and form, whose number and link are those of its place in a
    chain, and whose count of records is right, unless others are forged."""

    records: list
    profile: int = 1
    form: int = 1
    version: int = None
    number: int = None
    link: bytes = None
    record_count: int = None

    def told_version(self):
        """The version, whose first byte counts the forms from 0, and whose second byte is the profile."""
        return 256 * (self.form - 1) + self.profile if self.version is None else self.version

    def spelled(self, number, link):
        """The session's file, of this place in a chain."""
        head = b"MJRG" + struct.pack(">HI", self.told_version(), number if self.number is None else self.number)
        told = len(self.records) if self.record_count is None else self.record_count
        body = head + (link if self.link is None else self.link) + count(told)
        body += b"".join(record.spelled(self.form) for record in self.records)
        return body + sha256(body)

    def results(self):
        """The result of each key."""
        return {record.key(): record.result for record in self.records}

    def without(self, place):
        """Leaves a record out, and the edges to it."""
        del self.records[place]
        for record in self.records:
            record.edges = [edge - (edge > place) for edge in record.edges if edge != place]

    def insert(self, place, new):
        """Puts a record in, to which no edge leads, and counts the edges behind it anew."""
        for record in self.records:
            record.edges = [edge + (edge >= place) for edge in record.edges]
        self.records.insert(place, new)


def chain(sessions, first=0):
    """The files of sessions, the first with this number, each linked to the one before."""
    files, link = [], NO_LINK
    for number, session in enumerate(sessions, first):
        files.append(session.spelled(number, link))
        link = sha256(files[-1])
    return files


def once_more(file, before):
    """The file of a session once more, behind the one before: its number and link are others."""
    number = int.from_bytes(before[6:10], "big") + 1
    body = file[:6] + struct.pack(">I", number) + sha256(before) + file[42:-32]
    return body + sha256(body)


class Bytes:
    """Bytes that are taken from the front."""

    def __init__(self, data):
        self.data, self.at = data, 0

    def take(self, length):
        self.at += length
        if self.at > len(self.data):
            raise ValueError("the bytes end too early")
        return self.data[self.at - length:self.at]

    def number(self, length):
        return int.from_bytes(self.take(length), "big")

    def name(self):
        return self.take(self.number(1))


def past_result(past, key, fingerprint):
    """The result that the previous session has of a key, which has to have this print."""
    result = past.get(key)
    if result is None or sha256(result) != fingerprint:
        raise ValueError("a green record has no result in the previous session")
    return result


def read_record(data, form, past):
    """A record of this form, over the results of the previous session."""
    kind, class_name, member, mark = data.number(1), data.name(), data.name(), data.number(1)
    edges = [data.number(8) for _ in range(data.number(8))]
    fingerprint = data.take(32)
    if ends_with_print(form, mark):
        result = past_result(past, (kind, class_name, member), fingerprint)
    else:
        result = data.take(data.number(8))
    return Record(kind, class_name, member, mark, edges, result)


def is_of_form_2(file):
    """Whether these are the bytes, or the first ones, of a file that is read over the previous session."""
    return file[:6] in [b"MJRG" + bytes([1, profile]) for profile in PROFILES]


def read(file, past=None):
    """The session whose file this is, read over the previous session, which form 2 alone needs."""
    data = Bytes(file)
    data.take(4)
    form, profile = data.number(1) + 1, data.number(1)
    if form not in FORMS or profile not in PROFILES:
        raise ValueError("the version is none that is known")
    data.take(4 + 32)
    results = past.results() if past else {}
    return Session([read_record(data, form, results) for _ in range(data.number(8))], profile, form)


def read_chain(files):
    """The sessions whose files these are, each read over the one before."""
    sessions = []
    for file in files:
        sessions.append(read(file, sessions[-1] if sessions else None))
    return sessions


def names_of(files):
    """The names that the result of Files has."""
    data = Bytes(files)
    data.take(1)
    return [data.name() for _ in range(data.number(8))]


def sources(session):
    """The names of a session's files, in order, with the bytes of each, by its records of inputs."""
    results = {record.key(): record.result for record in session.records if record.mark == INPUT}
    # (behind the kind, the byte that says that the file is there, and its length)
    return [(file, results[SOURCE, file, b""][10:]) for file in names_of(results[FILES, b"", b""])]
