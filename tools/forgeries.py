"""Random changes of chains of session files, each by a method of Forgery, for tools/forge.

The sessions of a chain may be of different profiles and forms. Prints, links and digests are made right again when the
files are spelled, unless they are what is changed.
"""
import copy
import random

from session_format import (CHECK_BODY, CHECK_CLASS, DIAGS, EXECUTED, FORMS, GREEN, HEADER, INDEX, INPUT, METHOD,
                            NO_LINK, PROFILES, SUPERS, Record, chain, count, sha256, sources)


class Forgery:
    """A chain of sessions in which things are changed at random."""

    def __init__(self, chance, sessions, other):
        self.chance, self.sessions, self.other = chance, copy.deepcopy(sessions), other
        self.project = sources(chance.choice(sessions))
        self.place = chance.randrange(len(sessions))
        self.session = self.sessions[self.place]
        self.records = self.session.records
        self.patched, self.behind = None, b""

    def one(self):
        return self.chance.choice(self.records)

    def another(self, record):
        """A record of the same kind, of any session of this chain or of another one."""
        of = self.chance.choice(self.chance.choice([self.sessions, self.other])).records
        return self.chance.choice([found for found in of if found.kind == record.kind] or [record])

    def name(self):
        names = {record.class_name for record in self.records} | {record.member for record in self.records}
        return self.chance.choice(sorted(names) + [b"", b"Z", b"\xff", b"a" * 255])

    def files(self):
        """The files of the chain, each linked to the one before."""
        made, link = [], NO_LINK
        for number, session in enumerate(self.sessions):
            file = session.spelled(number, link)
            if self.patched and session is self.session:
                at, bits = self.patched[0] % (len(file) - 32), self.patched[1]
                body = file[:at] + bytes([file[at] ^ bits]) + file[at + 1:-32]
                file = body + sha256(body)
            file += self.behind if session is self.session else b""
            made.append(file)
            link = sha256(file)
        return made

    # Fields of a record.

    def mark(self):
        self.one().mark = self.chance.randrange(4)

    def executed_for_green(self):
        for record in self.records:
            if record.mark == GREEN and self.chance.random() < 0.3:
                record.mark = EXECUTED

    def green_for_executed(self):
        for record in self.records:
            if record.mark == EXECUTED and self.chance.random() < 0.3:
                record.mark = GREEN

    def kind(self):
        self.one().kind = self.chance.randrange(14)

    def class_name(self):
        self.one().class_name = self.name()

    def member(self):
        self.one().member = self.name()

    def edge(self):
        record = self.one()
        if record.edges:
            record.edges[self.chance.randrange(len(record.edges))] = self.chance.randrange(len(self.records) + 1)

    def edge_left_out(self):
        record = self.one()
        if record.edges:
            record.edges.pop(self.chance.randrange(len(record.edges)))

    def edge_added(self):
        place = self.chance.randrange(len(self.records))
        edges = self.records[place].edges
        edges.insert(self.chance.randint(0, len(edges)), self.chance.randint(0, place))

    def edges_swapped(self):
        self.chance.shuffle(self.one().edges)

    def result_byte(self):
        record = self.one()
        at = self.chance.randrange(len(record.result))
        changed = record.result[at] ^ self.chance.choice([1, 2, 4, 0x80, self.chance.randint(1, 255)])
        record.result = record.result[:at] + bytes([changed]) + record.result[at + 1:]

    def result_cut_or_longer(self):
        record = self.one()
        record.result = self.chance.choice([record.result[:-1], record.result + b"\0", record.result[:1], b""])

    def result_of_another(self):
        record = self.one()
        record.result = self.another(record).result

    def faults_emptied(self):
        for record in self.records:
            if record.kind in (CHECK_CLASS, CHECK_BODY, DIAGS) and self.chance.random() < 0.7:
                record.result = bytes([record.kind]) + count(0)

    def print(self):
        record = self.one()
        right = record.print()
        at = self.chance.randrange(32)
        other = right[:at] + bytes([right[at] ^ (1 << self.chance.randrange(8))]) + right[at + 1:]
        record.forged_print = self.chance.choice([other, self.another(record).print()])

    def print_of_a_green_record_in_form_2(self):
        """One bit of it, if the file has no result that would show it."""
        records = [record for session in self.sessions if session.form == 2 for record in session.records]
        record = self.chance.choice([record for record in records if record.mark == GREEN])
        right = record.print()
        record.forged_print = bytes([right[0] ^ 1]) + right[1:]

    def class_check_green_across_profiles(self):
        """As if the profile made no difference to what is declared."""
        over = [after for before, after in zip(self.sessions, self.sessions[1:]) if after.profile != before.profile]
        checks = [record for record in self.chance.choice(over).records if record.kind == CHECK_CLASS]
        self.chance.choice(checks).mark = GREEN

    # Records.

    def record_left_out(self):
        self.session.without(self.chance.randrange(len(self.records)))

    def record_doubled(self):
        place = self.chance.randrange(len(self.records))
        self.session.insert(place + 1, copy.deepcopy(self.records[place]))

    def records_swapped(self):
        one, other = self.chance.sample(range(len(self.records)), 2)
        self.records[one], self.records[other] = self.records[other], self.records[one]
        moved = {one: other, other: one}
        for record in self.records:
            record.edges = [moved.get(edge, edge) for edge in record.edges]

    def record_taken(self):
        """A record as another session has it, with edges to the same keys if they are here."""
        there = self.chance.choice(self.sessions)
        taken = copy.deepcopy(self.chance.choice(there.records))
        keys = [record.key() for record in self.records]
        if taken.key() not in keys:
            place = sum(key < taken.key() for key in keys)
            self.session.insert(place, Record(*taken.key(), taken.mark, [], taken.result))
            keys.insert(place, taken.key())
        here = keys.index(taken.key())
        taken.edges = [keys.index(key) for key in (there.records[edge].key() for edge in taken.edges) if key in keys]
        self.records[here] = taken

    def record_unneeded(self):
        """A record that no other one reads: of a class that isn't declared, which is found out by Index alone."""
        kind = self.chance.choice([HEADER, METHOD, SUPERS])
        key = kind, b"Undeclared", b"m" if kind == METHOD else b""
        index = next(place for place, record in enumerate(self.records) if record.kind == INDEX)
        place = sum(record.key() < key for record in self.records)
        self.session.insert(place, Record(*key, EXECUTED, [index], bytes([kind, 0])))

    def inputs_taken(self):
        """The bytes of the files as another session has them."""
        there = {record.key(): record.result for record in self.chance.choice(self.sessions).records}
        for record in self.records:
            if record.mark == INPUT:
                record.result = there.get(record.key(), record.result)

    def renamed(self):
        """One letter for another in all names and results of all sessions, if they aren't words of the language."""
        letter, other = self.chance.sample([b"C", b"m", b"f", b"p", b"v", b"K", b"g"], 2)
        for record in (record for session in self.sessions for record in session.records):
            for digit in b"0123456789":
                old, new = letter + bytes([digit]), other + bytes([digit])
                record.class_name, record.member = record.class_name.replace(old, new), record.member.replace(old, new)
                record.result = record.result.replace(old, new)

    # Sessions.

    def version(self):
        """Another version, but the records are spelled in the form that they had."""
        self.session.version = self.chance.choice([0, 1, 2, 3, 256, 257, 258, 259, 65535])

    def profile(self):
        self.session.profile = self.chance.choice([profile for profile in PROFILES if profile != self.session.profile])

    def form(self):
        """The other form, in which the records are spelled too."""
        self.session.form = self.chance.choice([form for form in FORMS if form != self.session.form])

    def number(self):
        self.session.number = self.chance.choice([0, 1, 2, 3, 9999, 10000, 2**32 - 1])

    def link(self):
        self.session.link = self.chance.choice([NO_LINK, self.chance.randbytes(32)])

    def count(self):
        told = len(self.records)
        self.session.record_count = self.chance.choice([0, told - 1, told + 1, 2**32, 2**63, 2**64 - 1])

    def byte(self):
        self.patched = self.chance.randrange(2**30), self.chance.randint(1, 255)

    def bytes_behind(self):
        self.behind = self.chance.choice([b"\0", self.chance.randbytes(32)])

    def session_left_out(self):
        self.sessions.pop(self.place)

    def session_doubled(self):
        self.sessions.insert(self.place, copy.deepcopy(self.session))

    def sessions_shuffled(self):
        self.chance.shuffle(self.sessions)

    def session_of_another_chain(self):
        self.sessions[self.place] = copy.deepcopy(self.chance.choice(self.other))


HELPERS = {"one", "another", "name", "files"}
CHANGES = [name for name in vars(Forgery) if not name.startswith("_") and name not in HELPERS]


def forgery(seed, chains):
    """What was changed, and the forgery, whose files aren't those of the chain that it was made of."""
    chance = random.Random(seed)
    while True:
        sessions, other = chance.sample(chains, 2)
        made = Forgery(chance, sessions, other)
        changes = [chance.choice(CHANGES) for _ in range(chance.choice([1, 1, 1, 2]))]
        # (first those of records, so that each finds the session in which it changes something)
        try:
            for change in sorted(changes, key=CHANGES.index):
                getattr(made, change)()
        except (LookupError, ValueError, StopIteration):
            # (what would be changed isn't there any more)
            continue
        if made.files() != chain(sessions):
            return changes[0] if len(changes) == 1 else "two of these", made
