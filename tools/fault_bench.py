"""Runs of the program under faults, each on what was there before: for tools/refusals and tools/devices."""
import collections
import contextlib
import mmap
import os
import re
import shutil
import struct
import subprocess
import tempfile
from pathlib import Path

import built
from built import SECONDS, TOP
from random_projects import Project

M1 = "class M { public static void main(String[] a) { System.out.println(%s); } }"
TWO = "class A { public int f() { return %s; } public int g() { return 2; } }"
OVERRIDING = "class A { public A g() { return this; } } class B extends A { public B g() { return this; } }"
CLASSES = 40
# The classes of a chain, each with a field and a method, in a file of its own session.
CHAIN = 400
# The terms of three sessions: all in form 2, and of both profiles and forms, with the last one in form 2.
IN_FORM_2 = ["--form 2"] * 3
MIXED = ["--form 1", "--profile 2 --form 2", "--form 2"]
# How many lines are written on what is wrong with one command at most.
LINES = 5


def examples_of(name):
    """The files of an example, and the same with literals changed."""
    files = [(path.name, path.read_text()) for path in sorted((TOP / "examples" / name).glob("*.java"))]
    return [files, [(file, re.sub(r"\b\d+\b", "77", text)) for file, text in files]]


def many_classes():
    """A random project of 40 classes, some of them at fault, and the same behind three edits of bodies."""
    project = Project("many", CLASSES)
    while len(project.classes()) < CLASSES:
        project.add_class()
        project.add_method(project.classes()[-1])
    before = project.texts()
    for _ in range(3):
        project.edit_body()
    return [before, project.texts()]


def chain_of_classes():
    """A main class and a chain of classes, each of which extends the one before it."""
    rows = [(number, f" extends C{number - 1}" if number else "", max(0, number - 1)) for number in range(CHAIN)]
    classes = [f"class C{number}{extends} {{ int x{number}; public int f{number}() {{ return x{read}; }} }}\n"
               for number, extends, read in rows]
    return [[("M.java", M1 % "1" + "\n" + "".join(classes))]]


def worked():
    """Two versions of each worked example, by its name."""
    return {
        "one class": [[("M.java", M1 % text)] for text in ("1", "2")],
        "two classes": [[("M.java", M1 % "new A().f()" + TWO % text)] for text in ("1", "3")],
        "a fault": [[("M.java", M1 % text)] for text in ("true", "1 < 2")],
    }


def overriding():
    """Two versions of a class whose method overrides one with another class as its return type, as profile 2 allows."""
    return [[("M.java", M1 % text + OVERRIDING)] for text in ("1", "2")]


def golden_test(name):
    """The files of a golden test."""
    return [[(path.name, path.read_text()) for path in sorted((TOP / "cases" / name / "files").iterdir())]]


def longer():
    """The same of larger projects."""
    names = sorted({path.parent.name for path in (TOP / "examples").glob("*/*.java")})
    return {**{name: examples_of(name) for name in names}, "40 classes": many_classes()}


class Command:
    """Arguments for the program, with the versions of the project that were checked before and the one that is there.

    Those checks had the arguments `terms`, a text for each, or none. With `cut` the files of sessions, by their numbers,
    were cut to so many bytes; with `ways` the command is run in these ways alone."""

    def __init__(self, name, project, words, checked=(), version=0, terms=(), cut=None, ways=None):
        self.name, self.project, self.version = name, project, version
        self.before = list(zip(checked, (text.split() for text in terms or [""] * len(checked)), strict=True))
        self.cut, self.ways = cut or {}, ways
        self.chain = [f"cache/c0000/s{number:04}.mjrg" for number in range(len(checked))]
        names = [file for file, _ in project[version]]
        chain = dict.fromkeys(("audit", "show", "why"), self.chain)
        self.words = words + {**chain, "help": [], "explain": []}.get(words[0], names)


def commands(projects):
    """All commands on all of the projects."""
    made = []
    for name, project in projects.items():
        made.append(Command(f"scratch of {name}", project, ["scratch"]))
        for jobs in ("1", "2"):
            check = ["check", "--cache", "cache", "--jobs", jobs]
            made += [Command(f"check of {name} with {jobs}, first", project, check),
                     Command(f"check of {name} with {jobs}, unchanged", project, check, [0]),
                     Command(f"check of {name} with {jobs}, edited", project, check, [0], 1)]
        made += [Command(f"audit of {name}", project, ["audit"], [0, 1, 0]),
                 Command(f"show of {name}", project, ["show"], [0])]
    return made


def others():
    """Commands that end otherwise: with help, with a refusal, with a note."""
    one, faulty = (worked()[name] for name in ("one class", "a fault"))
    two_files = [[("A.java", TWO % "1"), ("M.java", M1 % "new A().f()")]]
    check = ["check", "--cache", "cache"]
    return [Command("help", one, ["help"]), Command("help of check", one, ["help", "check"]),
            Command("refused words", one, [*check, "--jobs", "65"]),
            Command("a file that isn't there", one, ["scratch", "nowhere"]),
            Command("a file twice", one, ["scratch", one[0][0][0]]),
            Command("scratch of two files", two_files, ["scratch"]),
            Command("check of two files", two_files, check, [0]),
            Command("audit of sessions in another order", one, ["audit", "cache/c0000/s0001.mjrg"], [0, 1, 0]),
            Command("audit of a chain that begins again", one, ["audit", "cache/c0000/s0000.mjrg"], [0, 1, 0]),
            Command("audit of many classes", chain_of_classes(), ["audit"], [0], ways=["by bytes"]),
            Command("no sentence", [[("M.java", M1 % "1" + "class {"), ("N.java", "/* /*")]], ["scratch"]),
            Command("check over a session that is cut", one, check, [0, 0], cut={1: 100}),
            Command("check with faults over a session that is cut", faulty, check, [0], cut={0: 0}),
            Command("audit of a session that is cut", one, ["audit"], [0, 1, 0], cut={2: 1000}),
            Command("show of a session that is cut", one, ["show"], [0], cut={0: 1000}),
            Command("scratch of a golden test", golden_test("examples/factorial"), ["scratch"])]


def of_terms():
    """Commands in profile 2 and in form 2, or over sessions of these."""
    made, project, check = [], overriding(), ["check", "--cache", "cache"]
    for jobs in ("1", "2"):
        by = [*check, "--jobs", jobs]
        made += [Command(f"check over another profile with {jobs}", project, [*by, "--profile", "2"], [0]),
                 Command(f"check back through form 2 with {jobs}, unchanged", project, [*by, "--form", "2"],
                         [0, 1, 0], terms=IN_FORM_2),
                 Command(f"check back through form 2 with {jobs}, edited", project, [*by, "--form", "2"],
                         [0, 0, 0], 1, terms=IN_FORM_2)]
    return [*made, Command("scratch in profile 2", project, ["scratch", "--profile", "2"]),
            Command("check back through both profiles", project, [*check, "--profile", "2"], [0, 1, 1], terms=MIXED),
            Command("check back through form 2 that is cut", project, check, [0, 0, 0], terms=IN_FORM_2, cut={1: 500}),
            Command("audit in form 2", project, ["audit"], [0, 1, 0], terms=IN_FORM_2),
            Command("audit of both profiles and forms", project, ["audit"], [0, 0, 1], terms=MIXED),
            Command("show in form 2", project, ["show"], [0, 1, 0], terms=IN_FORM_2)]


def of_chains():
    """What is said of a chain beside its last session's records: causes, graphs, sources, and each file as it is taken."""
    one, two, faulty, profiles = (*(worked()[name] for name in ("one class", "two classes", "a fault")), overriding())
    check = ["check", "--cache", "cache"]
    return [Command("why of one session", one, ["why"], [0]), Command("why of an edit", two, ["why"], [0, 1]),
            Command("why of a key", two, ["why", "--of", "Answer"], [0, 1]),
            Command("why of a key that isn't there", one, ["why", "--of", "Diags N"], [0, 1]),
            Command("why in form 2", profiles, ["why"], [0, 1, 1], terms=IN_FORM_2),
            Command("why over another profile", profiles, ["why"], [0, 0], terms=["", "--profile 2"]),
            Command("why of a session that is cut", one, ["why"], [0, 1], cut={1: 1000}),
            Command("graph of an edit", two, ["show", "--dot"], [0, 1]),
            Command("graph of a key", two, ["show", "--dot", "--of", "Answer"], [0, 1]),
            Command("graph of a key that isn't there", one, ["show", "--dot", "--of", "Answers"], [0]),
            Command("messages of scratch", faulty, ["scratch", "--messages"]),
            Command("messages of check", faulty, [*check, "--messages"], [0], 1),
            Command("explain", one, ["explain", "E304", "14.9", "3.1"]),
            Command("explain of an unknown code", one, ["explain", "E304", "E999"]),
            Command("audit against its sources", two, ["audit", "--source", "M.java"], [0, 1, 0]),
            Command("audit against other sources", two, ["audit", "--source", "M.java"], [0, 1, 0], 1),
            Command("audit against no source", one, ["audit", "--source", "nowhere"], [0]),
            Command("audit with progress", one, ["audit", "--progress"], [0, 1, 0]),
            Command("audit with progress of a session that is cut", one, ["audit", "--progress"], [0, 1, 0], cut={2: 1000})]


def behind_progress(right, error):
    """Standard error without the lines on files that the run took, as the right one has them, of a run that says them."""
    for line in right.splitlines(keepends=True):
        if not re.fullmatch(rb"cache/c\d+/s\d+\.mjrg: session \d+, \d+ executed, \d+ green\n", line) or not error.startswith(line):
            break
        error = error[len(line):]
    return error


Outcome = collections.namedtuple("Outcome", "status error output files folders")
Counts = collections.namedtuple("Counts", "allocations refused calls failed first opened path")
COUNTS = "=6Q256s"


class Faults:
    """The faults of a program's runs, and what is counted of them in a file of this folder."""

    def __init__(self, shim, folder):
        self.shim, self.file = str(shim), os.open(Path(folder) / "counts", os.O_RDWR | os.O_CREAT)
        os.truncate(self.file, struct.calcsize(COUNTS))
        self.shared = mmap.mmap(self.file, struct.calcsize(COUNTS))

    def begin(self, numbers):
        """Begins to count anew. Returns the environment for a run with these faults, by the environment's names."""
        self.shared[:] = bytes(len(self.shared))
        numbers = {name: str(number) for name, number in numbers.items()}
        return {"LD_PRELOAD": self.shim, "FAULTS_FD": str(self.file), **numbers}

    def counts(self):
        *numbers, path = struct.unpack(COUNTS, self.shared)
        return Counts(*numbers, path.rstrip(b"\0").decode())


class Bench:
    """A folder in which one command is run again and again, each time on what was there first."""

    def __init__(self, program, shim, command, folder):
        self.command, self.folder, self.faults = command, Path(folder), Faults(shim, folder)
        self.words, self.before = [str(program), *command.words], {}
        for version, terms in command.before:
            names = self.write(version)
            subprocess.run([program, "check", "--cache", "cache", *terms, *names], cwd=folder, capture_output=True,
                           check=False)
        self.write(command.version)
        for number, size in command.cut.items():
            os.truncate(self.folder / command.chain[number], size)
        self.before = self.entries()
        self.right = self.run(self.words)
        self.clear()

    def write(self, version):
        """Writes a version of the project. Returns the names of its files."""
        for name, text in self.command.project[version]:
            (self.folder / name).write_text(text)
        return [name for name, _ in self.command.project[version]]

    def entries(self):
        """The bytes of each file of the cache, and None for each folder, by path."""
        return {str(path.relative_to(self.folder)): path.read_bytes() if path.is_file() else None
                for path in [self.folder / "cache", *(self.folder / "cache").rglob("*")] if path.exists()}

    def run(self, words, output=subprocess.PIPE, user=None, environment=()):
        """Runs the program, as another user if that is wanted. What it makes stays until `clear`.

        Raises TimeoutExpired if it doesn't end."""
        done = subprocess.run(words, cwd=self.folder, stdin=subprocess.DEVNULL, stdout=output, stderr=subprocess.PIPE,
                              check=False, timeout=SECONDS, pass_fds=[self.faults.file],
                              env={**os.environ, **dict(environment)}, **(user or {}))
        now = self.entries()
        made = {path: data for path, data in now.items() if path not in self.before or self.before[path] != data}
        made.update({path: "lost" for path in self.before if path not in now})
        files = {path: data for path, data in made.items() if data is not None}
        return Outcome(done.returncode, done.stderr, done.stdout, files, len(made) - len(files))

    def clear(self):
        """Takes away what was made."""
        for path in sorted(self.entries().keys() - self.before.keys(), reverse=True):
            path = self.folder / path
            path.rmdir() if path.is_dir() else path.unlink()

    def faulty(self, **numbers):
        """Runs the command with faults, given by the environment's names. Returns what came, and the counts."""
        done = self.run(self.words, environment=self.faults.begin(numbers))
        return done, self.faults.counts()


def tried(ways, program, shim_path, command):
    """Runs a command in all ways, each a function that gives what came of its runs: the name of each, what came of it, and
    what is wrong about it or None. Returns the command's name, what came, by way, and the lines on what is wrong."""
    came, wrong = {}, []
    with tempfile.TemporaryDirectory(prefix="mjrg-faults-") as folder:
        bench = Bench(program, shim_path, command, folder)
        for way, run in ways.items():
            if command.ways is not None and way not in command.ways:
                continue
            came[way] = collections.Counter()
            try:
                for name, outcome, fault in run(bench):
                    came[way][outcome] += 1
                    wrong += [f"{command.name}: {way}, {name}: {fault}"] if fault else []
            except subprocess.TimeoutExpired:
                came[way]["wrong"] += 1
                wrong.append(f"{command.name}: {way}: still running after {SECONDS} seconds")
            except OSError as fault:
                came[way]["wrong"] += 1
                wrong.append(f"{command.name}: {way}: {fault}")
    return command.name, {way: counts for way, counts in came.items() if counts}, wrong


def arguments(about):
    """A parser of the arguments of both tools."""
    made = built.arguments(about)
    made.add_argument("--long", action="store_true")
    made.add_argument("--brief", action="store_true")
    made.add_argument("--only", metavar="WORDS", default="")
    made.add_argument("--jobs", metavar="N", type=int, default=os.cpu_count())
    return made


def asked(parser):
    """What this parser reads of the command line, and the commands that are asked for."""
    options = built.asked(parser)
    if compiler() is None:
        parser.error("there is no C compiler for tools/faults.c")
    projects = {**worked(), **(longer() if options.long else {})}
    made = commands(projects) + others() + of_terms() + of_chains()
    return options, [command for command in made if options.only in command.name]


def compiler():
    """The path of a C compiler, or None."""
    return next(filter(None, map(shutil.which, ["cc", "clang", "gcc"])), None)


@contextlib.contextmanager
def shim():
    """The path of tools/faults.c as it is compiled."""
    with tempfile.TemporaryDirectory(prefix="mjrg-shim-") as folder:
        made = Path(folder) / "faults.so"
        subprocess.run([compiler(), "-O2", "-shared", "-fPIC", "-o", made, TOP / "tools" / "faults.c"], check=True)
        yield made


def counted(came):
    """What came, in words, by way."""
    told = (f"{way}: " + ", ".join(f"{times} {outcome}" for outcome, times in sorted(counts.items()))
            for way, counts in came.items())
    return "; ".join(told)


def report(parts, is_brief):
    """Prints what came of each part, as its name, its counts and the lines on what is wrong, and then all together.
    Returns the exit status."""
    total, failed = collections.defaultdict(collections.Counter), 0
    for name, came, wrong in parts:
        if not is_brief:
            print(f"{name}: {counted(came)}", flush=True)
        for text in wrong[:LINES]:
            print(text, flush=True)
        if len(wrong) > LINES:
            print(f"{name}: {len(wrong) - LINES} more that are wrong", flush=True)
        for way, counts in came.items():
            total[way].update(counts)
        failed += len(wrong)
    runs = sum(sum(counts.values()) for counts in total.values())
    print(f"all: {counted(total)}")
    print(f"{runs - failed} passed, {failed} failed")
    return 1 if failed or not runs else 0
