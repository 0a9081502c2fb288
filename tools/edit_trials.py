"""Trials of edits, for tools/edits: checks of copied crates, as many at a time as are asked for, and what they say of each edit."""
import contextlib
import os
import re
import shutil
import signal
import subprocess
import tempfile
import threading
import time
from concurrent.futures import ThreadPoolExecutor
from pathlib import Path

from crate_copies import KEPT, PARTS, ROOT, add_crates, begin_base, copy_parts, keep_work, rtlib
from edit_files import Wrong, changed, groups_of

# The commands that run now, each the leader of a group of processes.
RUNNING = set()
STOPPED = threading.Event()


def stop(*_):
    STOPPED.set()
    for ran in [*RUNNING]:
        with contextlib.suppress(ProcessLookupError):
            os.killpg(ran.pid, signal.SIGTERM)


def run(folder, *words):
    """Runs a command in a folder and returns its exit status, its lines, and the processor seconds that it took."""
    if STOPPED.is_set():
        raise KeyboardInterrupt
    how = {"cwd": folder, "stdin": subprocess.DEVNULL, "stdout": subprocess.PIPE, "stderr": subprocess.STDOUT}
    with subprocess.Popen(words, errors="replace", start_new_session=True, **how) as ran:
        RUNNING.add(ran)
        if STOPPED.is_set():
            stop()
        said = ran.stdout.read()
        _, status, used = os.wait4(ran.pid, 0)
        ran.returncode = os.waitstatus_to_exitcode(status)
        RUNNING.discard(ran)
    if STOPPED.is_set():
        raise KeyboardInterrupt
    return ran.returncode, said.splitlines(), used.ru_utime + used.ru_stime


# What a check says of a function whose own goals are all proved, and that calls another with one that isn't.
WAITS = r"(?:in `[^`]+`, of this cycle of calls: )?it calls `[^`]+`(?: and `[^`]+`)*, which (?:is|are) not proved"
PROVED = re.compile(rf"proved(?:, may \w+)*|no proof: {WAITS}(?:; {WAITS})*")
# What antt says if it couldn't read a text of src/ or specs/, in which a false statement reads well.
UNREAD = r"is not in scope|has no field|is no name|operand is missing|expected the end|cannot continue"


def is_unread(line):
    found = re.match(r"(?:\./)?(?:src|specs)/\S+?:\d+:\d+: error: (?:(`[^`]*`): )?(.*)", line)
    return bool(found) and (not found[1] or bool(re.search(UNREAD, re.sub(r"`[^`]*`", "", found[2]))))


class Said:
    """What a check says of each function."""

    def __init__(self, name, lines):
        text = "\n".join(lines)
        self.functions = dict(re.findall(rf"(?m)^fn {name}::(\S+): (.*)", text))
        # (those with an error in their files of proofs/)
        self.units = {*re.findall(r"(?m)^(?:\./)?proofs/(\S+)/\w+\.antt:\d+:\d+: error", text)}
        bad = [it for it in lines if is_unread(it)]
        self.is_read = bool(self.functions) and not bad
        self.why = next(iter(bad), next((it for it in lines if "error" in it), "the check ended early"))

    def of(self, function):
        return self.functions.get(function, "no line")

    def is_right(self, edit):
        """Whether an edit is refused, by a goal of its own function, or a twin proved."""
        said, in_its_files = self.of(edit.fn), edit.unit in self.units
        if edit.is_twin:
            return self.is_read and not in_its_files and all(PROVED.fullmatch(self.of(it)) for it in edit.judged)
        is_open = "`search` did not prove" in said or said == "not proved"
        return self.is_read and (is_open or said.startswith("not proved") and in_its_files)

    def reason(self, edit):
        why = "; ".join(f"fn {it}: {self.of(it)}" for it in sorted(edit.judged))
        why = why if self.is_read else f"it can't be read: {self.why}"
        return f"{os.path.relpath(edit.file, ROOT)}: NOT {'PROVED' if edit.is_twin else 'REFUSED'}: {why}"[:400]


class Trial:
    """A crate's edits and twins on the way, over the libraries of the copied repository."""

    def __init__(self, crate, rattle, edits):
        self.name, self.folder, self.edits, self.seconds = crate.name, crate.folder, edits, 0
        self.bytes = sum(it.stat().st_size for part in PARTS for it in Path(crate.folder, part).rglob("*"))
        # (rt ci leaves no stamp)
        self.is_over_out = all(os.path.isfile(f"{it.folder}/out/rlib/stamp") for it in crate.below())
        # (what rt check runs, once it has chosen what kept work to begin with, which may be another checkout's)
        self.words = [rattle, "check", *crate.words(["--jobs", "1"]), "--incremental", KEPT, "--progress"]

    def tell(self, text):
        print(f"{self.name}: {text}\n", end="", flush=True)

    def check(self, folder):
        status, lines, seconds = run(folder, *self.words)
        self.seconds += seconds
        return status, lines

    def run(self):
        """Tries them all, and returns what isn't as it has to be."""
        try:
            self.check_as_it_stands(f"{ROOT}/crates/{self.name}")
            failed = self.try_groups()
        except (Wrong, OSError) as why:
            failed = [f"{self.name}: {why}"]
        ending = f"{len(failed)} NOT as they have to be" if failed else "all as they have to be"
        self.tell(f"{ending}, {self.seconds / 60:.1f} processor minutes")
        return failed

    def check_as_it_stands(self, own):
        """Proves the crate, over the work that is kept in its own folder, and keeps what each other check begins with."""
        try:
            copy_parts(own, self.folder, [KEPT])
        except OSError:
            # (another check may be writing there)
            shutil.rmtree(f"{self.folder}/{KEPT}", ignore_errors=True)
        status, lines = self.check(self.folder)
        if status:
            raise Wrong(f"it isn't proved as it stands: {lines[-1] if lines else ''}")
        self.tell(f"proved as it stands, {self.seconds:.0f} s")
        if self.is_over_out:
            keep_work(self.folder, own)

    def try_groups(self):
        groups, failed = groups_of(self.edits, self.folder), []
        for number, group in enumerate(groups, 1):
            left = self.tried(group, f"check {number} of {len(groups)}")
            for edit, why in left:
                failed += self.tried([edit], f"{edit.name} alone") if len(group) > 1 else [(edit, why)]
        return [why for _, why in failed]

    def tried(self, group, label):
        """Checks a group once and returns those of it that aren't as they have to be, with what was said."""
        start = self.seconds
        with tempfile.TemporaryDirectory() as folder:
            copy_parts(self.folder, folder, (*PARTS, KEPT))
            for path, text in changed(self.folder, group).items():
                Path(folder, path).write_text(text, "utf-8")
            said = Said(self.name, self.check(folder)[1])
        failed = [(it, said.reason(it)) for it in group if not said.is_right(it)]
        self.tell(f"{label}: {len(group) - len(failed)} of {len(group)}, {self.seconds - start:.0f} s")
        return failed


def make_base(crates, base):
    """Makes a repository of these crates over their libraries, and returns the processor seconds that rt ci took for these."""
    below = {lower: None for it in crates for lower in it.below()}
    seconds = 0
    if not begin_base(below, base):
        status, lines, seconds = run(base, "rt", "ci")
        if status:
            raise Wrong("\n".join([*lines, "the libraries below aren't proved"]))
    add_crates([it for it in crates if it not in below], base)
    return seconds


def try_all(found, jobs, room):
    """Tries the edits of these crates, dearest first. Returns what isn't as it has to be, and the processor seconds."""
    rt, base = rtlib(), f"{room}/base"
    seconds = make_base([it for it in rt.crates_below(ROOT) if it.name in found], base)
    print(f"the libraries below stand, after {seconds:.0f} s", flush=True)
    # (for what a check leaves when it is stopped, too)
    os.environ["TMPDIR"] = tempfile.tempdir = room
    trials = [Trial(it, rt.RATTLE, found[it.name]) for it in rt.crates_below(base) if it.name in found]
    with ThreadPoolExecutor(jobs) as pool:
        tried = [*pool.map(Trial.run, sorted(trials, key=lambda it: it.bytes, reverse=True))]
    return [why for failed in tried for why in failed], seconds + sum(it.seconds for it in trials)


def tell_tried(found, jobs):
    """Tries these edits, says what came of it, and returns the exit status. Its checks and copies go, however it ends."""
    for number in (signal.SIGINT, signal.SIGTERM):
        signal.signal(number, stop)
    start, seconds, os.environ["RT_JOBS"] = time.time(), 0, str(jobs)
    try:
        with tempfile.TemporaryDirectory(prefix="edits-") as room:
            failed, seconds = try_all(found, min(jobs, len(found)), room)
    except KeyboardInterrupt:
        return 130
    except Wrong as why:
        failed = [str(why)]
    print(*failed, f"{seconds / 60:.1f} processor minutes, {(time.time() - start) / 60:.1f} minutes", sep="\n")
    print(f"{len(failed)} NOT as they have to be" if failed else "every edit is refused")
    return 1 if failed else 0
