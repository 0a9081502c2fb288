"""The crates of this repository and copies of them, with what rt has proved and built of them, for tools/edits."""
import contextlib
import fcntl
import functools
import importlib.machinery
import importlib.util
import os
import re
import shutil
from pathlib import Path

ROOT = os.path.dirname(os.path.dirname(os.path.realpath(__file__)))
# The folders that have a crate's sources.
PARTS = ("src", "specs", "proofs")
# What a check keeps for the next one.
KEPT = "out/incremental"


def rtlib():
    """The part of rt that knows of crates, and of the commands that check them."""
    loader = importlib.machinery.SourceFileLoader("rt", os.path.realpath(shutil.which("rt")))
    script = importlib.util.module_from_spec(importlib.util.spec_from_loader("rt", loader))
    loader.exec_module(script)
    # (rt walks each path through the crates, of which there are hundreds of thousands)
    script.rtlib.Crate.below = functools.cache(script.rtlib.Crate.below)
    return script.rtlib


def write_stamps():
    """Has rt take the libraries of out/ as built. rt ci stamps none, since they fit no others than one another, as here."""
    for crate in rtlib().crates_below(ROOT):
        if os.path.isdir(crate.rlib):
            Path(crate.folder, "out/rlib/stamp").write_text(crate.stamp(), "utf-8")


def crate_lines():
    """The lines of crates.txt by the crates that they name."""
    lines = (it.partition("#")[0].strip() for it in Path(ROOT, "crates.txt").read_text("utf-8").splitlines())
    return {re.match(r"\w+", it)[0]: it for it in lines if it}


def link_or_copy(old, new):
    """Copies a file; what was proved or built gets a second name, since such a file is made anew and never written into."""
    if old.endswith(".oantt") or "/out/rlib/" in old:
        with contextlib.suppress(OSError):
            return os.link(old, new)
    return shutil.copy2(old, new)


def copy_parts(old, new, parts):
    for part in parts:
        if os.path.isdir(f"{old}/{part}"):
            shutil.copytree(f"{old}/{part}", f"{new}/{part}", copy_function=link_or_copy)


def add_crates(crates, base):
    lines = crate_lines()
    with open(f"{base}/crates.txt", "a", encoding="utf-8") as it:
        it.writelines(f"{lines[crate.name]}\n" for crate in crates)
    for crate in crates:
        copy_parts(crate.folder, f"{base}/crates/{crate.name}", PARTS)


def begin_base(crates, base):
    """Makes a repository of these crates, with their libraries if rt has built all of them. Returns whether it has."""
    # (by which rt knows a repository's top)
    os.makedirs(f"{base}/.git")
    if os.path.isfile(f"{ROOT}/HANDLES"):
        shutil.copy2(f"{ROOT}/HANDLES", base)
    add_crates(crates, base)
    is_built = all(it.is_built() for it in crates)
    for it in crates if is_built else []:
        copy_parts(it.folder, f"{base}/crates/{it.name}", ["out/rlib"])
    return is_built


def keep_work(folder, own):
    """Has what a check kept in a copy take the place of what is kept in the crate's own folder, unless rt works there."""
    held = os.open(own, os.O_RDONLY)
    try:
        fcntl.flock(held, fcntl.LOCK_EX | fcntl.LOCK_NB)
        shutil.rmtree(f"{own}/{KEPT}", ignore_errors=True)
        copy_parts(folder, own, [KEPT])
    except BlockingIOError:
        pass
    finally:
        os.close(held)
