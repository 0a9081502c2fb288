"""The edits of crates/NAME/edits/ and must-fail/ and their twins: how their files are read, what they change, and which of them
share a check. For tools/edits, which says what such a file has."""
import contextlib
import os
import re
from dataclasses import dataclass, field
from pathlib import Path

from crate_copies import PARTS, ROOT


class Wrong(Exception):
    """Why an edit can't be read or applied, or crates can't be tried."""


@dataclass
class Edit:
    """One edit or twin, as its file says it."""

    file: str
    fn: str = ""
    twin: str = ""
    changes: list = field(default_factory=list)
    # What is proved as one, by its folder of proofs/: the function, or the cycle of calls that it is in.
    unit: str = ""
    # Whether it changes no function's text, but say a type, which others may read.
    is_wide: bool = False
    # The functions whose lines count: its own, and of a twin those of the edits that name it.
    judged: set = field(default_factory=set)

    @property
    def name(self):
        return os.path.splitext(os.path.basename(self.file))[0]

    @property
    def is_twin(self):
        return self.file.endswith(".twin")


# What the file of an edit consists of.
LINES = re.compile(r"(?m)^(?:(fn|twin|file):(.*)|old: ?(.+)\nnew: ?(.*))\n?")


def read_edit(file):
    """Reads an edit or a twin."""
    if os.path.islink(file) or not re.fullmatch(r"[a-z0-9-]+\.(edit|twin)", os.path.basename(file)):
        raise Wrong("there may be NAME.edit and NAME.twin alone, with small letters, digits and -")
    edit, path, text = Edit(file), "", Path(file).read_text("utf-8")
    unread = LINES.sub("", text)
    if unread:
        raise Wrong(f"a line is none of fn:, twin:, file:, and old: with new: below it: {unread.splitlines()[0][:60]}")
    for word, said, old, new in LINES.findall(text):
        if word == "file":
            path = said.strip()
        elif word:
            setattr(edit, word, said.strip())
        elif path.startswith(tuple(f"{it}/" for it in PARTS)):
            edit.changes.append((path, old, new))
        else:
            raise Wrong("a line old: has no file: of src/, specs/ or proofs/ above it")
    if not edit.fn or not edit.changes:
        raise Wrong("it has no line fn:, or no pair of lines old: and new:")
    return edit


def changed(folder, edits):
    """The texts of the files that the edits change, by their path in the crate."""
    texts = {}
    for path, old, new in (change for edit in edits for change in edit.changes):
        if path not in texts and not os.path.isfile(f"{folder}/{path}"):
            raise Wrong(f"there is no file {path}")
        text = texts.get(path) or Path(folder, path).read_text("utf-8")
        if text.count(old) != 1:
            raise Wrong(f"a text of it stands in {path} {text.count(old)} times, and not once: {old.strip()}")
        texts[path] = text.replace(old, new)
    return texts


# What begins a function in the layout that rt fmt gives, and what says that it is in a cycle of calls.
FUNCTION = re.compile(r"(?m)#\[cycle\((?P<cycle>\w+)\)\]|^ *(?:pub(?:\([^)]*\))? |const |unsafe )*fn (?P<name>\w+)")


def functions_turned(folder, edit):
    """The name of each function in whose text an edit changes something, and the unit of the cycle that it may be in."""
    for file, old, _ in edit.changes:
        text, cycle, found = Path(folder, file).read_text("utf-8"), None, []
        for it in FUNCTION.finditer(text, 0, text.find(old) + len(old)):
            found += [(it["name"], cycle)] if it["name"] else []
            cycle = it["cycle"]
        module = [it for it in file[len("src/") : -len(".rt")].split("/") if it not in ("lib", "main", "mod")]
        for name, cycle in found[-1:] if file.endswith(".rt") else []:
            yield name, "/".join([*module, f"+{cycle}"]) if cycle else ""


def read_for(folder, file, twins):
    """Reads an edit or a twin of a crate: it has to apply, to turn the function that it names, and to have its twin."""
    edit = read_edit(file)
    changed(folder, [edit])
    turned = [*functions_turned(folder, edit)]
    own = [cycle for name, cycle in turned if name == edit.fn.split("::")[-1]]
    if turned and not own:
        raise Wrong(f"it turns {turned[0][0]}, and not {edit.fn}")
    edit.unit, edit.is_wide, edit.judged = next(filter(None, own), edit.fn.replace("::", "/")), not turned, {edit.fn}
    twin = twins.get(edit.twin)
    if edit.is_twin:
        twins[edit.name] = edit
    elif twin and twin.unit == edit.unit:
        twin.judged.add(edit.fn)
    elif edit.twin:
        raise Wrong(f"there is no twin {edit.twin} of the same function or cycle of calls")
    elif os.path.isdir(f"{folder}/proofs/{edit.unit}"):
        raise Wrong(f"{edit.fn} has proof files of its own, so the edit needs a line twin:")
    return edit


def edits_of(name):
    """A crate's edits and twins that are tried here, and what is wrong with any. Those of must-fail/ are tried by rt ci."""
    folder = f"{ROOT}/crates/{name}"
    twins, found, wrong = {}, [], []
    files = [str(it) for part in ("edits", "must-fail") for it in sorted(Path(folder, part).rglob("*")) if not it.is_dir()]
    for file in sorted(files, key=lambda it: it.endswith(".edit")):
        try:
            found += [] if file.endswith(".md") else [read_for(folder, file, twins)]
        except Wrong as why:
            wrong.append(f"{os.path.relpath(file, ROOT)}: {why}")
    unused = twins.keys() - {it.twin for it in found}
    wrong += [f"crates/{name}/edits/{it}.twin: no edit names it" for it in sorted(unused)]
    tried = [it for it in found if "/must-fail/" not in it.file]
    return sorted(tried, key=lambda it: it.is_twin), wrong


def groups_of(edits, folder):
    """Parts edits and twins into groups for one check each: those of other functions and cycles, which apply side by side."""
    groups = []
    for edit in edits:
        for group in groups:
            is_apart = not any(edit.is_wide or it.is_wide or it.unit == edit.unit for it in group)
            with contextlib.suppress(Wrong):
                if is_apart and changed(folder, [*group, edit]):
                    group.append(edit)
                    break
        else:
            groups.append([edit])
    return groups
