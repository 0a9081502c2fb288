"""The table of docs/EVIDENCE.md of what came of bodies that `rt plant` planted: its rows, which are kept in docs/planted.tsv, and
why each body that was proved is right, which docs/planted.txt says.

`wrong` gives the lines on what is wrong with them, as 'FILE: WHAT'."""
import re
import textwrap
from collections import Counter
from dataclasses import dataclass, field
from pathlib import Path

TOP = Path(__file__).resolve().parent.parent
ROWS, REASONS, PAGE = (TOP / "docs" / name for name in ("planted.tsv", "planted.txt", "EVIDENCE.md"))
# The last line of what rt plant prints, the counts in it, and a line on a body.
LAST = re.compile(r"plants crate=(\w+) planted-in=(\d+) ((?:[a-z-]+=\d+ ?)+)$")
COUNT = re.compile(r"([a-z-]+)=(\d+)")
PROVED = re.compile(r"proves +\S+:\d+ (.*?): \{ ")
KINDS = ("proves", "same", "refused", "elsewhere", "not-judged", "not-run")
COLUMNS = ("crate", "run", "functions", "refused", "proved", "not judged", "not tried", "same", "proved bodies")
REASON = re.compile(r"(\w+)(?: (\S.*?))?: (\S.*)")
PART = re.compile(r"(<!-- planted -->\n).*?(<!-- end -->\n)", re.DOTALL)
HEAD = ("Crate", "Run", "Functions", "Judged", "Refused", "Not judged", "Proved, and why that is right")
WIDTH = 140  # columns of a line of the page, at most
SAME = "the contract shows that the function answers the same, or has no other answer"


class Unreadable(Exception):
    """A file isn't what it has to be."""


@dataclass
class Row:
    """What came of a crate's bodies in one run. Of older rows it isn't known which of those that were proved are the same by
    their contract, nor of which functions: `same` and `bodies` are None there, as is each count that isn't known."""

    crate: str
    run: int
    functions: int | None
    refused: int
    proved: int
    not_judged: int | None
    not_tried: int | None = None
    same: int | None = None
    bodies: Counter | None = field(default=None)

    def line(self):
        """The row's line of docs/planted.tsv."""
        counts = (self.functions, self.refused, self.proved, self.not_judged, self.not_tried, self.same)
        names = "; ".join(f"{count} {name}" for name, count in sorted((self.bodies or {}).items()))
        bodies = None if self.bodies is None else names or "none"
        return "\t".join(["-" if it is None else str(it) for it in (self.crate, self.run, *counts, bodies)])


def number(text):
    return None if text == "-" else int(text)


def row_of(line):
    crate, run, functions, refused, proved, not_judged, not_tried, same, bodies = line.split("\t")
    found = None
    if bodies != "-":
        parts = (it.split(" ", 1) for it in bodies.split("; ") if it != "none")
        found = Counter({name: int(count) for count, name in parts})
    return Row(crate, int(run), number(functions), int(refused), int(proved), number(not_judged), number(not_tried),
               number(same), found)


def rows():
    """The rows of docs/planted.tsv."""
    first, *lines = ROWS.read_text(encoding="utf-8").splitlines()
    try:
        if first.split("\t") != list(COLUMNS):
            raise ValueError
        return [row_of(line) for line in lines]
    except ValueError:
        raise Unreadable(f"{ROWS.relative_to(TOP)}: no table with the columns {', '.join(COLUMNS)}") from None


def with_new(found, new):
    """The rows with new ones in the places of the first of their crates, the others of which are left out, or behind all crates'."""
    new, made = {row.crate: row for row in new}, {}
    for row in found:
        made[row.crate, None if row.crate in new else row.run] = new.get(row.crate, row)
    made.update(((crate, None), row) for crate, row in new.items())
    return sorted(made.values(), key=lambda row: not is_crate(row.crate))


def is_crate(name):
    """Whether a row is that of a crate, and not of several."""
    return re.fullmatch(r"\w+", name)


def write_rows(found):
    lines = ["\t".join(COLUMNS), *(row.line() for row in found)]
    ROWS.write_text("".join(f"{line}\n" for line in lines), encoding="utf-8")


def row_in(path, run):
    """The row of what rt plant printed into a file."""
    lines = Path(path).read_text(encoding="utf-8", errors="replace").splitlines()
    last = LAST.fullmatch(lines[-1]) if lines else None
    counts = {kind: int(count) for kind, count in COUNT.findall(last[3])} if last else {}
    if not last or not {*KINDS} <= {*counts}:
        raise Unreadable(f"{path}: its last line isn't that of rt plant, which counts the plants of each kind")
    bodies = Counter(match[1] for match in map(PROVED.match, lines) if match)
    if bool(bodies) != bool(counts["proves"]) or bodies.total() > counts["proves"]:
        raise Unreadable(f"{path}: {counts['proves']} bodies were proved, and {bodies.total()} lines say of which functions")
    return Row(last[1], run, int(last[2]), counts["refused"], counts["proves"] + counts["same"],
               counts["elsewhere"] + counts["not-judged"], counts["not-run"], counts["same"], bodies)


def reasons():
    """What docs/planted.txt says, by a crate and the path of a function in it, or None; of a run by 'run' and its number."""
    found = {}
    for line in REASONS.read_text(encoding="utf-8").splitlines():
        read = REASON.fullmatch(line)
        if read:
            found[read[1], read[2]] = read[3]
        elif line.strip() and not line.startswith("#"):
            raise Unreadable(f"{REASONS.relative_to(TOP)}: this line gives no reason: {line}")
    return found


def line_for(why, crate, function):
    """The path that the reason's line has: the function's own, or that of a module or type in which it stands."""
    parts = function.split("::")
    paths = ("::".join(parts[:count]) for count in range(len(parts), 0, -1))
    return next((it for it in paths if (crate, it) in why), function)


def unexplained(found, why):
    """The lines on what docs/planted.txt has no line for, bodies that were proved and runs, and on its lines for nothing."""
    name, used = REASONS.relative_to(TOP), set()
    for row in found:
        whole = [(row.crate, None)] * bool(row.proved) if row.bodies is None else []
        lines = {line_for(why, row.crate, it): None for it in row.bodies or ()}
        asked = [("run", str(row.run)), *whole, *((row.crate, it) for it in lines)]
        yield from (f"{name}: no line {' '.join(filter(None, it))}" for it in asked if it not in why and it not in used)
        used.update(asked)
    yield from (f"{name}: no row has {' '.join(filter(None, it))}" for it in why if it not in used)


def proved_cell(row, why, is_first):
    """What the table says of the bodies that were proved; a reason for all of a crate stands in its first row."""
    if not row.proved:
        return "none"
    if row.bodies is None:
        return f"{row.proved}: {why.get((row.crate, None), '')}" if is_first else f"{row.proved} of those above"
    parts = {}
    for path in dict.fromkeys(line_for(why, row.crate, it) for it in sorted(row.bodies)):
        parts.setdefault(why.get((row.crate, path), ""), []).append(f"`{path}`")
    said = [f"{', '.join(functions)}: {reason}" for reason, functions in parts.items()]
    return f"{row.proved}: " + "; ".join([f"of {row.same} {SAME}" if said else SAME] * bool(row.same) + said)


def table(found, why):
    """The lines of the table and of its runs."""
    shown = lambda count: "" if count is None else str(count)  # noqa: E731
    for (kind, number), text in why.items():
        if kind == "run":
            yield from textwrap.wrap(f"- Run {number}: {text}.", WIDTH, subsequent_indent="  ", break_on_hyphens=False)
    yield from ("", f"| {' | '.join(HEAD)} |", f"|{'---|' * len(HEAD)}")
    seen = set()
    for row in found:
        crate = f"`{row.crate}`" if is_crate(row.crate) else row.crate
        not_judged = shown(row.not_judged) + (f", and {row.not_tried} not tried" if row.not_tried else "")
        cells = (crate, str(row.run), shown(row.functions), str(row.refused + row.proved), str(row.refused), not_judged,
                 proved_cell(row, why, row.crate not in seen))
        seen.add(row.crate)
        yield f"| {' | '.join(cells)} |"


def page_of(found):
    """The page as it is, and with the table of these rows."""
    text = PAGE.read_text(encoding="utf-8")
    if not PART.search(text):
        raise Unreadable(f"{PAGE.relative_to(TOP)}: no part between <!-- planted --> and <!-- end -->")
    lines = "".join(f"{line}\n" for line in table(found, reasons()))
    return text, PART.sub(lambda part: f"{part[1]}\n{lines}\n{part[2]}", text)


def write_page():
    PAGE.write_text(page_of(rows())[1], encoding="utf-8")


def wrong(found=None):
    """The lines on what is wrong with the table, its rows, which are those that are kept, and its reasons."""
    try:
        found = rows() if found is None else found
        text, made = page_of(found)
        lines = [*unexplained(found, reasons())]
    except (OSError, Unreadable) as why:
        return [str(why)]
    return lines + [f"{PAGE.relative_to(TOP)}: its table isn't what tools/planted writes now"] * (text != made)
