"""What can be checked of the pages: their links, the commands, files, options and names that they cite, the lines that they
count, their lengths, and the table of EVIDENCE.md.

`checks` gives each check of each page with what is wrong there, as lines 'PAGE:LINE: WHAT'.
"""
import re
from pathlib import Path

import plants

TOP = Path(__file__).resolve().parent.parent
# The most words of a page, as wc -w counts them.
MOST_WORDS = {"README.md": 1900, "docs/PROOFS.md": 4000, "docs/ARCHITECTURE.md": 4500, "docs/DECISIONS.md": 5500,
              "docs/CONTRIBUTING.md": 2400, "docs/SESSIONS.md": 3000, "docs/LANGUAGE.md": 2500, "docs/EMBEDDING.md": 1700,
              "docs/QUERIES.md": 1400, "docs/YOUR_QUERIES.md": 1300, "bench/README.md": 1500}
MOST_IN_A_LINE, MOST_IN_A_CELL = 140, 300
# The pages of which one has to link each other one.
ENTRIES = ("README.md", "docs/ARCHITECTURE.md", "docs/CONTRIBUTING.md")
# Words that look like names of crates/ and are none: of rustc's guide, of libraries and systems, and parts of names.
OF_OTHERS = {"DepNode", "Fingerprint", "DepGraph", "try_mark_green", "force_from_dep_node", "ArcStr", "ENOMEM", "mj_", "_as"}
# The columns of a table that name contracts and laws, whose files stand in the column File.
CONTRACTS = ("Contract", "Laws", "Law")
# The columns that count the lines of the crates of their row, by what of these.
COUNTED = {"`src/`": "src/**/*.rt", "`specs/`": "specs/**/*.antt", "`proofs/`": "proofs/**/*.antt"}
LINK = re.compile(r"\[[^\]]*\]\(([^)\s]+)\)")
QUOTED = re.compile(r"`([^`]+)`")
NAME = re.compile(r"\w+")
A_FILE = re.compile(r"[\w./-]+\.(?:rt|antt)")
A_MUTANT = re.compile(r"(\w+)/([a-z0-9-]+)")


def pages():
    return [page for part in ("*.md", "docs/*.md", "bench/*.md", "cases/*.md") for page in sorted(TOP.glob(part))]


def lines_of(page):
    """The lines of a page with their numbers, and whether each stands in a block between ``` lines."""
    inside = False
    for number, line in enumerate(page.read_text(encoding="utf-8").splitlines(), 1):
        fence = line.startswith("```")
        inside = inside != fence
        yield number, line, inside or fence


def prose_of(page):
    return [(number, line) for number, line, inside in lines_of(page) if not inside]


def cells_of(line):
    """The cells of a line of a table, none of another line."""
    return [cell.strip() for cell in line.strip().strip("|").split(" | ")] if line.startswith("|") else []


def rows_of(page):
    """The rows of a page's tables with their numbers: each cell by the heading of its column."""
    heads = []
    for number, line in prose_of(page):
        cells = cells_of(line)
        if cells and heads:
            yield number, dict(zip(heads, cells))
        heads = heads or cells if cells else []


def anchors(page):
    """The anchors of a page's headings, as GitHub makes them."""
    heads = [line.lstrip("#").strip().lower() for _, line in prose_of(page) if line.startswith("#")]
    return {re.sub(r"[^\w -]", "", head).replace(" ", "-") for head in heads}


def wrong_links(page):
    for number, line in prose_of(page):
        for link in LINK.findall(line):
            file, _, anchor = link.partition("#")
            target = (page.parent / file).resolve() if file else page
            if "://" in link:
                continue
            if not target.exists():
                yield number, f"{link}: no such file"
            elif anchor and anchor not in anchors(target):
                yield number, f"{link}: no such heading"


def unlinked(page):
    """That no page links this one from which a reader comes."""
    linked = {(entry.parent / link.partition("#")[0]).resolve()
              for entry in (TOP / name for name in ENTRIES) for _, line in prose_of(entry) for link in LINK.findall(line)}
    if page not in linked and page != TOP / "README.md":
        yield 1, f"no link leads here from {', '.join(ENTRIES)}"


def is_there(path):
    """Whether a file is there; '..' stands for the rest of a name, and a word in capitals for one."""
    return any(TOP.glob(re.sub(r"\.\.|(?<![a-z])[A-Z]{2,}(?!\.md)", "*", path.rstrip("/"))))


def wrong_paths(page):
    """Files that aren't there, and options of commands of this repository that the command doesn't know."""
    tops = ("crates/", "docs/", "tools/", "bench/", "cases/", "examples/", "./gate", "./release")
    for number, line in prose_of(page):
        for quoted in QUOTED.findall(line):
            path, *words = quoted.split() or [""]
            options = [word for word in words if word.startswith("--")]
            if path.startswith(tops) and not is_there(path):
                yield number, f"{path}: no such file"
            elif path.startswith(tops) and options:
                known = (TOP / path).read_text(encoding="utf-8")
                yield from ((number, f"{path}: no such option as {option}") for option in options if option not in known)


def names_in_crates():
    """Each word that the sources and definitions of a crate have outside comments, the names of crates, and those beside them."""
    names = {path.name for folder in (TOP, TOP / "crates") for path in folder.iterdir()}
    for part in ("src/**/*.rt", "specs/**/*.antt"):
        for file in (TOP / "crates").glob(f"*/{part}"):
            for line in file.read_text(encoding="utf-8").splitlines():
                if not line.lstrip().startswith(("//", "--")):
                    names.update(NAME.findall(line))
    return names


def is_named(word):
    """Whether a quoted word is to be looked for as a name: it has an upper-case first letter or an underscore."""
    return re.fullmatch(r"\w+(::\w+)*", word) and any(part[0].isupper() or "_" in part for part in word.split("::"))


def is_mutant(crate, name):
    """Whether a crate has this mutant; what isn't the name of a crate is that of golden tests, or of a folder beside crates/."""
    if not (TOP / "crates" / crate).is_dir():
        return any((folder / crate / name).exists() for folder in (TOP, TOP / "cases"))
    return any((TOP / "crates" / crate / kind / f"{name}.edit").is_file() for kind in ("must-fail", "edits"))


def files_in(text, folder=None):
    """The files of crates that a text cites. One without a folder stands in that of the file in front of it."""
    for quoted in QUOTED.findall(text):
        if A_FILE.fullmatch(quoted):
            if "/" in quoted:
                folder = Path("crates") / Path(quoted.removeprefix("crates/")).parent
            yield TOP / folder / Path(quoted).name if folder else TOP / quoted


def wrong_names(page, names):
    """Names that a page cites, and in its tables files and mutants of crates, that aren't there."""
    for number, line in prose_of(page):
        for part in (part for quoted in filter(is_named, QUOTED.findall(line)) for part in quoted.split("::")):
            if part not in names and part not in OF_OTHERS:
                yield number, f"{part}: no such name in crates/"
        for cell in cells_of(line):
            yield from ((number, f"{path.relative_to(TOP)}: no such file") for path in files_in(cell) if not path.is_file())
            for mutant in filter(None, map(A_MUTANT.fullmatch, QUOTED.findall(cell))):
                if not is_mutant(*mutant.groups()) and not (TOP / mutant[0]).exists():
                    yield number, f"{mutant[0]}: no such mutant"


def wrong_contracts(page):
    """Contracts and laws of tables that no file of their row has. 'the same' stands for the files of the row above."""
    texts = []
    for number, row in rows_of(page):
        if "File" not in row or not any(head in row for head in CONTRACTS):
            continue
        if row["File"] != "the same":
            texts = [path.read_text(encoding="utf-8") for path in files_in(row["File"]) if path.is_file()]
        for head in CONTRACTS:
            for quoted in QUOTED.findall(re.sub(r"\([^)]*\)", "", row.get(head, ""))):
                if not all(any(re.search(rf"\b{part}\b", text) for text in texts) for part in quoted.split("::")):
                    yield number, f"{quoted}: not in {row['File']}"


def wrong_crates(page):
    """Crates in a column for such that aren't there."""
    for number, row in rows_of(page):
        for quoted in QUOTED.findall(row.get("Crate", "") + row.get("Crates", "")):
            if not (TOP / "crates" / quoted).is_dir():
                yield number, f"{quoted}: no such crate"


def lines_in(paths):
    return sum(len(path.read_text(encoding="utf-8").splitlines()) for path in paths)


def wrong_counts(page):
    """Numbers of lines, of the crates or files that a row of a table cites, that are off by over a tenth, and over 50."""
    for number, row in rows_of(page):
        folders = [TOP / "crates" / crate for crate in QUOTED.findall(row.get("Crates", ""))]
        counts = [(row[head], [path for folder in folders for path in folder.glob(part)])
                  for head, part in COUNTED.items() if head in row]
        if "Lines" in row:
            counts.append((row["Lines"], [path for path in files_in(row.get("File", "")) if path.is_file()]))
        for said, paths in counts:
            if said.replace(",", "").isdigit():
                count, lines = int(said.replace(",", "")), lines_in(paths)
                if abs(count - lines) > max(50, lines // 10):
                    yield number, f"{said} lines: there are {lines:,}"


def wrong_lengths(page):
    for number, line, _ in lines_of(page):
        if line.startswith("|"):
            for cell in cells_of(line):
                if len(cell) > MOST_IN_A_CELL:
                    yield number, f"a cell of {len(cell)} characters, of at most {MOST_IN_A_CELL}"
        elif len(line) > MOST_IN_A_LINE:
            yield number, f"a line of {len(line)} characters, of at most {MOST_IN_A_LINE}"
    most = MOST_WORDS.get(str(page.relative_to(TOP)))
    words = len(page.read_text(encoding="utf-8").split())
    if most and words > most:
        yield 1, f"{words} words, of at most {most}"


def wrong_commands(page, help_of):
    """Commands of the program that a page cites and that it doesn't know, or whose options it doesn't. `help_of` gives the help
    of a subcommand, or None."""
    for number, line in prose_of(page):
        for quoted in QUOTED.findall(line):
            name, *words = quoted.split() or [""]
            if name.removeprefix("./") != "mjrg" or not words or words[0].startswith("-"):
                continue
            known = help_of(words[0])
            if known is None:
                yield number, f"{quoted}: no such command"
            else:
                options = (word for word in words if word.startswith("--"))
                yield from ((number, f"{quoted}: no such option") for option in options if not re.search(f"{option}\\b", known))


def checks(help_of):
    """What is wrong in each page, check by check: an empty list if nothing is."""
    names = names_in_crates()
    for page in pages():
        for wrong in (wrong_links(page), unlinked(page), wrong_paths(page), wrong_lengths(page), wrong_names(page, names),
                      wrong_contracts(page), wrong_crates(page), wrong_counts(page), wrong_commands(page, help_of)):
            yield [f"{page.relative_to(TOP)}:{number}: {what}" for number, what in wrong]
    yield plants.wrong()
