"""Times checks of projects of several shapes beside `scratch` of the same files: a first one, an unchanged one, one after
a body was edited, and one after a class got a field."""
import shutil
import tempfile
from pathlib import Path

from measuring import check, measured
from projects import EDITS, edit_file
from shapes import SHAPES


def edited(program, folder, names, edit, number):
    """A first check, and one behind it after an edit of the last file; the file is put back then."""
    shutil.rmtree(Path(folder, "cache"), ignore_errors=True)
    first = check(program, folder, names)
    text = edit_file(folder, names[-1], edit, number)
    behind = check(program, folder, names)
    Path(folder, names[-1]).write_text(text)
    return first, behind


def times_of(program, folder, names, runs):
    """The least seconds of `scratch` and of each check."""
    least = {}
    for number in range(runs):
        took = {"scratch": measured([program, "scratch", *names], folder).seconds}
        for title, edit in EDITS.items():
            took["first"], took[title] = (run.seconds for run in edited(program, folder, names, edit, number + 7))
        least = {title: min(seconds, least.get(title, seconds)) for title, seconds in took.items()}
    return least


def by_shapes(program, runs):
    """Prints a line for each shape and run, with how many times as long as `scratch` it takes."""
    for shape, write in SHAPES.items():
        with tempfile.TemporaryDirectory() as folder:
            least = times_of(program, folder, write(folder), runs)
        print(shape)
        for title, seconds in least.items():
            print(f"  {title}: {seconds:.3f} s, {seconds / least['scratch']:.2f} times scratch", flush=True)
