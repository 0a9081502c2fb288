"""Times checks of unchanged sources over a session of another profile, and behind sessions of form 2, of 400 classes with
2,000 methods, beside an unchanged check in one profile and form 1."""
import shutil
import tempfile
from pathlib import Path

from chains import lengthen, session_path
from measuring import check
from shapes import ordinary

# Behind how many sessions of form 2 a check is timed.
BEHIND = (1, 2, 10, 50)


def least_checks(program, folder, names, number, runs, terms):
    """The least seconds of checks that make this session, with each of these arguments in turn; it is taken away again."""
    least = []
    for _ in range(runs):
        took = []
        for words in terms:
            took.append(check(program, folder, names, *words).seconds)
            session_path(folder, number).unlink()
        least = [min(pair) for pair in zip(took, least or took)]
    return least


def across_profiles(program, folder, names, runs):
    """Reports how long a check in profile 2 takes over a session of profile 1. Answers the seconds of one in profile 1."""
    check(program, folder, names)
    alike, across = least_checks(program, folder, names, 1, runs, [["--profile", "1"], ["--profile", "2"]])
    print(f"  unchanged: {alike:.3f} s")
    print(f"  over another profile: {across:.3f} s, {across / alike:.2f} times unchanged", flush=True)
    return alike


def sizes_by_form(program, folder, names):
    """Reports the bytes of an unchanged session in both forms. Leaves a chain of a first and an unchanged one in form 2."""
    sizes = []
    for form in ("1", "2"):
        shutil.rmtree(Path(folder, "cache"), ignore_errors=True)
        for _ in range(2):
            check(program, folder, names, "--form", form)
        sizes.append(session_path(folder, 1).stat().st_size)
    one, two = sizes
    print(f"  an unchanged session: {one} bytes in form 1, {two} in form 2, {two / one:.2f} of it", flush=True)


def behind_form_2(program, folder, names, runs, alike):
    """Reports how long an unchanged check takes behind so many sessions of form 2, over the chain that stands there."""
    unchanged = session_path(folder, 1).read_bytes()
    session_path(folder, 1).unlink()
    for count in BEHIND:
        if count > 1:
            session_path(folder, 1).write_bytes(unchanged)
            lengthen(folder, count)
        seconds, = least_checks(program, folder, names, count, runs, [["--form", "2"]])
        print(f"  unchanged behind {count} of form 2: {seconds:.3f} s, {seconds / alike:.2f} times form 1", flush=True)


def by_terms(program, runs):
    print("400 classes with 2,000 methods, by profile and form")
    with tempfile.TemporaryDirectory() as folder:
        names = ordinary(folder)
        alike = across_profiles(program, folder, names, runs)
        sizes_by_form(program, folder, names)
        behind_form_2(program, folder, names, runs, alike)
