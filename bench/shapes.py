"""Writes the projects on which checks are timed: an ordinary one, many files, one great body, and a chain of classes."""
from projects import write_project, written

MAIN = "class M { public static void main(String[] a) { System.out.println(1); } }\n"


def ordinary(folder):
    """400 classes with 2,000 methods of some 1,700 bytes, in 10 files."""
    return write_project(folder, 400, 4, 5)


def many_files(folder):
    """4,096 files, of which one has the main class and each other one a class."""
    texts = {"M.java": MAIN}
    texts.update((f"C{i:04}.java", f"class C{i:04} {{ int sum; public int f() {{ sum = 1; return sum; }} }}\n") for i in range(4095))
    return written(folder, texts)


def great_body(folder, classes=8000):
    """One method that makes an object of each of so many classes, all in one file."""
    calls = "".join(f"System.out.println(new C{i}().g()); " for i in range(classes))
    text = MAIN + f"class B {{ public int f() {{ int sum; sum = 1; {calls}return sum; }} }}\n"
    text += "".join(f"class C{i} {{ public int g() {{ return {i}; }} }}\n" for i in range(classes))
    return written(folder, {"M.java": text})


def chain(folder, classes=400, rising=True):
    """A chain of classes with a field and a method each. Either each class extends the one of the next lower name, or
    the one of the next higher."""
    def name(number):
        return f"C{number if rising else classes - number:05}"

    text = MAIN
    for number in range(classes):
        extends = f" extends {name(number - 1)}" if number else ""
        called = f"m{max(number - 1, 0)}"
        text += (f"class {name(number)}{extends} {{ int f{number}; int sum; "
                 f"public int m{number}(int x) {{ sum = 1; return this.{called}(x) + f{number}; }} }}\n")
    return written(folder, {"M.java": text})


# A name, how to write the project, and the file of which a body and then a class is edited.
SHAPES = {
    "400 classes with 2,000 methods": ordinary,
    "4,096 files of one class": many_files,
    "a body with 8,000 classes": great_body,
    "a chain of 400 classes, names rising": lambda folder: chain(folder, rising=True),
    "a chain of 400 classes, names falling": lambda folder: chain(folder, rising=False),
}
