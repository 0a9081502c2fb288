"""Writes MiniJava projects that javac takes too, and edits their files."""
import random
import re
from pathlib import Path

TYPES = ["int", "boolean", "int[]"]
MAIN = """class Main {
    public static void main(String[] arguments) {
        System.out.println(1);
    }
}
"""
# A literal that an edit of a body changes, and the head of a class that isn't the main one.
A_LITERAL = re.compile(r"\bsum = \d+;")
A_CLASS = re.compile(r"class \w+(?: extends \w+)? \{(?!\s*public static void)")


def class_name(number):
    return f"Class{number:05d}"


def field_lines(number, count, chance):
    names = [class_name(other) for other in range(max(0, number - 40), number + 1)]
    lines = [f"    {chance.choice(TYPES + names)} field{index};\n" for index in range(count)]
    # one field whose type this class's methods count on
    return lines + [f"    int own{number};\n"]


def method_lines(number, index):
    """A method of some 1,700 bytes in which every kind of statement and expression stands."""
    lines = [
        f"    public int method{number}_{index}(int first, boolean second, int[] third) {{\n",
        "        int sum;\n        int place;\n        int[] row;\n",
        f"        {class_name(number)} other;\n",
        f"        other = new {class_name(number)}();\n",
        f"        row = new int[first + {index + 3}];\n        sum = 0;\n        place = 0;\n",
    ]
    for turn in range(6):
        lines += [
            "        while (place < row.length && !second) {\n",
            f"            row[place] = (sum + {turn}) * (first - third[place]);\n",
            f"            if (row[place] < own{number}) sum = sum + row[place]; else sum = sum - {turn};\n",
            "            place = place + 1;\n        }\n",
        ]
    lines += [
        f"        sum = sum + other.method{number}_{index}(place, this.first{number}(second), row);\n",
        "        System.out.println(sum);\n        return sum;\n    }\n",
    ]
    return lines


def class_text(number, fields, methods, chance):
    extends = f" extends {class_name(number - 1)}" if number % 4 else ""
    lines = [f"class {class_name(number)}{extends} {{\n"] + field_lines(number, fields, chance)
    if methods:
        lines.append(f"    public boolean first{number}(boolean given) {{ return given && true; }}\n")
    for index in range(methods):
        lines += method_lines(number, index)
    return "".join(lines) + "}\n"


def written(folder, texts):
    """Writes files by their names. Answers the names, in order."""
    Path(folder).mkdir(parents=True, exist_ok=True)
    for name, text in texts.items():
        Path(folder, name).write_text(text)
    return list(texts)


def write_project(folder, classes, fields, methods, in_one_file=40):
    """Writes the project into the folder. Answers the names of its files, in order."""
    chance = random.Random(classes)
    texts = [class_text(number, fields, methods, chance) for number in range(classes)]
    parts = {f"Part{start // in_one_file:04d}.java": "".join(texts[start:start + in_one_file])
             for start in range(0, classes, in_one_file)}
    return written(folder, {"Main.java": MAIN, **parts})


def edit_body(text, number):
    """A literal of one method is another one."""
    return A_LITERAL.sub(f"sum = {number};", text, count=1)


def add_field(text, number):
    """A class has one field more."""
    return A_CLASS.sub(lambda head: f"{head[0]} boolean added{number};", text, count=1)


EDITS = {
    "unchanged": lambda text, number: text,
    "a body edited": edit_body,
    "a field added": add_field,
}


def edit_file(folder, name, edit, number):
    """Edits a file. Answers the text that it had."""
    path = Path(folder, name)
    text = path.read_text()
    path.write_text(edit(text, number))
    return text
