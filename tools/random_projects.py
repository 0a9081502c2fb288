"""Random small MiniJava projects and random edits of them, by a seed. tools/schedules and tools/forge use it.

Most of what is written is right, since phrases are made by the types that stand there, and some of it is at fault:
names that aren't declared, types that aren't accepted, cycles of classes, repeated names, files that are no sentence.
If a class overrides a method it returns the same type, a class below it or above it, or any other type.
"""
import copy
import random
import re
from dataclasses import dataclass, field
from pathlib import Path

from session_format import FORMS, PROFILES

PLAIN = ["int", "boolean", "int[]"]
# One phrase in so many is made for another type than the one that is wanted.
WRONG = 150


@dataclass
class Method:
    name: str
    result: str
    formals: list
    body: str = ""


@dataclass
class Class:
    name: str
    extends: str = None
    fields: list = field(default_factory=list)
    methods: list = field(default_factory=list)


@dataclass
class File:
    name: str
    classes: list = field(default_factory=list)
    main: str = None
    before: str = ""
    behind: str = ""


def method_text(method):
    formals = ", ".join(f"{of} {name}" for of, name in method.formals)
    return f"    public {method.result} {method.name}({formals}) {{\n{method.body}    }}\n"


def class_text(of):
    extends = f" extends {of.extends}" if of.extends else ""
    fields = "".join(f"    {kind} {name};\n" for kind, name in of.fields)
    return f"class {of.name}{extends} {{\n{fields}{''.join(map(method_text, of.methods))}}}\n"


def file_text(file):
    main = ""
    if file.main:
        main = ("class Main {\n    public static void main(String[] arguments) {\n"
                f"        System.out.println({file.main});\n    }}\n}}\n")
    return file.before + main + "".join(map(class_text, file.classes)) + file.behind


class Phrases:
    """Makes phrases of one method by the types of the variables that are in scope."""

    def __init__(self, project, of, variables):
        self.project, self.chance, self.of, self.variables = project, project.chance, of, variables

    def of_type(self, kind):
        return [name for other, name in self.variables if other == kind]

    def calls(self, kind):
        """Calls that give this type, as the class and the method."""
        return [(of, method) for of in self.project.classes() for method in of.methods if method.result == kind]

    def call(self, kind, depth):
        of, method = self.chance.choice(self.calls(kind))
        receiver = "this" if of is self.of and self.chance.random() < 0.5 else f"new {of.name}()"
        given = ", ".join(self.expression(other, depth - 1) for other, _ in method.formals)
        return f"{receiver}.{method.name}({given})"

    def plain(self, kind):
        """An expression without parts."""
        names = self.of_type(kind)
        if names and self.chance.random() < 0.6:
            return self.chance.choice(names)
        if kind == "int":
            return str(self.chance.randrange(100))
        if kind == "boolean":
            return self.chance.choice(["true", "false"])
        if kind == "int[]":
            return f"new int[{self.chance.randrange(9)}]"
        return "this" if self.of and kind == self.of.name else f"new {kind}()"

    def expression(self, kind, depth=3):
        chance = self.chance
        if chance.randrange(WRONG) == 0:
            kind = chance.choice(self.project.types())
        if depth <= 0 or chance.random() < 0.3:
            return self.plain(kind)
        if self.calls(kind) and chance.random() < 0.4:
            return self.call(kind, depth)
        inner = lambda other: self.expression(other, depth - 1)  # noqa: E731
        if kind == "int":
            return chance.choice([
                lambda: f"({inner('int')} {chance.choice('+-*')} {inner('int')})",
                lambda: f"({inner('int[]')})[{inner('int')}]",
                lambda: f"({inner('int[]')}).length"])()
        if kind == "boolean":
            return chance.choice([
                lambda: f"({inner('int')} < {inner('int')})",
                lambda: f"({inner('boolean')} && {inner('boolean')})",
                lambda: f"!{inner('boolean')}"])()
        return self.plain(kind)

    def statement(self, depth=2):
        chance = self.chance
        kind = chance.choice(["print", "assign", "assign", "store", "if", "while", "block"])
        if kind == "assign" and self.variables:
            of, name = chance.choice(self.variables)
            return f"{name} = {self.expression(of)};"
        if kind == "store" and self.of_type("int[]"):
            return f"{chance.choice(self.of_type('int[]'))}[{self.expression('int')}] = {self.expression('int')};"
        if depth > 0 and kind == "if":
            return f"if ({self.expression('boolean')}) {self.statement(depth - 1)} else {self.statement(depth - 1)}"
        if depth > 0 and kind == "while":
            return f"while ({self.expression('boolean')}) {self.statement(depth - 1)}"
        if depth > 0 and kind == "block":
            return f"{{ {self.statement(depth - 1)} {self.statement(depth - 1)} }}"
        return f"System.out.println({self.expression('int')});"


def random_terms(chance):
    """The arguments of a command for a random profile, and those for a random form."""
    return ["--profile", str(chance.choice(PROFILES))], ["--form", str(chance.choice(FORMS))]


class Project:
    """A project that is edited at random. The same seed gives the same texts and edits."""

    def __init__(self, seed, most_classes=6):
        self.chance, self.made = random.Random(seed), 0
        self.files = [File("Main.java", main="1")] + \
            [File(f"Part{number}.java") for number in range(self.chance.randint(0, 2))]
        for _ in range(self.chance.randint(1, most_classes)):
            self.add_class()
        for of in self.classes():
            for _ in range(self.chance.randint(0, 3)):
                self.add_method(of)
            self.add_override(of)
        self.fill_main()
        self.versions = []

    def classes(self):
        return [of for file in self.files for of in file.classes]

    def types(self):
        return PLAIN + [of.name for of in self.classes()]

    def new_name(self, letter):
        """A name that is new, or now and then one that may be there."""
        self.made += 1
        return f"{letter}{self.chance.randrange(3) if self.chance.random() < 0.15 else self.made}"

    def add_class(self):
        names = [of.name for of in self.classes()]
        extends = self.chance.choice(names) if names and self.chance.random() < 0.7 else None
        of = Class(self.new_name("C"), extends)
        self.chance.choice(self.files).classes.append(of)
        for _ in range(self.chance.randint(0, 3)):
            of.fields.append((self.chance.choice(self.types()), self.new_name("f")))

    def formals(self):
        return [(self.chance.choice(self.types()), f"p{place}") for place in range(self.chance.randint(0, 2))]

    def add_method(self, of, method=None):
        """Adds this method to a class, or a new one."""
        method = method or Method(self.new_name("m"), self.chance.choice(self.types()), self.formals())
        self.fill(of, method)
        of.methods.append(method)

    def above(self, name):
        """The classes whose members the class of this name has besides its own, the nearest first."""
        declared, found = {of.name: of for of in reversed(self.classes())}, []
        while name in declared:
            found.append(declared.pop(name))
            name = found[-1].extends
        return found[1:]

    def related(self, kind):
        """A type to return if this one is returned above: a class below it, itself or a class above it, or any type."""
        if self.chance.random() < 0.1:
            return self.chance.choice(self.types())
        below = [of.name for of in self.classes() if kind in [above.name for above in self.above(of.name)]]
        return self.chance.choice([kind, *below, *below, *(of.name for of in self.above(kind))])

    def overridden(self, of, above):
        """A method of a class above which the class doesn't have itself, or as often a new one, which returns the class
        above or any other type."""
        names = {method.name for method in of.methods}
        there = [method for method in above.methods if method.name not in names]
        if there and self.chance.random() < 0.5:
            return self.chance.choice(there)
        self.add_method(above, Method(self.new_name("m"), self.chance.choice([above.name, *self.types()]), self.formals()))
        return above.methods[-1]

    def add_override(self, of):
        """Adds a method that overrides one of a class above, if there is a class, most often of the same parameters."""
        for above in self.one(self.above(of.name)):
            found = self.overridden(of, above)
            formals = list(found.formals) if self.chance.random() < 0.9 else self.formals()
            self.add_method(of, Method(found.name, self.related(found.result), formals))

    def fill(self, of, method):
        """Writes a body into the method."""
        local = [(self.chance.choice(self.types()), f"v{place}") for place in range(self.chance.randint(0, 2))]
        phrases = Phrases(self, of, of.fields + method.formals + local)
        lines = [f"{kind} {name};" for kind, name in local]
        lines += [phrases.statement() for _ in range(self.chance.randint(0, 3))]
        lines.append(f"return {phrases.expression(method.result)};")
        method.body = "".join(f"        {line}\n" for line in lines)

    def fill_main(self):
        self.files[0].main = Phrases(self, None, []).expression("int")

    def one(self, of):
        """A list of one of these, or of none if there is none."""
        return self.chance.sample(of, min(1, len(of)))

    def methods(self):
        return [(of, method) for of in self.classes() for method in of.methods]

    def texts(self):
        """The names of the files and their texts, in order."""
        return [(file.name, file_text(file)) for file in self.files]

    def write(self, folder):
        """Writes the files into this folder, in place of those that were there. Returns their names, in order."""
        for old in Path(folder).glob("*.java"):
            old.unlink()
        texts = self.texts()
        for name, text in texts:
            (Path(folder) / name).write_text(text)
        return [name for name, _ in texts]

    # Edits. One that finds nothing to be edited does nothing.

    def edit_literal(self):
        for _, method in self.one(self.methods()):
            method.body = re.sub(r"\b\d+\b", str(self.chance.randrange(100)), method.body, count=1)

    def edit_body(self):
        for of, method in self.one(self.methods()):
            self.fill(of, method)

    def edit_types(self):
        for _, method in self.one(self.methods()):
            method.result = self.chance.choice([self.related(method.result), *self.types()])

    def edit_override(self):
        for of in self.one(self.classes()):
            self.add_override(of)

    def edit_method(self):
        for of in self.one(self.classes()):
            if of.methods and self.chance.random() < 0.4:
                of.methods.pop(self.chance.randrange(len(of.methods)))
            else:
                self.add_method(of)

    def edit_field(self):
        for of in self.one(self.classes()):
            if of.fields and self.chance.random() < 0.4:
                of.fields.pop(self.chance.randrange(len(of.fields)))
            else:
                of.fields.append((self.chance.choice(self.types()), self.new_name("f")))

    def edit_superclass(self):
        for of in self.one(self.classes()):
            of.extends = self.chance.choice([None, "Nowhere"] + [other.name for other in self.classes()])

    def edit_classes(self):
        file = self.chance.choice(self.files)
        if file.classes and self.chance.random() < 0.5:
            moved = file.classes.pop(self.chance.randrange(len(file.classes)))
            if self.chance.random() < 0.6:
                self.chance.choice(self.files).classes.append(moved)
        else:
            self.add_class()

    def edit_files(self):
        if len(self.files) > 1 and self.chance.random() < 0.5:
            rest = self.files[1:]
            self.chance.shuffle(rest)
            self.files[1:] = rest[self.chance.randrange(2):]
        else:
            self.files.append(File(self.new_name("New") + ".java"))
            if len({file.name for file in self.files}) < len(self.files):
                self.files.pop()

    def edit_comment(self):
        file = self.chance.choice(self.files)
        file.before = self.chance.choice(["", "// one\n", "/* two /* lines */\n*/ ", "\n\n"])

    def edit_sentence(self):
        file = self.chance.choice(self.files)
        file.behind = self.chance.choice(["", "", "class {\n", "/*", "}\n"])

    def edit(self):
        """Makes one to three edits, or none, or goes back to a version that was there."""
        self.versions.append(copy.deepcopy(self.files))
        turn = self.chance.random()
        if turn < 0.15:
            self.files = copy.deepcopy(self.chance.choice(self.versions))
        elif turn > 0.25:
            for _ in range(self.chance.choice([1, 1, 2, 3])):
                self.chance.choice([self.edit_literal, self.edit_body, self.edit_types, self.edit_override,
                                    self.edit_method, self.edit_field, self.edit_superclass, self.edit_classes,
                                    self.edit_files, self.edit_comment, self.edit_sentence, self.fill_main])()
