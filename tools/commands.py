"""The commands of `xls` and what they take, as crates/xls_words has them in two tables: src/word.rt (rows) and src/grammar.rt (arguments)."""

import os
import re

TOP = os.path.dirname(os.path.dirname(os.path.realpath(__file__)))
SOURCES = f"{TOP}/crates/xls_words/src"
STRING = r'"((?:[^"\\]|\\.)*)"'


def read(name):
    with open(f"{SOURCES}/{name}", encoding="utf-8") as file:
        return file.read()


class Argument:
    """A word or an option that a command takes."""

    def __init__(self, name, kind, help_, without):
        self.name, self.kind, self.help, self.without = name, kind, help_, without

    def is_option(self):
        return self.kind.split("(")[0] in ("Value", "Number", "Flag", "ShortFlag")

    def value(self):
        """What help calls its value, if it has one."""
        found = re.search(rf"Value\({STRING}\)", self.kind)
        return found[1] if found else "N" if self.kind == "Number" else ""

    def short(self):
        found = re.search(r"ShortFlag\('(.)'\)", self.kind)
        return f"-{found[1]}" if found else ""


class Command:
    """A row of the table of commands, with what it takes."""

    def __init__(self, row, arguments):
        self.name, self.about, self.files = row["name"], row["about"], row["files"].split("::")[-1]
        self.ending, self.arguments = row["ending"], arguments

    def takes_many(self):
        return self.files == "Many"

    def options(self):
        return [it for it in self.arguments if it.is_option()]


def fields_of(text):
    """The fields of the text of a struct."""
    found = re.findall(rf"(\w+):\s*({STRING}|[^\",]+(?:\[[^\]]*\])?(?:\([^)]*\))?),\n", text)
    return {name: value[1:-1] if value.startswith('"') else value.strip() for name, value, _ in found}


def arguments():
    """Each argument by the name of its constant."""
    text, found = read("grammar.rt"), {}
    for name, body in re.findall(r"const (\w+): Argument = Argument \{\n(.*?)\n\};", text, re.S):
        fields = fields_of(body + "\n")
        without = re.findall(STRING, (re.search(r"without: &\[(.*?)\]", body, re.S) or ["", ""])[1])
        base = found.get((re.search(r"\.\.(\w+)", body) or ["", ""])[1])
        kind = re.search(r"kind: ArgumentKind::(.*),", body)
        found[name] = Argument(
            fields.get("name") or base.name, kind[1] if kind else base.kind, fields.get("help") or base.help, without
        )
    return found


def lists(by_name):
    """Each list of arguments by the name of its static."""
    text = read("grammar.rt")
    return {
        name: [by_name[it] for it in re.findall(r"\w+", body)]
        for name, body in re.findall(r"static (\w+): \[Argument; \d+\] =\s*\[(.*?)\];", text, re.S)
    }


def commands():
    """The commands in the order of help."""
    text, found = read("word.rt"), lists(arguments())
    of_files = dict(re.findall(r"FileCount::(\w+) => &(\w+),", read("grammar.rt")))
    order = re.search(r"const ALL: \[Word; \d+\] = \[(.*?)\];", text, re.S)[1]
    rows = {}
    for word, body in re.findall(r"Word::([\w:()]+) => Row \{\n(.*?)\n            \},", text, re.S):
        row = fields_of(body + "\n")
        options = re.search(r"options: &(\w+|\[\]),", body)[1]
        command = Command(row, [])
        command.arguments = found[of_files[command.files]] + found.get(options, [])
        rows[word] = command
    return [rows[it] for it in re.findall(r"Word::([\w:()]+),", order)]


def options():
    """Each option by its name, in the order in which help has them, with the commands that take it."""
    taken = {}
    for command in commands():
        for it in command.options():
            taken.setdefault(it.name, (it, []))[1].append(command)
    return list(taken.values())
