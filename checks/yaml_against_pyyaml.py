#!/usr/bin/env python3
"""Compares the reader of YAML with PyYAML on random documents of the part that both read: their structure and their texts.

What is read here is printed again, and PyYAML reads both texts. A file that can't be read is told, too.

`.ci/run` runs this after the gate, which builds the program `yaml_dump`; YAML_DUMP names another one. Where PyYAML isn't
installed, nothing is compared, and under CI=true that fails. Each document comes from a seed, and the first that differs is
printed.
"""
import random
import subprocess
import sys
import tempfile

from common import YAML_DUMP, expect, need_built, passed_over, write

WORDS = ["a", "b c", "x1", "null", "true", "No", "12", "-3", "0x1F", "1.5", "1e3", ".5", "~", "a#b", "a:b", "it's", "é", "日本", "-x", "?y", "a, b", "<", "=", "a\\b"]
# In flow forms PyYAML takes no plain scalar that begins with `?`.
PLAIN_IN_FLOW = [word for word in WORDS if "," not in word and word[0] != "?"]
QUOTED = ["", " ", " a ", "a: b", "# c", "- d", "a\nb", "a\n\nb", "tab\there", "'", '"', "[x]", "{", "}", "%", "@", "`", "null", "\x07", "\u2028", "😀", "a\\nb"]

PRINTED = [text for text in QUOTED if text.isprintable()]


class Writer:
    """A random document, written as text in a random style."""

    def __init__(self, seed):
        self.random = random.Random(seed)

    def some(self, choices):
        return self.random.choice(choices)

    def comment(self):
        return self.some(["", "", "", " # note", "  #"])

    def blank(self):
        return self.some([""] * 6 + ["\n", "# line\n", "  \n", "\n\n"])

    def document(self):
        text = self.some(["", "", "---\n", "# first\n---  # here\n", "\n\n"])
        text += self.block(0, 0)
        return text + self.some(["", "", "...\n", "... # end\n", "\n# last\n"])

    def block(self, column, depth):
        """A node on lines of its own at this indentation, with its line end."""
        kind = self.some(["map", "map", "list", "list", "scalar"]) if depth < 5 else "scalar"
        if kind == "map":
            return self.mapping(column, depth)
        if kind == "list":
            return self.sequence(column, depth)
        return " " * column + self.inline(column - 1) + self.comment() + "\n"

    def mapping(self, column, depth):
        text = ""
        for number in range(self.random.randint(1, 4)):
            text += self.blank() + " " * column + self.key(number) + self.some(["", "", " "]) + ":" + self.value(column, depth)
        return text

    def key(self, number):
        word = self.some(WORDS) + str(number)
        return self.some([word, word, self.single(word), self.double(word)])

    def value(self, column, depth):
        where = self.some(["beside", "beside", "below", "below", "none", "literal"])
        if where == "none":
            return self.comment() + "\n"
        if where == "literal":
            return " " + self.literal(column)
        if where == "beside":
            return self.some([" ", "  "]) + self.inline(column) + self.comment() + "\n"
        if depth < 5 and self.some([True, False, False]):
            return self.comment() + "\n" + self.sequence(column, depth + 1)
        return self.comment() + "\n" + self.block(column + self.random.randint(1, 4), depth + 1)

    def sequence(self, column, depth):
        text = ""
        for _ in range(self.random.randint(1, 4)):
            text += self.blank() + " " * column + "-" + self.item(column, depth)
        return text

    def item(self, column, depth):
        where = self.some(["beside", "beside", "beside", "below", "none", "literal", "compact"])
        if where == "none":
            return self.comment() + "\n"
        if where == "literal":
            return " " + self.literal(column)
        if where == "beside" or depth >= 5:
            return " " + self.inline(column) + self.comment() + "\n"
        if where == "below":
            return self.comment() + "\n" + self.block(column + self.random.randint(1, 4), depth + 1)
        return self.compact(self.random.randint(1, 3), column)

    def compact(self, gap, column):
        """A collection that begins on the dash's line."""
        deeper = column + 1 + gap
        parts = [self.some(["- ", self.key(number) + ": "]) for number in range(self.random.randint(1, 3))]
        same = [part for part in parts if (part == "- ") == (parts[0] == "- ")]
        return " " * gap + (" " * deeper).join(part + self.inline(deeper) + "\n" for part in same)

    def inline(self, parent):
        """A scalar or flow form on a line, whose further lines are deeper than the parent."""
        kind = self.some(["plain", "plain", "plain", "single", "double", "flow", "folded"])
        if kind == "plain":
            return self.some(WORDS)
        if kind == "single":
            return self.single(self.some(PRINTED))
        if kind == "double":
            return self.double(self.some(QUOTED))
        if kind == "folded":
            return self.folded(parent)
        return self.flow(parent, 0)

    def folded(self, parent):
        below = "\n" * self.random.randint(1, 3) + " " * (max(parent, 0) + self.random.randint(1, 3))
        words = [self.some(["one", "two", "three"]) for _ in range(self.random.randint(2, 3))]
        quote = self.some(["", "'", '"'])
        return quote + below.join(words) + quote

    @staticmethod
    def single(text):
        return "'" + text.replace("'", "''") + "'"

    def double(self, text):
        out = ""
        for character in text:
            code = ord(character)
            if character in '"\\':
                out += "\\" + character
            elif character == "\n":
                out += "\\n"
            elif code < 32 or code == 0x2028 or self.random.random() < 0.1:
                out += f"\\x{code:02x}" if code < 256 else (f"\\u{code:04x}" if code < 65536 else f"\\U{code:08x}")
            else:
                out += character
        return '"' + out + '"'

    def gap(self, parent):
        return self.some(["", "", " ", "\n" + " " * (max(parent, 0) + 1), " # in\n" + " " * (max(parent, 0) + 2)])

    def flow(self, parent, depth):
        if depth > 2:
            return self.some(PLAIN_IN_FLOW)
        if self.some([True, False]):
            parts = [self.flow_value(parent, depth) for _ in range(self.random.randint(0, 3))]
            return "[" + self.gap(parent) + (", " + self.gap(parent)).join(parts) + self.gap(parent) + "]"
        parts = []
        for number in range(self.random.randint(0, 3)):
            parts.append(self.some(["k", "key "]).strip() + str(number) + ": " + self.flow_value(parent, depth))
        return "{" + self.gap(parent) + (", " + self.gap(parent)).join(parts) + self.gap(parent) + "}"

    def flow_value(self, parent, depth):
        kind = self.some(["plain", "single", "double", "flow"])
        if kind == "plain":
            return self.some(PLAIN_IN_FLOW)
        if kind == "single":
            return self.single(self.some(["", "a", "it's", "x: y"]))
        if kind == "double":
            return self.double(self.some(QUOTED))
        return self.flow(parent, depth + 1)

    def literal(self, column):
        indent = " " * (column + self.random.randint(1, 4))
        lines = [self.some(["one", "two  three", "# no comment", "- x", "k: v", "  deeper", ""]) for _ in range(self.random.randint(1, 5))]
        lines[0] = self.some(["one", "first: line"])
        text = "".join((indent + line if line else "") + "\n" for line in lines)
        return self.some(["|", ">"]) + self.some(["", "-", "+"]) + self.comment() + "\n" + text


NULLS = ("", "~", "null", "Null", "NULL")
BOOLS = ("true", "True", "TRUE", "false", "False", "FALSE")


def agree(one, other):
    """Whether two documents, which PyYAML made without kinds, are one: mappings in order, lists, and texts.

    Nulls and booleans are printed in one way.
    """
    if isinstance(one, dict) and isinstance(other, dict):
        return list(one) == list(other) and all(agree(one[key], other[key]) for key in one)
    if isinstance(one, list) and isinstance(other, list):
        return len(one) == len(other) and all(agree(a, b) for a, b in zip(one, other))
    if isinstance(one, (dict, list)) or isinstance(other, (dict, list)):
        return False
    one, other = one or "", other or ""
    if one in BOOLS and other in BOOLS:
        return one.lower() == other.lower()
    return one == other or (one in NULLS and other in NULLS)


def compare(yaml, loader, folder, seed):
    """Has both read the document of a seed, and PyYAML what is printed of it; a difference ends the script."""
    text = Writer(seed).document()
    write(folder, "text.yaml", text)
    done = subprocess.run([YAML_DUMP, "text.yaml"], cwd=folder, capture_output=True, check=False)
    printed = done.stdout.decode()
    if done.returncode == 0 and agree(yaml.load(printed, Loader=loader), yaml.load(text, Loader=loader)):
        return
    print(f"--- document {seed}\n{text}\n--- here, status {done.returncode}\n{printed}")
    raise SystemExit(1)


def unread(folder):
    """Without a word, and for what can't be read, the program says so and ends with 1."""
    for words in ([], ["missing.yaml"], ["."]):
        done = subprocess.run([YAML_DUMP, *words], cwd=folder, capture_output=True, check=False)
        told = (done.returncode, done.stdout, done.stderr != b"")
        expect(f"yaml_dump {' '.join(words)}: the status, the output, and whether it says why", told, (1, b"", True))


def main():
    """Compares as many documents as the first word says, else 4,000."""
    need_built(YAML_DUMP)
    with tempfile.TemporaryDirectory() as folder:
        unread(folder)
    try:
        import yaml
    except ImportError:
        passed_over("YAML", "no PyYAML here")
        return
    count = int(sys.argv[1]) if len(sys.argv) > 1 else 4000
    loader = getattr(yaml, "CBaseLoader", yaml.BaseLoader)
    with tempfile.TemporaryDirectory() as folder:
        for seed in range(count):
            compare(yaml, loader, folder, seed)
    print(f"YAML: {count} documents read as PyYAML reads them")


if __name__ == "__main__":
    main()
