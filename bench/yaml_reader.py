#!/usr/bin/env python3
"""Times the reader and the printer of YAML, by the program `yaml_dump`, and tells its memory.

`yaml_dump` reads a text and prints it again; it has to be built (`.ci/run` does); YAML_DUMP names another one. A lock of many
stages is read beside PyYAML's C loader, in the same run; hostile texts are read at a quarter and at their whole length, so that
the times tell whether they grow with the length alone. A run that ends neither well nor with the text's fault ends the script.
"""
import os
import sys
import tempfile

sys.path.insert(0, os.path.join(os.path.dirname(os.path.abspath(__file__)), "..", "checks"))
from common import MIB, YAML_DUMP, entry, lock, memory, need_built, seconds, write  # noqa: E402

LOAD = "import sys, yaml; yaml.load(open(sys.argv[1], 'rb').read(), Loader=yaml.CSafeLoader)"
# What `yaml_dump` ends with: a text that has a node, and one that has a fault.
READ, REFUSED = 0, 2

HOSTILE = {
    "open brackets": lambda length: b"[" * length,
    "single quotes": lambda length: b"'" * length,
    "an open double quote": lambda length: b'"' + b"a " * (length // 2),
    "blank lines": lambda length: b"\n" * length,
    "blank lines in a plain scalar": lambda length: b"a" + b"\n" * (length - 2) + b"b",
    "comments": lambda length: b"#\n" * (length // 2),
    "dashes": lambda length: b"- " * (length // 2),
    "spaces": lambda length: b" " * length,
    "an item a line": lambda length: b"- a\n" * (length // 4),
    "empty items": lambda length: b"-\n" * (length // 2),
    "a block scalar of blank lines": lambda length: b"|+\n a\n" + b"\n" * length,
    "backslashes": lambda length: b'"' + b"\\" * length,
    "question marks in a flow form": lambda length: b"[" + b"?," * (length // 2),
}


def long_lock(count):
    """A lock of so many stages."""
    deps, outs = {"data/in": b"input"}, {"models/out": b"output"}
    return lock(entry(f"stage{number}", f"python train.py --seed {number}", deps, outs) for number in range(count)).encode()


def locks(words, folder):
    """A long lock, beside PyYAML's C loader."""
    text = long_lock(60_000)
    write(folder, "text.yaml", text)
    ours = min(seconds(words, folder) for _ in range(3))
    used = memory(words, folder) / len(text)
    print(f"a lock of 60,000 stages, {len(text) / MIB:.1f} MiB: {ours:.2f} s, {used:.1f} bytes of memory a byte")
    try:
        from yaml import CSafeLoader  # noqa: F401
    except ImportError:
        print("    no PyYAML with a C loader here")
        return
    theirs = seconds([sys.executable, "-c", LOAD, "text.yaml"], folder)
    print(f"    PyYAML's C loader takes {theirs:.2f} s, {theirs / ours:.0f} times as long")


def mappings(words, folder):
    """Mappings of many keys, whose time should grow as their length does."""
    for count in (15_000, 60_000):
        write(folder, "text.yaml", "".join(f"key{number}: {number}\n" for number in range(count)))
        print(f"a mapping of {count} keys: {min(seconds(words, folder) for _ in range(3)):.3f} s")


def hostile(words, folder):
    """Texts that would take a careless reader long."""
    for name, text in HOSTILE.items():
        times = []
        for length in (16 * MIB, 64 * MIB):
            write(folder, "text.yaml", text(length))
            times.append(seconds(words, folder, (READ, REFUSED)))
        print(f"{name}: 16 MiB {times[0]:.2f} s, 64 MiB {times[1]:.2f} s")


def main():
    """Times the lock, the mappings and the hostile texts."""
    need_built(YAML_DUMP)
    with tempfile.TemporaryDirectory() as folder:
        for rows in (locks, mappings, hostile):
            rows([YAML_DUMP, "text.yaml"], folder)


if __name__ == "__main__":
    main()
