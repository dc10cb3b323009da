#!/usr/bin/env python3
"""Has the program read the longest `dvc.lock` and `dvc.yaml` that it takes, and longer ones, and walk over a large workspace.

A text of 64 MiB is read or refused in seconds, whatever it holds; of one byte more the limit is told, and so it is at once of a
file of a terabyte. Then the time and the memory are told that a lock of 60,000 stages takes, and the time of a workspace of 200,000 files
with 1,000 track files. `.ci/run` runs this after the gate; DVC
names another program than the one of this clone, and words name single checks (CHECKS, at the end).
"""
import hashlib
import os
import sys
import tempfile
import time

from common import DVC, MIB, entry, expect, lock, memory, need_built, plant, read, repro, runs, shown, skips, stage, stages, write

LIMIT = 64 * MIB
PASSED = (255, "", f"ERROR: limit {LIMIT} passed\n")
# The seconds that a run may take on a machine with other work to do. Careless readers take hours.
MOST = 60

COPY = stages(stage("copy", "cp in out", ["in"], ["out"]))
COPY_LINES = runs("copy", "cp in out")
COPIED = entry("copy", "cp in out", {"in": b"abc"}, {"out": b"abc"})


def long_lock(count):
    """A lock of so many stages that aren't in `dvc.yaml`."""
    deps, outs = {"data/in": b"input"}, {"models/out": b"output"}
    return lock(entry(f"stage{number}", f"python train.py --seed {number}", deps, outs) for number in range(count))


def padded(text, length=LIMIT):
    """The text with comments behind it, so that it has so many bytes."""
    line = b"#" * 99 + b"\n"
    room = length - len(text)
    return text + line * (room // 100) + b"#" * (room % 100)


def dependencies(count):
    """A `dvc.yaml` of a stage with so many dependencies."""
    deps = "".join(f"    - d{number}\n" for number in range(count))
    return f"stages:\n  many:\n    cmd: 'true'\n    deps:\n{deps}".encode()


def timed(what, tree, wanted):
    """A run in a tree, which answers as is wanted, in some seconds."""
    with tempfile.TemporaryDirectory() as folder:
        plant(folder, tree)
        started = time.monotonic()
        done = repro(folder)
        taken = time.monotonic() - started
        if callable(wanted):
            expect(f"whether {what} is answered as it should be: {shown(done)}", wanted(done), True)
        else:
            expect(what, done, wanted)
        expect(f"whether {what} takes less than {MOST} seconds: {taken:.1f}", taken < MOST, True)
        print(f"big files: {what}: {taken:.1f} s", flush=True)


def longest():
    """Good texts of 64 MiB are read, and those of one byte more are refused."""
    whole = long_lock(LIMIT // 280).encode()
    expect("whether the long lock is below the limit", len(whole) < LIMIT, True)
    good = {"in": b"abc", "out": b"abc", "dvc.yaml": COPY.encode()}
    with_entry = whole + COPIED.encode()
    timed("a lock of 64 MiB, by which all is skipped", {**good, "dvc.lock": padded(with_entry)}, (0, skips("copy"), ""))
    timed("a lock of 64 MiB, and a run", {**good, "dvc.lock": padded(whole)}, (0, COPY_LINES, ""))
    timed("a dvc.yaml of 64 MiB, mostly comments", {**good, "dvc.yaml": padded(COPY.encode())}, (0, COPY_LINES, ""))
    missing = (255, "", "ERROR: stage 'many': missing dependency 'd0'\n")
    timed("a dvc.yaml of 64 MiB, with a million dependencies", {"dvc.yaml": padded(dependencies(1_000_000))}, missing)
    for name, text in (("dvc.lock", padded(with_entry, LIMIT + 1)), ("dvc.yaml", padded(COPY.encode(), LIMIT + 1))):
        timed(f"a {name} of 64 MiB and one byte", {**good, name: text}, PASSED)


def terabyte():
    """Of a file that is far too long only the size is looked at."""
    for name in ("dvc.lock", "dvc.yaml"):
        with tempfile.TemporaryDirectory() as folder:
            plant(folder, {"in": b"abc", "dvc.yaml": COPY, name: b""})
            os.truncate(os.path.join(folder, name), 1 << 40)
            started = time.monotonic()
            expect(f"a {name} of a terabyte", repro(folder), PASSED)
            expect(f"whether a {name} of a terabyte is refused at once", time.monotonic() - started < 5, True)


HOSTILE = {
    "open brackets": lambda: b"[" * LIMIT,
    "brackets as deep as they may be": lambda: b"[" + (b"[" * 63 + b"]" * 63 + b",") * (LIMIT // 127 - 1) + b"]",
    "single quotes": lambda: b"'" * LIMIT,
    "an open double quote": lambda: b'"' + b"a " * (LIMIT // 2 - 1),
    "blank lines": lambda: b"\n" * LIMIT,
    "blank lines in a plain scalar": lambda: b"a" + b"\n" * (LIMIT - 2) + b"b",
    "dashes": lambda: b"- " * (LIMIT // 2),
    "an item a line": lambda: b"- a\n" * (LIMIT // 4),
    "empty items": lambda: b"-\n" * (LIMIT // 2),
    "a key a line": lambda: b"".join(b"k%d:\n" % number for number in range(LIMIT // 11)),
    "a block scalar of blank lines": lambda: b"|+\n a\n" + b"\n" * (LIMIT - 6),
    "backslashes": lambda: b'"' + b"\\" * (LIMIT - 1),
    "question marks in a flow form": lambda: b"[" + b"?," * (LIMIT // 2 - 1),
    "digits": lambda: b"stages: " + b"1" * (LIMIT - 8),
    "one long key": lambda: b"stages:\n  " + b"a" * (LIMIT - 20) + b": 1",
    "bytes of no text": lambda: b"\xff" * LIMIT,
}


def is_answered(done):
    """Whether a run ended well, or with a fault's line and nothing else."""
    status, out, told = done
    return (status, told) == (0, "") or (status, out) == (255, "") and told.startswith("ERROR: ") and told.endswith("\n")


def hostile():
    """Texts that would take a careless reader long, by turns at each of the two files, which one reader reads."""
    for place, (what, made) in enumerate(HOSTILE.items()):
        name, text = ("dvc.lock", "dvc.yaml")[place % 2], made()
        expect(f"whether {what} are at most 64 MiB", len(text) <= LIMIT, True)
        timed(f"64 MiB of {what} at {name}", {"in": b"abc", "dvc.yaml": COPY.encode(), name: text}, is_answered)


def sixty_thousand():
    """What a lock of 60,000 stages takes: of a run that adds an entry, and of a skip."""
    text = long_lock(60_000)
    with tempfile.TemporaryDirectory() as folder:
        plant(folder, {"in": b"abc", "dvc.yaml": COPY, "dvc.lock": text})
        for what in ("a run", "a skip"):
            started = time.monotonic()
            most = memory([DVC, "repro"], folder)
            taken = time.monotonic() - started
            print(
                f"big files: {what} beside a lock of 60,000 stages, {len(text) / MIB:.1f} MiB: {taken:.2f} s, {most / MIB:.0f} MiB of memory, "
                f"{most / len(text):.1f} bytes for each byte of it",
                flush=True,
            )
        expect("the lock of 60,000 stages and one", read(folder, "dvc.lock").decode(), text + COPIED)


def track(content, name):
    """The text of a track file of one file."""
    return f"outs:\n- md5: {hashlib.md5(content).hexdigest()}\n  size: {len(content)}\n  hash: md5\n  path: {name}\n".encode()


def large_workspace():
    """1,000 track files among 200,000 files: each is recorded, or the first that can't be is told."""
    tree = {f"d{number % 200}/f{number}": b"" for number in range(198_000)}
    for number in range(1_000):
        tree[f"d{number % 200}/data{number}"] = f"new {number}".encode()
        tree[f"d{number % 200}/data{number}.dvc"] = track(b"old", f"data{number}")
    with tempfile.TemporaryDirectory() as folder:
        plant(folder, tree)
        for what in ("that are recorded", "with nothing to record"):
            started = time.monotonic()
            expect(f"1,000 track files {what}", repro(folder), (0, "", ""))
            taken = time.monotonic() - started
            print(f"big files: 1,000 track files among 200,000 files, {what}: {taken:.1f} s", flush=True)
            expect(f"whether track files {what} take less than {MOST} seconds: {taken:.1f}", taken < MOST, True)
        for number in (0, 1, 517, 999):
            expect(f"track file {number}", read(folder, f"d{number % 200}/data{number}.dvc"), track(f"new {number}".encode(), f"data{number}"))
        write(folder, "d0/data200.dvc", track(b"old", "../d7/f7/none"))
        write(folder, "d0/data400.dvc", b"outs: [")
        expect("an ill-formed one", repro(folder), (255, "", "ERROR: 'd0/data400.dvc' line 1: syntax\n"))
        os.remove(os.path.join(folder, "d0/data400.dvc"))
        expect("one of nothing", repro(folder), (255, "", "ERROR: missing data 'd7/f7/none'\n"))


CHECKS = [longest, terabyte, hostile, sixty_thousand, large_workspace]


def main():
    """Makes each check, or those that the words name."""
    need_built(DVC)
    for check in CHECKS:
        if not sys.argv[1:] or check.__name__ in sys.argv[1:]:
            check()
    print("big files: all as expected")


if __name__ == "__main__":
    main()
