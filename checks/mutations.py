#!/usr/bin/env python3
"""Spoils texts of `dvc.yaml`, `dvc.lock` and track files in 10,000 ways, and has the program read each.

A text is cut, spliced with another one, or has bytes, words and lines changed. Each run has to end by itself, well or with a
line that tells a fault. Where what was read is refused, nothing is touched; where a lock was read, the outputs are as they are
to be, and the next run skips all. `record_table` has to read back what it prints of each lock and track file that it reads.
Commands are spoilt too: where the superuser starts this, they run as another user.

Each text comes from its number, so the same texts are tried each time. `.ci/run` runs this after the gate; DVC and RECORD_TABLE
name other programs than those of this clone. The words are the numbers of single texts, which are then printed, and the last
line counts what came.
"""
import collections
import concurrent.futures
import functools
import os
import random
import re
import signal
import subprocess
import sys
import tempfile
import time

from common import DVC, RECORD_TABLE, ROOM, another_user, expect, need_built, passed_over, plant, planted, reached, shown, write
from texts import DONE, GRAPH, LOCKS, PUBLISHED, SKIP, SORTED, SPELLINGS, table

COUNT = 10_000
# How many texts one process tries in a row.
PIECE = 100
# A run is some milliseconds; so long, it hangs.
LONGEST = 60

LOCK_TEXTS = [text.encode() for text in LOCKS.values()] + [text for head, text in table("record_table") if head.startswith(b"lock")]
TRACK_TEXTS = [text for head, text in table("record_table") if head.startswith(b"track")]
YAML_TEXTS = [text.encode() for text in SPELLINGS.values()] + [text for head, text in table("stage_table")]
ALL_TEXTS = [text for text in LOCK_TEXTS + TRACK_TEXTS + YAML_TEXTS if text]
# The file at which a text is put, and those that it is made of. A track file isn't read by `dvc` yet, and no lock.
KINDS = [("dvc.yaml", YAML_TEXTS), ("dvc.lock", LOCK_TEXTS)] * 3 + [("dvc.lock", TRACK_TEXTS)]

# Keys and values that mean something to a reader of these texts, or that it doesn't take.
WORDS = (
    b"cmd deps outs params wdir metrics plots frozen always_changed vars foreach do matrix desc meta path hash md5 size nfiles cache "
    b"persist push remote schema stages isexec null [] {} 1 -1 0x10 1e3 1.5 true false 'x' \"y\" words sorted notes published . .. ../out "
    b"data/in sorted/in .dvc params.yaml s3://in ${a} [words] {a: b} 18446744073709551616 2.0 '' 900150983cd24fb0d6963f7d28e17f72.dir"
).split(b" ")
# Bytes that mean something in YAML, or that no text may have.
TELLING = b"\n\r\t :-'\"[]{}#&*!|>%@`,?~\\=<0129eE+./x\x00\x7f\xff\xc3\xe2"


def cut(chance, text):
    """A front of the text, or an end."""
    at = chance.randrange(len(text) + 1)
    return text[:at] if chance.random() < 0.7 else text[at:]


def spliced(chance, text):
    """The text with a piece of another one in the place of one of its own."""
    other = chance.choice(ALL_TEXTS)
    start, end = sorted(chance.randrange(len(other) + 1) for _ in range(2))
    first, last = sorted(chance.randrange(len(text) + 1) for _ in range(2))
    return text[:first] + other[start:end] + text[last if chance.random() < 0.5 else first:]


def doubled(chance, text):
    """The text with a piece twice, or without it."""
    first, last = sorted(chance.randrange(len(text) + 1) for _ in range(2))
    return text[:last] + text[first:] if chance.random() < 0.5 else text[:first] + text[last:]


def with_bytes(chance, text):
    """The text with some bytes changed, put in or taken out."""
    spoilt = bytearray(text)
    for _ in range(chance.randint(1, 3)):
        at = chance.randrange(len(spoilt) + 1)
        byte = chance.choice(TELLING) if chance.random() < 0.8 else chance.randrange(256)
        spoilt[at:at + chance.randrange(2)] = bytes([byte]) if chance.random() < 0.8 else b""
    return bytes(spoilt)


def with_words(chance, text):
    """The text with another word in the place of one, or with a character of one changed."""
    words = list(re.finditer(rb"[^\s:,\[\]{}'\"#-][^\s:,\[\]{}'\"#]*", text))
    if not words:
        return text
    start, end = chance.choice(words).span()
    if chance.random() < 0.7:
        return text[:start] + chance.choice(WORDS) + text[end:]
    at = chance.randrange(start, end)
    return text[:at] + chance.choice([b"0", b"a", b"A", b"_", b"/", b"."]) + text[at + 1:]


def with_lines(chance, text):
    """The text with two lines swapped, one twice, one taken out, or one at another indentation."""
    lines = text.splitlines(keepends=True)
    one, other = chance.randrange(len(lines)), chance.randrange(len(lines))
    how = chance.randrange(4)
    if how == 0:
        lines[one], lines[other] = lines[other], lines[one]
    elif how == 1:
        lines.insert(other, lines[one])
    elif how == 2:
        del lines[one]
    else:
        lines[one] = b" " * chance.randrange(9) + lines[one].lstrip(b" ")
    return b"".join(lines)


WAYS = [cut, spliced, doubled, with_bytes, with_bytes, with_lines, with_lines] + [with_words] * 7


def spoilt_text(number):
    """The file of a number, and its text."""
    chance = random.Random(number)
    name, texts = KINDS[number % len(KINDS)]
    text = chance.choice([text for text in texts if text])
    for _ in range(chance.choice([1, 1, 1, 2, 3])):
        text = chance.choice(WAYS)(chance, text) or b"\n"
    return name, text


# A file of variables may be any file of the project.
REFUSALS = {
    "no YAML": r"'.*' line \d+: (syntax|duplicate key|too deep|number too wide)",
    "a bad value": r"'.*': bad value at '.*'",
    "left out": r"'dvc\.(yaml|lock)': '.*' is not supported",
    "an older format": r"'dvc\.lock' has an older format",
    "no path": r"'.*' is not a path of the workspace",
    "no graph": GRAPH,
    "no variable": r"no variable '.*'|'.*' is not a scalar",
    "no file": r"'.*' is missing|'.*' has no key '.*'",
}
# A fault of a turn, before which commands may have run.
TURNS = r"stage '.*'(: missing (dependency|output) '.*'| failed with -?\d+)|'.*' is not a folder|a file or program call failed"


def kind_of(status, told):
    """What kind of answer it is, by the last line of the error output, behind what commands have put there; or none."""
    fault = re.search(r"^ERROR: (.*)\n\Z", told, re.M | re.S)
    if status != 255 or not fault:
        return "well" if (status, fault) == (0, None) else None
    for kind, words in REFUSALS.items():
        if fault.start() == 0 and re.fullmatch(words, fault[1], re.S):
            return kind
    return "in a turn" if re.search(rf"^ERROR: ({TURNS})\n\Z", told, re.M | re.S) else None


def run(program, folder, user):
    """Runs the program, and gives its status, and what it put on its two outputs. One that hangs is ended with all that it began."""
    how = {"stdin": subprocess.DEVNULL, "stdout": subprocess.PIPE, "stderr": subprocess.PIPE, "start_new_session": True}
    place = {"PATH": "/usr/bin:/bin", "HOME": folder}
    with subprocess.Popen([program, "repro"], cwd=folder, env=place, **how, **user) as going:
        try:
            out, told = going.communicate(timeout=LONGEST)
        except subprocess.TimeoutExpired:
            os.killpg(going.pid, signal.SIGKILL)
            raise SystemExit(f"the program was still running after {LONGEST} seconds") from None
    return going.returncode, out.decode(errors="replace"), told.decode(errors="replace")


def project(user, folder, name, text):
    """A project in which the text stands at a name, and which belongs to the user."""
    tree = {**DONE, "dvc.lock": LOCKS["as it is written"].encode(), name: text}
    plant(folder, tree)
    if user:
        for path in (".", *tree):
            os.chown(os.path.join(folder, path), user["user"], user["group"])


def tried(program, user, number):
    """Has the program read the text of a number, and gives the file and the kind of the answer."""
    name, text = spoilt_text(number)
    what = f"text {number}, put at {name}"
    with tempfile.TemporaryDirectory(dir=ROOM) as folder:
        project(user, folder, name, text)
        before = planted(folder)
        status, out, told = run(program, folder, user)
        kind = kind_of(status, told)
        if kind is None or (name, kind) == ("dvc.lock", "in a turn"):
            raise SystemExit(f"{what}: the status {status} and {shown(told)}; the text is {shown(text)}")
        if kind in REFUSALS:
            expect(f"what is left after {what}", (out, planted(folder)), ("", before))
        if (name, kind) == ("dvc.lock", "well"):
            left = planted(folder)
            expect(f"what {what} lets be told", told, "")
            expect(f"the outputs after {what}", (left["sorted"], left["published"]), (SORTED, PUBLISHED))
            expect(f"the run after {what}", run(program, folder, user), (0, SKIP, ""))
    return name, kind


def read_back(numbers):
    """Has `record_table` read the locks and track files of some numbers: what it prints is read back as the same."""
    with tempfile.TemporaryDirectory() as folder:
        texts = [spoilt_text(number)[1] for number in numbers if KINDS[number % len(KINDS)][0] == "dvc.lock"]
        write(folder, "table", b"".join(head + text + b"\n" for text in texts for head in (b"= lock\n", b"= track\n", b"= entry\n")))
        done = subprocess.run([RECORD_TABLE, "table"], cwd=folder, capture_output=True, check=False, timeout=LONGEST)
    expect(f"record_table, of the texts from {numbers[0]} on", (done.returncode, done.stderr), (0, b""))
    printed, same = (len(re.findall(words, done.stdout, re.M)) for words in (rb"^=> printed ", rb"^=> read back as the same$"))
    expect(f"how often record_table reads back what it prints, of the texts from {numbers[0]} on", same, printed)
    return printed


def piece(user, numbers):
    """Tries the texts of some numbers; gives how often which kind of answer came, and how many records were read back."""
    with tempfile.TemporaryDirectory() as room:
        os.chmod(room, 0o755)
        program = reached(room)
        counts = collections.Counter(tried(program, user, number) for number in numbers)
    return counts, read_back(numbers)


def single(user, number):
    """Tries the text of a number, and prints it."""
    name, text = spoilt_text(number)
    print(f"text {number}, put at {name}:\n{text.decode(errors='backslashreplace')}")
    print(f"text {number}: {piece(user, [number])}")


def main():
    """Tries all texts, or those whose numbers the words are."""
    need_built(DVC)
    need_built(RECORD_TABLE)
    user = another_user()
    if user is None:
        passed_over("mutations", "the superuser can't become another user here, and spoilt commands aren't run as this one")
        return
    for word in sys.argv[1:]:
        single(user, int(word))
    if sys.argv[1:]:
        return
    started, counts, records = time.monotonic(), collections.Counter(), 0
    pieces = [range(first, first + PIECE) for first in range(0, COUNT, PIECE)]
    with concurrent.futures.ProcessPoolExecutor(len(os.sched_getaffinity(0))) as pool:
        for some, printed in pool.map(functools.partial(piece, user), pieces):
            counts += some
            records += printed
    for (name, kind), count in sorted(counts.items()):
        print(f"mutations: {name}: {kind}: {count}")
    expect("how many texts were tried", sum(counts.values()), COUNT)
    print(f"mutations: {COUNT} texts in {time.monotonic() - started:.0f} s, {records} records read back: all as expected")


if __name__ == "__main__":
    main()
