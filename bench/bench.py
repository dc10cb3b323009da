#!/usr/bin/env python3
"""Times the program beside what one would use otherwise, in the same run, and prints ratios.

    bench/bench.py [ROW..]      all rows, or those that the words name

Each row is run in turns with its yardsticks, and the least of the runs is taken. The program has to be built (`./demo` or
`.ci/run` does); DVC names another one. A yardstick that isn't installed is left out. A command that fails ends the script, and
a row above its limit lets it end with 1.
"""
import functools
import os
import shutil
import sys
import tempfile
from dataclasses import dataclass

HERE = os.path.dirname(os.path.abspath(__file__))
sys.path.insert(0, os.path.join(HERE, "..", "checks"))
from common import DVC, MIB, ROOM, entry, lock, memory, need_built, seconds, stage, stages, write  # noqa: E402

REPRO = [DVC, "repro"]


@dataclass(frozen=True)
class Yardstick:
    """A command that ours is compared with, and the ratio that ours may not go above."""

    words: tuple
    limit: float = float("inf")

    def told(self):
        """The command as it is printed."""
        text = self.words[2] if self.words[:2] == ("sh", "-c") else " ".join(map(os.path.basename, self.words))
        return text if len(text) <= 60 else f"{text[:57]}.."


class Bench:
    """Runs rows, and keeps whether one was above its limit."""

    def __init__(self):
        self.above = []

    def row(self, name, folder, yardsticks=(), runs=5, before=lambda: None, most=float("inf")):
        """Prints our least time, and its ratio to the least time of each yardstick; gives ours."""
        yardsticks = [one for one in yardsticks if shutil.which(one.words[0])]
        least = [float("inf")] * (1 + len(yardsticks))
        for _ in range(runs):
            for place, words in enumerate([REPRO, *(one.words for one in yardsticks)]):
                before()
                least[place] = min(least[place], seconds(list(words), folder))
        print(f"{name}: {least[0] * 1000:.2f} ms{self.judged(name, least[0], most, ' s')}", flush=True)
        for one, taken in zip(yardsticks, least[1:]):
            ratio = least[0] / taken
            judged = self.judged(name, ratio, one.limit, "")
            print(f"    {ratio:.2f} times '{one.told()}' ({taken * 1000:.2f} ms){judged}", flush=True)
        return least[0]

    def judged(self, name, value, limit, unit):
        """What is said of a value's limit, if it has one."""
        if limit == float("inf"):
            return ""
        if value > limit:
            self.above.append(name)
        return f", {'ABOVE' if value > limit else 'within'} the limit of {limit}{unit}"


def remove(folder, names):
    """Removes these files, where they stand."""
    for name in names:
        write(folder, name, None)


def settled(folder, *yardsticks):
    """Runs what the next rows find done."""
    for words in (REPRO, *yardsticks):
        if shutil.which(words[0]):
            seconds(words, folder)


def start_up(bench, folder):
    """The start, where there is nothing to do."""
    write(folder, "Makefile", "all: made\n")
    write(folder, "made", "")
    bench.row("start-up, no dvc.yaml", folder, [Yardstick(("true",)), Yardstick(("make", "-q"))], runs=50)


def fill(folder, name, count):
    """Puts so many MiB of random bytes in a file."""
    with open(os.path.join(folder, name), "wb") as file:
        piece = os.urandom(MIB)
        for _ in range(count):
            file.write(piece)


def large_files(bench, folder):
    """One large file that is named, and one that is copied and named."""
    fill(folder, "big", 256)
    write(folder, "dvc.yaml", stages(stage("copy", "cp big copy", ["big"], ["copy"])))
    again = functools.partial(remove, folder, ["copy", "dvc.lock"])
    by_hand = Yardstick(("sh", "-c", "md5sum big && cp big copy && md5sum copy"))
    yardsticks = [Yardstick(("cp", "big", "copy")), by_hand]
    bench.row("a stage that copies 256 MiB, and names both files", folder, yardsticks, 3, again)
    again()
    fill(folder, "big", 1024)
    write(folder, "small", "small")
    write(folder, "dvc.yaml", stages(stage("copy", "cp small copy", ["big", "small"], ["copy"])))
    settled(folder)
    bench.row("a skip with a dependency of 1 GiB", folder, [Yardstick(("md5sum", "big"), 1.18)], 5)


def many(folder, count):
    """Writes so many stages with a file each, for the program, make and ninja; gives the files."""
    texts, rules, builds = [], [], ["rule copy\n  command = cp $in $out\n"]
    for number in range(count):
        write(folder, f"in{number}", f"input {number}")
        texts.append(stage(f"s{number}", f"cp in{number} out{number}", [f"in{number}"], [f"out{number}"]))
        rules.append(f"out{number}: in{number}\n\tcp in{number} out{number}\n")
        builds.append(f"build out{number}: copy in{number}\n")
    outs = [f"out{number}" for number in range(count)]
    write(folder, "dvc.yaml", stages(*texts))
    write(folder, "Makefile", "all: " + " ".join(outs) + "\n" + "".join(rules))
    write(folder, "build.ninja", "".join(builds))
    return [f"in{number}" for number in range(count)], outs


def runs(bench, folder):
    """Stages that all have to run."""
    _, outs = many(folder, 300)
    yardsticks = [Yardstick(("make",)), Yardstick(("ninja",))]
    again = functools.partial(remove, folder, [*outs, "dvc.lock"])
    bench.row("300 stages with a file each, all run", folder, yardsticks, 3, again)


def skips(bench, folder):
    """Stages that are all skipped."""
    ins, outs = many(folder, 3_000)
    settled(folder, ["ninja"], ["make"])
    yardsticks = [Yardstick(("ninja",)), Yardstick(("md5sum", *ins, *outs)), Yardstick(("make",))]
    bench.row("3,000 stages with a file each, all skipped", folder, yardsticks)


def copies(folder, count, in_chain):
    """Writes so many stages that copy a file and have all run, for the program and ninja; gives the files. The lock is written here, since the
    program prints it anew after each run."""
    texts, builds, entries, files = [], ["rule copy\n  command = cp $in $out\n"], [], {}
    for number in range(count):
        source, made = "in0" if in_chain and not number else f"out{number - 1}" if in_chain else f"in{number}", f"out{number}"
        text = files.setdefault(source, f"input {number}".encode())
        files[made] = text
        texts.append(stage(f"s{number}", f"cp {source} {made}", [source], [made]))
        builds.append(f"build {made}: copy {source}\n")
        entries.append(entry(f"s{number}", f"cp {source} {made}", {source: text}, {made: text}))
    for name, text in files.items():
        write(folder, name, text)
    write(folder, "dvc.yaml", stages(*texts))
    write(folder, "dvc.lock", lock(entries))
    write(folder, "build.ninja", "".join(builds))
    return list(files)


def nothing_to_do(bench, folder):
    """10,000 stages with nothing to do, side by side and in a chain. The first run puts the outputs into the cache."""
    for what, in_chain in (("side by side", False), ("in a chain", True)):
        place = os.path.join(folder, what.replace(" ", "-"))
        os.mkdir(place)
        files = copies(place, 10_000, in_chain)
        settled(place, ["ninja"])
        bench.row(f"10,000 stages {what}, with nothing to do", place, [Yardstick(("ninja",)), Yardstick(("md5sum", *files))], 3)


def grid(side, *keys):
    """A stage that stands for each choice of a matrix of two, and is frozen, so that none has a turn."""
    numbers = ", ".join(map(str, range(side)))
    lines = ["  grid:", "    frozen: true", "    matrix:", f"      a: [{numbers}]", f"      b: [{numbers}]", "    cmd: echo ${item.a} ${item.b} ${key}", *keys]
    return "\n".join(lines) + "\n"


def matrix(bench, folder):
    """Stages that a matrix makes, 100 and 10,000 of them."""
    outs = ["    deps: [in]", "    outs: ['out/${key}']"]
    for what, keys in (("", []), (" with an output each", outs)):
        least = []
        for side in (10, 100):
            write(folder, "dvc.yaml", stages(grid(side, *keys)))
            bench.row(f"{side * side:,} stages of a matrix{what}", folder, [], 3, most=2)
            least.append(memory(REPRO, folder))
        print(f"    {least[1] / MIB:.0f} MiB of memory, {(least[1] - least[0]) / 9_900:.0f} bytes for each stage more", flush=True)


def falling_order(bench, folder):
    """A stage with many dependencies, the last one first."""
    names = [f"d{number:05}" for number in reversed(range(100_000))]
    for name in names:
        write(folder, name, name)
    write(folder, "dvc.yaml", stages(stage("copy", f"cp {names[0]} out", names, ["out"])))
    settled(folder)
    by_hand = Yardstick(("sh", "-c", "ls | grep d[0-9] | xargs md5sum"))
    bench.row("a skip of a stage with 100,000 dependencies in falling order", folder, [by_hand], 2, most=2)


def long_locks(bench, folder):
    """A run beside locks of more and more other entries."""
    write(folder, "dvc.yaml", stages(stage("copy", "cp in out", ["in"], ["out"])))
    write(folder, "in", "input")
    first = None
    for count in (0, 3_000, 10_000, 60_000):
        others = [entry(f"s{number}", "cp in out", {"in": b"input"}, {f"o{number}": b"input"}) for number in range(count)]
        text = lock(others).encode() if others else None
        by_hand = Yardstick(("sh", "-c", "cp dvc.lock copy && sync copy"))
        # Each time the lock lacks the stage, so it runs.
        before = functools.partial(write, folder, "dvc.lock", text)
        taken = bench.row(f"a run beside a lock of {count} entries", folder, [by_hand] if text else [], 5, before)
        first = first or taken
        print(f"    {taken / first:.2f} times the run without a lock", flush=True)


# What is put: how it is made, how its bytes are summed by hand, and how many runs are timed.
PUTS = {
    "a file of 1 GiB": ("head -c 1073741824 /dev/urandom > put", "md5sum put", 3),
    "a folder of 100,000 files": (
        "mkdir put; seq -f %099.0f 100000 | split -d -a 6 -l 1 - put/f", "find put -type f -print0 | xargs -0 md5sum", 1,
    ),
}


def forget(folder):
    """Removes the cache, and what the loop of one pass has put."""
    for name in (".dvc", "one_pass"):
        shutil.rmtree(os.path.join(folder, name), ignore_errors=True)


def put(bench, folder, where, sync):
    """Skips that put what is in no cache. They read it to name it, and again to put it; the loop of one pass reads it once."""
    loop = (sys.executable, "-I", "-S", os.path.join(HERE, "one_pass.py"), *sync, "put", "one_pass")
    for what, (made, summed, times) in PUTS.items():
        with tempfile.TemporaryDirectory(dir=folder) as project:
            write(project, "make", made + "\n")
            write(project, "dvc.yaml", stages(stage("make", "sh make", ["make"], ["put"])))
            settled(project)
            yardsticks = [Yardstick(loop), Yardstick(("sh", "-c", summed))]
            bench.row(f"a skip that puts {what}, {where}", project, yardsticks, times, functools.partial(forget, project))


def puts(bench, folder):
    """A file and a folder that are put on the disk, where each object is synced, and its folder."""
    put(bench, folder, "on the disk, with syncs", ["--sync"])


def puts_in_memory(bench, _):
    """The same on a disk in memory, where a sync costs nothing; the loop makes none."""
    if not ROOM or shutil.disk_usage(ROOM).free < 4096 * MIB:
        print("puts in memory: no disk in memory has 4 GiB free here, so this was left out")
        return
    with tempfile.TemporaryDirectory(dir=ROOM) as folder:
        put(bench, folder, "on a disk in memory, without syncs", [])


ROWS = [start_up, large_files, runs, skips, nothing_to_do, matrix, falling_order, long_locks, puts, puts_in_memory]


def main():
    """Times each row in a folder of its own."""
    need_built(DVC)
    bench = Bench()
    wanted = [row for row in ROWS if not sys.argv[1:] or row.__name__ in sys.argv[1:]]
    for row in wanted:
        with tempfile.TemporaryDirectory() as folder:
            row(bench, folder)
    if bench.above:
        raise SystemExit("above their limits: " + "; ".join(bench.above))


if __name__ == "__main__":
    main()
