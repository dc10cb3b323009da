#!/usr/bin/env python3
"""Tells where the gate's time goes, by crate and by piece, so that a piece that grows is seen.

    checks/gate_times.py --run LOG [COMMAND..]   runs the gate (`rt ci`, or this command), and keeps in LOG what each of its
                                                 processes took; ends with the command's status
    checks/gate_times.py LOG..                   prints such records again; of several, also what grew from the first on

The gate's own output has no times, so the processes below it are looked at each second in /proc. Minutes are those of one
processor, so what else runs on the machine changes them little. Pieces of a crate are its own proof, the proof of its tests,
the state that its wrong bodies (must-fail edits) start from, each wrong body, and the building of its programs.
"""
import collections
import json
import os
import re
import subprocess
import sys
import time

from common import TOP

EVERY = 1.0
TICKS = os.sysconf("SC_CLK_TCK")
PIECES = ["proof", "tests", "start", "wrong body", "programs"]
# The seconds of one processor that a piece may take; a dearer one is marked.
BUDGET = {"proof": 200, "tests": 100, "start": 200, "wrong body": 30, "programs": 60}
# A piece has grown that takes so much more than it did, and more than a noise of some seconds.
GROWN, NOISE = 1.2, 5


def words_of(pid):
    """The command line of a process, or nothing where it has ended."""
    try:
        with open(f"/proc/{pid}/cmdline", "rb") as file:
            return file.read().decode(errors="replace").split("\0")[:-1]
    except OSError:
        return []


def times_of(pid):
    """The parent of a process, and the seconds of a processor that it took so far."""
    try:
        with open(f"/proc/{pid}/stat", encoding="utf-8", errors="replace") as file:
            fields = file.read().rpartition(")")[2].split()
        return int(fields[1]), (int(fields[11]) + int(fields[12])) / TICKS
    except (OSError, IndexError):
        return 0, 0.0


def folder_of(pid):
    """The folder that a process works in."""
    try:
        return os.readlink(f"/proc/{pid}/cwd")
    except OSError:
        return ""


def after(words, flag):
    """The word behind a flag, or an empty one."""
    return words[words.index(flag) + 1] if flag in words[:-1] else ""


def piece_of(words, folder):
    """The crate and the piece of it that a prover, compiler or linker works on, or nothing for another program."""
    program = os.path.basename(words[0]) if words else ""
    if program == "rattle-link":
        return os.path.basename(folder), "programs", ""
    if program != "rattle" or words[1:2] not in (["build"], ["check"]):
        return None
    crate = after(words, "--crate-name")
    if os.path.basename(folder).startswith("rt-edit-"):
        state = os.path.basename(after(words, "--incremental"))
        return (crate, "start", "") if state == "seed" else (crate, "wrong body", edit_name(crate, state))
    if "--test" in words:
        return crate, "tests", ""
    return crate, "programs" if "--crate-checked" in words else "proof", ""


def edit_name(crate, number):
    """The name of the wrong body that stands at a number among those of the crate."""
    folder = os.path.join(TOP, "crates", crate, "must-fail")
    names = sorted(name for name in os.listdir(folder) if name.endswith(".edit")) if os.path.isdir(folder) else []
    return names[int(number)] if number.isdigit() and int(number) < len(names) else "one from nothing"


class Sampler:
    """Looks at the processes below one, and keeps what each took."""

    def __init__(self, top, log):
        self.top, self.log, self.running = top, log, {}

    def look(self):
        """Takes one sample; what has ended since the last one is written to the log."""
        taken = {int(pid): times_of(pid) for pid in os.listdir("/proc") if pid.isdigit()}
        now = time.time()
        seen = {}
        for pid in taken:
            if self.is_below(pid, taken):
                known = self.running.get(pid)
                piece = known["piece"] if known else piece_of(words_of(pid), folder_of(pid))
                if piece:
                    began = known["began"] if known else now
                    seen[pid] = {"piece": piece, "began": began, "ended": now, "seconds": taken[pid][1]}
        for pid in self.running.keys() - seen.keys():
            self.log.write(json.dumps(self.running[pid]) + "\n")
        self.running = seen
        self.log.flush()

    def is_below(self, pid, taken):
        """Whether the process was started by the top one, or by one below it."""
        while pid > 1 and pid != self.top:
            pid = taken.get(pid, (0, 0))[0]
        return pid == self.top


def run(log, command):
    """Runs the gate under the sampler, and gives its status."""
    began = time.time()
    with open(log, "w", encoding="utf-8") as file, subprocess.Popen(command, cwd=TOP) as gate:
        sampler = Sampler(gate.pid, file)
        while gate.poll() is None:
            sampler.look()
            time.sleep(EVERY)
        sampler.look()
        file.write(json.dumps({"whole": time.time() - began, "status": gate.returncode, "command": command}) + "\n")
    return gate.returncode


class Times:
    """What a record tells: the seconds of each piece, and of the whole by the clock."""

    def __init__(self, log):
        self.seconds, self.whole, self.status = collections.Counter(), None, None
        with open(log, encoding="utf-8") as file:
            for line in map(json.loads, file):
                if "whole" in line:
                    self.whole, self.status = line["whole"], line["status"]
                else:
                    self.seconds[tuple(line["piece"])] += line["seconds"]

    def of(self, crate, kind):
        """The seconds of all pieces of one kind in a crate."""
        return sum(taken for (name, piece, _), taken in self.seconds.items() if (name, piece) == (crate, kind))

    def of_crate(self, crate):
        """The seconds of a crate."""
        return sum(taken for (name, _, _), taken in self.seconds.items() if name == crate)

    def crates(self):
        """The crates, the dearest first."""
        return sorted({crate for crate, _, _ in self.seconds}, key=lambda crate: -self.of_crate(crate))

    def edits(self, crate):
        """How many wrong bodies of a crate were tried."""
        return sum((name, piece) == (crate, "wrong body") for name, piece, _ in self.seconds)


def minutes(seconds):
    """Seconds as minutes, and nothing as a dash."""
    return f"{seconds / 60:.1f}" if seconds else "-"


def print_table(times):
    """Prints a row for each crate, and then the pieces above the budget."""
    heads = ["proof", "tests", "start", "wrong bodies", "programs", "in all"]
    print(f"{'minutes of one processor':<26}" + "".join(f"{head:>14}" for head in heads))
    for crate in times.crates():
        taken = [minutes(times.of(crate, kind)) for kind in PIECES]
        taken[3] += f" for {times.edits(crate)}" if times.edits(crate) else ""
        print(f"{crate:<26}" + "".join(f"{text:>14}" for text in [*taken, minutes(times.of_crate(crate))]))
    total = sum(times.seconds.values())
    clock = f", {times.whole / 60:.1f} by the clock, status {times.status}" if times.whole else ", and it hasn't ended"
    print(f"in all {total / 60:.1f} minutes of one processor{clock}")
    for piece, taken in times.seconds.most_common():
        if taken > BUDGET[piece[1]]:
            print(f"above the budget of {BUDGET[piece[1]]} s: {taken:.0f} s for {told(piece)}")


def told(piece):
    """A piece in words."""
    crate, kind, edit = piece
    return f"{crate}: {kind}{' ' + edit if edit else ''}"


def print_growth(first, last):
    """Prints each piece that takes more than it did."""
    for piece, taken in last.seconds.most_common():
        before = first.seconds.get(piece, 0)
        if taken > max(GROWN * before, before + NOISE):
            print(f"grown: {told(piece)}: {before:.0f} s to {taken:.0f} s")


def main(words):
    """Runs and records, or prints records; gives the status."""
    status = 0
    if words[:1] == ["--run"] and len(words) > 1:
        status = run(words[1], words[2:] or ["rt", "ci"])
        words = words[1:2]
    if not words or re.match("-", words[0]):
        raise SystemExit(__doc__)
    records = [Times(log) for log in words]
    for log, times in zip(words, records):
        print(f"== {log}")
        print_table(times)
    for times in records[1:]:
        print_growth(records[0], times)
    return status


if __name__ == "__main__":
    sys.exit(main(sys.argv[1:]))
