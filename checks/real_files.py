#!/usr/bin/env python3
"""Tries the program over real files, as a user meets it: what it chooses after edits, what it refuses, how it ends.

Command lines, streams that are closed or full, want of memory, files that may not be touched, a lock that can't be written, a
full disk, two runs at once, and a stop at each system call. `.ci/run` runs this after the gate; DVC names another program
than the one of this clone, and words name single checks (CHECKS, at the end). The first failure ends the script with a line
that says what was expected.
"""
import collections
import contextlib
import itertools
import os
import pty
import re
import resource
import signal
import stat
import subprocess
import sys
import tempfile
import termios
import time

from common import (
    DVC, MIB, another_user, entry, expect, has_tool, lock, name_of, need_built, object_path, objects, passed_over, path_entry, plant,
    planted, reached, read, repro, runs, shown, skips, stage, stages, stopping, strace, system_calls, with_folders, write,
)

FIRST = stage("first", "cp in mid", ["in"], ["mid"])
TWO = stages(FIRST, stage("last", "cp mid out", ["mid", "in"], ["out"]))
OTHER = stages(FIRST, stage("last", "cp in out", ["mid", "in"], ["out"]))
COPY = stages(stage("copy", "cp in out", ["in"], ["out"]))
COPY_LINES = runs("copy", "cp in out")
BOTH = runs("first", "cp in mid") + runs("last", "cp mid out")
NEITHER = skips("first") + skips("last")
LAST = skips("first") + runs("last", "cp in out")

# An edit (no text removes the file), and what the next run prints.
STEPS = [
    ("dvc.yaml", TWO, BOTH),
    ("in", "abc", NEITHER),
    ("in", "abd", BOTH),
    ("dvc.yaml", OTHER, LAST),
    ("out", "x", LAST),
    ("mid", "x", runs("first", "cp in mid") + skips("last")),
    ("out", None, LAST),
    ("dvc.lock", None, runs("first", "cp in mid") + runs("last", "cp in out")),
    ("in", "abd", NEITHER),
]

CALL_FAILED = "ERROR: a file or program call failed\n"
OUT_FAILED = "ERROR: the output can't be written\n"
BAD_WORDS = "ERROR: the command line can't be read\n"
NO_MEMORY = "ERROR: out of memory\n"


def old_entry(name="copy", out="out"):
    """The entry of a stage that has copied the text `abc`."""
    return entry(name, "cp in out", {"in": b"abc"}, {out: b"abc"})


# A project in which a run is due: its input was edited. And one in which nothing is due, and the output is in the cache.
DUE = {"dvc.yaml": COPY, "in": b"new", "out": b"abc", "dvc.lock": lock([old_entry()])}
DONE = {**DUE, "in": b"abc", **with_folders(objects(b"abc"))}


def choices():
    """What is chosen after each edit, and the outputs and the lock at last."""
    with tempfile.TemporaryDirectory() as folder:
        write(folder, "in", "abc")
        for name, text, lines in STEPS:
            write(folder, name, text)
            before = read(folder, "dvc.lock")
            expect(f"after an edit of {name}", repro(folder), (0, lines, ""))
            if lines == NEITHER:
                expect("the lock where nothing ran", read(folder, "dvc.lock"), before)
        expect("the outputs", (read(folder, "mid"), read(folder, "out")), (b"abd", b"abd"))
        first = entry("first", "cp in mid", {"in": b"abd"}, {"mid": b"abd"})
        last = entry("last", "cp in out", {"mid": b"abd", "in": b"abd"}, {"out": b"abd"})
        expect("the lock", read(folder, "dvc.lock").decode(), lock([first, last]))


def untouched(what, tree, wanted, **how):
    """A run in a tree that answers as is wanted, and leaves all as it was."""
    with tempfile.TemporaryDirectory() as folder:
        plant(folder, tree)
        before = planted(folder)
        expect(what, repro(folder, **how), wanted)
        expect(f"what stands there after {what}", planted(folder), before)


def refusals():
    """Files that are refused: nothing is touched. What else is refused, and with what words, is tried by texts.py."""
    good, many = lock([old_entry()]), long_lock()
    bad = {
        "dvc.yaml": [
            (stages(FIRST, FIRST), "'dvc.yaml' line 8: duplicate key"),
            (stages(FIRST, stage("last", "cp in mid", ["in"], ["mid"])), "'mid' is an output of 'first' and 'last'"),
            (stages(stage("last", "cp mid in", ["mid"], ["in"]), FIRST), "cycle: last <- first <- last"),
            (bytes(range(256)), "'dvc.yaml' line 1: syntax"),
        ],
        "dvc.lock": [
            (good.replace("md5: 9", "md5: A"), "'dvc.lock': bad value at 'md5'"),
            (lock([old_entry()] * 2), "'dvc.lock' line 15: duplicate key"),
            (good * 2, "'dvc.lock' line 15: duplicate key"),
            (bytes(range(256)) * 40_000, "'dvc.lock' line 1: syntax"),
            (many[:many.rindex("size")], "'dvc.lock': bad value at 'size'"),
        ],
    }
    for name, rows in bad.items():
        for number, (text, told) in enumerate(rows):
            untouched(f"bad {name} number {number}", {**DUE, name: text}, (255, "", f"ERROR: {told}\n"))


def long_lock():
    """A lock of many stages, of some megabytes."""
    return lock([old_entry(f"s{number}", f"o{number}") for number in range(40_000)])


def long_locks():
    """A long lock is read, written with one entry more, and read back."""
    with tempfile.TemporaryDirectory() as folder:
        plant(folder, {**DUE, "dvc.lock": long_lock()})
        wanted = long_lock() + entry("copy", "cp in out", {"in": b"new"}, {"out": b"new"})
        for lines in (COPY_LINES, skips("copy")):
            expect("a long lock", repro(folder), (0, lines, ""))
            expect("the long lock that is left", read(folder, "dvc.lock").decode(), wanted)


# The MD5 of 4 GiB of zeros with `the end` behind them.
LARGE_MD5 = "65cfb43384e3694f00417499e0a2ce48"


def large_file():
    """A file is read past 4 GiB, each byte once."""
    with tempfile.TemporaryDirectory() as folder:
        yaml = stages(stage("copy", "cp in out", ["big", "in"], ["out"]))
        plant(folder, {"in": b"new", "big": b"", "dvc.yaml": yaml})
        with open(os.path.join(folder, "big"), "r+b") as file:
            file.truncate(4096 * MIB)
            file.seek(0, os.SEEK_END)
            file.write(b"the end")
        expect("a run that reads 4 GiB", repro(folder), (0, COPY_LINES, ""))
        wanted = path_entry("big", LARGE_MD5, 4096 * MIB + len(b"the end"))
        expect("what the lock says of 4 GiB", wanted in read(folder, "dvc.lock").decode(), True)


# Words that are no command.
COMMAND_LINES = [
    (), ("",), ("x", "repro"), ("Repro",), ("repro ",), ("repro\n",), ("-f", "repro"),
    ("-h",), ("--help",), ("--version",), ("repro", "--help"), ("--", "repro"), ("repr",), ("status",),
    ("repro", "-f", "-f"), ("repro", "-f", "--force"), ("repro", "-f", "copy", "-f"), ("repro", "-fx"), ("repro", "--force=1"), ("repro", "-x", "--"),
    ("x" * 100_000,), ("repro", "-" + "x" * 100_000), ("repro",) * 10_000 + ("-x",),
    (b"\xff",), (b"repro\xff",), (b"repro", b"\xff"), (b"\xff", b"repro"), (b"repro", b"\xed\xa0\x80"),
]
# Targets that are none, behind those that are.
TARGETS = [
    ("",), ("in",), ("out",), ("repro",), ("dvc.yaml",), ("-",), ("copy", "Copy"), ("copy", "copy@"), ("-f", "copy "), ("copy", "--", "-f"), ("--", "copy", "--"), ("x" * 100_000,),
    ("copy",) * 10_000 + ("none",), ("copy", "é\n'"),
]


def command_lines():
    """Words that are no command have the status 254, and a target that is none 255; neither touches anything."""
    for number, words in enumerate(COMMAND_LINES):
        untouched(f"command line number {number}", DUE, (254, "", BAD_WORDS), words=words)
    for number, words in enumerate(TARGETS):
        untouched(f"targets number {number}", DUE, (255, "", f"ERROR: no stage or file '{words[-1]}'\n"), words=("repro", *words))


def limited(kind, most):
    """What a child does before it becomes the program: it takes a limit, and passes over the signal of files too long."""
    def set_limit():
        signal.signal(signal.SIGXFSZ, signal.SIG_IGN)
        resource.setrlimit(kind, (most, most))
    return set_limit


def least_memory():
    """The least memory with which the program begins: with less, the system doesn't start it."""
    for most in range(MIB // 4, 64 * MIB, MIB // 16):
        with tempfile.TemporaryDirectory() as folder:
            status, _, _ = repro(folder, preexec_fn=limited(resource.RLIMIT_AS, most))
        # The system's loader ends with 127 where it finds no memory itself, which the program never does.
        if status >= 0 and status != 127:
            return most
    raise SystemExit("the program doesn't begin with 64 MiB of memory")


def memory():
    """Want of memory is told, whenever it comes, and a run with enough of it ends well."""
    yaml = stages(*(stage(f"s{number}", "cp in in", ["in"], [f"o{number}"]) for number in range(10_000)))
    tree = {"in": b"abc", "dvc.yaml": yaml}
    least = least_memory()
    for most in range(least, least + 4 * MIB, MIB // 16):
        limit = limited(resource.RLIMIT_AS, most)
        untouched(f"a run with {most} bytes of memory", tree, (255, "", NO_MEMORY), preexec_fn=limit)
    with tempfile.TemporaryDirectory() as folder:
        plant(folder, DUE)
        expect("a run with 64 MiB", repro(folder, preexec_fn=limited(resource.RLIMIT_AS, 64 * MIB)), (0, COPY_LINES, ""))


def printing():
    """What a command prints reaches the output whole, in order with the tool's lines."""
    text = "".join(f"line {number}\n" for number in range(5_000))
    talk = b"cat text\ncat text >&2\nprintf end\ncp text said\n"
    tree = {"in": b"abc", "text": text, "talk": talk}
    tree["dvc.yaml"] = stages(stage("talk", "sh talk", ["text", "talk"], ["said"]), COPY[len("stages:\n"):])
    whole = runs("talk", "sh talk") + text + text + "end" + COPY_LINES
    with tempfile.TemporaryDirectory() as folder:
        plant(folder, tree)
        expect("a command that prints, by a pipe", repro(folder, stderr=subprocess.STDOUT), (0, whole, ""))
        write(folder, "dvc.lock", None)
        expect("a command that prints, by two pipes", repro(folder), (0, whole.replace(text + text, text), text))
        write(folder, "dvc.lock", None)
        expect("a command that prints, by a terminal", on_terminal(folder), (0, whole))


def on_terminal(folder):
    """Runs the program on a terminal, which passes on each byte, and gives its status and what it printed."""
    ours, theirs = pty.openpty()
    mode = termios.tcgetattr(theirs)
    mode[1] &= ~termios.OPOST
    termios.tcsetattr(theirs, termios.TCSANOW, mode)
    with subprocess.Popen([DVC, "repro"], cwd=folder, stdin=theirs, stdout=theirs, stderr=theirs) as running:
        os.close(theirs)
        printed = b""
        # A terminal that nobody holds any more can't be read.
        try:
            while piece := os.read(ours, MIB):
                printed += piece
        except OSError:
            pass
        os.close(ours)
    return running.returncode, printed.decode()


def long_lines():
    """Long names and commands are printed whole."""
    name, command = "n" * 1_000, "sh copy " + " ".join(["word"] * 5_000)
    with tempfile.TemporaryDirectory() as folder:
        yaml = stages(stage(name, command, ["in", "copy"], ["out"]))
        plant(folder, {"in": b"abc", "copy": b"cp in out\n", "dvc.yaml": yaml})
        expect("long lines", repro(folder), (0, runs(name, command), ""))
        expect("a long line", repro(folder), (0, skips(name), ""))


def closing(*numbers):
    """What a child does before it becomes the program: it closes some of its streams."""
    def close():
        for number in numbers:
            os.close(number)
    return close


def streams():
    """Outputs that are closed or full: the status and the line tell it, and nothing is touched."""
    for tree in (DUE, DONE):
        with open("/dev/full", "wb") as full:
            untouched("a full output", tree, (255, "", OUT_FAILED), stdout=full)
            untouched("a full output and error output", tree, (255, "", ""), stdout=full, stderr=full)
        untouched("a closed output", tree, (255, "", OUT_FAILED), preexec_fn=closing(1))
        untouched("an output that is closed with the input", tree, (255, "", OUT_FAILED), preexec_fn=closing(0, 1))
        untouched("closed streams", tree, (255, "", ""), preexec_fn=closing(0, 1, 2))
        with unread() as output:
            untouched("an output that nobody reads", tree, (255, "", OUT_FAILED), stdout=output)
    missing = {path: text for path, text in DUE.items() if path != "in"}
    untouched("a closed error output", missing, (255, "", ""), preexec_fn=closing(2))
    untouched("a closed error output, and no command", DUE, (254, "", ""), words=(), preexec_fn=closing(2))
    with tempfile.TemporaryDirectory() as folder:
        yaml = stages(stage("copy", "sh fail", ["in", "fail"], ["out"]))
        plant(folder, {**DUE, "fail": b"exit 3\n", "dvc.yaml": yaml})
        done = repro(folder, preexec_fn=closing(2))
        expect("a command that fails, and a closed error output", done, (255, runs("copy", "sh fail"), ""))
        expect("the lock then", read(folder, "dvc.lock").decode(), DUE["dvc.lock"])
    with tempfile.TemporaryDirectory() as folder:
        plant(folder, DUE)
        expect("closed input and error output", repro(folder, preexec_fn=closing(0, 2)), (0, COPY_LINES, ""))
        expect("what it leaves", (read(folder, "out"), repro(folder)), (b"new", (0, skips("copy"), "")))


def unread():
    """A pipe whose other end is closed."""
    ours, theirs = os.pipe()
    os.close(ours)
    return open(theirs, "wb")


# What is done to a project, and then the run is refused before its command has run.
FORBIDDEN = {
    "a folder that may not be written": "chmod 555 .",
    "a folder that may not be written, with its own": "mkdir -p .dvc/tmp; chmod 555 .",
    "an input that may not be read": "chmod 000 in",
    "an output that may not be read": "chmod 000 out",
    "a lock that may not be read": "chmod 000 dvc.lock",
    "a dvc.yaml that may not be read": "chmod 000 dvc.yaml",
    "a .dvc that may not be entered": "mkdir -p .dvc/tmp; chmod 000 .dvc",
    "a .dvc that may not be written": "mkdir .dvc; chmod 555 .dvc",
    "lanes that may not be written": "mkdir -p .dvc/tmp; chmod 555 .dvc/tmp",
}
# The same for everybody, the superuser too.
UNWRITABLE = {
    ".dvc is a broken link": "ln -s nothing .dvc",
    ".dvc is a loop of links": "ln -s .dvc .dvc",
    "the folder of the lanes is a FIFO": "mkdir .dvc; mkfifo .dvc/tmp",
    "the folder of the lanes is a loop of links": "mkdir .dvc; ln -s tmp .dvc/tmp",
}


def forbidden():
    """What a user may not touch is told, before the command has run; a skip writes nothing, where its outputs are in the cache."""
    user = another_user()
    if user is None:
        passed_over("real files: permissions", "the superuser can't become another user here")
        return
    for what, script in FORBIDDEN.items():
        stays_as_it_was(what, script, user)
    with tempfile.TemporaryDirectory() as room:
        folder = given_to(user, room, DONE)
        subprocess.run(["sh", "-ec", "chmod 555 ."], cwd=folder, check=True, **user)
        expect("a skip where nothing may be written", repro(folder, program=reached(room), **user), (0, skips("copy"), ""))


def unwritable():
    """A lock that can't be written is told before the command has run."""
    for what, script in UNWRITABLE.items():
        stays_as_it_was(what, script, {})


def given_to(user, room, tree):
    """A project that belongs to the user, below a folder that everybody may enter."""
    os.chmod(room, 0o755)
    folder = os.path.join(room, "project")
    os.mkdir(folder)
    plant(folder, tree)
    if user:
        for path in (".", *tree):
            os.chown(os.path.join(folder, path), user["user"], user["group"])
    return folder


def stays_as_it_was(what, script, user):
    """A run that can't be made: a failed call is told, and all stays as the script left it."""
    with tempfile.TemporaryDirectory() as room:
        folder = given_to(user, room, DUE)
        subprocess.run(["sh", "-ec", script], cwd=folder, check=True, **user)
        modes = opened(folder)
        before = planted(folder)
        closed(modes)
        status, _, told = repro(folder, program=reached(room), **user)
        opened(folder)
        expect(what, (status, told), (255, CALL_FAILED))
        expect(f"what stands there: {what}", without_lanes(planted(folder)), without_lanes(before))


def without_lanes(tree):
    """A tree without the tool's folders and lanes, which a run may have made before it was refused."""
    own = [path for path in tree if path in (".dvc", ".dvc/tmp") and tree[path] is None or path.startswith(".dvc/tmp/")]
    return {path: content for path, content in tree.items() if path not in own}


def opened(folder):
    """Lets everything below a folder be read, and gives the modes that stood before."""
    modes = {}
    pending = [folder]
    for path in pending:
        mode = os.lstat(path).st_mode
        if stat.S_ISDIR(mode) or stat.S_ISREG(mode):
            modes[path] = stat.S_IMODE(mode)
            os.chmod(path, 0o755)
        if stat.S_ISDIR(mode):
            pending += sorted(os.path.join(path, name) for name in os.listdir(path))
    return modes


def closed(modes):
    """Puts the modes back."""
    for path, mode in reversed(modes.items()):
        os.chmod(path, mode)


def full_disk():
    """Where the lock can't be written to its end, the old one stays, and the next run makes it good."""
    with tempfile.TemporaryDirectory() as folder:
        plant(folder, DUE)
        done = repro(folder, preexec_fn=limited(resource.RLIMIT_FSIZE, 200))
        expect("a lock that doesn't fit on the disk", done, (255, COPY_LINES, CALL_FAILED))
        expect("the lock then", read(folder, "dvc.lock").decode(), DUE["dvc.lock"])
        expect("the next run", repro(folder), (0, COPY_LINES, ""))


PATH_ENTRY = r"    - path: \w+\n      hash: md5\n      md5: [0-9a-f]{32}\n      size: \d+\n"
ENTRY = rf"  \w+:\n    cmd: .*\n    deps:\n(?:{PATH_ENTRY})+    outs:\n(?:{PATH_ENTRY})+"
WHOLE_LOCK = re.compile(rf"schema: '2.0'\nstages:\n(?:{ENTRY}){{1,3}}")


def whole_lock(what, text):
    """Ends the script where the bytes aren't one lock."""
    if not WHOLE_LOCK.fullmatch(text.decode(errors="replace")):
        raise SystemExit(f"{what}: the lock isn't one whole text: {shown(text)}")


# Where nothing calms it, a copy that fails by chance: before it has begun or once it is made.
CHANCE = b"""chance=$(($$ % 4))
test -e calm || test $chance != 0 || exit 3
cp in out
test -e calm || test $chance != 1
"""


def two_at_once(trials=400):
    """Two runs at once, against the rule, in half of the trials with commands that fail by chance: the lock is one whole text
    after each, and the next run leaves what is due."""
    with tempfile.TemporaryDirectory() as folder:
        plant(folder, {"chance": CHANCE, "dvc.yaml": stages(stage("copy", "sh chance", ["in"], ["out"]))})
        for trial in range(trials):
            what = f"two runs at once, trial {trial}"
            write(folder, "in", f"input {trial}")
            write(folder, "calm", "" if trial % 2 else None)
            before = read(folder, "dvc.lock")
            with beside(folder) as first:
                # They meet at another place each time.
                time.sleep(trial // 2 % 11 * 0.0005)
                with beside(folder) as second:
                    ends = [first.wait(), second.wait()]
            expect(f"{what}: statuses of 0 and 255 alone", set(ends) <= {0, 255}, True)
            text = read(folder, "dvc.lock")
            if text is not None or before is not None or 0 in ends:
                whole_lock(what, text or b"")
            write(folder, "calm", "")
            expect(f"the run after {what}", repro(folder)[0::2], (0, ""))
            expect(f"what the run after {what} leaves", read(folder, "out").decode(), f"input {trial}")


def beside(folder):
    """A run that goes on while others begin; what it prints is dropped."""
    return subprocess.Popen([DVC, "repro"], cwd=folder, stdout=subprocess.DEVNULL, stderr=subprocess.DEVNULL)


# The first run waits until the second has begun, and ends well; the second waits for a file, and fails. None waits long.
MEET = b"""wait_for() {
    for turn in $(seq 1000); do test -e $1 && return; sleep 0.01; done
    exit 4
}
if mkdir first 2>/dev/null; then
    wait_for second
    cp in out
else
    mkdir second
    wait_for go
    exit 3
fi
"""


def one_of_two_fails():
    """A run publishes its lock while another one has begun its own, which fails then: the lock stays whole."""
    with tempfile.TemporaryDirectory() as folder:
        plant(folder, {"in": b"new", "meet": MEET, "dvc.yaml": stages(stage("copy", "sh meet", ["in", "meet"], ["out"]))})
        with beside(folder) as first:
            until(os.path.join(folder, "first"))
            with beside(folder) as second:
                status = first.wait()
                write(folder, "go", "")
        expect("the status of a run that fails beside another one", second.returncode, 255)
        expect("the status of a run beside one that fails", status in (0, 255), True)
        text = read(folder, "dvc.lock")
        if text is not None:
            whole_lock("beside a run that fails", text)
        write(folder, "meet", "cp in out\n")
        expect("the run after one of two that failed", repro(folder), (0, runs("copy", "sh meet"), ""))


# What a run beside one that is held does, its status, and the lock that is left then.
HELD = {
    "one that fails": ("exit 3\n", 255, DUE["dvc.lock"]),
    "one that ends well": ("cp in out\n", 0, lock([entry("copy", "sh work", {"in": b"new"}, {"out": b"new"})])),
}


def before_publish():
    """A run is held once its lane is on the disk, and another one comes and goes: no run publishes what isn't its own."""
    if not has_tool("real files: a run that is held", "strace"):
        return
    yaml = stages(stage("copy", "sh work", ["in"], ["out"]))
    # The first lane holds the output on its way to the cache, the second one the lock.
    for (what, (script, status, left)), place in itertools.product(HELD.items(), (1, 2)):
        with tempfile.TemporaryDirectory() as folder:
            plant(folder, {**DUE, "dvc.yaml": yaml, "work": "cp in out\n", ".dvc": None, ".dvc/tmp": None})
            with held(folder, "fsync", ".dvc/tmp/new-0", place) as first:
                write(folder, "work", script)
                expect(f"the status of {what} beside a run that is held", repro(folder)[0], status)
            text = read(folder, "dvc.lock").decode()
            expect(f"the lock after a run that was held beside {what}", text, left)
            expect(f"the status of a run that was held beside {what}", first.returncode, 255)
            write(folder, "work", "cp in out\n")
            expect(f"the run after one that was held beside {what}", repro(folder)[0::2], (0, ""))
            expect(f"what it leaves after one that was held beside {what}", read(folder, "out"), b"new")


# The folders that the program makes, and what stands above each.
MADE = {".dvc": {}, ".dvc/tmp": {".dvc": None}}


def made_meanwhile():
    """Another process makes a folder after the program has looked for it, at each of its looks: the run goes on."""
    if not has_tool("real files: a folder that is made meanwhile", "strace"):
        return
    for path, more in MADE.items():
        with tempfile.TemporaryDirectory() as folder:
            plant(folder, {**DUE, **more})
            log = os.path.join(folder, "log")
            expect(f"a run that looks for {path}", strace(folder, log, ["-P", f"./{path}"]).returncode, 0)
            looks = len(re.findall(rb"^statx\(", read(folder, "log"), re.M))
        met = [meets_made(path, more, look) for look in range(1, looks + 1)]
        expect(f"whether {path} was to be made where it stood already", any(met), True)


def meets_made(path, more, look):
    """A run that is held after a look for a folder, which is made then: whether it tried to make the folder too."""
    with tempfile.TemporaryDirectory() as folder:
        plant(folder, {**DUE, **more})
        with held(folder, "statx", path, look) as run:
            os.makedirs(os.path.join(folder, path), exist_ok=True)
        what = f"where {path} is made after look {look}"
        expect(f"the status {what}", run.returncode, 0)
        expect(f"what is left {what}", (read(folder, "out"), repro(folder)), (b"new", (0, skips("copy"), "")))
        return re.search(rb'mkdir\("[^"]*", \w+\) += -1 EEXIST', read(folder, "log")) is not None


@contextlib.contextmanager
def held(folder, call, path, when=1):
    """A run that is stopped once it has made so many calls on a file, and goes on to its end when it is let go."""
    log, place = os.path.join(folder, "log"), os.path.join(os.path.realpath(folder), path)
    # A call names the file by its number, or by its path from the project.
    words = ["strace", "-f", "-o", log, "-P", place, "-P", f"./{path}"]
    words += ["-e", f"inject={call}:signal=STOP:when={when}", DVC, "repro"]
    with subprocess.Popen(words, cwd=folder, stdout=subprocess.DEVNULL, stderr=subprocess.DEVNULL) as run:
        number = stopped(folder)
        try:
            yield run
        finally:
            os.kill(number, signal.SIGCONT)


def stopped(folder):
    """Waits until a traced run is stopped, for some seconds at most, and gives the number of its process."""
    for _ in range(1_000):
        found = re.search(rb"^(\d+) +--- stopped by SIGSTOP ---", read(folder, "log") or b"", re.M)
        if found:
            return int(found[1])
        time.sleep(0.01)
    raise SystemExit(f"a traced run wasn't stopped: {shown(read(folder, 'log'))}")


def until(path):
    """Waits until something stands at the path, for some seconds at most."""
    for _ in range(1_000):
        if os.path.exists(path):
            return
        time.sleep(0.01)


# The object of the output that is made of a MiB of zeros.
OBJECT = object_path(name_of(bytes(MIB)))


def calls():
    """A line is put by one system call. A file that is named is opened once, however long it is. Of an output that a run makes each
    byte is read twice, to name it and to copy it; and a skip reads each byte of an output and of its object once."""
    if not has_tool("real files: calls", "strace"):
        return
    with tempfile.TemporaryDirectory() as folder:
        plant(folder, {**DUE, "in": bytes(MIB)})
        # The output that stands is named too where a run is due.
        old = len(DUE["out"])
        wanted = [
            (COPY_LINES, {"in": MIB, "out": old + 2 * MIB, OBJECT: 0}), (skips("copy"), {"in": MIB, "out": MIB, OBJECT: MIB}),
        ]
        for lines, sizes in wanted:
            log = os.path.join(folder, "log")
            done = strace(folder, log, ["-e", "trace=open,openat,read,write,close", "-s", "1000"])
            expect("a traced run", (done.returncode, done.stdout.decode()), (0, lines))
            traced = read(folder, "log").decode(errors="replace")
            puts = re.findall(r'^write\(1, "(.*)", \d+\)', traced, re.M)
            expect("puts that are no whole lines", [text for text in puts if not text.endswith(r"\n")], [])
            opens, got = readings(traced)
            for name, size in sizes.items():
                expect(f"how much is read of {name} where the lines are {lines!r}", got[name], size)
            expect(f"how often what is named alone is opened where the lines are {lines!r}", opens["in"], 1)


def readings(traced):
    """How often each file is opened to be read, and how many bytes of it are read, by the log of a traced run."""
    opens, got, names = collections.Counter(), collections.Counter(), {}
    for call, told, name, number in re.findall(r'^(\w+)\((?:AT_FDCWD, )?(\d*)(?:"([^"]*)", .*O_RDONLY)?.* = (\d+)$', traced, re.M):
        if name:
            names[number] = name.removeprefix("./")
            opens[names[number]] += 1
        elif call == "read":
            got[names.get(told)] += int(number)
        elif call == "close":
            names.pop(told, None)
    return opens, got


def stops():
    """A stop by a signal at each system call: the lock is old, or new and whole, and the next run leaves what is due."""
    if not has_tool("real files: stops", "strace"):
        return
    yaml = stages(FIRST, stage("last", "cp mid out", ["mid"], ["out"]))
    wanted, locks = undisturbed(yaml)
    calls = system_calls(lambda folder: prepare(folder, yaml))
    for place, name in enumerate(calls):
        with tempfile.TemporaryDirectory() as folder:
            prepare(folder, yaml)
            done = strace(folder, os.devnull, stopping(calls, place))
            what = f"a stop at system call {place}, {name}"
            expect(what, done.returncode == 0, False)
            if read(folder, "dvc.lock") not in locks:
                raise SystemExit(f"{what}, left the lock {read(folder, 'dvc.lock')!r}")
            expect(f"the run after {what}", repro(folder)[0::2], (0, ""))
            expect(f"what it leaves after {what}", {name: read(folder, name) for name in wanted}, wanted)
    print(f"real files: stopped at each of {len(calls)} system calls", flush=True)


def prepare(folder, yaml):
    """A folder whose lock is that of an older input."""
    plant(folder, {"dvc.yaml": yaml, "in": "abc"})
    expect("the first run", repro(folder)[0], 0)
    write(folder, "in", "another")


def undisturbed(yaml):
    """What a run leaves that nothing stops, and the lock before it and after each of its turns."""
    with tempfile.TemporaryDirectory() as folder:
        prepare(folder, yaml)
        old = read(folder, "dvc.lock")
        expect("the undisturbed run", repro(folder)[0], 0)
        wanted = {name: read(folder, name) for name in ("in", "mid", "out", "dvc.lock")}
    new = wanted["dvc.lock"]
    # Both entries have one form, so the lock between the turns has the first entry of the new one.
    cut = new.index(b"  last:\n")
    return wanted, (old, new[:cut] + old[old.index(b"  last:\n"):], new)


CHECKS = [
    choices, refusals, long_locks, large_file, command_lines, memory, printing, long_lines, streams, forbidden, unwritable,
    full_disk, two_at_once, one_of_two_fails, before_publish, made_meanwhile, calls, stops,
]


def main():
    """Makes each check, or those that the words name."""
    need_built(DVC)
    for check in CHECKS:
        if not sys.argv[1:] or check.__name__ in sys.argv[1:]:
            check()
    print("real files: all as expected")


if __name__ == "__main__":
    main()
