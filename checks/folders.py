#!/usr/bin/env python3
"""Tries outputs and dependencies that are folders, and what the cache holds of them, over real files.

What stands in the lock and in the cache after a run, and what is chosen after edits in folders; objects that are spoilt or
gone, which a skip puts again; a stop at each system call of a run that puts a folder and of a skip that mends one; and the memory
in which a file of 1 GiB and a folder of 100,000 files are put. `.ci/run` runs this after the gate; DVC names another program
than the one of this clone, and words name single checks (CHECKS, at the end). The first failure ends the script.
"""
import concurrent.futures
import os
import shutil
import sys
import tempfile

from common import (
    DVC, MIB, OBJECTS, ROOM, beside_lanes, entry, expect, has_tool, is_whole, lock, memory, need_built, objects, plant, planted,
    repro, runs, shown, skips, stage, stages, stopping, strace, system_calls, whole_objects, write,
)

# A folder of six files is made of `in`. The order of the paths' texts isn't that of their components, one name isn't ASCII, and
# one has what a listing escapes.
MAKE = """mkdir -p data/sub/deeper data/hollow
cat in > data/a.txt
cat in in > data/sub/c
printf b > data/sub-b
: > data/sub/deeper/empty
printf e > data/\u00e9
printf q > 'data/"\\\t\n\U0001f600'
"""
USE = "cat data/a.txt data/sub/c given/x > total"
YAML = stages(stage("make", "sh make", ["in", "make"], ["data"]), stage("use", USE, ["data", "given"], ["total"]))
GIVEN = {"x": b"given", "deep/y": b""}
MADE, USED = runs("make", "sh make"), runs("use", USE)
BOTH, NEITHER = MADE + USED, skips("make") + skips("use")
OLD, NEW = b"abc", b"another"


def data(given):
    """The files of the folder that is made of this input."""
    return {"a.txt": given, "sub/c": given + given, "sub-b": b"b", "sub/deeper/empty": b"", "\u00e9": b"e", '"\\\t\n\U0001f600': b"q"}


def total(given):
    """What the second stage makes then."""
    return given + given + given + b"given"


def sources(given):
    """What the user has written."""
    inputs = {"in": given, "make": MAKE.encode(), "dvc.yaml": YAML.encode()}
    return inputs | {"given": None, "given/deep": None} | {f"given/{path}": content for path, content in GIVEN.items()}


def entries(given):
    """The two entries of the lock for this input."""
    made = entry("make", "sh make", {"in": given, "make": MAKE.encode()}, {"data": data(given)})
    return made, entry("use", USE, {"data": data(given), "given": GIVEN}, {"total": total(given)})


def cached(given):
    """The objects of both stages' outputs."""
    return objects(data(given)) | objects(total(given))


def cache_of(tree):
    """The files in a tree's folder of objects."""
    return {path: content for path, content in tree.items() if path.startswith(OBJECTS + "/") and content is not None}


def layout():
    """What a run leaves: the lock's entries, and each object at its place and nowhere else."""
    with tempfile.TemporaryDirectory(dir=ROOM) as folder:
        plant(folder, sources(OLD))
        expect("the first run", repro(folder), (0, BOTH, ""))
        left = planted(folder)
        expect("the lock with folders", left["dvc.lock"].decode(), lock(entries(OLD)))
        expect("the cache", cache_of(left), cached(OLD))
        expect("the run after it", repro(folder), (0, NEITHER, ""))
        expect("what it leaves", planted(folder), left)
        write(folder, "in", NEW)
        expect("the run after an edit", repro(folder), (0, BOTH, ""))
        expect("the cache after an edit", cache_of(planted(folder)), cached(OLD) | cached(NEW))


# A command of the shell that edits something, and what the next run prints.
STEPS = [
    ("mkdir given/hollow", NEITHER),
    ("rmdir given/hollow data/hollow", NEITHER),
    ("touch given/x data/a.txt", NEITHER),
    ("printf given > given/z", skips("make") + USED),
    ("rm given/z", skips("make") + USED),
    ("mv given/deep given/deeper", skips("make") + USED),
    ("printf other > data/a.txt", MADE + skips("use")),
    ("printf more > data/more", MADE + skips("use")),
    ("rm data/sub/c", MADE + skips("use")),
    ("mv data/sub data/suc", MADE + skips("use")),
    ("rm -r data; printf file > data", MADE + skips("use")),
    ("rm -r data", MADE + skips("use")),
    ("printf other > in", BOTH),
    ("rm dvc.lock", BOTH),
]


def choices():
    """What is chosen after edits in folders: their files count, and empty folders and times don't."""
    with tempfile.TemporaryDirectory(dir=ROOM) as folder:
        plant(folder, sources(OLD))
        expect("the first run", repro(folder), (0, BOTH, ""))
        for script, lines in STEPS:
            expect(f"the shell, at '{script}'", os.waitstatus_to_exitcode(os.system(f"cd '{folder}' && {script}")), 0)
            expect(f"the run after '{script}'", repro(folder), (0, lines, ""))
            expect(f"the run after that, after '{script}'", repro(folder), (0, NEITHER, ""))


# What is done to an object. A link to it is never there, and isn't tried.
SPOILS = {
    "with another last byte": lambda content: content[:-1] + bytes([content[-1] ^ 1]) if content else b"x",
    "without its last byte": lambda content: content[:-1] if content else b"\n",
    "with a byte more": lambda content: content + b"x",
    "emptied": lambda content: b"" if content else b"\0",
}


def spoilt(folder, path, how):
    """Spoils an object where it stands."""
    place = os.path.join(folder, path)
    with open(place, "rb") as file:
        content = file.read()
    os.remove(place)
    if how == "a folder":
        os.makedirs(os.path.join(place, "deep"))
        write(place, "deep/file", content)
    elif how != "gone":
        write(folder, path, SPOILS[how](content))


def finished(folder, given=OLD):
    """Leaves a project that is up to date, and gives what stands there then."""
    plant(folder, sources(given))
    expect("the first run", repro(folder), (0, BOTH, ""))
    return beside_lanes(planted(folder))


def mends():
    """An object that is spoilt or gone is put again by a skip, as it was; and so is a cache that is gone as a whole."""
    with tempfile.TemporaryDirectory(dir=ROOM) as folder:
        before = finished(folder)
        for path in sorted(cached(OLD)):
            for how in ("gone", "a folder", *SPOILS):
                spoilt(folder, path, how)
                expect(f"a skip where {path} is {how}", repro(folder), (0, NEITHER, ""))
                expect(f"what it leaves where {path} was {how}", beside_lanes(planted(folder)), before)
        for path in (OBJECTS, ".dvc/cache", ".dvc"):
            shutil.rmtree(os.path.join(folder, path))
            expect(f"a skip without {path}", repro(folder), (0, NEITHER, ""))
            expect(f"what it leaves where there was no {path}", beside_lanes(planted(folder)), before)


def edited(folder):
    """A project whose input was edited since its last run."""
    finished(folder)
    write(folder, "in", NEW)


def damaged(folder):
    """A project that is up to date, with some of its objects spoilt or gone."""
    finished(folder, NEW)
    places = sorted(cached(NEW))
    for path, how in zip(places, ("gone", "with another last byte", "whole", "emptied", "a folder", "whole", "gone")):
        if how != "whole":
            spoilt(folder, path, how)


# The runs that are stopped, and what prepares each.
STOPPED = {"a run after an edit": edited, "a skip that mends": damaged}


def project(what):
    """What stands there before a run is stopped, and what an undisturbed run leaves."""
    with tempfile.TemporaryDirectory(dir=ROOM) as folder:
        STOPPED[what](folder)
        start = planted(folder)
        expect(f"{what}, undisturbed", repro(folder)[0::2], (0, ""))
        wanted = beside_lanes(planted(folder))
    return start, wanted


def locks():
    """Each lock that may stand while the stages take their turns after an edit, with the objects that it names."""
    (old_make, old_use), (new_make, new_use) = entries(OLD), entries(NEW)
    found = {
        lock([old_make, old_use]): cached(OLD),
        lock([new_make, old_use]): objects(data(NEW)) | objects(total(OLD)),
        lock([new_make, new_use]): cached(NEW),
    }
    return {text.encode(): held for text, held in found.items()}


def lost(start, left):
    """What is wrong with what a stop has left, or none."""
    held = locks().get(left.get("dvc.lock"))
    if held is None:
        return f"the lock is {shown(left.get('dvc.lock'))}"
    whole = whole_objects(left)
    for path, content in whole_objects(start).items():
        if whole.get(path) != content:
            return f"the whole object {path} is lost"
    for path, content in cache_of(left).items():
        if content != start.get(path) and not is_whole(path, content):
            return f"the object {path} is neither old nor whole"
    # A lock that is new names no object that isn't there.
    for path in held if left["dvc.lock"] != start["dvc.lock"] else ():
        if path not in whole:
            return f"the lock is new, and the object {path} isn't whole"
    return None


def stopped(job):
    """Stops a run at one of its system calls, and runs again."""
    what, (start, wanted), calls, place = job
    what = f"{what}, stopped at system call {place}, {calls[place]}"
    with tempfile.TemporaryDirectory(dir=ROOM) as folder:
        plant(folder, start)
        done = strace(folder, os.devnull, stopping(calls, place))
        expect(what, done.returncode == 0, False)
        expect(f"what is wrong after {what}", lost(start, planted(folder)), None)
        expect(f"the run after {what}", repro(folder)[0::2], (0, ""))
        expect(f"what it leaves after {what}", beside_lanes(planted(folder)), wanted)


def stops():
    """A stop at each system call: the lock is old, or new and its objects are there; no whole object is lost; and the next run
    leaves what an undisturbed one leaves."""
    if not has_tool("folders: stops", "strace"):
        return
    for what, prepare in STOPPED.items():
        found, calls = project(what), system_calls(prepare)
        jobs = [(what, found, calls, place) for place in range(len(calls))]
        with concurrent.futures.ProcessPoolExecutor(len(os.sched_getaffinity(0))) as pool:
            for _ in pool.map(stopped, jobs, chunksize=8):
                pass
        print(f"folders: {what} was stopped at each of {len(calls)} system calls", flush=True)


# How much more memory a file of 1 GiB may take than one of a kilobyte, and how much each file of a folder takes.
FILE_GROWTH, MEMBER = MIB, 2048
COUNT = 100_000


def put_again(folder):
    """The most memory of a run, and of a skip that puts all objects again, and so starts no command."""
    most = memory([DVC, "repro"], folder)
    shutil.rmtree(os.path.join(folder, ".dvc/cache"))
    return most, memory([DVC, "repro"], folder)


def filled(folder, command, out):
    """A project with an output that is put, and the memory that this takes."""
    plant(folder, {"fill": command.encode() + b"\n", "dvc.yaml": stages(stage("fill", "sh fill", ["fill"], [out]))})
    return put_again(folder)


def large_file():
    """A file of 1 GiB is put in the memory of one of a kilobyte."""
    found = []
    for size in (1024, 1024 * MIB):
        with tempfile.TemporaryDirectory() as folder:
            found.append(filled(folder, f"head -c {size} /dev/zero > big", "big"))
            at = os.path.join(folder, OBJECTS)
            sizes = [os.path.getsize(os.path.join(above, name)) for above, _, names in os.walk(at) for name in names]
            expect(f"the sizes of the objects of a file of {size} bytes", sizes, [size])
    (small, small_skip), (large, large_skip) = found
    told = f"{large / MIB:.1f} MiB in a run and {large_skip / MIB:.1f} in a skip, of a kilobyte {small / MIB:.1f} and {small_skip / MIB:.1f}"
    print(f"folders: a file of 1 GiB is put in {told}", flush=True)
    expect(f"whether it grows with the file: {told}", max(large - small, large_skip - small_skip) <= FILE_GROWTH, True)


def large_folder():
    """A folder of 100,000 files is put in memory that is its listing's, whatever the files hold."""
    room = ROOM if ROOM and shutil.disk_usage(ROOM).free > 4096 * MIB else None
    found = []
    for count, size in ((10, 10), (COUNT, 10), (COUNT, 4096)):
        with tempfile.TemporaryDirectory(dir=room) as folder:
            # Each file begins with its own number.
            command = f"mkdir many; seq -f %0{size - 1}.0f {count} | split -d -a 6 -l 1 - many/f"
            found.append(filled(folder, command, "many"))
            with open(os.path.join(folder, "dvc.lock"), encoding="utf-8") as file:
                text = file.read()
            counted = f"      size: {count * size}\n      nfiles: {count}\n"
            expect(f"what the lock says of {count} files", text.endswith(counted), True)
    (few, few_skip), (many, many_skip), (longer, longer_skip) = found
    told = f"{many / MIB:.1f} MiB in a run and {many_skip / MIB:.1f} in a skip, of ten files {few / MIB:.1f} and {few_skip / MIB:.1f}"
    told += f", of 100,000 longer ones {longer / MIB:.1f} and {longer_skip / MIB:.1f}"
    print(f"folders: a folder of 100,000 files is put in {told}", flush=True)
    expect(f"whether it takes more than its listing: {told}", max(many - few, many_skip - few_skip) <= COUNT * MEMBER, True)
    expect(f"whether it grows with the files: {told}", max(longer - many, longer_skip - many_skip) <= FILE_GROWTH, True)


CHECKS = [layout, choices, mends, stops, large_file, large_folder]


def main():
    """Makes each check, or those that the words name."""
    need_built(DVC)
    for check in CHECKS:
        if not sys.argv[1:] or check.__name__ in sys.argv[1:]:
            check()
    print("folders: all as expected")


if __name__ == "__main__":
    main()
