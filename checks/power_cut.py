#!/usr/bin/env python3
"""Cuts the power at each system call of a `dvc repro`, on a disk that keeps no more than what was synced.

Each run is recorded with strace. After each of its changes the disks are built that a power cut may leave (stated_disk.py
says which). On each disk the lock is old, or new and whole; what a call had put there for good (a published lock, a folder, a
cleared path) is still so once the program has gone on; all that isn't the tool's is as it was; and the next `dvc repro`
leaves what an undisturbed one leaves. That next run is recorded and cut in the same way, once more.

At the end each sync that puts something on the disk is taken out of the records by itself, as if the program had not made
it: that has to be noticed each time, and there has to be one of each kind (SITES). `.ci/run` runs this after the gate; DVC
names another program than the one of this clone.
"""
import collections
import concurrent.futures
import os
import re
import tempfile
import time
from dataclasses import dataclass, field

from common import (
    DVC, LANES, OBJECTS, ROOM, Link, entry, expect, has_tool, is_whole, lock, name_of, need_built, object_path, objects, plant, planted,
    repro, stage, stages, whole_objects, with_folders,
)
from recorder import Change, record
from stated_disk import Disk

LOCK = "dvc.lock"
# The cache is the tool's with all that lies in it, as the folder of the lanes is.
CACHE = ".dvc/cache"


def is_in(folder, path):
    """Whether a path is a folder or lies in it."""
    return path == folder or path.startswith(folder + "/")


# What stands in the place of what isn't there, where a project's start is told.
GONE = b"gone: \0"


@dataclass(frozen=True)
class Stage:
    """A stage with what its command makes of the values that it reads."""

    name: str
    command: str
    deps: tuple
    makes: dict

    def entry(self, values):
        """Its lines in the lock, where these values stand."""
        deps, outs = ({path: values[path] for path in paths} for paths in (self.deps, self.makes))
        return entry(self.name, self.command, deps, outs)


def spread(values):
    """The tree of these values: a file's bytes stand at its path, and a folder's files below it, each folder named too."""
    tree = {}
    for path, value in values.items():
        if not isinstance(value, dict):
            tree[path] = value
            continue
        tree[path] = None
        for name, content in value.items():
            parts = name.split("/")
            tree |= {"/".join([path, *parts[:count]]): None for count in range(1, len(parts))}
            tree[f"{path}/{name}"] = content
    return tree


def track(path, value):
    """The text of a track file of one path that stands beside it."""
    return f"outs:\n- md5: {name_of(value)}\n  size: {len(value)}\n  hash: md5\n  path: {path}\n".encode()


def copy(name, source, target):
    """A stage that copies a file."""
    return Stage(name, f"cp {source} {target}", (source,), {target: lambda files: files[source]})


@dataclass
class Project:
    """Stages, what the user has written, and what stands there when `dvc repro` is called."""

    name: str
    plan: list
    # The inputs by which the stages ran before, if they did; the present ones; and what else stands there.
    before: dict
    inputs: dict
    more: dict = field(default_factory=dict)
    # Files that the user removed just before, so that they may come back.
    removed: dict = field(default_factory=dict)
    # How many of the disks that a cut leaves are gone on with, evenly spread; none: all.
    most: int | None = None
    # Track files, each with the input that it tracks as it was before.
    tracks: dict = field(default_factory=dict)

    def __post_init__(self):
        self.outs = {out for one in self.plan for out in one.makes}
        yaml = stages(*(stage(one.name, one.command, one.deps, one.makes) for one in self.plan))
        old_values, old_book = self.after(len(self.plan), self.before, {}) if self.before else ({}, {})
        self.texts = {file: (track(path, self.before.get(path, b"old")), track(path, self.inputs[path])) for file, path in self.tracks.items()}
        start = {**spread(old_values), **self.inputs, "dvc.yaml": yaml.encode()} | {file: old for file, (old, _) in self.texts.items()}
        if old_book:
            start |= {LOCK: lock(old_book.values()).encode(), ".dvc": None, ".dvc/tmp": None} | self.cached(old_values)
        start = {path: content for path, content in {**start, **self.more}.items() if path not in self.removed}
        self.start = {path: content for path, content in start.items() if content != GONE}
        turns = [self.after(count, self.inputs, old_book) for count in range(len(self.plan) + 1)]
        self.held = {lock(book.values()).encode(): self.put(count, values) for count, (values, book) in enumerate(turns) if book}
        self.locks = [lock(book.values()).encode() for _, book in turns if book] + [self.start.get(LOCK)]
        values, book = turns[-1]
        made = {out: values[out] for out in self.outs}
        self.wanted = {**spread(made), **self.cached(values), LOCK: lock(book.values()).encode()} | {file: new for file, (_, new) in self.texts.items()}
        # What is cleared before something is put there.
        self.cleared = self.outs | {path for path in self.wanted if is_in(OBJECTS, path)}

    def put(self, count, values):
        """The objects that the first so many stages have put, when their entries stand in the lock."""
        found = {}
        for out in {out for one in self.plan[:count] for out in one.makes}:
            found |= objects(values[out])
        return found

    def cached(self, values):
        """The objects of all outputs and of what is tracked, and the folders that they lie in."""
        found = self.put(len(self.plan), values)
        for path in self.tracks.values():
            found |= objects(values[path])
        return with_folders(found)

    def after(self, count, inputs, book):
        """The values and the lock's entries after the turns of so many stages."""
        values, book = dict(inputs), dict(book)
        for one in self.plan[:count]:
            values |= {out: make(values) for out, make in one.makes.items()}
            book[one.name] = one.entry(values)
        return values, book

    def disk(self, tree):
        """The disk on which a run begins, in the tree of the project's start or in one that a power cut has left."""
        return Disk(tree, self.removed if tree == self.start else None)

    def is_own(self, path):
        """Whether the tool or a command may change the path."""
        return path in (LOCK, ".dvc", *self.tracks) or is_in(LANES, path) or is_in(CACHE, path) or path.split("/")[0] in self.outs

    def spoilt(self, tree):
        """What is wrong with a tree that a power cut left, or none."""
        if tree.get(LOCK) not in self.locks:
            return "the lock is neither old, nor new and whole"
        for file, texts in self.texts.items():
            if tree.get(file) not in texts:
                return f"{file} is neither old, nor new and whole"
        for path in {*tree, *self.start}:
            if not self.is_own(path) and tree.get(path, "nothing") != self.start.get(path, "nothing"):
                return f"{path} isn't as it was"
        return self.lost(tree)

    def lost(self, tree):
        """What is wrong with the cache that a power cut left, or none."""
        whole = whole_objects(tree)
        if not whole_objects(self.start).items() <= whole.items():
            return "a whole object is lost"
        for path, content in tree.items():
            is_object = is_in(CACHE, path) and isinstance(content, bytes)
            if is_object and content != self.start.get(path) and not is_whole(path, content):
                return "an object is neither old nor whole"
        for file, path in self.tracks.items():
            if tree.get(file) != self.start[file] and not objects(self.inputs[path]).items() <= whole.items():
                return f"{file} is new, and not all that it names is in the cache"
        if tree.get(LOCK) != self.start.get(LOCK) and not self.held[tree[LOCK]].items() <= whole.items():
            return "the lock is new, and not all that it names is in the cache"
        return None


SPLIT = Stage("split", "sh halves", ("halves", "in"), {"one": lambda files: files["in"], "two": lambda files: b"12"})
HALVES = b"cat in > one\nprintf 1 > two\nprintf 2 >> two\n"
# A folder of two files. With `-p`, mkdir would go into folders, which records don't follow.
FILL = b"mkdir data data/sub\ncat in > data/a\nprintf c > data/sub/c\n"
FOLDER = Stage("fill", "sh fill", ("fill", "in"), {"data": lambda values: {"a": values["in"], "sub/c": b"c"}})
USE = Stage("use", "cat data/a data/sub/c > total", ("data",), {"total": lambda values: values["data"]["a"] + b"c"})
FIRST, MIDDLE, LAST = copy("first", "in", "mid"), copy("middle", "mid", "next"), copy("last", "next", "out")
ONE = [copy("copy", "in", "out")]
OLD, NEW = {"in": b"abc"}, {"in": b"another"}
PROJECTS = [
    Project("the first repro", ONE, {}, NEW),
    Project("an edit", ONE, OLD, NEW),
    Project("nothing to do", ONE, OLD, OLD),
    Project("an edit of what is tracked", ONE, OLD, NEW, tracks={"in.dvc": "in"}),
    Project("two track files, and one of them with nothing to record", ONE, {}, {**NEW, "data": b"old"}, tracks={"data.dvc": "data", "in.dvc": "in"}),
    Project("an output in place, and no lock", ONE, {}, NEW, {"out": b"by hand"}),
    Project("an output changed by hand", ONE, OLD, OLD, {"out": b"by hand"}),
    Project("three stages", [FIRST, MIDDLE, LAST], OLD, NEW),
    Project("two outputs", [SPLIT], {**OLD, "halves": HALVES}, {**NEW, "halves": HALVES}),
    Project("a lane left behind", ONE, OLD, NEW, {".dvc/tmp/new-0": b"left"}),
    Project("a file at the folder of the lanes", ONE, {}, NEW, {".dvc": None, ".dvc/tmp": b"left"}),
    Project("a folder at the lane", ONE, OLD, NEW, {".dvc/tmp/new-0": None, ".dvc/tmp/new-0/deep": b"left"}),
    Project("a folder at an output", ONE, OLD, NEW, {"out": None, "out/deep": None, "out/deep/file": b"x", "out/y": b"y"}),
    Project("an output removed just before", ONE, OLD, NEW, removed={"out": b"abc"}),
    Project("a link at an output", ONE, OLD, NEW, {"out": Link("kept"), "kept": b"kept"}),
    Project("a folder, and a stage that reads it", [FOLDER, USE], {**OLD, "fill": FILL}, {**NEW, "fill": FILL}, most=100),
    Project("a skip that puts what is gone", ONE, OLD, OLD, {object_path(name_of(b"abc")): GONE}),
    Project("a skip that puts what is spoilt", ONE, OLD, OLD, {object_path(name_of(b"abc")): b"abd"}),
    Project("a skip that finds a folder at an object", ONE, OLD, OLD, {
        object_path(name_of(b"abc")): None, object_path(name_of(b"abc")) + "/deep": b"left",
    }),
]


class Promises:
    """What the program has put on the disk for good: it has to be there from the program's next deed on."""

    def __init__(self, project, disk):
        self.project, self.disk, self.new, self.made, self.said = project, disk, {}, {}, b""

    def apply(self, change):
        """Makes the change on the disk. What the program did before it is promised from now on."""
        if not change.own or change.kind == "sync":
            self.disk.apply(change)
            return
        self.made |= self.new
        before = self.disk.find(change.path or ".")
        self.disk.apply(change)
        self.new = self.promised(change, before)

    def promised(self, change, before):
        """What a deed of the program promises, by path, with what stood at the path before it or stands there now."""
        if change.kind == "rename" and not is_in(LANES, change.target):
            return {change.target: ("published", self.disk.find(change.target))}
        if change.kind == "folder":
            return {change.path: ("made", self.disk.find(change.path))}
        if change.kind == "remove" and change.path in self.project.cleared:
            return {change.path: ("cleared", before)}
        self.said += change.data if change.kind == "line" else b""
        if change.kind == "start":
            # Its outputs are cleared before a command starts.
            self.made |= {out: ("cleared", self.disk.find(out, synced=True)) for out in self.running()}
        return {}

    def running(self):
        """The outputs of the stage that was told last to run, where nothing stands at them."""
        names = re.findall(rb"Running stage '(\w+)':", self.said)[-1:]
        outs = [out for one in self.project.plan if one.name.encode() in names for out in one.makes]
        return [out for out in outs if self.disk.find(out) is None]

    def broken(self):
        """The promise that a power cut would break now, or none."""
        for path, (kind, node) in self.made.items():
            kept, now = self.disk.find(path, synced=True), self.disk.find(path)
            if kind == "cleared" and node and kept is node:
                return f"{path} was cleared, and comes back"
            if kind == "made" and now is node and kept is not node:
                return f"{path} was made, and is gone"
            if kind == "published" and kept not in (node, now):
                return f"{path} was published, and the old one comes back"
        return None


def moments(project, tree, changes, without=-1):
    """Gives the disk after each change, with the change's number and what is promised; one sync may be left out."""
    disk = project.disk(tree)
    promises = Promises(project, disk)
    for place, change in enumerate([*changes, Change("end")]):
        if place != without:
            promises.apply(change)
        yield place, disk, promises


def first_fault(project, tree, changes, without=-1):
    """What a power cut may spoil at first, and where, or none."""
    for place, disk, promises in moments(project, tree, changes, without):
        broken = promises.broken()
        if broken:
            return f"{broken} ({told(changes, place)})"
        for what, image in disk.images():
            spoilt = project.spoilt(image)
            if spoilt:
                return f"{spoilt} ({told(changes, place)}; {what})"
    return None


def told(changes, place):
    """A change of a record, in words."""
    if place == len(changes):
        return "at the end"
    change = changes[place]
    return " ".join(["after call", str(place)] + [word for word in (change.kind, change.path, change.target) if word])


def frozen(tree):
    """A tree as a value that sets can have. What a stop has left under inode numbers, which no two runs share, is numbered."""
    left = sorted(path for path in tree if path.startswith(".dvc/tmp/own-"))
    names = {path: f".dvc/tmp/own-{number}" for number, path in enumerate(left)}
    return tuple(sorted((names.get(path, path), content) for path, content in tree.items()))


def wrong_outcome(project, folder, done):
    """What is wrong with what a run has left, or none."""
    status, complaint = done
    if status or complaint:
        return f"the next repro ended with {status} and {complaint!r}"
    tree = planted(folder)
    for path, content in project.wanted.items():
        if tree.get(path) != content:
            return f"the next repro left {tree.get(path)!r} at {path}"
    return project.spoilt(tree) and f"after the next repro {project.spoilt(tree)}"


@dataclass
class Look:
    """What a recorded run showed: its faults, the trees that a power cut in it may leave, and its changes."""

    faults: list
    images: set
    changes: list


def look(number, image):
    """Records a run of a project on a tree, and cuts it at each change."""
    project, tree = PROJECTS[number], dict(image)
    with tempfile.TemporaryDirectory(dir=ROOM) as room:
        folder = os.path.join(room, "project")
        os.mkdir(folder)
        plant(folder, tree)
        done, changes = record([DVC, "repro"], folder, os.path.join(room, "log"))
        wrong = wrong_outcome(project, folder, (done.returncode, done.stderr.decode()))
        disk = project.disk(tree)
        for change in changes:
            disk.apply(change)
        expect(f"{project.name}: what the record tells", disk.standing(), planted(folder))
    images = {frozen(left) for _, disk, _ in moments(project, tree, changes) for _, left in disk.images()}
    faults = [fault for fault in (wrong, first_fault(project, tree, changes)) if fault]
    return Look(faults, images, changes)


def next_run(number, image):
    """Runs a project on a tree, and gives what is wrong with what it leaves."""
    with tempfile.TemporaryDirectory(dir=ROOM) as folder:
        plant(folder, dict(image))
        status, _, complaint = repro(folder)
        return wrong_outcome(PROJECTS[number], folder, (status, complaint))


def site(project, changes, place):
    """What kind of sync this is, by the program's last change in the folder that it is of."""
    path = changes[place].path
    if path != LANES and is_in(LANES, path):
        return "the lane"
    for change in reversed(changes[:place]):
        at = change.target or change.path
        if change.own and change.kind == "sync" and at == path:
            break
        if change.own and (os.path.dirname(at) or ".") == path and change.kind in ("rename", "folder"):
            return f"the folder of {named(at)}, once it is {'published' if change.kind == 'rename' else 'made'}"
        if change.own and (os.path.dirname(at) or ".") == path and change.kind == "remove" and at not in project.outs:
            return f"the folder of {named(at)}, once it is removed"
    return "the folder of an output, once it is cleared" if path == "." else path


def named(path):
    """A path as the kinds of syncs name it: what lies in the cache, and a track file, have no name of their own."""
    if path.endswith(".dvc") and path != ".dvc":
        return "a track file"
    return "what is cached" if path != CACHE and is_in(CACHE, path) else path


SITES = [
    "the lane", "the folder of dvc.lock, once it is published", "the folder of .dvc, once it is made",
    "the folder of .dvc/tmp, once it is made", "the folder of an output, once it is cleared",
    "the folder of what is cached, once it is published", "the folder of what is cached, once it is made",
    "the folder of what is cached, once it is removed", "the folder of a track file, once it is published",
]


def syncs(project, changes):
    """The places of the program's syncs in a record, and whether there was something to sync."""
    disk = project.disk(project.start)
    for place, change in enumerate(changes):
        if change.kind == "sync" and change.own:
            yield place, not disk.is_synced(change.path)
        disk.apply(change)


def bites(looks):
    """Takes each sync out of each record by itself, and gives those that aren't noticed then."""
    noticed = collections.defaultdict(list)
    for project, seen in zip(PROJECTS, looks):
        for place, is_needed in syncs(project, seen.changes):
            fault = first_fault(project, project.start, seen.changes, without=place)
            if is_needed or fault:
                noticed[site(project, seen.changes, place)].append((project.name, fault))
    faults = [f"no sync is made of {kind}" for kind in SITES if kind not in noticed]
    for kind, tries in noticed.items():
        missed = [name for name, fault in tries if not fault]
        faults += [f"{name}: a sync that is left out isn't noticed: of {kind}" for name in missed]
        found = next((fault for _, fault in tries if fault), "nothing")
        print(f"power cut: without a sync of {kind}: noticed {len(tries) - len(missed)} of {len(tries)} times: {found}")
    return faults


def cut_all():
    """Cuts each project's run, and the run after each cut; gives the faults."""
    faults, started = [], time.monotonic()
    with concurrent.futures.ProcessPoolExecutor(len(os.sched_getaffinity(0))) as pool:
        firsts = [frozen(project.start) for project in PROJECTS]
        looks = list(pool.map(look, range(len(PROJECTS)), firsts))
        seen = {(number, first) for number, first in enumerate(firsts)}
        cut = new_images(seen, enumerate(looks))
        again = list(pool.map(look, *zip(*cut), chunksize=4))
        cut_again = new_images(seen, zip((number for number, _ in cut), again))
        ends = list(pool.map(next_run, *zip(*cut_again), chunksize=16))
    for number, project in enumerate(PROJECTS):
        own = list(looks[number].faults)
        own += [f"after a cut: {fault}" for (at, _), one in zip(cut, again) if at == number for fault in one.faults]
        own += [f"after two cuts: {fault}" for (at, _), fault in zip(cut_again, ends) if at == number and fault]
        faults += [f"{project.name}: {fault}" for fault in by_kind(own)]
    calls = sum(len(one.changes) for one in looks)
    print(f"power cut: {calls} changes of {len(PROJECTS)} projects left {len(cut)} disks, and cuts in the runs after them "
          f"{len(cut_again)} more, in {time.monotonic() - started:.0f} s")
    return looks, faults


def by_kind(faults):
    """The first fault of each kind, with how many more there are; what stands in brackets says where, and not what."""
    kinds = collections.defaultdict(list)
    for fault in faults:
        kinds[re.sub(r"^after (a cut|two cuts): | \(.*", "", fault)].append(fault)
    return [f"{same[0]} (and {len(same) - 1} more)" for same in kinds.values()]


def new_images(seen, looks):
    """The trees that no earlier cut left, each with its project's number; of some projects a part of them."""
    found = sorted({(number, image) for number, one in looks for image in one.images} - seen, key=repr)
    seen.update(found)
    return [pair for number in range(len(PROJECTS)) for pair in spread_out(number, [pair for pair in found if pair[0] == number])]


def spread_out(number, found):
    """Those of a project's trees that are gone on with."""
    step = -(-len(found) // (PROJECTS[number].most or len(found) or 1))
    return found[::step or 1]


def main():
    """Makes all cuts, then shows that they bite; ends with 1 after any fault."""
    need_built(DVC)
    if not has_tool("power cut", "strace"):
        return
    looks, faults = cut_all()
    faults += bites(looks)
    for fault in faults:
        print(f"power cut: FAULT: {fault}")
    if faults:
        raise SystemExit(1)
    print("power cut: all as expected")


if __name__ == "__main__":
    main()
