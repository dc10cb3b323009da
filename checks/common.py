"""What the checks and the measurements share: the programs, small projects and their files, and how a check ends.

The programs are those that `rt ci` or `./demo` leaves in this clone; the environment variables DVC, YAML_DUMP, RECORD_TABLE and
STAGE_TABLE name others. Under CI=true nothing is passed over: a check that lacks a tool fails.
"""
import hashlib
import json
import os
import shutil
import stat
import subprocess
import sys
import tempfile
import time
from dataclasses import dataclass

TOP = os.path.dirname(os.path.dirname(os.path.abspath(__file__)))
MIB = 1 << 20
# A folder in memory is as good as one on a disk where nothing is measured, and faster.
ROOM = "/dev/shm" if os.access("/dev/shm", os.W_OK) else None
# The folder of the lanes, and that of the objects.
LANES, OBJECTS = ".dvc/tmp", ".dvc/cache/files/md5"


def built(variable, crate):
    """The path of a program of this repository, or of the one that the variable names."""
    return os.path.abspath(os.environ.get(variable) or os.path.join(TOP, "crates", crate, "out", crate))


DVC = built("DVC", "dvc")
YAML_DUMP = built("YAML_DUMP", "yaml_dump")
RECORD_TABLE = built("RECORD_TABLE", "record_table")
STAGE_TABLE = built("STAGE_TABLE", "stage_table")


def need_built(program):
    """Ends the script where the program wasn't built."""
    if not os.access(program, os.X_OK):
        raise SystemExit(f"{program} isn't built: run .ci/run first (./demo builds dvc alone)")


def passed_over(what, why):
    """Says that a check isn't made here; under CI that is a failure."""
    if os.environ.get("CI") == "true":
        raise SystemExit(f"{what}: {why}, and under CI nothing is passed over")
    print(f"{what}: {why}, so this was not tried", flush=True)


def has_tool(what, tool):
    """Whether the tool is installed; where it isn't, that is said, or fails."""
    if shutil.which(tool):
        return True
    passed_over(what, f"no {tool} here")
    return False


def shown(value):
    """A value as a failure prints it: at most its first and its last 300 characters."""
    text = repr(value)
    return text if len(text) <= 700 else f"{text[:300]} .. {text[-300:]}"


def expect(what, got, wanted):
    """Ends the script where a value isn't the wanted one."""
    if got != wanted:
        raise SystemExit(f"{what}: {shown(got)} in the place of {shown(wanted)}")


def stage(name, command, deps, outs):
    """The lines of one stage in `dvc.yaml`."""
    lines = [f"  {name}:", f"    cmd: {command}", "    deps:"] + [f"    - {dep}" for dep in deps]
    return "\n".join(lines + ["    outs:"] + [f"    - {out}" for out in outs]) + "\n"


def stages(*texts):
    """A `dvc.yaml` of these stages."""
    return "stages:\n" + "".join(texts)


def runs(name, *commands):
    """The lines that tell a run."""
    return f"Running stage '{name}':\n" + "".join(f"> {command}\n" for command in commands)


def skips(name):
    """The line that tells a skip."""
    return f"Stage '{name}' didn't change, skipping\n"


def entry(name, command, deps, outs):
    """The lines of one stage in `dvc.lock`, by its command, or a list of them, and the values of its dependencies and outputs:
    a file is its bytes, and a folder its files by their paths."""
    listed = isinstance(command, list)
    lines = [f"  {name}:\n    cmd:" + "".join(f"\n    - {one}" for one in command) if listed else f"  {name}:\n    cmd: {command}", "\n"]
    for key, paths in (("deps", deps), ("outs", outs)):
        lines.append(f"    {key}:\n")
        for path, value in sorted(paths.items()):
            lines.append(value_entry(path, value))
    return "".join(lines)


def value_entry(path, value):
    """The lines of a dependency or an output in `dvc.lock`, by its value."""
    if isinstance(value, dict):
        return path_entry(path, name_of(value), sum(len(content) for content in value.values()), len(value))
    return path_entry(path, name_of(value), len(value))


def path_entry(path, digest, size, nfiles=None):
    """The lines of a dependency or an output in `dvc.lock`; a folder has a number of files."""
    counted = "" if nfiles is None else f"      nfiles: {nfiles}\n"
    return f"    - path: {path}\n      hash: md5\n      md5: {digest}\n      size: {size}\n{counted}"


def listing(files):
    """The text of a folder's listing: its files by the bytes of their paths."""
    paths = sorted(files, key=str.encode)
    return json.dumps([{"md5": name_of(files[path]), "relpath": path} for path in paths]).encode()


def name_of(value):
    """The name of a value: the MD5 of a file's bytes, and of a folder's listing with `.dir` behind it."""
    if isinstance(value, dict):
        return name_of(listing(value)) + ".dir"
    return hashlib.md5(value).hexdigest()


def object_path(name):
    """Where the object of a name stands."""
    return f"{OBJECTS}/{name[:2]}/{name[2:]}"


def objects(value):
    """The objects of a value by their places: a file's bytes, or a folder's listing and the bytes of its files."""
    if not isinstance(value, dict):
        return {object_path(name_of(value)): value}
    found = {object_path(name_of(value)): listing(value)}
    for content in value.values():
        found |= objects(content)
    return found


def with_folders(found):
    """Objects with the folders that they lie in."""
    above = {os.path.dirname(path) for path in found}
    return {folder: None for folder in (".dvc", ".dvc/cache", ".dvc/cache/files", OBJECTS, *above) if found} | found


def is_whole(path, content):
    """Whether bytes at an object's place are those that it is named by."""
    name = path[len(OBJECTS) + 1:].replace("/", "")
    return name.removesuffix(".dir") == hashlib.md5(content).hexdigest()


def whole_objects(tree):
    """The objects in a tree that have the bytes of their names."""
    return {
        path: content for path, content in tree.items()
        if path.startswith(OBJECTS + "/") and isinstance(content, bytes) and is_whole(path, content)
    }


def beside_lanes(tree):
    """What stands in a tree beside the lanes and their folder."""
    return {path: content for path, content in tree.items() if path != LANES and not path.startswith(LANES + "/")}


def lock(entries):
    """A `dvc.lock` of these entries."""
    return "schema: '2.0'\nstages:\n" + "".join(entries)


def write(folder, name, text):
    """Puts a text or bytes in a file; no text removes the file, where there is one."""
    path = os.path.join(folder, name)
    if text is None:
        if os.path.lexists(path):
            os.remove(path)
        return
    with open(path, "wb") as file:
        file.write(text if isinstance(text, bytes) else text.encode())


def read(folder, name):
    """The bytes of a file, or none where nothing stands there."""
    try:
        with open(os.path.join(folder, name), "rb") as file:
            return file.read()
    except FileNotFoundError:
        return None


@dataclass(frozen=True)
class Link:
    """A symbolic link in a tree."""

    target: str


def plant(folder, tree):
    """Puts a tree in a folder: by each path the bytes of a file, None for a folder, or a Link. Folders above a file may be left out."""
    for path in sorted(tree):
        content, place = tree[path], os.path.join(folder, path)
        if content is None:
            os.mkdir(place)
        elif isinstance(content, Link):
            os.symlink(content.target, place)
        else:
            os.makedirs(os.path.dirname(place), exist_ok=True)
            write(folder, path, content)


def planted(folder):
    """The tree that stands in a folder; what is no file, folder or link is told by its mode."""
    tree = {}
    for at, folders, files in os.walk(folder):
        for place in (os.path.join(at, name) for name in folders + files):
            path, mode = os.path.relpath(place, folder), os.lstat(place).st_mode
            if stat.S_ISLNK(mode):
                tree[path] = Link(os.readlink(place))
            elif stat.S_ISREG(mode):
                tree[path] = read(folder, path)
            else:
                tree[path] = None if stat.S_ISDIR(mode) else mode
    return tree


def another_user():
    """How a program is run as a user whom permissions bind, or none where that can't be."""
    if os.geteuid():
        return {}
    nobody = {"user": 65_534, "group": 65_534, "extra_groups": []}
    try:
        subprocess.run(["true"], check=True, **nobody)
    except (OSError, subprocess.SubprocessError):
        return None
    return nobody


def reached(room):
    """The program `dvc`, copied into a folder, where everybody may reach it."""
    program = os.path.join(room, "dvc")
    shutil.copyfile(DVC, program)
    os.chmod(program, 0o755)
    return program


def repro(folder, words=("repro",), program=DVC, **how):
    """Runs the program in the folder: its status, and what it put on its output and its error output."""
    how = {"stdout": subprocess.PIPE, "stderr": subprocess.PIPE, **how}
    done = subprocess.run([program, *words], cwd=folder, check=False, **how)
    return done.returncode, (done.stdout or b"").decode(), (done.stderr or b"").decode()


def strace(folder, log, words):
    """Runs the program under strace."""
    return subprocess.run(["strace", "-o", log, *words, DVC, "repro"], cwd=folder, capture_output=True, check=False)


def system_calls(prepare):
    """The names of the system calls of a run, in order, from the first one of the program itself on, in a folder that is prepared."""
    with tempfile.TemporaryDirectory(dir=ROOM) as room:
        folder, log = os.path.join(room, "project"), os.path.join(room, "log")
        os.mkdir(folder)
        prepare(folder)
        expect("the traced run", strace(folder, log, []).returncode, 0)
        lines = read(room, "log").decode(errors="replace").splitlines()
    names = [line.split("(")[0] for line in lines if line[:1].isalpha() and "(" in line]
    return [name for name in names[1:] if name != "exit_group"]


def stopping(calls, place):
    """The words by which strace stops a run at one of its system calls."""
    name = calls[place]
    return ["-e", f"inject={name}:signal=KILL:when={calls[:place + 1].count(name)}"]


def seconds(words, folder, statuses=(0,)):
    """The seconds that a command takes, without what it prints; another status ends the script."""
    start = time.perf_counter()
    how = {"stdin": subprocess.DEVNULL, "stdout": subprocess.DEVNULL, "stderr": subprocess.PIPE}
    done = subprocess.run(words, cwd=folder, check=False, **how)
    taken = time.perf_counter() - start
    if done.returncode not in statuses:
        told = done.stderr.decode(errors="replace")
        raise SystemExit(f"{shown(' '.join(words))} ended with {done.returncode}: {shown(told)}")
    return taken


# It tells the status and the most memory of a run, in a process of its own that has no other child.
MEASURED = (
    "import resource, subprocess, sys; status = subprocess.run(sys.argv[1:], stdout=subprocess.DEVNULL).returncode; "
    "print(status, resource.getrusage(resource.RUSAGE_CHILDREN).ru_maxrss)"
)


def memory(words, folder):
    """The most memory of a run that ends well, in bytes; another status ends the script."""
    done = subprocess.run([sys.executable, "-c", MEASURED, *words], cwd=folder, capture_output=True, check=True)
    status, most = done.stdout.split()
    expect(f"the status of {shown(' '.join(words))}", int(status), 0)
    return int(most) * 1024
