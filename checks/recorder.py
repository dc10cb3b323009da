"""Records what a program and the commands that it starts change below a folder, system call by system call, by strace."""
import os
import re
import subprocess
from dataclasses import dataclass, replace

CHANGING = (
    "open,openat,creat,write,pwrite64,writev,truncate,ftruncate,rename,renameat,renameat2,unlink,unlinkat,rmdir,"
    "mkdir,mkdirat,link,linkat,symlink,symlinkat,fsync,fdatasync,clone,clone3,fork,vfork"
)
# Calls that copy within the kernel are refused, so that each copied byte is seen in a write.
REFUSED = "copy_file_range,sendfile,splice"
# What strace prints of a call: the process, the name, what it was given, what it answered.
LINE = re.compile(r"(\d+) +(\w+)\((.*)\) += (-?\d+)(?:<([^>]*)>)?")
UNFINISHED = re.compile(r"(\d+) +(\w+\(.*?) ?<unfinished \.\.\.>$")
RESUMED = re.compile(r"(\d+) +<\.\.\. \w+ resumed>(.*)$")
HEX = re.compile(r"\\x([0-9a-f]{2})")


@dataclass(frozen=True)
class Change:
    """One change below the folder, by paths from there; or a deed outside: a `line` that is put, the `start` of a program."""

    kind: str
    path: str = ""
    target: str = ""
    data: bytes = b""
    at: int = -1
    # Whether the program itself made it, and not a command that it started.
    own: bool = True


def record(words, folder, log):
    """Runs the program in the folder, and gives what it answered and all changes in order."""
    flags = ["-f", "-y", "-xx", "-s", "100000000", "-o", log]
    calls = ["-e", f"trace={CHANGING},{REFUSED}", "-e", f"inject={REFUSED}:error=ENOSYS"]
    done = subprocess.run(["strace", *flags, *calls, *words], cwd=folder, capture_output=True, check=False)
    with open(log, encoding="ascii", errors="surrogateescape") as file:
        return done, changes(file.read().splitlines(), os.path.realpath(folder))


def changes(lines, root):
    """The changes that a record tells, in order; the process of its first line is the program."""
    reader = Reader(root)
    own = lines[0].split()[0] if lines else ""
    found = []
    for line in whole_lines(lines):
        call = LINE.match(line)
        if not call or call[4].startswith("-"):
            continue
        change = reader.change(call[2], call[3], int(call[4]), decoded(call[5] or ""))
        if change:
            found.append(replace(change, own=call[1] == own))
    return found


def whole_lines(lines):
    """Joins the two halves of a call that another process's call came between, where its second half stands."""
    begun = {}
    for line in lines:
        first, second = UNFINISHED.match(line), RESUMED.match(line)
        if first:
            begun[first[1]] = first[2]
        elif second:
            yield f"{second[1]} {begun.pop(second[1], '')}{second[2]}"
        else:
            yield line


def decoded(text):
    """The text that strace printed in hexadecimal digits."""
    return HEX.sub(lambda byte: chr(int(byte[1], 16)), text)


def strings(given):
    """The quoted arguments of a call, as bytes."""
    return [decoded(text).encode("latin-1") for text in re.findall(r'"([^"]*)"', given)]


class Reader:
    """Reads single calls as changes of what stands below a root."""

    def __init__(self, root):
        self.root = root

    def below(self, path):
        """The path from the root, `.` for the root itself, or none where it lies elsewhere."""
        path = os.path.normpath(os.path.join(self.root, path))
        if path == self.root:
            return "."
        return path[len(self.root) + 1:] if path.startswith(self.root + "/") else None

    def paths(self, given):
        """The paths that a call names: each quoted one from the folder that is opened before it, if there is one."""
        found = []
        for place, text in re.findall(r'(?:<([^>]*)>, )?"([^"]*)"', given):
            found.append(self.below(os.path.join(decoded(place), decoded(text))))
        return found

    def opened(self, given):
        """The path of the file that a call was given by its number."""
        number = re.match(r"\d+<([^>]*)>(\(deleted\))?", given)
        return self.below(decoded(number[1])) if number and not number[2] and number[1].startswith(r"\x2f") else None

    def change(self, name, given, answer, place):
        """What a call did, if it changed something below the root or is a deed outside."""
        if name in ("clone", "clone3", "fork", "vfork"):
            return Change("start")
        if name in ("open", "openat", "creat"):
            return self.open_change(name, given, place)
        if name in ("write", "writev", "pwrite64", "ftruncate", "fsync", "fdatasync"):
            return self.file_change(name, given, answer)
        return self.name_change(name, given)

    def open_change(self, name, given, place):
        at = self.below(place) if place else None
        if at is None or not (name == "creat" or "O_CREAT" in given or "O_TRUNC" in given):
            return None
        return Change("empty" if name == "creat" or "O_TRUNC" in given else "create", at)

    def file_change(self, name, given, answer):
        at = self.opened(given)
        if name in ("fsync", "fdatasync"):
            return at and Change("sync", at)
        if name == "ftruncate":
            return at and Change("truncate", at, at=int(given.rsplit(", ", 1)[1]))
        data = b"".join(strings(given))[:answer]
        if at is None:
            return Change("line", data=data)
        return Change("write", at, data=data, at=int(given.rsplit(", ", 1)[1]) if name == "pwrite64" else -1)

    def name_change(self, name, given):
        if name.startswith("symlink"):
            return Change("symlink", self.paths(given)[-1], strings(given)[0].decode())
        paths = self.paths(given)
        if None in paths:
            return None
        if name == "truncate":
            return Change("truncate", paths[0], at=int(given.rsplit(", ", 1)[1]))
        kinds = {"rename": "rename", "unlink": "remove", "rmdir": "remove", "mkdir": "folder", "link": "link"}
        kind = next((kinds[word] for word in kinds if name.startswith(word)), None)
        return kind and Change(kind, *paths)
