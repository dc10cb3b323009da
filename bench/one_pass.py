#!/usr/bin/env python3
"""Puts a file or a folder into a cache in one pass: each file is hashed while it is copied, and the copy is moved to its place.

    bench/one_pass.py [--sync] PATH CACHE

It is what bench.py compares puts with. With --sync each copy is put on the disk before it is moved, and its folder after that.
A folder's files come first, and its listing last.
"""
import hashlib
import json
import os
import sys

PIECE = 65_536


class Cache:
    """A folder of objects, each under the MD5 of what it holds."""

    def __init__(self, folder, is_synced):
        self.folder, self.is_synced = folder, is_synced
        self.lane = os.path.join(folder, "lane")
        os.makedirs(folder, exist_ok=True)

    def put(self, pieces, suffix=""):
        """Puts the bytes of these pieces, and gives their digest."""
        hasher = hashlib.md5()
        with open(self.lane, "wb", buffering=0) as lane:
            for piece in pieces:
                hasher.update(piece)
                lane.write(piece)
            if self.is_synced:
                os.fsync(lane.fileno())
        digest = hasher.hexdigest()
        above = os.path.join(self.folder, digest[:2])
        if not os.path.isdir(above):
            os.mkdir(above)
            self.sync(self.folder)
        os.rename(self.lane, os.path.join(above, digest[2:] + suffix))
        self.sync(above)
        return digest

    def sync(self, folder):
        """Puts a folder on the disk, where that is wanted."""
        if self.is_synced:
            number = os.open(folder, os.O_RDONLY)
            os.fsync(number)
            os.close(number)


def pieces_of(path):
    """The bytes of a file, a piece at a time."""
    with open(path, "rb", buffering=0) as file:
        while piece := file.read(PIECE):
            yield piece


def files_below(folder):
    """The paths of a folder's files from there, in the order of their bytes."""
    found = [os.path.relpath(os.path.join(above, name), folder) for above, _, names in os.walk(folder) for name in names]
    return sorted(found, key=str.encode)


def main():
    """Puts what the words name, and prints its digest."""
    is_synced = sys.argv[1] == "--sync"
    path, folder = sys.argv[-2:]
    cache = Cache(folder, is_synced)
    if os.path.isdir(path):
        members = [{"md5": cache.put(pieces_of(os.path.join(path, name))), "relpath": name} for name in files_below(path)]
        print(cache.put([json.dumps(members).encode()], ".dir"))
    else:
        print(cache.put(pieces_of(path)))


if __name__ == "__main__":
    main()
