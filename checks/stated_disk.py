"""A disk as the project states it, that takes a record's changes: what stands, and what a power cut may leave of it.

The bytes of a file are on the disk for good once that file is synced, and a name in a folder (made, moved or removed) once
that folder is. All else may be as before at a power cut, or as it stands; bytes may be cut, too.

A tree is what common.py plants in a folder: by each path the bytes of a file, None for a folder, or a Link.
"""
import itertools

from common import Link


class File:
    """The bytes that stand, and those that were synced last."""

    def __init__(self, data, synced=b""):
        self.data, self.synced = data, synced


class Folder:
    """The members that stand, and those that were synced last."""

    def __init__(self):
        self.members, self.synced = {}, {}


# What a power cut may make of a file whose bytes aren't synced.
SPOILT = {
    "as they were synced last": lambda file: file.synced,
    "emptied": lambda file: b"",
    "torn": lambda file: file.data[:len(file.data) // 2],
    "whole": lambda file: file.data,
}
# Up to so many changes of names that aren't synced, each choice among them is tried.
FEW = 4


class Disk:
    """The folders and files below a root; it begins with a tree that is synced.

    Files that were removed just before are named with their bytes: their names are gone, and not synced.
    """

    def __init__(self, tree, removed=None):
        self.root = Folder()
        self.root.synced = {name: File(data, data) for name, data in (removed or {}).items()}
        for path in sorted(tree):
            content = tree[path]
            above, name = self.above(path)
            node = Folder() if content is None else content if isinstance(content, Link) else File(content, content)
            above.members[name] = above.synced[name] = node

    def find(self, path, synced=False):
        """What stands at a path, or, where asked so, what was synced last along it."""
        node = self.root
        for name in path.split("/") if path != "." else []:
            node = (node.synced if synced else node.members).get(name) if isinstance(node, Folder) else None
        return node

    def above(self, path):
        """The folder that stands above a path, and the path's last name."""
        head, _, name = path.rpartition("/")
        return self.find(head or "."), name

    def apply(self, change):
        """Makes the change."""
        getattr(self, f"do_{change.kind}")(change)

    def do_line(self, change):
        """Nothing here."""

    do_start = do_end = do_line

    def do_create(self, change):
        above, name = self.above(change.path)
        if name not in above.members:
            above.members[name] = File(b"")

    def do_empty(self, change):
        self.do_create(change)
        self.find(change.path).data = b""

    def do_write(self, change):
        file = self.find(change.path)
        at = len(file.data) if change.at < 0 else change.at
        file.data = file.data[:at].ljust(at, b"\0") + change.data + file.data[at + len(change.data):]

    def do_truncate(self, change):
        file = self.find(change.path)
        file.data = file.data[:change.at].ljust(change.at, b"\0")

    def do_remove(self, change):
        above, name = self.above(change.path)
        del above.members[name]

    def do_folder(self, change):
        above, name = self.above(change.path)
        above.members[name] = Folder()

    def do_rename(self, change):
        above, name = self.above(change.path)
        to, new_name = self.above(change.target)
        to.members[new_name] = above.members.pop(name)

    def do_link(self, change):
        to, name = self.above(change.target)
        to.members[name] = self.find(change.path)

    def do_symlink(self, change):
        above, name = self.above(change.path)
        above.members[name] = Link(change.target)

    def do_sync(self, change):
        node = self.find(change.path)
        if isinstance(node, Folder):
            node.synced = dict(node.members)
        else:
            node.synced = node.data

    def is_synced(self, path):
        """Whether a sync of the path changes nothing."""
        node = self.find(path)
        return node.members == node.synced if isinstance(node, Folder) else node.data == node.synced

    def standing(self):
        """The tree that stands."""
        return self.tree(self.unsynced_names(), SPOILT["whole"])

    def images(self):
        """The trees that a power cut may leave now, each with what it makes of names and of bytes."""
        unsynced = self.unsynced_names()
        for kept in choices(unsynced):
            names = ", ".join(name for _, name in kept)
            for how, bytes_of in SPOILT.items():
                yield f"unsynced names kept: {names or 'none'}; unsynced bytes {how}", self.tree(kept, bytes_of)

    def unsynced_names(self):
        """Each folder and name in it whose member isn't the one that was synced last."""
        found, folders = [], [self.root]
        for folder in folders:
            for name in sorted({*folder.members, *folder.synced}):
                ends = [folder.members.get(name), folder.synced.get(name)]
                if ends[0] is not ends[1]:
                    found.append((folder, name))
                folders += [node for node in dict.fromkeys(ends) if isinstance(node, Folder)]
        return found

    def tree(self, kept, bytes_of):
        """The tree in which these names stand as they are now, and all others as they were synced last."""
        tree, kept = {}, {(id(folder), name) for folder, name in kept}

        def walk(folder, above):
            for name in {*folder.members, *folder.synced}:
                is_kept = (id(folder), name) in kept
                node = (folder.members if is_kept else folder.synced).get(name)
                if isinstance(node, Folder):
                    tree[above + name] = None
                    walk(node, above + name + "/")
                elif node is not None:
                    is_unsynced = isinstance(node, File) and node.data != node.synced
                    tree[above + name] = bytes_of(node) if is_unsynced else getattr(node, "data", node)

        walk(self.root, "")
        return tree


def choices(items):
    """All choices among a few items; among more, none, all, one alone, and all but one."""
    sizes = range(len(items) + 1) if len(items) <= FEW else (0, 1, len(items) - 1, len(items))
    return itertools.chain.from_iterable(itertools.combinations(items, size) for size in sizes)
