#!/usr/bin/env python3
"""Tries random graphs of stages over real files against a small plain model of what a `repro` has to do.

A graph has stages in any written order, folders as dependencies and outputs, a file of a folder that another stage makes, a `foreach`
group, frozen stages and stages that are always changed; some sources have track files. Between commands sources, outputs and stages are edited. Each command has a random
choice of targets and of `-f`; its lines, its answer, each file, each track file and `dvc.lock` have to be those of the model, which is told below in a few
functions and knows neither names nor places of objects. `.ci/run` runs this after the gate; words give the seed and the number of graphs.
The first failure ends the script, and tells its graph.
"""
import json
import os
import random
import shutil
import sys
import tempfile
from dataclasses import dataclass, field

from common import DVC, ROOM, entry, expect, lock, name_of, need_built, plant, read, repro, runs, skips, write

GRAPHS, STEPS = 60, 8
SOURCES = ("s0", "s1", "s2")


@dataclass
class Stage:
    """A stage as the model knows it; the name of its group is empty where no template made it."""
    name: str
    group: str
    deps: list
    out: str
    is_folder: bool
    frozen: bool = False
    always: bool = False
    version: int = 0

    def command(self):
        """What it runs: all that it reads goes into its output, behind its name."""
        reads = "".join(f"; cat {dep}/*" if is_folder(dep) else f"; cat {dep}" for dep in self.deps)
        if self.is_folder:
            return f"mkdir -p {self.out} && echo {self.version} > {self.out}/e && (echo {self.name}{reads}) > {self.out}/f"
        return f"(echo {self.name} {self.version}{reads}) > {self.out}"


def is_folder(path):
    """Whether a path is that of a folder: folders are named so."""
    return path.startswith("d") and "/" not in path


def track(path, value):
    """The text of a track file that has recorded a value."""
    size = sum(map(len, value.values())) if isinstance(value, dict) else len(value)
    files = f"  nfiles: {len(value)}\n" if isinstance(value, dict) else ""
    return f"outs:\n- md5: {name_of(value)}\n  size: {size}\n{files}  hash: md5\n  path: {path}\n".encode()


@dataclass
class Model:
    """The workspace: stages in the order in which they are written, values by their paths, what is remembered, and what the track files
    of some sources have recorded."""
    stages: list
    values: dict = field(default_factory=dict)
    remembered: dict = field(default_factory=dict)
    tracked: dict = field(default_factory=dict)

    def value(self, path):
        """What stands at a path, or nothing; a file of a folder is looked for in it."""
        folder, _, name = path.partition("/")
        return self.values.get(folder, {}).get(name) if name else self.values.get(path)

    def above(self, stage):
        """The stages that make what a stage reads. What a frozen stage reads counts for nothing."""
        made = set() if stage.frozen else {dep.partition("/")[0] for dep in stage.deps}
        return [other for other in self.stages if other.out in made]

    def order(self):
        """Again and again the first stage whose stages above are all done."""
        done = []
        while len(done) < len(self.stages):
            done.append(next(s for s in self.stages if s not in done and all(a in done for a in self.above(s))))
        return done

    def chosen(self, targets):
        """The stages that targets name, or else their groups, with all above them; all where there is no target."""
        if not targets:
            return self.order()
        wanted = [s for t in targets for s in ([s for s in self.stages if s.name == t] or [s for s in self.stages if s.group == t])]
        for stage in wanted:
            wanted += [other for other in self.above(stage) if other not in wanted]
        return [s for s in self.order() if s in wanted]

    def sources(self, targets):
        """The sources whose track files are recorded: those that targets name, and those that a chosen stage reads; all without a target."""
        read = {dep.partition("/")[0] for stage in self.chosen(targets) for dep in stage.deps}
        return sorted(path for path in self.tracked if not targets or f"{path}.dvc" in targets or path in read)

    def made(self, stage):
        """The value that a stage's command makes of what stands at its dependencies."""
        def content(dep):
            value = self.value(dep)
            return b"".join(value[name] for name in sorted(value)) if isinstance(value, dict) else value
        reads = b"".join(content(dep) for dep in stage.deps)
        if stage.is_folder:
            return {"e": f"{stage.version}\n".encode(), "f": f"{stage.name}\n".encode() + reads}
        return f"{stage.name} {stage.version}\n".encode() + reads

    def present(self, stage):
        """The entry of a stage as things stand: its command, and the values at its dependencies and at its output."""
        return stage.command(), {dep: self.value(dep) for dep in stage.deps}, {stage.out: self.values.get(stage.out)}

    def repro(self, force, targets):
        """The answer: the status, the lines, and the line of a fault."""
        names = {s.name for s in self.stages} | {s.group for s in self.stages if s.group} | {f"{path}.dvc" for path in self.tracked}
        for target in targets:
            if target not in names:
                return 255, "", f"ERROR: no stage or file '{target}'\n"
        for path in self.sources(targets):
            if self.value(path) is None:
                return 255, "", f"ERROR: missing data '{path}'\n"
            self.tracked[path] = self.value(path)
        lines = ""
        for stage in self.chosen(targets):
            if stage.frozen:
                continue
            for dep in stage.deps:
                if self.value(dep) is None:
                    return 255, lines, f"ERROR: stage '{stage.name}': missing dependency '{dep}'\n"
            if force or stage.always or self.remembered.get(stage.name) != self.present(stage):
                lines += runs(stage.name, stage.command())
                self.values[stage.out] = self.made(stage)
                self.remembered[stage.name] = self.present(stage)
            else:
                lines += skips(stage.name)
        return 0, lines, ""

    def lock(self):
        """The text of `dvc.lock`; none where nothing was ever remembered."""
        return lock([entry(name, *told) for name, told in self.remembered.items()]).encode() if self.remembered else None

    def yaml(self):
        """The text of `dvc.yaml`. The stages of the group stand as one template, where the first of them is written."""
        lines, told = ["stages:"], set()
        for stage in self.stages:
            if stage.group in told:
                continue
            name, command, deps, out = stage.name, stage.command(), stage.deps, stage.out
            if stage.group:
                told.add(stage.group)
                item = stage.name.partition("@")[2]
                name, command = stage.group, command.replace(f"@{item}", "@${item}").replace(f"_{item}", "_${item}")
                out = out.replace(f"_{item}", "_${item}")
                items = [s.name.partition("@")[2] for s in self.stages if s.group == stage.group]
                lines += [f"  {name}:", f"    foreach: {json.dumps(items)}", "    do:"]
            else:
                lines += [f"  {name}:"]
            lines += [f"      cmd: {json.dumps(command)}", f"      deps: {json.dumps(deps)}", f"      outs: {json.dumps([out])}"]
            lines += [f"      {key}: true" for key, on in (("frozen", stage.frozen), ("always_changed", stage.always)) if on]
        return "\n".join(lines) + "\n"


def random_model(chance):
    """Some stages, each of which reads sources and what earlier ones make, written in any order."""
    stages, readable = [], [*SOURCES, "d"]
    for number in range(chance.randint(1, 7)):
        deps = sorted(chance.sample(readable, chance.randint(1, min(3, len(readable)))), key=lambda dep: chance.random())
        kind = chance.random()
        frozen, always = chance.random() < 0.15, chance.random() < 0.1
        if kind < 0.2 and not any(s.group for s in stages):
            for item in ("x", "y"):
                stages.append(Stage(f"g@{item}", "g", deps, f"o{number}_{item}", False, frozen, always))
                readable.append(f"o{number}_{item}")
        elif kind < 0.5:
            stages.append(Stage(f"n{number}", "", deps, f"d{number}", True, frozen, always))
            readable += [f"d{number}", f"d{number}/f"]
        else:
            stages.append(Stage(f"n{number}", "", deps, f"o{number}", False, frozen, always))
            readable.append(f"o{number}")
    groups = [[s for s in stages if s.group]] if any(s.group for s in stages) else []
    written = groups + [[s] for s in stages if not s.group]
    chance.shuffle(written)
    values = {name: f"{name} {chance.random()}\n".encode() for name in SOURCES}
    values["d"] = {"a": b"in a folder\n", "b": b"and another\n"}
    tracked = {path: b"never there\n" for path in values if chance.random() < 0.4}
    return Model([s for part in written for s in part], values, tracked=tracked)


def edit(chance, model):
    """One edit of a source, of an output or of a stage."""
    kind, stage = chance.randrange(7), chance.choice(model.stages)
    same = [s for s in model.stages if s.group and s.group == stage.group] or [stage]
    if kind == 0:
        model.values[chance.choice(SOURCES)] = f"edited {chance.random()}\n".encode()
    elif kind == 1:
        model.values["d"] = {chance.choice("abc"): f"{chance.random()}\n".encode(), "z": b"last\n"}
    elif kind == 2:
        model.values.pop(stage.out, None)
    elif kind == 3 and stage.out in model.values:
        model.values[stage.out] = {"e": b"", "f": b"edited\n"} if stage.is_folder else b"edited\n"
    elif kind == 4:
        for one in same:
            one.frozen = not one.frozen
    elif kind == 5:
        for one in same:
            one.version += 1
    else:
        model.values.pop(chance.choice(SOURCES), None)


def put_all(folder, model):
    """The workspace is as the model has it."""
    write(folder, "dvc.yaml", model.yaml().encode())
    for path, value in model.tracked.items():
        write(folder, f"{path}.dvc", track(path, value))
    for path in {*SOURCES, "d", *(s.out for s in model.stages)}:
        at, value = os.path.join(folder, path), model.values.get(path)
        if os.path.isdir(at):
            shutil.rmtree(at)
        elif os.path.lexists(at):
            os.remove(at)
        if isinstance(value, dict):
            plant(folder, {path: None} | {f"{path}/{name}": content for name, content in value.items()})
        elif value is not None:
            write(folder, path, value)


def found(folder, path):
    """What stands at a path: a file's bytes, a folder's files, or nothing."""
    at = os.path.join(folder, path)
    return {name: read(at, name) for name in os.listdir(at)} if os.path.isdir(at) else read(folder, path)


def random_words(chance, model):
    """Whether a command is forced, and its targets."""
    names = [s.name for s in model.stages] + [s.group for s in model.stages if s.group] + [f"{path}.dvc" for path in model.tracked] + (["nope"] if chance.random() < 0.1 else [])
    return chance.random() < 0.2, chance.sample(names, min(len(names), chance.choice((0, 0, 1, 1, 2))))


def check_graph(chance, number):
    """One graph, with some commands and edits."""
    model = random_model(chance)
    with tempfile.TemporaryDirectory(dir=ROOM) as folder:
        for step in range(STEPS):
            put_all(folder, model)
            force, targets = random_words(chance, model)
            words = ("repro", *([chance.choice(("-f", "--force"))] if force else []), *targets)
            what = f"graph {number}, step {step}, {' '.join(words)}, of\n{model.yaml()}"
            expect(what, repro(folder, words), model.repro(force, targets))
            expect(f"dvc.lock, {what}", read(folder, "dvc.lock"), model.lock())
            for path, value in model.tracked.items():
                expect(f"{path}.dvc, {what}", read(folder, f"{path}.dvc"), track(path, value))
            for stage in model.stages:
                expect(f"{stage.out}, {what}", found(folder, stage.out), model.values.get(stage.out))
            edit(chance, model)


def main():
    need_built(DVC)
    seed, graphs = (int(word) for word in (sys.argv[1:] + ["1", str(GRAPHS)][len(sys.argv) - 1:])[:2])
    chance = random.Random(seed)
    for number in range(graphs):
        check_graph(chance, number)
    print(f"random graphs: {graphs} of {STEPS} commands each are as the model has them")


if __name__ == "__main__":
    main()
