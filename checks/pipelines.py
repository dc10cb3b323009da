#!/usr/bin/env python3
"""Tries parameters, templates, frozen stages, options of outputs, targets and track files over real files.

The examples of docs/GUIDE.md, which have to stand there letter by letter; graphs that are refused; pipelines as DVC's documentation describes them, written
anew: tracked parameters, `${model.lr}`, `foreach` over a list and a mapping, a `matrix` of two by two, `vars` from a file with chosen
keys; each refusal with its words, in its order; and hostile texts, which have to be read or refused within a time that grows with their
length. `.ci/run` runs this after the gate; DVC names another program than the one of this clone, and words name single checks (CHECKS, at
the end). The first failure ends the script.
"""
import hashlib
import json
import os
import sys
import tempfile

from common import DVC, MIB, ROOM, TOP, entry, expect, lock, need_built, plant, planted, read, repro, runs, seconds, skips, write


class Project:
    """A project in a folder of its own, which goes when the check ends."""

    def __init__(self, room, tree):
        self.folder = tempfile.mkdtemp(dir=room)
        plant(self.folder, tree)

    def put(self, **texts):
        """Puts files of the project's folder; the dots of their names are written as two underscores."""
        for name, text in texts.items():
            write(self.folder, name.replace("__", "."), text)

    def told(self, *words):
        """What a `repro` with these words answers: its lines, or the fault's text."""
        status, lines, errors = repro(self.folder, ("repro", *words))
        return lines if status == 0 else (lines, errors.removeprefix("ERROR: ").removesuffix("\n"))

    def read(self, name):
        """The text of a file, or none."""
        found = read(self.folder, name)
        return None if found is None else found.decode()


def with_params(text, files):
    """The lines of an entry, with the lines of its parameters before its outputs."""
    lines = ["    params:\n"]
    for name, keys in files.items():
        lines.append(f"      {name}:\n")
        lines += [f"        {key}: {value}\n" for key, value in keys.items()]
    head, outs = text.split("    outs:\n")
    return head + "".join(lines) + "    outs:\n" + outs


# ---- the guide's examples

PARAMETERS = """stages:
  train:
    cmd: sh train.sh > model
    deps: [train.sh, data]
    params:
    - train.rate
    - train.layers[0]
    - conf/seeds.yaml:
      - first
    outs: [model]
    metrics:
    - score.json:
        cache: false
"""
TEMPLATES = """vars:
- model: {lr: 0.1, name: small}
- paths.yaml:in,out

stages:
  train:
    cmd: echo ${model.lr} ${model.name} > ${out}/model
    deps:
    - ${in}
    outs:
    - ${out}/model

  words:
    foreach: [red, green]
    do:
      cmd: echo ${item} > ${item}.txt
      outs:
      - ${item}.txt

  towns:
    foreach:
      uk: {capital: London}
      us: {capital: Washington}
    do:
      cmd: echo ${item.capital} > ${key}.town
      outs: ["${key}.town"]

  grid:
    matrix:
      lr: [0.1, 0.5]
      size: [s, m]
    cmd: echo ${item.lr} ${item.size} > ${key}.grid
    outs:
    - ${key}.grid
"""


def guide():
    """The text of the guide."""
    with open(os.path.join(TOP, "docs", "GUIDE.md"), encoding="utf-8") as file:
        return file.read()


def check_guide(room):
    """The guide's examples do what it says."""
    for example in (PARAMETERS, TEMPLATES):
        expect("an example stands in the guide", f"```\n{example}```\n" in guide(), True)
    train = "echo trained; echo 1 > score.json\n"
    project = Project(room, {
        "dvc.yaml": PARAMETERS.encode(), "train.sh": train.encode(), "data": b"abc", "conf": None,
        "conf/seeds.yaml": b"first: 7\nsecond: 8\n", "params.yaml": b"train:\n  rate: 0.10\n  layers: [3, 4]\n",
    })
    command, ran, skipped = "sh train.sh > model", runs("train", "sh train.sh > model"), skips("train")
    expect("the first run", project.told(), ran)
    expect("the entry", project.read("dvc.lock"), lock([with_params(
        entry("train", command, {"train.sh": train.encode(), "data": b"abc"}, {"model": b"trained\n", "score.json": b"1\n"}),
        {"conf/seeds.yaml": {"first": 7}, "params.yaml": {"train.layers[0]": 3, "train.rate": "0.10"}})]))
    expect("nothing has changed", project.told(), skipped)
    project.put(params__yaml="train: {layers: [3.0, 9], rate: 1e-1, more: x}\n")
    expect("the same values in other words, and others beside them", project.told(), skipped)
    project.put(params__yaml="train: {layers: [4, 9], rate: 1e-1}\n")
    expect("another value", project.told(), ran)
    write(project.folder, "conf/seeds.yaml", "first: 7\nsecond: 9\n")
    expect("a key that isn't tracked", project.told(), skipped)
    write(project.folder, "score.json", "2\n")
    expect("a metric that was edited", project.told(), ran)
    project.put(params__yaml="train: {layers: [], rate: 1e-1}\n")
    expect("a key that is gone", project.told(), ("", "'params.yaml' has no key 'train.layers[0]'"))

    project = Project(room, {
        "dvc.yaml": TEMPLATES.encode(), "paths.yaml": b"in: source\nout: made\nmodel: {lr: 9}\n", "source": b"x",
    })
    lines = project.told()
    expect("the stages of the guide's second example", [line.split("'")[1] for line in lines.splitlines() if line[0] == "R"], [
        "train", "words@red", "words@green", "towns@uk", "towns@us", "grid@0.1-s", "grid@0.1-m", "grid@0.5-s", "grid@0.5-m",
    ])
    for name, text in (("made/model", "0.1 small\n"), ("green.txt", "green\n"), ("us.town", "Washington\n"), ("0.5-s.grid", "0.5 s\n")):
        expect(name, project.read(name), text)
    # A stage without dependencies and parameters is run each time.
    skipped = lines.replace(runs("train", "echo 0.1 small > made/model"), skips("train"))
    expect("nothing was edited", project.told(), skipped)
    project.put(dvc__yaml=TEMPLATES.replace("lr: 0.1, ", "lr: 0.2, "))
    expect("a variable was edited", project.told(), lines.replace("0.1 small", "0.2 small"))
    expect("what it gives", project.read("made/model"), "0.2 small\n")


# ---- a pipeline of four stages

FOUR = """stages:
  prepare:
    cmd: cat data.csv > prepared.txt
    deps:
    - data.csv
    outs:
    - prepared.txt
  featurize:
    cmd: cat prepared.txt > features.txt
    deps:
    - prepared.txt
    outs:
    - features.txt
  train:
    cmd: printf %s ${train.letter} > model.bin
    deps:
    - features.txt
    params:
    - train.letter
    - train.rate
    outs:
    - model.bin
  evaluate:
    cmd:
    - cat model.bin > metrics.json
    - cat features.txt > plot.csv
    deps:
    - features.txt
    - model.bin
    metrics:
    - metrics.json:
        cache: false
    plots:
    - plot.csv:
        x: n
"""
ONE, TWO = skips("prepare") + skips("featurize"), ["cat model.bin > metrics.json", "cat features.txt > plot.csv"]


def four_entries(letter, rate):
    """The entries of the four stages."""
    abc, model = b"abc", letter.encode()
    return [
        entry("prepare", "cat data.csv > prepared.txt", {"data.csv": abc}, {"prepared.txt": abc}),
        entry("featurize", "cat prepared.txt > features.txt", {"prepared.txt": abc}, {"features.txt": abc}),
        with_params(entry("train", f"printf %s {letter} > model.bin", {"features.txt": abc}, {"model.bin": model}),
                    {"params.yaml": {"train.letter": letter, "train.rate": rate}}),
        entry("evaluate", TWO, {"features.txt": abc, "model.bin": model}, {"metrics.json": model, "plot.csv": abc}),
    ]


def rates(letter, rate):
    """A file of parameters."""
    return f"train:\n  letter: {letter}\n  rate: {rate}\n"


def check_four(room):
    """The edits of a parameter in a pipeline of four stages, and what each of them runs."""
    project = Project(room, {"data.csv": b"abc", "dvc.yaml": FOUR.encode(), "params.yaml": rates("a", "0.10").encode()})
    train, evaluate = runs("train", "printf %s a > model.bin"), runs("evaluate", *TWO)
    expect("the first run", project.told(), runs("prepare", "cat data.csv > prepared.txt")
           + runs("featurize", "cat prepared.txt > features.txt") + train + evaluate)
    first = lock(four_entries("a", "0.10"))
    expect("the lock", project.read("dvc.lock"), first)
    expect("an uncached output has no object", os.path.exists(os.path.join(
        project.folder, ".dvc/cache/files/md5/0c/c175b9c0f1b6a831c399e269772661")), True)
    expect("nothing has changed", project.told(), ONE + skips("train") + skips("evaluate"))
    project.put(params__yaml=rates("a", "0.1"))
    expect("the same rate in other words", project.told(), ONE + skips("train") + skips("evaluate"))
    expect("the lock is as it was", project.read("dvc.lock"), first)
    os.remove(os.path.join(project.folder, "metrics.json"))
    expect("a metric is gone", project.told(), ONE + skips("train") + evaluate)
    project.put(params__yaml=rates("a", "0.2"))
    expect("another rate", project.told(), ONE + train + skips("evaluate"))
    project.put(params__yaml=rates("b", "0.2"))
    expect("another letter", project.told(), ONE + runs("train", "printf %s b > model.bin") + evaluate)
    last = lock(four_entries("b", "0.2"))
    expect("the last lock", project.read("dvc.lock"), last)
    project.put(dvc__yaml=FOUR.replace("printf %s ${train.letter} > model.bin", "exit 3"))
    for _ in range(2):
        expect("a command that fails", project.told(), (ONE + runs("train", "exit 3"), "stage 'train' failed with 3"))
        expect("its output", project.read("model.bin"), None)
        expect("the lock after it", project.read("dvc.lock"), last)


def check_uncached(room):
    """Outputs with options: one that isn't put into the cache is compared, and has no object."""
    text = "stages: {a: {cmd: 'cat in > out', deps: [in], outs: [{out: {cache: false}}]}}\n"
    project = Project(room, {"in": b"abc", "dvc.yaml": text.encode()})
    expect("the run", project.told(), runs("a", "cat in > out"))
    expect("the entry", project.read("dvc.lock"), lock([entry("a", "cat in > out", {"in": b"abc"}, {"out": b"abc"})]))
    expect("no object is there", [path for path in planted(project.folder) if path.startswith(".dvc/cache")], [])
    expect("nothing has changed", project.told(), skips("a"))
    project.put(out="x")
    expect("the output was edited", project.told(), runs("a", "cat in > out"))


def check_frozen(room):
    """Frozen stages and those that always count as changed."""
    text = ("stages: {{a: {{cmd: 'cat in > mid', deps: [in], outs: [mid]{}}}, b: {{cmd: 'cat mid > out', deps: [mid], outs: [out]}}, "
            "c: {{cmd: 'cat in > c', deps: [in], outs: [c], always_changed: true{}}}, d: {{cmd: 'echo x > d', outs: [d]{}}}}}\n")
    project = Project(room, {"in": b"abc", "dvc.yaml": text.format("", "", "").encode()})
    runs_of = {"a": runs("a", "cat in > mid"), "b": runs("b", "cat mid > out"), "c": runs("c", "cat in > c"), "d": runs("d", "echo x > d")}
    expect("the first run", project.told(), "".join(runs_of.values()))
    expect("what always runs", project.told(), skips("a") + skips("b") + runs_of["c"] + runs_of["d"])
    frozen = ", frozen: true"
    project.put(dvc__yaml=text.format(frozen, frozen, frozen))
    expect("frozen ones have no turn", project.told(), skips("b"))
    project.put(mid="edited")
    expect("what a frozen stage makes is a source", project.told(), runs_of["b"])
    expect("and is left as it is", (project.read("mid"), project.read("out")), ("edited", "edited"))


# ---- targets

TARGETS = """stages:
  other: {cmd: cp in other.txt, deps: [in], outs: [other.txt]}
  down: {cmd: cp x.txt y.txt, deps: [x.txt], outs: [y.txt]}
  up: {cmd: cp in x.txt, deps: [in], outs: [x.txt]}
  words:
    foreach: [red, green]
    do: {cmd: 'cp in ${item}', deps: [in], outs: ["${item}"]}
"""


def check_targets(room):
    """Targets bring the stages above them, in order, and leave the others with their entries as they are."""
    project = Project(room, {"dvc.yaml": TARGETS.encode(), "in": b"abc"})
    up, down = runs("up", "cp in x.txt"), runs("down", "cp x.txt y.txt")
    red, green = runs("words@red", "cp in red"), runs("words@green", "cp in green")
    expect("a target", project.told("down"), up + down)
    expect("another stage", project.read("other.txt"), None)
    expect("a group", project.told("words"), red + green)
    expect("two targets", project.told("words@green", "up"), skips("up") + skips("words@green"))
    project.put(**{"in": "abd"})
    expect("after an edit", project.told("up"), up)
    expect("what is left", [project.read(name) for name in ("x.txt", "y.txt", "red")], ["abd", "abc", "abc"])
    values = {"x.txt": b"abd", "y.txt": b"abc", "red": b"abc", "green": b"abc"}
    expect("the other entries", project.read("dvc.lock"), lock([
        entry("up", "cp in x.txt", {"in": b"abd"}, {"x.txt": values["x.txt"]}), entry("down", "cp x.txt y.txt", {"x.txt": b"abc"}, {"y.txt": values["y.txt"]}),
        entry("words@red", "cp in red", {"in": b"abc"}, {"red": values["red"]}), entry("words@green", "cp in green", {"in": b"abc"}, {"green": values["green"]})]))
    expect("what is forced", project.told("-f", "down"), up + down)
    expect("the rest", project.told(), runs("other", "cp in other.txt") + skips("up") + skips("down") + red + green)
    expect("a target that is none", project.told("down", "x.txt"), ("", "no stage or file 'x.txt'"))


# ---- track files

def track(*outs, rest=""):
    """The text of a track file of such outs, each a path with its MD5, its size, and for a folder its number of files."""
    lines = [f"- md5: {digest}\n  size: {size}\n" + (f"  nfiles: {files}\n" if files else "") + f"  hash: md5\n  path: {path}\n" for path, digest, size, files in outs]
    return "outs:\n" + "".join(lines) + rest


def digest(content):
    """The MD5 of bytes."""
    return hashlib.md5(content).hexdigest()


COUNTS = b"day,count\n1,12\n2,15\n"
DESCRIBED = "desc: how often it was, day by day\n"


def check_tracks(room):
    """Track files are recorded before the turns: what they track goes into the cache, and a file is written anew where an entry differs."""
    told = track(("data.csv", digest(COUNTS), len(COUNTS), 0), rest=DESCRIBED)
    expect("whether the guide has the track file", f"```\n{told}```\n" in guide(), True)
    example = Project(room, {"data.csv": COUNTS, "data.csv.dvc": track(("data.csv", digest(b""), 0, 0), rest=DESCRIBED).encode()})
    expect("the guide's track file", (example.told(), example.read("data.csv.dvc")), ("", told))
    rest = "desc: where it comes from\nmeta:\n  size: 1\n"
    old = track(("data.csv", digest(b"old"), 3, 0), rest=rest)
    project = Project(room, {"dvc.yaml": b"stages: {sum: {cmd: cat raw/data.csv set/a set/b/c > out, deps: [raw/data.csv, set], outs: [out]}}",
                             "raw/data.csv": b"new", "raw/data.csv.dvc": old.encode(), "set/a": b"1", "set/b/c": b"22", "other.dvc": track(("other", digest(b""), 0, 0)).encode()})
    listing = json.dumps([{"md5": digest(b"1"), "relpath": "a"}, {"md5": digest(b"22"), "relpath": "b/c"}]).encode()
    project.put(**{"set.dvc": track(("set", digest(b"1") + ".dir", 9, 9))})
    expect("a source that is missing", project.told(), ("", "missing data 'other'"))
    expect("which comes first by its path", project.read("raw/data.csv.dvc"), old)
    ran = runs("sum", "cat raw/data.csv set/a set/b/c > out")
    expect("with a target it isn't looked at", project.told("sum")[:len(ran)], ran)
    expect("a file that is recorded keeps its other pairs", project.read("raw/data.csv.dvc"), track(("data.csv", digest(b"new"), 3, 0), rest=rest))
    expect("a folder", project.read("set.dvc"), track(("set", digest(listing) + ".dir", 3, 2)))
    expect("its listing is in the cache", project.read(f".dvc/cache/files/md5/{digest(listing)[:2]}/{digest(listing)[2:]}.dir"), listing.decode())
    expect("and its files", project.read(f".dvc/cache/files/md5/{digest(b'22')[:2]}/{digest(b'22')[2:]}"), "22")
    expect("what nothing has changed stays", project.told("sum"), skips("sum"))
    project.put(**{"other": "there"})
    expect("a track file as a target", project.told("other.dvc"), "")
    expect("it is recorded", project.read("other.dvc"), track(("other", digest(b"there"), 5, 0)))
    project.put(**{"raw/data.csv": "newer"})
    expect("all", project.told()[:len(ran)], ran)
    expect("are recorded", project.read("raw/data.csv.dvc"), track(("data.csv", digest(b"newer"), 5, 0), rest=rest))


# ---- graphs that are refused

TRACK = track(("a", "900150983cd24fb0d6963f7d28e17f72", 3, 0))
NO_GRAPH = {
    "a stage that reads the folder of its own output": ("stages: {a: {cmd: x, deps: [d], outs: [d/o]}}", {}, "cycle: a <- a"),
    "outputs that begin alike": ("stages: {a: {cmd: 'mkdir d; echo > d/ab', outs: [d/ab], frozen: true}, b: {cmd: x, outs: [d/a], frozen: true}}", {}, ""),
    "an output in another": ("stages: {a: {cmd: x, outs: [d/a]}, b: {cmd: x, outs: [d/a/b]}}", {}, "outputs 'd/a' and 'd/a/b' overlap"),
    "an output twice": ("stages: {a: {cmd: x, outs: [d/../o]}, b: {cmd: x, outs: [o]}}", {}, "'o' is an output of 'a' and 'b'"),
    "the first later output that overlaps, with the first one that it overlaps": (
        "stages: {a: {cmd: x, outs: [p/q, p/r]}, b: {cmd: x, outs: [p]}, c: {cmd: x, outs: [p/q/s]}}", {}, "outputs 'p/q' and 'p' overlap"),
    "a path that leads out": ("stages: {a: {cmd: x, outs: [d/../../o]}}", {}, "'d/../../o' is not a path of the workspace"),
    "a path from the root": ("stages: {a: {cmd: x, deps: [/o]}}", {}, "'/o' is not a path of the workspace"),
    "a path of another host": ("stages: {a: {cmd: x, deps: ['s3://o']}}", {}, "'dvc.yaml': 'stages.a.deps' is not supported"),
    "a path that is tracked out of the project": ("", {"d.dvc": track(("../a", "900150983cd24fb0d6963f7d28e17f72", 3, 0))}, "'../a' is not a path of the workspace"),
    "a track file inside an output": ("stages: {a: {cmd: x, outs: [d]}}", {"d/a.dvc": TRACK}, "'d' overlaps 'd/a.dvc'"),
    "what is tracked inside an output": ("stages: {a: {cmd: x, outs: [d]}}", {"a.dvc": track(("d/a", "900150983cd24fb0d6963f7d28e17f72", 3, 0))}, "outputs 'd/a' and 'd' overlap"),
    "track files of the tool's own folders are none": ("", {".dvc/a.dvc": "[", ".git/a.dvc": "[", ".hg/d/a.dvc": "["}, ""),
    "a rule": ("", {"d/e/.dvcignore": "# none\n\n  \nx*\n"}, "'d/e/.dvcignore' has rules"),
}


def check_graphs(room):
    """Graphs that have no order, each refused with its words; cycles of every length."""
    for what, (text, files, wanted) in NO_GRAPH.items():
        project = Project(room, {"dvc.yaml": text.encode()} | {name: content.encode() for name, content in files.items()})
        expect(what, project.told(), ("", wanted) if wanted else "")
    for length in range(1, 51):
        ring = "".join(f"  s{at}: {{cmd: x, deps: [o{(at + 1) % length}], outs: [o{at}]}}\n" for at in range(length))
        project = Project(room, {"dvc.yaml": f"stages:\n  before: {{cmd: x, outs: [b]}}\n{ring}  behind: {{cmd: x, deps: [o0], outs: [c]}}\n".encode()})
        walk = " <- ".join([*(f"s{at}" for at in range(length)), "s0"])
        expect(f"a cycle of {length} stages", project.told(), ("", f"cycle: {walk}"))
    project = Project(room, {"dvc.yaml": b"stages: {a: {cmd: x}}"})
    for target in ("../a", "/a", "", "a/../../b", "a.dvc"):
        expect(f"the target {target!r}", project.told(target), ("", f"no stage or file '{target}'"))


# ---- pipelines as they are documented

DOCUMENTED = {
    "a value of a mapping in a command": (
        "stages:\n  train:\n    cmd: echo ${model.lr} > out\n    params: [model]\n    outs: [out]\n",
        {"params.yaml": "model:\n  lr: 0.0001\n  layers: [64, 32]\n"}, {"out": "0.0001\n"}, ["train"]),
    "foreach over a list": (
        "stages:\n  clean:\n    foreach:\n    - raw1\n    - labels1\n    - raw2\n    do:\n      cmd: echo ${item} > ${item}.cln\n"
        "      outs:\n      - ${item}.cln\n",
        {}, {"raw1.cln": "raw1\n", "labels1.cln": "labels1\n"}, ["clean@raw1", "clean@labels1", "clean@raw2"]),
    "foreach over a mapping": (
        "stages:\n  build:\n    foreach:\n      uk:\n        epochs: 3\n        thresh: 10\n      us:\n        epochs: 10\n        thresh: 15\n"
        "    do:\n      cmd: echo ${key} ${item.epochs} ${item.thresh} > model-${key}.hdfs\n      outs:\n      - model-${key}.hdfs\n",
        {}, {"model-uk.hdfs": "uk 3 10\n", "model-us.hdfs": "us 10 15\n"}, ["build@uk", "build@us"]),
    "foreach over a key": (
        "stages:\n  one:\n    foreach: ${models}\n    do:\n      cmd: echo ${key} ${item.features} > ${key}\n      outs: [\"${key}\"]\n",
        {"params.yaml": "models:\n  us: {features: [1], n: 2}\n".replace("[1]", "5")}, {"us": "us 5\n"}, ["one@us"]),
    "a matrix of two by two": (
        "stages:\n  train:\n    matrix:\n      model: [cnn, xgb]\n      feature: [f1, f2]\n"
        "    cmd: echo --feature ${item.feature} ${item.model} > feature-${item.model}-${item.feature}.csv\n"
        "    outs:\n    - feature-${item.model}-${item.feature}.csv\n",
        {}, {"feature-xgb-f1.csv": "--feature f1 xgb\n"}, ["train@cnn-f1", "train@cnn-f2", "train@xgb-f1", "train@xgb-f2"]),
    "a matrix of mappings": (
        "stages:\n  train:\n    matrix:\n      model: [cnn, xgb]\n      config:\n      - n: 150\n      - n: 300\n"
        "    cmd: echo ${item.config.n} > ${item.model}${item.config.n}\n    outs: [\"${item.model}${item.config.n}\"]\n",
        {}, {"xgb300": "300\n"}, ["train@cnn-config0", "train@cnn-config1", "train@xgb-config0", "train@xgb-config1"]),
    "chosen keys of a file of variables": (
        "vars:\n- params.json:model,data\n- test_params.yaml\n- own: 5\nstages:\n  s:\n    cmd: echo ${model.x} ${data} ${own} ${deep.y} > out\n"
        "    vars:\n    - stage.yaml:z\n    wdir: ${dir}\n    outs: [out]\n",
        {"params.json": "{\"model\": {\"x\": 1}, \"data\": \"d\", \"own\": 7}", "test_params.yaml": "deep: {y: 2}\ndir: sub\n", "stage.yaml": "z: 3\ndata: 9\n"},
        {"sub/out": "1 d 5 2\n"}, ["s"]),
    "a dollar for the shell": (
        "stages:\n  s:\n    cmd: X=3; echo $X \\${X} ${y} > out\n    vars: [{y: 4}]\n    outs: [out]\n", {}, {"out": "3 3 4\n"}, ["s"]),
}


def check_documented(room):
    """Pipelines as DVC's documentation has them."""
    for what, (text, files, made, names) in DOCUMENTED.items():
        project = Project(room, {"dvc.yaml": text.encode()} | {name: content.encode() for name, content in files.items()})
        lines = project.told()
        expect(what, [line.split("'")[1] for line in lines.splitlines() if line.startswith("Running")] if isinstance(lines, str) else lines, names)
        for name, content in made.items():
            expect(f"{what}: {name}", project.read(name), content)


# ---- refusals

LONG = "1" * 1000
REFUSED = {
    "a key without an end stays": ("stages: {a: {cmd: 'echo ${b', frozen: true}}", {}, ""),
    "a list put into a command": ("vars: [{l: [1]}]\nstages: {a: {cmd: 'echo ${l}'}}", {}, "'l' is not a scalar"),
    "no variable": ("stages: {a: {cmd: 'echo ${nope}'}}", {}, "no variable 'nope'"),
    "what was put in isn't read again": ("vars: [v.yaml]\nstages: {a: {cmd: 'echo ${a}', frozen: true}}", {"v.yaml": "a: ${b}\nb: ${a}\n"}, ""),
    "a variable with a template": ("vars: [{a: '${b}'}]", {}, "'dvc.yaml': 'vars' is not supported"),
    "foreach over a number": ("stages: {a: {foreach: 1, do: {cmd: x}}}", {}, "'dvc.yaml': bad value at 'stages.a.foreach'"),
    "foreach over a key that leads to a number": ("vars: [{n: 1}]\nstages: {a: {foreach: '${n}', do: {cmd: x}}}", {}, "'dvc.yaml': bad value at 'stages.a.foreach'"),
    "two values under one key": ("vars: [{a: 1}, {a: 2}]", {}, "'dvc.yaml': bad value at 'a'"),
    "a missing file of variables": ("vars: [none.yaml]", {}, "'none.yaml' is missing"),
    "a missing key of one": ("vars: ['v.yaml:x,y']", {"v.yaml": "x: 1\n"}, "'v.yaml' has no key 'y'"),
    "an ill-formed one": ("vars: [v.yaml]", {"v.yaml": "a: [\n"}, "'v.yaml' line 1: syntax"),
    "a list as one": ("vars: [v.yaml]", {"v.yaml": "- a\n"}, "'v.yaml': bad value at ''"),
    "one from elsewhere, of which the file is what stands before the first colon": ("vars: [s3://v.yaml]", {}, "'s3' is missing"),
    "one out of the folder": ("vars: [../v.yaml]", {}, "'../v.yaml' is not a path of the workspace"),
    "one that a stage makes": ("vars: [v.yaml]\nstages: {a: {cmd: x, outs: [v.yaml]}}", {"v.yaml": "a: 1\n"}, "variables in 'v.yaml' come from output 'v.yaml'"),
    "more stages than there may be": (
        "stages: {{a: {{matrix: {{m: [{}], n: [{}]}}, cmd: x}}, b: {{}}}}".format(
            ", ".join(map(str, range(100))), ", ".join(map(str, range(101)))), {}, "limit 10000 passed"),
    "far more": (
        "stages: {{a: {{matrix: {{l: [{0}], m: [{0}], n: [{0}]}}, cmd: x}}}}".format(", ".join(map(str, range(3000)))), {}, "limit 10000 passed"),
    "two stages of one name": ("stages: {a: {foreach: [x, x], do: {cmd: c}}}", {}, "'dvc.yaml': bad value at 'stages.a@x'"),
    "a missing file of parameters": ("stages: {a: {cmd: x, params: [k]}}", {}, "'params.yaml' is missing"),
    "a missing key of it": ("stages: {a: {cmd: x, params: [k.l]}}", {"params.yaml": "k: {m: 1}\n"}, "'params.yaml' has no key 'k.l'"),
    "60 lists in one another": ("stages: {a: {cmd: x, params: [k]}}", {"params.yaml": "j: 1\nk: " + "[" * 60 + "]" * 60 + "\n"}, "'params.yaml': bad value at 'k'"),
    "a number of 1,000 digits that can't be told": ("stages: {a: {cmd: x, params: [k]}}", {"params.yaml": f"k: {LONG}\n"}, "'params.yaml' line 1: number too wide"),
    "keys with points and brackets": (
        "stages: {a: {cmd: x, params: [{p.yaml: ['a.b', 'c[1].d', 'e f', 'g[1']}]}}", {"p.yaml": "{a: {b: 1}, c: [0, {d: 2}], e f: 3, g: [1, 2]}"},
        "'p.yaml' has no key 'g[1'"),
}


def check_refused(room):
    """Each refusal with its words, before anything runs."""
    for what, (text, files, wanted) in REFUSED.items():
        project = Project(room, {"dvc.yaml": text.encode()} | {name: content.encode() for name, content in files.items()})
        expect(what, project.told(), ("", wanted) if wanted else "")


# ---- hostile texts

def check_hostile(room):
    """Texts that are long or deep are read within a time that grows with their length."""
    stage = "stages: {a: {cmd: 'echo x > out', params: [k], outs: [out]}}\n"
    ran, skipped = runs("a", "echo x > out"), skips("a")
    digits = "0." + "0" * 29 + "1" * 38
    for what, value in (("59 lists in one another", "[" * 59 + "]" * 59), ("a number of many digits", digits), ("a long text", "'" + "x" * MIB + "'")):
        project = Project(room, {"dvc.yaml": stage.encode(), "params.yaml": f"k: {value}\n".encode()})
        expect(what, project.told(), ran)
        expect(f"{what}, again", project.told(), skipped)
    zeros = Project(room, {"dvc.yaml": stage.encode(), "params.yaml": b"k: 0." + b"0" * MIB + b"\n"})
    expect("a zero of a million digits", zeros.told(), ran)
    zeros.put(params__yaml="k: 0\n")
    expect("the same zero", zeros.told(), skipped)
    big = Project(room, {"dvc.yaml": stage.encode(), "params.yaml": b"k: 1\n" + (b"#" + b"x" * 62 + b"\n") * (64 * MIB // 64 - 1)})
    taken = seconds([DVC, "repro"], big.folder)
    if taken > 60:
        raise SystemExit(f"a file of parameters of 64 MiB takes {taken:.0f} seconds")
    big.put(params__yaml=b"k: 1\n#" + b"x" * 64 * MIB)
    expect("a longer one", big.told(), ("", "limit 67108864 passed"))
    many = "".join(f"- {number}\n" for number in range(10_000))
    wide = Project(room, {"dvc.yaml": f"vars:\n- l:\n  {many.replace(chr(10), chr(10) + '  ').rstrip()}\nstages:\n  a:\n    frozen: true\n    foreach: ${{l}}\n    do: {{cmd: 'echo ${{item}}', frozen: true}}\n".replace("    frozen: true\n    foreach", "    foreach").encode()})
    taken = seconds([DVC, "repro"], wide.folder)
    if taken > 10:
        raise SystemExit(f"10,000 stages of a list take {taken:.0f} seconds")


CHECKS = {
    "guide": check_guide, "four": check_four, "uncached": check_uncached, "frozen": check_frozen, "targets": check_targets, "tracks": check_tracks, "graphs": check_graphs,
    "documented": check_documented, "refused": check_refused, "hostile": check_hostile,
}


def main():
    need_built(DVC)
    for name in sys.argv[1:] or CHECKS:
        with tempfile.TemporaryDirectory(dir=ROOM) as room:
            CHECKS[name](room)
        print(f"pipelines, {name}: as it has to be", flush=True)


if __name__ == "__main__":
    main()
