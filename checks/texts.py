#!/usr/bin/env python3
"""Puts texts of `dvc.yaml`, `dvc.lock` and track files, as DVC 3 and people write them, through the programs.

Each text of the tables of `record_table` and `stage_table` is put into a project, and `dvc` has to answer of it what the table's
program says. Then `dvc.yaml` in several spellings, which all have to be run alike; a lock in several spellings, by which all is
skipped; what is refused, with its line; and which of several refusals comes. `.ci/run` runs this after the gate; DVC,
RECORD_TABLE and STAGE_TABLE name other programs than those of this clone, and words name single checks (CHECKS, at the end).
"""
import os
import re
import subprocess
import sys
import tempfile

from common import (
    DVC, RECORD_TABLE, STAGE_TABLE, TOP, entry, expect, lock, need_built, plant, planted, read, repro, runs, shown, skips, write,
)

# ---- texts of the tables


def outcomes(program, texts, head):
    """What a table's program says of each text: the lines behind its last `=> `."""
    with tempfile.TemporaryDirectory() as folder:
        write(folder, "table", b"".join(b"= " + head + b"\n" + text for text in texts))
        done = subprocess.run([program, "table"], cwd=folder, capture_output=True, check=True)
    told = re.split(rb"^= .*\n", done.stdout, flags=re.M)[1:]
    expect(f"how many texts {os.path.basename(program)} tells of", len(told), len(texts))
    return [whole[len(text):].decode() for whole, text in zip(told, texts)]


def table(crate):
    """The heads and the texts of a crate's table; a text without a head of its own has none."""
    with open(os.path.join(TOP, "crates", crate, "data", "table"), "rb") as file:
        whole = file.read()
    parts = re.split(rb"^= (.*)\n", b"\n" + whole, flags=re.M)
    lines = [line + b"\n" for line in parts[0].splitlines() if line and not line.startswith(b"#")]
    return [(b"", line) for line in lines] + list(zip(parts[1::2], parts[2::2]))


def answer(tree):
    """The status and the last line of the error output of a run in a tree, and whether all is as it was."""
    with tempfile.TemporaryDirectory() as folder:
        plant(folder, tree)
        before = planted(folder)
        status, _, told = repro(folder)
        return status, told.rstrip("\n").rpartition("\n")[2], planted(folder) == before


def lock_rows():
    """Each lock of the table: a run without stages reads it, or refuses it, as `record_table` does."""
    texts = [text for head, text in table("record_table") if head.startswith(b"lock")]
    for text, outcome in zip(texts, outcomes(RECORD_TABLE, texts, b"lock")):
        expect(f"a lock that is read back as another: {shown(text)}", "another" in outcome, False)
        wanted = (0, "", True) if outcome.startswith("=> printed") else (255, lock_line(outcome), True)
        expect(f"a run beside the lock {shown(text)}", answer({"dvc.lock": text}), wanted)
    print(f"texts: {len(texts)} locks of the table are answered by dvc as they are read", flush=True)


def lock_line(outcome):
    """The line that tells a refusal of `record_table`."""
    words = outcome.removeprefix("=> ").rstrip("\n")
    for start, text in {
        "line ": "ERROR: 'dvc.lock' {}", "bad value at ": "ERROR: 'dvc.lock': {}", "an older format": "ERROR: 'dvc.lock' has {}",
    }.items():
        if words.startswith(start):
            return text.format(words)
    return f"ERROR: 'dvc.lock': {words.removeprefix('not supported: ')} is not supported"


# What the graph of the stages refuses.
GRAPH = (
    r"'.*' has a reserved name|'.*' overlaps '.*'|'.*' is an output of '.*' and '.*'|outputs '.*' and '.*' overlap"
    r"|variables in '.*' come from output '.*'|cycle: .* <- .*"
)
# What a good `dvc.yaml` of the table may still come to: what its commands and paths name isn't there.
GOOD = (
    rf"|ERROR: ('.*' is not a path of the workspace|{GRAPH}|'.*' is missing"
    r"|stage '.*'(: missing (dependency|output) '.*'| failed with (127|2)))"
)
NO_NODE = r"ERROR: 'dvc\.yaml' line \d+: (syntax|duplicate key|too deep|number too wide)"


def stage_rows():
    """Each `dvc.yaml` of the table: `dvc` tells the refusal that `stage_table` does, and else none of the text."""
    texts = [text for _, text in table("stage_table")]
    for text, outcome in zip(texts, outcomes(STAGE_TABLE, texts, b"text")):
        (status, told, untouched), wanted = answer({"dvc.yaml": text}), stages_line(outcome)
        what = f"a run of the dvc.yaml {shown(text)}, which {told!r} tells of"
        expect(f"{what}, as {wanted} should: whether it does", re.fullmatch(wanted, told, re.S) is not None, True)
        expect(f"{what}: the status", status, 255 if told else 0)
        expect(f"{what}: whether all is as it was", untouched or wanted == GOOD, True)
    print(f"texts: {len(texts)} dvc.yaml of the table are answered by dvc as they are read", flush=True)


def stages_line(outcome):
    """The pattern of what is told where `stage_table` tells a refusal, no stage, or stages."""
    words = outcome.removeprefix("=> ").rstrip("\n")
    whole = {"none": "", "no node": NO_NODE}
    start, _, key = words.partition(" ")
    begun = {
        "schema": f"ERROR: 'dvc.yaml': bad value at {key}", "unsupported": f"ERROR: 'dvc.yaml': {key} is not supported",
        "outside": f"ERROR: {key} is not a path of the workspace", "not": f"ERROR: {key.removeprefix('scalar ')} is not a scalar",
        "no": f"ERROR: no {key}" if key.startswith("variable") else f"ERROR: {key.removeprefix('file ')} is missing",
    }
    return whole[words] if words in whole else re.escape(begun[start]) if start in begun else GOOD


# ---- spellings of one dvc.yaml

FILES = {"words": b"pear\napple\n", "notes": b"first"}
SPELLINGS = {
    "as dvc writes it": """stages:
  sort:
    cmd: sort words -o sorted
    deps:
    - words
    outs:
    - sorted
  publish:
    cmd:
    - cp notes published
    - cat sorted >> published
    deps:
    - notes
    - sorted
    outs:
    - published
""",
    "in flow form": """{stages: {sort: {cmd: sort words -o sorted, deps: [words], outs: [sorted]},
  "publish": {cmd: [cp notes published, 'cat sorted >> published'], deps: [notes, "sorted"], outs: [published]}}}
""",
    "with comments, quotes and blank lines": """# Two stages.

---
stages:

    'sort':   # sorts
        desc: as it says
        deps: [ words, ]
        outs:
            - "sorted"
        cmd: >-
            sort words
            -o sorted

    publish:
        meta: {owner: ada}
        outs:
        - published
        cmd:
          - cp notes published
          - |-
            cat sorted >> published
        deps:
          - notes
          # the sorted ones
          - sorted
          - notes
...
""",
    "with values that say what is so anyway": """stages:
  sort: {cmd: sort words -o sorted, deps: [words, words], outs: [sorted], wdir: ., frozen: false, always_changed: false}
  publish:
    cmd: [cp notes published, cat sorted >> published]
    deps: [notes, sorted, notes]
    wdir: no/..
    outs: [{published: }]
    params:
    metrics: []
    plots:
vars: []
""",
}
SORT, PUBLISH = "sort words -o sorted", ["cp notes published", "cat sorted >> published"]
SORTED, PUBLISHED = b"apple\npear\n", b"firstapple\npear\n"
ENTRIES = [
    entry("sort", SORT, {"words": FILES["words"]}, {"sorted": SORTED}),
    entry("publish", PUBLISH, {"notes": FILES["notes"], "sorted": SORTED}, {"published": PUBLISHED}),
]
DONE = {**FILES, "sorted": SORTED, "published": PUBLISHED, "dvc.yaml": SPELLINGS["as dvc writes it"].encode()}
RUN = runs("sort", SORT) + runs("publish", *PUBLISH)
SKIP = skips("sort") + skips("publish")


def spellings():
    """One project, whose `dvc.yaml` is spelled in several ways: the same run, the same outputs and the same lock."""
    for spelling, text in SPELLINGS.items():
        for ends, written in (("", text), (", with a carriage return at each end", text.replace("\n", "\r\n"))):
            with tempfile.TemporaryDirectory() as folder:
                plant(folder, {**FILES, "dvc.yaml": written})
                what = f"dvc.yaml {spelling}{ends}"
                expect(f"a run of {what}", repro(folder), (0, RUN, ""))
                expect(f"the lock of {what}", read(folder, "dvc.lock").decode(), lock(ENTRIES))
                expect(f"the output of {what}", read(folder, "published"), PUBLISHED)
                expect(f"another run of {what}", repro(folder), (0, SKIP, ""))


# ---- spellings of one lock

LOCK = lock(ENTRIES)
OLD = """  old:
    cmd: ./old
    params:
      params.yaml:
        seed: 1
        rate: 0.10
"""
LOCKS = {
    "as it is written": LOCK,
    "without its last line's end": LOCK[:-1],
    "with a carriage return at each end": LOCK.replace("\n", "\r\n"),
    "in another order": lock(reversed(ENTRIES)),
    "with comments": LOCK.replace("\n", "  # kept by hand\n"),
    "with quotes": re.sub(r"(path|hash|md5): (\w+)", r"\1: '\2'", LOCK),
    "with further keys": LOCK.replace("      hash: md5\n", "      hash: md5\n      isexec: true\n").replace("    deps:", "    desc: x\n    deps:"),
    "with a folded command": LOCK.replace("sort words -o", "sort\n      words -o"),
    "with entries of stages that are gone": lock([OLD, *ENTRIES]),
    "with marks of the document": f"---\n{LOCK}...\n",
}


def locks():
    """A lock in several spellings, by which all is skipped, and the one that is written after a run."""
    for spelling, text in LOCKS.items():
        with tempfile.TemporaryDirectory() as folder:
            plant(folder, {**DONE, "dvc.lock": text})
            expect(f"a run beside a lock {spelling}", repro(folder), (0, SKIP, ""))
            expect(f"the lock {spelling} where nothing ran", read(folder, "dvc.lock").decode(), text)
            write(folder, "notes", "other")
            expect(f"a run after an edit, beside a lock {spelling}", repro(folder), (0, skips("sort") + runs("publish", *PUBLISH), ""))
            after = entry("publish", PUBLISH, {"notes": b"other", "sorted": SORTED}, {"published": b"otherapple\npear\n"})
            first, last = (after, ENTRIES[0]) if "order" in spelling else (ENTRIES[0], after)
            old = OLD.replace("        seed: 1\n        rate: 0.10\n", "        rate: 0.10\n        seed: 1\n")
            wanted = lock([old, first, last] if "gone" in spelling else [first, last])
            expect(f"the lock after a run beside a lock {spelling}", read(folder, "dvc.lock").decode(), wanted)


def unlike():
    """An entry that isn't of the stage as it is, and a stage without dependencies: it runs."""
    sort = ENTRIES[0]
    changed = {
        "another digest": entry("sort", SORT, {"words": b"apple\npear\n"}, {"sorted": SORTED}),
        "another size": sort.replace("size: 11", "size: 12", 1),
        "another command": entry("sort", "sort words", {"words": FILES["words"]}, {"sorted": SORTED}),
        "several commands": entry("sort", [SORT, "date"], {"words": FILES["words"]}, {"sorted": SORTED}),
        "one dependency more": entry("sort", SORT, {"words": FILES["words"], "more": b""}, {"sorted": SORTED}),
        "one output more": entry("sort", SORT, {"words": FILES["words"]}, {"sorted": SORTED, "more": b""}),
        "a folder": sort.replace("\n      size: 11", ".dir\n      size: 11\n      nfiles: 1", 1),
        "parameters": sort.replace("    outs:", "    params:\n      params.yaml:\n        seed: 1\n    outs:"),
    }
    for what, text in changed.items():
        with tempfile.TemporaryDirectory() as folder:
            plant(folder, {**DONE, "dvc.lock": lock([text, ENTRIES[1]])})
            expect(f"a run beside an entry with {what}", repro(folder), (0, runs("sort", SORT) + skips("publish"), ""))
            expect(f"the lock after it, with {what}", read(folder, "dvc.lock").decode(), LOCK)
    with tempfile.TemporaryDirectory() as folder:
        plant(folder, {"dvc.yaml": "stages: {now: {cmd: date > now, outs: [now]}, say: {cmd: echo said}}\n"})
        for _ in range(2):
            lines = runs("now", "date > now") + runs("say", "echo said") + "said\n"
            expect("stages without dependencies", repro(folder), (0, lines, ""))


# ---- what is refused

REFUSED_YAML = [
    ("stages: [", "'dvc.yaml' line 1: syntax"),
    ("stages:\n\tcopy:\n", "'dvc.yaml' line 2: syntax"),
    ("stages: &all {}\n", "'dvc.yaml' line 1: syntax"),
    ("stages: {}\n---\nstages: {}\n", "'dvc.yaml' line 2: syntax"),
    (b"stages: {}\n# \xff\n", "'dvc.yaml' line 2: syntax"),
    ("stages:\n  copy: {cmd: a}\n  copy: {cmd: b}\n", "'dvc.yaml' line 3: duplicate key"),
    ("stages: {}\nmeta: " + "[" * 64 + "]" * 64, "'dvc.yaml' line 2: too deep"),
    ("\nmeta: 1" + "0" * 40, "'dvc.yaml' line 2: number too wide"),
    ("- copy\n", "'dvc.yaml': bad value at ''"),
    ("stages: copy\n", "'dvc.yaml': bad value at 'stages'"),
    ("stage: {}\n", "'dvc.yaml': bad value at 'stage'"),
    ("stages: {copy: cp in out}\n", "'dvc.yaml': bad value at 'stages.copy'"),
    ("stages: {a/b: {cmd: c}}\n", "'dvc.yaml': bad value at 'stages.a/b'"),
    ("stages: {copy: {deps: [in]}}\n", "'dvc.yaml': bad value at 'stages.copy.cmd'"),
    ("stages: {copy: {cmd: c, deps: in}}\n", "'dvc.yaml': bad value at 'stages.copy.deps'"),
    ("stages: {copy: {cmd: c, outs: [{out: {cache: no}}]}}\n", "'dvc.yaml': bad value at 'stages.copy.outs.out.cache'"),
    ("stages: {copy: {cmd: c, frozen: 1}}\n", "'dvc.yaml': bad value at 'stages.copy.frozen'"),
    ("stages: {copy: {cmd: c, depends: [in]}}\n", "'dvc.yaml': bad value at 'stages.copy.depends'"),
    ("stages: {copy: {cmd: c, deps: [s3://in]}}\n", "'dvc.yaml': 'stages.copy.deps' is not supported"),
    ("stages: {copy: {cmd: c, outs: [{out: {persist: true}}]}}\n", "'dvc.yaml': 'stages.copy.persist' is not supported"),
    ("stages: {copy: {cmd: c, outs: [{out: {remote: r}}]}}\n", "'dvc.yaml': 'stages.copy.remote' is not supported"),
    ("stages: {copy: {cmd: c, wdir: ..}}\n", "'..' is not a path of the workspace"),
    ("stages: {copy: {cmd: c, deps: [../in]}}\n", "'../in' is not a path of the workspace"),
    ("stages: {copy: {cmd: c, outs: [/out]}}\n", "'/out' is not a path of the workspace"),
    ("stages: {copy: {cmd: c, deps: ['']}}\n", "'' is not a path of the workspace"),
    ("stages: {copy: {cmd: 'echo ${a}'}}\n", "no variable 'a'"),
    ("vars: [a.yaml]\n", "'a.yaml' is missing"),
    ("stages: {copy: {foreach: 1, do: {cmd: c}}}\n", "'dvc.yaml': bad value at 'stages.copy.foreach'"),
    ("stages: {copy: {matrix: {a: b}, cmd: c}}\n", "'dvc.yaml': bad value at 'stages.copy.matrix.a'"),
    ("stages: {copy: {cmd: c, deps: [dvc.lock]}}\n", "'dvc.lock' has a reserved name"),
    ("stages: {copy: {cmd: c, deps: [.]}}\n", "'.' overlaps '.dvc'"),
    ("stages: {copy: {cmd: c, wdir: .dvc/tmp}}\n", "'.dvc/tmp' overlaps '.dvc'"),
    ("stages: {copy: {cmd: c, outs: [dvc.yaml]}}\n", "'dvc.yaml' has a reserved name"),
    ("stages: {copy: {cmd: c, outs: [.dvc]}}\n", "'.dvc' has a reserved name"),
    ("stages: {copy: {cmd: c, outs: [.dvcignore]}}\n", "'.dvcignore' has a reserved name"),
    ("stages: {copy: {cmd: c, outs: [data/in.dvc]}}\n", "'data/in.dvc' has a reserved name"),
    ("stages: {copy: {cmd: c, outs: [params.yaml]}}\n", "variables in 'params.yaml' come from output 'params.yaml'"),
    ("stages: {copy: {cmd: c, deps: [in], outs: [in]}}\n", "cycle: copy <- copy"),
    ("stages: {copy: {cmd: c, deps: [data], outs: [data/out]}}\n", "cycle: copy <- copy"),
    ("stages: {a: {cmd: c, outs: [out]}, b: {cmd: c, outs: [./out]}}\n", "'out' is an output of 'a' and 'b'"),
    ("stages: {a: {cmd: c, outs: [out]}, b: {cmd: c, wdir: out, outs: [in/out]}}\n", "outputs 'out' and 'out/in/out' overlap"),
    ("stages: {a: {cmd: c, deps: [p], outs: [q]}, b: {cmd: c, deps: [q/r], outs: [p]}}\n", "cycle: a <- b <- a"),
    ("stages:\n" + "".join(f"  s{number}: {{cmd: c}}\n" for number in range(10_001)), "limit 10000 passed"),
]
NO_HASH = LOCK.replace("      hash: md5\n", "", 1)
REFUSED_LOCKS = [
    ("stages: [", "'dvc.lock' line 1: syntax"),
    (LOCK.replace("stages:", "stages:\n<<<<<<< HEAD"), "'dvc.lock' line 3: syntax"),
    (LOCK + ENTRIES[0], "'dvc.lock' line 33: duplicate key"),
    ("a:\n  cmd: a\n", "'dvc.lock' has an older format"),
    (NO_HASH, "'dvc.lock' has an older format"),
    ("schema: '2.1'\n", "'dvc.lock': bad value at 'schema'"),
    (LOCK.replace("hash: md5", "hash: sha256", 1), "'dvc.lock': 'hash' is not supported"),
    (LOCK.replace("hash: md5", "hash: md5\n      push: false", 1), "'dvc.lock': 'push' is not supported"),
    (LOCK.replace("size: 11", "size: -11", 1), "'dvc.lock': bad value at 'size'"),
    (LOCK.replace("path: words", "path: 1", 1), "'dvc.lock': bad value at 'path'"),
    ("hello\n", "'dvc.lock': bad value at ''"),
]


def refused():
    """What is refused of `dvc.yaml` and of `dvc.lock`: the line that tells it, and nothing is touched."""
    for name, rows in (("dvc.yaml", REFUSED_YAML), ("dvc.lock", REFUSED_LOCKS)):
        for text, told in rows:
            expect(f"a run with the {name} {shown(text)}", answer({**DONE, "in": b"abc", name: text}), (255, f"ERROR: {told}", True))


# Of several refusals the first one counts, in this order: each row has what comes before all that the rows below it have.
ORDER = [
    ({".dvc": b""}, "'.dvc' is not a folder"),
    ({"dvc.yaml": b"stages: ["}, "'dvc.yaml' line 1: syntax"),
    ({"dvc.yaml": b"vars: [../v.yaml]", "v.yaml": b"a: ["}, "'../v.yaml' is not a path of the workspace"),
    ({"dvc.yaml": b"vars: [v.yaml, {a: 1}, {a: 2}]", "v.yaml": b"a: ["}, "'v.yaml' line 1: syntax"),
    ({"dvc.lock": b"stages: [", "v.yaml": b"{}"}, "'dvc.lock' line 1: syntax"),
    ({"dvc.lock": NO_HASH}, "'dvc.lock' has an older format"),
    ({"dvc.yaml": b"vars: [{a: 1}, {a: 2}]\nstages: {a: {cmd: '${x}'}, b: {}}"}, "'dvc.yaml': bad value at 'a'"),
    ({"dvc.yaml": b"stages: {a: {cmd: '${x}', deps: [../in], vars: [none.yaml]}, b: {}}"}, "'none.yaml' is missing"),
    ({"dvc.yaml": b"stages: {a: {cmd: '${x}', deps: [../in]}, b: {}}"}, "no variable 'x'"),
    ({"dvc.yaml": b"stages: {a: {cmd: c, deps: [../in], outs: [.dvc]}, b: {}}"}, "'dvc.yaml': bad value at 'stages.b.cmd'"),
    ({"dvc.yaml": b"stages: {a: {cmd: c, outs: [.dvc]}, b: {cmd: c, deps: [../in], outs: [../out]}}"}, "'../out' is not a path of the workspace"),
    ({"dvc.yaml": b"stages: {a: {cmd: c, outs: [.dvc]}, b: {cmd: c, deps: [../in]}}"}, "'../in' is not a path of the workspace"),
    ({"dvc.yaml": b"stages: {a: {cmd: c, outs: [out]}, b: {cmd: c, outs: [out, .dvc]}}"}, "'.dvc' has a reserved name"),
    ({"dvc.yaml": b"stages: {a: {cmd: c, outs: [out, params.yaml]}, b: {cmd: c, outs: [out]}}"}, "'out' is an output of 'a' and 'b'"),
    ({"dvc.yaml": b"stages: {a: {cmd: c, deps: [in], outs: [in, params.yaml]}}"}, "variables in 'params.yaml' come from output 'params.yaml'"),
    ({"dvc.yaml": b"stages: {a: {cmd: c, deps: [in], outs: [in]}, b: {cmd: c, frozen: true}}"}, "cycle: a <- a"),
    ({"dvc.yaml": b"stages: {a: {cmd: c, deps: [missing], params: [k], outs: [notes/out]}}"}, "stage 'a': missing dependency 'missing'"),
    ({"dvc.yaml": b"stages: {a: {cmd: c, deps: [notes], params: [k], outs: [words/out]}}"}, "'params.yaml' is missing"),
    ({"dvc.yaml": b"stages: {a: {cmd: c, deps: [notes], outs: [words/out]}}"}, "'words' is not a folder"),
]


def order():
    """Which of several refusals comes."""
    for number, (_, told) in enumerate(ORDER):
        tree = {**DONE}
        for more, _ in reversed(ORDER[number:]):
            tree |= more
        expect(f"the refusal of row {number} in the table of their order", answer(tree), (255, f"ERROR: {told}", True))


def folders():
    """A folder at `dvc.yaml` or at `dvc.lock` is no file."""
    for name in ("dvc.yaml", "dvc.lock"):
        tree = {**DONE, "dvc.lock": LOCK, name: None, f"{name}/file": b"x"}
        expect(f"a folder at {name}", answer(tree), (255, f"ERROR: '{name}' is missing", True))


CHECKS = [lock_rows, stage_rows, spellings, locks, unlike, refused, order, folders]


def main():
    """Makes each check, or those that the words name."""
    for program in (DVC, RECORD_TABLE, STAGE_TABLE):
        need_built(program)
    for check in CHECKS:
        if not sys.argv[1:] or check.__name__ in sys.argv[1:]:
            check()
    print("texts: all as expected")


if __name__ == "__main__":
    main()
