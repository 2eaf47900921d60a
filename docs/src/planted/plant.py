#!/usr/bin/env python3
"""Plants bugs in a copy of the repository: plant.py ROOT COPY TABLE [CRATE...]. See run.

Bugs of different functions are planted together, at most one in each; what that check lets pass is planted alone, as a
must-fail edit of the gate's own command. What the prover lets pass must show in what a program or a test says. The
crates' parts of TABLE are written anew.
"""
import os
import re
import shutil
import subprocess
import sys

HEAD = """# Planted bugs

Bugs that were planted, and where each was refused. They stand in `docs/src/planted/bugs/`, at least one for each function
of `src/` that does something, and this page is what `docs/src/planted/run` made of them: alone, or together with bugs of
other functions of the crate, at most one in each, since a function is proved by the contracts of those that it calls and
not by their bodies. A bug is refused by the check of its own crate, with the crates above left out of it; told are the
file and the prover's name of the first need that could not be met, and 'by a name' where that is only a name in a proof
file which the bug takes away. Where the check passes, as where a contract cannot say what a program prints, the bug must
show in a crate above, in what a program writes or in a test, and the table says in which.
"""


class Bug:
    def __init__(self, crate, block):
        lines = block.split("\n")
        self.crate, self.what = crate, lines[0]
        self.edit = "\n".join(lines[1:]) + "\n"
        self.path = lines[1].removeprefix("file: ")
        olds = [line.removeprefix("old: ") for line in lines if line.startswith("old: ")]
        news = [line.removeprefix("new:").removeprefix(" ") for line in lines if line.startswith("new:")]
        self.pairs = list(zip(olds, news))

    def edited(self, text):
        """The text with the bug in it; None where the bug does not fit."""
        for old, new in self.pairs:
            if text.count(old) != 1:
                return None
            text = text.replace(old, new)
        return text


def rests_on(root):
    """The crates in the order of crates.txt, each with those that it names."""
    lines = [line for line in open(f"{root}/crates.txt") if ":" in line and line[0] != "#"]
    return {line.split(":")[0].split()[0]: line.split(":")[1].split() for line in lines}


def bugs_of(folder, crate):
    path = f"{folder}/{crate}.txt"
    if not os.path.exists(path):
        return []
    blocks = [block.strip("\n") for block in open(path).read().split("\n\n")]
    return [Bug(crate, block) for block in blocks if block and not block.startswith("#")]


def functions(path):
    """The functions of a file that do something: name, first and last line. Tests are left out, and those that only
    carry a theorem, whose body is empty."""
    lines, owner, test = open(path).read().split("\n"), "", False
    for i, line in enumerate(lines):
        owned = re.match(r"(?:pub )?trait (\w+)", line) or re.match(r"impl\b.*? (?:.*\bfor )?(?:\w+::)*(\w+)(<.*>)? \{", line)
        owner = owned[1] if owned else owner
        test = test or line.strip() == "#[test]"
        found = re.match(r"( *)(?:pub(?:\(\w+\))? )?(?:const |unsafe |extern \"C\" )*fn (\w+)", line)
        if not found:
            continue
        indent, name = found.groups()
        end = next(j for j in range(i, len(lines)) if lines[j].rstrip() in (indent + "}", indent + "{}") or lines[j].endswith(";") and
                   not lines[j].startswith(indent + " ") or lines[j].startswith(indent + "    ensures") and lines[j].endswith("};"))
        carries = lines[end].strip() == "{}" or lines[end - 1].strip() == "0"
        if lines[end].rstrip() == indent + "}" and not test and not carries:
            yield (f"{owner}::{name}" if indent and owner else name), i, end
        test = False


def place_of(root, bug):
    """The function that the bug stands in; its file where it stands in none."""
    path = f"{root}/crates/{bug.crate}/{bug.path}"
    text = open(path).read()
    line = text[: text.find(bug.pairs[0][0])].count("\n")
    if path.endswith(".rt"):
        for name, first, last in functions(path):
            if first <= line <= last:
                return name
    return bug.path


def without_bug(root, crate, named):
    """The functions of a crate for which there is no bug."""
    for at, _, files in sorted(os.walk(f"{root}/crates/{crate}/src")):
        for file in sorted(files):
            for name, _, _ in functions(f"{at}/{file}") if file.endswith(".rt") else []:
                if name not in named:
                    yield name


def fitting(root, crate, bugs):
    for bug in bugs:
        text = open(f"{root}/crates/{crate}/{bug.path}").read()
        if bug.edited(text) in (None, text):
            sys.exit(f"{crate}: {bug.what}: the bug does not fit {bug.path}")


def plant_alone(copy, crate, bugs):
    """What the gate's own command says of each of a crate's bugs, by its number: each is planted alone."""
    folder = f"{copy}/crates/{crate}/must-fail"
    shutil.rmtree(folder, ignore_errors=True)
    os.mkdir(folder)
    for number, bug in bugs.items():
        with open(f"{folder}/{number:03}.edit", "w") as file:
            file.write(bug.edit)
    run = subprocess.run(["rt", "must-fail", crate], cwd=copy, capture_output=True, text=True)
    said = re.finditer(r"^(?:rt: )*must-fail \w+/(\d+)\.edit: (.*)$", run.stdout + run.stderr, re.M)
    return {int(m[1]): m[2] for m in said}


REFUSED_AT = r"^(?:note: )?(?:\./)?((?:src|proofs)/[\w/]+\.\w+):(\d+):\d+: (?:error|it is not proved|`search`)"
BY_NAME = r"has no field|that can be named|\(nearest: "
UNREAD_AT = r"^(?:\./)?(src/[\w/]+\.\w+):(\d+):\d+: error\["


def function_at(folder, path, line):
    """The function of a place that the check names: in the code, or in the proof file of a function."""
    if path.startswith("src/"):
        found = [name for name, first, last in functions(f"{folder}/{path}") if first < line <= last + 1]
        return found[0] if found else None
    owner, name = path.split("/")[-3:-1]
    return f"{owner.removesuffix('Display')}::{name}" if owner[0].isupper() else name


def plant_together(copy, crate, bugs):
    """What one check says of bugs that stand in functions of their own, by number; nothing of one that it lets pass, or
    that it refuses only over names in a proof file."""
    folder = f"{copy}/crates/{crate}"
    kept = {bug.path: open(f"{folder}/{bug.path}").read() for bug in bugs.values()}
    texts, planted = dict(kept), {}
    for number, bug in bugs.items():
        text = bug.edited(texts[bug.path])
        # None where a bug that was planted before it has its text too: it is then planted alone.
        if text is not None:
            texts[bug.path], planted[number] = text, bug
    bugs = planted
    try:
        for path, text in texts.items():
            open(f"{folder}/{path}", "w").write(text)
        run = subprocess.run(["rt", "check"], cwd=folder, capture_output=True, text=True)
    finally:
        for path, text in kept.items():
            open(f"{folder}/{path}", "w").write(text)
    said, out = {}, run.stdout + run.stderr
    unread = {function_at(folder, m[1], int(m[2])) for m in re.finditer(UNREAD_AT, out, re.M)}
    left = {number: bug for number, bug in bugs.items() if bug.place not in unread}
    if 1 < len(left) < len(bugs):
        return plant_together(copy, crate, left)
    if "logic=not-proved" not in out:
        return said
    for m in re.finditer(REFUSED_AT + ".*$", out, re.M):
        if not re.search(BY_NAME, m[0]):
            said.setdefault(function_at(folder, m[1], int(m[2])), m[0])
    return {number: said[bug.place] for number, bug in bugs.items() if bug.place in said}


def plant(copy, crate, bugs):
    """What is said of each of a crate's bugs. A function is proved by the contracts of those that it calls, and not by
    their bodies, so one check serves bugs of many functions; what it lets pass, or cannot read, is planted alone."""
    said, left = {}, dict(enumerate(bugs))
    while left:
        turn = {}
        for number, bug in left.items():
            if bug.place != bug.path and bug.place not in [other.place for other in turn.values()]:
                turn[number] = bug
        if len(turn) < 2:
            break
        told = plant_together(copy, crate, turn)
        said.update(told)
        left = {number: bug for number, bug in left.items() if number not in turn}
    alone = {number: bug for number, bug in enumerate(bugs) if number not in said}
    return said | (plant_alone(copy, crate, alone) if alone else {})


PROGRAMS = {
    "plancheck": ["python3", "{root}/docs/src/plancheck/model.py"],
    "sheet": ["{copy}/model"],
    "walkthrough": [],
    "lending": [],
}


def shown_by(root, copy, crate):
    """Whether the crate's check, or what its program writes, shows the bug that is planted below it or in it."""
    folder = f"{copy}/crates/{crate}"
    given = f"{folder}/stdin"
    with open(given if os.path.exists(given) else os.devnull, "rb") as lines:
        run = subprocess.run(["rt", "run"], cwd=folder, stdin=lines, capture_output=True)
    if b"logic=not-proved" in run.stdout + run.stderr:
        return f"the check of `{crate}`"
    if run.returncode or run.stdout != open(f"{folder}/stdout", "rb").read():
        return f"the stored output of `{crate}`"
    model = [word.format(root=root, copy=copy) for word in PROGRAMS[crate]]
    edges = ["python3", f"{root}/docs/src/edges/edges.py", crate, f"{folder}/out/{crate}", *model]
    run = subprocess.run(edges, capture_output=True, text=True)
    return f"`docs/src/edges/run`: {run.stdout.splitlines()[0]}" if run.returncode else None


def below(root, crate):
    """The crates that a crate rests on, and the crate."""
    rests, found, left = rests_on(root), set(), [crate]
    while left:
        found.add(left[-1])
        left += rests[left.pop()]
    return found


def shown(root, copy, bug):
    """Where a bug that the check lets pass shows: above, in a program's output, or in a test; None where it does not."""
    target = f"{copy}/crates/{bug.crate}/{bug.path}"
    text = open(target).read()
    with open(target, "w") as file:
        file.write(bug.edited(text))
    try:
        for crate in [program for program in PROGRAMS if bug.crate in below(root, program)]:
            where = shown_by(root, copy, crate)
            if where:
                return where
        run = subprocess.run(["rt", "test"], cwd=f"{copy}/crates/cases", capture_output=True)
        return "a test of `cases`" if run.returncode else None
    finally:
        with open(target, "w") as file:
            file.write(text)


def outcome(root, copy, bug, said):
    """Where the bug is refused, and whether that counts."""
    if said is None or "BAD EDIT" in said or "NOT TRIED" in said:
        return f"**not tried**: {said}", False
    if "NOT REFUSED" in said:
        where = shown(root, copy, bug)
        return (where, True) if where else ("**nowhere**", False)
    where = re.search(r"(?:\./)?((?:src|proofs|specs)/[\w/]+\.\w+):\d+:\d+: ", said)
    need = re.search(r"\(`([\w+-]+)`\)|error: `([\w+-]+)`", said)
    place = f"`{where[1]}`" if where else "see the log"
    place += f", `{need[1] or need[2]}`" if need else ""
    return place + (", by a name" if "only because a proof file names" in said else ""), True


def code(text):
    return "`" + text.replace("|", "\\|") + "`" if text else "nothing"


def sections(table):
    """The crates' parts of the page as it stands."""
    if not os.path.exists(table):
        return {}
    parts = open(table).read().split("\n## ")[1:]
    return {part.split("\n", 1)[0]: part.split("\n", 1)[1].strip("\n") + "\n" for part in parts}


def main():
    root, copy, table, wanted = sys.argv[1], sys.argv[2], sys.argv[3], sys.argv[4:]
    crates = [crate for crate in rests_on(root) if crate != "cases"]
    every = {crate: bugs_of(f"{root}/docs/src/planted/bugs", crate) for crate in wanted or crates}
    every = {crate: bugs for crate, bugs in every.items() if bugs}
    for crate, bugs in every.items():
        fitting(root, crate, bugs)
    pages, survived, lacking = sections(table), 0, []
    for crate, bugs in every.items():
        text = ["| function | what the bug does | the edit | refused at |", "| --- | --- | --- | --- |"]
        for bug in bugs:
            bug.place = place_of(root, bug)
        lacking += [f"{crate}: {name}: no bug" for name in without_bug(root, crate, {bug.place for bug in bugs})]
        said = plant(copy, crate, bugs)
        for number, bug in enumerate(bugs):
            where, counts = outcome(root, copy, bug, said.get(number))
            survived += not counts
            print(f"{crate}: {bug.place}: {bug.what}: {where}", flush=True)
            edits = "; ".join(f"{code(old)} → {code(new)}" for old, new in bug.pairs)
            text.append(f"| `{bug.place}` | {bug.what} | {edits} | {where} |")
        pages[crate] = "\n".join(text) + "\n"
    tried = sum(len(bugs) for bugs in every.values())
    print("\n".join([*lacking, f"{tried} planted, {survived} survived, {len(lacking)} functions without a bug"]))
    with open(table, "w") as file:
        file.write(HEAD)
        file.writelines(f"\n## {crate}\n\n{pages[crate]}" for crate in crates if crate in pages)
    sys.exit(survived != 0 or len(lacking) != 0)


main()
