#!/usr/bin/env python3
"""Brings this repository's own definitions and lemmas to the spelling of today's Rattle, once, after the kit's port script:
words in snake case, types, relations and modules in camel case, a prime as an apostrophe.

Run at the repository's root. Names come from what specs/ and proofs/ declare: signatures, record fields, constructors, and
what a proof binds by 'let' or as an argument. Names that Rattle makes (goals, invariants, steps of a function) and names of
its library keep theirs. Only specs/, proofs/ and the ghost text of src/ are rewritten: code, strings, documents, inputs,
outputs and exported names are left alone.
"""
import pathlib
import re
import sys

IDENT = r"[^\s(){};,.«»⟦⟧\[\]|λ\"@]+"
TOKEN = re.compile(IDENT)
# Words of prose, which a comment keeps.
PROSE = {"add-product", "runner-up", "give-up", "one-times", "no-divisors"}
# Names of Rattle's own making, which a proof file answers or cites.
MADE = re.compile(r"^(returns|invariant-|decreases-|ghosts?-|loop-|overflow_|bounds-|slice_bounds-|nonzero_|prove-|invariant_of-)")


def own_files():
    return sorted(p for p in pathlib.Path("crates").rglob("*.antt") if "out" not in p.parts)


def strip_comment(line):
    return re.sub(r"(^|\s)--.*$", "", line)


def library_names(files):
    """Names that some file imports from Rattle.std (or another library of the kit)."""
    crates = {p.name for p in pathlib.Path("crates").iterdir()}
    names = set()
    for path in files:
        for head, body in re.findall(r"use ([^\s{]+)\.\{([^}]*)\}", path.read_text()):
            parts = head.split(".")
            if parts[0] == "Rattle" and parts[1] in crates:
                continue
            for name in body.split(","):
                names.add(name.split(" as ")[0].strip())
    return names


def declared(files):
    names = {}
    for path in files:
        for number, line in enumerate(path.read_text().splitlines(), 1):
            line = strip_comment(line)
            match = re.match(r"^\s*(?:unfoldable )?(?:abbrev )?(?:pub )?(?:abbrev )?(?:record |data |ruleset )?(?:pub )?(" + IDENT + r")\s+(:|\(|=)", line)
            if match and "-" in match.group(1):
                names.setdefault(match.group(1), f"{path}:{number}")
            match = re.match(r"^\s*(?:pub )?(?:record|data|ruleset|module) (?:pub )?(" + IDENT + r")", line)
            if match and "-" in match.group(1):
                names.setdefault(match.group(1), f"{path}:{number}")
            for found in re.findall(r"(?:\(|\{|;|\blet |λ ?)\s*(" + IDENT + r")\s*(?::|=)", line):
                if "-" in found:
                    names.setdefault(found, f"{path}:{number}")
            for group in re.findall(r"[({]((?:" + IDENT + r"\s+)+):", line):
                for found in group.split():
                    if "-" in found:
                        names.setdefault(found, f"{path}:{number}")
            for group in re.findall(r"λ ((?:" + IDENT + r"\s*)+)\.", line):
                for found in group.split():
                    if "-" in found:
                        names.setdefault(found, f"{path}:{number}")
    return names


def answered(files):
    """Goals, invariants and measures: names of Rattle's own making."""
    names = set()
    for path in files:
        names.update(re.findall(r":\s*goal\.(" + IDENT + r")", path.read_text()))
        names.update(re.findall(r"^(?:abbrev )?pub (" + IDENT + r") : goal\.", path.read_text(), flags=re.M))
    return names


def functions():
    """The functions of src/: a definition that would have such a name gets '_lem'."""
    names = set()
    for path in pathlib.Path("crates").rglob("*.rt"):
        if "out" not in path.parts:
            names.update(re.findall(r"\bfn ([a-z_0-9]+)", path.read_text()))
    return names


def aliases():
    """Names that an import gives by 'as'."""
    names = {}
    for path in list(pathlib.Path("crates").rglob("*.antt")) + list(pathlib.Path("crates").rglob("*.rt")):
        if "out" not in path.parts:
            for found in re.findall(r" as (" + IDENT + r")[,}]", path.read_text()):
                if "-" in found:
                    names.setdefault(found, str(path))
    return names


def respelled(name):
    name = name.replace("′", "'")
    if name.startswith("B-"):
        return name.replace("-", "_")
    if name[0].isupper():
        return "".join(part[:1].upper() + part[1:] for part in name.split("-"))
    return name.replace("-", "_")


def main():
    files = own_files()
    library = library_names(files)
    goals = answered(files)
    fns = functions()
    names = {}
    for name, place in (aliases() | declared(files)).items():
        if MADE.match(name) or name in goals or not re.match(r"^[A-Za-z]", name) or "*" in name:
            continue
        if name in library:
            print(f"left: {name} ({place}) is a name of the library too")
            continue
        names[name] = respelled(name)
        if names[name] in fns and name != "add-product":
            names[name] += "_lem"
    # Names that fall together.
    sources = [p.read_text() for p in files] + [p.read_text() for p in pathlib.Path("crates").rglob("*.rt") if "out" not in p.parts]
    words = set()
    for text in sources:
        words.update(TOKEN.findall(text))
    for old, new in sorted(names.items()):
        if new in words:
            print(f"falls together: {old} -> {new}")
    if "--dry" in sys.argv:
        for old, new in sorted(names.items()):
            print(f"{old} -> {new}")
        return

    def turn(text):
        # Definitions that a comment names are turned too, but not the words of its prose.
        def line(text):
            code, dash, comment = re.match(r"^((?:(?!--).)*)(--)?(.*)$", text).groups()
            return TOKEN.sub(lambda m: names.get(m.group(0), m.group(0)), code) + (dash or "") + TOKEN.sub(lambda m: names.get(m.group(0), m.group(0)) if m.group(0) not in PROSE else m.group(0), comment)
        return "\n".join(line(part) for part in text.split("\n"))

    changed = 0
    for path in files:
        text = path.read_text()
        new = turn(text)
        if new != text:
            path.write_text(new)
            changed += 1
    for path in sorted(pathlib.Path("crates").rglob("*.rt")):
        if "out" in path.parts:
            continue
        text = path.read_text()
        # ghost use items, clauses and ghost fields
        new = re.sub(r"^(\s*)(ghost|requires|ensures)\b[^\n]*$", lambda m: turn(m.group(0)), text, flags=re.M)
        if new != text:
            path.write_text(new)
            changed += 1
    print(f"{len(names)} names, {changed} files")


main()
