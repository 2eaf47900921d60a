"""Lists the places of older forms in src/, as they stand in COMMIT, or HEAD: places.py [-v] [COMMIT].

docs/DESIGN-PASS.md says what each count means. It goes by text alone: a row is a place to read and no verdict. With -v
each place is printed.
"""
import re
import subprocess
import sys


def git(*words):
    return subprocess.run(["git", *words], capture_output=True, text=True, check=True).stdout


def code(text):
    """The lines of code, without comments."""
    return [(n, line.split("//")[0]) for n, line in enumerate(text.split("\n"), 1)]


def lines(text, pattern):
    return [f"{n}: {line.strip()}" for n, line in code(text) if re.search(pattern, line) and "ghost use" not in line]


def functions(text):
    """Each function's line, name, parameters and the first line of its body."""
    for m in re.finditer(r"\bfn (\w+)(?:<[^(]*?>)?\(([^)]*)\)((?:(?!\bfn \w).)*?)\{\n\s*(.*?)\n", text, re.S):
        listed = re.sub(r"<[^<>]*>", "", m.group(2)).split(",")
        parameters = [p.strip() for p in listed if p.strip() and p.strip() != "rt: HostRuntime"]
        yield text[: m.start()].count("\n") + 1, m.group(1), parameters, m.group(3), m.group(4)


def own_enums(text):
    """Enums of two or three variants of which one is empty or one holds a value: the shape of Option or Result."""
    found = []
    for m in re.finditer(r"\benum (\w+)[^{]*\{(.*?)\n\}", text, re.S):
        variants = [v.strip() for v in re.sub(r"//.*", "", m.group(2)).split("\n") if v.strip()]
        if len(variants) <= 3 and any("(" in v for v in variants):
            found.append(f"{text[:m.start()].count(chr(10)) + 1}: enum {m.group(1)}")
    return found


def conversions(text):
    """Functions of one value that begin with a match on it."""
    return [
        f"{n}: fn {name}"
        for n, name, parameters, _, first in functions(text)
        if len(parameters) == 1 and re.match(r"match \w+ \{", first)
    ]


POINTS = {
    "1 enums of the shape of Option or Result": own_enums,
    "1 flags": lambda t: lines(t, r"^\s+\w+: bool,|[(,] ?\w+: bool"),
    "1 results wrapped again, or unreachable": lambda t: lines(t, r"=> (return )?Err\(|unreachable\(\)|else \{ return Err"),
    "1 faults answered as an Option": lambda t: lines(t, r"-> Option<\w*Fault>"),
    "3 loops over a range": lambda t: lines(t, r"\bfor [^ ]+ in [^{]*\.\."),
    "4 conversions and texts by a match": conversions,
    "5 functions of five parameters and more": lambda t: [
        f"{n}: fn {name} ({len(p)})" for n, name, p, _, _ in functions(t) if len(p) >= 5
    ],
    "6 fixed arrays": lambda t: lines(t, r"(= |: &?('\w+ )?(mut )?|<)\[[^\];]+; ?\w+( - 1)?\]"),
    "6 lengths beside": lambda t: lines(t, r"^\s+(pub(\(\w+\))? )?(len|count|end|put|room): usize,"),
    "7 steps chosen by a parameter": lambda t: lines(
        t, r"\bmatch \(?(&mut )?(request|frame|call|keep|kind|&?step|self\.state|self\.sheet|sheet\.kind)\b|\bif keep\b"
    ),
}


def repeated_requires(files):
    """The requires clauses that stand in three functions and more, the word for the name left out."""
    seen = {}
    for path, text in files:
        for n, line in code(text):
            m = re.match(r"\s+requires (?:\w+ )?(\{.*\})", line)
            if m:
                seen.setdefault(m.group(1), []).append(f"{path}:{n}: {m.group(1)}")
    return [place for places in seen.values() if len(places) > 2 for place in places]


def main():
    verbose = "-v" in sys.argv
    commit = next((a for a in sys.argv[1:] if a != "-v"), "HEAD")
    names = git("ls-tree", "-r", "--name-only", commit).split("\n")
    files = [(p, git("show", f"{commit}:{p}")) for p in names if re.match(r"crates/\w+/src/.*\.rt$", p)]
    for point, rule in POINTS.items():
        places = [f"{path}:{place}" for path, text in files for place in rule(text)]
        print(f"{len(places):4}  {point}")
        if verbose:
            print("".join(f"        {place}\n" for place in places), end="")
    places = repeated_requires(files)
    print(f"{len(places):4}  5 requires clauses that stand three times and more")
    if verbose:
        print("".join(f"        {place}\n" for place in places), end="")
    proofs = [git("show", f"{commit}:{p}") for p in names if re.match(r"crates/\w+/proofs/.*\.antt$", p)]
    answers = sum(len(re.findall(r"^pub \S+ : goal\.", text, re.M)) for text in proofs)
    print(f"{answers:4}  8 answers, in {sum(text.count(chr(10)) for text in proofs)} lines of proofs")


main()
