#!/usr/bin/env python3
"""Brings the repository's own definitions and lemmas to one spelling: words in snake case. Run once, right after port.py, at the top.

Which names: those declared in specs/ and in the lemma files of proofs/, where they begin with a small letter and have a capital or a
dash inside, and the names after `as`. Where two fall together the lemma gets `_lem`. Read and written: specs/, proofs/, the ghost
parts and comments of src/, and must-fail/. Functions of src/, exported C names, strings, inputs and outputs keep their names.
"""
import collections
import pathlib
import re

ROOT = pathlib.Path(".")
TOKEN = re.compile(r"[^\s.(){}\[\];,\"`]+")
DECLARED = re.compile(r"^\s*(?:(?:abbrev|unfoldable|pub|mutual|instance)\s+)*([^\s.(){}\[\];,:\"]+)\s*:(?!:)")
# Lemmas that port.py had already respelled like a definition: they are renamed only where they are declared or imported.
FALLEN = {
    "goes_on": ("meaning/proofs/Jobs", "text/proofs/Number"),
    "lines_of": ("text/proofs/Examples",),
    "map_found": ("filling/proofs/Holes",),
    "row_of": ("rule_numbers/proofs/Flags",),
    "sign_at": ("rules/proofs/CoverRows",),
    "to_item": ("text/proofs/Nesting",),
}


def snake(name):
    return re.sub(r"(?<=[a-z0-9'])([A-Z])", lambda m: "_" + m.group(1).lower(), name).replace("-", "_")


def is_walk(path):
    return path.name == "Proof.antt"


def files():
    for crate in sorted(ROOT.glob("crates/*")):
        for part, ending in (("specs", "antt"), ("proofs", "antt"), ("src", "rt"), ("must-fail", "edit")):
            yield from sorted((crate / part).rglob("*." + ending))


def declared():
    names = collections.defaultdict(set)
    for path in files():
        text = path.read_text()
        if path.suffix == ".antt" and not is_walk(path):
            for line in text.splitlines():
                found = DECLARED.match(re.sub(r"--.*", "", line))
                if found:
                    names[found.group(1)].add(path)
        if path.suffix in (".antt", ".rt"):
            for alias in re.findall(r" as ([a-z]\w*)", re.sub(r"//.*", "", "\n".join(l for l in text.splitlines() if l.startswith(("ghost use", "use", "pub use"))))):
                names[alias].add(path)
    return names


def main():
    names = declared()
    small = [n for n in names if n[0].islower()]
    together = collections.defaultdict(set)
    for n in small:
        together[snake(n)].add(n)
    renamed = {}
    for n in small:
        if snake(n) != n:
            others = together[snake(n)] - {n}
            renamed[n] = snake(n) + ("_lem" if others and "-" in n else "")
    renamed["T-or"] = "T_or"
    taken = collections.Counter(renamed.values())
    assert max(taken.values()) == 1, [n for n, k in taken.items() if k > 1]
    for path in files():
        text = path.read_text()
        new = text
        for old, places in FALLEN.items():
            modules = ["Rattle." + p.replace("/", ".") for p in places]
            here = any(path == ROOT / "crates" / (p + ".antt") for p in places)
            cited = any(re.search(r"^use %s\.\{[^}]*(?<![\w'-])%s(?![\w'-])[^}]*\}" % (re.escape(m), old), text, re.M) for m in modules)
            if here or cited:
                new = re.sub(r"(?<![\w'.-])%s(?![\w'-])" % old, old + "_lem", new)
        if is_walk(path):
            new = re.sub(r"(?<![\w.-])([a-z][\w-]*)-spec(?![\w-])", lambda m: m.group(1).replace("-", "_") + "_spec", new)
        out = []
        for part in re.split(r'("(?:[^"\\]|\\.)*")', new) if path.suffix == ".rt" else [new]:
            out.append(part if path.suffix == ".rt" and part.startswith('"') else TOKEN.sub(lambda m: renamed.get(m.group(0), m.group(0)), part))
        new = "".join(out)
        if new != text:
            path.write_text(new)
    print(len(renamed), "names respelled;", sum("_lem" in n for n in renamed.values()) + len(FALLEN), "with _lem")


main()
