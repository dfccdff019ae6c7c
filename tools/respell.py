#!/usr/bin/env python3
"""Brings the repository's own definitions and lemmas to today's spelling: words in snake case, with neither a capital inside nor a dash.

usage: python3 tools/respell.py [--dry]     at the top of the repository, once, after the toolchain's own porting script

What is renamed: each definition, lemma, field and constructor that a file of crates/*/specs or, directly, of crates/*/proofs declares, in
every .antt and .rt file and in the edits of must-fail/. Functions of src/, exported names, comments, strings and what Rattle itself makes
keep their names. Where a new name already stands for something else, as for a function of src/, a definition gets the ending _def and a
lemma _lem. A crate that has the name of one of the toolchain's libraries gets another (CRATES).
"""

import collections
import os
import re
import sys

# fields and constructors that would fall together with another name, and what they are called instead
AGAIN = {"toController": "is_to_controller", "frameIs": "is_frame", "recordIs": "is_record", "badText": "is_bad_text"}
# a crate that has the name of a library of the toolchain, and what it is called instead
CRATES = {"base64": "strict_base64"}
# a name begins at none of these and ends before one of them
EDGE = r"[^\s(){}\[\],;.λ]+"
TOKEN = re.compile(EDGE)
DECLARED = re.compile(r"(?:(?:abbrev|unfoldable|pub|data|record)\s+)*(" + EDGE + r")\s*(?:\{[^}]*\}\s*|\([^)]*\)\s*)*:\s")
INNER = re.compile(r"\s+(?:(?:abbrev|unfoldable|pub)\s+)*(" + EDGE + r")\s*:\s")


def files(*ends):
    for folder, dirs, names in os.walk("crates"):
        dirs[:] = sorted(d for d in dirs if d != "out")
        for n in sorted(names):
            if n.endswith(ends):
                yield os.path.join(folder, n)


def respelled(name):
    """A name in snake case."""
    if name in AGAIN:
        return AGAIN[name]
    if not re.match(r"[a-z]", name):
        return name
    name = re.sub(r"([a-z0-9])([A-Z])", lambda m: m[1] + "_" + m[2].lower(), name)
    return name.replace("-", "_").lower() if re.fullmatch(r"[a-zA-Z0-9_'-]+", name) else name


def declared():
    """The names that the repository declares, each with a file that does."""
    found = {}
    for path in files(".antt"):
        parts = path.split(os.sep)
        if len(parts) != 4:  # crates/NAME/specs/F.antt, crates/NAME/proofs/F.antt
            continue
        inside = None
        for line in open(path, encoding="utf-8"):
            if line.startswith(("use ", "--", "ruleset")):
                continue
            m = DECLARED.match(line)
            if m:
                found.setdefault(m[1], path)
                inside = line.split()[:3]
            elif re.match(r"  \S", line) and inside and {"data", "record", "module"} & set(inside):
                m = INNER.match(line)
                if m:
                    found.setdefault(m[1], path)
            elif line.strip() and not line.startswith(" "):
                inside = line.split()[:3]
    return found


def code(line, comment):
    """Where a line's comment begins."""
    at = line.find(comment)
    return len(line) if at < 0 else at


def turned(path, names, seen):
    """The lines of a file with the new names."""
    comment = "--" if path.endswith(".antt") else "//"
    out = []
    for line in open(path, encoding="utf-8"):
        n = code(line, comment)
        text = TOKEN.sub(lambda m: names.get(m[0], m[0]), line[:n])
        for old, new in CRATES.items():
            text = text.replace(f"Rattle.{old}.", f"Rattle.{new}.")
        out.append(text + line[n:])
    return "".join(out)


def chosen(found, seen):
    """The new name of each name that changes; none falls together with another name."""
    names, taken = {}, set(seen)
    for ending, folder in (("_def", "specs"), ("_lem", "proofs")):
        for old, path in sorted(found.items()):
            new = respelled(old)
            if path.split(os.sep)[2] == folder and new != old:
                names[old] = new + ending if new in taken else new
                if names[old] in taken:
                    raise SystemExit(f"respell: {old} falls together with another name as {names[old]}")
        taken |= set(names.values())
    return names


def main(argv):
    seen = set()
    for path in files(".antt", ".rt"):
        for line in open(path, encoding="utf-8"):
            seen |= set(TOKEN.findall(line[: code(line, "//" if path.endswith(".rt") else "--")]))
    names = chosen(declared(), seen)
    if len(set(names.values())) != len(names):
        twice = [n for n, k in collections.Counter(names.values()).items() if k > 1]
        raise SystemExit("respell: two names become one: " + " ".join(twice))
    if "--dry" in argv:
        for old, new in sorted(names.items()):
            print(old, new)
        return 0
    for path in list(files(".antt", ".rt", ".edit")):
        text = turned(path, names, seen)
        with open(path, "w", encoding="utf-8") as f:
            f.write(text)
    for old, new in CRATES.items():
        os.rename(os.path.join("crates", old), os.path.join("crates", new))
        with open("crates.txt", encoding="utf-8") as f:
            lines = [l if l.startswith("#") else re.sub(rf"\b{old}\b", new, l) for l in f]
        with open("crates.txt", "w", encoding="utf-8") as f:
            f.write("".join(lines))
    return 0


if __name__ == "__main__":
    raise SystemExit(main(sys.argv[1:]))
