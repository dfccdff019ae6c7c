#!/usr/bin/env python3
"""Lists the places of src/ at which docs/DESIGN-PASS.md looks, point by point: tools/places.py [FOLDER OF CRATES]

The lists are where to look, not verdicts: which of them a point means is read, and stands on that page.
"""
import collections
import glob
import re
import sys

ROOT = sys.argv[1] if len(sys.argv) > 1 else "crates"
EXPORTS = ("port", "port_c")
WORDS = {"if", "else", "let", "mut", "match", "return", "for", "in", "while", "as", "Some", "None", "Ok", "Err", "true", "false"}


def sources():
    """Each source file: its crate and its text without comments."""
    for path in sorted(glob.glob(f"{ROOT}/*/src/*.rt")):
        with open(path, encoding="utf-8") as file:
            yield path.split("/")[-3], re.sub(r"//.*", "", file.read())


def block(text, start):
    """The text between the brace at or after start and its partner."""
    first = text.index("{", start)
    depth = 0
    for place in range(first, len(text)):
        depth += {"{": 1, "}": -1}.get(text[place], 0)
        if depth == 0:
            return text[first + 1 : place]
    return text[first + 1 :]


def functions():
    """Each function: its crate, its name, its signature, its clauses and its body."""
    for crate, text in sources():
        for found in re.finditer(r"^[ ]*(?:pub )?fn (\w+)", text, re.M):
            line_end = text.index("\n", found.end())
            if text[found.start() : line_end].rstrip().endswith("{"):
                opening = text.rindex("{", found.start(), line_end)
            else:
                opening = re.compile(r"^[ ]*\{[ ]*$", re.M).search(text, found.end()).start()
            head = text[found.start() : opening]
            clause = re.search(r"^\s*(requires|ensures|where)\b", head, re.M)
            signature = head[: clause.start()] if clause else head
            clauses = head[clause.start() :] if clause else ""
            yield crate, found.group(1), signature, clauses, block(text, opening)


def shape(body):
    """A body with its names, numbers and texts taken out."""
    body = re.sub(r"b?\"[^\"]*\"|b'[^']*'|\b0x[0-9A-Fa-f]+\b|\b\d\w*\b", "x", body)
    body = re.sub(r"[A-Za-z_]\w*", lambda word: word.group(0) if word.group(0) in WORDS else "x", body)
    return re.sub(r"\s+", "", body)


def show(title, rows):
    """A heading with the number of its rows, and the rows."""
    print(f"{title}: {len(rows)}")
    for row in rows:
        print(f"  {row}")


def main():
    enums, flags, loops, fors, wide = [], [], [], [], []
    for crate, text in sources():
        for found in re.finditer(r"^[ ]*(?:pub )?enum (\w+)", text, re.M):
            variants = re.findall(r"^    (\w+)", block(text, found.end()), re.M)
            enums.append(f"{crate}::{found.group(1)}: {' '.join(variants)}")
        for found in re.finditer(r"^[ ]*(?:pub )?struct (\w+)[^;{]*\{", text, re.M):
            for field in re.findall(r"(\w+): bool,", block(text, found.start())):
                flags.append(f"{crate}::{found.group(1)}.{field}")
        loops += [f"{crate}: {line.strip()}" for line in re.findall(r"^[ ]*(?:while|loop)\b.*", text, re.M)]
        fors += [f"{crate}: {line.strip()}" for line in re.findall(r"^[ ]*for\b.*", text, re.M)]
        wide += [f"{crate}: {line.strip()}" for line in text.split("\n") if re.search(r" as (u8|u16|u32|u64|usize)\b", line)]
    codes, facts, lent, shapes, kinds = [], collections.defaultdict(list), collections.defaultdict(list), collections.defaultdict(list), []
    for crate, name, signature, clauses, body in functions():
        where = f"{crate}::{name}"
        if re.search(r"-> u(8|32)\s*$", signature) and crate not in EXPORTS:
            codes.append(where)
        for fact in re.findall(r"requires \w* ?\{ (.*) \}$", clauses, re.M):
            for part in fact.split(" × "):
                facts[part.strip("() ")].append(where)
        names = re.findall(r"(\w+): ", signature)
        if crate not in EXPORTS:
            for first in range(len(names)):
                for second in range(first + 1, len(names)):
                    lent[names[first], names[second]].append(where)
            kinds += [f"{where}: {flag}" for flag in re.findall(r"(\w+): bool", signature)]
            if len(shape(body)) >= 12:
                shapes[shape(body)].append(where)
    show("1. enums, with their variants", enums)
    show("1. flags in structs", flags)
    show("1. functions that give a number of 8 or 32 bits", codes)
    show("2. bodies of one shape", [" ".join(found) for found in shapes.values() if len(found) > 1])
    show("3. while and loop", loops)
    show("3. for", fors)
    show("4. lines with as", wide)
    show("5. facts that three or more functions require", [f"{len(w)} {f}" for f, w in sorted(facts.items(), key=lambda row: -len(row[1])) if len(w) > 2])
    show("5. pairs of parameters in four or more functions", [f"{len(w)} {a}, {b}" for (a, b), w in sorted(lent.items(), key=lambda row: -len(row[1])) if len(w) > 3])
    show("7. flags among parameters", kinds)


main()
