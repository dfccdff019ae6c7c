"""Searches for the request that costs most: worst.py FOLDER COUNTING..

FOLDER is where bench/run has built its drivers; COUNTING.. are the words that run a program and count its instructions
(bench/count.c), to which a file and the program's words are added. A family is a command and one pair
of an unknown key, which a request has again and again. One request of each family is handled by the archive and by the
plain C of gcc -O2. FOLDER/search.tsv gets a line for each family, FOLDER/worst.tsv one for each kind of pair, with the
family that costs the archive most, the costliest first: the kind, the family, the instructions a byte of the archive
and of C.
"""
import subprocess
import sys

COMMANDS = ["upload", "echo", "reset", "erase", "list"]
# Keys that no command knows, by kind; those near to known ones differ in the last character alone.
KEYS = {
    "empty key": [""],
    "one character": ["x", "c", "e"],
    "near a known key": ["ofx", "lex", "shx", "datb", "slou", "imagf", "upgradf"],
    "24 characters": ["k" * 24],
}
# Values: the number 0 and strings of no bytes in heads of every width, -1, a string of one byte, false and null.
VALUES = ["00", "1800", "190000", "1A00000000", "1B" + 16 * "0", "20", "3B" + 16 * "0", "40", "5B" + 16 * "0", "60",
          "7B" + 16 * "0", "4100", "F4", "F6"]
# Requests of this many bytes are enough to compare families by.
LENGTH = 4096


def key_heads(length):
    """The heads of a text key of this length, from the shortest on."""
    shortest = [f"{0x60 + length:02X}"] if length < 24 else []
    return shortest + [f"{0x77 + width:02X}{length:0{2 ** width}X}" for width in (1, 2, 3, 4)]


def families():
    """The families, each with its kind: every value under the shortest and the widest head of a key, 0 under all."""
    found = {}
    for kind, keys in KEYS.items():
        for key in keys:
            heads = key_heads(len(key))
            for place, head in enumerate(heads):
                for value in VALUES if place in (0, len(heads) - 1) else VALUES[:1]:
                    for command in COMMANDS:
                        wide = place > 0 or len(value) > 2 and value != "4100"
                        name = kind + (", wide heads" if wide else "")
                        found[f"{command}-{head}{key.encode().hex().upper()}{value}"] = name
    return found


def measure(folder, counting, program, names):
    """The instructions a byte of each family in one program."""
    out = folder + "/functions.search"
    words = counting + [out, folder + "/driver-gcc2", program, "search", str(LENGTH)]
    said = subprocess.run(words, input="\n".join(names), capture_output=True, text=True)
    lines = [line.split() for line in said.stdout.splitlines()]
    with open(out, encoding="utf-8") as counts:
        totals = [int(line.split()[1]) for line in counts if line.startswith("round ")]
    if said.returncode != 0 or len(lines) != len(names) or len(totals) != len(names):
        sys.exit(f"worst: {program}: {len(lines)} of {len(names)} families, {len(totals)} counts\n{said.stderr[-500:]}")
    return {name: total / int(length) for (name, length), total in zip(lines, totals)}


def main():
    """Measures all families in both programs and writes the costliest of each kind."""
    folder, counting = sys.argv[1], sys.argv[2:]
    kinds = families()
    archive, plain = (measure(folder, counting, program, list(kinds)) for program in ("archive", "plain"))
    ordered = sorted(kinds, key=archive.get, reverse=True)
    most = {}
    for name in ordered:
        most.setdefault(kinds[name], name)
    for file, names in (("search", ordered), ("worst", most.values())):
        with open(f"{folder}/{file}.tsv", "w", encoding="utf-8") as out:
            out.writelines(f"{kinds[name]}\t{name}\t{archive[name]:.2f}\t{plain[name]:.2f}\n" for name in names)
    print(f"worst: {ordered[0]}, {archive[ordered[0]]:.2f} a byte, among {len(kinds)} families")


main()
