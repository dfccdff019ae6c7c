"""Prints the benchmark's tables and writes them with a plot: report.py FOLDER MARKDOWN SVG. Standard library only."""
import os
import sys
import textwrap
from collections import namedtuple

PROGRAMS = [("archive", "archive"), ("gcc2", "C, gcc -O2"), ("gcc3", "C, gcc -O3"), ("clang3", "C, clang -O3"),
            ("rust", "Rust")]
NAMES = dict(PROGRAMS)
# The builds of C, and all that the archive is held to.
BUILDS = ["gcc2", "gcc3", "clang3"]
OTHERS = BUILDS + ["rust"]
PATHS = {
    "send": "sender, bodies of 512",
    "sendlong": "sender, bodies of 65,533",
    "sendlong-open": "sender, long, no CRC",
    "collect256": "collector, lumps of 256",
    "collect64": "collector, lumps of 64",
    "collect16": "collector, lumps of 16",
    "collect1": "collector, lumps of 1",
    "read": "reader, bodies of 512",
    "readlong": "reader, bodies of 65,533",
    "readlong-open": "reader, long, no CRC",
    "readbad": "reader, bad texts",
    "crc": "CRC alone",
    "reply": "upload replies read",
    "echo": "echo replies read",
    "pairs": "replies of 25 pairs read",
    "handle": "echo requests handled",
    "chunks": "upload requests handled",
    "unknown": "requests of 24 unknown pairs",
    "worst": "the costliest request",
    "erase": "erase requests handled",
    "list0": "image lists, no bodies",
    "list60000": "image lists, bodies of 60,000",
    "frames": "an upload's frames alone",
    "upload": "whole upload",
    "replay": "a recording replayed",
}
# The paths whose calls are counted too.
CALLS = ["collect256", "collect64", "collect16", "collect1", "readbad", "reply", "echo", "pairs", "handle", "chunks", "unknown", "worst",
         "erase", "list0", "list60000"]
# The archive's function that computes the CRC, and the path whose bytes it is counted on: no call gives the CRC alone.
CRC, CRC_PATH = "crc::continued", "send"
GROWING = {"send": "sender", "read": "reader", "upload": "whole upload"}
SIZES = [64, 128, 256, 512, 1024]
GROWN = ["archive", "gcc2", "rust"]
PLOTTED = [("archive", "archive", "#1b5e8c"), ("c", "C, its best build", "#e8b25a"),
           ("rust", "Rust", "#7a7a7a")]

# A round of a path: its bytes, its calls, and the instructions.
Count = namedtuple("Count", "bytes calls instructions")


def rows(path):
    """The lines of a file, each cut at its tabs; none where there is no file."""
    if not os.path.exists(path):
        return []
    with open(path, encoding="utf-8") as lines:
        return [line.rstrip("\n").split("\t") for line in lines]


class Measured:
    """All that bench/run measured."""

    def __init__(self, folder):
        """Reads the files of a folder."""
        self.folder = folder
        self.counts = {(path, program, int(size)): Count(*map(int, numbers))
                       for path, program, size, *numbers in rows(folder + "/counts.tsv")}
        self.speeds = {}
        for path, program, length, best in rows(folder + "/times.tsv"):
            speed = int(length) / max(int(best), 1) * 1e3
            self.speeds[path, program] = max(speed, self.speeds.get((path, program), 0))
        self.tools = dict(rows(folder + "/tools.tsv"))
        self.compared = sum(int(number) for _, number in rows(folder + "/peer.tsv"))
        self.worst = rows(folder + "/worst.tsv")
        self.families = len(rows(folder + "/search.tsv"))

    def a_byte(self, path, program, size=1024):
        """Instructions a byte, or nothing."""
        if (path, program) == ("crc", "archive"):
            return dict((name, count) for count, name in self.functions(CRC_PATH))[CRC]
        count = self.counts.get((path, program, size))
        return count and count.instructions / count.bytes

    def a_call(self, path, program):
        """Instructions a call, or nothing."""
        count = self.counts.get((path, program, 1024))
        return count and count.instructions / count.calls

    def crc(self, side, program):
        """What the last frame of each long body adds, to a byte of it: the CRC."""
        return self.a_byte(side, program) - self.a_byte(side + "-open", program)

    def functions(self, path):
        """The archive's instructions a byte by function, each function's own, the most first."""
        lines = (row[0].split(" ", 2) for row in rows(f"{self.folder}/functions.archive.{path}"))
        length = self.counts[path, "archive", 1024].bytes
        return sorted(((int(count) / length, *name) for what, count, *name in lines if what == "function"), reverse=True)


def number(value, form="{:,.2f}"):
    """A number, or a dash where there is none."""
    return "-" if value is None else form.format(value)


def table(head, lines):
    """A table in Markdown, its columns set even."""
    widths = [max(len(line[i]) for line in [head] + lines) for i in range(len(head))]
    def even(line):
        """One line of the table."""
        cells = [line[0].ljust(widths[0])] + [cell.rjust(width) for cell, width in zip(line[1:], widths[1:])]
        return "| " + " | ".join(cells) + " |"
    rule = "|" + "|".join(["-" * (widths[0] + 2)] + ["-" * (width + 1) + ":" for width in widths[1:]]) + "|"
    return "\n".join([even(head), rule] + [even(line) for line in lines])


def wrapped(text, indent=""):
    """A paragraph or a point of a list, in lines."""
    return textwrap.fill(" ".join(text.split()), 118, subsequent_indent=indent, break_long_words=False,
                         break_on_hyphens=False)


# A path held to the others: its name, the archive's instructions a byte, the best other's, and which that is.
Verdict = namedtuple("Verdict", "path name own best which")


def ratio(v):
    """The archive's instructions to the best other's, with as many digits as say on which side of 1 it is."""
    short = number(v.own / v.best)
    return number(v.own / v.best, "{:.4f}") if short == "1.00" else short


def verdict(path, name, value):
    """The archive beside the best of the others, by a value for each program."""
    which = min(OTHERS, key=value)
    return Verdict(path, name, value("archive"), value(which), which)


def met(v):
    """The archive needs no more than the best other."""
    return v.own <= v.best


def goal(m):
    """The table of the goal, how many paths meet it, and where the archive's instructions go on those that do not."""
    verdicts = [verdict(path, name, lambda program: m.a_byte(path, program)) for path, name in PATHS.items()]
    cells = [[v.name, number(v.own), number(v.best), NAMES[v.which], ratio(v),
              "met" if met(v) else "NOT met"] for v in verdicts]
    missed = [v for v in verdicts if not met(v)]
    text = [table(["path", "archive", "the best other", "which", "ratio", "goal"], cells), "",
            f"Met on {len(verdicts) - len(missed)} of {len(verdicts)} paths."]
    if missed:
        text += ["", wrapped("""Above it, with the functions that take most of the archive's instructions a byte (each
            function's own; what was inlined counts to its caller):"""), ""]
    for v in missed:
        most = ", ".join(f"`{name}` {number(count)}" for count, name in m.functions(v.path)[:4] if count >= 0.005)
        text.append(wrapped(f"- {v.name}, {ratio(v)} times {NAMES[v.which]}: {most}.", "  "))
    return "\n".join(text)


def pair(family):
    """A family in words: its command and its pair."""
    command, digits = family.split("-")
    two = [digits[i:i + 2] for i in range(0, len(digits), 2)]
    return f"{command}, " + " ".join(two if len(two) <= 12 else two[:4] + [".."] + two[-2:])


def costliest(m):
    """What the search for the costliest request found."""
    others = ", ".join(f"{NAMES[p]} {number(m.a_byte('worst', p))}" for p in OTHERS)
    call = number(m.a_call("worst", "archive"), "{:,.0f}")
    said = wrapped(f"""`bench/worst.py` tries {m.families:,} families of requests: one pair of an unknown key again and
        again, as upload, echo, reset, erase and state read; empty keys, keys of one character, keys that differ from a known one in
        the last character, long ones; heads of all widths; values of all types. The one that costs the archive most by
        the byte is {pair(m.worst[0][1])} (hexadecimal). At 65,533 bytes, which is the path "{PATHS["worst"]}", it takes
        {call} instructions, {number(m.a_byte("worst", "archive"))} a byte; {others}. The costliest of each kind, in
        requests of 4,096 bytes:""")
    lines = [[kind, pair(name), archive, plain] for kind, name, archive, plain in m.worst]
    return said + "\n\n" + table(["kind of pair", "the costliest", "archive", NAMES["gcc2"]], lines)


def wall_clock(m):
    """The times, where they were taken."""
    if not m.speeds:
        return "Not taken: the archive is x86-64 code, and on this machine an emulator ran it."
    lines = [[name] + [number(m.speeds.get((path, p)), "{:,.1f}") for p in NAMES] for path, name in PATHS.items()]
    said = wrapped("""Millions of bytes a second, the best of 21 rounds (3 runs of 7, the programs in turns), on a machine
        that other work may share: these vary from run to run, the counts above hardly.""")
    return said + "\n\n" + table(["path"] + list(NAMES.values()), lines)


def bodies(m):
    """What a list costs, by the bodies of its images."""
    small, large = (number(m.a_call(path, "archive"), "{:,.0f}") for path in ("list0", "list60000"))
    return wrapped(f"""The list of two images takes the archive {small} instructions where they have no bodies, and {large}
        where each body has 60,000 bytes: headers and TLV areas are read, bodies are not.""")


def crc_share(m):
    """What the CRC costs in each program, and of what."""
    lines = []
    for p, name in PROGRAMS:
        sides = [(m.crc(side, p), m.a_byte(side, p)) for side in ("sendlong", "readlong")]
        lines.append([name] + [number(cost) for cost, _ in sides] + [f"{100 * cost / all_:.0f} %" for cost, all_ in sides])
    return table(["program", "sender", "reader", "of the sender", "of the reader"], lines)


def growth(m):
    """Instructions a byte by the image's size, and their widest spread."""
    values = {f"{name}, {NAMES[p]}": [m.a_byte(path, p, size) for size in SIZES]
              for path, name in GROWING.items() for p in GROWN}
    spread, name = max((max(each) / min(each), name) for name, each in values.items())
    said = wrapped(f"""Instructions a byte by the image's KiB, of three of the programs; the widest spread is {spread:.3f}
        ({name}).""")
    lines = [[name] + [number(value) for value in each] for name, each in values.items()]
    return said + "\n\n" + table(["path, program"] + [str(size) for size in SIZES], lines)


def begun(m):
    """The page's first paragraph."""
    return wrapped(f"""`bench/run` builds programs of the same behaviour and measures them on the same buffers: the proved
        archive, the port in plain C (`bench/plain_frame.c`, `bench/plain_packet.c`, `bench/plain_recording.c`) in three
        builds, and the second program in Rust. It compares what they produce, path by path, and fails where they disagree; in this run
        they agreed on all paths. `bench/peer.c` compares each plain C call with the archive's on generated inputs, valid
        and damaged, every lent byte and number: {m.compared:,} calls in this run, no difference, every refusal and rc
        met. All of them compute the CRC by a table of 256 entries.""")


def tools_used(m):
    """The compilers and tools, and where the programs ran."""
    return wrapped(f"""- gcc {m.tools["gcc"]} and clang {m.tools["clang"]}, no link-time optimization; rustc
        {m.tools["rustc"]}, cargo's release profile with overflow checks and debug assertions off (the second program's own
        profile has them on); qemu {m.tools["qemu"]}; x86-64 programs on a machine of {m.tools["machine"]}.""", "  ")


def markdown(m):
    """The whole text of the benchmark's page."""
    instructions = [[name] + [number(m.a_byte(path, p)) for p in NAMES] for path, name in PATHS.items()]
    calls = [[PATHS[path]] + [number(m.a_call(path, p), "{:,.0f}") for p in ["archive"] + OTHERS] for path in CALLS]
    return f"""# Benchmark

{begun(m)}

## Instructions a byte

{table(["path"] + list(NAMES.values()), instructions)}

![Instructions a byte, and how they grow](benchmark.svg)

## Instructions a call

A count by the byte hides what a call costs by itself.

{table(["path", "archive"] + [NAMES[p] for p in OTHERS], calls)}

{bodies(m)}

## Goal

No path above 1.0 times the best of the others in instructions a byte: C in each of its three builds, and Rust.

{goal(m)}

## The CRC's share

What the last frame of each body of 65,533 bytes adds, which is where the CRC is computed (and one frame of 705):

{crc_share(m)}

## The costliest request

{costliest(m)}

## Growth

{growth(m)}

## Wall clock

{wall_clock(m)}

## How it was measured

- The image is 1 MiB of pseudo-random bytes of a fixed seed. Sender and reader: the image is cut into bodies of 512
  bytes (the packet size that the upload program takes) or 65,533 (the longest); a byte is a byte of the body.
  "No CRC": the last frame of each body is left out, and with it the CRC in all programs.
- Bad texts: the full lines of the bodies of 65,533, each with a character of no value in its last group, in each of its
  four places in turn; all programs give the place. The Rust program finds it by trying which beginnings of the text can
  go on. A byte is a byte of the line.
- CRC alone: the bodies of 512. The archive has no call for it: counted is what its function takes while these bodies are
  sent, the table that it takes for each of them included.
- Collector: the lines of the bodies of 512 as one stream, which is cut into lumps of one length, and each lump is gone
  through until it is used up; a byte is a byte of the stream, a call is a step through a lump.
- Maps: a byte is a byte of the packet that is read. Upload replies: those of a whole upload, about 22 bytes each.
  Echoes: 2,000 texts of 256 bytes. Replies of 25 pairs: 2,000 maps with 24 unknown pairs of 7 bytes before the rc.
  Requests of 24 unknown pairs: 2,000 of them, in turn echoes, with a text after the same pairs, and resets.
- Upload requests: the image's chunks in packets of 512 bytes, without the line; the session is open already, so that no
  slot is filled. Erase requests: four of 9 bytes; a byte is a byte of the slot, which is as large as the image. The
  costliest request: one of 65,533 bytes, handled 16 times, with a slot of one byte. In all of these slot 0 is empty.
- Image lists: 2,000 state reads of 8 bytes, with an image in each slot, whose TLV area is one entry, the hash; a byte is
  a byte of the reply.
- Whole upload: requests of 480 data bytes, each written, sent, read, handled, and its reply sent, read and read as a
  reply; a byte is a byte of the image. In the end the slot is compared with the image. "Frames alone": the same
  requests and replies, written beforehand, sent and read.
- A recording replayed: 49,152 bytes, as many as the replay program takes, with the lines of uploads that fill the slot of
  4,096 bytes one after the other, in requests of 480 data bytes; replayed once, and the transcript written. A byte is a
  byte of the recording.
- Instructions: one round under qemu, counted by a plugin (`bench/count.c`) only inside the measured function, so that
  start-up, setting up and digests are out. The drivers' loops (some instructions a line or packet), memcpy, and malloc
  in the Rust program are in. The counts of memcpy and memset depend on the features of the processor that qemu shows,
  and an instruction that repeats itself is counted each time: a slot of 1 MiB may be filled by one such.
- Buffers are allocated and touched before the rounds. Nothing is cleared between rounds: caches stay warm, and output
  buffers hold the last round's bytes. The processor's frequency is not fixed.
{tools_used(m)}
"""


def bars(m, put):
    """The bars of instructions a byte; gives the height after them."""
    y, left, width = 78, 210, 540
    shown = {(path, p): min(m.a_byte(path, build) for build in BUILDS) if p == "c" else m.a_byte(path, p)
             for path in PATHS for p, _, _ in PLOTTED}
    most = max(value for value in shown.values() if value)
    for path, name in PATHS.items():
        there = [(shown[path, p], colour) for p, _, colour in PLOTTED if shown[path, p]]
        put(f'<text x="{left - 8}" y="{y + 6 * len(there) + 4}" text-anchor="end">{name}</text>')
        for value, colour in there:
            long = width * value / most
            put(f'<rect x="{left}" y="{y}" width="{long:.1f}" height="11" fill="{colour}"/>')
            put(f'<text x="{left + long + 4:.1f}" y="{y + 9}" font-size="10">{value:.1f}</text>')
            y += 12
        y += 9
    return y


def lines(m, put, top):
    """The growth lines, a panel for each path; gives the height after them."""
    colours = dict(zip(GROWN, (colour for _, _, colour in PLOTTED)))
    most = 1.15 * max(m.a_byte(path, p, size) for path in GROWING for p in GROWN for size in SIZES)
    height, wide = 170, 200
    title = f"Growth: instructions a byte by KiB of image ({NAMES[GROWN[1]]})"
    put(f'<text x="20" y="{top + 22}" font-size="14" font-weight="bold">{title}</text>')
    top += 50
    for panel, (path, name) in enumerate(GROWING.items()):
        left = 60 + panel * (wide + 60)
        put(f'<text x="{left + wide / 2}" y="{top - 8}" text-anchor="middle">{name}</text>')
        put(f'<path d="M{left} {top} V{top + height} H{left + wide}" fill="none" stroke="#444"/>')
        for step in range(0, int(most) + 1, 50 if most > 100 else 10):
            y = top + height - height * step / most
            put(f'<path d="M{left - 4} {y:.1f} H{left}" stroke="#444"/>')
            put(f'<text x="{left - 7}" y="{y + 4:.1f}" text-anchor="end" font-size="10">{step}</text>')
        for i, size in enumerate(SIZES):
            put(f'<text x="{left + 10 + i * 45}" y="{top + height + 15}" text-anchor="middle" '
                f'font-size="10">{size}</text>')
        for p in GROWN:
            points = [(left + 10 + i * 45, top + height - height * m.a_byte(path, p, size) / most)
                      for i, size in enumerate(SIZES)]
            joined = " ".join(f"{x},{y:.1f}" for x, y in points)
            put(f'<polyline points="{joined}" fill="none" stroke="{colours[p]}" stroke-width="2"/>')
            for x, y in points:
                put(f'<circle cx="{x}" cy="{y:.1f}" r="3" fill="{colours[p]}"/>')
    return top + height + 30


def svg(m):
    """The plot: bars of each path and program, and the growth lines."""
    parts = []
    put = parts.append
    put('<text x="20" y="26" font-size="14" font-weight="bold">Instructions a byte, image of 1 MiB</text>')
    x = 210
    for _, name, colour in PLOTTED:
        put(f'<rect x="{x}" y="44" width="12" height="12" fill="{colour}"/>')
        put(f'<text x="{x + 17}" y="54">{name}</text>')
        x += 40 + 7 * len(name)
    height = lines(m, put, bars(m, put))
    head = f'<svg xmlns="http://www.w3.org/2000/svg" viewBox="0 0 860 {height}" width="860" height="{height}"'
    return (head + ' font-family="sans-serif" font-size="12" fill="#222">\n'
            f'<rect width="860" height="{height}" fill="#fff"/>\n' + "\n".join(parts) + "\n</svg>\n")


def main():
    """Reads the measurements and writes the page and the plot."""
    folder, page, plot = sys.argv[1:]
    m = Measured(folder)
    text = markdown(m)
    with open(page, "w", encoding="utf-8") as out:
        out.write(text)
    with open(plot, "w", encoding="utf-8") as out:
        out.write(svg(m))
    print(text[text.index("## Instructions"):text.index("## How it")])


main()
