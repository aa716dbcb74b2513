#!/usr/bin/env python3
"""Prints docs/REGISTERS.md from the rows of registers in crates/*/specs/*.antt: tools/registers.py > docs/REGISTERS.md

.ci/made compares the page.
"""
import glob
import os
import re
import sys
import textwrap

sys.path.insert(0, os.path.dirname(os.path.abspath(__file__)))
from runs import Refused, main, parser, write  # noqa: E402

TOP = os.path.dirname(os.path.dirname(os.path.abspath(__file__)))
KINDS = {
    "read_write": "read, write", "register": "read (which acts), write", "read_acts": "read (which acts)", "read_only": "read",
    "seen_only": "read", "write_only": "write", "kept": "read, write", "of_channel": "read, write",
    "triggering": "read, write (which triggers)",
}
NO_READ = re.compile(r"\(λ (\w+)\. \1\)")    # a read that leaves what it found
HEAD = re.compile(r"^abbrev pub (\w+_rows) : .*List \(Row ", re.M)
ROW = re.compile(rf'(?:repeated (\d+) (\d+) \((?:λ \w+\. )?)?({"|".join(KINDS)}) (0x[0-9a-f]+) "(\w+)"')
PAGE = """# The registers

Made by `tools/registers.py`; `.ci/made` compares it, and `.ci/made --write` makes it anew.

The registers of the blocks by their offsets (hexadecimal), with the accesses that are not ignored. What each reads as and what a
write leaves stands in its row, in the file that is named.
"""


def wrapped(text):
    return textwrap.fill(text, 130, break_long_words=False, break_on_hyphens=False)


def comment(text):
    return " ".join(line[3:] for line in text.splitlines() if line.startswith("-- ") and not line.startswith("-- ----"))


def rows_of(part):
    """The rows of a definition: count and stride where it is repeated, kind, offset and name."""
    for row in part.split("\n    ∷ ")[:-1]:    # a row may go over several lines, and the last is []
        found = ROW.search(" ".join(row.split()))
        if not found:
            raise Refused(f"a row is in no form that this tool knows: {' '.join(row.split())[-60:]}")
        kind = "read_write" if found[3] == "register" and NO_READ.search(row) else found[3]
        yield found[1], found[2], kind, found[4], found[5]


def table(name, head, part):
    """The lines of a definition's table, below what the head of its section says of a place."""
    yield f"\n### {name}\n"
    said = [head] if re.search(r"at [0-9A-F]{8}", head) else []
    said += [comment(part[:HEAD.search(part).start()])]
    if text := ". ".join(it[0].upper() + it[1:] for it in said if it):
        yield wrapped(text + ".") + "\n"
    yield "| Offset | Name | Access |\n|---|---|---|"
    for count, stride, kind, offset, register in rows_of(part[HEAD.search(part).end():]):
        last = f" to {int(offset, 16) + (int(count) - 1) * int(stride):03x}, each {int(stride):x}" if count else ""
        yield f"| {int(offset, 16):03x}{last} | {register} | {KINDS[kind]} |"


def tables(path):
    """The lines of a file: what it is, and its tables."""
    with open(path, encoding="utf-8") as file:
        text = file.read()
    lines, head = [], ""
    for part in text.split("\n\n"):    # definitions stand apart by an empty line
        if found := re.match(r"-- ---- (.*)", part):
            head = found[1]
        if (found := HEAD.search(part)) and "0x" in part[found.end():]:
            lines += table(found[1], head, part)
    if lines:
        about = comment(re.match(r"(?:--.*\n)*", text)[0])
        yield f"\n## {path.split('/')[1]}\n\n`{path}`:\n{wrapped(about)}"
    yield from lines


def tool():
    parser(__doc__).parse_args()
    os.chdir(TOP)
    lines = [PAGE.rstrip("\n")]
    for path in sorted(glob.glob("crates/*/specs/*.antt")):
        lines += tables(path)
    write(None, "\n".join(lines) + "\n")


if __name__ == "__main__":
    main(tool)
