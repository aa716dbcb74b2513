#!/usr/bin/env python3
"""Prints docs/TRUSTED.md, the list of what the clause `text` of `pico` stands on: tools/trusted.py > docs/TRUSTED.md

It begins with the names in that clause (crates/pico_top/src/lib.rt) and follows the imports of the files that define them. Each file of
crates/*/specs that is met is listed behind those that import it, with its lines and the section of a manual that its first comment
names, or `UNNAMED` below; then the types of the code that these files name, and what they import of libraries. .ci/made compares the page.
"""
import os
import re
import sys
import textwrap

sys.path.insert(0, os.path.dirname(os.path.abspath(__file__)))
from runs import Refused, main, parser, write  # noqa: E402

TOP = os.path.dirname(os.path.dirname(os.path.abspath(__file__)))
CALL = "crates/pico_top/src/lib.rt"
IMPORT = re.compile(r"^(?:pub |ghost )?use (?:Rattle\.)?(\w+)\.(\w+)\.([\w.]+?)\.?(?: as \w+|\{([^}]*)\})?;?$", re.M)
MANUAL = re.compile(r"Datasheet|Manual|DDI 0183|Microsoft|O'Neill|PCG|ISO C|AMBA")
# The section of a file whose first comment names none, or why it has none.
UNNAMED = {
    "lane_look/Alone": "the project's own: a part that runs alone",
    "lane_look/Asking": "the project's own: what a part asks the rest of the machine",
    "lane_look/Device": "the project's own: what stands outside the chip",
    "lane_look/Replay": "the project's own: a part that is told its answers",
    "pio_machine/Ending": "RP2040 Datasheet, 3.4.1 to 3.4.10, what stalls, sets PC or is executed",
    "ram_banks/Pages": "the project's own: the pieces of SRAM in a snapshot",
    "rp_base/Resettable": "RP2040 Datasheet, 2.14, Subsystem Resets",
    "rp_base/Rows": "the form of the manuals' lists of registers; the rows of a block name theirs",
    "rp_machine/Answers": "RP2040 Datasheet, 2.3.2, Interrupts, and 2.5.3.1, System DREQ Table",
    "rp_machine/Cycle": "RP2040 Datasheet, 2.1, Bus Fabric; the order within a cycle is the project's own",
    "rp_machine/Events": "the project's own: the events that are printed",
    "rp_machine/Readers": "the project's own: the registers that are printed",
    "rp_machine/Reads": "the project's own: what the debugger is told",
    "rp_machine/Run": "the project's own: cycles one after the other",
    "rp_ports/Fault": "the project's own: how often something outside failed",
    "rp_ports/Shelf": "the project's own: files",
    "rp_ports/Sink": "the project's own: what is written",
    "rp_ports/Source": "the project's own: what is read",
    "trace_text/Line": "the project's own: the lines that are printed",
    "trace_text/Sent": "the project's own: text that was written, or a part of it",
}
PAGE = """# What has to be believed

Made by `tools/trusted.py`; `.ci/made` compares it, and `.ci/made --write` makes it anew.

The clause `text` of `pico` ([lib.rt](../crates/pico_top/src/lib.rt)) says with `Converses` what the program writes. By what it
imports it stands on these files of definitions: {files} files, {lines:,} lines, of which {defining:,} define and the others are
comments, imports and empty lines. A file counts as a whole where one of its definitions is used, so this is more than is needed.

The crates go from top to bottom, and in a crate each file stands behind those that import it, with its lines and the section of a
manual that it restates. Device, probes, files, input and output are handed to `pico`: what is proved of those of the
program is in [PROOFS](PROOFS.md).
"""


def read(path):
    with open(path, encoding="utf-8") as file:
        return file.read()


def file_of(crate, words):
    """The file of definitions that an import names; None where it is the library's."""
    for count in range(len(words), 0, -1):
        path = f"crates/{crate}/specs/{'/'.join(words[:count])}.antt"
        if os.path.exists(path):
            return path
    return None


def imports(text):
    """What a text imports: crate, folder, the words of the path, and the names."""
    for crate, folder, path, names in IMPORT.findall(text):
        yield crate, folder, path.split("."), [name.split(" as ")[-1].strip() for name in names.split(",")]


def roots():
    """The files that define the names in the clause `text` of `pico`."""
    text = read(CALL)
    clause = re.search(r"^pub fn pico<.*?ensures text \{(.*?)\}\n", text, re.M | re.S)
    if clause is None:
        raise Refused(f"{CALL} has no clause `text` of `pico`")
    used = set(re.findall(r"\w+", clause[1]))
    return [path for crate, _, words, names in imports(text) if used & set(names) and (path := file_of(crate, words))]


class Walk:
    """The files that are met, each behind those that import it; what they name of the code; what they import of libraries."""

    def __init__(self):
        self.done, self.order, self.names, self.types, self.libraries = set(), [], [], {}, {}
        for path in roots():
            self.visit(path)
        self.order.reverse()

    def visit(self, path):
        if path in self.done:
            return
        self.done.add(path)
        for crate, folder, words, names in reversed(list(imports(read(path)))):
            if not os.path.isdir(f"crates/{crate}"):
                self.libraries.setdefault(crate, set()).add(".".join([folder, *words] if folder != "specs" else words))
            elif words[0] == "declared":
                self.declare(crate, words[1:])
            elif folder == "proofs":
                self.name(crate, words, names)
            elif found := file_of(crate, words):
                self.visit(found)
            else:
                raise Refused(f"{path} imports {'.'.join([crate, folder, *words])}, which is no file")
        self.order.append(path)

    def name(self, crate, words, names):
        """Names of proofs: of each its type alone is believed, and what this is."""
        path = f"crates/{crate}/proofs/{'/'.join(words)}.antt"
        text = read(path)
        for name in names:
            signature = re.search(rf"^(?:abbrev |unfoldable )?pub {re.escape(name)} : (.*)$", text, re.M)
            if signature is None:
                raise Refused(f"{path} has no signature of {name}")
            self.names.append(f"{path}: {signature[0].split('pub ', 1)[1]}")
            used = set(re.findall(r"\w+", signature[1]))
            for other, folder, parts, found in imports(text):
                if used & set(found) and folder == "specs" and (below := file_of(other, parts)):
                    self.visit(below)

    def declare(self, crate, words):
        """A type of the code by its modules and its name."""
        for count in range(len(words) - 1, -1, -1):
            path = f"crates/{crate}/src/{'/'.join(words[:count]) or 'lib'}.rt"
            if os.path.exists(path):
                self.types.setdefault(path, set()).add(words[count])
                return
        raise Refused(f"the type {'.'.join(words)} of {crate} stands in no file")


def bracketed(text):
    """The parts of a text in outermost brackets."""
    depth, begin = 0, 0
    for at, letter in enumerate(text):
        if letter == "(":
            begin = at + 1 if depth == 0 else begin
            depth += 1
        elif letter == ")" and depth:
            depth -= 1
            if depth == 0:
                yield text[begin:at]


def manual(path, text):
    """The section of a manual that a file restates, or why there is none."""
    comment = " ".join(line[2:].strip() for line in re.match(r"(?:--.*\n)*", text)[0].splitlines())
    found = [part for part in bracketed(comment) if MANUAL.search(part)]
    if not found and MANUAL.search(comment):
        found = [part for part in re.split(r"(?<=[.:;]) ", comment) if MANUAL.search(part)]
    if not found and "project's own" in comment:
        found = ["the project's own"]
    short = path.removeprefix("crates/").removesuffix(".antt").replace("/specs/", "/")
    if bool(found) == (short in UNNAMED):
        raise Refused(f"the first comment of {path} and `UNNAMED` have to name one section")
    return "; ".join(found) or UNNAMED[short]


def defines(text):
    """How many lines define: all but comments, imports and empty lines."""
    return sum(not re.match(r"\s*(--|$)|(pub )?use ", line) for line in text.splitlines())


def item(text):
    return textwrap.fill(text, 128, initial_indent="- ", subsequent_indent="  ", break_long_words=False, break_on_hyphens=False)


def crates_from_the_top():
    return reversed(re.findall(r"^([a-z]\w*)[^:\n]*:", read("crates.txt"), re.M))


def page(walk):
    texts = {path: read(path) for path in walk.order}
    lines = {path: text.count("\n") for path, text in texts.items()}
    out = [PAGE.format(files=len(lines), lines=sum(lines.values()), defining=sum(map(defines, texts.values())))]
    for crate in crates_from_the_top():
        files = [path for path in walk.order if path.split("/")[1] == crate]
        if files:
            out.append(f"## {crate}: {sum(lines[path] for path in files)} lines\n")
            out += [item(f"{path.split('/specs/')[1]}, {lines[path]}: {manual(path, texts[path])}") for path in files]
            out.append("")
    if walk.names:
        out.append("## Values that are known by their types\n\nOf these the definitions use nothing but what their types say.\n")
        out += [*map(item, walk.names), ""]
    out.append("## Types of the code\n\nThe types that these files name as the code declares them.\n")
    out += [item(f"{path}: {', '.join(sorted(names))}") for path, names in sorted(walk.types.items())]
    out.append("\n## Libraries\n\nWhat these files import of the toolchain's libraries.\n")
    out += [item(f"{crate}: {', '.join(sorted(names))}") for crate, names in sorted(walk.libraries.items())]
    return "\n".join(out) + "\n"


def tool():
    parser(__doc__).parse_args()
    os.chdir(TOP)
    write(None, page(Walk()))


if __name__ == "__main__":
    main(tool)
