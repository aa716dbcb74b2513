#!/usr/bin/env python3
"""Runs the emulator's program with its words, and says what to do where it refuses them: tools/explain.py PROGRAM WORDS..

./pico runs the program through this. What the program prints and its status are handed on as they are. Where the status is 2 to 12,
standard error gets what docs/USAGE.md says of that line: for words the first that is not understood and the usage of the command; for
a file why it cannot be read, or what it looks like; for a fault in a source the line that has it. Of a run that stopped outside or by a
lockup it gets what is there. An ELF file in the place of an image is packed by tools/uf2.py into an image for this run alone; one that
cannot be packed is handed in as it is, and why is told beside the program's refusal.
"""
import codecs
import difflib
import os
import re
import signal
import subprocess
import sys
import tempfile

sys.path.insert(0, os.path.dirname(os.path.abspath(__file__)))
from elf32 import MAGIC  # noqa: E402
from runs import STOP, Refused, kinds_of, read_bytes, write  # noqa: E402
from uf2 import image, parts_of  # noqa: E402
from where import area_of, vector_of  # noqa: E402

TOP = os.path.dirname(os.path.dirname(os.path.abspath(__file__)))
NUMBERS = {"--cycles": (1, 1_000_000_000), "--workers": (0, 8), "--side": (0, 5), "--opt": (0, 1)}
ENTRY = {
    "--pio": (r"[01]:[0-3]:.+", r"[01]:[0-3]", "B:M:FILE, with B the block (0, 1) and M the machine (0 to 3)"),
    "--probe": (r"[01]=([0-9]|[12][0-9])", r"[01]", "I=PIN, with I the probe (0 counts edges, 1 decodes lights) and PIN 0 to 29"),
    "--part": (r"[0-2]=([0-9]|[12][0-9])(\+([0-9]|[12][0-9]))*", r"[0-2]",
               "I=PINS, with I the part (0 Button, 1 Shift, 2 Loop) and PINS pins 0 to 29 joined by +"),
}
ENDINGS = {".uf2": "run", ".elf": "run", ".bin": "run", ".pio": "asm", ".s": "thumb"}  # the commands for files by their names
MADE = {"asm": "a PIO source", "thumb": "a Thumb source"}  # what a command takes that writes what it makes of it
# characters of other assemblers that a Thumb source does not have
CHARS = {"@": "a comment begins with ;", "/": "a comment begins with ;",
         "=": "a word is put behind the code, name: .word k or .word label, and loaded by ldr t, name",
         "(": "a number is written out, without expressions but name+k", "'": "a character is written as its number",
         '"': "characters are written as their numbers, by .word and .half"}
OTHERS = {"bhs": "bcs", "blo": "bcc", "neg": "rsbs", "negs": "rsbs", "ldmia": "ldm", "stmia": "stm"}  # mnemonics that GNU as has beside these
PINS = {"0": (1, "Button: its pin"), "1": (3, "Shift: clock+data+out"), "2": (2, "Loop: from+to")}


def say(text):
    print(f"pico: {text}", file=sys.stderr)


class Page:
    """docs/USAGE.md: the forms of the commands, and its tables."""

    def __init__(self):
        try:
            with open(f"{TOP}/docs/USAGE.md", encoding="utf-8") as file:
                self.text = file.read()
            with open(f"{TOP}/docs/THUMB.md", encoding="utf-8") as file:
                self.thumb = file.read()
        except OSError:
            self.text = self.thumb = ""
        lines = re.findall(r"^pico (\w+) .*$", self.text.partition("\n## ")[0], re.M)
        found = re.findall(r"^pico .*$", self.text.partition("\n## ")[0], re.M)
        self.forms = dict(zip(lines, found))

    def options(self, command):
        """The options of a command: whether each has a value, and whether it must be there."""
        options = {}
        for word in re.findall(r"\[[^]]*\]|--\w+ [A-Z]\w*", self.forms[command].partition(">")[2]):
            name, *value = word.strip("[]").split()
            options[name] = (bool(value), word[0] != "[")
        return options

    def argument(self, command):
        return re.search(r"<(\w+)>", self.forms[command])[1]

    def fault(self, section, name):
        """The cells of the row of a fault, as `2 Ragged`, behind its first one."""
        part = self.text.partition(f"### Faults of {section}\n")[2].partition("\n#")[0]
        for line in part.splitlines():
            cells = [cell.strip() for cell in re.split(r"(?<!\\)\|", line)[1:-1]]
            if cells and re.match(rf"`{name}\b", cells[0]):
                return [plain(cell) for cell in cells[1:] if cell]
        return []

    def thumb_fault(self, number):
        """What docs/THUMB.md says to do about a fault."""
        found = re.search(rf"^\| {number} \| \w+ \| (.*?) *\|$", self.thumb, re.M)
        return plain(found[1]) if found else None

    def thumb_forms(self):
        """The forms of docs/THUMB.md, each as its mnemonic or directive, its operands and what is said of their numbers."""
        part = self.thumb.partition("\n## Directives\n")[2].partition("\n## Faults\n")[0]
        for line in part.splitlines():
            if line.startswith("| `"):
                cell, numbers = (it.strip() for it in line.split("|")[1:3])
                for piece in cell.split(";"):
                    yield from ((*form, plain(numbers)) for form in forms_in(piece))

    def commands(self):
        """The commands of a session, with their words."""
        part = self.text.partition("\n## `debug`")[2].partition("\n## ")[0]
        return ", ".join(form for row in re.findall(r"^\| (`[a-z].*?) \|", part, re.M) for form in re.findall(r"`([^`]*)`", row))

    def todo(self, status):
        """What the table of statuses says of one."""
        rows = re.findall(rf"^\| {status} \| .* \| (.*?) *\|$", self.text, re.M)
        return plain(rows[0]) if rows else ""


def plain(cell):
    """The words of a cell without marks and links."""
    return re.sub(r"\[([^]]*)\]\([^)]*\)", r"\1", cell).replace("`", "")


def forms_in(cell):
    """The forms that a cell of docs/THUMB.md lists: mnemonics `and` their operands, or whole forms, or mnemonics without operands."""
    heads, joined, tails = cell.partition(" and `")
    spans = [re.findall(r"`([^`]*)`", it) for it in (heads, joined[-1:] + tails)]
    if joined:
        return [(name, operands) for span in spans[0] for name in span.split() for operands in spans[1]]
    alone = [span for span in spans[0] if span.count(" ") > 1 and span.replace(" ", "").isalnum()]
    return [(name, "") for span in alone for name in span.split()] + [span.partition(" ")[::2] for span in spans[0] if span not in alone]


def near(word, known):
    found = difflib.get_close_matches(word.lower(), known, 1, 0.75 if word.startswith("--") else 0.6)
    return f"; did you mean {found[0]}?" if found else ""


def number_fault(name, word, least, most):
    """What is wrong with a number, if anything."""
    if not re.fullmatch(r"0|[1-9][0-9]*", word):
        return f"{name} {word}: a number is decimal digits alone, without a sign, a leading zero, a comma or a letter"
    if not least <= int(word) <= most:
        return f"{name} {word}: the number is {least} to {most}"
    return None


def pins_fault(part, pins):
    """What is wrong with the pins of a part, if anything."""
    count, said = PINS[part]
    found = pins.split("+")
    if len(found) != count:
        return f"part {part} has {count} pin{'s' * (count > 1)} ({said})"
    return None if len(set(found)) == count else "a pin is there twice"


def list_fault(name, word):
    """What is wrong with a list of entries, if anything."""
    form, key, said = ENTRY[name]
    keys = []
    for entry in word.split(","):
        if not re.fullmatch(form, entry):
            return f"{name} {word}: {entry!r} is no entry {said}; entries are joined by commas"
        keys.append(re.match(key, entry)[0])
        if name == "--part" and (fault := pins_fault(*entry.split("="))):
            return f"{name} {word}: {entry}: {fault}"
    twice = [key for key in keys if keys.count(key) > 1]
    return f"{name} {word}: {twice[0]} is there twice" if twice else None


def value_fault(name, word):
    if name in NUMBERS:
        return number_fault(name, word, *NUMBERS[name])
    return list_fault(name, word) if name in ENTRY else None


def argument_fault(command, word):
    if command == "gen":
        return number_fault("gen", word, 0, 2**64 - 1)
    if command == "dis" and not re.fullmatch(r"([0-9a-fA-F]{4}){1,32}", word):
        return f"dis {word}: the words of PIO are 1 to 32, each of four hexadecimal digits, without spaces"
    return None


def split(page, words):
    """The arguments and the options of the words behind a command, in order, and the first fault that is met on the way."""
    command, rest = words[0], list(words[1:])
    options, arguments, given = page.options(command), [], {}
    while rest:
        word = rest.pop(0)
        if word == "--":
            arguments, rest = arguments + rest, []
            continue
        if not word.startswith("-") or word == "-" or command == "gen" and word[1:].isdigit():
            arguments.append(word)
            continue
        name, is_joined, value = word.partition("=")
        if name not in options:
            others = [it for it in page.forms if name in page.options(it)]
            what = f", but of {' and '.join(others)}" if others else near(name, options)
            if command in MADE and name in ("-o", "--output"):
                what = f": what {command} makes goes to standard output, > FILE"
            return arguments, given, f"{name} is no option of {command}{what}"
        if name in given:
            return arguments, given, f"{name} is there twice"
        if options[name][0] and not is_joined:
            if not rest or rest[0].startswith("-") and not (name in NUMBERS and rest[0][1:].isdigit()):
                return arguments, given, f"{name} needs a value behind it"
            value = rest.pop(0)
        elif is_joined and not options[name][0]:
            return arguments, given, f"{name} stands without a value"
        given[name] = value
        if fault := value_fault(name, value):
            return arguments, given, fault
    return arguments, given, None


def meant(page, command, word, given):
    """What is meant by a word too many, where that can be told."""
    name = "--" + word.lstrip("-\u2013\u2014")  # a text editor makes one dash of two hyphens
    if name in page.options(command):
        return f"; did you mean {name}?"
    if command in MADE and not os.path.exists(word):
        return f"; what it makes goes to standard output, > {word}"
    if command == "dis":
        return ", whose words stand without spaces"
    return f"; did you mean --cycles {word}?" if word.isdigit() and "--cycles" not in given else ""


def words_fault(page, words):
    """The first thing that is wrong with the words."""
    command = words[0] if words else ""
    if command not in page.forms:
        if command.startswith("-"):
            return f"the first word is the command, and {command} is none"
        if meant_command := ENDINGS.get(os.path.splitext(command)[1].lower()):
            return f"the command comes first: pico {meant_command} {command}{' --cycles N' * (meant_command == 'run')}"
        return f"there is no command {command}".strip() + near(command, page.forms)
    if "--help" in words or "-h" in words:
        return f"this is the usage of {command}; ./pico help prints the whole page"
    arguments, given, fault = split(page, words)
    if fault:
        return fault
    if not arguments:
        return f"{command} needs <{page.argument(command)}> behind it"
    if len(arguments) > 1:
        return f"{arguments[1]} is one word too many: {command} takes one <{page.argument(command)}>{meant(page, command, arguments[1], given)}"
    if fault := argument_fault(command, arguments[0]):
        return fault
    for name, (_, is_needed) in page.options(command).items():
        if is_needed and name not in given:
            return f"{command} needs {name}: how many cycles of 8 ns it may run, 125000 for a millisecond"
    if int(given.get("--side", 0)) + int(given.get("--opt", 0)) > 5:
        return "--side and --opt are at most 5 together"
    return "the words are not in a form that is understood"


def told_words(page, words):
    say(words_fault(page, words))
    forms = [page.forms[words[0]]] if words and words[0] in page.forms else page.forms.values()
    for form in forms:
        say(f"usage: {form}")


def told_file(words, name):
    """Why a file cannot be read, and which word names it."""
    why = "it is a folder" if os.path.isdir(name) else None
    if why is None and (os.path.isfile(name) or not os.path.exists(name)):
        try:
            with open(name, "rb"):
                pass
        except OSError as error:
            why = error.strerror
    if not name:
        say("a word that has to name a file is empty, as behind --pio 0:0:")
        return
    entries = [f"--pio {entry}" for word in words for entry in word.split(",") if re.fullmatch(rf"[01]:[0-3]:{re.escape(name)}", entry)]
    named = f", which {entries[0]} names," if entries else ""
    say(f"{name}{named} cannot be read: {why or 'reading it failed'}")
    if not os.path.exists(name) and not os.path.isabs(name):
        if os.path.exists(f"{TOP}/{name}"):
            say(f"it is looked for in {os.getcwd()}; it is there in {TOP}")
        else:
            say(f"it is looked for in {os.getcwd()}")


def told_large(name, length):
    say(f"{name} has {length} bytes; an image has at most 16 MiB, a script 4 MiB, a source 1 MiB")


def is_text(data):
    try:
        return "\0" not in codecs.getincrementaldecoder("utf-8")().decode(data)
    except UnicodeDecodeError:
        return False


def first_bytes(path):
    """The first bytes of a file; none where it is no file, or cannot be read."""
    try:
        with open(path if os.path.isfile(path) else os.devnull, "rb") as file:
            return file.read(1 << 16)
    except OSError:
        return b""


def told_kind(path, taken):
    """Says that a file looks like another one than is taken there, and whether it does."""
    kinds = kinds_of(first_bytes(path or ""))
    if not kinds or any(kind in taken for kind, _ in kinds):
        return False
    say(f"{path} is refused: it looks like {kinds[0][0]}, in the place of {taken}: {kinds[0][1]}")
    return True


def told_image(page, words, number, name):
    path = image_of(page, words)
    if told_kind(path, "a UF2 file or an ELF file"):
        return
    said = page.fault("an image", f"{number} {name}")
    say(f"{path or 'the image'} is refused: " + ("; ".join(said) or f"fault {number} {name}"))
    data = first_bytes(path or "")
    if data[:6] == b"error ":
        say(f"{path} has the line of a refusal: {data.splitlines()[0].decode(errors='replace')[:120]}")
    elif number in ("2", "3") and is_text(data):
        say(f"{path} is a text: run takes a UF2 or an ELF file, which docs/FIRMWARE.md tells to make; of a Thumb source ./pico thumb makes one")
    elif data and number in ("2", "3") and data[:4] != b"UF2\n":
        say(f"if it is a raw binary for SRAM, this makes an image of it: {TOP}/tools/uf2.py {path} {os.path.splitext(path)[0]}.uf2 20000000")


def line_in(path, number):
    """A line of a source; None where there is none."""
    try:
        if number < 1 or not os.path.isfile(path):
            return None
        with open(path, encoding="utf-8", errors="replace", newline="\n") as file:
            return file.read().split("\n")[number - 1].rstrip("\r")
    except (OSError, IndexError):
        return None


def shown_line(path, number, column=None):
    """Shows a line of a source, with a mark below the column."""
    line = line_in(path, number)
    if line is None:
        return
    shown = "".join(c if c == "\t" or c.isprintable() else "?" for c in line[:120])
    say(f"{path}:{number}: {shown}")
    if column is not None and 0 < column <= 120:
        say(" " * len(f"{path}:{number}: ") + re.sub(r"[^\t]", " ", line[:column - 1]) + "^")


def pio_files(words):
    """The files of PIO sources that the words name, in order."""
    if words[0] == "asm":
        return words[1:2]
    lists = [word.removeprefix("--pio=") for before, word in zip(words, words[1:]) if before == "--pio" or word.startswith("--pio=")]
    return [entry.split(":", 2)[2] for text in lists for entry in text.split(",") if entry.count(":") >= 2]


def pio_file(program, words, line):
    """The file that has the fault: the first that is refused by itself, or the one that finds no room."""
    files = pio_files(words)
    if len(files) == 1:
        return files[0]
    long = []
    for path in files:
        done = subprocess.run([program, "asm", path], capture_output=True, text=True, errors="replace", stdin=subprocess.DEVNULL, check=False)
        if done.returncode == 5 and done.stdout.strip() == line:
            return path
        if found := re.match(r"program \S+ (\d+) ", done.stdout):
            if line == f"error pio 12 NoRoom {found[1]}":
                long.append(path)
    return long[-1] if long else None


def told_pio(page, program, words, line):
    _, _, number, name, *more = line.split()
    path = pio_file(program, words, line)
    if told_kind(path, MADE["asm"]):
        return
    said = page.fault("a PIO source", f"{number} {name}")
    say(f"{path or 'a file of --pio'} is refused: " + ("; ".join(said) or f"fault {number} {name}"))
    if path and more and name != "NoRoom":
        # the program counts columns by bytes
        before = (line_in(path, int(more[0])) or "").encode()[:int(more[1]) - 1] if len(more) > 1 else None
        shown_line(path, int(more[0]), None if before is None else len(before.decode(errors="ignore")) + 1)


def told_forms(page, line):
    """Tells a word that is no name, and the forms of a line's mnemonic or directive and those with an `s` behind it."""
    label, word, rest = re.match(r"\s*(?:([\w.]+)\s*:)?\s*([\w.]*)\s*(.*?)\s*$", line.partition(";")[0]).groups()
    forms = list(page.thumb_forms())
    taken = {name for name, *_ in forms} | {f"r{n}" for n in range(16)} | {"sp", "lr", "pc"}
    is_named = any(name == word and re.search(r"\bL$|^name", form) for name, form, _ in forms)
    named = re.search(r"([A-Za-z_]\w*)\s*(?:\+.*)?$", rest) if is_named else None
    for name in filter(None, (label, named and named[1])):
        if name in taken:
            say(f"{name} is a mnemonic or a register, and no name: rename it")
            return
        if name == label and not re.fullmatch(r"[A-Za-z_]\w*", name):
            say(f"{name} is no name: a name is letters, digits and _, and does not begin with a digit")
            return
    if not word:
        return
    names = [OTHERS[word]] if word in OTHERS else [word.lower(), word.lower() + "s"]
    said = [(f"{name} {operands}".strip(), f" ({numbers})" if numbers else "") for name, operands, numbers in forms if name in names]
    if said:
        # what is said of the numbers of several forms stands behind the last of them
        nexts = [numbers for _, numbers in said[1:]] + [""]
        say("docs/THUMB.md has " + "; ".join(form + numbers * (numbers != after) for (form, numbers), after in zip(said, nexts)))
    elif word[0] == ".":
        say(f"there is no directive {word}, but {', '.join(dict.fromkeys(name for name, *_ in forms if name[0] == '.'))}")
    else:
        say(f"there is no mnemonic {word}{near(word, {name for name, *_ in forms})}")


def told_thumb(page, words, number, name, line="0"):
    path = split(page, words)[0][0]
    if told_kind(path, MADE["thumb"]):
        return
    say(f"{path} is refused: {name}: {page.thumb_fault(number) or f'fault {number}'} (docs/THUMB.md)")
    text, column = line_in(path, int(line)), None
    if name == "Char" and (found := re.search(r"[^A-Za-z0-9 \t\r_.,:#\[\]{}!+;-]", text or "")):
        column = found.start() + 1
    shown_line(path, int(line), column)
    if column and (said := CHARS.get(found[0])):
        say(said)
    if name in ("Syntax", "Range", "Register"):
        told_forms(page, text or "")


def told_start(page, words, address):
    say(f"{image_of(page, words) or 'the image'} loads the byte at {address}: {page.todo(12)}")


def told_script(page, words, number, name, line):
    lists = [word.removeprefix("--script=") for before, word in zip(words, words[1:]) if before == "--script" or word.startswith("--script=")]
    path = lists[0] if lists else "the script"
    if told_kind(path, "a script"):
        return
    said = page.fault("a script", f"{number} {name}")
    say(f"{path} is refused: " + ("; ".join(said) or f"fault {number} {name}"))
    wrong = re.search(r"^ |[^\w ]|  | $", line_in(path, int(line)) or "") if name == "Form" else None
    shown_line(path, int(line), wrong.start() + 1 if wrong else None)


def explain(page, program, words, status, line, refused=None):
    """Says on standard error what to do about a status and the line that was printed for it. Refused is why an ELF file was not packed."""
    parts = line.split()
    if status == 2:
        told_words(page, words)
    elif refused and status in (3, 4):
        say(refused)
    elif line.startswith("error file "):
        told_file(words, line.removeprefix("error file "))
    elif line.startswith("error large "):
        told_large(line.removeprefix("error large ").rpartition(" ")[0], parts[-1])
    elif line.startswith("error image "):
        told_image(page, words, parts[2], parts[3])
    elif line.startswith("error pio "):
        told_pio(page, program, words, line)
    elif line.startswith("error thumb "):
        told_thumb(page, words, *parts[2:5])
    elif line.startswith("error start "):
        told_start(page, words, parts[4])
    elif line.startswith("error script "):
        told_script(page, words, *parts[2:5])
    elif todo := page.todo(status):
        say(f"status {status}: {todo}")
    else:
        say(f"status {status}: docs/USAGE.md tells what it means")


def told_outside(words, address):
    """Says what is where a run stopped outside of the machine."""
    area = area_of(int(address, 16))
    say(f"{address} is {f'in {area}' if area else 'in no block'}{vector_of(int(address, 16))}; docs/FIRMWARE.md has what is left out, "
        "and tools/where.py names the line of the program")
    if int(address, 16) == 0 and "--table" not in words:
        say("a pointer that was never set is 0; an image that takes memset and memcpy from the table runs with --table")
    elif int(address, 16) == 0xC:
        say("a HardFault comes of an access that is not aligned, a branch to an even address by bx, blx or pop, or an instruction that is not there")
    elif int(address, 16) >= 0xFFFF0000:
        say("a stack pointer that is 0 goes there by the first push, and a pointer that is 0 where it is counted down")


def image_of(page, words):
    """The word that names the image of a run or a session."""
    if not words or words[0] not in ("run", "debug") or words[0] not in page.forms:
        return None
    arguments, _, _ = split(page, words)
    return arguments[0] if arguments else None


def packed(page, words, folder):
    """The words with an image in the place of an ELF file, or as they are and why it is not packed."""
    path = image_of(page, words)
    try:
        if path is None or first_bytes(path)[:4] != MAGIC:
            return words, None
        made = f"{folder}/{os.path.splitext(os.path.basename(path))[0]}.uf2"
        write(made, image(parts_of(path, read_bytes(path))))
    except Refused as refused:
        return words, refused
    except OSError as error:
        return words, f"{path} is not packed: {error.strerror}"
    at = words.index(path, 1)
    return [*words[:at], made, *words[at + 1:]], None


def handed_on(page, pipe, is_session):
    """Hands on what the program prints; its last bytes, and the error where standard output takes no more. The first line of a session
    that is a `bad command` is explained."""
    last = b""
    while data := os.read(pipe.fileno(), 1 << 16):
        last = (last + data)[-1 << 13:]
        if is_session and re.search(rb"^bad command\n", last, re.M):
            say(f"commands are {page.commands()}; numbers are decimal, addresses eight hexadecimal digits, of a word a multiple of 4 (docs/USAGE.md)")
            is_session = False
        while data:
            try:
                data = data[os.write(1, data):]
            except OSError as error:
                pipe.close()
                return last, error
    return last, None


def run(page, program, given, words, refused=None):
    """Runs the program with words, those given with an image in the place of an ELF file, and answers its status."""
    # a word may name an open pipe, as /dev/fd/63
    process = subprocess.Popen([program, *words], stdout=subprocess.PIPE, close_fds=False)
    for number in (signal.SIGTERM, signal.SIGHUP, signal.SIGINT):
        signal.signal(number, lambda got, _: process.send_signal(got))
    last, error = handed_on(page, process.stdout, given[:1] == ["debug"])
    status = process.wait()
    if error is not None:
        if not isinstance(error, BrokenPipeError):  # a reader like `head` has what it wants
            say(f"status 7: {page.todo(7) or 'standard output could not be written'}: {error.strerror}")
        return 7
    if status < 0:
        return 128 - status
    lines = last.decode(errors="replace").splitlines()
    if 2 <= status <= 12:
        errors = [line for line in lines if line.startswith("error ")]
        explain(page, program, given, status, errors[-1] if errors else "", refused)
    elif given[:1] == ["run"]:
        for found in filter(None, map(STOP.fullmatch, lines)):
            if found[2]:
                told_outside(given, found[2])
            elif found[1].startswith("lockup"):
                say(f"{found[1][7:]} met a fault in the handler of HardFault or NMI, as by a vector whose bit 0 is clear; debug with these words, "
                    "and there end, regs and prev, shows where, and tools/where.py names the line")
    return status


def main():
    if len(sys.argv) < 2 or sys.argv[1] in ("--help", "-h"):
        print(__doc__, end="")
        return 0 if len(sys.argv) > 1 else 2
    page, program, words = Page(), sys.argv[1], sys.argv[2:]
    sys.argv[0] = "pico"  # what the tools say is said in this name
    with tempfile.TemporaryDirectory(prefix="pico-") as folder:
        try:
            return run(page, program, words, *packed(page, words, folder))
        except OSError as error:
            say(f"{error.filename or program}: {error.strerror}")
            return 125


if __name__ == "__main__":
    sys.exit(main())
