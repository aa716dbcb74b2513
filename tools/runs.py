"""What the tools share: the lines of a run (docs/USAGE.md, "What it prints"), files that are written whole or not at all, and
messages of one line in place of tracebacks. It is no tool itself."""
from __future__ import annotations

import argparse
import functools
import os
import re
import subprocess
import sys
import tempfile
from dataclasses import dataclass, field

TOP = os.path.dirname(os.path.dirname(os.path.abspath(__file__)))
CYCLE_NS = 8  # a cycle of 125 MHz

PIN = re.compile(r"(\d+) pin (\d+) ([01])")
UART = re.compile(r"(\d+) uart([01]) ([0-9a-f]{2})")
STOP = re.compile(r"stop (limit|bkpt core[01]|lockup core[01]|outside (?:core0|core1|dma) ([0-9a-f]{8})) (\d+)")
CORE = re.compile(r"core([01]) (asleep|[0-9a-f]{8}(?: [0-9a-f]{8}){16})")
LAST = re.compile(r"probe \d+ pin \d+ .*|windows \d+ cycles \d+")
NAMES = [f"r{n}" for n in range(13)] + ["sp", "lr", "pc", "xpsr"]
# what a file can be: how that is told, by its first bytes or by a line of a text, its name, and what takes it
FILES = [
    (rb"\x7fELF", "an ELF file", "run and debug take it"),
    (rb"UF2\n", "a UF2 file", "run and debug take it"),
    (rb":[0-9A-Fa-f]{8}", "an Intel HEX file", "give the ELF file in its place"),
    (rb"PK\x03\x04|\x1f\x8b", "an archive", "unpack it"),
    (rb"\xff\xfe|\xfe\xff", "a text of UTF-16", "save it as UTF-8"),
    (rb"\xef\xbb\xbf", "a text with a byte order mark", "save it without the mark"),
]
TEXTS = [
    (rb"^stop (limit|bkpt core[01]|lockup core[01]|outside \w+ [0-9a-f]{8}) \d+\r?$", "the text of a run",
     "vcd.py, uart.py, wave.py and where.py read it"),
    (rb"\Aprogram \S+ \d+ origin ", "the listing of a PIO source", "give the source"),
    (rb"^[ \t]*\.program[ \t]", "a PIO source", "asm and --pio take it"),
    (rb"^#(include|define|ifdef|ifndef|pragma)\b|^\w[\w \t*]*\([^;{}\n]*\)\s*\{", "a C source",
     "docs/FIRMWARE.md tells how to compile it"),
    (rb"\A([ \t]*(#[^\r\n]*)?\r?\n)*(version \d|send \d|\d+[ \t]+\d+[ \t]+[01z])", "a script", "--script takes it"),
    (rb"\A(end|regs|pins|quit|((step|back|goto|next|prev|mem|peek|until\w*|last\w+)( \w+)*))\r?$", "commands of a session",
     "debug reads them by < FILE"),
    (rb"^[ \t]*(\w+:[ \t]*)?(\.(syntax|thumb|align|global)\b|(movs|adds|subs|cmp|ldr|str|bl|bx|bkpt)[ \t])", "a Thumb source",
     "thumb makes an image of it"),
]
NOT_BUILT = "the program is not built, or is older than a source: ./pico run examples/five.uf2 --cycles 10 builds it"


class Refused(Exception):
    """What a tool says in one line, with its status."""

    def __init__(self, text, status=1):
        super().__init__(text)
        self.status = status


@dataclass
class Run:
    """A run, as its lines tell it; cycles are those of the cores."""

    pins: list = field(default_factory=list)   # (cycle, pin, level), in order
    bytes: list = field(default_factory=list)  # (cycle, uart, byte), in order
    stop: str | None = None                    # the line of the stop
    cycle: int | None = None                   # its cycle
    cores: list = field(default_factory=list)  # for each core None (asleep) or its registers by name
    rest: list = field(default_factory=list)   # the lines of probes and of windows

    def sent(self, uart):
        """The bytes that this UART sent."""
        return bytes(byte for _, number, byte in self.bytes if number == uart)

    def edges(self, pin):
        """The changes of this pin: (cycle, level)."""
        return [(cycle, level) for cycle, number, level in self.pins if number == pin]


@functools.cache
def is_built():
    """Whether the program stands built in this repository, and no source is newer."""
    return subprocess.run([f"{TOP}/.ci/program"], capture_output=True, check=False).returncode == 0


def ran(words, seconds, given=b"", stderr=None):
    """Runs a command: its status, its output and what it told. Where it takes longer, or this is interrupted, it is asked to end, which ./pico
    hands on to the program."""
    with subprocess.Popen(words, stdin=subprocess.PIPE, stdout=subprocess.PIPE, stderr=stderr) as process:
        try:
            out, told = process.communicate(given, seconds)
        except BaseException:
            process.terminate()
            raise
    return process.returncode, out, told


def moved(line):
    """The cycle to which a reply of the debugger moves, and the line of the stop that was met, or None."""
    if found := STOP.fullmatch(line):
        return int(found[3]), line
    return 0 if line == "at start" else int(re.fullmatch(r"at (\d+)", line)[1]), None


def read_run(text):
    """The run of a text; refused where a line is none of a run, or where the text is a refusal of the program."""
    run = Run()
    for number, line in enumerate(text.splitlines(), 1):
        if found := PIN.fullmatch(line):
            run.pins.append((int(found[1]), int(found[2]), int(found[3])))
        elif found := UART.fullmatch(line):
            run.bytes.append((int(found[1]), int(found[2]), int(found[3], 16)))
        elif found := STOP.fullmatch(line):
            run.stop, run.cycle = line, int(found[3])
        elif found := CORE.fullmatch(line):
            words = found[2].split()
            run.cores.append(None if words == ["asleep"] else dict(zip(NAMES, (int(word, 16) for word in words))))
        elif LAST.fullmatch(line):
            run.rest.append(line)
        elif line.startswith("error "):
            raise Refused(f"the run was refused: {line}")
        else:
            raise Refused(f"line {number} is no line of a run: {line[:60]!r}")
    if not (run.pins or run.bytes or run.stop):
        raise Refused("there are no lines of a run; does the command before the pipe print them?")
    return run


def tell_end(run):
    """Says on standard error how a run ended, and answers the status for it: the limit and a BKPT are good ends, of which nothing is said."""
    if run.stop is None:
        say("the text ends without the line of a stop, so it is no whole run")
        return 3
    if run.stop.startswith(("stop limit", "stop bkpt")):
        return 0
    say(f"the run ended by: {run.stop}")
    return 3


def read_text(path):
    """The text of a file, or of standard input where no file is named."""
    if path in (None, "-"):
        if sys.stdin is None:
            raise Refused("standard input is closed")
        data = sys.stdin.buffer.read()
    else:
        data = read_bytes(path)
    try:
        return data.decode()
    except UnicodeDecodeError:
        raise Refused(f"{path or 'standard input'} is no text, so it is no output of a run") from None


def read_lines(path):
    """The lines of a file, or of standard input as they come, where no file is named."""
    if path not in (None, "-"):
        yield from read_text(path).splitlines()
        return
    if sys.stdin is None:
        raise Refused("standard input is closed")
    for data in sys.stdin.buffer:
        try:
            yield data.decode().rstrip("\r\n")
        except UnicodeDecodeError:
            raise Refused("standard input is no text, so it is no output of a run") from None


def read_bytes(path):
    """The bytes of a file that has some."""
    if os.path.isdir(path):
        raise Refused(f"{path} is a folder")
    with open(path, "rb") as file:
        data = file.read()
    if not data:
        raise Refused(f"{path} is empty")
    return data


def kinds_of(data):
    """What the bytes of a file look like, each with what to do with it; nothing where that is not known."""
    texts = TEXTS if b"\0" not in data else []
    return [more for form, *more in FILES if re.match(form, data)] or [more for form, *more in texts if re.search(form, data, re.M)]


def need_apart(source, target):
    """Refuses to write over the file that is read."""
    if source not in (None, "-") and target not in (None, "-") and os.path.exists(target) and os.path.samefile(source, target):
        raise Refused(f"{target} is the file that is read: name another one to write")


def write(path, data):
    """Writes a file whole or not at all; standard output where no file is named."""
    data = data.encode() if isinstance(data, str) else data
    if path in (None, "-"):
        if sys.stdout is None:
            raise Refused("standard output is closed")
        sys.stdout.buffer.write(data)
        sys.stdout.buffer.flush()
        return
    if os.path.isdir(path):
        raise Refused(f"{path} is a folder")
    if os.path.exists(path) and not os.path.isfile(path):  # a device or a pipe
        with open(path, "wb") as file:
            file.write(data)
        return
    try:
        handle, part = tempfile.mkstemp(dir=os.path.dirname(os.path.abspath(path)))
    except OSError as error:
        raise Refused(f"{path} cannot be written: {error.strerror}") from None
    try:
        with open(handle, "wb") as file:
            file.write(data)
        mask = os.umask(0)
        os.umask(mask)
        os.chmod(part, 0o666 & ~mask)
        os.replace(part, path)
    except BaseException:
        os.unlink(part)
        raise


def say(text):
    print(f"{os.path.basename(sys.argv[0])}: {text}", file=sys.stderr)


def parser(doc, **more):
    """A parser of words whose help is the tool's own first text."""
    return argparse.ArgumentParser(description=doc, formatter_class=argparse.RawDescriptionHelpFormatter, **more)


def main(tool):
    """Runs a tool and ends with its status; each error is one line."""
    try:
        status = tool() or 0
        if sys.stdout is not None:
            sys.stdout.flush()
    except Refused as refused:
        say(refused)
        status = refused.status
    except BrokenPipeError:
        # who reads has gone: nothing more is said to it, also not at the end of the interpreter
        os.dup2(os.open(os.devnull, os.O_WRONLY), sys.stdout.fileno())
        say("standard output was closed before the end")
        status = 1
    except OSError as error:
        say(f"{error.filename or 'standard output'}: {error.strerror}")
        status = 1
    except KeyboardInterrupt:
        status = 130
    sys.exit(status)
