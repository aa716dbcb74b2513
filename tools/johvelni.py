"""Runs and sessions of the emulator for tests in Python.

    import johvelni
    run = johvelni.run("firmware.elf", 20000)
    assert run.uart[0] == b"hello\\n" and run.edges[25][0] == (21, 1)

    with johvelni.Debug("firmware.elf", 200000) as session:
        session.end()
        print(session.mem(johvelni.symbols("firmware.elf")["count"]))

The program is ./pico of this repository, which has to be built, or the one that the environment names as JOHVELNI. An image is a UF2 file;
where the program is ./pico, it may be an ELF file.
"""
from __future__ import annotations

import os
import subprocess
import sys
import tempfile
from dataclasses import dataclass

sys.path.insert(0, os.path.dirname(os.path.abspath(__file__)))
import runs  # noqa: E402
from elf32 import FUNCTIONS, OBJECTS, Elf  # noqa: E402
from runs import NAMES, NOT_BUILT, Run, is_built, moved, ran, read_bytes, read_run  # noqa: E402

TOP = os.path.dirname(os.path.dirname(os.path.abspath(__file__)))
BAD = "bad command"


class Refused(Exception):
    """The program refused its words or its files, or a session its command; the text is its line."""


@dataclass
class Result:
    """What a run gave."""

    status: int        # the program's
    text: str          # the whole text
    error: str | None  # the line of a refusal
    stop: str | None   # the line of the stop, None where the run was refused
    cycle: int | None  # its cycle
    registers: list    # of both cores: None for one that is asleep, else its registers by name (r0 to r12, sp, lr, pc, xpsr)
    uart: list         # the bytes that UART 0 and UART 1 sent
    edges: dict        # for each pin the changes of its level, as (cycle, level)
    probes: list       # the lines of probes and of windows

    def level(self, pin, cycle):
        """The level of a pin once this cycle is done; pins are low at the start."""
        levels = [level for at, level in self.edges[pin] if at <= cycle]
        return levels[-1] if levels else 0


def send(cycle, pin, data, baud):
    """The line of a script by which a serial line sends bytes (at most 256) to a pin from a cycle on; the script's first line is `version 2`,
    and before the first of these a line as (0, pin, 1) makes the pin high."""
    return f"send {cycle} {pin} {round(500_000_000 / baud)} {bytes(data).hex()}"


def symbols(path):
    """The addresses of the variables and functions of an ELF file by their names."""
    try:
        elf = Elf(path, read_bytes(path))
    except runs.Refused as refused:
        raise Refused(refused) from None
    return {name: address for kinds in ((0, FUNCTIONS), (OBJECTS,)) for address, _, name in elf.symbols(kinds)}


def program():
    """The program that is run. Refused where ./pico would prove and build it first: a test is no place for that."""
    named = os.environ.get("JOHVELNI")
    if not named and not is_built():
        raise Refused(NOT_BUILT)
    return named or f"{TOP}/pico"


def words_of(folder, script=None, pio=None, probes=None, parts=None, table=False):
    """The words for a script (a file, or a list of its lines or of (cycle, pin, level)), PIO sources, probes, parts and the table."""
    words = []
    if isinstance(script, (list, tuple)):
        path = f"{folder}/script"
        with open(path, "w", encoding="utf-8") as file:
            for line in script:
                file.write((line if isinstance(line, str) else " ".join(map(str, line))) + "\n")
        script = path
    if script is not None:
        words += ["--script", script]
    if pio:
        words += ["--pio", pio if isinstance(pio, str) else ",".join(f"{block}:{machine}:{path}" for (block, machine), path in pio.items())]
    if probes:
        words += ["--probe", ",".join(f"{probe}={pin}" for probe, pin in probes.items())]
    if parts:
        words += ["--part", ",".join(f"{part}={'+'.join(map(str, pins))}" for part, pins in parts.items())]
    return words + ["--table"] * bool(table)


def result_of(status, text):
    """The result of a run by its status and its text."""
    errors = [line for line in text.splitlines() if line.startswith("error ")]
    run = Run() if errors or status else read_run(text)
    edges = {pin: run.edges(pin) for pin in range(30)}
    return Result(status, text, errors[-1] if errors else None, run.stop, run.cycle, run.cores, [run.sent(0), run.sent(1)], edges, run.rest)


def run(image, cycles, seconds=None, check=True, **more):
    """Runs an image for at most so many cycles. A run that takes more than so many seconds raises subprocess.TimeoutExpired, one that the
    program refuses Refused; with check=False the latter is a result with its status and error alone. More are script, pio as {(block,
    machine): file}, probes as {probe: pin}, parts as {part: [pin, ..]}, and table=True for the table of routines."""
    with tempfile.TemporaryDirectory() as folder:
        words = [program(), "run", os.fspath(image), "--cycles", str(cycles), *words_of(folder, **more)]
        status, out, _ = ran(words, seconds)
    result = result_of(status, out.decode())
    if check and result.status != 0:
        raise Refused(result.error or f"the run ended with status {result.status}")
    return result


class Debug:
    """A session to and fro in a run. A move answers the cycle at which the session then stands, and `stop` has the line of the stop
    where the move met it."""

    def __init__(self, image, cycles, **more):
        """More are script, pio, parts and table, as of a run."""
        self.folder = tempfile.TemporaryDirectory()
        words = [program(), "debug", os.fspath(image), "--cycles", str(cycles), *words_of(self.folder.name, **more)]
        self.process = subprocess.Popen(words, stdin=subprocess.PIPE, stdout=subprocess.PIPE, text=True)
        self.cycle, self.stop = 0, None

    def __enter__(self):
        return self

    def __exit__(self, *_):
        self.close()

    def close(self):
        """Ends the session."""
        if self.process.poll() is None:
            try:
                self.process.stdin.write("quit\n")
                self.process.stdin.close()
            except OSError:
                pass
            self.process.wait()
        self.process.stdout.close()
        self.folder.cleanup()

    def ask(self, command, lines=1):
        """The lines with which the session answers a command."""
        self.put(command)
        try:
            return self.take(lines)
        except Refused as refused:
            raise Refused(f"{BAD}: {command.splitlines()[0]}" if str(refused) == BAD else refused) from None

    def put(self, command):
        """Says a command, whose answer is taken later."""
        try:
            self.process.stdin.write(command + "\n")
            self.process.stdin.flush()
        except OSError:
            pass  # a session that was refused has ended; its line tells why

    def take(self, lines=1):
        """The lines of an answer."""
        found = []
        while len(found) < lines:
            line = self.process.stdout.readline().rstrip("\n")
            if not line or line.startswith("error ") or line == BAD:
                raise Refused(line or f"the session ended with status {self.process.wait()}")
            found.append(line)
        return found

    def move(self, command):
        (line,) = self.ask(command)
        self.cycle, self.stop = moved(line)
        return self.cycle

    def step(self, count=1):
        """Goes so many cycles on."""
        return self.move(f"step {count}")

    def back(self, count=1):
        """Goes so many cycles back, or to the start."""
        return self.move(f"back {count}")

    def goto(self, cycle):
        """Goes to the state before this cycle, or to the stop before it."""
        return self.move(f"goto {cycle}")

    def end(self):
        """Goes to the stop of the run."""
        return self.move("end")

    def regs(self):
        """The registers of both cores by name; None for a core that is asleep."""
        words = [line.split()[1:] for line in self.ask("regs", 2)]
        return [None if row == ["asleep"] else dict(zip(NAMES, (int(word, 16) for word in row))) for row in words]

    def mem(self, address, count=1):
        """Words of SRAM."""
        found = []
        for done in range(0, count, 16):
            (line,) = self.ask(f"mem {address + 4 * done:08x} {min(16, count - done)}")
            found += [int(word, 16) for word in line.split()[2:]]
        return found

    def pins(self):
        """The levels of the pads 0 to 29."""
        (line,) = self.ask("pins")
        return [int(digit) for digit in "".join(line.split()[1:])]

    def pio(self, block, machine):
        """PC, X, Y, ISR and OSR of a PIO machine, as the session writes them."""
        (line,) = self.ask(f"pio {block} {machine}")
        return line.split()[3:]

    def peek(self, address):
        """What core 0 would read there of a register block, SIO or the private bus."""
        (line,) = self.ask(f"peek {address:08x}")
        return int(line.split()[2], 16)

    def next(self, count=1, core=0):
        """Goes to the n-th cycle after this one in which the core begins an instruction, or to the stop of the run."""
        return self.move(f"next {count} {core}")

    def prev(self, count=1, core=0):
        """Goes back to the n-th cycle before this one in which the core began an instruction, or to the start."""
        return self.move(f"prev {count} {core}")

    def until(self, address, core=0):
        """Goes to the next cycle, after this one, in which the core begins the instruction there, or to the stop of the run."""
        return self.move(f"until {address:08x} {core}")

    def lastat(self, address, core=0):
        """The last cycle before this one in which the core began the instruction there, None where there is none."""
        return self.last(f"lastat {address:08x} {core}")

    def untilwrite(self, address):
        """Goes behind the next cycle, from this one on, that changes the word, or to the stop of the run."""
        return self.move(f"untilwrite {address:08x}")

    def untilpin(self, pin):
        """Goes behind the next cycle, from this one on, that changes the level of the pin, or to the stop of the run."""
        return self.move(f"untilpin {pin}")

    def lastwrite(self, address):
        """The last cycle before this one that changed the word, None where there is none."""
        return self.last(f"lastwrite {address:08x}")

    def lastpin(self, pin):
        """The last cycle before this one that changed the level of the pin, None where there is none."""
        return self.last(f"lastpin {pin}")

    def last(self, command):
        (line,) = self.ask(command)
        last = line.split()[-1]
        return None if last == "none" else int(last)
