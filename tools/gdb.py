#!/usr/bin/env python3
"""Lets GDB debug a run of the emulator, forwards and backwards.

    gdb-multiarch firmware.elf -ex 'target remote | tools/gdb.py firmware.elf --cycles 200000'
    tools/gdb.py firmware.elf --cycles 200000 --listen 3333        for an editor, which connects to localhost:3333

The image is an ELF or a UF2 file. Both cores are threads. What works: registers, SRAM, breakpoints, write watchpoints, step, next,
stepi, continue, finish, and their reverse forms; Ctrl-C. The run is replayed, so nothing can be written; SRAM can be read, and the
registers of blocks, as core 0 would read them but without what a read does. `monitor help` lists the commands of the session that
can be asked, as `monitor pins`. GDB waits for a reply for two seconds, unless `set remotetimeout 60` tells it to wait longer.

A stop of the run is a signal, and its line is shown: SIGTRAP for a BKPT, SIGSEGV outside of the machine, SIGABRT for a lockup; at the
limit and at the start the history ends. A breakpoint or a watchpoint takes about the time of the run up to there. Ctrl-C while one is
sought ends the search: the run stands where it did, and the session begins anew.
"""
from __future__ import annotations

import os
import re
import select
import socket
import sys

sys.path.insert(0, os.path.dirname(os.path.abspath(__file__)))
import johvelni  # noqa: E402
from runs import NAMES, STOP, Refused, main, moved, parser, say  # noqa: E402

INPUT = 1_000_000           # bytes of commands after which a session begins anew; it hears at most 1 MiB
CHUNK = 1_000_000           # cycles of a run between two looks for Ctrl-C
LEAST, MOST = 64, 4096      # instructions that are looked at at once
READ_ONLY = "the run is replayed: nothing can be written"
SRAM = [(0x20000000, 0x20042000), (0x21000000, 0x21040000)]
PC = slice(141, 149)        # the digits of PC in a line of registers
HELP = """pins, pio <block> <machine>, regs, mem <address> [count], peek <address>, lastat <address> [core], lastwrite <address>,
lastpin <pin>: as a session answers them
step [n], back [n], goto <cycle>, end, next [n] [core], prev [n] [core], until <address> [core], untilwrite <address>,
untilpin <pin>: move; `maintenance flush register-cache` then shows the registers there
reset: goes to cycle 0; cycle: where the run stands; info: what this target can do
"""
INFO = ("cycle {} of a run that is replayed: registers and memory cannot be written; reverse-stepi, reverse-step and reverse-continue "
        "go back; watchpoints are those of writes\n")
MOVES = ("step", "back", "goto", "end", "next", "prev", "until", "untilwrite", "untilpin")
SIGNALS = {"bkpt": 5, "outside": 11, "lockup": 6}
TYPES = {"sp": ' type="data_ptr"', "pc": ' type="code_ptr"'}
XML = ('<?xml version="1.0"?><!DOCTYPE target SYSTEM "gdb-target.dtd"><target version="1.0"><architecture>arm</architecture>'
       '<feature name="org.gnu.gdb.arm.m-profile">'
       + "".join(f'<reg name="{name}" bitsize="32"{TYPES.get(name, "")}/>' for name in NAMES) + "</feature></target>")


class Interrupted(Exception):
    """GDB asked to stop the run."""


class Link:
    """Packets of GDB's remote protocol over two file descriptors."""

    def __init__(self, source, sink):
        self.source, self.sink = source, sink
        self.buffer, self.last, self.is_acknowledged = b"", b"", True

    def fill(self, seconds=None):
        """Takes what has come; whether there was something."""
        if not select.select([self.source], [], [], seconds)[0]:
            return False
        data = os.read(self.source, 1 << 16)
        if not data:
            raise EOFError
        self.buffer += data
        return True

    def put(self, data):
        while data:
            data = data[os.write(self.sink, data):]

    def packet(self):
        """The text of the next packet."""
        while True:
            before, found, rest = self.buffer.partition(b"$")
            if b"-" in before and self.is_acknowledged:
                self.put(self.last)
            body, ends, check = rest.partition(b"#")
            if not ends or len(check) < 2:
                self.buffer = found + rest
                self.fill()
                continue
            self.buffer = check[2:]
            is_good = re.fullmatch(rb"[0-9a-fA-F]{2}", check[:2]) is not None and sum(body) % 256 == int(check[:2], 16)
            if self.is_acknowledged:
                self.put(b"+" if is_good else b"-")
            if is_good:
                return body.decode("latin-1")

    def send(self, text):
        """Sends a reply. What came since the packet was taken was said for want of it: the packet again, or that none came."""
        if self.is_acknowledged:
            try:
                while self.fill(0):
                    pass
            except EOFError:
                pass    # the next packet is found to be missing
            self.buffer = b"\x03" if b"\x03" in self.buffer else b""
        data = text.encode("latin-1")
        self.last = b"$%s#%02x" % (data, sum(data) % 256)
        self.put(self.last)

    def look(self):
        """Ends a run that GDB wants to be stopped."""
        while self.fill(0):
            pass
        if b"\x03" in self.buffer:
            self.buffer = self.buffer.replace(b"\x03", b"")
            raise Interrupted


class Session:
    """A session of the debugger. It begins with the first question, since GDB waits two seconds for a first reply, and anew, at the
    same cycle, before its input is too long."""

    def __init__(self, make):
        self.make, self.debug, self.sent = make, None, 0
        self.cycle, self.stop = 0, None

    def begin(self):
        self.close()
        try:
            self.debug, self.sent = self.make(), 0
        except johvelni.Refused as refused:
            raise Refused(f"the session was refused: {refused}") from None
        if self.cycle:
            self.move(f"goto {self.cycle}")

    def close(self):
        if self.debug is not None:
            self.debug.close()

    def ask(self, command, lines=1):
        if self.debug is None or self.sent + len(command) + 1 > INPUT:
            self.begin()
        self.sent += len(command) + 1
        return self.debug.ask(command, lines)

    def move(self, command):
        """Moves; `stop` is then the line of the stop that was met, `start`, or None."""
        return self.stand(self.ask(command)[0])

    def stand(self, line):
        self.cycle, self.stop = moved(line)
        if line == "at start":
            self.stop = "start"
        return line

    def seek(self, command, link):
        """Moves by a command that may take long. Ctrl-C ends it: the session begins anew where it stood."""
        if self.debug is None or self.sent + len(command) + 1 > INPUT:
            self.begin()
        self.sent += len(command) + 1
        self.debug.put(command)
        source = self.debug.process.stdout
        try:
            link.look()
            while source not in select.select([source, link.source], [], [])[0]:
                link.look()
        except (EOFError, Interrupted) as ended:
            self.debug.process.terminate()
            if isinstance(ended, Interrupted):
                self.begin()
            raise
        return self.stand(self.debug.take()[0])

    def goto(self, cycle):
        if cycle != self.cycle:
            self.move(f"goto {cycle}")

    def registers(self):
        """The lines of both cores; None for one that is asleep."""
        return [None if line.endswith("asleep") else line for line in self.ask("regs", 2)]

    def places(self):
        """PC of both cores."""
        return [place_of(line) for line in self.ask("regs", 2)]

    def instructions(self, core, count):
        """The next cycles in which a core begins an instruction, with PC of both cores in each, up to the stop."""
        found, lines = [], self.ask("\n".join([f"next 1 {core}", "regs"] * count), 3 * count)
        self.stop = None
        for where, first, second in zip(*[iter(lines)] * 3):
            self.cycle, self.stop = moved(where)
            if self.stop:
                break
            found.append((self.cycle, [place_of(first), place_of(second)]))
        return found

    def last(self, command):
        last = self.ask(command)[0].split()[-1]
        return None if last == "none" else int(last)


def place_of(line):
    return None if line.endswith("asleep") else int(line[PC], 16)


class Event:
    """What ends a move: a core begins the instruction at a breakpoint, or a watched word is written."""

    def __init__(self, until, last, told, core=None):
        self.until, self.last, self.told, self.core = until, last, told, core

    def cycle(self, session):
        """Its cycle, where a move forward has ended by it: a write is one of the cycle before."""
        return session.cycle - (self.core is None)


class Target:
    """Moves of GDB over a session: by instructions, to breakpoints and to writes of watched words."""

    def __init__(self, session, link):
        self.session, self.link = session, link
        self.breaks, self.watched = set(), {}
        self.core = 0          # the one that the last stop is told of
        self.written = None    # the cycle of a write that was told last, which is then the next one

    def events(self, core):
        """Those of a core; of core 0 the writes too."""
        found = [Event(f"until {at:08x} {core}", f"lastat {at:08x} {core}", "hwbreak:;", core) for at in sorted(self.breaks)]
        if core == 0:
            found += [Event(f"untilwrite {at:08x}", f"lastwrite {at:08x}", f"watch:{told:x};") for at, told in self.watched.items()]
        return found

    def stop_at(self, cycle, event):
        """Goes to an event; what is told of it. GDB takes a watchpoint of ARM to be told before the access, and steps over it."""
        self.session.goto(cycle)
        self.session.stop = None
        if event.core is None:
            self.written = cycle
        else:
            self.core = event.core
        return event.told

    def step(self, core, area=range(0)):
        """One instruction of a core, or as many as lie in an area, at most to a breakpoint. A step from a write that was told ends once that
        is done: it is GDB's own, which looks at the value then."""
        session, self.core = self.session, core
        if session.cycle == self.written:
            session.move("step 1")
            return ""
        begin, end, count = session.cycle, None, 1
        while end is None and not session.stop:
            self.link.look()
            for cycle, places in session.instructions(core, count):
                if places[core] in self.breaks or places[core] not in area:
                    end = (cycle, places[core])
                    break
            count = min(max(LEAST, 2 * count), MOST)
        last = end[0] if end else session.cycle
        if self.breaks and session.places()[1 - core] is not None and (other := self.entered(1 - core, begin, last)) is not None:
            session.goto(other)
            self.core, session.stop = 1 - core, None
            return "hwbreak:;"
        if end is None:
            session.move("end")    # where the stop is met
            return ""
        session.goto(last)
        session.stop = None
        return "hwbreak:;" if end[1] in self.breaks else ""

    def entered(self, core, begin, end):
        """The first cycle between two in which a core begins an instruction with a breakpoint; None where there is none."""
        self.session.goto(begin)
        count = 1
        while self.session.cycle < end and not self.session.stop:
            self.link.look()
            for cycle, places in self.session.instructions(core, count):
                if begin < cycle <= end and places[core] in self.breaks:
                    return cycle
            count = min(2 * count, MOST)
        return None

    def step_back(self, core):
        """To the first cycle of the instruction before; from a write that was told, or from within an instruction, to that of the present
        one first."""
        self.core = core
        session, now = self.session, self.session.cycle
        place = session.places()[core]
        session.move(f"prev 1 {core}")
        if session.stop is None and now != self.written and session.places()[core] == place:
            session.move(f"prev 1 {core}")
        return ""

    def go_on(self):
        """Goes on to the first breakpoint, write of a watched word, or the stop; what is told of it."""
        session, begin, best = self.session, self.session.cycle, None
        if not self.breaks and not self.watched:
            while session.stop is None or session.stop == "start":
                self.link.look()
                session.move(f"step {CHUNK}")
            return ""
        for core in (0, 1):
            if core == 1 and session.places()[1] is None:    # it was asleep all the time
                break
            for event in self.events(core):
                if best is not None:
                    session.goto(best[0])
                    last = session.last(event.last)
                    if last is None or last < begin + (event.core is not None):
                        continue
                session.goto(begin)
                session.seek(event.until, self.link)
                if session.stop is None:
                    best = (event.cycle(session), event)
            if best is not None:
                session.goto(best[0])
        if best is not None:
            return self.stop_at(*best)
        session.move("end")
        return ""

    def go_back(self):
        """Back to a breakpoint, a write of a watched word or the start; what is told of it."""
        session, best = self.session, None
        for core in (0, 1):
            if core == 1 and session.places()[1] is None:    # it has not begun anything yet
                break
            for event in self.events(core):
                last = session.last(event.last)
                if last is not None and (best is None or last > best[0]):
                    best = (last, event)
        if best is not None:
            return self.stop_at(*best)
        session.goto(0)
        session.stop = "start"
        return ""


class Server:
    """What is answered to GDB."""

    def __init__(self, link, make):
        self.link = link
        self.session = Session(make)
        self.target = Target(self.session, link)
        self.core = 0               # whose registers GDB reads

    def serve(self):
        """Answers packets until GDB goes."""
        try:
            while True:
                text = self.link.packet()
                try:
                    reply = self.answer(text)
                except johvelni.Refused as refused:
                    say(refused)
                    reply = f"E.{refused}"
                if reply is None:
                    break
                self.link.send(reply)
                if text == "QStartNoAckMode":
                    self.link.is_acknowledged = False
                if text[0] == "D" or text.startswith("vKill"):
                    break
        except (EOFError, BrokenPipeError, ConnectionResetError):
            pass
        finally:
            self.session.close()

    def answer(self, text):
        """The reply to a packet: empty for one that is not known, None where GDB is gone."""
        fixed = {
            "!": "OK", "?": "T05thread:1;", "qAttached": "1", "qC": f"QC{self.core + 1}", "qsThreadInfo": "l",
            "QStartNoAckMode": "OK", "vCont?": "vCont;c;C;s;S;r", "D": "OK", "k": None, "qSymbol::": "OK",
            "qSupported": "PacketSize=4000;QStartNoAckMode+;qXfer:features:read+;ReverseStep+;ReverseContinue+;hwbreak+",
        }
        name = "qSupported" if text.startswith("qSupported") else text
        if name in fixed:
            return fixed[name]
        if text.startswith(("vKill", "D;", "T")):
            return "OK"
        if text.startswith(("G", "P", "M", "X")):
            say(READ_ONLY)
            return f"E.{READ_ONLY}"
        for begin, call in self.calls().items():
            if text.startswith(begin):
                try:
                    return call(text[len(begin):])
                except ValueError:
                    return "E.a packet that is not understood"
        return ""

    def calls(self):
        return {
            "qXfer:features:read:target.xml:": self.features, "qfThreadInfo": self.threads, "qThreadExtraInfo,": self.thread,
            "qRcmd,": self.monitor, "H": self.choose, "g": self.all_registers, "p": self.register, "m": self.memory,
            "Z": self.insert, "z": self.remove, "vCont;": self.resume, "bs": self.step_back, "bc": self.go_back, "s": self.step,
            "c": self.go_on,
        }

    def features(self, rest):
        begin, length = (int(word, 16) for word in rest.split(","))
        return ("l" if begin + length >= len(XML) else "m") + XML[begin:begin + length]

    def threads(self, _):
        return "m1,2" if self.session.registers()[1] else "m1"

    def thread(self, rest):
        return f"core {int(rest, 16) - 1}".encode().hex()

    def choose(self, rest):
        """Hg and Hc with a thread; 0 and -1 are any."""
        if rest[1:] not in ("0", "-1"):
            self.core = (int(rest[1:], 16) - 1) & 1
        return "OK"

    def words(self):
        line = self.session.registers()[self.core]
        return ["00000000"] * 17 if line is None else line.split()[1:]

    def all_registers(self, _):
        return "".join(turned(word) for word in self.words())

    def register(self, rest):
        words = self.words()
        number = int(rest, 16)
        return turned(words[number]) if number < len(words) else "E.no such register"

    def memory(self, rest):
        begin, length = (int(word, 16) for word in rest.split(","))
        area = next(((low, high) for low, high in SRAM if low <= begin < high), None)
        if area is None:
            return self.peeked(begin, length)
        end = min(begin + length, area[1])
        data, at = "", begin & ~3
        while at < end:
            count = min(16, (end - at + 3) // 4)
            try:
                (line,) = self.session.ask(f"mem {at:08x} {count}")
            except johvelni.Refused:
                break
            data += "".join(turned(word) for word in line.split()[2:])
            at += 4 * count
        return data[2 * (begin & 3):2 * (end - (begin & ~3))] or "E01"

    def peeked(self, begin, length):
        """Bytes of words outside of SRAM, as core 0 would read them."""
        data, first = "", begin & ~3
        for at in range(first, min(begin + length, begin + 1024), 4):
            try:
                data += turned(self.session.ask(f"peek {at:08x}")[0].split()[2])
            except johvelni.Refused:
                break
        return data[2 * (begin - first):2 * (begin - first + length)] or "E01"

    def insert(self, rest):
        return self.point(rest, True)

    def remove(self, rest):
        return self.point(rest, False)

    def point(self, rest, is_there):
        """A breakpoint (0, 1), or a watchpoint of writes (2), for each word that it covers; others are not known."""
        kind, address, length = rest.split(";")[0].split(",")
        begin, target = int(address, 16), self.target
        if kind in ("0", "1"):
            (target.breaks.add if is_there else target.breaks.discard)(begin & ~1)
            return "OK"
        if kind != "2":
            return ""
        if not any(low <= begin < high for low, high in SRAM[:1]):
            return "E.writes are watched in SRAM alone, 20000000 to 20041fff"
        for word in range(begin & ~3, begin + int(length, 16), 4):
            if is_there:
                target.watched[word] = begin
            else:
                target.watched.pop(word, None)
        return "OK"

    def resume(self, rest):
        """vCont: the first action that steps counts, the others go along."""
        for action in rest.split(";"):
            what, _, thread = action.partition(":")
            core = self.core if thread in ("", "0", "-1") else (int(thread, 16) - 1) & 1
            if what[0] == "r":
                begin, end = (int(word, 16) for word in what[1:].split(","))
                return self.moved(lambda: self.target.step(core, range(begin, end)))
            if what[0] in "sS":
                return self.moved(lambda: self.target.step(core))
        return self.go_on("")

    def step(self, _):
        return self.moved(lambda: self.target.step(self.core))

    def step_back(self, _):
        return self.moved(lambda: self.target.step_back(self.core))

    def go_on(self, _):
        return self.moved(self.target.go_on)

    def go_back(self, _):
        return self.moved(self.target.go_back)

    def moved(self, move):
        """Moves, and tells where it stopped and why."""
        before, written, told = self.session.cycle, self.target.written, ""
        if self.session.sent > INPUT // 2:    # while GDB waits for a stop, for which it has no time limit
            self.session.begin()
        if self.session.stop == "start":
            self.session.stop = None
        try:
            told = move()
        except Interrupted:
            return f"T02thread:{self.target.core + 1};"
        if self.target.written == written:
            self.target.written = None
        stop = self.session.stop
        self.core = self.target.core
        if stop == "start":
            return "T05replaylog:begin;" + f"thread:{self.core + 1};"
        if stop is None:
            return f"T05{told}thread:{self.core + 1};"
        kind = stop.split()[1]
        if kind == "limit" or self.session.cycle == before:
            return f"T05replaylog:end;thread:{self.core + 1};"
        found = re.search(r"core([01])", stop)
        self.core = self.target.core = int(found[1]) if found else 0
        self.link.send("O" + f"{stop}\n".encode().hex())
        return f"T{SIGNALS[kind]:02x}thread:{self.core + 1};"

    def monitor(self, rest):
        """What a command of the session answers, or one of the bridge's own."""
        command = " ".join(bytes.fromhex(rest).decode("latin-1").split())
        own = {"help": HELP, "info": INFO.format(self.session.cycle), "cycle": f"{self.session.cycle}\n", "halt": ""}
        if command in own:
            text = own[command]
        elif command.split()[:1] == ["reset"]:
            text = self.session.move("goto 0") + "\n"
        elif command.split()[:1] and command.split()[0] in MOVES:
            text = self.session.move(command) + "\n"
        elif command == "quit":
            text = "detach or kill ends the session\n"
        else:
            text = "\n".join(self.session.ask(command, 2 if command == "regs" else 1)) + "\n"
        return text.encode().hex() or "OK"


def turned(word):
    """The bytes of a word, from the lowest."""
    return word[6:8] + word[4:6] + word[2:4] + word[0:2]


def port(text):
    number = int(text)
    if not 0 <= number < 1 << 16:
        raise ValueError
    return number


def listen(port, make):
    """Serves one connection after another at a port of this machine."""
    try:
        server = socket.create_server(("localhost", port))
    except OSError as error:
        raise Refused(f"port {port} cannot be opened: {error.strerror.partition(' (')[0]}") from None
    with server:
        say(f"waiting at localhost:{server.getsockname()[1]}")
        while True:
            connection, _ = server.accept()
            with connection:
                connection.setsockopt(socket.IPPROTO_TCP, socket.TCP_NODELAY, 1)
                Server(Link(connection.fileno(), connection.fileno()), make).serve()


def tool():
    words = parser(__doc__)
    words.add_argument("image", help="an ELF or a UF2 file")
    words.add_argument("--cycles", type=int, default=1_000_000, help="the limit of the run; 1000000 where none is given")
    words.add_argument("--script", help="as of pico debug")
    words.add_argument("--pio", help="as of pico debug")
    words.add_argument("--part", help="as of pico debug")
    words.add_argument("--table", action="store_true", help="as of pico debug")
    words.add_argument("--listen", type=port, metavar="PORT", help="waits for GDB at a port of this machine, in place of a pipe")
    given = words.parse_args()

    def make():
        parts = given.part and dict(entry.partition("=")[::2] for entry in given.part.split(","))
        parts = parts and {part: pins.split("+") for part, pins in parts.items()}
        debug = johvelni.Debug(given.image, given.cycles, script=given.script, pio=given.pio, parts=parts, table=given.table)
        debug.ask("regs", 2)
        return debug

    if given.listen is not None:
        session = Session(make)
        session.begin()
        session.close()
        listen(given.listen, make)
    if sys.stdin is None or sys.stdout is None:
        raise Refused("standard input or output is closed: GDB starts this by `target remote |`, or give --listen")
    Server(Link(0, 1), make).serve()


if __name__ == "__main__":
    main(tool)
