#!/usr/bin/env python3
"""Names the function and the line of the source for the addresses in the lines of a run or of a session.

    ./pico run examples/firmware/fault.uf2 --cycles 200000 | tools/where.py fault.elf

Each line is copied as it comes; below a line of registers stand the places of PC and LR, below a stop outside that of its address (a function
of the program, or the block of the RP2040's address map), and below the words of `mem` and `lastwrite` the variable. Lines of the source are
there where the program was compiled with -g and addr2line (arm-none-eabi-addr2line, llvm-addr2line or addr2line) is installed; without it the
function and the distance from its begin are told. In the place of the ELF file its listing can stand (arm-none-eabi-objdump -dlS), which needs
no addr2line and has no variables. The status is 1 where the last line is an error of the program, as of a run that was refused.
"""
import os
import re
import shutil
import subprocess
import sys

sys.path.insert(0, os.path.dirname(os.path.abspath(__file__)))
from elf32 import MAGIC, Elf  # noqa: E402
from runs import CORE, STOP, Refused, kinds_of, main, parser, read_bytes, read_lines, say  # noqa: E402

TOOLS = ("arm-none-eabi-addr2line", "llvm-addr2line", "llvm-addr2line-14", "llvm-symbolizer", "addr2line")
# RP2040 Datasheet, 2.2: the blocks from 40000000 on, each with 4000 bytes
BLOCKS = """SYSINFO SYSCFG CLOCKS RESETS PSM IO_BANK0 IO_QSPI PADS_BANK0 PADS_QSPI XOSC PLL_SYS PLL_USB BUSCTRL UART0 UART1 SPI0 SPI1 I2C0 I2C1 ADC
PWM TIMER WATCHDOG RTC ROSC VREG_AND_CHIP_RESET - TBMAN""".split()
AREAS = [
    (0x00000000, 0x00004000, "the boot ROM"), (0x10000000, 0x19000000, "flash"),
    (0x20000000, 0x22000000, "the area of SRAM, behind its end (20041fff, 2103ffff without striping)"),
    (0x50000000, 0x50100000, "DMA"), (0x50100000, 0x50200000, "USB"), (0x50200000, 0x50300000, "PIO0"), (0x50300000, 0x50400000, "PIO1"),
    (0xD0000000, 0xD0001000, "SIO"), (0xE0000000, 0xE0100000, "the processor's own registers"),
]
RETURNS = re.compile(r"fffffff[19d]|ffffffff")
WORDS = re.compile(r"(?:mem|lastwrite) ([0-9a-f]{8}) .*")
# ARMv6-M Architecture Reference Manual, B1.5.2: exceptions by their numbers; interrupts follow from 16 on
EXCEPTIONS = {2: "NMI", 3: "HardFault", 11: "SVCall", 14: "PendSV", 15: "SysTick"} | {16 + line: f"interrupt {line}" for line in range(32)}


def addr2line():
    """The command that tells lines, if one is installed."""
    return next((found for name in TOOLS if (found := shutil.which(name))), None)


def line_of(command, path, address):
    """The file and line of an address by that command; None where it knows none."""
    if command is None:
        return None
    done = subprocess.run([command, "-e", path, f"0x{address:x}"], capture_output=True, text=True, check=False)
    for line in done.stdout.splitlines():
        if re.search(r":[1-9]\d*", line):
            file, number = re.match(r"(.*):(\d+)", line).groups()
            return f"{os.path.basename(file)}:{number}"
    return None


def listed(path, text):
    """A function that tells the place of an address by a listing; None for an address that is not there."""
    known, function, begin, line, source = {}, None, 0, "", ""
    for row in text.splitlines():
        if found := re.fullmatch(r"([0-9a-f]{8}) <([^>]+)>:", row):
            begin, function, line, source = int(found[1], 16), found[2], "", ""
        elif found := re.fullmatch(r"(\S+):(\d+)(?: \(discriminator \d+\))?", row):
            line, source = f" {os.path.basename(found[1])}:{found[2]}", ""
        elif found := re.match(r"([0-9a-f]{8}):\t", row):
            address = int(found[1], 16)
            known[address] = f"{function}+{address - begin}{line}" + (f": {source}" if source else "")
        elif row.strip() and not row.endswith("():"):
            source = row.strip()
    if not known:
        raise Refused(f"{path} is neither an ELF file nor a listing of objdump -dlS")
    return known.get


def places(path, elf, command):
    """A function that tells the place of an address in words; None outside the program's functions."""
    known = {}

    def place(address):
        if not known and command is None:
            say("no addr2line is installed (Debian: binutils-arm-none-eabi), so lines of the source are not told")
        if address not in known:
            function = elf.function_of(address)
            line = line_of(command, path, address) if function else None
            known[address] = function and f"{function[0]}+{function[1]}" + (f" {line}" if line else "")
        return known[address]

    return place


def area_of(address):
    """The block or area of the address map, in words; None where there is none."""
    number = (address - 0x40000000) // 0x4000
    if 0 <= number < len(BLOCKS) and BLOCKS[number] != "-":
        return BLOCKS[number]
    return next((name for begin, end, name in AREAS if begin <= address < end), None)


def vector_of(address):
    """What is said of an address below C0: a vector where VTOR is 0."""
    name = EXCEPTIONS.get(address // 4) if address % 4 == 0 else None
    return f": the vector of {name}, if VTOR is still 0" if name else ""


def notes_of(line, place, variable):
    """What is said below a line."""
    if (found := STOP.fullmatch(line)) and found[2]:
        address = int(found[2], 16)
        if where := place(address & ~1):
            yield f"  {address:08x} is {where}"
        elif area := area_of(address):
            yield f"  {address:08x} is in {area}{vector_of(address)}"
    elif found := WORDS.fullmatch(line):
        if where := variable(int(found[1], 16)):
            yield f"  {found[1]} is {where[0]}+{where[1]}"
    elif (found := CORE.fullmatch(line)) and found[2] != "asleep":
        words = found[2].split()
        lr, pc = words[14], words[15]
        if where := place(int(pc, 16) & ~1):
            yield f"  pc {pc} is {where}"
        else:
            yield f"  pc {pc} is in no function of the program"
        if RETURNS.fullmatch(lr):
            yield f"  lr {lr} " + ("is the value at the start" if lr == "ffffffff" else "returns from an exception")
        elif where := place(int(lr, 16) & ~1):
            yield f"  lr {lr} is {where}"


def places_in(path):
    """Functions that tell the place of an address, and the variable there, by the ELF file or the listing."""
    data = read_bytes(path)
    if data[:4] != MAGIC:
        if b"\0" in data:
            looks = "".join(f" but looks like {kind}" for kind, _ in kinds_of(data))
            raise Refused(f"{path} is no ELF file{looks}: give the one that the linker wrote, or its listing")
        return listed(path, data.decode(errors="replace")), lambda _: None
    elf = Elf(path, data)
    if not elf.functions():
        raise Refused(f"{path} has no symbols: link it without -s, and do not strip it")
    return places(path, elf, addr2line()), elf.object_of


def tool():
    words = parser(__doc__)
    words.add_argument("elf", help="the ELF file of the program, or its listing")
    words.add_argument("run", nargs="?", help="the text of a run or a session; standard input where none is named")
    given = words.parse_args()
    place, variable = places_in(given.elf)
    if sys.stdout is None:
        raise Refused("standard output is closed")
    sys.stdout.reconfigure(encoding="utf-8")
    last = None
    for last in read_lines(given.run):
        print(last, *notes_of(last, place, variable), sep="\n", flush=not last[:1].isdigit())
    if last is None:
        raise Refused("there are no lines of a run; does the command before the pipe print them?")
    if last.startswith("error "):
        raise Refused(f"the program ended with: {last}")


if __name__ == "__main__":
    main(tool)
