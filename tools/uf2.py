#!/usr/bin/env python3
"""Makes a UF2 image for SRAM from an ELF file or from a raw binary.

    tools/uf2.py firmware.elf firmware.uf2              the loaded segments, at the addresses that the linker gave them
    tools/uf2.py firmware.bin firmware.uf2 20000000     the bytes from this address on (hexadecimal; 20000000 where none is given)

What lies in flash or elsewhere outside SRAM (20000000 to 20041fff) is refused by the name of its section, and no file is written.
"""
import os
import struct
import sys

sys.path.insert(0, os.path.dirname(os.path.abspath(__file__)))
from elf32 import MAGIC, Elf  # noqa: E402
from runs import Refused, kinds_of, main, need_apart, parser, read_bytes, say, write  # noqa: E402

PAYLOAD, FAMILY = 256, 0xE48BFF56
SRAM = range(0x20000000, 0x20042000)
UF2_MAGIC = struct.pack("<II", 0x0A324655, 0x9E5D5157)


def image(parts):
    """The UF2 file of parts, each an address and its bytes: blocks of 256 bytes."""
    payloads = [(address + i, data[i:i + PAYLOAD]) for address, data in parts for i in range(0, len(data), PAYLOAD)]
    blocks = []
    for number, (address, part) in enumerate(payloads):
        head = struct.pack("<6I", 0x2000, address, len(part), number, len(payloads), FAMILY)
        blocks.append(UF2_MAGIC + head + part.ljust(476, b"\0") + struct.pack("<I", 0x0AB16F30))
    return b"".join(blocks)


def place_of(address):
    """What is at an address outside SRAM, in words."""
    if address < 0x4000:
        return "in the boot ROM, which is left out"
    if 0x10000000 <= address < 0x16000000:
        return "in flash, which is left out"
    if 0x21000000 <= address < 0x21040000:
        return "in the view of SRAM without striping, where no image is loaded"
    return "outside SRAM"


def need_sram(what, begin, size):
    """Refuses what does not lie in SRAM as a whole."""
    last = begin + size - 1
    if begin not in SRAM:
        raise Refused(f"{what} at {begin:08x} is {place_of(begin)}: link the program for SRAM, 20000000 to 20041fff (docs/FIRMWARE.md)")
    if last not in SRAM:
        raise Refused(f"{what} from {begin:08x} to {last:08x} goes {last + 1 - SRAM.stop} bytes beyond the end of SRAM (20041fff)")


def parts_of_elf(name, data):
    """The parts that an ELF file loads, in the order of their addresses."""
    elf = Elf(name, data)
    for section in elf.sections:
        if section.size:
            need_sram(f"section {section.name}", section.address, section.size)
    for number, segment in enumerate(elf.segments):
        if segment.data:
            need_sram(f"segment {number}", segment.address, len(segment.data))
        need_sram(f"the memory of segment {number}", segment.begin, segment.size)
    parts = sorted((segment.address, segment.data) for segment in elf.segments if segment.data)
    if not parts:
        raise Refused(f"{name} loads nothing: no section has bytes")
    for (address, part), (after, _) in zip(parts, parts[1:]):
        if address + len(part) > after:
            raise Refused(f"two segments of {name} load the byte at {after:08x}")
    if elf.entry & ~1 != parts[0][0]:
        say(f"note: core 0 begins at {parts[0][0]:08x}, the lowest loaded address, not at the entry {elf.entry & ~1:08x} of {name}: "
            "put the first instruction there, as examples/firmware/sram.ld does")
    return parts


def parts_of(name, data, address=None):
    """The parts of an ELF file, or of a binary at an address."""
    if data[:4] == MAGIC:
        if address is not None:
            raise Refused(f"{name} is an ELF file, which has its own addresses: leave the address away")
        return parts_of_elf(name, data)
    if data[:8] == UF2_MAGIC:
        raise Refused(f"{name} is a UF2 file already: run it as it is")
    for kind, todo in kinds_of(data):
        raise Refused(f"{name} looks like {kind}, which is neither an ELF file nor a raw binary: {todo}")
    begin = SRAM.start if address is None else address
    need_sram(f"the binary {name}", begin, len(data))
    stack, reset = struct.unpack("<II", data[:8].ljust(8, b"\0"))
    if stack % 4 == 0 and stack - 4 in SRAM and reset % 2 == 1 and reset in SRAM:
        say(f"note: {name} begins with what looks like a vector table, and core 0 begins at its first bytes, as code: "
            "put the first instruction there, as examples/firmware/sram.ld does")
    return [(begin, data)]


def hexadecimal(text):
    return int(text.removeprefix("0x"), 16)


def tool():
    words = parser(__doc__)
    words.add_argument("source", help="an ELF file or a raw binary")
    words.add_argument("image", help="the UF2 file to write")
    words.add_argument("address", nargs="?", type=hexadecimal, help="where a raw binary is loaded, hexadecimal")
    given = words.parse_args()
    parts = parts_of(given.source, read_bytes(given.source), given.address)
    need_apart(given.source, given.image)
    write(given.image, image(parts))


if __name__ == "__main__":
    main(tool)
