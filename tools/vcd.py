#!/usr/bin/env python3
"""Turns the pin and UART lines of a run into a VCD file for GTKWave or PulseView.

    ./pico run firmware.uf2 --cycles 100000 | tools/vcd.py > run.vcd

A unit of time is a nanosecond, and a cycle takes 8 (125 MHz). Each pin that changes is a wire gpioN. Each UART that sends has the bits
uartN[7] to uartN[0], which GTKWave joins to a vector: they are x until the first byte, have each byte from the end of its frame on, and are
x for half a cycle before the next one, so that a byte shows also where it is that of before; and a wire uartN_sent, which turns with each
byte. All are wires of one bit, since sigrok and PulseView read no others. The lines of registers, probes and windows are left out.

Statuses: 0; 1 where the input is no run, or the program refused it (its line is shown, and nothing is written); 3 where the run
stopped by a lockup or outside of the machine, which is told on standard error, or was cut (the file is whole up to there).
"""
import os
import re
import sys

sys.path.insert(0, os.path.dirname(os.path.abspath(__file__)))
from runs import CYCLE_NS, Refused, main, need_apart, parser, read_run, read_text, tell_end, write  # noqa: E402

BITS = range(7, -1, -1)


def changes_of(run):
    """The changes in order: the time in nanoseconds, the wire and its level."""
    changes = [(cycle * CYCLE_NS, f"gpio{pin}", str(level)) for cycle, pin, level in run.pins]
    sent = [0, 0]
    for cycle, uart, byte in run.bytes:
        sent[uart] ^= 1
        changes += [(cycle * CYCLE_NS - CYCLE_NS // 2, f"uart{uart}[{bit}]", "x") for bit in BITS]
        changes += [(cycle * CYCLE_NS, f"uart{uart}[{bit}]", str(byte >> bit & 1)) for bit in BITS]
        changes.append((cycle * CYCLE_NS, f"uart{uart}_sent", str(sent[uart])))
    return sorted(changes, key=lambda change: change[0])


def order(name):
    """The order of wires: pins by their numbers, then each UART with its bits from the highest on."""
    kind, number, bit = re.fullmatch(r"(gpio|uart)(\d+)(?:\[(\d)\]|_sent)?", name).groups()
    return kind, int(number), -int(bit) if bit else 1


def vcd(run):
    """The text of the VCD file."""
    changes = changes_of(run)
    if not changes:
        raise Refused("there is nothing to draw: no pin changed, and no UART sent a byte")
    # short names of one printable character
    names = sorted({name for _, name, _ in changes}, key=order)
    shorts = {name: chr(33 + number) for number, name in enumerate(names)}
    out = [f"$comment a cycle of the cores is {CYCLE_NS} ns $end", "$timescale 1 ns $end", "$scope module rp2040 $end"]
    out += [f"$var wire 1 {short} {name} $end" for name, short in shorts.items()]
    out += ["$upscope $end", "$enddefinitions $end", "#0", "$dumpvars"]
    out += [("x" if "[" in name else "0") + short for name, short in shorts.items()] + ["$end"]
    now = 0
    for time, name, level in changes:
        if time != now:
            out.append(f"#{time}")
            now = time
        out.append(level + shorts[name])
    if run.cycle is not None and run.cycle * CYCLE_NS > now:
        out.append(f"#{run.cycle * CYCLE_NS}")
    return "\n".join(out) + "\n"


def tool():
    words = parser(__doc__)
    words.add_argument("run", nargs="?", help="the text of a run; standard input where none is named")
    words.add_argument("-o", "--output", help="the file to write, whole or not at all; standard output where none is named")
    given = words.parse_args()
    run = read_run(read_text(given.run))
    need_apart(given.run, given.output)
    status = tell_end(run)
    write(given.output, vcd(run))
    return status


if __name__ == "__main__":
    main(tool)
