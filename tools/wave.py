#!/usr/bin/env python3
"""Draws pins of a run between two cycles, as an SVG picture or as text.

    ./pico run firmware.uf2 --cycles 20000 | tools/wave.py --pins 0,25 --from 300 --to 2400 -o wave.svg
    ./pico run firmware.uf2 --cycles 20000 | tools/wave.py --text

A character of the text is a level, or | where it changes within. Without --pins all pins are drawn that change; without --from and --to
the whole run. Below a pin of a UART its bytes can be named by --uarts. Statuses are those of tools/vcd.py.
"""
import argparse
import os
import sys
from xml.sax.saxutils import escape

sys.path.insert(0, os.path.dirname(os.path.abspath(__file__)))
from runs import CYCLE_NS, Refused, main, need_apart, parser, read_run, read_text, tell_end, write  # noqa: E402

LEFT, ROW, HEIGHT, TOP = 76, 44, 24, 18
COLUMNS = 80  # of a picture as text


def steps_of(edges, begin, end):
    """The level at the begin, and the changes up to the end."""
    before = [level for cycle, level in edges if cycle <= begin]
    return (before[-1] if before else 0), [(cycle, level) for cycle, level in edges if begin < cycle <= end]


def tick(span):
    """A distance of 1, 2 or 5 times a power of ten, of which about eight fit."""
    distance = 1
    while span / distance > 10:
        distance = {1: 2, 2: 5, 5: 10}[int(str(distance)[0])] * 10 ** (len(str(distance)) - 1)
    return distance


def svg(run, pins, uarts, begin, end, width):
    """The text of the picture."""
    scale = (width - LEFT - 12) / (end - begin)

    def x(cycle):
        return f"{LEFT + (cycle - begin) * scale:.1f}".removesuffix(".0")

    rows = len(pins) + len(uarts)
    bottom = TOP + ROW * rows
    out = [
        f'<svg xmlns="http://www.w3.org/2000/svg" viewBox="0 0 {width} {bottom + 30}" width="{width}" height="{bottom + 30}" '
        'font-family="sans-serif" font-size="12">',
        f'<rect width="{width}" height="{bottom + 30}" fill="#ffffff"/>',
    ]
    distance = tick(end - begin)
    for cycle in range(-(-begin // distance) * distance, end + 1, distance):
        out.append(f'<path d="M{x(cycle)} {TOP - 6}V{bottom}" stroke="#dddddd"/>')
        out.append(f'<text x="{x(cycle)}" y="{bottom + 14}" text-anchor="middle" fill="#555555">{cycle}</text>')
    out.append(f'<text x="{LEFT}" y="{bottom + 27}" fill="#555555">cycles of {CYCLE_NS} ns</text>')
    for row, pin in enumerate(pins):
        low = TOP + ROW * row + HEIGHT
        level, changes = steps_of(run.edges(pin), begin, end)
        path = f"M{x(begin)} {low - HEIGHT * level}"
        for cycle, level in changes:
            path += f"H{x(cycle)}V{low - HEIGHT * level}"
        out.append(f'<text x="8" y="{low - 6}">pin {pin}</text>')
        out.append(f'<path d="{path}H{x(end)}" fill="none" stroke="#0b5fa5" stroke-width="1.5"/>')
    for row, uart in enumerate(uarts, len(pins)):
        low = TOP + ROW * row + HEIGHT
        out.append(f'<text x="8" y="{low - 6}">UART {uart}</text>')
        for cycle, number, byte in run.bytes:
            if number == uart and begin <= cycle <= end:
                name = escape(chr(byte)) if 32 < byte < 127 else f"{byte:02x}"
                out.append(f'<path d="M{x(cycle)} {low}v-8" stroke="#a5480b"/>')
                out.append(f'<text x="{x(cycle)}" y="{low - 11}" text-anchor="middle" fill="#a5480b">{name}</text>')
    return "\n".join(out) + "\n</svg>\n"


def row_of(edges, begin, end, step):
    """The levels of a pin, a character for so many cycles each."""
    level, changes = steps_of(edges, begin, end)
    row, at = "", 0
    for column in range(begin, end, step):
        is_mixed = False
        while at < len(changes) and changes[at][0] < column + step:
            is_mixed, level, at = is_mixed or changes[at][0] > column, changes[at][1], at + 1
        row += "|" if is_mixed else "_\u203e"[level]
    return row


def text(run, pins, uarts, begin, end):
    """The picture as text."""
    step = -(-(end - begin) // COLUMNS)
    out = [f"from cycle {begin}, a character for {step} cycle{'s' * (step > 1)}"]
    out += [f"{f'pin {pin}':<8}{row_of(run.edges(pin), begin, end, step)}" for pin in pins]
    for uart in uarts:
        row = [" "] * -(-(end - begin) // step)
        for cycle, number, byte in run.bytes:
            if number == uart and begin <= cycle < end:
                row[(cycle - begin) // step] = chr(byte) if 32 < byte < 127 else "."
        out.append(f"{f'UART {uart}':<8}{''.join(row)}".rstrip())
    return "\n".join(out) + "\n"


def numbers(text):
    """A list of pins, as 0,1,25."""
    found = [int(word) for word in text.split(",")]
    if not all(0 <= pin <= 29 for pin in found):
        raise ValueError
    return found


numbers.__name__ = "list of pins from 0 to 29"


def tool():
    words = parser(__doc__)
    words.add_argument("run", nargs="?", help="the text of a run; standard input where none is named")
    words.add_argument("--pins", type=numbers, help="the pins, joined by commas")
    words.add_argument("--text", action="store_true", help="text in the place of SVG")
    words.add_argument("--uarts", action="store_true", help="a row for each UART that sends, with its bytes")
    words.add_argument("--from", dest="begin", type=int, default=0, help="the first cycle")
    words.add_argument("--to", dest="end", type=int, help="the last cycle")
    words.add_argument("--width", type=int, default=960, help=argparse.SUPPRESS)
    words.add_argument("-o", "--output", help="the file to write, whole or not at all; standard output where none is named")
    given = words.parse_args()
    if (given.output or "").endswith((".png", ".jpg", ".pdf")) and not given.text:
        raise Refused(f"{given.output}: the picture is an SVG, so its name ends with .svg", 2)
    run = read_run(read_text(given.run))
    need_apart(given.run, given.output)
    pins = given.pins if given.pins is not None else sorted({pin for _, pin, _ in run.pins})
    uarts = sorted({uart for _, uart, _ in run.bytes}) if given.uarts else []
    last = max([cycle for cycle, *_ in run.pins + run.bytes] + [run.cycle or 0])
    end = last if given.end is None else given.end
    if not pins and not uarts:
        raise Refused("there is nothing to draw: no pin changed")
    if not 0 <= given.begin < end:
        raise Refused(f"there is no cycle between {given.begin} and {end}", 2)
    status = tell_end(run)
    picture = text(run, pins, uarts, given.begin, end) if given.text else svg(run, pins, uarts, given.begin, end, given.width)
    write(given.output, picture)
    return status


if __name__ == "__main__":
    main(tool)
