#!/usr/bin/env python3
"""Shows what a UART sent in a run, as text.

    ./pico run firmware.uf2 --cycles 100000 | tools/uart.py
    ./pico run firmware.uf2 --cycles 100000 | tools/uart.py --uart 1 --times

Bytes that are no UTF-8 and control characters are written as \\xHH; --raw writes the bytes as they are. With --times each line begins
with the cycle of its first byte. Statuses are those of tools/vcd.py.
"""
import os
import sys

sys.path.insert(0, os.path.dirname(os.path.abspath(__file__)))
from runs import main, parser, read_run, read_text, say, tell_end, write  # noqa: E402


def shown(data):
    """The bytes as text that a terminal can show."""
    text = data.decode(errors="backslashreplace")
    return "".join(c if c in "\n\t" or c.isprintable() else f"\\x{ord(c):02x}" if c != "\r" else "" for c in text)


def lines_of(run, uart):
    """The lines that a UART sent: the cycle of the first byte, and the bytes with their end."""
    begin, line = 0, b""
    for cycle, number, byte in run.bytes:
        if number != uart:
            continue
        begin = begin if line else cycle
        line += bytes([byte])
        if byte == 10:
            yield begin, line
            line = b""
    if line:
        yield begin, line + b"\n"


def tool():
    words = parser(__doc__)
    words.add_argument("run", nargs="?", help="the text of a run; standard input where none is named")
    words.add_argument("-u", "--uart", type=int, choices=(0, 1), default=0, help="the UART; 0 where none is named")
    words.add_argument("--times", action="store_true", help="the cycle of its first byte before each line")
    words.add_argument("--raw", action="store_true", help="the bytes as they are")
    given = words.parse_args()
    run = read_run(read_text(given.run))
    sent = run.sent(given.uart)
    if given.raw:
        write(None, sent)
    elif given.times:
        write(None, "".join(f"{cycle:>12} {shown(line)}" for cycle, line in lines_of(run, given.uart)))
    else:
        text = shown(sent)
        write(None, text + "\n" if text and text[-1] != "\n" else text)
    other = 1 - given.uart
    if not sent:
        more = f"; UART {other} did: --uart {other}" if run.sent(other) else ""
        say(f"UART {given.uart} sent nothing{more}")
    return tell_end(run)


if __name__ == "__main__":
    main(tool)
