#!/usr/bin/env python3
"""Runs a folder of cases in parallel, and compares what each prints.

    tools/cases.py examples/cases                                        one process for each processor
    tools/cases.py cases -j 2 --shard 1/4 --junit report.xml             the first quarter of them, two at a time, with a report

A case is a file NAME.args with the words of the program, one a line; files that they name are looked for in the folder where this is
run. NAME.stdin is its input (nothing where there is none), NAME.stdout the whole text that it has to print, and NAME.status the status
that it has to end with (0 where there is none). A case without a text fails; --write makes the texts that are missing.

Statuses: 0; 1 where a case fails; 2 where there is no case, or the words are wrong.
"""
from __future__ import annotations

import argparse
import concurrent.futures
import difflib
import os
import subprocess
import sys
import time
from dataclasses import dataclass
from xml.sax.saxutils import escape, quoteattr

sys.path.insert(0, os.path.dirname(os.path.abspath(__file__)))
from runs import NOT_BUILT, TOP, Refused, is_built, main, parser, ran, say, write  # noqa: E402

SHOWN = 20  # lines of a difference


@dataclass
class Case:
    """A case by its name, and its files without their endings."""

    name: str
    path: str

    def part(self, ending):
        """The bytes of a file of the case; None where it is not there."""
        try:
            with open(self.path + ending, "rb") as file:
                return file.read()
        except FileNotFoundError:
            return None


@dataclass
class Done:
    """How a case went: what is wrong, if anything, and how long it took."""

    case: Case
    wrong: str | None
    seconds: float
    is_written: bool = False


def difference(wanted, got):
    """The lines in which two texts differ, the first of them."""
    sides = [text.decode(errors="backslashreplace").splitlines() for text in (wanted, got)]
    lines = list(difflib.unified_diff(*sides, "wanted", "got", n=1, lineterm=""))
    more = [f".. {len(lines) - SHOWN} lines more"] if len(lines) > SHOWN else []
    ends = "the lines that are wanted end with CR and LF" if b"\r\n" in wanted else "they differ in how the last line ends"
    return "\n".join(lines[:SHOWN] + more) or ends


def tried(case, program, seconds, is_writing):
    """Runs a case."""
    begin = time.monotonic()
    words = case.part(".args").decode(errors="surrogateescape").splitlines()
    wanted, number = case.part(".stdout"), (case.part(".status") or b"0").strip()
    wrong, is_written = None, False
    if not number.isdigit():
        return Done(case, f"{case.path}.status is no number", 0)
    status = int(number)
    try:
        got, out, told = ran([program, *words], seconds, case.part(".stdin") or b"", subprocess.PIPE)
    except subprocess.TimeoutExpired:
        wrong = f"it did not end within {seconds} seconds"
    else:
        told = told.decode(errors="replace").strip()[-500:]
        if got != status:
            wrong = f"its status is {got}, not {status}" + (f"\n{told}" if told else "")
            if words and " " in words[0]:
                wrong += f"\nin {case.path}.args each word has to stand on a line of its own"
        elif wanted is None and is_writing:
            write(case.path + ".stdout", out)
            is_written = True
        elif wanted is None:
            wrong = f"there is no {case.path}.stdout; --write makes it"
        elif out != wanted:
            wrong = f"it does not print {case.path}.stdout\n{difference(wanted, out)}"
    return Done(case, wrong, time.monotonic() - begin, is_written)


def junit(folder, results):
    """The report of a run as JUnit XML."""
    failed = sum(done.wrong is not None for done in results)
    seconds = sum(done.seconds for done in results)
    out = ['<?xml version="1.0" encoding="UTF-8"?>']
    out.append(f'<testsuite name={quoteattr(folder)} tests="{len(results)}" failures="{failed}" time="{seconds:.3f}">')
    for done in results:
        head = f'  <testcase classname={quoteattr(folder)} name={quoteattr(done.case.name)} time="{done.seconds:.3f}"'
        if done.wrong is None:
            out.append(head + "/>")
            continue
        text = "".join(c if c in "\n\t" or c >= " " else f"\\x{ord(c):02x}" for c in done.wrong)
        out.append(f"{head}><failure message={quoteattr(text.splitlines()[0])}>{escape(text)}</failure></testcase>")
    return "\n".join(out) + "\n</testsuite>\n"


def cases_in(folder):
    """The cases of a folder by their names."""
    if not os.path.isdir(folder):
        raise Refused(f"{folder} is no folder", 2)
    names = sorted(name[:-5] for name in os.listdir(folder) if name.endswith(".args"))
    if not names:
        raise Refused(f"{folder} has no case: a file NAME.args with the words of the program, one a line", 2)
    return [Case(name, os.path.join(folder, name)) for name in names]


def shard(text):
    """A part of the cases, as 1/4."""
    number, count = (int(word) for word in text.split("/"))
    if not 1 <= number <= count:
        raise ValueError
    return number, count


def count(text):
    number = int(text)
    if number < 1:
        raise ValueError
    return number


def tool():
    words = parser(__doc__)
    words.add_argument("folder", help="the folder of the cases")
    words.add_argument("-j", "--jobs", type=count, default=os.cpu_count() or 1, help="how many run at a time; one a processor where none is given")
    words.add_argument("--shard", type=shard, default=(1, 1), metavar="I/N", help="each N-th case alone, from the I-th on")
    words.add_argument("--junit", metavar="FILE", help="writes a report in JUnit's XML")
    words.add_argument("--program", default=f"{TOP}/pico", help="the program; ./pico of this repository where none is named")
    words.add_argument("--seconds", type=count, default=600, help="how long a case may run")
    words.add_argument("--write", action="store_true", help="makes the texts that are missing")
    words.add_argument("--quiet", action="store_true", help=argparse.SUPPRESS)
    given = words.parse_args()
    number, of = given.shard
    cases = cases_in(given.folder)[number - 1::of]
    if not os.access(given.program, os.X_OK) or os.path.isdir(given.program):
        raise Refused(f"{given.program} is no program", 2)
    program = os.path.abspath(given.program)
    if program == f"{TOP}/pico" and not is_built():
        raise Refused(NOT_BUILT, 2)
    if given.junit and not os.path.isdir(os.path.dirname(os.path.abspath(given.junit))):
        raise Refused(f"{given.junit} cannot be written: there is no such folder", 2)
    results = []
    with concurrent.futures.ThreadPoolExecutor(given.jobs) as pool:
        waiting = [pool.submit(tried, case, program, given.seconds, given.write) for case in cases]
        for future in concurrent.futures.as_completed(waiting):
            done = future.result()
            results.append(done)
            if sys.stderr.isatty():
                print(f"\r{len(results)} of {len(cases)}", end="\n" if len(results) == len(cases) else "", file=sys.stderr, flush=True)
            if done.wrong is not None:
                print(f"{done.case.name}: {done.wrong}", flush=True)
            elif done.is_written:
                say(f"{done.case.path}.stdout is written; look at it")
    results.sort(key=lambda done: done.case.name)
    if given.junit:
        write(given.junit, junit(given.folder, results))
    failed = sum(done.wrong is not None for done in results)
    print(f"{len(results) - failed} passed, {failed} failed")
    return 1 if failed else 0


if __name__ == "__main__":
    main(tool)
