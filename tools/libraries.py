#!/usr/bin/env python3
"""Proves a crate and keeps its library: tools/libraries.py STORE CRATE [--jobs N]

A library is kept in the folder STORE once for each text of the crate's files and of those below it; the libraries below have to be there
already. It holds what other crates can cite, without the proofs, so that a proof above it reads little. tools/build.py and .ci/quick go by it.
Status 0: the library is in the store.
"""
import argparse
import fcntl
import hashlib
import os
import shutil
import signal
import subprocess
import sys
import tempfile

TOP = os.path.dirname(os.path.dirname(os.path.abspath(__file__)))


def crates():
    """The libraries that each crate uses, by crates.txt."""
    used = {}
    with open(f"{TOP}/crates.txt") as lines:
        for line in lines:
            name, colon, rest = line.partition("#")[0].partition(":")
            if colon:
                used[name.split()[0]] = rest.split()
    return used


USED = crates()


def below(crate):
    """The crates of this repository that it stands on, lowest first."""
    found = {}
    for library in USED[crate]:
        if library in USED:
            found.update(dict.fromkeys([*below(library), library]))
    return list(found)


def sources(crate):
    """The files that a check of it reads."""
    return sorted(
        f"{folder}/{file}"
        for part in ("src", "specs", "proofs")
        for folder, _, files in os.walk(f"{TOP}/crates/{crate}/{part}")
        for file in files
        if file.endswith((".rt", ".antt"))
    )


def key(crate, known={}):
    """A sum over its files and those below it."""
    if crate not in known:
        total = hashlib.sha256()
        for file in sources(crate):
            with open(file, "rb") as data:
                total.update(os.path.relpath(file, TOP).encode() + b"\0" + data.read() + b"\0")
        for library in USED[crate]:
            if library in USED:
                total.update(key(library).encode())
        known[crate] = total.hexdigest()[:20]
    return known[crate]


def folder(store, crate):
    return f"{store}/{crate}-{key(crate)}"


def is_kept(store, crate):
    return os.path.exists(f"{folder(store, crate)}/{crate}.rlib")


def kit():
    """The folder of the kit."""
    if not shutil.which("rt"):
        sys.exit("libraries: the command rt of the Rattle kit is not on the PATH")
    page = subprocess.run(["rt", "doc"], stdout=subprocess.PIPE, text=True, check=True).stdout.strip()
    return os.path.dirname(page)


def command(kit, verb, store, crate, jobs, from_sources=False):
    """The words of a check, or of a build."""
    words = [f"{kit}/bin/rattle", verb, "--crate-name", crate]
    words.append("src/lib.rt" if os.path.exists(f"{TOP}/crates/{crate}/src/lib.rt") else "src/main.rt")
    kits = {library for each in ([crate, *below(crate)] if from_sources else [crate]) for library in USED[each] if library not in USED}
    for library in ["std", *sorted(kits)]:
        words += ["--extern", f"{library}={kit}/rlibs/{library}.rlib"]
    words += ["-L", f"dependency={kit}/rlibs"]
    for library in below(crate):
        if from_sources:
            words += ["--lib", f"{library}:{','.join(['std', *USED[library]])}={TOP}/crates/{library}/src/lib.rt"]
        else:
            if library in USED[crate]:
                words += ["--extern", f"{library}={folder(store, library)}/{library}.rlib"]
            words += ["-L", f"dependency={folder(store, library)}"]
    return words + [
        "--antt-project", f"{kit}/rattle/logic/antt-project.json", "--logic-built", f"{kit}/logic_built", "--jobs", jobs,
    ]


def keep(kit, store, crate, jobs):
    """Proves a crate and keeps its library, unless it is kept already; the status, and what the proof printed."""
    place = folder(store, crate)
    os.makedirs(place, exist_ok=True)
    with open(f"{place}/lock", "w") as lock:
        fcntl.flock(lock, fcntl.LOCK_EX)
        if is_kept(store, crate):
            return 0, ""
        with tempfile.TemporaryDirectory(dir=place) as made:
            words = [*command(kit, "build", store, crate, jobs), "--links", f"{crate}=", "--statements", "-o", f"{made}/rlib"]
            done = subprocess.run(words, cwd=f"{TOP}/crates/{crate}", stdout=subprocess.PIPE, stderr=subprocess.STDOUT, text=True)
            if done.returncode == 0:
                os.rename(f"{made}/rlib", f"{place}/{crate}.rlib")
            return done.returncode, done.stdout


def forget(store, crates):
    """Removes the libraries of other texts."""
    names = {os.path.basename(folder(store, crate)) for crate in crates}
    for name in os.listdir(store):
        if name not in names:
            shutil.rmtree(f"{store}/{name}", ignore_errors=True)


def main():
    parser = argparse.ArgumentParser(description=__doc__.strip(), formatter_class=argparse.RawDescriptionHelpFormatter)
    parser.add_argument("store", metavar="STORE", type=os.path.abspath)
    parser.add_argument("crate", metavar="CRATE", choices=USED)
    parser.add_argument("--jobs", metavar="N", default="1")
    words = parser.parse_args()
    signal.signal(signal.SIGTERM, lambda *_: sys.exit(1))
    status, text = keep(kit(), words.store, words.crate, words.jobs)
    print(text, end="")
    return status


if __name__ == "__main__":
    sys.exit(main())
