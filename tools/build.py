#!/usr/bin/env python3
"""Proves and builds the program: tools/build.py [--jobs N]

The crates of the program are proved from the lowest, several at a time (as many as there are processors, as far as there are 2.5 GB of memory
for each, or as RT_JOBS says). The library of each that is proved is kept in crates/pico_main/out/libraries, so it is not proved again until
it or one below it changes. How far it is goes to standard error, all that the proofs print to crates/pico_main/out/build.log. Where a build
runs already, this one waits for it. The program that was there stays until the new one is linked.
Status 0: the program stands in crates/pico_main/out/pico_main; 1: it does not.
"""
import fcntl
import os
import signal
import subprocess
import sys
import time

import libraries

TOP = libraries.TOP
MAIN = "pico_main"
OUT = f"{TOP}/crates/{MAIN}/out"
PROGRAM, LOG, STORE = f"{OUT}/{MAIN}", f"{OUT}/build.log", f"{OUT}/libraries"


def say(text):
    print(f"pico: {text}", file=sys.stderr, flush=True)


def size(crate):
    """The bytes of a crate's sources, by which its proof is reckoned."""
    return sum(os.path.getsize(file) for file in libraries.sources(crate))


def heights(order):
    """For each crate, what the proofs on each other from it upwards cost at most, in bytes of sources: the tallest are begun first. A proof
    also reads what is below, at about a sixth of what it costs to prove it."""
    sizes = {crate: size(crate) for crate in order}
    costs = {crate: sizes[crate] + sum(sizes[each] for each in libraries.below(crate)) // 6 for crate in order}
    tall = dict(costs)
    for crate in reversed(order):
        for library in libraries.below(crate):
            tall[library] = max(tall[library], costs[library] + tall[crate])
    return tall


def memory():
    """How many proofs of 2.5 GB there is room for."""
    try:
        with open("/proc/meminfo") as lines:
            free = next(int(line.split()[1]) for line in lines if line.startswith("MemAvailable:"))
        return max(1, free // 2621440)
    except (OSError, StopIteration):
        return 1


def at_a_time(words):
    asked = words[words.index("--jobs") + 1 :][:1] if "--jobs" in words else [os.environ.get("RT_JOBS", "")]
    if asked and asked[0].isdigit() and int(asked[0]) > 0:
        return int(asked[0])
    return min(os.cpu_count() or 1, memory())


class Build:
    """The proofs that run, those that wait, and those that are done."""

    def __init__(self, jobs, log):
        self.order = [*libraries.below(MAIN), MAIN]
        self.jobs, self.log = jobs, log
        self.tall = heights(self.order)
        self.done = {crate for crate in self.order if libraries.is_kept(STORE, crate)}
        self.waiting = [crate for crate in self.order if crate not in self.done and crate != MAIN]
        self.running = {}
        self.begun = time.monotonic()

    def minutes(self):
        return int((time.monotonic() - self.begun) / 60)

    def left(self, ready):
        """How many processors no proof could take before the tallest of those that are ready has ended."""
        room = self.jobs - sum(jobs for _, jobs, _ in self.running.values())
        others = [crate for crate in self.waiting if ready[0] not in [*libraries.below(crate), crate]]
        return max(0, room - 1 - len(others))

    def start(self):
        """Begins what can be begun, each proof on one processor, for each further one reads the libraries below anew; the tallest also on
        those that would have nothing to do."""
        ready = [crate for crate in self.waiting if all(library in self.done for library in libraries.below(crate))]
        ready.sort(key=lambda crate: -self.tall[crate])
        more = self.left(ready) if ready else 0
        for crate in ready[: self.jobs - sum(jobs for _, jobs, _ in self.running.values())]:
            jobs, more = 1 + more, 0
            out = open(f"{self.log.name}.{crate}", "w+")
            words = [sys.executable, f"{TOP}/tools/libraries.py", STORE, crate, "--jobs", str(jobs)]
            process = subprocess.Popen(words, stdin=subprocess.DEVNULL, stdout=out, stderr=subprocess.STDOUT, start_new_session=True)
            self.running[crate] = (process, jobs, out)
            self.waiting.remove(crate)

    def leave(self, crate):
        """Takes a proof that ended away, with what it printed; whether it is proved."""
        process, _, out = self.running.pop(crate)
        out.seek(0)
        self.log.write(f"== {crate}\n{out.read()}")
        self.log.flush()
        out.close()
        os.remove(out.name)
        return process.returncode == 0

    def end(self, crate):
        """A proof has ended: whether it is proved."""
        if not self.leave(crate):
            say(f"{crate} was not proved")
            return False
        self.done.add(crate)
        say(f"crate {len(self.done)} of {len(self.order)} ({crate}) after {self.minutes()} minutes")
        return True

    def stop(self):
        for crate, (process, _, _) in list(self.running.items()):
            os.killpg(process.pid, signal.SIGTERM)
            process.wait()
            self.leave(crate)

    def prove(self):
        """Proves all crates below the program."""
        try:
            while self.waiting or self.running:
                self.start()
                time.sleep(0.2)
                for crate in [crate for crate, (process, _, _) in self.running.items() if process.poll() is not None]:
                    if not self.end(crate):
                        return False
            return True
        finally:
            self.stop()

    def link(self):
        """Proves the program itself, compiles it and links it."""
        say(f"linking after {self.minutes()} minutes")
        kit = libraries.kit()
        tools = ["--toolchain", f"{kit}/toolchain"]
        compiles = [*libraries.command(kit, "build", STORE, MAIN, str(self.jobs)), "--links", f"{MAIN}=", *tools, "-o", "out/new.o"]
        links = [f"{kit}/bin/rattle-link", "--target", "x86_64-unknown-linux-gnu", *tools, "-o", "out/new", "out/new.o"]
        for words in (compiles, [*links, f"{kit}/c/libos_c.a", f"{kit}/c/liblibc_c.a"]):
            if subprocess.run(words, cwd=f"{TOP}/crates/{MAIN}", stdin=subprocess.DEVNULL, stdout=self.log, stderr=subprocess.STDOUT).returncode:
                return False
        os.replace(f"{OUT}/new", PROGRAM)
        os.remove(f"{OUT}/new.o")
        libraries.forget(STORE, self.order)
        return True


def is_alone(lock):
    """Whether no other build runs; where one does, it is waited for."""
    try:
        fcntl.flock(lock, fcntl.LOCK_EX | fcntl.LOCK_NB)
    except BlockingIOError:
        say("the program is being built already; waiting for that build")
        fcntl.flock(lock, fcntl.LOCK_EX)
        return False
    return True


def interrupt(*_):
    raise KeyboardInterrupt


def main():
    words = sys.argv[1:]
    if "-h" in words or "--help" in words:
        print(__doc__.strip())
        return 0
    for number in (signal.SIGTERM, signal.SIGHUP):
        signal.signal(number, interrupt)
    os.makedirs(STORE, exist_ok=True)
    begun = time.time()
    with open(f"{OUT}/build.lock", "w") as lock:
        if is_alone(lock):
            return build(at_a_time(words))
    if os.path.exists(PROGRAM) and os.path.getmtime(PROGRAM) >= begun:
        return 0
    say(f"that build did not make the program; log: {LOG}")
    return 1


def build(jobs):
    """Builds the program; the status."""
    with open(LOG, "w") as log:
        made = Build(jobs, log)
        say(f"proving and building the program, {len(made.order)} crates, {made.jobs} at a time; log: {LOG}")
        try:
            if made.prove() and made.link():
                say(f"built in {made.minutes()} minutes")
                return 0
        except KeyboardInterrupt:
            say("interrupted; what is proved is kept")
            return 1
    with open(LOG) as log:
        text = log.read()
    say(f"the program was not built; the last lines of {LOG}:")
    print("\n".join(text.splitlines()[-15:]), file=sys.stderr)
    if "killed" in text:
        say("a proof was killed, most likely for memory: RT_JOBS=1 proves one crate after the other")
    return 1


if __name__ == "__main__":
    try:
        sys.exit(main())
    except KeyboardInterrupt:
        sys.exit(1)
