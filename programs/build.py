#!/usr/bin/env python3
"""Proves, compiles and runs a program, as `programs/build.py tpcc script < examples/first_payment.txt`: the words behind its name are its own.

It ends in `rt run`, which alone would prove one crate after another, and rt proves one crate at a time in a checkout. So here as many scratch copies as
there are processors prove one crate each, as soon as those that it stands on are proved, the longest chain first; the library that a copy made is
linked into the others and into this checkout, where rt looks that it was made of these files. The copies lie beside this checkout and go at the
end. With nothing new to prove it takes a minute or two; where a crate is not proved it says so and ends with status 1.
"""
import os
import shutil
import subprocess
import sys
import tempfile
import threading
import time

TOP = os.path.dirname(os.path.dirname(os.path.abspath(__file__)))
# What a check takes at most, in bytes.
MEMORY = 3_500_000_000
# Each job of a check reads all that lies below its crate: where that is over so many times as long as the crate, one job does nearly as well.
MOST_BELOW = 8
# More jobs than these cost a crate more processor time than they save seconds.
MOST_JOBS = 2


def crates():
    """The crates of crates.txt, each with those of them that it stands on."""
    with open(f"{TOP}/crates.txt", encoding="utf-8") as it:
        lines = [line.partition(":") for line in it if line.strip() and not line.startswith("#")]
    uses = {head.split()[0]: rest.split() for head, _, rest in lines}
    return {name: [it for it in below if it in uses] for name, below in uses.items()}


def all_below(uses, name):
    return {name}.union(*[all_below(uses, it) for it in uses[name]])


def lines_of(name):
    found = [f"{at}/{it}" for at, _, files in os.walk(f"{TOP}/crates/{name}") for it in files if it.endswith((".rt", ".antt")) and "/out/" not in f"{at}/"]
    return sum(open(it, "rb").read().count(b"\n") for it in found)


def chains(uses, names):
    """How many lines the longest chain of crates from each one upwards has."""
    above = {name: [it for it in names if name in uses[it]] for name in names}
    known = {}

    def length(name):
        if name not in known:
            known[name] = lines_of(name) + max(map(length, above[name]), default=0)
        return known[name]

    return {name: length(name) for name in names}


class Build:
    """The libraries that are still to be proved, and those that are."""

    def __init__(self, uses, program, processors):
        self.uses, self.left = uses, all_below(uses, program) - {program}
        self.chain = chains(uses, self.left | {program})
        self.high = {it for it in self.left if sum(map(lines_of, all_below(uses, it) - {it})) > MOST_BELOW * lines_of(it)}
        self.begun, self.done, self.failed, self.free = set(), set(), False, processors
        self.changed, self.start = threading.Condition(), time.monotonic()

    def ready(self):
        found = [it for it in self.left - self.begun if self.done.issuperset(self.uses[it])]
        return sorted(found, key=self.chain.get)

    def is_over(self):
        return self.failed or self.begun == self.left

    def take(self):
        """The next crate, and how many processors it gets: one, or two where the longest chain waits for it and it isn't high. None once nothing is left."""
        with self.changed:
            self.changed.wait_for(lambda: self.is_over() or (self.free > 0 and self.ready()))
            if self.is_over():
                return None
            name = self.ready()[-1]
            is_first = self.chain[name] == max(self.chain[it] for it in self.left - self.done)
            jobs = min(MOST_JOBS, self.free) if is_first and name not in self.high else 1
            self.begun.add(name)
            self.free -= jobs
            return name, jobs

    def work(self, copy, others):
        """Proves crates in a copy, and gives each library to the other checkouts, until no crate is left."""
        while taken := self.take():
            name, jobs = taken
            words = ["rt", "lib", "--jobs", str(jobs)]
            ran = subprocess.run(words, cwd=f"{copy}/crates/{name}", stdin=subprocess.DEVNULL, stdout=subprocess.PIPE, stderr=subprocess.STDOUT, check=False)
            if not ran.returncode:
                give(name, copy, others)
            with self.changed:
                self.done.add(name)
                self.free += jobs
                self.failed = self.failed or ran.returncode != 0
                said = f"{name} {'proved' if not ran.returncode else 'NOT PROVED'}, {len(self.done)} of {len(self.left)}"
                print(f"build: {said}, {time.monotonic() - self.start:.0f} s", file=sys.stderr, flush=True)
                if ran.returncode:
                    sys.stderr.write(ran.stdout.decode(errors="replace"))
                self.changed.notify_all()


def processors():
    """How many processors there are, or as many as memory is for."""
    with open("/proc/meminfo", encoding="utf-8") as it:
        free = next(int(line.split()[1]) * 1024 for line in it if line.startswith("MemAvailable"))
    return max(1, min(len(os.sched_getaffinity(0)), free // MEMORY))


def copies(room, number):
    """The scratch copies, with the libraries that this checkout has."""
    made = [f"{room}/{it}" for it in range(number)]
    for copy in made:
        shutil.copytree(f"{TOP}/crates", f"{copy}/crates", ignore=shutil.ignore_patterns("out"))
        for file in ("crates.txt", "HANDLES"):
            shutil.copy(f"{TOP}/{file}", copy)
    for name in crates():
        give(name, TOP, made)
    return made


def give(name, copy, others):
    """Links a crate's library, if it has one, into the other checkouts."""
    made = f"crates/{name}/out/rlib"
    if os.path.isdir(f"{copy}/{made}"):
        for other in others:
            shutil.rmtree(f"{other}/{made}", ignore_errors=True)
            shutil.copytree(f"{copy}/{made}", f"{other}/{made}", copy_function=os.link)


def main():
    program, *words = sys.argv[1:] or [""]
    if not os.path.isfile(f"{TOP}/crates/{program}/src/main.rt"):
        sys.exit("usage: programs/build.py PROGRAM [WORD ..], where PROGRAM is tpcc")
    room = tempfile.mkdtemp(prefix="tpcc-build-", dir=os.path.dirname(TOP))
    try:
        number = processors()
        build = Build(crates(), program, number)
        made = copies(room, number)
        lanes = [threading.Thread(target=build.work, args=(copy, [TOP, *made[:it], *made[it + 1 :]])) for it, copy in enumerate(made)]
        for lane in lanes:
            lane.start()
        for lane in lanes:
            lane.join()
        if build.failed:
            return 1
        return subprocess.run(["rt", "run", "--jobs", "1", "--", *words], cwd=f"{TOP}/crates/{program}", check=False).returncode
    finally:
        shutil.rmtree(room, ignore_errors=True)


if __name__ == "__main__":
    sys.exit(main())
