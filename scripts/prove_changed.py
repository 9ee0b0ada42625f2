#!/usr/bin/env python3
"""Proves the crates that have changed, and those above them, several at once.

    scripts/prove_changed.py [--lanes N] [NAME ..]

Each crate is proved from nothing, as `rt ci` proves it, once those below it are. What passed is kept in crates/NAME/out, with a sum of
all files that it was made of, and a later run passes it over as long as these are the same. So after a failure is mended, only what
changed and what is above it is proved again; other crates are proved while one fails. With names, only these and what they stand on.
What `rt ci` keeps on the machine is taken, and what is proved here is kept for it, where the kit keeps anything (13f does).
It tries no edit and runs no program: `rt ci` does, and its verdict alone counts.

A line tells of each crate how long it took, how many are done, and how long the rest may take; what the prover says of a crate is in
crates/NAME/out/proof.log.
"""

import argparse
import copy
import hashlib
import importlib.machinery
import importlib.util
import os
import shutil
import sys
import threading
import time

BYTES_TO_LEAVE = 5_000_000_000
BYTES_FOR_ONE = 2_000_000_000


def load_rt():
    """The command `rt` as a module: it knows what a crate stands on, and how it is proved."""
    command = shutil.which(os.environ.get("RT", "rt")) or sys.exit("rt is not to be found: see CONTRIBUTING.md, Set up")
    sys.dont_write_bytecode = True
    sys.path.insert(0, os.path.dirname(os.path.realpath(command)))
    loader = importlib.machinery.SourceFileLoader("rt", os.path.realpath(command))
    module = importlib.util.module_from_spec(importlib.util.spec_from_loader("rt", loader))
    loader.exec_module(module)
    return module


rt = load_rt()
rtlib = rt.rtlib


def below(crate):
    """The libraries below a crate, each after those that it uses. It is worked out once: there are very many paths from the top down."""
    if not hasattr(crate, "known_below"):
        found = {}
        for dep in crate.deps:
            for it in [*below(dep), dep]:
                found.setdefault(it.name, it)
        crate.known_below = [*found.values()]
    return crate.known_below


def stamp(crate, known=None):
    """A sum of all that a crate is made of, like `rtlib.Crate.stamp`, which goes down every path anew."""
    known = {} if known is None else known
    if crate.name not in known:
        found = hashlib.sha256(repr((crate.said, crate.has_c)).encode())
        with open(f"{rtlib.KIT}/WHAT", "rb") as it:
            found.update(it.read())
        for file in rtlib.files_of(crate.folder):
            with open(file, "rb") as it:
                found.update(repr((file.replace(crate.folder, ""), it.read())).encode())
        found.update(repr([stamp(dep, known) for dep in crate.deps]).encode())
        known[crate.name] = found.hexdigest()
    return known[crate.name]


def lines_of(crate):
    if not hasattr(crate, "known_lines"):
        crate.known_lines = crate.count(rb"\n")
    return crate.known_lines


def read_crates(root):
    rt.Crate.cuts_libraries = True
    rt.Crate.allowed = rt.handles_of(root)
    rt.Crate.below, rt.Crate.stamp = below, stamp
    rtlib.Crate = rt.Crate
    # (its first call sets a signal's handler, which only the main thread may)
    rtlib.guarded()
    return {it.name: it for it in rtlib.crates_below(root)}


class Run:
    """Crates that are to be proved, those that are being proved with their jobs, and what has come of the others."""

    def __init__(self, crates, names, lanes):
        self.crates, self.lanes = crates, lanes
        # what `rt ci` keeps on this machine, where the kit keeps anything
        self.store = rt.Kept([*crates.values()]) if hasattr(rt, "Kept") else None
        wanted = {it for name in names for it in [name, *(dep.name for dep in below(crates[name]))]} or {*crates}
        self.proved = {it.name for it in crates.values() if self.is_kept(it)}
        self.left = [it for it in crates.values() if it.name in wanted and it.name not in self.proved]
        for name in self.proved if self.store else ():
            self.store.is_built(crates[name])
        self.failed, self.running, self.changed = set(), {}, threading.Condition(threading.RLock())
        self.total = len(wanted)
        self.begun, self.done = time.time(), 0
        # how much is still to be proved from a crate up, in lines: the longest row of crates goes first
        self.above = {name: 0 for name in crates}
        for it in sorted(crates.values(), key=lambda it: -len(below(it))):
            self.above[it.name] += lines_of(it)
            for dep in below(it):
                self.above[dep.name] = max(self.above[dep.name], self.above[it.name])

    @staticmethod
    def kept(crate):
        return f"{crate.folder}/out/proved_of"

    def is_kept(self, crate):
        return os.path.isfile(self.kept(crate)) and rtlib.text_of(self.kept(crate)) == stamp(crate)

    def takes(self, crate, key):
        """Takes what a run of `rt ci` on this machine kept of the same files over the same libraries, and answers whether it could."""
        return self.store is not None and self.store.give(crate, False, key)

    def passes(self, crate, jobs):
        """Whether the crate is proved from nothing."""
        with open(f"{crate.folder}/out/proof.log", "w", encoding="utf-8") as crate.out:
            try:
                return not (rtlib.fmt(crate.folder, "--check", crate.out) or crate.ci(["--jobs", str(jobs)], False))
            except SystemExit:
                return False

    def prove(self, crate, jobs):
        begun, crate = time.time(), copy.copy(crate)
        made_of, key = stamp(crate), self.store and self.store.key(crate)
        os.makedirs(f"{crate.folder}/out", exist_ok=True)
        is_taken = self.takes(crate, key)
        is_proved = is_taken or self.passes(crate, jobs)
        if is_proved:
            for file in [self.kept(crate)] + [f"{crate.folder}/out/rlib/stamp"] * (not crate.is_program):
                os.makedirs(os.path.dirname(file), exist_ok=True)
                with open(file, "w", encoding="utf-8") as it:
                    it.write(made_of)
        if is_proved and self.store:
            self.store.is_built(crate)
            if not is_taken:
                self.store.keep(crate, False, key)
        how = "was proved before on this machine" if is_taken else f"proved, {time.time() - begun:.0f} s, {jobs} jobs"
        with self.changed:
            del self.running[crate.name]
            (self.proved if is_proved else self.failed).add(crate.name)
            self.done += lines_of(crate)
            print(f"{self.state()}: {crate.name} {how if is_proved else f'NOT PROVED: see crates/{crate.name}/out/proof.log'}", flush=True)
            self.changed.notify_all()

    def state(self):
        """How far it is, and how long the rest takes by what is done, which is not told before a twentieth is."""
        left = sum(map(lines_of, [*self.left, *(self.crates[name] for name in self.running)]))
        minutes = (time.time() - self.begun) * left / max(self.done, 1) / 60
        text = f"{time.strftime('%H:%M:%S')} {self.total - len(self.left) - len(self.running) - len(self.failed)} of {self.total}"
        return f"{text}, some {minutes:.0f} minutes left" if self.done * 20 >= self.done + left > self.done else text

    def start_what_can(self):
        self.left.sort(key=lambda it: -self.above[it.name])
        ready = [it for it in self.left if all(dep.name in self.proved for dep in below(it))]
        memory = rt.free()
        for at, it in enumerate(ready):
            idle = self.lanes - sum(self.running.values())
            if idle <= 0 or self.running and memory < BYTES_TO_LEAVE:
                return
            memory -= BYTES_FOR_ONE
            # the row of crates that all others wait for gets most of what is idle
            jobs = min(3, idle) if at == 0 else max(1, min(4, idle // (len(ready) - at)))
            self.left.remove(it)
            self.running[it.name] = jobs
            threading.Thread(target=self.prove, args=(it, jobs), daemon=True).start()

    def work(self):
        with self.changed:
            while True:
                self.start_what_can()
                if not self.running:
                    break
                self.changed.wait(timeout=20)
        for it in self.left:
            print(f"{it.name} not tried: a crate below it is not proved")
        print(f"{self.total - len(self.failed) - len(self.left)} proved, {len(self.failed) + len(self.left)} not")
        return 1 if self.failed or self.left else 0


def main():
    parser = argparse.ArgumentParser(description=__doc__, formatter_class=argparse.RawDescriptionHelpFormatter)
    parser.add_argument("--lanes", type=int, default=len(os.sched_getaffinity(0)), help="how many jobs at once (default: processors)")
    parser.add_argument("names", nargs="*", metavar="NAME")
    said = parser.parse_args()
    os.chdir(os.path.dirname(os.path.dirname(os.path.abspath(__file__))))
    crates = read_crates(os.getcwd())
    unknown = [it for it in said.names if it not in crates]
    if unknown:
        sys.exit(f"no such crate: {' '.join(unknown)}")
    return Run(crates, said.names, said.lanes).work()


if __name__ == "__main__":
    sys.exit(main())
