#!/usr/bin/env python3
"""Where the time of a run of the gate goes, by crate.

    scripts/gate_times.py sample SECONDS [FOLDER ..] > LOG    beside `rt ci` or `rt must-fail`, until it is stopped
    scripts/gate_times.py table LOG                           processor minutes by crate, the dearest first
    scripts/gate_times.py each LOG [NAME ..]                  processor and wall seconds of each process, of these crates

The sampler looks every so many seconds at the prover's processes that a run in this repository started, or one in the checkouts FOLDER ..
that share its work, and writes a line for each: the time, the process, when it started, the processor time that it has had, what it works
at (proof, tests or edits) and for which crate. What a process works after the last look at it is lost, so SECONDS is small, 1 or 2. A line
with # says how much of the processors' time was used since the line before, and how much the machine's host took for others: the same
proof then takes more minutes.
"""

import collections
import os
import re
import sys
import time

HERTZ = os.sysconf("SC_CLK_TCK")


def stat_of(pid):
    """The parent of a process, when it started, and the processor time that it and its ended children have had, in ticks."""
    with open(f"/proc/{pid}/stat") as file:
        words = file.read().rpartition(")")[2].split()
    return int(words[1]), int(words[19]), sum(int(it) for it in words[11:15])


def provers():
    """The stats of all processes of the prover."""
    found = {}
    for pid in filter(str.isdigit, os.listdir("/proc")):
        try:
            if os.path.basename(os.readlink(f"/proc/{pid}/exe")) == "rattle":
                found[int(pid)] = stat_of(pid)
        except OSError:
            pass
    return found


def folders_of(pid):
    """Where a process works, and where it was started: `rt ci` moves into a copy of its own."""
    yield os.readlink(f"/proc/{pid}/cwd")
    with open(f"/proc/{pid}/environ", errors="replace") as file:
        yield from (it[4:] for it in file.read().split("\0") if it.startswith("PWD="))


def is_ours(pid, roots):
    """Whether the process, or one that started it, works or was started at the top of such a repository or in one of its crates."""
    while pid > 1:
        for at in folders_of(pid):
            if any(at == root or at.startswith(f"{root}/crates/") for root in roots):
                return True
        pid = stat_of(pid)[0]
    return False


def look(roots):
    """A line for each process. The prover hands parts of its work to processes of its own: their time is its time."""
    found = provers()
    for pid, (parent, started, spent) in found.items():
        try:
            with open(f"/proc/{pid}/cmdline") as file:
                words = file.read().replace("\0", " ")
            name = re.search(r"--crate-name (\w+)", words)
            if parent in found or not name or not is_ours(pid, roots):
                continue
            at = os.readlink(f"/proc/{pid}/cwd")
        except OSError:
            continue
        kind = "edits" if "/rt-edit" in at else "tests" if " --test " in words else "proof"
        spent += sum(of_child for above, _, of_child in found.values() if above == pid)
        yield f"{time.time():.0f} {pid} {started} {spent / HERTZ} {kind} {name[1]}"


def processors():
    """The ticks that all processors were used, idle or taken by the host."""
    with open("/proc/stat") as file:
        user, nice, system, idle, waits, irq, soft, stolen = (int(it) for it in file.readline().split()[1:9])
    return user + nice + system + irq + soft, idle + waits, stolen


def sample(seconds, roots):
    before, looks = processors(), 0
    while True:
        for line in look(roots):
            print(line, flush=True)
        time.sleep(seconds)
        looks += 1
        if looks * seconds >= 60:
            now = processors()
            used, idle, stolen = (a - b for a, b in zip(now, before))
            print(f"# {time.time():.0f} {used / HERTZ:.0f} {idle / HERTZ:.0f} {stolen / HERTZ:.0f}", flush=True)
            before, looks = now, 0


def read(log):
    """What each process has had at last, with when it was first and last seen; and the seconds used, idle and taken by the host."""
    spent, seen, sums = {}, {}, [0, 0, 0]
    with open(log) as file:
        for words in (line.split() for line in file):
            if words[:1] == ["#"]:
                sums = [a + int(b) for a, b in zip(sums, words[2:])]
            elif len(words) == 6:
                at, key = int(words[0]), tuple(words[1:3] + words[4:])
                spent[key] = float(words[3])
                seen[key] = (seen.get(key, (at, at))[0], at)
    return spent, seen, sums


def table(log):
    spent, seen, (used, idle, stolen) = read(log)
    crates, every = collections.defaultdict(collections.Counter), collections.Counter()
    for (_, _, kind, name), seconds in spent.items():
        crates[name][kind] += seconds / 60
        every[kind] += seconds / 60
    print("| crate | proof | tests | edits | together |\n|---|---|---|---|---|")
    for name, of in [*sorted(crates.items(), key=lambda it: -sum(it[1].values())), ("all", every)]:
        print(f"| {name} | {of['proof']:.1f} | {of['tests']:.1f} | {of['edits']:.1f} | {sum(of.values()):.1f} |")
    first, last = min(it[0] for it in seen.values()), max(it[1] for it in seen.values())
    print(f"\n{(last - first) / 60:.0f} minutes from the first sample to the last.", end="")
    print(f" The host took {100 * stolen / (used + stolen):.0f} percent of what was asked of the processors." if used + stolen else "")


def each(log, names):
    spent, seen, _ = read(log)
    for key, (first, last) in sorted(seen.items(), key=lambda it: it[1]):
        if not names or key[3] in names:
            print(f"{key[3]} {key[2]}: {spent[key]:.0f} s of a processor in {last - first} s")


def main():
    verb, rest = (sys.argv[1], sys.argv[2:]) if len(sys.argv) > 2 else ("", [])
    if verb == "sample":
        here = os.path.dirname(os.path.dirname(os.path.realpath(__file__)))
        sample(float(rest[0]), [os.path.realpath(it) for it in rest[1:]] or [here])
    elif verb == "table" and len(rest) == 1:
        table(rest[0])
    elif verb == "each":
        each(rest[0], rest[1:])
    else:
        sys.exit(__doc__)


if __name__ == "__main__":
    main()
