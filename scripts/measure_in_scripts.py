#!/usr/bin/env python3
"""What a transaction on a queue or a priority queue costs in scripts, by how much it holds, and what a copy takes.

    scripts/measure_in_scripts.py PROGRAM

PROGRAM is proust_tool (`scripts/build_unproved.sh --fast proust_tool PROGRAM`). Each row is a difference: of the processor time
of a script with so many transactions and of its header alone, and of the most memory that 64 actors with an open transaction
each take and that one takes.
"""
import heapq
import subprocess
import sys
import tempfile

TRANSACTIONS = 20_000
ACTORS = 64


def header(kind, holds):
    if kind == "queue":
        return "queue 1 " + " ".join(["7"] * holds) + "\n"
    return "pq 1 " + " ".join(f"{element}:1" for element in range(holds)) + "\n"


def later(element, by):
    """As `measure bases` has it."""
    return element + (element * 11_400_714_819_323_198_485 % 2**64 >> 20) % by + 1


def turns(kind, put, holds):
    elements = list(range(holds))
    lines = []
    for _ in range(TRANSACTIONS):
        if kind == "queue":
            calls = ["dequeue", "enqueue 7"]
        else:
            least = elements[0]
            back = later(least, holds) if put == "later" else least
            heapq.heapreplace(elements, back)
            calls = ["take_least", f"insert {back}"]
        lines += ["1 do begin"] + [f"1 do call 0 {call}" for call in calls] + ["1 do commit"]
    return "\n".join(lines) + "\n"


def opened(kind, actors):
    look = "peek" if kind == "queue" else "least"
    return "".join(f"{actor} do begin\n{actor} do call 0 {look}\n" for actor in range(1, actors + 1))


def used(program, text):
    """The processor seconds, and the most memory in KB. GNU time starts the program, whose figure else begins with what Python has."""
    with tempfile.NamedTemporaryFile("w", suffix=".steps") as file, tempfile.NamedTemporaryFile("r") as told:
        file.write(text)
        file.flush()
        words = ["/usr/bin/time", "-f", "%U %S %M", "-o", told.name, program, "step", file.name]
        subprocess.run(words, stdout=subprocess.DEVNULL, check=True)
        user, system, kilobytes = told.read().split()
    return float(user) + float(system), int(kilobytes)


def main():
    if len(sys.argv) != 2:
        sys.exit(__doc__)
    program = sys.argv[1]
    for kind, put in (("queue", "it"), ("pq", "it"), ("pq", "later")):
        for holds in (1_000, 1_000_000):
            head = header(kind, holds)
            microseconds = (used(program, head + turns(kind, put, holds))[0] - used(program, head)[0]) / TRANSACTIONS * 1e6
            print(f"{kind},{put},{holds},{microseconds:.1f} microseconds a transaction")
    for kind in ("queue", "pq"):
        for holds in (1_000, 1_000_000):
            head = header(kind, holds)
            more = used(program, head + opened(kind, ACTORS))[1] - used(program, head + opened(kind, 1))[1]
            print(f"{kind},{holds},{more / (ACTORS - 1):.1f} KB a copy")


main()
