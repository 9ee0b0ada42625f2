#!/usr/bin/env python3
"""look_at_examples.py: each public call of `wolimevar` has an example in its docs, whose lines one function of
crates/client_tests/src/examples.rt has in this order. So each example is compiled, proved and run, though the toolchain runs none in docs."""
import os
import re
import sys

TOP = os.path.dirname(os.path.dirname(os.path.abspath(__file__)))
SOURCES = [f"{TOP}/crates/{it}/src" for it in ("tx_handles", "tx_client", "wolimevar")]
# What no service can name, or make the arguments of.
BELOW = ("calls.rt", "caller.rt", "gates.rt", "runner.rt")
# Made by the library alone.
MADE_BELOW = {("contents_over.rt", "new")}
EXAMPLES = f"{TOP}/crates/client_tests/src/examples.rt"


def calls_of(path):
    """The public calls of a file, each with its example: functions of an `impl`, and those of a public trait."""
    docs, in_trait = [], False
    for line in open(path, encoding="utf-8"):
        bare = line.strip()
        if re.match(r"\S", line):
            in_trait = line.startswith("pub trait ")
        if bare.startswith("///"):
            docs.append(bare[3:].removeprefix(" "))
            continue
        call = re.match(r"    (pub )?fn (\w+)", line)
        if call and (call[1] or in_trait):
            marks = [place for place, it in enumerate(docs) if it == "```"]
            yield call[2], docs[marks[0] + 1:marks[1]] if len(marks) == 2 else []
        if not bare.startswith("#["):
            docs = []


def functions(path):
    """The lines of each function, without their margin."""
    lines = [it.strip() for it in open(path, encoding="utf-8")]
    starts = [place for place, it in enumerate(lines) if re.match(r"(pub )?fn ", it)]
    return [lines[start:end] for start, end in zip(starts, starts[1:] + [len(lines)])]


def stands_in(example, function):
    rest = iter(function)
    return all(it.strip() in rest for it in example)


def main():
    run, bad = functions(EXAMPLES), 0
    for name, path in sorted((name, f"{it}/{name}") for it in SOURCES for name in os.listdir(it) if name not in BELOW):
        for call, example in calls_of(path):
            if (name, call) in MADE_BELOW:
                continue
            if not example:
                print(f"{name}: {call} has no example")
            elif not any(stands_in(example, it) for it in run):
                print(f"{name}: the example of {call} stands in no function of examples.rt")
            else:
                continue
            bad += 1
    if bad == 0:
        print("each public call has an example that is run")
    sys.exit(bad > 0)


main()
