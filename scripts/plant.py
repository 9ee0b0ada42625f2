#!/usr/bin/env python3
"""Runs `rt plant` over a crate, with a sum of each crate below it made once.

    scripts/plant.py NAME [--only WORD] [--max N] [--minutes N] [--jobs N] [--all]

`rt plant` sums up the files of a library once for each way through crates.txt that leads to it, which takes minutes near
the top before it checks anything. Here each sum is made once, as no file below the crate changes while it runs, and so is each
list of the libraries below a crate; all else is that of `rt plant --help`. The libraries that the crate stands on have to be
built, as `rt check` in its folder does. RT names the command, `rt` by default.
"""

import importlib.machinery
import os
import shutil
import sys
import types


def load_plant():
    """The kit's `rt-plant` as a module, which knows the crates by the class `rt.Crate`."""
    command = shutil.which(os.environ.get("RT", "rt")) or sys.exit("rt is not to be found: see CONTRIBUTING.md, Set up")
    file = f"{os.path.dirname(os.path.realpath(command))}/rt-plant"
    module = types.ModuleType("rt_plant")
    module.__file__ = file
    importlib.machinery.SourceFileLoader("rt_plant", file).exec_module(module)
    return module


def once(made, root):
    """The method, called once for each crate of this checkout. The copies that are planted in lie elsewhere, and change."""
    known = {}

    def call(crate):
        if not crate.folder.startswith(f"{root}/"):
            return made(crate)
        if crate.folder not in known:
            known[crate.folder] = made(crate)
        found = known[crate.folder]
        return list(found) if isinstance(found, list) else found

    return call


def main(words):
    if not words or words[0].startswith("-"):
        sys.exit(__doc__.strip())
    root = os.path.dirname(os.path.dirname(os.path.realpath(__file__)))
    os.chdir(f"{root}/crates/{words[0]}")
    sys.dont_write_bytecode = True
    plant = load_plant()
    crate = plant.rt.Crate
    crate.stamp, crate.below = once(crate.stamp, root), once(crate.below, root)
    return plant.main(*words[1:])


if __name__ == "__main__":
    sys.exit(main(sys.argv[1:]))
