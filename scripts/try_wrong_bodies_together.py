#!/usr/bin/env python3
"""Tries wrong bodies, those of different functions in one check.

    scripts/try_wrong_bodies_together.py [--wait] [--most N] [--logs FOLDER] NAME[:EDIT,EDIT..] ..

Of each crate named it tries the edits of crates/NAME/wrong-bodies/, or those that are named, which may stand in must-fail/ as well.
The prover checks the functions that an edit changes, in a copy of the crate, and nothing else of it; so up to N edits (16 by default)
that change different functions are tried by one check. Of each edit it says

    refused          with the first goal of a function that it changes which is not proved
    BY NAMES ALONE   a proof file names what the edit takes away, which says little of a contract
    NOT REFUSED      the crate is still proved with it
    BAD EDIT         it can't be applied, compiled or read
    UNSURE           the check came to no end, so nothing is known

and it fails unless all were refused. An edit outside all functions is tried by itself, on the functions that name the constant which
it changes, and one that these let through on the whole crate.

The libraries that a crate stands on have to be built, as `rt check` in its folder does. With --wait the script waits for them, and goes
on with whichever crate is ready first.
What the checks print is kept in FOLDER where one is named. RT names the command, `rt` by default.
"""

import argparse
import collections
import glob
import importlib.machinery
import importlib.util
import os
import re
import shutil
import subprocess
import sys
import tempfile
import time
from dataclasses import dataclass
from typing import Optional

REFUSED, BY_NAMES, MISSED, BAD, UNSURE = "refused", "BY NAMES ALONE", "NOT REFUSED", "BAD EDIT", "UNSURE"
KINDS = (REFUSED, BY_NAMES, MISSED, BAD, UNSURE)
# What a proof file's error says where a name is gone, or where it follows from another error, and not where a statement is another one.
OF_A_NAME = re.compile(r"has no field|is not in scope|has no `|was not admitted|which was rejected, was not checked")
SECONDS_BETWEEN_LOOKS = 20


def load_rt():
    """The command `rt` as a module: it knows what a crate stands on, and how a check of it is called."""
    command = shutil.which(os.environ.get("RT", "rt")) or sys.exit("rt is not to be found: see CONTRIBUTING.md, Set up")
    loader = importlib.machinery.SourceFileLoader("rt", os.path.realpath(command))
    module = importlib.util.module_from_spec(importlib.util.spec_from_loader("rt", loader))
    loader.exec_module(module)
    return module


rt = load_rt()


@dataclass(frozen=True)
class Function:
    """A function of a crate: its file, the impl or trait whose method it is, and its first and last line."""

    file: str
    owner: str
    name: str
    first: int
    last: int

    def path(self):
        """By what a check of this function alone is asked for: the end of its path below the crate."""
        above = [self.owner] if self.owner else self.file.removeprefix("src/").removesuffix(".rt").split("/")
        return "::".join([*(it for it in above if it not in ("lib", "main", "mod")), self.name])


@dataclass(frozen=True)
class Change:
    """One text in place of another, in a line of a file of a crate, and the function that has this line, if it stands in one."""

    file: str
    line: int
    old: str
    new: str
    function: Optional[Function]

    def made_in(self, text):
        lines = text.split("\n")
        lines[self.line] = lines[self.line].replace(self.old, self.new)
        return "\n".join(lines)


@dataclass(frozen=True)
class Edit:
    """A wrong body: its changes, and the functions that are checked for it."""

    name: str
    changes: tuple
    functions: tuple

    def is_inside_functions(self):
        return all(it.function for it in self.changes)


# --- reading an edit -------------------------------------------------------------------------------------------------------------


def read(file):
    with open(file, encoding="utf-8") as it:
        return it.read()


def behind_brackets(text):
    """What the brackets hold with which this text begins, and what stands behind them."""
    depth = 0
    for at, it in enumerate(text):
        depth += (it == "<") - (it == ">" and text[at - 1] != "-")
        if not depth:
            return text[1:at], text[at + 1 :]
    return "", text


def heads(text):
    """The word with which each of these types or parameters begins, less its module and in capitals, as the prover has it in names."""
    found = []
    while text := text.lstrip(", "):
        word = re.match(r"'?(?:\w+::)*(\w*)", text)
        found.append(word[1][:1].upper() + word[1][1:])
        while text and text[0] != ",":
            text = behind_brackets(text)[1] if text[0] == "<" else text[1:]
    return found


def of_impl(text):
    """By what the prover calls the methods of an impl block: the type, and its trait unless that is Drop."""
    params, text = behind_brackets(text) if text[0] == "<" else ("", text)
    trait, _, owner = text.strip().rpartition(" for ")
    tuple_of = re.match(r"\((.*?)\)", owner)
    name = (f"Tuple{len(heads(tuple_of[1]))}" if tuple_of[1] else "Unit") if tuple_of else heads(owner)[0]
    if trait in ("", "Drop"):
        return name
    of_trait = behind_brackets(trait[trait.index("<") :])[0] if "<" in trait else ""
    return name + "".join(it for it in [*heads(trait), *heads(of_trait)] if it not in heads(params))


def owner_above(lines, at):
    """The impl block that this line stands in, or the trait, by its name in the prover's lines."""
    for line in reversed(lines[:at]):
        if re.match(r"impl\b", line):
            return of_impl(line.removeprefix("impl").split(" {")[0].split(" where")[0])
        trait = re.match(r"(?:pub )?trait (\w+)", line)
        if trait:
            return trait[1]
    return ""


def function_at(file, text, line):
    """The function that has this line of the file's text, which is laid out by `rt fmt`."""
    lines = text.split("\n")
    for first in range(line, -1, -1):
        head = re.match(r"( *)(?:pub(?:\(\w+\))? )?(?:const |unsafe )*fn (\w+)", lines[first])
        if not head:
            continue
        ends = (it for it in range(first, len(lines)) if lines[it] == head[1] + "}" or it == first and lines[it].endswith(" }"))
        last = next(ends, -1)
        owner = owner_above(lines, first) if head[1] else ""
        return Function(file, owner, head[2], first + 1, last + 1) if line <= last else None
    return None


def namers_of_constant(folder, change):
    """The functions that name the constant which a change outside all functions gives another value."""
    named = re.search(r"const (\w+)", change.old)
    found = []
    for path in sorted(glob.glob(f"{folder}/src/**/*.rt", recursive=True)) if named else []:
        text = read(path)
        for line, said in enumerate(text.split("\n")):
            if re.search(rf"\b{named[1]}\b", said):
                found.append(function_at(os.path.relpath(path, folder), text, line))
    return [it for it in found if it]


def changes_of(text, folder):
    """The changes that the text of an edit asks for, one after another, or None where an old text does not stand once."""
    file, old, changes, now = "", "", [], {}
    for line in text.split("\n"):
        if line.startswith("file: "):
            file = line.removeprefix("file: ").strip()
        elif line.startswith("old: "):
            old = line.removeprefix("old: ")
        elif line.startswith("new:"):
            was = now.get(file) or read(f"{folder}/{file}")
            if was.count(old) != 1:
                return None
            at = was[: was.index(old)].count("\n")
            function = function_at(file, was, at) if file.endswith(".rt") else None
            changes.append(Change(file, at, old, line.removeprefix("new:").removeprefix(" "), function))
            now[file] = changes[-1].made_in(was)
    return tuple(changes)


def read_edit(path, folder):
    """The edit of this file, or None where it can't be applied."""
    changes = changes_of(read(path), folder)
    if not changes:
        return None
    functions = []
    for change in changes:
        functions += [change.function] if change.function else namers_of_constant(folder, change)
    return Edit(os.path.basename(path).removesuffix(".edit"), changes, tuple(dict.fromkeys(functions)))


def goes_beside(edit, others):
    """Whether one check can try an edit beside others: all of different functions, and none outside all functions."""
    taken = {function for it in others for function in it.functions}
    return all(it.is_inside_functions() for it in [*others, edit]) and not taken & {*edit.functions}


def grouped(edits, most):
    """The edits in groups, each to be tried by one check."""
    groups = []
    for edit in edits:
        group = next((it for it in groups if len(it) < most and goes_beside(edit, it)), None)
        if group is None:
            groups.append([edit])
        else:
            group.append(edit)
    return groups


# --- a check, and what it says ---------------------------------------------------------------------------------------------------


class Checks:
    """Checks of copies of one crate, each with some texts in place of its own. What one proves of lemmas serves the next."""

    def __init__(self, crate, room, logs):
        self.crate, self.logs, self.count = crate, logs, 0
        self.proved = f"{room}/proved"
        os.mkdir(self.proved)

    def run(self, edits, functions):
        """The status and the lines of a check of these functions, or of the whole crate where there are none."""
        with tempfile.TemporaryDirectory(prefix=f"rt-edit-{os.getpid()}-") as copy:
            for part in ("src", "specs", "proofs"):
                if os.path.isdir(f"{self.crate.folder}/{part}"):
                    shutil.copytree(f"{self.crate.folder}/{part}", f"{copy}/{part}")
            for change in (change for edit in edits for change in edit.changes):
                text = change.made_in(read(f"{copy}/{change.file}"))
                with open(f"{copy}/{change.file}", "w", encoding="utf-8") as it:
                    it.write(text)
            ran = self.check(copy, functions)
            if ran.returncode == 2 and functions:
                # (it knows one of the functions by another path)
                ran = self.check(copy, ())
        if self.logs:
            self.count += 1
            with open(f"{self.logs}/{self.crate.name}-{self.count}.log", "w", encoding="utf-8") as it:
                it.write(f"{' '.join(edit.name for edit in edits)}\n{ran.stdout}")
        return ran.returncode, folded(ran.stdout.split("\n"))

    def check(self, copy, functions):
        only = [word for it in functions for word in ("--only", it.path())]
        words = [*self.crate.words(["--jobs", "1", *only], keeps=False), "--incremental", self.proved]
        how = {"stdin": subprocess.DEVNULL, "stdout": subprocess.PIPE, "stderr": subprocess.STDOUT, "errors": "replace"}
        return subprocess.run([*rt.rtlib.guarded(), rt.rtlib.RATTLE, "check", *words], cwd=copy, **how)


def folded(lines):
    """The lines, each with those that go on with it, which are indented."""
    whole = []
    for line in lines:
        if whole and line.startswith("  "):
            whole[-1] += " " + line.strip()
        else:
            whole.append(line)
    return whole


def open_goal_in(function, lines):
    """The first note of a goal in this function that is not proved, or ""."""
    for line in lines:
        note = re.match(r"(?:note: |warning: )?(?:\./)?(src/\S+?\.rt):(\d+):\d+: .*it is not proved", line)
        if note and note[1] == function.file and function.first <= int(note[2]) <= function.last:
            return line
    return ""


def unanswered_goal_of(function, lines):
    """The line which says that this function has a goal that nothing proves, other than by a callee or by a limit of the prover, or ""."""
    has_none = re.compile(rf"fn \S*::{re.escape(function.path())}: no proof: (?!.*(?:it calls|does not cover))")
    return next((line for line in lines if has_none.match(line)), "")


def errors_in_proofs_of(function, lines):
    """The errors in the proof files of this function, where it is not proved."""
    path = re.escape(function.path())
    if not any(re.match(rf"fn \S*::{path}: (not proved|no proof)", line) for line in lines):
        return []
    is_error = re.compile(rf"(?:\./)?proofs/(?:.*/)?{path.replace('::', '/')}/\w+\.antt:\d+:\d+: error: ")
    return [line for line in lines if is_error.match(line)]


def loses_its_invariants(errors):
    """Whether a function's loop has none for a name that is gone. Any goal behind the loop is open then."""
    return any("/Invariants.antt:" in line and OF_A_NAME.search(line) for line in errors)


def refusal_of(edit, lines):
    """How these lines refuse an edit, and by which of them, or None where they don't."""
    by_names = None
    for function in edit.functions:
        errors = errors_in_proofs_of(function, lines)
        of_meaning = [line for line in errors if not OF_A_NAME.search(line)]
        goal = "" if loses_its_invariants(errors) else open_goal_in(function, lines) or unanswered_goal_of(function, lines)
        why = goal or (of_meaning or [""])[0]
        if why:
            return REFUSED, why
        by_names = by_names or errors[:1]
    return (BY_NAMES, by_names[0]) if by_names else None


def refusal_anywhere(lines):
    """The same of a check that tried one edit alone: by any goal of any function, since without the edit all are proved."""
    goals = [line for line in lines if "it is not proved" in line or re.match(r"fn \S+: no proof: (?!.*(?:it calls|does not cover))", line)]
    errors = [line for line in lines if re.match(r"(?:\./)?proofs/\S+:\d+:\d+: error: ", line)]
    of_meaning = [line for line in errors if not OF_A_NAME.search(line)]
    found = (goals or of_meaning or [""])[0]
    return (REFUSED, found) if found else (BY_NAMES, errors[0]) if errors else None


def is_read(lines):
    """Whether the edited text came to the prover, which has a line for each function."""
    return any(line.startswith("fn ") or line.startswith("only=") for line in lines)


# --- trying ----------------------------------------------------------------------------------------------------------------------


def outcome_of_one(checks, edit):
    """What a check of the one edit says, first of its functions and then, where these let it through, of the whole crate."""
    status, lines = checks.run([edit], edit.functions)
    if status == 0 and edit.functions:
        status, lines = checks.run([edit], ())
    if not is_read(lines):
        return BAD, next((line for line in lines if ": error" in line), lines[0])
    found = refusal_of(edit, lines) or refusal_anywhere(lines)
    if status == 1 and found:
        return found
    return MISSED if status == 0 else UNSURE, next((line for line in reversed(lines) if line), "")


def outcomes(checks, group):
    """Each edit of the group with what came of it. One of which the common check says nothing is tried by itself."""
    lines = checks.run(group, {it: None for edit in group for it in edit.functions})[1] if len(group) > 1 else []
    for edit in group:
        found = refusal_of(edit, lines) if is_read(lines) else None
        yield edit, *(found or outcome_of_one(checks, edit))


def edits_of(crate, names):
    """The files of the edits to be tried: all of wrong-bodies/, or those of these names, which may stand in must-fail/."""
    folders = ("wrong-bodies", "must-fail") if names else ("wrong-bodies",)
    files = sorted(file for it in folders for file in glob.glob(f"{crate.folder}/{it}/*.edit"))
    if not names:
        return files
    of_name = {os.path.basename(file).removesuffix(".edit"): file for file in files}
    lost = [name for name in names if name not in of_name]
    if lost:
        sys.exit(f"{crate.name} has no edit {' '.join(lost)}")
    return [of_name[name] for name in names]


def try_crate(crate, names, most, logs):
    """Tries the edits of one crate, says what came of each, and returns how many came to what."""
    count = collections.Counter()

    def tell(name, kind, why):
        count[kind] += 1
        print(f"{kind}: {crate.name}/{name}: {why.strip()[:200]}", flush=True)

    edits = []
    for file in edits_of(crate, names):
        edit = read_edit(file, crate.folder)
        if edit is None:
            tell(os.path.basename(file).removesuffix(".edit"), BAD, "an old text does not stand once in its file")
        else:
            edits.append(edit)
    with tempfile.TemporaryDirectory(prefix=f"rt-edits-{os.getpid()}-") as room:
        checks = Checks(crate, room, logs)
        for group in grouped(edits, most):
            for edit, kind, why in outcomes(checks, group):
                tell(edit.name, kind, why)
    return count


def sum_each_once():
    """Has each crate summed up once a look, and not once for each path that leads to it."""
    sums, of_crate = {}, rt.rtlib.Crate.stamp

    def stamp(crate):
        if crate.name not in sums:
            sums[crate.name] = of_crate(crate)
        return sums[crate.name]

    rt.rtlib.Crate.stamp = stamp
    return sums


SUMS = sum_each_once()


def lacking(crate):
    """The first library below the crate that isn't built."""
    SUMS.clear()
    return next((it.name for it in crate.below() if not it.is_built()), None)


def in_turn(asked, crates, waits):
    """The crates that are asked for with their edits' names, each once all below it is built."""
    left = list(asked)
    while left:
        ready = next((it for it in left if not lacking(crates[it[0]])), None)
        if ready:
            left.remove(ready)
            yield ready
        elif waits:
            time.sleep(SECONDS_BETWEEN_LOOKS)
        else:
            sys.exit(f"{left[0][0]}: its library {lacking(crates[left[0][0]])} isn't built: run rt check in its folder, or wait by --wait")


def main():
    parser = argparse.ArgumentParser(description=__doc__, formatter_class=argparse.RawDescriptionHelpFormatter)
    parser.add_argument("--wait", action="store_true")
    parser.add_argument("--most", type=int, default=16)
    parser.add_argument("--logs")
    parser.add_argument("names", nargs="+")
    given = parser.parse_args()
    logs = given.logs and os.path.abspath(given.logs)
    if logs:
        os.makedirs(logs, exist_ok=True)
    root = os.path.dirname(os.path.dirname(os.path.realpath(__file__)))
    os.chdir(root)
    crates = {it.name: it for it in rt.rtlib.crates_below(root)}
    asked = [(name, [it for it in which.split(",") if it]) for name, _, which in (it.partition(":") for it in given.names)]
    unknown = [name for name, _ in asked if name not in crates]
    if unknown:
        sys.exit(f"crates.txt has no crate {' '.join(unknown)}")
    count = collections.Counter()
    for name, names in in_turn(asked, crates, given.wait):
        of_crate = try_crate(crates[name], names, given.most, logs)
        print(f"{name}: {', '.join(f'{of_crate[it]} {it}' for it in KINDS if of_crate[it])}", flush=True)
        count += of_crate
    print(f"wrong bodies: {count[REFUSED]} of {sum(count.values())} refused")
    return 0 if count[REFUSED] == sum(count.values()) else 1


if __name__ == "__main__":
    sys.exit(main())
