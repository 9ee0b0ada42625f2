#!/usr/bin/env python3
"""list_calls.py [--check]: writes docs/calls.md, the public calls of what `wolimevar` hands on with the types of their arguments and answers,
from the code and its docs. With --check it writes nothing, and fails where the page isn't what it would write."""

import os
import re
import sys

TOP = os.path.dirname(os.path.dirname(os.path.abspath(__file__)))
PAGE = f"{TOP}/docs/calls.md"

HEAD = """# Calls

For whoever writes a service and wants the exact form of a call. `scripts/list_calls.py` writes this page from the code. docs/using.md says how calls go together and what to do at a refusal, docs/promises.md what is proved of them.

`V` is the type of a store's values, `alloc` the `Global` that `main` gets. After a type's name stands what it implements. A type without `Copy` can be used by value once. `From<X>` says what becomes of an `X` at `?`. A lifetime `'_` is left out here: in a service's own `run` and `serve` write `Transaction<'_, V, S>` and `Client<'_, V, S>`.
"""

# The sections of the page with their types, and the file of each.
SECTIONS = {
    "What a store is laid out with": [
        ("Layout", "wolimevar/src/layout.rt"), ("Entries", "seq_model/src/entries.rt"), ("Counts", "seq_model/src/counts.rt"),
        ("QueueItems", "seq_model/src/queue_items.rt"),
    ],
    "What a body calls": [
        ("Word", "tx_handles/src/words.rt"), ("Map", "tx_handles/src/maps.rt"), ("Bag", "tx_handles/src/bags.rt"),
        ("PriorityQueue", "tx_handles/src/priority_queues.rt"), ("Queue", "tx_handles/src/queues.rt"), ("Lanes", "tx_handles/src/lanes.rt"),
    ],
    "What runs transactions": [
        ("Body", "tx_client/src/body.rt"), ("Transaction", "tx_client/src/transaction.rt"), ("Scope", "tx_client/src/scope.rt"),
        ("Store", "wolimevar/src/store.rt"), ("Session", "wolimevar/src/sessions.rt"),
        ("Client", "tx_client/src/client.rt"), ("Lender", "wolimevar/src/lender.rt"), ("StillLent", "wolimevar/src/lender.rt"),
        ("LentClient", "wolimevar/src/lent.rt"), ("Serving", "wolimevar/src/serving.rt"),
    ],
    "What comes of them": [
        ("Failure", "seq_model/src/failure.rt"), ("Refusal", "seq_model/src/refusal.rt"), ("Memory", "seq_model/src/refusal.rt"),
        ("Full", "seq_model/src/full.rt"), ("Receipt", "seq_model/src/record.rt"), ("Items", "seq_model/src/items.rt"),
        ("Call", "seq_model/src/call.rt"), ("Op", "seq_model/src/call.rt"), ("Reply", "seq_model/src/call.rt"), ("Tally", "tx_client/src/tally.rt"),
    ],
    "What a store holds at its end": [
        ("Unread", "wolimevar/src/unread.rt"), ("Contents", "tx_client/src/contents.rt"), ("MapEntries", "tx_handles/src/contents_over.rt"),
        ("MapIter", "tx_handles/src/contents_over.rt"), ("BagCounts", "tx_handles/src/contents_over.rt"),
        ("BagIter", "tx_handles/src/contents_over.rt"), ("LaneItems", "tx_handles/src/contents_over.rt"),
    ],
    "Values": [("Value", "seq_model/src/value.rt"), ("Text", "tx_handles/src/text.rt"), ("Shared", "tx_handles/src/shared.rt")],
}

CRATES = ("seq_model", "tx_handles", "tx_client", "wolimevar")

# What a type is called where it is made.
MADE_AS = {"Receipt": "Record"}
# Handles and what a store makes: their fields are for contracts.
SHOWS_FIELDS = ("Receipt", "Call", "Tally", "StillLent")
# Made by the library alone, so no service has their arguments.
LEFT_OUT = {("MapEntries", "new"), ("BagCounts", "new"), ("LaneItems", "new"), ("Client", "of")}
# Traits that say nothing to a caller.
INNER = ("Model", "Drop", "MakesCalls", "Scope", "Promise", "Fits")


def first_sentence(docs):
    text = " ".join(docs[: docs.index("")] if "" in docs else docs).split("```")[0].strip()
    text = re.sub(r"\[`(?:crate::)?([^`]*)`\]", r"`\1`", text)
    return re.split(r"(?<=[.:;]) (?=[A-Z`])", text)[0].rstrip(".:;")


def signature(lines):
    """A function's first lines up to its clauses or its body, in one line and in a caller's words."""
    text = re.sub(r"\s+", " ", " ".join(lines))
    text = re.split(r" (?:requires|ensures)\b| \{", text)[0].strip().rstrip(";")
    text = re.sub(r"^pub (?:const )?", "", re.sub(r"<(?:V: Value, )?T: MakesCalls<V>>", "", text)).replace("tx: &mut T", "tx: &mut Transaction<V, S>")
    text = text.replace("Transaction<V, S>ransaction<'_, V, S>", "Transaction<V, S>")
    text = re.sub(r"\( ", "(", re.sub(r",? \)", ")", text)).replace("Transaction<'_, V, S>", "Transaction<V, S>").replace("'_, ", "")
    return re.sub(r" where .*", "", text)


class File:
    """The types of a file, each with its docs, what it implements, its fields or variants, and its calls."""

    def __init__(self, path):
        with open(f"{TOP}/crates/{path}", encoding="utf-8") as file:
            self.lines = file.read().split("\n")
        self.docs, self.generics, self.traits, self.parts, self.calls = {}, {}, {}, {}, {}
        docs, derived, at = [], [], 0
        while at < len(self.lines):
            line = self.lines[at]
            if line.startswith("///"):
                docs.append(line[3:].strip())
            elif line.startswith("#[derive"):
                derived += re.findall(r"\w+", line.partition("(")[2])
            elif made := re.match(r"pub (struct|enum|trait) (\w+)(<.*?>(?= \{|: |;))?", line):
                self.docs[made[2]], self.traits[made[2]] = docs, derived + self.traits.get(made[2], [])
                self.generics[made[2]] = made[3] or ""
                self.type_at(at, made[1], made[2])
            elif made := re.match(r"impl(?:<.*?>)? (?:([\w:]+(?:<.*?>)?) (?:as \w+ )?for )?(\w+)", line):
                if made[1]:
                    item = [it.strip()[:-1] for it in self.block(at) if it.startswith("    type Item ")]
                    self.traits.setdefault(made[2], []).append(made[1].split("::")[-1] + (f"<{item[0][5:]}>" if item else ""))
                else:
                    self.calls_at(at, made[2])
            if line and not line.startswith(("///", "#[", "//")):
                docs, derived = [], []
            at += 1

    def block(self, at):
        """The lines within the braces that open in this line."""
        if self.lines[at].endswith(("}", ";")):
            return []
        end = next(it for it in range(at, len(self.lines)) if self.lines[it] == "}")
        return self.lines[at + 1 : end]

    def type_at(self, at, kind, name):
        if kind == "trait":
            self.calls_at(at, name, in_trait=True)
            types = [it.strip() for it in self.block(at) if it.startswith("    type ")]
            self.parts[name] = [re.sub(r"^type", "type", it) for it in types]
            return
        parts = [it.strip() for it in self.block(at)]
        self.parts[name] = [it.removeprefix("pub ") for it in parts if it and not it.startswith(("///", "#["))]

    def calls_at(self, at, name, in_trait=False):
        docs, block = [], self.block(at)
        for number, line in enumerate(block):
            bare = line.strip()
            if bare.startswith("///"):
                docs.append(bare[3:].strip())
                continue
            if re.match(r"    (pub )?(const )?fn ", line) and (in_trait or bare.startswith("pub ")):
                end = next(it for it in range(number, len(block)) if re.search(r"[{;]$|^\s+(requires|ensures)\b", block[it]) or it == len(block) - 1)
                call = re.search(r"fn (\w+)", bare)[1]
                self.calls.setdefault(name, []).append((call, signature(block[number : end + 1]), first_sentence(docs)))
            if bare and not bare.startswith("#["):
                docs = []


def section(name, files, everything):
    made = MADE_AS.get(name, name)
    of = [it for it in files if made in it.docs]
    if not of:
        sys.exit(f"list_calls: no {made} is made where it was looked for")
    traits = []
    for it in (trait for file in everything for trait in file.traits.get(made, [])):
        if it.partition("<")[0] not in INNER and it not in traits:
            traits.append(it)
    traits.sort(key=lambda it: it.startswith("From"))
    also = f" ({', '.join(f'`{it}`' for it in traits)})" if traits else ""
    yield f"**`{name}{of[0].generics[made]}`**{also}: {first_sentence(of[0].docs[made])}."
    yield ""
    lines = []
    if name in SHOWS_FIELDS or name in ("Failure", "Refusal", "Op", "Reply"):
        parts = ", ".join(it.rstrip(",") for it in of[0].parts[made])
        lines.append("")
        for it in re.split(r", (?![^{]*\})", parts.replace("{, ", "{ ").replace(", }", " }")):
            if lines[-1] and len(lines[-1]) + len(it) > 100:
                lines[-1] += ","
                lines.append("")
            lines[-1] += f", {it}" if lines[-1] else it
    elif name in ("Body", "Session"):
        lines += of[0].parts[made]
    for file in files:
        for call, form, sentence in file.calls.get(made, []):
            if (name, call) not in LEFT_OUT:
                lines += [f"// {sentence}", form] if sentence else [form]
    if name == "Value":
        of_values = [re.match(r"impl(?:<.*?>)? Value for (.+) \{", line) for line in of[0].lines]
        lines += ["// for " + ", ".join(it[1] for it in of_values if it)]
    if lines:
        yield from ["```", *lines, "```", ""]


def page():
    read = {}
    for crate in CRATES:
        for name in sorted(os.listdir(f"{TOP}/crates/{crate}/src")):
            if name.endswith(".rt"):
                read[f"{crate}/src/{name}"] = File(f"{crate}/src/{name}")
    out = [HEAD]
    for title, types in SECTIONS.items():
        out += [f"## {title}", ""]
        for name, path in types:
            paths = [path] + (["wolimevar/src/layout_over.rt"] if name == "Layout" else [])
            out += section(name, [read[it] for it in paths], read.values())
    return "\n".join(out).rstrip("\n") + "\n"


def main():
    text = page()
    if sys.argv[1:] == ["--check"]:
        with open(PAGE, encoding="utf-8") as file:
            sys.exit(0 if file.read() == text else "docs/calls.md is not what scripts/list_calls.py writes")
    with open(PAGE, "w", encoding="utf-8") as file:
        file.write(text)


if __name__ == "__main__":
    main()
