#!/usr/bin/env python3
"""Spells the definitions and lemmas of the crates in snake case: makeRoom and make-room become make_room.

usage: python3 tools/snake_names.py [--report]     at the top of the repository

Types, modules and what begins with a capital keep their names, and so do operators, functions, strings and inputs.
A name that would meet another in a file gets the name of RENAMED in all files. With --report nothing is written.
"""
import collections
import glob
import re
import sys

TOKEN = re.compile(r"[^\s(){}\[\].;,@\"«»`]+")
DECLARED = re.compile(r"^\s*(?:(?:abbrev|unfoldable|pub|ghost|private|\|)\s+)*([^\s(){}\[\].;,:]+)(?:\s+\{[^{}\n]*\})*\s:(?:\s|$)", re.M)
USE = re.compile(r"\buse\s+([^\s;{]+?)\.?\{([^}]*)\}")
# What would meet another name.
RENAMED = {
    "at-end": "at_the_end",
    "at-least": "at_least_above",
    "bytes-of": "came_bytes",
    "clean-size": "clean_size_same",
    "decrease-change": "decrease_change_told",
    "dirty-in": "dirty_in_same",
    "dirty-turn": "dirty_turn_taken",
    "first-of": "first_of_next",
    "hold-allowed": "hold_allowed_same",
    "is-malformed": "is_malformed_same",
    "is-nan": "nan_is",
    "is-none": "none_is",
    "is-written": "is_written_byte",
    "ledger-in": "ledger_in_same",
    "length-map": "length-map",
    "next-in": "next_in_same",
    "not-next": "not_next_told",
    "not-ones": "not_ones_same",
    "of-fields": "by_fields_same",
    "recency-run": "recency_run_same",
    "resize-change": "resize_change_told",
    "room-made": "room_made_whole",
    "room-reasons": "room_reasons_told",
    "row-at": "row_at_seam",
}
# What is bound in a proof.
BOUND = ["wasDirty", "longEnough", "cleanedEntry", "agedRows", "turnBy"]
# What is renamed in some files alone.
IN_FILE = {
    "crates/fraction/proofs/NoNumber.antt": {"no_number": "no_number_above"},
    "crates/fraction/proofs/WholeByWord.antt": {"no_number": "no_number_above"},
    "crates/fraction/proofs/word/float_of/Proof.antt": {"no_number": "no_number_above"},
    "crates/judge/proofs/Parts.antt": {"in_order": "order_names"},
    "crates/runs/proofs/Hosts.antt": {"due_in": "due_in_same"},
}


def snake(name):
    words = re.sub(r"(?<=[a-z0-9])[A-Z]", lambda m: "_" + m[0].lower(), name)
    return words.replace("-", "_")


def is_walk(path):
    return path.endswith("/Proof.antt")


def main():
    report = "--report" in sys.argv
    antt = sorted(glob.glob("crates/*/specs/**/*.antt", recursive=True) + glob.glob("crates/*/proofs/**/*.antt", recursive=True))
    rust = sorted(glob.glob("crates/*/src/**/*.rt", recursive=True))
    edits = sorted(glob.glob("crates/*/must-fail/*.edit"))
    pages = sorted(glob.glob("docs/**/*.md", recursive=True)) + ["README.md"]
    texts = {path: open(path, encoding="utf-8").read() for path in antt + rust + edits + pages}
    declared = collections.defaultdict(set)
    for path in antt:
        if is_walk(path):
            continue
        for m in DECLARED.finditer(texts[path]):
            name = m[1]
            if name[:1].islower() and (re.search(r"[a-z0-9][A-Z]", name) or "-" in name):
                declared[name].add(path)
    foreign = set()
    for path in antt + rust:
        for m in USE.finditer(texts[path]):
            if not re.match(r"Rattle\.(?!std\b|core\b)", m[1]):
                foreign.update(w.strip().split(" as ")[-1] for w in m[2].split(","))
    mapping = {n: RENAMED.get(n, snake(n)) for n in list(declared) + BOUND}
    if report:
        groups = collections.defaultdict(set)
        every = collections.defaultdict(set)
        for path in antt:
            for m in DECLARED.finditer(texts[path]):
                every[m[1]].add(path)
        for old, new in mapping.items():
            groups[new].add(old)
        for new in list(groups):
            if new in every:
                groups[new].add(new)
        for new, olds in sorted(groups.items()):
            if len(olds) > 1:
                print("together:", new, {o: sorted(every[o])[:4] for o in olds})
        for old in sorted(mapping):
            if old in foreign:
                print("foreign:", old)
        for path in antt + rust:
            tokens = set(TOKEN.findall(texts[path]))
            for old in sorted(tokens & set(mapping)):
                others = {o for o in tokens & set(mapping) if mapping[o] == mapping[old]} - {old}
                if others:
                    print("both:", path, old, others)
                if mapping[old] in tokens:
                    print("meets:", path, old, mapping[old])
        return
    every_file = mapping
    for path, text in texts.items():
        mapping = every_file | IN_FILE.get(path, {})
        if path in pages:
            new = re.sub(r"`[^`\n]*`|(?m:^    .*$)", lambda m: TOKEN.sub(lambda t: mapping.get(t[0], t[0]), m[0]), text)
        elif path in rust:
            # Strings and comments of code have no such names but for the comments' citations.
            new = TOKEN.sub(lambda t: mapping.get(t[0], t[0]), text)
        else:
            new = TOKEN.sub(lambda t: mapping.get(t[0], t[0]), text)
        if new != text:
            open(path, "w", encoding="utf-8").write(new)


main()
