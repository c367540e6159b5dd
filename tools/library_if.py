#!/usr/bin/env python3
"""Takes if .. then .. else from the library in place of the rules' own, which had the same two equations.

usage: python3 tools/library_if.py     at the top of the repository, once
"""
import glob
import re

WORD = "if◌then◌else◌"
OWN = re.compile(r"^((?:ghost )?use Rattle\.rules\.specs\.Entries\.)\{([^}]*)\}(;?)\n", re.M)
PRELUDE = re.compile(r"^((?:ghost )?use Rattle\.std\.specs\.Prelude\.)\{([^}]*)\}(;?)\n", re.M)
DEFINED = re.compile(r"^infix 20 if◌then◌else◌\n(?:.*\n){3}\n?", re.M)

for pattern in ("specs/**/*.antt", "proofs/**/*.antt", "src/**/*.rt"):
    for path in sorted(glob.glob("crates/*/" + pattern, recursive=True)):
        text = open(path, encoding="utf-8").read()
        new = text
        wanted = False
        m = OWN.search(new)
        if m and WORD in m[2]:
            names = [n.strip() for n in m[2].split(",") if n.strip() and n.strip() != WORD]
            line = f"{m[1]}{{{', '.join(names)}}}{m[3]}\n" if names else ""
            new = new[: m.start()] + line + new[m.end():]
            wanted = True
        if DEFINED.search(new):
            new = DEFINED.sub("", new)
            wanted = True
        if wanted:
            m = PRELUDE.search(new)
            if m:
                new = new[: m.start()] + f"{m[1]}{{{m[2]}, {WORD}}}{m[3]}\n" + new[m.end():]
            else:
                ghost = "ghost use" if path.endswith(".rt") else "use"
                end = ";" if path.endswith(".rt") else ""
                m = re.search(r"^(ghost )?use ", new, re.M)
                new = new[: m.start()] + f"{ghost} Rattle.std.specs.Prelude.{{{WORD}}}{end}\n" + new[m.start():]
        if new != text:
            open(path, "w", encoding="utf-8").write(new)
