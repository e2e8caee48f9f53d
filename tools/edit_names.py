#!/usr/bin/env python3
"""Says which must-fail edits of src/ change names that proofs cite: such an edit is refused for a missing name, whatever it means.

usage: python3 tools/edit_names.py CRATE..     at the top of the repository

The names of goals, places and steps come from `rattle check --generated DIR --old-names`, with and without the edit. It proves nothing.
"""

import glob
import json
import os
import re
import shutil
import subprocess
import sys
import tempfile

KIT = "/opt/rattle"


def uses():
    it = {}
    for line in open("crates.txt"):
        line = line.split("#")[0].strip()
        if line:
            name, deps = line.split(":", 1)
            it[name.split()[0]] = deps.split()
    return it


def below(deps, crate, seen):
    for d in deps[crate]:
        if d in deps and d not in seen:
            below(deps, d, seen)
            seen.append(d)
    return seen


def names(deps, crate, folder):
    """Of each function the names that its proof may cite, and the list of its goals."""
    root = f"{folder}/src/lib.rt"
    root = root if os.path.exists(root) else f"{folder}/src/main.rt"
    libs = [w for d in below(deps, crate, []) for w in ("--lib", f"{d}:{','.join([*deps[d], 'std'])}={os.getcwd()}/crates/{d}/src/lib.rt")]
    with tempfile.TemporaryDirectory() as out:
        words = [f"{KIT}/bin/rattle", "check", "--crate-name", crate, "--extern", f"std={KIT}/rlibs/std.rlib", "-L", f"dependency={KIT}/rlibs", "--antt-project", f"{KIT}/rattle/logic/antt-project.json", "--logic-built", f"{KIT}/logic_built", *libs, "--generated", out, "--old-names", root]
        said = subprocess.run(words, capture_output=True, text=True)
        if not os.path.exists(f"{out}/names.json"):
            return None, said.stdout[-200:]
        told = json.load(open(f"{out}/names.json"))
    return {
        k: ({b for _, b in v["needs"]} | set(v["places_by_name"]) | {p[2][1] for p in v["places"]} | {l[0][1] for l in v["loops"]}, [b for _, b in v["needs"]])
        for k, v in told.items()
        if isinstance(v, dict) and "needs" in v and f"Rattle-{crate}-" in k
    }, ""


def main(crates):
    deps = uses()
    for crate in crates:
        folder = f"crates/{crate}"
        base, why = names(deps, crate, folder)
        if base is None:
            print(f"{crate}: {why}")
            continue
        cited = set()
        for p in glob.glob(f"{folder}/proofs/**/*.antt", recursive=True):
            cited |= set(re.findall(r"[^\s(){}\[\],;.:]+", open(p).read()))
        for edit in sorted(glob.glob(f"{folder}/must-fail/*.edit")):
            lines = open(edit).read().split("\n")
            if not any(l.startswith("file: src/") for l in lines):
                continue
            with tempfile.TemporaryDirectory() as copy:
                for part in ("src", "specs", "proofs"):
                    if os.path.isdir(f"{folder}/{part}"):
                        shutil.copytree(f"{folder}/{part}", f"{copy}/{part}")
                for l in lines:
                    if l.startswith("file: "):
                        file = f"{copy}/{l[6:].strip()}"
                    elif l.startswith("old: "):
                        old = l[5:]
                    elif l.startswith("new: "):
                        text = open(file).read()
                        open(file, "w").write(text.replace(old, l[5:], 1))
                got, why = names(deps, crate, copy)
            if got is None:
                print(f"{crate}/{os.path.basename(edit)}: not read: {why}")
                continue
            for k in base:
                now, goals = got.get(k, (set(), []))
                lost = sorted(n for n in base[k][0] - now if n in cited or f"Need-{n}" in cited)
                more = [n for n in goals if n not in base[k][1]]
                if lost or more:
                    print(f"{crate}/{os.path.basename(edit)}: {k.split('.')[-2]}: gone {lost}, new goals {more}")


if __name__ == "__main__":
    main(sys.argv[1:])
