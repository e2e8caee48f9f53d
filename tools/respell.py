#!/usr/bin/env python3
"""Respells the repository's own names in antt as today's library spells its own: types in upper camel case, all else in snake case.

usage: python3 tools/respell.py            at the top of the repository, once, right after /opt/rattle/port/port.py

A name is the repository's own where a file of specs/ or proofs/ declares it, or binds it locally, and the kit's where the file imports it from
a library of the kit. Names that rattle makes for a proof (answers in Proof.antt, steps after `c.`) stay: they are turned when the proofs are.
Where two names would fall together in one file, the script says so and writes nothing.
"""

import os
import re
import sys

KIT = "/opt/rattle/rattle"
TOKEN = re.compile(r"[^\s(){}\[\],;.:\"`@|]+")
DECLARED = re.compile(r"^(\s*)((?:(?:pattern|unfoldable|abbrev|pub|axiom)\s+)*)(record\s+|data\s+|module\s+|ruleset\s+)?([^\s(){};:,.\[\]]+)((?:\s*\{[^}]*\})?(?:\s+[({][^:]*:[^)}]*[)}])*)\s*(:(?!:)|=)\s*(.*)$")
USE = re.compile(r"^\s*(?:pub )?(?:ghost )?use ([^\s{;]+?)(?:\.\{([^}]*)\})?(?: as \S+)?;?\s*$")
WORDS = {"use", "open", "infixl", "infixr", "infix", "where", "let", "in", "unfolding", "elim"}
ANSWER = re.compile(r"^(\S+) : tie\.(Need-|invariant|decreases)")


def files(root, ends):
    for folder, dirs, names in os.walk(root):
        dirs[:] = sorted(d for d in dirs if d not in ("out", ".git"))
        for n in sorted(names):
            if n.endswith(ends):
                yield os.path.join(folder, n)


def read(p):
    with open(p, encoding="utf-8") as f:
        return f.read()


def code_of(line, mark):
    """The line's code, and its comment."""
    at = line.find(mark)
    while at > 0 and not line[at - 1].isspace():
        at = line.find(mark, at + 1)
    return (line, "") if at < 0 else (line[:at], line[at:])


def camel(name):
    return "".join(w[:1].upper() + w[1:] for w in re.split(r"[-_]", name))


def snake(name):
    it = re.sub(r"[-_]+", "_", name)
    return re.sub(r"(?<![^_])([A-Z])(?=[_'₀-₉]|$)|(?<![^_])([A-Z])(?=[a-z])", lambda m: (m[1] or m[2]).lower(), it) if "-" in name else it


def declarations(text):
    """Each name that a file declares, with the text of its signature."""
    lines = text.split("\n")
    for i, line in enumerate(lines):
        line = code_of(line, "--")[0]
        m = DECLARED.match(line)
        if not m or m[4] in WORDS:
            continue
        if m[6] == "=" and (m[3] or "").strip() != "ruleset":
            continue
        said, j = m[7], i + 1
        while j < len(lines) and lines[j].strip() and len(lines[j]) - len(lines[j].lstrip()) > len(m[1]):
            said += " " + lines[j].strip()
            j += 1
        kind = (m[3] or "").strip()
        is_type = kind in ("record", "data") or re.search(r"Type (?:[\dℓκ]['₁₂]?|\([^)]*\))\s*$", said.strip()) is not None
        yield m[4], is_type


def imported(text):
    """The names that a file imports: of its own repository's modules, and of the kit's."""
    own, kit = set(), set()
    for line in text.split("\n"):
        m = USE.match(code_of(line, "--")[0])
        if m and m[2]:
            for it in m[2].split(","):
                (own if OWN.match(m[1]) else kit).add(it.strip().split(" as ")[0])
                (own if OWN.match(m[1]) else kit).add(it.strip().split(" as ")[-1])
    return own, kit


def main():
    global OWN
    crates = sorted(c for c in os.listdir("crates") if os.path.isdir(os.path.join("crates", c)))
    OWN = re.compile(r"Rattle\.(" + "|".join(crates) + r")\b")
    kit = set()
    for p in files(KIT, ".antt"):
        for line in read(p).split("\n"):
            kit |= {t for t in TOKEN.findall(code_of(line, "--")[0]) if "-" in t}
    new, types, clash = {}, set(), False
    antt = list(files("crates", ".antt"))
    for p in antt:
        if os.path.basename(p) == "Proof.antt":
            continue
        for name, is_type in declarations(read(p)):
            if is_type:
                types.add(name)
            if "-" in name or (is_type and "_" in name):
                new.setdefault(name, None)
    for name in new:
        new[name] = OVERRIDE.get(name) or (camel(name) if name in types and name[0].isupper() else snake(name))
    done = {}
    for name, it in sorted(new.items()):
        if done.setdefault(it, name) != name:
            print(f"falls together: {name} and {done[it]} are {it}")
            clash = True
    plans = {}
    for p in antt + list(files("crates", ".rt")):
        text = read(p)
        own, of_kit = imported(text)
        is_proof = os.path.basename(p) == "Proof.antt"
        mark = "//" if p.endswith(".rt") else "--"
        answers = {m[1] for l in text.split("\n") if (m := ANSWER.match(l))}
        declared = {n for n, _ in declarations(text)} if p.endswith(".antt") else set()
        folder = os.path.basename(os.path.dirname(p))
        local = {}
        if is_proof:
            for n in declared - answers:
                if "-" in n and n not in new:
                    local[n] = snake(n) if not n[0].isupper() else camel(n)
        taken = {}

        def turned(t, before, in_code):
            if "-" not in t and t not in new:
                return t
            if t in ("-", "--", "->") or t.startswith("--"):
                return t
            if is_proof and t == folder + "-spec" or is_proof and t.replace("-", "_") == folder + "_spec":
                return folder + "_spec"
            if t in local:
                return local[t]
            if t in answers and not before.endswith("."):
                return t
            if t in of_kit and t not in own and t not in declared and not before.endswith("."):
                return t
            if t in new:
                if is_proof and before.endswith(".") and (t in GENERATED or re.search(r"\b(tie|goal)\.$", before)):
                    return t
                return new[t]
            if not in_code or t in kit or before.endswith(".") or GENERATED_FORM.match(t):
                return t
            # a name that is bound in this file alone
            bound = re.search(r"(λ[^.]*|let |[({] ?(?:[^\s(){}:]+ )*)" + re.escape(t) + r"(?=[\s:).])", text)
            return snake(t) if bound and t[0].islower() else t

        def line_of(line):
            code, comment = code_of(line, mark)
            if p.endswith(".rt") and not re.search(r"ghost |requires|ensures|λ|[{}×≡≤<]|→", code):
                pass
            out, at = [], 0
            for m in TOKEN.finditer(code):
                out.append(code[at:m.start()])
                it = turned(m[0], code[: m.start()], True)
                if it != m[0]:
                    taken.setdefault(it, set()).add(m[0])
                out.append(it)
                at = m.end()
            out.append(code[at:])
            comment = re.sub(r"`[^`]*`", lambda q: TOKEN.sub(lambda m: turned(m[0], q[0][: m.start()], False), q[0]), comment)
            return "".join(out) + comment

        it = "\n".join(line_of(l) for l in text.split("\n"))
        for n, olds in taken.items():
            if len(olds) > 1 or re.search(r"(?<![^\s(){}\[\],;.:\"`@|])" + re.escape(n) + r"(?![^\s(){}\[\],;.:\"`@|])", "\n".join(code_of(l, mark)[0] for l in text.split("\n"))):
                print(f"look: {p}: {', '.join(sorted(olds))} becomes {n}, which the file has already" if len(olds) == 1 else f"look: {p}: {sorted(olds)} become {n}")
        if it != text:
            plans[p] = it
    if clash:
        print("nothing was written")
        return 1
    for p, it in plans.items():
        with open(p, "w", encoding="utf-8") as f:
            f.write(it)
    print(f"respelled: {len(new)} names, {len(plans)} files")
    return 0


# Names that rattle made for the steps of a proof, in the older spelling.
GENERATED = {"loop-test"}
# Names that would fall together with another.
OVERRIDE = {"P-read": "members_p_read", "None-open": "NoneIsOpen"}
GENERATED_FORM = re.compile(r"^(Need|At|In|After|Then|Else|Joined|Ok|invariant|decreases|returns|loop|same-length|skip)-|.*-(requires|result|test|index|end)(-\d+)?$")
OWN = None

if __name__ == "__main__":
    sys.exit(main())
