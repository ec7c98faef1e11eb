#!/usr/bin/env python3
"""Brings the repository's own names in specs/, proofs/ and clauses to snake case, once, after the toolchain's port.py.

usage: python3 tools/respell.py          at the top of the repository

A dash inside a name that this repository defines becomes an underscore: definitions, lemmas, fields, constructors and names bound in a proof. A few facts get camel case (CAMEL).
Names that a file brings in from the toolchain's libraries keep their spelling, and so do the names that the prover makes of a function's code (after `tie.`). Strings, Rust's names, inputs
and outputs aren't touched. Names that would fall together are printed, and nothing is written then.
"""

import glob
import os
import re
import sys

# facts, which are spelled as types
CAMEL = {"In-range": "IsInRange", "Step-into": "StepsInto", "Inv-loop": "InvLoop", "Justifies-at": "JustifiesAt"}
# fields of Rust's structs, which stand in a record beside a definition of the same words
FIELDS = {"free_count"}
# the first parts of paths whose last names aren't this repository's
LIBRARIES = {"tie", "native", "lib", "mathlib", "borrow", "Prim"}
# a type joined to a lemma's name keeps its dash
KEPT = {"T-dec"}

EDGE = r"\s(){}\[\];,.:`\"@"
NAME = re.compile(rf"(?<![^{EDGE}])([A-Za-z_][^{EDGE}]*-[^{EDGE}]*)(?![^{EDGE}])")
USE = re.compile(r"^\s*(?:ghost )?(?:pub )?use ([^\s;{]+?)(?:\.\{([^}]*)\})?(?: as (\S+?))?;?\s*$", re.M)
DEFINED = re.compile(r"^\s*(?:(?:abbrev|unfoldable|pub|record|data|ruleset)\s+)*([A-Za-z_][^\s(){}\[\];,.:]*(?:\s+[A-Za-z_][^\s(){}\[\];,.:]*)*)(?:\s+[({][^:=]*:[^=]*[)}])*\s+:\s", re.M)


def crates():
    return sorted(c for c in os.listdir("crates") if os.path.isdir(os.path.join("crates", c, "src")))


def own_module(path, names):
    parts = path.split(".")
    return len(parts) > 2 and parts[0] == "Rattle" and parts[1] in names


def outside(text, names):
    """The names that a file brings in from elsewhere."""
    found = set()
    for path, listed, _ in USE.findall(text):
        if own_module(path, names):
            continue
        for item in (listed or "").split(","):
            words = item.split()
            if words:
                found.add(words[0])
                found.add(words[-1])
    return found


def respelled(name):
    if name in CAMEL:
        return CAMEL[name]
    return name.replace("-", "_")


def is_walk(path):
    return os.path.basename(path) == "Proof.antt"


def main():
    names = set(crates())
    files = sorted(glob.glob("crates/*/specs/**/*.antt", recursive=True) + glob.glob("crates/*/proofs/**/*.antt", recursive=True))
    texts = {p: open(p, encoding="utf-8").read() for p in files}
    sources = {p: open(p, encoding="utf-8").read() for p in sorted(glob.glob("crates/*/src/**/*.rt", recursive=True))}
    defined = set()
    for p, t in texts.items():
        if not is_walk(p):
            for group in DEFINED.findall(t):
                defined.update(group.split())
    defined -= KEPT

    def turn(text, wanted, kept):
        def one(m):
            n = m.group(1)
            path = re.search(rf"[^{EDGE}]*(?:\.[^{EDGE}]+)*\.$", text[max(0, m.start() - 200) : m.start()])
            root = path.group(0).split(".")[0] if path else ""
            if n in kept or n in KEPT or root in LIBRARIES or not wanted(n):
                return n
            return respelled(n)

        return NAME.sub(one, text)

    def turn_comment(line):
        return re.sub(r"`[^`]*`", lambda m: turn(m.group(0), lambda n: n in defined, set()), line)

    def turn_antt(path, text):
        kept = outside(text, names)
        wanted = (lambda n: n in defined) if is_walk(path) else (lambda n: True)
        lines = []
        for line in text.split("\n"):
            code, dash, comment = line, "", ""
            m = re.search(r"(^|\s)--(\s|$)", line)
            if m:
                code, comment = line[: m.start()], line[m.start() :]
            lines.append(turn(code, wanted, kept) + turn_comment(comment))
        return "\n".join(lines)

    def turn_rt(text):
        kept = outside(text, names)
        lines, clause = [], False
        for line in text.split("\n"):
            s = line.strip()
            if s.startswith(("requires", "ensures", "ghost use", "ghost ")):
                clause = True
            if s.startswith("//"):
                line = turn_comment(line)
            elif clause:
                line = turn(line, lambda n: n in defined, kept)
            if clause and (s.endswith("}") or s.endswith(";")):
                clause = False
            lines.append(line)
        return "\n".join(lines)

    # Names that would fall together: two own names of one module, or an own name and one that a file that uses it has from elsewhere.
    bad = []
    for p, t in texts.items():
        here = {}
        for group in DEFINED.findall(t):
            for n in group.split():
                here.setdefault(respelled(n), set()).add(n)
        bad += [f"{p}: {sorted(v)} fall together" for v in here.values() if len(v) > 1]
        got = outside(t, names)
        # module paths and members behind a dot aside
        bare = re.sub(r"(?m)(^|\s)--(\s.*)?$", "", re.sub(r"Rattle\.[\w.]*\w", "", t))
        for n in set(NAME.findall(t)):
            if n not in got and (n in defined or not is_walk(p)) and respelled(n) != n and respelled(n) not in FIELDS and (respelled(n) in got or re.search(rf"(?<![^\s()\[\]{{}};,:`\"@]){re.escape(respelled(n))}(?![^{EDGE}])", bare)):
                bad.append(f"{p}: {n} falls together with {respelled(n)}")
    if bad and "--anyway" not in sys.argv:
        print("\n".join(bad))
        return 1
    changed = 0
    for p, t in texts.items():
        n = turn_antt(p, t)
        if n != t:
            open(p, "w", encoding="utf-8").write(n)
            changed += 1
    for p, t in sources.items():
        n = turn_rt(t)
        if n != t:
            open(p, "w", encoding="utf-8").write(n)
            changed += 1
    print(f"{changed} files, {sum(1 for n in defined if '-' in n)} names")
    return 0


if __name__ == "__main__":
    raise SystemExit(main())
