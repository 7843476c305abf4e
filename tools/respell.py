#!/usr/bin/env python3
"""Respells the repository's own definitions and lemmas: words in snake case, types and facts in camel case.

usage: tools/respell.py [--list]     at the top of the repository, once, after the toolchain's own upgrade scripts

A name that a file of specs/ or proofs/ declares with a dash gets `_` for the dash, or a capital where it begins with one.
In the proof files of a function the names of Rust keep their underscores. The crate `log` becomes `logs`, since the
toolchain has a library of its own of that name. Names of the library, goals, strings, inputs and outputs stay.
With --list nothing is written: the renamings are printed, and the names that would fall together.
"""

import os
import re
import sys

DECLARED = re.compile(r"^\s*(?:(?:abbrev|unfoldable|pub|private|data|record)\s+)*([^\s:(){}.,;]+)(?:\s+\([^)]*\)|\s+\{[^}]*\})*\s+:\s+(.*)$")
RECORD = re.compile(r"^\s*(?:pub\s+)?(?:data|record)\s+(?:pub\s+)?([^\s:(){}.,;]+)")
FOREIGN = re.compile(r"^use (?:Rattle\.(?:std|core)|borrow|mathlib|Prim|native|lib)[\w.]*?(?:\.\{([^}]*)\})?$")
MADE = [
    ("in-ok", "in_ok"), ("in-default", "in_default"), ("in-err", "in_err"), ("overflow-add", "overflow_add"), ("overflow-sub", "overflow_sub"),
    ("overflow-mul", "overflow_mul"), ("from-residual", "from_residual"),
]
# Endings that the toolchain gives the names of a loop: an index, its end, the items.
OF_LOOPS = re.compile(r"-(index|end|items|iterator)$")
EDGE = r"A-Za-z0-9_'\u0370-\u03ff"


def texts(suffix, *parts):
    for crate in sorted(os.listdir("crates")):
        for part in parts:
            for folder, dirs, files in os.walk(os.path.join("crates", crate, part)):
                dirs[:] = sorted(d for d in dirs if d != "out")
                for name in sorted(files):
                    if name.endswith(suffix):
                        yield os.path.join(folder, name)


def read(path):
    with open(path, encoding="utf-8") as f:
        return f.read()


def code(line, mark):
    """The line and its comment."""
    i = line.find(mark)
    return (line, "") if i < 0 else (line[:i], line[i:])


def respelt(name):
    if re.search(r"[+∷*∙]", name):
        return name
    if name[0].isupper():
        return "".join(p[:1].upper() + p[1:] for p in name.split("-"))
    return name.replace("-", "_")


def declared():
    names = {}
    for path in texts(".antt", "specs", "proofs"):
        for line in read(path).splitlines():
            text = code(line, "--")[0]
            m = RECORD.match(text)
            if m and "-" in m[1].strip("-"):
                names.setdefault(m[1], set()).add(path)
            m = DECLARED.match(text)
            if m and "-" in m[1].strip("-") and not m[2].startswith("goal."):
                names.setdefault(m[1], set()).add(path)
    return {n: respelt(n) for n in names if respelt(n) != n}, names


def foreign(text):
    """The names that a file takes from the library."""
    found = set()
    for line in text.splitlines():
        m = FOREIGN.match(line)
        if m and m[1]:
            for part in m[1].split(","):
                found.add(part.split(" as ")[-1].strip())
    return found


def rust_names():
    names = set()
    for path in texts(".rt", "src"):
        for line in read(path).splitlines():
            names |= set(re.findall(r"\b[a-z][a-z0-9]*(?:_[a-z0-9]+)+\b", code(line, "//")[0]))
    return sorted(names, key=lambda n: (-len(n), n))


def word(names):
    return re.compile(r"(?<![\w'-])(" + "|".join(re.escape(n) for n in sorted(names, key=len, reverse=True)) + r")(?![\w'-])")


def part(names):
    return re.compile(r"(?<![" + EDGE + r"])(" + "|".join(re.escape(n) for n in names) + r")(?![" + EDGE + r"])")


def by_code(text, mark, change):
    out = []
    for line in text.split("\n"):
        a, b = code(line, mark)
        out.append(change(a) + b)
    return "\n".join(out)


def main(argv):
    table, where = declared()
    own = word(table)
    dashed = {n.replace("_", "-"): n for n in rust_names()}
    dashed.update(dict(MADE))
    inner = part(sorted(dashed, key=len, reverse=True))
    token = re.compile(r"[A-Za-z_][\w'-]*")

    def turn_antt(path, text):
        kept = foreign(text)
        made = os.path.basename(path) in ("Answers.antt", "Invariants.antt", "Proof.antt")

        def one(m):
            t = m[0]
            if made and m.start() and m.string[m.start() - 1] == "." and OF_LOOPS.search(t):
                return inner.sub(lambda k: dashed[k[1]], t)
            if t in kept:
                return t
            if t in table:
                return table[t]
            return inner.sub(lambda k: dashed[k[1]], t) if made and "-" in t else t

        return by_code(text, "--", lambda a: token.sub(one, a))

    def turn_rt(path, text):
        return by_code(text, "//", lambda a: own.sub(lambda m: table[m[1]], a))

    together = []
    changed = {}
    for path in list(texts(".antt", "specs", "proofs")) + list(texts(".rt", "src")) + list(texts(".edit", "must-fail")):
        text = read(path)
        new = turn_antt(path, text) if path.endswith(".antt") else turn_rt(path, text)
        if new != text:
            changed[path] = new
        had = set(token.findall(text))
        for n in had & set(table):
            if table[n] in had or (path.endswith(".antt") and sum(table.get(o) == table[n] for o in had) > 1):
                together.append(f"{path}: {n} beside {table[n]}")
    if "--list" in argv:
        for n in sorted(table):
            print(f"{n} -> {table[n]}   {', '.join(sorted(where[n]))[:150]}")
        print("\n".join(["", "fall together:"] + together))
        return 0
    for path, new in changed.items():
        with open(path, "w", encoding="utf-8") as f:
            f.write(new)
    rename_log()
    print(f"{len(table)} names respelt in {len(changed)} files; {len(together)} places to look at")
    return 0


def rename_log():
    if not os.path.isdir("crates/log"):
        return
    os.rename("crates/log", "crates/logs")
    for path in list(texts(".antt", "specs", "proofs")) + list(texts(".rt", "src")) + list(texts(".edit", "must-fail")) + ["crates.txt"]:
        text = read(path)
        new = re.sub(r"\bRattle\.log\.", "Rattle.logs.", text)
        new = re.sub(r"(?<![\w.:])log::", "logs::", new)
        if path == "crates.txt":
            new = re.sub(r"\blog\b", "logs", new)
        if new != text:
            with open(path, "w", encoding="utf-8") as f:
                f.write(new)


if __name__ == "__main__":
    raise SystemExit(main(sys.argv[1:]))
