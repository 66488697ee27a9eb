#!/usr/bin/env python3
"""Gives the repository's own definitions, constructors, fields and lemmas today's spelling: words in snake case.

usage: tools/respell.py        at the top, once, behind the kit's port.py

A camel hump or a dash in a name that a file of specs/ or proofs/ declares becomes an underscore (`inRange16`: `in_range16`, `un-zig`: `un_zig`, `NO-ROOM`:
`NO_ROOM`); types, modules, goals' names and names from Rattle source stay. A token is renamed only where the file declares it, imports it from a file of
this repository, or has it behind a dot as a field or a constructor of one. Edits are turned with the files that they change. It stops where two names
would fall together.
"""
import glob
import os
import re
import sys

TOKEN = re.compile(r"[^\s(){}\[\];,.:\"`←⟨⟩]+")
DECLARED = re.compile(r"^\s*(?:(?:abbrev|unfoldable|pub|infix\w*) +)*(?P<n>[^\s(){}\[\];,.:]+)(?: *\{[^}]*\})* *:(?= |$)")
BLOCK = re.compile(r"^\s*(?:(?:abbrev|unfoldable|pub) +)*(?:record|data|ruleset) (?P<n>[^\s(){}\[\];,.:]+)")
USED = re.compile(r"(?m)^(\s*(?:pub )?(?:ghost )?use )(Rattle\.(\w+)\.(specs|proofs)\.([\w.+']+))\.\{([^}]*)\}")
GARBLED = {"List-cases": "list_cases", "Bool-cases": "bool_cases", "Went-or": "went_or"}


def spelled(name):
    if name in GARBLED:
        return GARBLED[name]
    if name.startswith(("+", "◌")) or not re.match(r"^[\w'-]+$", name):
        return name
    if name[0].isupper() and not re.match(r"^[A-Z0-9]+(-[A-Z0-9]+)+$", name):
        return name.replace("-", "_") if re.match(r"^[A-Z]-\w+$", name) else name
    if re.match(r"^[A-Z0-9-]+$", name):
        return name.replace("-", "_")
    # what is called behind a fact keeps its capital: `all-Sound` is `all_Sound`
    return re.sub(r"(?<=[a-z0-9])([A-Z])", lambda m: "_" + m[1].lower(), name).replace("-", "_") if re.match(r"^[^\W\d_]", name) else name


def files():
    return sorted(p for p in glob.glob("crates/*/*/**/*.antt", recursive=True) if "/out/" not in p)


def is_proof(p):
    parts = p.split("/")
    return parts[2] == "proofs" and len(parts) > 4 and parts[-1] in ("Proof.antt", "Invariants.antt", "Answers.antt")


def module(p):
    parts = p[: -len(".antt")].split("/")
    return ".".join(["Rattle"] + parts[1:])


def declared(text):
    names = set()
    for line in text.split("\n"):
        if line.lstrip().startswith("--"):
            continue
        for form in (DECLARED, BLOCK):
            m = form.match(line)
            if m:
                names.add(m["n"])
    return names


def turned(text, here, dotted):
    """The text with the names of `here` renamed, and those of `dotted` behind a dot or as a field of a record."""

    def one(m):
        t = m[0]
        behind = m.start() > 0 and text[m.start() - 1] == "." and text[m.start() - 2 : m.start() - 1] not in ("", " ", ".")
        if behind:
            return dotted.get(t, t)
        if t in here:
            return here[t]
        if t in dotted and re.match(r" =[ \n]", text[m.end() : m.end() + 3]) and re.search(r"([{;]\s|\n\s+)$", text[max(0, m.start() - 40) : m.start()]):
            return dotted[t]
        return t

    return TOKEN.sub(one, text)


def main():
    texts = {p: open(p, encoding="utf-8").read() for p in files()}
    named = {module(p): declared(t) for p, t in texts.items() if not is_proof(p)}
    alls = {n for s in named.values() for n in s}
    defined = {n for k, s in named.items() if ".specs." in k for n in s}
    dotted = {n: spelled(n) for n in alls if spelled(n) != n}
    # a lemma that would have its function's name gets _lem, and so does one that falls together with another name
    for new in sorted(set(dotted.values())):
        olds = sorted((n for n in alls if spelled(n) == new), key=lambda n: (n not in defined, "-" in n, n))
        if len([n for n in olds if n in defined]) > 1 and new != "last_id":
            print("two definitions fall together:", new, olds)
        for n in olds[1:]:
            dotted[n] = new + "_lem"
        if len(olds) > 2 or new + "_lem" in alls:
            print("three fall together:", new, olds)
    # a field, and no function that another crate defines
    dotted["last-id"] = "last_id"
    for n in ("or-else", "in-range", "is-none"):
        if n in dotted:
            dotted[n] = spelled(n) + "_lem"
    scope, said = {}, 0
    for p in sorted(texts) + sorted(glob.glob("crates/*/src/**/*.rt", recursive=True)):
        text = texts.get(p) or open(p, encoding="utf-8").read()
        mine = set() if is_proof(p) or p.endswith(".rt") else named[module(p)]
        foreign = set()
        for m in USED.finditer(text):
            words = [w.strip() for w in m[6].split(",")]
            olds = {w.split(" as ")[0].strip() for w in words}
            if m[2] in named or any(m[2].startswith(k + ".") for k in named):
                mine |= olds
            else:
                foreign |= olds
        for m in re.finditer(r"(?m)^\s*(?:pub )?(?:ghost )?use (?!Rattle\.)[\w.+'◌-]+\.\{([^}]*)\}", text):
            foreign |= {w.split(" as ")[-1].strip() for w in m[1].split(",")}
        for m in re.finditer(r"open [^\n]*? use \{([^}]*)\}", text):
            mine |= {w.split(" as ")[0].strip() for w in m[1].split(",")} & alls
        here = {n: dotted[n] for n in mine if n in dotted and n not in foreign}
        tokens = set(TOKEN.findall(text))
        for n, new in here.items():
            if new in tokens:
                print("stands already:", p, n, new)
                said += 1
        scope[p] = (here, foreign)
        for n in tokens & set(dotted) & foreign:
            print("foreign too:", p, n)
        new = turned(text, here, {k: v for k, v in dotted.items()})
        if p.endswith(".rt"):
            for a, b in zip(text.split("\n"), new.split("\n")):
                if a != b and '"' in a:
                    print("a string:", p, a)
        if new != text and "--dry" not in sys.argv:
            with open(p, "w", encoding="utf-8") as f:
                f.write(new)
    for e in sorted(glob.glob("crates/*/must-fail/*.edit") + glob.glob("crates/*/edits/*.edit")):
        crate = e.split("/")[1]
        lines, at, out = open(e, encoding="utf-8").read().split("\n"), None, []
        for l in lines:
            if l.startswith("file: "):
                at = f"crates/{crate}/{l[6:]}"
            if l.startswith(("old: ", "new: ")):
                l = l[:5] + turned(l[5:], scope.get(at, ({}, set()))[0], dotted)
            out.append(l)
        if out != lines and "--dry" not in sys.argv:
            with open(e, "w", encoding="utf-8") as f:
                f.write("\n".join(out))
    print(f"{len(dotted)} names respelled")


if __name__ == "__main__":
    main()
