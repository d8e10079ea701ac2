#!/usr/bin/env python3
"""Brings this repository's own definitions, constructors, fields and lemmas to snake case, and its facts to camel case.

usage: python3 tools/respell.py [--list]      at the top of the repository, once, right after the kit's port.py

Names come from the declarations in crates/*/specs and crates/*/proofs, and from the other names that imports give them.
Goals of functions, names of the library, functions of src/, strings, inputs and outputs keep theirs. With --list it only
prints what it would rename, and which names fall together.
"""
import collections
import glob
import re
import sys

TOKEN = r"[^\s(){}\[\],.;:\"`⟨⟩∣|]+"
DECL = re.compile(r"^(?:(?:abbrev|unfoldable) )?(?:pub )?(" + TOKEN + r") :(?: |$)")
HEAD = re.compile(r"^(?:abbrev |unfoldable )?(?:pub )?(?:record|data) (" + TOKEN + r")")
FIELD = re.compile(r"^  (?:pub )?(" + TOKEN + r") :(?: |$)")
# a declaration in a module with parameters is indented
INNER = re.compile(r"^ {2,}(?:(?:abbrev|unfoldable) )?(?:pub )?(" + TOKEN + r") :(?: |$)")
INDEX = re.compile(r"^--   (\S.*?)\s{3,}(\S.*)$")
WRAPPED = re.compile(r"^--\s{10,}(\S.*)$")


# These would fall together with a definition that keeps the plain name.
APART = {
    "also-taken": "also_taken_lem",
    "by-fields": "by_fields_lem",
    "is-log": "is_log_lem",
    "legal-log": "legal_log_lem",
    "change-block": "the_change_block",
    "commit-block": "the_commit_block",
}


def files(*ends):
    return sorted(f for e in ends for f in glob.glob(f"crates/*/{e}", recursive=True) if "/out/" not in f)


def declared():
    names = set()
    for f in files("specs/**/*.antt", "proofs/**/*.antt"):
        within = inner = False
        for line in open(f, encoding="utf-8"):
            if line.startswith("--"):
                continue
            head = HEAD.match(line)
            if head:
                names.add(head[1])
                within = True
                continue
            if within and FIELD.match(line):
                names.add(FIELD.match(line)[1])
                continue
            if inner and INNER.match(line):
                names.add(INNER.match(line)[1])
                continue
            if line.strip() and not line.startswith(" "):
                within = False
                inner = line.startswith(("module ", "pub module "))
            decl = DECL.match(line)
            # a goal of a function is named by the check
            if decl and not re.search(r": (?:goal|given|loops?|goals)\.", line):
                names.add(decl[1])
    # another name under which a definition is imported is a name of ours too
    for f in files("specs/**/*.antt", "proofs/**/*.antt", "src/**/*.rt"):
        for line in open(f, encoding="utf-8"):
            if line.startswith(("use ", "ghost use ")):
                names |= set(re.findall(r" as ([a-z][A-Za-z0-9]*[A-Z][A-Za-z0-9]*)", line))
    return names


def spelled(name):
    name = name.replace("getD", "get_or")
    if name in APART:
        return APART[name]
    if name[0] in "◌" or not re.search(r"[A-Za-z]", name):
        return name
    if name[0].isupper():
        # a fact or a type: its words joined, each with a capital
        parts = name.split("-")
        return "".join(p[0].upper() + p[1:] for p in parts if p) if "-" in name and "++" not in name else name
    out = re.sub(r"([a-z0-9])([A-Z])", lambda m: m[1] + "_" + m[2].lower(), name)
    return re.sub(r"-(?=[A-Za-z0-9])", "_", out)


def aligned(lines):
    """The index at the head of a file, its second column in one line again."""
    out, i = [], 0
    while i < len(lines):
        if not INDEX.match(lines[i]):
            out.append(lines[i])
            i += 1
            continue
        block = []
        while i < len(lines) and (INDEX.match(lines[i]) or WRAPPED.match(lines[i])):
            block.append(lines[i])
            i += 1
        width = max(len(INDEX.match(b)[1]) for b in block if INDEX.match(b)) + 4
        for b in block:
            row = INDEX.match(b)
            out.append("--   " + row[1].ljust(width) + row[2] if row else "--   " + " " * width + WRAPPED.match(b)[1])
    return out


def main():
    rename = {n: spelled(n) for n in declared() if spelled(n) != n}
    known = declared()
    back = collections.defaultdict(set)
    for n in known:
        back[rename.get(n, n)].add(n)
    for new, old in sorted(back.items()):
        if len(old) > 1:
            print("falls together:", new, sorted(old))
    if "--list" in sys.argv:
        for n in sorted(rename):
            print(n, "->", rename[n])
        return
    token = re.compile(TOKEN)
    for f in files("specs/**/*.antt", "proofs/**/*.antt", "src/**/*.rt"):
        with open(f, encoding="utf-8") as o:
            text = o.read()
        lines = text.split("\n")
        new = []
        for line in lines:
            # a line of src/ with a string stays: strings keep their text
            if f.endswith(".rt") and '"' in line:
                new.append(line)
                continue
            new.append(token.sub(lambda m: rename.get(m[0], m[0]), line))
        if f.endswith(".antt"):
            new = aligned(new)
        if new != lines:
            with open(f, "w", encoding="utf-8") as o:
                o.write("\n".join(new))


main()
