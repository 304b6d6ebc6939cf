#!/usr/bin/env python3
"""Spells this repository's own definitions and lemmas in snake case, once, after the kit's port.py.

usage: tools/respell.py         at the top of the checkout; it writes files in place, and prints what it renamed

A name is the repository's own where a file of specs/ or proofs/ declares it; types, modules, and what Rattle makes of a function (the labels of its
Proof.antt) stay. A definition gets its own words joined by `_`. A lemma gets them too; where a file has a definition that is then spelled alike, the lemma
gets `_law` at its end. A name is turned in .antt files, in .rt files, in must-fail edits, and in comments and pages between backticks.
"""

import collections
import os
import re
import subprocess
import sys

NAME = r"[^\s(){}\[\].;,@\"«»`]+"
TOKEN = re.compile(r"(?<![^\s(){}\[\].;,@\"«»`|])(%s)" % NAME)
DECLARED = re.compile(r"(?m)^( *)((?:abbrev |unfoldable |pub |let )*)(%s)(?: \{[^{}\n]*\})* :(?= |\n)(.*)" % NAME)
RULESET = re.compile(r"\bruleset (%s) =" % NAME)
LABEL = re.compile(r"tie\.|stated\.|goal\.")
USE = re.compile(r"\buse ([^\s;{]+)(\{[^;]*?\}(?=;|[ \t]*$))?", re.M)
MADE = re.compile(r"-spec$")


def own_files(root):
    out = subprocess.run(["git", "ls-files", "--cached", "--others", "--exclude-standard"], cwd=root, capture_output=True, text=True, check=True).stdout
    return [os.path.join(root, p) for p in out.splitlines() if os.path.isfile(os.path.join(root, p))]


def snake(name):
    words = re.sub(r"(?<=[a-z0-9'])([A-Z])", lambda m: "_" + m[0].lower(), name)
    return words.replace("-", "_")


def is_old(name):
    return name[0].islower() and bool("-" in name or re.search(r"[A-Z]", name))


def read(path):
    with open(path, encoding="utf-8") as f:
        return f.read()


def code_of(text):
    return re.sub(r"--[^\n]*", " ", text)


def labels_of(text):
    """The names that Rattle makes, declared in this proof of a function."""
    return {m[3] for m in DECLARED.finditer(text) if LABEL.search(m[4]) or MADE.search(m[3])}


def is_proof(path):
    return os.path.basename(path) in ("Proof.antt", "Answers.antt", "Invariants.antt")


def collect(files):
    """Each own name in the old spelling, and the one that it gets."""
    declared, defined, tokens, imports = set(), set(), {}, {}
    for p in files:
        if not p.endswith((".antt", ".rt")):
            continue
        text = read(p)
        if p.endswith(".antt"):
            code = code_of(text)
            labels = labels_of(code) if is_proof(p) else set()
            names = {m[3] for m in DECLARED.finditer(code)} - labels | set(RULESET.findall(code))
            declared |= names
            if "/specs/" in p:
                defined |= names
            tokens[p] = set(TOKEN.findall(code)) - labels
        else:
            tokens[p] = set()
        lent = set()
        for path, items in USE.findall(text):
            steps = path.strip(".").split(".")
            if steps[:2] == ["Rattle", "std"] or steps[0] != "Rattle":
                lent.update(re.findall(NAME, items) or steps[-1:])
        imports[p] = lent
    old = {n for n in declared if is_old(n)}
    table = {n: snake(n) for n in old}
    groups = collections.defaultdict(set)
    for n in declared:
        groups[table.get(n, n)].add(n)
    for new, names in sorted(groups.items()):
        meet = any(len(names & t) > 1 for t in tokens.values())
        if len(names) < 2 or not meet:
            continue
        first = sorted(names, key=lambda n: (n not in defined, "-" in n, n))[0]
        for n in names - {first}:
            if n in defined and first in defined:
                sys.exit(f"respell: two definitions would be called {new}: {first}, {n}")
            table[n] = new + "_law"
    for p, t in tokens.items():
        for n in sorted(t & set(table)):
            if table[n] in imports[p] or table[n] in t - {n}:
                if table[n] in imports[p]:
                    print(f"look: {p}: {n} would be {table[n]}, which it imports from a library")
                    table[n] += "_law" if "-" in n else "_own"
    fields = set()
    for p in tokens:
        if p.endswith(".antt"):
            fields |= {m[3] for m in re.finditer(r"(?m)^( +)((?:pub )*)(%s) :(?= |\n)" % NAME, code_of(read(p)))}
    return table, fields


def turned(text, table, skip=frozenset(), fields=None):
    """The text with the names of the table; `fields`: behind a dot only these."""

    def one(m):
        n = m[1]
        if n in skip or n not in table:
            return n
        if text[m.start() - 1 : m.start()] == "." and (not is_old(n) or fields is not None and n not in fields):
            return n
        return table[n]

    return TOKEN.sub(one, text)


def in_ticks(text, table):
    return re.sub(r"`[^`\n]+`", lambda m: turned(m[0], table), text)


def comment(text, table):
    """A comment: names in camel case, and others between backticks or behind a path of proofs."""
    camel = {n: new for n, new in table.items() if re.search(r"[a-z0-9][A-Z]", n)}
    text = in_ticks(turned(text, camel), table)
    return re.sub(r"\(proofs/[^()]*\)", lambda m: turned(m[0], table), text)


def antt(text, table, fields, proof):
    skip = labels_of(code_of(text)) if proof else frozenset()
    out = []
    for line in text.split("\n"):
        at = line.find("--")
        head, tail = (line, "") if at < 0 else (line[:at], line[at:])
        out.append(turned(head, table, skip, fields if proof else None) + comment(tail, {n: new for n, new in table.items() if is_old(n)}))
    return "\n".join(out)


def rust(text, table):
    out = []
    for line in text.split("\n"):
        at = line.find("//")
        head, tail = (line, "") if at < 0 else (line[:at], line[at:])
        out.append(turned(head, table) + comment(tail, table))
    return "\n".join(out)


def edit(text, table):
    out = []
    for line in text.split("\n"):
        if line.startswith("#"):
            out.append(comment(line, table))
        elif line.startswith("file:"):
            out.append(line)
        else:
            out.append(turned(line, table))
    return "\n".join(out)


def main():
    root = subprocess.run(["git", "rev-parse", "--show-toplevel"], capture_output=True, text=True, check=True).stdout.strip()
    files = own_files(root)
    table, fields = collect(files)
    camel_or_dash = {n: new for n, new in table.items() if is_old(n)}
    changed = 0
    for p in files:
        if p.endswith((".antt", ".rt", ".edit")):
            text = read(p)
            if p.endswith(".antt"):
                new = antt(text, table, fields, is_proof(p))
            elif p.endswith(".rt"):
                new = rust(text, camel_or_dash)
            else:
                new = edit(text, camel_or_dash)
        elif p.endswith(".md"):
            text = read(p)
            new = in_ticks(text, camel_or_dash)
        else:
            continue
        if new != text:
            changed += 1
            with open(p, "w", encoding="utf-8") as f:
                f.write(new)
    for n in sorted(table):
        if table[n] != snake(n):
            print(f"{n}: {table[n]}")
    print(f"respell: {len(table)} names, {changed} files")


if __name__ == "__main__":
    main()
