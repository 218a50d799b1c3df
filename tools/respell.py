#!/usr/bin/env python3
"""Spells this repository's own definitions and lemmas as today's Rattle spells names.

usage: python3 tools/respell.py [FOLDER]

Run it once, after port.py, at the top of a checkout (or give its folder). Types are in upper camel case, all else in
snake case: `Place-of-token` becomes `PlaceOfToken`, `op-code` becomes `op_code`. A lemma that would then have the name of
a function of its crate gets `_lem` behind it. Names that Rattle makes of the source, strings, comments in code and the
names of files stay.
"""
import os
import re
import sys

NAME = r'[^\s(){}.;,@"«»`]+'
# Lemmas that would meet a function of their own crate, and a definition that would meet one of the library.
SPECIAL = {
    name: name.replace("-", "_") + "_lem"
    for name in """code-means examples-come-out emit-delay never-trapped one-reading put-delay refused-rightly stamps-last
    told-in-order told-words unassigned-stays unread-is-nothing unread-unseen words-of-words write-code""".split()
}
SPECIAL["If-ok"] = "OkHolds"

DECLARED = re.compile(
    r"^\s*(?:(?:abbrev|unfoldable|pub|mutual) +)*(?:(?:record|data|ruleset) )?(" + NAME + r")(?: *[({][^:]*:[^)}]*[)}])* *:(?!=)"
)
TYPE = re.compile(r"^\s*(?:(?:abbrev|unfoldable|pub) +)*(?:record|data|ruleset) (" + NAME + ")")
MADE = ("Answers.antt", "Invariants.antt", "Proof.antt")


def files(root):
    for folder, dirs, names in os.walk(os.path.join(root, "crates")):
        dirs[:] = sorted(d for d in dirs if d != "out")
        for name in sorted(names):
            if name.endswith((".antt", ".rt", ".edit")):
                yield os.path.join(folder, name)
    for folder in (root, os.path.join(root, "docs")):
        for name in sorted(os.listdir(folder)):
            if name.endswith(".md") and not name.startswith("PORT"):
                yield os.path.join(folder, name)


def declared(root):
    found = set()
    for path in files(root):
        if not path.endswith(".antt") or os.path.basename(path) in MADE:
            continue
        with open(path, encoding="utf-8") as f:
            for line in f:
                for form in (DECLARED, TYPE):
                    m = form.match(line)
                    if m:
                        found.add(m.group(1))
    return found


def spelled(name):
    if name in SPECIAL:
        return SPECIAL[name]
    if name[0].isupper():
        return "".join(part[:1].upper() + part[1:] for part in re.split("[-_]", name))
    return name.replace("-", "_")


# A name that a line `use` gives an import in one file.
ALIAS = re.compile(r"(?<= as )(" + NAME + r")(?=[,}])")


def aliases(text, path):
    """The names with a dash that the file gives its imports, each with its spelling, where that is free."""
    found = {}
    for line in re.findall(r"^(?:pub |ghost )?use .*$", text, re.M):
        for name in ALIAS.findall(line):
            if "-" in name:
                found[name] = spelled(name)
    taken = set(re.findall(NAME, text))
    for name in [name for name in found if found[name] in taken]:
        print(f"respell: {path}: {name} stays, {found[name]} is taken")
        del found[name]
    return found


def turned(text, names, own, path):
    if path.endswith(".antt"):
        skip = r'"(?:[^"\\\n]|\\.)*"'
    elif path.endswith(".md"):
        skip = r"```.*?```"
    else:
        skip = r'"(?:[^"\\\n]|\\.)*"|//[^\n]*'

    def one(m):
        if m.group("name") is None:
            return m.group()
        name = m.group("name")
        if name not in names:
            return name
        # behind a dot stands a name that Rattle makes of a function: it keeps that function's name
        if name in SPECIAL and m.start() > 0 and text[m.start() - 1] == "." and name[0].islower():
            return name.replace("-", "_")
        return names[name]

    def page(m):
        name = m.group()
        if name in names:
            return names[name]
        # port.py turned it before
        return spelled(name) if "-" in name and spelled(name) in own else name

    if path.endswith(".md"):
        # only what stands between backquotes
        return re.sub(r"```.*?```|`[^`\n]*`", lambda q: q.group() if q.group().startswith("```") else re.sub(NAME, page, q.group()), text, flags=re.S)
    return re.sub(rf"(?:{skip})|(?P<name>{NAME})", one, text)


def main(argv):
    root = argv[0] if argv else "."
    own = declared(root)
    names = {name: spelled(name) for name in own if "-" in name or (name[0].isupper() and "_" in name)}
    changed = 0
    for path in files(root):
        with open(path, encoding="utf-8", newline="") as f:
            old = f.read()
        here = aliases(old, path) if path.endswith((".antt", ".rt")) else {}
        new = turned(old, names | here, own, path)
        if new != old:
            with open(path, "w", encoding="utf-8", newline="") as f:
                f.write(new)
            changed += 1
    print(f"respell: {len(names)} names, {changed} files changed")


main(sys.argv[1:])
