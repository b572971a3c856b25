#!/usr/bin/env python3
"""Respells the repository's own names as the language's library spells its own: words in snake case, types and modules in camel case.

usage: tools/respell.py [TOP]    once, in a tree that port.py has just turned

Renamed are the definitions, lemmas, fields and constructors that .antt files below crates/ declare: camelCase and dashes become snake_case. Where two
names fall together, the definition keeps the plain name and the lemma gets _lem behind it. Two crates that are named as libraries of the language are
renamed as well (CRATES). Sources keep the names of their functions, types and fields; must-fail edits are respelled with the files that they change.
"""

import collections
import os
import re
import sys

CRATES = {"hex": "hex_digits", "log": "evidence_log"}
WORD = r"[^\W\d](?:[\w'◌-]*[\w'◌])?"
NAME = re.compile(r"(?<![\w'◌.-])" + WORD + r"|(?<=\.)" + WORD + r"|◌[\w'-]+◌")
DECLARED = re.compile(r"^\s*(?:unfoldable |abbrev |pub )*((?:[^\s:(){}=,;|]+ )+):(?: |$)")
KEPT = re.compile(r"^\s*(?:--|use |ghost |λ|let |in |∙|\||→)")


def files(top, endings):
    for folder, dirs, names in os.walk(os.path.join(top, "crates")):
        dirs[:] = sorted(d for d in dirs if d != "out")
        for name in sorted(names):
            if name.endswith(endings):
                yield os.path.join(folder, name)


def read(path):
    with open(path, encoding="utf-8") as f:
        return f.read()


def snake(name):
    return re.sub(r"([a-z0-9])([A-Z])", lambda m: m[1] + "_" + m[2].lower(), name).replace("-", "_")


def declared(text):
    """The names that a file declares."""
    found = set()
    for line in text.split("\n"):
        if KEPT.match(line):
            continue
        m = DECLARED.match(line)
        if m and not re.match(r" *tie\.", line[m.end() :]):
            found |= {w for w in m[1].split() if not re.search(r"[\[\]λ⊢≡]", w)}
    return found


def table(names):
    """Each name that changes, with its new one."""
    groups = collections.defaultdict(list)
    for name in sorted(names):
        if name.strip("◌")[:1].isupper():
            groups[name].append(name)
        else:
            groups[snake(name)].append(name)
    new = {}
    for plain, olds in groups.items():
        olds.sort(key=lambda o: (not re.search(r"[a-z][A-Z]", o), "-" in o, o))
        for n, old in enumerate(olds):
            to = plain + "_lem" * n
            if to != old:
                new[old] = to
    return new


def foreign(text):
    """The names that a file brings in from elsewhere than this repository's crates."""
    found = set()
    for m in re.finditer(r"(?m)^(?:ghost )?use (\S+)\.\{([^}]*)\}", text):
        if not re.match(r"Rattle\.(?!std\.)", m[1]):
            found |= {w.split(" as ")[0].strip() for w in m[2].split(",")}
    return found


def respelled(text, new, kept, comment):
    """The text with its names turned, in comments only those between backticks."""

    def name(m):
        w = m[0]
        if w in kept:
            return w
        return new.get(w, w)

    lines = []
    for line in text.split("\n"):
        at = line.find(comment)
        code, said = (line, "") if at < 0 else (line[:at], line[at:])
        said = re.sub(r"`[^`]*`", lambda q: NAME.sub(name, q[0]), said)
        lines.append(NAME.sub(name, code) + said)
    return "\n".join(lines)


def paths(text):
    """The text with the renamed crates in its paths."""
    for old, to in CRATES.items():
        text = re.sub(r"\bRattle\.%s\." % old, "Rattle.%s." % to, text)
        text = re.sub(r"(?<![\w.:'-])%s::" % old, to + "::", text)
    return text


def main(top):
    own = {path: declared(read(path)) for path in files(top, ".antt")}
    new = table(set().union(*own.values()))
    for old, to in list(new.items()):
        if old.startswith("◌"):
            new[old.strip("◌")] = to.strip("◌")
    for path in files(top, (".antt", ".rt", ".edit")):
        text = read(path)
        kept = foreign(text) - own.get(path, set())
        turned = paths(respelled(text, new, kept, "//" if path.endswith(".rt") else "--"))
        if turned != text:
            with open(path, "w", encoding="utf-8") as f:
                f.write(turned)
    for old, to in CRATES.items():
        os.rename(os.path.join(top, "crates", old), os.path.join(top, "crates", to))
    listed = os.path.join(top, "crates.txt")
    text = read(listed)
    for old, to in CRATES.items():
        text = re.sub(r"(?m)^(?!#)(.*)$", lambda m: re.sub(r"(?<!\w)%s(?!\w)" % old, to, m[1]), text)
    with open(listed, "w", encoding="utf-8") as f:
        f.write(text)
    with open(os.path.join(top, "tools", "respelled.txt"), "w", encoding="utf-8") as f:
        f.writelines("%s %s\n" % pair for pair in sorted(new.items()))


if __name__ == "__main__":
    main(sys.argv[1] if len(sys.argv) > 1 else ".")
