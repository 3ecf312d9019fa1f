#!/usr/bin/env python3
"""Brings this repository's own names of definitions and lemmas to the kit's spelling, once, after the kit's port.py.

usage: respell.py    at the top of a repository that port.py has turned

A definition, a field or a constructor is spelled in snake case, a fact in camel case. A lemma is spelled in snake case too; a dash stays in
its name where it joins two names of definitions. Where two names of one file would fall together, a lemma's dash stays, or its name gets
`_lem`. Functions, strings, inputs and outputs keep theirs. Prints what was respelled.
"""

import collections
import glob
import re

WORD = r"[^\W\d][\w'′₀-₉-]*"
TOKEN = re.compile(WORD)
DEFINED = re.compile(r"^\s*(?:(?:unfoldable|abbrev|opaque|pub|data|record)\s+)*(" + WORD + r")\s*(?:[({].*)?:\s")
FACTS = {"clearFrom": "ClearFrom", "countBelow": "CountBelow"}


def read(path):
    with open(path, encoding="utf-8") as f:
        return f.read()


def antt(folder):
    return sorted(glob.glob(f"crates/*/{folder}/**/*.antt", recursive=True))


def of_function(path):
    return path.split("/")[2] == "proofs" and path.count("/") > 3


def snake(name):
    return re.sub(r"(?<=[a-z0-9])([A-Z])", lambda m: "_" + m[1].lower(), name)


def defined(paths):
    found = set()
    for path in paths:
        for line in read(path).split("\n"):
            m = DEFINED.match(line)
            if m and not line.lstrip().startswith(("--", "use ", "let ", "in ", "unfolding ")):
                found.add(m[1])
    return found


def imported(text, own):
    """The names that a file takes from the kit's library, or, with `own`, from this repository's specs/."""
    names = set()
    for path, group in re.findall(r"use ([\w.◌'+-]+)\.\{([^}]*)\}", text):
        crate = re.match(r"Rattle\.(\w+)\.", path + ".")
        ours = bool(crate) and crate[1] not in ("std", "core")
        if ours == own and (not own or ".specs." in path):
            names |= {n.split(" as ")[-1].strip() for n in group.split(",")}
    return names


def spelled(name, known):
    """A lemma's name: a dash stays between two names of definitions."""
    parts = name.split("-")
    out = snake(parts[0])
    for before, part in zip(parts, parts[1:]):
        joins = before in known and part in known
        out += ("-" if joins else "_") + snake(part)
    return out


def spelling():
    specs, lemmas = antt("specs"), [p for p in antt("proofs") if not of_function(p)]
    words, facts = defined(specs), defined(lemmas)
    known = {w for w in words if "-" not in w}
    for path in specs:
        known |= imported(read(path), False)
    new = {}
    for name in words | facts | defined(antt("proofs")):
        if not name[0].islower():
            continue
        if name in FACTS:
            new[name] = FACTS[name]
        elif "-" not in name:
            new[name] = snake(name)
        elif name in words | facts:
            new[name] = spelled(name, known) if name in facts else snake(name.replace("-", "_"))
    return new, words


def tokens(text):
    return {m[0] for m in TOKEN.finditer(text) if text[m.start() - 1] != "." or text[m.end() : m.end() + 1] != "."}


def together(new, words):
    """Names of one file that would fall together: the lemma's dash stays, or it gets `_lem`."""
    changed = True
    while changed:
        changed = False
        for path in antt("specs") + antt("proofs"):
            text = read(path)
            groups = collections.defaultdict(set)
            for t in tokens(text) - imported(text, False):
                groups[new.get(t, t)].add(t)
            for group in groups.values():
                for name in sorted(group - words if len(group) > 1 else ()):
                    if "-" in name and new.get(name, name) != snake(name):
                        new[name], changed = snake(name), True
                    elif "-" not in name and new.get(name) == name and name in new and (group & words or of_function(path)):
                        new[name], changed = name + "_lem", True
    of_words = {new[w] for w in words if w in new}
    for name in new:
        if "-" in name and name not in words and new[name] in of_words:
            new[name] = snake(name)
    return new


def respell(text, new, keep):
    return TOKEN.sub(lambda m: m[0] if m[0] in keep else new.get(m[0], m[0]), text)


def source(text, new):
    """Clauses and comments of a source; a function's own names and its code stay."""
    camel = {a: b for a, b in new.items() if re.search(r"[a-z][A-Z]", a)}
    lines = []
    for line in text.split("\n"):
        lines.append(respell(line, camel if not line.lstrip().startswith("//") else new, ()) if "\"" not in line else line)
    return "\n".join(lines)


def main():
    new, words = spelling()
    new = {a: b for a, b in together(new, words).items() if a != b}
    for path in antt("specs") + antt("proofs"):
        text = read(path)
        turned = respell(text, new, imported(text, False))
        if turned != text:
            open(path, "w", encoding="utf-8").write(turned)
    for path in sorted(glob.glob("crates/*/src/**/*.rt", recursive=True)):
        text = read(path)
        turned = source(text, new)
        if turned != text:
            open(path, "w", encoding="utf-8").write(turned)
    for path in sorted(glob.glob("crates/*/must-fail/*.edit")):
        text = read(path)
        turned, file = [], ""
        for line in text.split("\n"):
            file = line[6:].strip() if line.startswith("file: ") else file
            turned.append(respell(line, new, ()) if file.endswith(".antt") or not file else source(line, new))
        if "\n".join(turned) != text:
            open(path, "w", encoding="utf-8").write("\n".join(turned))
    for name in sorted(new):
        print(name, new[name])


if __name__ == "__main__":
    main()
