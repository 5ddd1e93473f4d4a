#!/usr/bin/env python3
"""Respells this repository's own definitions and lemmas: words in snake case, types in camel case.

usage: python3 tools/respell.py [--list]      at the top of a checkout; rewrites .antt, .rt and .edit files below crates/

A name is respelled where it is defined in an .antt file of the repository. Names that the toolchain makes for the goals of
a function, functions of src/, strings, inputs and outputs stay.
"""
import os
import re
import sys

TOKEN = re.compile(r"[^\s(){}\[\],;.:\"`|∷λ→×⌝⌜↦=]+(?:=[^\s(){}\[\],;.:\"`|∷λ→×⌝⌜↦=]+)*")
DEFINED = re.compile(
    r"^\s*((?:pub |abbrev |unfoldable |private |data |record |opaque |let )*)([^\s(){}:;.,|\[\]]+)"
    r"(?:\s*\([^)]*\)|\s*\{[^}]*\})*\s*:(?!=)(.*)"
)
STRING = re.compile(r'"(?:[^"\\]|\\.)*"')


def files(*endings):
    for folder, dirs, names in os.walk("crates"):
        dirs[:] = sorted(d for d in dirs if d != "out")
        for name in sorted(names):
            if name.endswith(endings):
                yield os.path.join(folder, name)


def text(path):
    with open(path, encoding="utf-8") as file:
        return file.read()


def goals():
    """The names that goals have, and the labels that answers cite below the facts of a goal."""
    found = set()
    for path in files("Answers.antt", "Invariants.antt"):
        body = text(path)
        found |= set(re.findall(r"\bgoal\.([^\s(){}\[\];,]+)", body))
        for labels in re.findall(r"Goals\.\{([^}]*)\}", body):
            found |= {label.strip() for label in labels.split(",")}
    return found


# A word of an older library in a lemma's name.
WORDS = {"byte-getD": "byte-get_or"}

# Names that imports and `let`s give.
LOCAL = {"workerOf": "worker_of", "afterAction": "after_action", "fitsAt": "fits_at", "fits-a": "fits_a", "zero-k": "zero_k"}


def respelled(name):
    name = WORDS.get(name, name)
    if name[0].isupper():
        return "".join(part[:1].upper() + part[1:] for part in re.split(r"[-_]", name))
    name = name.replace("-", "_").replace("′", "'")
    name = re.sub(r"([a-z0-9])([A-Z])", lambda m: m.group(1) + "_" + m.group(2).lower(), name)
    return name[0] + name[1:].lower()


def names():
    """The table of names. A lemma that would have the name of a definition beside it gets `_lem`."""
    made = goals()
    found = {}
    tokens = [set(TOKEN.findall(text(path))) for path in files(".antt", ".rt")]
    for path in files(".antt"):
        for line in text(path).splitlines():
            m = DEFINED.match(line)
            if not m or m.group(2) in made:
                continue
            name = m.group(2)
            if "let " in m.group(1) or not re.match(r"[A-Za-z][\w'′-]*$", name):
                continue
            if respelled(name) != name:
                found[name] = respelled(name)
    for name in [name for name in found if "-" in name]:
        new = found[name]
        others = {new} | {other for other in found if found[other] == new and other != name}
        if any(name in here and others & here for here in tokens) or len(others) > 1:
            found[name] = new + "_lem"
    return found | LOCAL


def turned(body, table):
    """The body with its tokens respelled, but for labels of a goal's facts (after `c.` or `w.`)."""

    def one(m):
        before = body[max(0, m.start() - 3) : m.start()]
        if re.search(r"(?:^|[^\w])[cwlp]\.$", before):
            return m.group(0)
        return table.get(m.group(0), m.group(0))

    return TOKEN.sub(one, body)


def outside_strings(body, table):
    out, at = [], 0
    for m in STRING.finditer(body):
        out += [turned(body[at : m.start()], table), m.group(0)]
        at = m.end()
    return "".join(out + [turned(body[at:], table)])


def main():
    table = names()
    ends = {}
    for name, new in sorted(table.items()):
        ends.setdefault(new, []).append(name)
    together = {new: old for new, old in ends.items() if len(old) > 1}
    if "--list" in sys.argv:
        for name, new in sorted(table.items()):
            print(name, new)
        print("fall together:", together)
        return
    if together:
        sys.exit(f"respell: names fall together: {together}")
    for path in files(".antt", ".rt", ".edit"):
        body = text(path)
        new = outside_strings(body, table)
        if new != body:
            with open(path, "w", encoding="utf-8") as file:
                file.write(new)


main()
