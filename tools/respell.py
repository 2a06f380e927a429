#!/usr/bin/env python3
"""Spells the repository's own definitions and lemmas as today's Rattle does: in snake case, where an older Rattle had camel case or dashes.

usage: python3 tools/respell.py, once, at the top of the repository, behind the kit's port.py

It takes the names that specs/ and proofs/ declare, and writes each anew wherever it stands in a term: in specs/, in proofs/, in the clauses and
`ghost use` lines of src/, and in must-fail edits. Texts between quotes and comments stay, and so do names of goals, which the checker makes.
"""
import os
import re

DECLARED = re.compile(r'^\s*(?:pub |abbrev |unfoldable )*((?:[^\s(){}\[\],;.«»"`:]+ )+): ?(.*)$')
# Where two names would fall together: a lemma that would have its function's name, and a worked case that would have its definition's.
LEMMAS = "data-of read-counted is-tag is-tag-last is-timeout most-tags is-answer led-to is-counted is-thirteen on-front".split()
WITHIN = {
    "cases": {n: n.replace("-", "_") + "_case" for n in "to-select to-idle to-send to-idn to-echo to_read to_write board-codes is-selected".split()},
    "digits": {"value_on": "value_on_lem"},
    "model": {"at_first": "at_first_lem", "at_second": "at_second_lem"},
    "session": {"by_state": "by_state_lem"},
}
TOKEN = re.compile(r'"(?:[^"\\]|\\.)*"|[^\s(){}\[\],;.«»"`⌜⌝]+|.', re.S)
CLAUSE = re.compile(r'^\s*(requires|ensures|invariant)\b')


def files(ending):
    for folder, _, names in sorted(os.walk("crates")):
        for name in sorted(names):
            if name.endswith(ending) and "/out/" not in folder + "/":
                yield os.path.join(folder, name)


def is_own(name, kind):
    if not (name[0].islower() and (("-" in name and not re.search(r"[^\w'-]", name)) or re.search(r"[a-z][A-Z]", name))):
        return False
    return not re.match(r"(tie|goal)\.", kind) and not re.match(r"(invariant|decreases)-", name)


def snake(name):
    name = re.sub(r"(?<=[a-z])(?=[A-Z])", "_", name)
    return name.replace("-", "_").lower()


def declared():
    names = {}
    for path in files(".antt"):
        for line in open(path, encoding="utf-8"):
            found = DECLARED.match(line)
            if found:
                for name in found.group(1).split():
                    if is_own(name, found.group(2)):
                        names[name] = snake(name)
    names.update({name: snake(name) + "_lem" for name in LEMMAS})
    return names


def within(path, names):
    crate = path.split(os.sep)[1]
    return {**names, **WITHIN[crate]} if crate in WITHIN else names


def turned(text, names):
    return "".join(t if t.startswith('"') else names.get(t, t) for t in TOKEN.findall(text))


def of_comment(text, names):
    """Only camel case is a name for certain in prose."""
    return "".join(names[t] if t in names and "-" not in t else t for t in TOKEN.findall(text))


def line_of_antt(line, names):
    quoted = re.match(r'(?:[^"-]|"(?:[^"\\]|\\.)*"|-(?!-))*', line).group(0)
    at = len(quoted)
    if line[at:].startswith("--") and (at == 0 or line[at - 1].isspace()):
        return turned(line[:at], names) + of_comment(line[at:], names)
    return turned(line, names)


def main():
    names = declared()
    for path in files(".antt"):
        text = open(path, encoding="utf-8").read()
        here = within(path, names)
        lines = [line_of_antt(line, here) for line in text.splitlines(keepends=True)]
        open(path, "w", encoding="utf-8").write("".join(lines))
    for path in files(".rt"):
        lines = open(path, encoding="utf-8").read().splitlines(keepends=True)
        for i, line in enumerate(lines):
            if CLAUSE.match(line) or line.startswith("ghost use "):
                lines[i] = turned(line, names)
        open(path, "w", encoding="utf-8").write("".join(lines))
    for path in files(".edit"):
        lines = open(path, encoding="utf-8").read().splitlines(keepends=True)
        for i, line in enumerate(lines):
            key = line.split(":", 1)[0]
            if key in ("old", "new", "shows"):
                lines[i] = key + ":" + turned(line[len(key) + 1:], names)
        open(path, "w", encoding="utf-8").write("".join(lines))
    print(f"{len(names)} names")


if __name__ == "__main__":
    main()
