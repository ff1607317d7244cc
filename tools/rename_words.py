#!/usr/bin/env python3
"""Brings the names of this repository's own definitions and lemmas to snake case, after the toolchain's own port script has run.

usage: python3 tools/rename_words.py [--list]     at the top of the repository; --list prints the names and changes nothing

A name counts as the repository's own where a file of specs/ or proofs/ declares it (a function, a field, a lemma; not the answer to a goal).
Where a file takes the same name from a library, it stays in that file. Functions of src/, strings, inputs and outputs keep their names.
"""

import collections
import os
import re
import sys

WORD = r"[^\s(){}\[\],;.:`\"]+"
MODIFIERS = {"abbrev", "pub", "unfoldable", "record", "data", "opaque", "private", "ruleset"}
NOT_NAMES = MODIFIERS | {"let", "in", "module", "use", "open", "elim", "subst", "=", "→", "↦", "|", "λ", "_", "where", "unfolding"}
DECLARATION = re.compile(r"^\s*((?:%s)(?:\s+(?:%s))*)\s*(?:\([^)]*\)\s*|\{[^}]*\}\s*)*:\s(.*)$" % (WORD, WORD))
# Names that would fall together with another one: a lemma beside the function that it is about, and a field beside a function.
LEMMAS = (
    "at-free first-in first-that law-fails settle-found settle-newest shares-odd solve-found sweep-found or-else only-if left-of"
    " as_call all_in one_more"
)
OTHER = {name: name.replace("-", "_") + "_lem" for name in LEMMAS.split()}
OTHER["is-erased"] = "erased_is"


def snake(name):
    if name in OTHER:
        return OTHER[name]
    name = name.replace("′", "'").replace("getD", "get_or")
    name = re.sub(r"(?<=[a-z0-9'])-(?=[A-Za-z0-9])", "_", name)
    return re.sub(r"(?<=[a-z0-9])([A-Z]+)", lambda m: "_" + m.group(1).lower(), name)


def files(ending):
    for folder, dirs, names in os.walk("crates"):
        dirs[:] = sorted(d for d in dirs if d != "out")
        for name in sorted(names):
            if name.endswith(ending):
                yield os.path.join(folder, name)


def read(path):
    with open(path, encoding="utf-8") as f:
        return f.read()


def declared(text):
    """The names that a text declares, one line at a time."""
    found = set()
    for line in text.splitlines():
        if line.lstrip().startswith("--"):
            continue
        m = DECLARATION.match(line)
        if not m or m.group(2).startswith("goal."):
            continue
        words = m.group(1).split()
        if words[0] in ("let", "|", "(", "use"):
            continue
        for word in words:
            if word not in NOT_NAMES and re.match(r"[a-z]", word) and snake(word) != word:
                found.add(word)
    return found


def from_libraries(text, own):
    """The names that a text takes from a library."""
    taken = set()
    for path, names in re.findall(r"use ([\w.]+)\.\{([^}]*)\}", text):
        crate = path.split(".")[1] if path.startswith("Rattle.") else ""
        if crate not in own:
            taken |= {n.split(" as ")[0].strip() for n in names.split(",")}
    return taken


def main(argv):
    own = set(os.listdir("crates"))
    sources = {p: read(p) for p in list(files(".antt")) + list(files(".rt")) + list(files(".edit"))}
    names = set()
    where = collections.defaultdict(set)
    for path, text in sources.items():
        if path.endswith(".antt"):
            for name in declared(text):
                names.add(name)
                where[name].add(path)
    together = collections.defaultdict(set)
    for name in names:
        together[snake(name)].add(name)
    existing = collections.Counter()
    for path, text in sources.items():
        for word in set(re.findall(WORD, text)):
            existing[word] += 1
    for path, text in sources.items():
        both = names & from_libraries(text, own)
        if both:
            print("a library's there:", path, sorted(both))
    for new, olds in sorted(together.items()):
        if len(olds) > 1:
            print("fall together:", new, sorted(olds))
        if existing[new]:
            print("stands already:", new, sorted(olds), existing[new])
    if "--list" in argv:
        print(len(names), "names")
        return
    for path, text in sources.items():
        kept = from_libraries(text, own)
        here = names - kept
        lines = []
        for line in text.split("\n"):
            comment = re.match(r"\s*(--|//)", line)

            def turned(m):
                word = m.group(0)
                if word in here and not (comment and "-" in word):
                    return snake(word)
                return word

            lines.append(re.sub(WORD, turned, line))
        now = "\n".join(lines)
        if now != text:
            with open(path, "w", encoding="utf-8") as f:
                f.write(now)


if __name__ == "__main__":
    main(sys.argv[1:])
