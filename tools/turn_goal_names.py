#!/usr/bin/env python3
"""Turns the names that a check makes, as the proofs of functions cite them, from dashes throughout to today's spelling.

usage: python3 tools/turn_goal_names.py [CRATE..]     at the top of the repository

A name of the source keeps its spelling now (`c.copy_from_slice`, where it was `c.copy-from-slice`), and so do the words that the check itself adds
(`overflow_add-x`, `in_ok-x`). Names that a file takes from a library are left.
"""

import os
import re
import sys

WORD = re.compile(r"[^\s(){}\[\],;.:`\"]+")
SOURCE_NAME = re.compile(r"\b[A-Za-z][A-Za-z0-9]*(?:_[A-Za-z0-9]+)+\b")
MADE = [
    "in_ok", "in_err", "in_default", "In_ok", "In_err", "In_default", "overflow_add", "overflow_sub", "overflow_mul", "overflow_shl", "overflow_shr",
    "overflow_cast", "overflow_step", "nonzero_div", "nonzero_rem", "slice_bounds", "offset_bounds", "invariant_of", "type_inv", "from_residual",
    "as_mut_slice", "as_slice", "deref_mut", "index_mut", "extend_from_slice", "copy_from_slice", "push_reserved", "with_capacity", "checked_add",
    "from_elem", "into_iter", "iter_mut", "split_at", "split_at_mut", "saturating_sub", "wrapping_add", "count_ones", "trailing_zeros", "is_empty",
    "slice_known", "known_told", "shared_slice_known", "enum_told", "yielded_by",
]


def names_of_sources():
    found = set(MADE)
    for folder, dirs, names in os.walk("crates"):
        dirs[:] = [d for d in dirs if d != "out"]
        for name in names:
            if name.endswith(".rt"):
                with open(os.path.join(folder, name), encoding="utf-8") as f:
                    found |= set(SOURCE_NAME.findall(f.read()))
    return found


def main(crates):
    olds = sorted(names_of_sources(), key=len, reverse=True)
    pattern = re.compile(r"(?<![^-+])(%s)(?![^-+])" % "|".join(re.escape(n.replace("_", "-")) for n in olds))
    new = {n.replace("_", "-"): n for n in olds}
    for crate in crates or sorted(os.listdir("crates")):
        for folder, dirs, names in os.walk(os.path.join("crates", crate, "proofs")):
            for name in names:
                path = os.path.join(folder, name)
                if not name.endswith(".antt") or name == "Lib.antt":
                    continue
                with open(path, encoding="utf-8") as f:
                    text = f.read()
                if ".Goals" not in text and ".Given" not in text:
                    continue
                kept = set()
                for source, taken in re.findall(r"use ([\w.+]+)\.\{([^}]*)\}", text):
                    if not source.endswith((".Goals", ".Given")):
                        kept |= {n.strip().split(" as ")[0] for n in taken.split(",")}
                now = WORD.sub(lambda m: m.group(0) if m.group(0) in kept or "-" not in m.group(0) else pattern.sub(lambda k: new[k.group(1)], m.group(0)), text)
                if now != text:
                    with open(path, "w", encoding="utf-8") as f:
                        f.write(now)


if __name__ == "__main__":
    main(sys.argv[1:])
