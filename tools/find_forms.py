#!/usr/bin/env python3
"""Finds candidates for docs/DESIGN-PASS.md in another way than its commands: by reading functions as lists of words.

Prints, for crates/*/src: functions whose bodies are alike but for names, types and numbers; loops whose counter only picks elements;
loops that a library method could end early; matches that map a value by hand; fields that are as long as one another by a ghost field.
"""
import difflib
import glob
import itertools
import re
import sys

WORD = re.compile(r"[A-Za-z_][A-Za-z_0-9]*|\d+|\S")
KEEP = set("for in if else let mut match return while loop fn self Self Some None Ok Err true false as usize u8 u16 u32 && || ?".split())


def functions(path):
    """Each function of a file: its name, its line and its body."""
    text = open(path).read()
    for m in re.finditer(r"^( *)(?:pub(?:\([a-z]+\))? )?(?:extern \"C\" )?fn ([a-z_0-9]+)", text, re.M):
        at = m.end()
        # A trait's function without a body ends in a semicolon.
        if re.match(r"[^;]*?(?:\n\n|\Z)", text[at:]) is None and re.match(r"(?:(?!\n\n|\n%s\{\n| \{\n).)*;\n" % m.group(1), text[at:], re.S):
            continue
        # The body begins at the first brace at the start or the end of a line that is no clause.
        body = re.search(r"(?:^%s\{|^[^\n]*[^}\n] \{)$" % m.group(1), text[at:], re.M) or re.search(r"\{", text[at:])
        if not body:
            continue
        start = at + body.end()
        end = re.search(r"^%s\}" % m.group(1), text[start:], re.M)
        if end:
            yield m.group(2), text.count("\n", 0, m.start()) + 1, text[start:start + end.start()]


def shape(body):
    """The words of a body, with names and numbers made alike."""
    code = re.sub(r"//.*", "", body)
    return [w if w in KEEP or not re.match(r"\w", w) else "x" if w[0].isalpha() or w[0] == "_" else "0" for w in WORD.findall(code)]


def main():
    root = sys.argv[1] if len(sys.argv) > 1 else "."
    all_functions = []
    for path in sorted(glob.glob(root + "/crates/*/src/**/*.rt", recursive=True)):
        short = path.split("crates/", 1)[1]
        all_functions += [(short, name, line, body, shape(body)) for name, line, body in functions(path)]
    print(f"functions: {len(all_functions)}")

    print("\n== bodies alike")
    for a, b in itertools.combinations(all_functions, 2):
        if len(a[4]) >= 14 and abs(len(a[4]) - len(b[4])) <= 0.25 * len(a[4]):
            ratio = difflib.SequenceMatcher(None, a[4], b[4], autojunk=False).ratio()
            if ratio >= 0.88:
                print(f"{ratio:.2f} {a[0]}:{a[2]} {a[1]} ~ {b[0]}:{b[2]} {b[1]}")

    print("\n== counters that pick elements")
    for short, name, line, body, _ in all_functions:
        for m in re.finditer(r"for (\w+) in [^{\n]*\.\.[^{\n]*\{", body):
            k = m.group(1)
            rest = body[m.end():]
            if k != "_" and re.search(r"\[%s\b|\[%s as|[a-z_]+\((?:\w+, )?%s(?: as usize)?\)" % (k, k, k), rest):
                print(f"{short}:{line} {name}: {m.group(0)[:-1].strip()}")
        if re.search(r"\bwhile\b", body):
            print(f"{short}:{line} {name}: while")

    print("\n== loops that end early")
    for short, name, line, body, _ in all_functions:
        if re.search(r"for [^\n]*\{\n\s*if [^\n]*\{\n\s*return (?:true|false|Some\([^\n]*\)|k|\w+);", body):
            print(f"{short}:{line} {name}")

    print("\n== matches that map by hand")
    for short, name, line, body, _ in all_functions:
        for pat in (r"None => None", r"Err\((\w+)\) => Err\(\1\)", r"Ok\((\w+)\) => Ok\(\1\)", r"None => (?:true|false)"):
            if re.search(pat, body):
                print(f"{short}:{line} {name}: {pat}")

    print("\n== fields as long as one another")
    for path in sorted(glob.glob(root + "/crates/*/src/**/*.rt", recursive=True)):
        text = open(path).read()
        for m in re.finditer(r"struct (\w+)[^{;]*\{(.*?)^\}", text, re.S | re.M):
            lists = re.findall(r"(\w+): (?:Vec<|&(?:'\w+ )?(?:mut )?\[|\[)", m.group(2))
            if len(lists) > 1 or (lists and re.search(r"\w+: usize", m.group(2))):
                print(f"{path.split('crates/', 1)[1]} {m.group(1)}: {', '.join(lists)}")


main()
