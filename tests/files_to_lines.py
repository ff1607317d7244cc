#!/usr/bin/env python3
"""files_to_lines.py FILES STDIN STDOUT   puts the trial files FILES/NNN.in, each after a line with its number, its length and its label
(FILES/index.txt), into STDIN, and what is expected of each (FILES/NNN.out), after a line with its number, into STDOUT."""
import os
import sys


def read(path):
    with open(path, "rb") as file:
        return file.read()


def main(folder, stdin, stdout):
    labels = {}
    for line in read(os.path.join(folder, "index.txt")).decode().splitlines():
        number, rest = line.split(" ", 1)
        labels[number] = rest.split(" -> ")[0]
    names = sorted(name[:-3] for name in os.listdir(folder) if name.endswith(".in"))
    files, lines = b"", b""
    for name in names:
        file = read(os.path.join(folder, name + ".in"))
        files += f"file {int(name)} {len(file)} {labels[name]}\n".encode() + file
        lines += f"file {int(name)}\n".encode() + read(os.path.join(folder, name + ".out"))
    for path, text in ((stdin, files), (stdout, lines)):
        with open(path, "wb") as file:
            file.write(text)
    print(f"{len(names)} files, {len(files)} and {len(lines)} bytes", file=sys.stderr)


if __name__ == "__main__":
    main(*sys.argv[1:])
