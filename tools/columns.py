#!/usr/bin/env python3
"""Breaks the lines of proofs/ and specs/ that are over 140 columns, at a space outside strings and comments; rt fmt lays out the rest.

usage: tools/columns.py CRATE..
"""

import glob
import sys

MOST = 140


def broken(line):
    out = []
    head = line.split(".{")[0] + ".{"
    while len(line) > MOST and line.startswith(("use ", "pub use ", "ghost use ")) and ".{" in line:
        # a second line of imports from the same module
        at = line.rindex(", ", 0, MOST - 2)
        out.append(line[:at] + "}" + ";" * line.startswith("ghost"))
        line = head + line[at + 2 :]
    while len(line) > MOST and not line.lstrip().startswith(("--", "use ", "pub use ")):
        at, depth, text = None, 0, False
        best = None
        for i, ch in enumerate(line):
            if ch == '"':
                text = not text
            if text:
                continue
            depth += {"(": 1, "{": 1, ")": -1, "}": -1}.get(ch, 0)
            if ch == " " and 20 < i <= MOST - 4 and line[i + 1 : i + 2] not in "=:":
                # the least nested of the spaces that are far enough along
                if i > 60 and (best is None or depth <= best[0]):
                    best = (depth, i)
                at = i
        at = best[1] if best else at
        if at is None:
            break
        indent = len(line) - len(line.lstrip())
        out.append(line[:at].rstrip())
        line = " " * (indent + (4 if len(out) == 1 else 0)) + line[at + 1 :]
    return out + [line]


def main(argv):
    for crate in argv:
        for path in sorted(glob.glob(f"crates/{crate}/src/**/*.rt", recursive=True) + glob.glob(f"crates/{crate}/proofs/**/*.antt", recursive=True) + glob.glob(f"crates/{crate}/specs/**/*.antt", recursive=True)):
            with open(path, encoding="utf-8") as f:
                text = f.read()
            source = path.endswith(".rt")
            new = "\n".join(x for line in text.split("\n") for x in (broken(line) if not source or line.startswith("ghost use ") else [line]))
            if new != text:
                with open(path, "w", encoding="utf-8") as f:
                    f.write(new)


if __name__ == "__main__":
    main(sys.argv[1:])
