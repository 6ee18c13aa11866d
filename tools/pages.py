#!/usr/bin/env python3
"""Brings the names in pages to today's spelling: tools/pages.py LANDED [PAGE..], and with --check only tells what it would change.

Each .antt file of crates/*/specs and crates/*/proofs at LANDED is laid beside today's, word by word; what stands for a name of LANDED
there is its new name. In the pages (README.md and docs/*.md but PORT.md where none is given) these names are respelled where they stand in
backticks. Prints the names that have two new ones, and those in backticks that still look as the older spelling wrote them.
"""

import collections
import difflib
import glob
import os
import re
import subprocess
import sys
import tempfile

WORD = re.compile(r"[A-Za-z_][\w'′₀-₉·-]*")
CODE = re.compile(r"`([^`\n]+)`")
OLDER = re.compile(r"(?<![\w-])[a-z]+[a-z0-9]*[A-Z]|(?<!-)\b[a-zA-Z]\w*-[A-Za-z]|·|⌜|\bnow \w|\w \.[a-z]")


def read(path):
    with open(path, encoding="utf-8") as f:
        return f.read()


def words(text):
    """The words of a file of antt, without comments and imports."""
    text = re.sub(r"--[^\n]*", "", text)
    text = re.sub(r"^(?:unfoldable )?(?:pub )?use [^\n{]*(?:\{[^}]*\})?[^\n]*$", "", text, flags=re.M)
    return WORD.findall(text)


def shape(word):
    return re.sub(r"[-_'′·]", "", word).lower()


def renamed(landed):
    """For each name of LANDED that is spelled otherwise today, its new names and how often each stands for it."""
    names, stays = collections.defaultdict(collections.Counter), collections.Counter()
    with tempfile.TemporaryDirectory() as old:
        archive = subprocess.Popen(["git", "archive", landed, "crates"], stdout=subprocess.PIPE)
        subprocess.run(["tar", "-x", "-C", old], stdin=archive.stdout, check=True)
        for path in sorted(glob.glob("crates/*/specs/**/*.antt", recursive=True) + glob.glob("crates/*/proofs/**/*.antt", recursive=True)):
            if not os.path.exists(os.path.join(old, path)):
                continue
            a, b = words(read(os.path.join(old, path))), words(read(path))
            laid = difflib.SequenceMatcher(None, list(map(shape, a)), list(map(shape, b)), autojunk=False)
            for _, i1, i2, j1, j2 in laid.get_opcodes():
                if i2 - i1 == j2 - j1:
                    for x, y in zip(a[i1:i2], b[j1:j2]):
                        if shape(y) not in [shape(x) + more for more in ("", "lem", "fact", "too")]:
                            continue
                        if x == y:
                            stays[x] += 1
                        else:
                            names[x][y] += 1
    for x in [x for x in names if stays[x] > sum(names[x].values())]:
        del names[x]
    return names


def respelled(text, names):
    return CODE.sub(lambda m: "`" + WORD.sub(lambda w: names.get(w.group(), w.group()), m.group(1)) + "`", text)


def main(argv):
    check = "--check" in argv
    argv = [a for a in argv if a != "--check"]
    if not argv:
        print(__doc__, file=sys.stderr)
        return 2
    found = renamed(argv[0])
    for x, ys in sorted(found.items()):
        if len(ys) > 1:
            print(f"two names: {x}: {', '.join(f'{y} ({n})' for y, n in ys.most_common())}")
    names = {x: ys.most_common(1)[0][0] for x, ys in found.items()}
    for page in argv[1:] or ["README.md", *sorted(set(glob.glob("docs/*.md")) - {"docs/PORT.md"})]:
        text = read(page)
        new = respelled(text, names)
        for at, line in enumerate(new.split("\n"), 1):
            for m in CODE.finditer(line):
                if OLDER.search(m.group(1)):
                    print(f"{page}:{at}: {m.group(1)}")
        if new != text and not check:
            with open(page, "w", encoding="utf-8") as f:
                f.write(new)
    print(len(names), "names")
    return 0


if __name__ == "__main__":
    raise SystemExit(main(sys.argv[1:]))
