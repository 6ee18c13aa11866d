#!/usr/bin/env python3
"""Brings the texts of must-fail edits to today's spelling: tools/edits.py LANDED [CRATE..], and with --check only tells which do not fit.

Each `old:` has to stand exactly once in its file. The words of the file at LANDED are laid beside today's, and each line of an edit is respelled
by the pairs found; what still does not fit is printed, to be brought over by hand.
"""

import difflib
import glob
import json
import os
import re
import subprocess
import sys

TOKEN = re.compile(r"[A-Za-z0-9_'′₀-₉·-]+|\s+|.")


def tokens(text):
    return TOKEN.findall(text)


def landed(commit, path):
    r = subprocess.run(["git", "show", f"{commit}:{path}"], capture_output=True, text=True)
    return r.stdout if r.returncode == 0 else None


def pairs(a, b):
    """For each line of a, the lines of b that stand for it; and for each word of a, the words of b that stand for it."""
    la, lb = a.split("\n"), b.split("\n")
    shape = lambda l: re.sub(r"[-_·\s]|[◌⌜⌝(){}]|now|result|λr\.", "", l).lower()
    lines = {}
    for tag, i1, i2, j1, j2 in difflib.SequenceMatcher(None, [shape(x) for x in la], [shape(x) for x in lb], autojunk=False).get_opcodes():
        if tag == "equal" or i2 - i1 == j2 - j1:
            for i, j in zip(range(i1, i2), range(j1, j2)):
                lines[i] = lb[j]
    words = {}
    ta, tb = [t for t in tokens(a) if t.strip()], [t for t in tokens(b) if t.strip()]
    for i, l in lines.items():
        x, y = [t for t in tokens(la[i]) if t.strip()], [t for t in tokens(l) if t.strip()]
        if len(x) == len(y):
            for p, q in zip(x, y):
                if re.match(r"[A-Za-z_]", p):
                    words.setdefault(p, {}).setdefault(q, 0)
                    words[p][q] += 1
    return la, lines, {p: max(qs, key=qs.get) for p, qs in words.items()}


def respelled(text, words):
    out = "".join(words.get(t, t) for t in tokens(text))
    out = re.sub(r"(?<=[\w)'])\s\.(?=[a-z0-9])", ".", out) if " ." in out else out
    out = re.sub(r"\(now ([\w.]+)\)|\bnow ([\w]+)\b(?! ?[≡=])", lambda m: (m.group(1) or m.group(2)) + ".now", out)
    return out.replace("⌜ ", "").replace(" ⌝", "")


def main(argv):
    check = "--check" in argv
    argv = [a for a in argv if not a.startswith("--")]
    commit, only = argv[0], argv[1:]
    names = json.load(open("tools/spelled.json", encoding="utf-8"))
    bad = 0
    for path in sorted(glob.glob("crates/*/must-fail/*.edit")):
        crate = path.split("/")[1]
        if only and crate not in only:
            continue
        text = open(path, encoding="utf-8").read()
        files, done, ok, changed, at, last = {}, {}, True, [], None, ("", "")
        for line in text.split("\n"):
            if line.startswith("file: "):
                at = f"crates/{crate}/{line[6:]}"
                if at not in files:
                    if not os.path.exists(at):
                        print(f"bad: {path}: no file {at}")
                        ok = False
                        break
                    done[at] = open(at, encoding="utf-8").read()
                    la, lines, words = pairs(landed(commit, at) or done[at], done[at])
                    files[at] = (la, lines, {**names, **words})
            if not line.startswith(("old: ", "new: ")):
                changed.append(line)
                continue
            la, lines, words = files[at]
            kind, it = line[:5], line[5:]
            if kind == "old: ":
                new = it
                if done[at].count(it) != 1:
                    new = respelled(it, words)
                    if done[at].count(new) != 1:
                        whole = [i for i, l in enumerate(la) if l.strip() == it.strip()]
                        if len(whole) == 1 and whole[0] in lines and done[at].count(lines[whole[0]].strip()) == 1:
                            new = lines[whole[0]].strip()
                if done[at].count(new) != 1:
                    ok = False
                    print(f"bad: {path}: {done[at].count(new)} times: {new}")
                last = (it, new)
            else:
                new = it if last[0] == last[1] and not any(t in words and words[t] != t for t in tokens(it)) else respelled(it, words)
                done[at] = done[at].replace(last[1], new, 1)
            changed.append(kind + new)
        if not ok:
            bad += 1
        elif not check and "\n".join(changed) != text:
            open(path, "w", encoding="utf-8").write("\n".join(changed))
    print(bad, "do not fit")
    return 0


if __name__ == "__main__":
    raise SystemExit(main(sys.argv[1:]))
