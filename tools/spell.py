#!/usr/bin/env python3
"""Brings the repository's own definitions and lemmas to today's spelling: words in snake case, no dash and no capital inside a word.

usage: tools/spell.py            in the repository, once, right after port.py: rewrites crates/ and writes tools/spelled.json, old name to new
       tools/spell.py --check    writes nothing, and prints the names that would fall together

It renames what the files of specs/ and proofs/ declare, and where that is cited: in those files, in the clauses and imports of src/ and in
comments. Functions of src/, strings, names that Rattle makes and names of the library stay. A name that starts with a capital keeps its
capitals (SR_up); the terms of the crate theorems keep theirs whole, since each joins names by dashes: crate, module, statement.
A lemma whose new name is taken gets '_lem'.
"""

import glob
import json
import os
import re
import sys

TOKEN = re.compile(r"--[^\n]*|\"(?:[^\"\\]|\\.)*\"|«[^»]*»|[^\s(){}.;,@\"«»\[\]\\]+|[\s(){}.;,@\[\]\\]")
NAME = re.compile(r"^[A-Za-z][A-Za-z0-9'_\-₀-₉′]*$")
DECLARES = re.compile(r"^(\s*)((?:(?:unfoldable|abbrev|pub|private) )*)(?:(record|data|ruleset) )?([^\s(){};:,|.]+)(?=[^:=]*? : | =|$)")
USE = re.compile(r"^(?:pub )?use ([^\s{};]+?)(?:\.\{([^}]*)\}|\.\{|( as (\S+))?)\s*$", re.M | re.S)
CAMEL = re.compile(r"^[a-z][^-]*[A-Z]")
TYPES = {"appliedInBy": "AppliedInBy", "leafWritable": "LeafWritable", "leafKnown": "LeafKnown"}
GENERATED = re.compile(r"\.(Statement|Tie|Goals|Given|Lts\S*|Code|Kinds|Met|Reads)$|\.declared\.")


def read(path):
    with open(path, encoding="utf-8") as f:
        return f.read()


def snake(name):
    words = []
    for part in re.split(r"[-_]", name):
        if part[:1].islower() or (part[:1].isdigit()):
            part = re.sub(r"(?<=[a-z0-9])(?=[A-Z])", "_", part)
            part = re.sub(r"(?<=[A-Z])(?=[A-Z][a-z])", "_", part).lower()
        words.append(part)
    return "_".join(w for w in words if w) if not name.startswith("_") else name


def tokens(text):
    """The text in pieces, each with whether a dot stands before it."""
    out, before = [], ""
    for m in TOKEN.finditer(text):
        out.append((m.group(), before == "."))
        before = m.group()
    return out


def imports(text):
    """What a file takes from elsewhere: names of the repository's files, other names, and aliases of modules."""
    own, other, alias = set(), set(), set()
    for m in re.finditer(r"^(?:pub )?(?:ghost )?use ([^\s{};]+?)(?:\.\{([^}]*)\})?(?: as (\S+?))?;?\s*$", text, re.M | re.S):
        path, names, name = m.groups()
        ours = path.startswith("Rattle.") and not path.startswith("Rattle.std.") and not GENERATED.search(path)
        if name:
            alias.add(name) if ours else None
        for it in (names or "").split(","):
            it = it.strip().split(" as ")[-1]
            if it:
                (own if ours else other).add(it)
    return own, other, alias


def declared(text):
    """The names that a file of antt declares, local ones in a where too: functions, records, fields, constructors."""
    out = set()
    for line in re.sub(r"--[^\n]*", "", text).split("\n"):
        m = DECLARES.match(line)
        if m and NAME.match(m.group(4)) and m.group(4) not in ("use", "module", "mod", "let", "in", "where", "unfolding", "record", "data", "elim", "open"):
            if re.search(r" : +(tie|goal|given)\.", line) or line.lstrip().startswith("let "):
                continue
            if " : " in line[m.end() :] or m.group(3):
                out.add(m.group(4))
    return out


def in_clauses(text):
    """The spans of a source file's text that hold antt: imports for clauses, and the braces of clauses."""
    spans = [m.span() for m in re.finditer(r"^ghost use [^;]*;", text, re.M | re.S)]
    code = re.sub(r"//[^\n]*|\"(?:[^\"\\\n]|\\.)*\"", lambda m: " " * len(m.group()), text)
    for m in re.finditer(r"\b(?:requires|ensures|ghost|decreases|invariant)\b[^{};\n]*\{", code):
        depth, i = 1, m.end()
        while depth and i < len(code):
            depth += {"{": 1, "}": -1}.get(code[i], 0)
            i += 1
        spans.append((m.end(), i - 1))
    return sorted(spans)


def spelled(text, names, here, alias):
    out, last, root = [], ["", ""], ""
    for t, dotted in tokens(text):
        new = t
        if not dotted and t.strip() and t != ".":
            root = t
        if t.startswith("--"):
            new = re.sub(r"`([^`]*)`", lambda m: "`" + spelled(m.group(1), names, names, alias) + "`", t)
            new = re.sub(r"[A-Za-z][\w']*", lambda m: names[m.group()] if CAMEL.search(m.group()) and m.group() in names else m.group(), new)
        elif t in names and (last[0] in alias or root == "Rattle" if dotted and not CAMEL.search(t) else t in here or CAMEL.search(t)):
            new = names[t]
        out.append(new)
        if t != ".":
            last = [t, last[0]]
    return "".join(out)


def main(argv):
    check = "--check" in argv
    root = os.getcwd()
    antt = sorted(glob.glob("crates/*/specs/**/*.antt", recursive=True) + glob.glob("crates/*/proofs/**/*.antt", recursive=True))
    texts = {p: read(p) for p in antt}
    source = {p: read(p) for p in sorted(glob.glob("crates/*/src/**/*.rt", recursive=True))}
    by_file = {p: declared(t) for p, t in texts.items()}
    every = set().union(*by_file.values())
    wanted = {}
    for n in sorted(every):
        if n.count("-") > 1 and re.match(r"^[a-z_]+-[A-Z]\w+-[A-Z]\w+", n):
            continue
        s = TYPES.get(n) or snake(n)
        if s != n:
            wanted[n] = s
    # names that fall together: the new name is another's, or stands already in a file that has the old one
    words = {p: {t for t, dotted in tokens(re.sub(r"--[^\n]*|^use Rattle\S*\.(Statement|Tie|Goals)\b.*", "", x, flags=re.M)) if not dotted} for p, x in texts.items()}
    names, taken = {}, {}
    for n, s in sorted(wanted.items(), key=lambda it: ("-" in it[0], it[0])):
        def free(s):
            if s in taken or (s in every and s not in names):
                return False
            return not any(n in w and s in w for w in words.values()) or s in names

        if "-" not in n and s in every and s not in names and s not in taken:
            # a lemma that is in the new spelling already gives way to the definition
            names[s] = s + "_lem"
            taken[names[s]] = s
            print(f"together: {s} -> {names[s]}")
        if not free(s):
            for more in ("_lem", "_fact", "_too"):
                if free(s + more):
                    print(f"together: {n} -> {s + more}")
                    s += more
                    break
            else:
                print("left:", n)
                continue
        names[n] = s
        taken[s] = n
    print(len(names), "names")
    if check:
        return 0
    for p, t in texts.items():
        own, other, alias = imports(t)
        new = spelled(t, names, own | by_file[p], alias)
        if new != t:
            open(p, "w", encoding="utf-8").write(new)
    for p, t in source.items():
        own, other, alias = imports(t)
        new, at = "", 0
        for a, b in in_clauses(t):
            if a < at:
                continue
            new += t[at:a] + spelled(t[a:b], names, own, alias)
            at = b
        new += t[at:]
        if new != t:
            open(p, "w", encoding="utf-8").write(new)
    with open("tools/spelled.json", "w", encoding="utf-8") as f:
        json.dump(names, f, indent=0, ensure_ascii=False, sort_keys=True)
        f.write("\n")
    return 0


if __name__ == "__main__":
    raise SystemExit(main(sys.argv[1:]))
