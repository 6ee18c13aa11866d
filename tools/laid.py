#!/usr/bin/env python3
"""Lays the repository at LANDED beside today's: tools/laid.py LANDED [CRATE..] prints in markdown what differs by more than spelling,
and with --write puts it into docs/PORT.md, below the line "## Names".

LANDED is respelled by rules: names as tools/pages.py finds them, `now x` and `entry` and `exit` as `x.now` of a `&` and `x.old` and
`x.new` of a `&mut`, `⌜ P ⌝` as P, `λ r.` of an `ensures` as `result`, clauses without their names, operators with ◌ for _, paths with
dots. Then the types, the signatures, clauses and bodies of src/, the declarations of specs/, the types of the public declarations of
proofs/ and the lines of the must-fail edits are compared word by word. What differs in parentheses alone is listed apart, and printed
with --full: the field of a call is written `(f x).p` today.
"""

import collections
import glob
import os
import re
import subprocess
import sys
import tempfile
from itertools import zip_longest

sys.dont_write_bytecode = True
sys.path.insert(0, os.path.dirname(os.path.abspath(__file__)))

import pages  # noqa: E402

TOKEN = re.compile(r"\"(?:[^\"\\]|\\.)*\"|b?'(?:\\.[^']*|[^'\\])'|[A-Za-z_◌][\w'′₀-₉·◌-]*(?<!-)|\d\w*|→|[^\s\w]")
DECLARED = re.compile(r"^\s*(?:(?:unfoldable|abbrev|pub) )*(?:(?:record|data) )?([A-Za-z][^\s(){}:;,.=]*)(?= [^=\n]*:| *:)", re.M)
MOMENTS = ("entry", "exit", "now", "r")


def read(path):
    if not os.path.exists(path):
        return None
    with open(path, encoding="utf-8") as f:
        return f.read()


def squeezed(text):
    return re.sub(r"\s+", " ", text).strip()


class Words:
    """The words of a text in today's spelling."""

    def __init__(self, names):
        self.names = names

    def word(self, w):
        w = re.sub(r"^_(\W+)_$", r"◌\1◌", w.replace("«", "").replace("»", ""))
        return w if w in MOMENTS else self.names.get(w, w)

    def of(self, text, old):
        text = text.replace("⌜", " ").replace("⌝", " ").replace("«", "").replace("»", "")
        if old:
            text = re.sub(r"\bRattle·(\w+?)(?:·(?:specs|proofs))?\.((?:specs|proofs)\.)(?:\2)?", r"Rattle.\1.\2", text)
            text = re.sub(r"(?<![\w'])_(\S{1,3})_(?![\w'])", r"◌\1◌", text)
        out = [m.group() for m in TOKEN.finditer(text)]
        return [self.word(w) for w in out] if old else out


def closing(text, i, a="{", b="}"):
    depth = 0
    for k in range(i, len(text)):
        depth += (text[k] == a) - (text[k] == b)
        if not depth:
            return k + 1
    return len(text)


def plain(text):
    """A source without comments."""
    return re.sub(r"(\"(?:[^\"\\\n]|\\.)*\"|b?'(?:\\.|[^'\\\n])')|//[^\n]*", lambda m: m[1] or "", text)


def head(blank, i):
    """The next clause, body or end of a function's head from i on, past what stands in brackets."""
    while i < len(blank):
        if blank[i] in "([":
            i = closing(blank, i, blank[i], ")" if blank[i] == "(" else "]")
        elif m := re.compile(r"\b(requires|ensures)\*?\s*(\w+)?\s*\{|\{|;").match(blank, i):
            return m
        else:
            i += 1
    return None


def functions(text):
    """The functions of a source: name with its impl, signature, clauses (kind, text) and body; and what stands beside them."""
    text = plain(text)
    blank = re.sub(r"\"(?:[^\"\\\n]|\\.)*\"|b'(?:\\.|[^'\\])'|'(?:\\.|[^'\\])'", lambda m: " " * len(m.group()), text)
    out, rest, at, impls = collections.OrderedDict(), "", 0, []
    for m in re.finditer(r"\b(?:impl\b[^{;]*\{|(?:pub(?:\([^)]*\))? )?(?:unsafe )?(?:extern \"C\" |extern     )?fn (\w+))", blank):
        if m.start() < at:
            continue
        impls = [(end, name) for end, name in impls if end > m.start()]
        if not m.group(1):
            impls.append((closing(blank, m.end() - 1), squeezed(m.group()[:-1])))
            continue
        rest += text[at : m.start()]
        i, clauses, sign = m.end(), [], None
        while i < len(blank):
            c = head(blank, i)
            if not c:
                i = len(blank)
                break
            if sign is None:
                sign = squeezed(text[m.start() : c.start()])
            if not c.group(1):
                break
            end = closing(blank, c.end() - 1)
            clauses.append((c.group(1), squeezed(text[c.end() : end - 1])))
            i = end
        end = closing(blank, c.start()) if c and c.group() == "{" else c.end()
        key = " ".join([*(name for _, name in impls), m.group(1)])
        out[key] = (sign, clauses, squeezed(text[c.start() : end]))
        at = end
    rest = re.sub(r"^(?:pub )?(?:ghost )?use [^;]*;", "", rest + text[at:], flags=re.M | re.S)
    return out, squeezed(rest)


def kinds(sign):
    """How each parameter is passed: `ref` by &, `mut` by &mut, `val` by value."""
    out = {}
    for m in re.finditer(r"\b(?:mut )?([a-z_]\w*)\s*:\s*(&(?:'\w+\s+)?(mut\b)?)?", sign):
        out[m[1]] = "mut" if m[3] else "ref" if m[2] else "val"
    if m := re.search(r"\(\s*&(?:'\w+ )?(mut )?self\b", sign):
        out["self"] = "mut" if m[1] else "ref"
    return out


def turned(kind, clause, sign):
    """A clause of LANDED in today's words for moments and the result."""
    how = kinds(sign)
    clause = clause.replace("⌜", " ").replace("⌝", " ").replace("«", "").replace("»", "")
    if kind == "ensures":
        m = re.match(r"\s*λ (\w+)\.", clause)
        clause = re.sub(rf"\b{m[1]}\b(?!['′-])", "result", clause[m.end() :]) if m else clause
        how["result"] = "ref"

    def moment(m):
        x, at = m[1], m[2]
        after = "exit" == at
        return f"{x}.{'new' if after else 'old' if how.get(x) == 'mut' else 'now'}"

    clause = re.sub(r"(?<![.\w])now \((\w+) \.(entry|exit)\)", moment, clause)
    clause = re.sub(r"(?<![.\w])now \((\w+(?: \.\w+)+)\)", r"\1 .now", clause)
    clause = re.sub(r"\(now (\w+)()\)", moment, clause)
    return re.sub(r"(?<![.\w])now (\w+)()", moment, clause)


def declarations(text):
    """The declarations of a file of antt by name, in order; a record with its fields and a data type with its cases as a whole."""
    text = re.sub(r"--[^\n]*", "", text)
    text = re.sub(r"^(?:unfoldable )?(?:pub )?use [^\n{]*(?:\{[^}]*\})?[^\n]*$", "", text, flags=re.M)
    out, name = collections.OrderedDict(), None
    for line in text.split("\n"):
        if re.match(r"\S", line):
            head = re.sub(r"^(?:(?:unfoldable|abbrev|pub|private|opaque|instance) )*", "", line)
            head = re.sub(r"^(?:record|data|ruleset|module|section) ", "", head)
            m = re.match(r"[^\s(){}:;,]+", head)
            declares = m and re.match(r"\S+(?: [({][^=]*)? : |\S+(?: [({].*)?$", head)
            if declares and m.group() not in out and not re.match(r"(infix|mod |pub mod )", line):
                name = m.group()
            elif re.match(r"(infix|pub mod |mod )", line):
                name = "(infix and modules)"
        if name is not None:
            out[name] = out.get(name, "") + line + "\n"
    return out


def typed(text):
    """The type that a declaration states: what stands before its first equation."""
    head = text.split("\n")
    out = [head[0]]
    for line in head[1:]:
        if not line.startswith(" ") or line.strip().startswith("unfolding"):
            break
        out.append(line)
    return "\n".join(out)


def edit_lines(text):
    return [(m[1], m[2]) for m in re.finditer(r"^(file|old|new): ?(.*)$", text, re.M)]


def tight(words):
    """The words without the parentheses that a projection or a single word needs or does not need."""
    text = " ".join(words)
    for _ in range(6):
        text = re.sub(r"\( ([\w'◌-]+(?: \. [\w'-]+)*) \)", r"\1", text)
    return text.split(" ")


class Laid:
    def __init__(self, landed, only):
        self.old = tempfile.mkdtemp()
        archive = subprocess.Popen(["git", "archive", landed, "crates", "crates.txt"], stdout=subprocess.PIPE)
        subprocess.run(["tar", "-x", "-C", self.old], stdin=archive.stdout, check=True)
        found = pages.renamed(landed)
        self.words = Words({x: ys.most_common(1)[0][0] for x, ys in found.items()})
        self.words.names.update({"getD": "get_or", "the-variants": "TheVariants", "RefT": "Bor", "Bool·beq": "beq"})
        self.words.names.update({"Moment·M": "Moment-as-M"})
        self.crates = only or sorted({p.split("/")[-1] for p in glob.glob(self.old + "/crates/*") + glob.glob("crates/*")})

    def files(self, crate, kind, ends):
        out = set()
        for top in (self.old, "."):
            for p in glob.glob(f"{top}/crates/{crate}/{kind}/**/*{ends}", recursive=True):
                out.add(os.path.relpath(p, f"{top}/crates/{crate}"))
        return sorted(out)

    def both(self, crate, path):
        return read(f"{self.old}/crates/{crate}/{path}"), read(f"crates/{crate}/{path}")

    def compared(self, said, where, a, b, old=None, new=None):
        """Notes a difference of two texts; a is LANDED's, turned."""
        wa, wb = tight(self.words.of(a, True)), tight(self.words.of(b, False))
        if wa == wb:
            return
        bare = [[w for w in ws if w not in "()"] for ws in (wa, wb)]
        said["parentheses" if bare[0] == bare[1] else "words"].append((where, squeezed(old or a), squeezed(new or b)))

    def sources(self, crate, said):
        for path in self.files(crate, "src", ".rt"):
            a, b = self.both(crate, path)
            if a is None or b is None:
                said["files"].append(f"`{path}` {'is new' if a is None else 'is gone'}")
                if a is not None:
                    said["gone"] += [f"`{path}`: function `{f}`" for f in functions(a)[0]]
                continue
            (fa, ra), (fb, rb) = functions(a), functions(b)
            for was, now in (("#[no_mangle]", "#[unsafe(no_mangle)]"), ("", "#![tactic(auto)]")):
                ra, rb = ra.replace(was, "") if was else ra, rb.replace(now, "")
            derives = re.compile(r"#\[derive\(Clone, Copy\)\]|#\[cycle\(\w+\)\]|#\[tactic\([^\]]*\)\]")
            copies = len(re.findall(r"#\[derive\(Clone, Copy\)\]", rb)) - len(re.findall(r"#\[derive\(Clone, Copy\)\]", ra))
            if copies:
                said["copies"].append(copies)
            self.compared(said, f"`{path}`, types, constants and attributes", derives.sub("", ra), derives.sub("", rb))
            for f in fb:
                if f not in fa:
                    sign, clauses, _ = fb[f]
                    said["new"].append(f"`{path}`: `{sign}`" + "".join(f", `{k} {{ {c} }}`" for k, c in clauses))
            for f in fa:
                if f not in fb:
                    said["gone"].append(f"`{path}`: function `{f}`")
                    continue
                (sa, ca, ba), (sb, cb, bb) = fa[f], fb[f]
                self.compared(said, f"`{path}`, signature of `{f}`", sa, sb)
                for k in ("requires", "ensures"):
                    xa, xb = [c for q, c in ca if q == k], [c for q, c in cb if q == k]
                    if len(xa) != len(xb):
                        said["words"].append((f"`{path}`, {k} of `{f}`", " }{ ".join(xa), " }{ ".join(xb)))
                        continue
                    for x, y in zip(xa, xb):
                        self.compared(said, f"`{path}`, {k} of `{f}`", turned(k, x, sa), y, x)
                if self.words.of(ba, False) != self.words.of(bb, False) and ba != bb:
                    said["bodies that differ"].append(f"`{path}`: `{f}`")

    def definitions(self, crate, said):
        for path in self.files(crate, "specs", ".antt"):
            a, b = self.both(crate, path)
            if a is None or b is None:
                said["files"].append(f"`{path}` {'is new' if a is None else 'is gone'}")
            da, db = declarations(a or ""), declarations(b or "")
            named = {self.words.word(n): n for n in da}
            for n in db:
                if n not in named and a is not None:
                    said["new"].append(f"`{path}`: `{n}`")
            for n, was in named.items():
                if n not in db:
                    said["gone"].append(f"`{path}`: `{was}`")
                else:
                    self.compared(said, f"`{path}`, `{n}`", da[was], db[n])

    def lemmas(self, crate, said):
        moved = collections.Counter()
        for path in self.files(crate, "proofs", ".antt"):
            a, b = self.both(crate, path)
            if os.path.basename(path) in ("Proof.antt", "Answers.antt", "Invariants.antt", "Spec.antt"):
                moved[os.path.basename(path), "gone" if b is None else "new" if a is None else "kept"] += 1
                continue
            if path.endswith("Lib.antt"):
                continue
            if a is None or b is None:
                said["lemma files"].append(f"`{path}` {'is new' if a is None else 'is gone'}")
            if a is None:
                continue
            da, db = declarations(a), declarations(b or "")
            for was in da:
                n = self.words.word(was)
                if b is not None and n not in db and "(infix" not in n:
                    said["lemmas gone"].append(f"`{was}` ({path[len('proofs/') : -len('.antt')]})")
                elif n in db and ("pub " in da[was].split("\n")[0]):
                    self.compared(said["stated"], f"`{path}`, `{n}`", typed(da[was]), typed(db[n]))
        said["moved"] = moved

    def edits(self, crate, said):
        for path in self.files(crate, "must-fail", ""):
            if os.path.isdir(f"crates/{crate}/{path}") or os.path.isdir(f"{self.old}/crates/{crate}/{path}"):
                continue
            a, b = self.both(crate, path)
            name = os.path.basename(path)
            if a is None or b is None:
                said["edits"].append((name, "is new" if a is None else "IS GONE", None, "", ""))
                continue
            la, lb = edit_lines(a), edit_lines(b)
            refused = re.search(rf"^{crate}/{re.escape(name[: -len('.edit')])}: ([^\n]*)", read("tests/refused.txt"), re.M)
            if la == lb:
                continue
            same = len(la) == len(lb) and all(self.edit_words(x[1]) == self.edit_words(y[1], False) for x, y in zip(la, lb))
            said["edits"].append((name, "spelling" if same else "words", refused and refused.group(1), la, lb))

    def edit_words(self, text, old=True):
        if old:
            text = re.sub(r"\bλ (_|r|n)\. ", "", text) if re.match(r"\s*(ensures|requires)", text) else text
        return [w for w in tight(self.words.of(text, old)) if w not in "()"]

    def run(self):
        for crate in self.crates:
            said = collections.defaultdict(list)
            said["stated"] = collections.defaultdict(list)
            for step in (self.sources, self.definitions, self.lemmas, self.edits):
                step(crate, said)
            yield crate, said


def by_rule(name):
    """A name of LANDED as the rule spells it: words in snake case, no dash and no capital inside a word."""
    out = []
    for part in re.split(r"[-_·]", name.replace("′", "'")):
        if part[:1].islower() or part[:1].isdigit():
            part = re.sub(r"(?<=[a-z0-9])(?=[A-Z])", "_", part)
            part = re.sub(r"(?<=[A-Z])(?=[A-Z][a-z])", "_", part).lower()
        out.append(part)
    return "_".join(word for word in out if word)


def renamings(laid):
    """The names of LANDED's declarations that are not spelled by the rule today, by crate."""
    out = ["## Names", ""]
    out += ["Definitions and lemmas are in snake case: `firstOf` is `first_of`, `page-says` is `page_says` (`tools/spelled.json` has all)."]
    out += ["These have another name, since that one was taken by a definition, a field or another lemma, or since it is that of a type:", ""]
    for crate in laid.crates:
        odd = {}
        for path in glob.glob(f"{laid.old}/crates/{crate}/*/**/*.antt", recursive=True):
            for m in DECLARED.finditer(read(path)):
                new = laid.words.names.get(m[1])
                if new and new != by_rule(m[1]) and "/proofs/" + m[1] not in path:
                    odd[m[1]] = new
        if odd:
            out.append(f"- {crate}: " + ", ".join(f"`{x}` is `{y}`" for x, y in sorted(odd.items())) + ".")
    return out + [""]


def place(refused):
    """Where an edit is refused: file and term."""
    m = re.match(r"((?:only by a limit: )?\S+?): (`[^`]+`)", refused or "")
    return f"{m[1]}: {m[2]}" if m else "not said"


def shown(crate, said, full):
    out = []
    for key in ("files", "gone", "new", "bodies that differ", "lemma files", "lemmas gone"):
        if said[key]:
            out.append(f"- {key.capitalize()}: {'; '.join(said[key])}.")
    if said["copies"]:
        out.append(f"- `#[derive(Clone, Copy)]` at {sum(said['copies'])} types.")
    if moved := said["moved"]:
        out.append("- Proofs of functions: " + ", ".join(f"{n} {f} {how}" for (f, how), n in sorted(moved.items())) + ".")
    for label, of in (("Differs", said), ("A lemma's type differs", said["stated"])):
        for where, a, b in of["words"]:
            out.append(f"- {label}: {where}:\n\n      - {a}\n      + {b}\n")
        if of["parentheses"]:
            out.append(f"- {label} in parentheses alone: " + "; ".join(where for where, _, _ in of["parentheses"]) + ".")
            if full:
                out += [f"\n      - {a}\n      + {b}\n" for _, a, b in of["parentheses"]]
    words = [e for e in said["edits"] if e[1] != "spelling"]
    for name, how, refused, la, lb in words:
        out.append(f"- Edit `{name}`: {how}; refused: {refused}")
        out += [f"\n      - {k}: {x}\n      + {q}: {y}" for (k, x), (q, y) in zip_longest(la, lb, fillvalue=("none", "")) if (k, x) != (q, y)] + [""]
    spelled = [(name, refused) for name, how, refused, _, _ in said["edits"] if how == "spelling"]
    if spelled:
        out.append("- Edits in today's spelling: " + "; ".join(f"{n[:-5]} ({place(r)})" for n, r in spelled) + ".")
    return out and ["", f"### {crate}", "", *out]


def main(argv):
    full, write = "--full" in argv, "--write" in argv
    argv = [a for a in argv if a not in ("--full", "--write")]
    if not argv:
        print(__doc__, file=sys.stderr)
        return 2
    laid = Laid(argv[0], argv[1:])
    out = renamings(laid) + ["## By crate", ""]
    out += ["What `tools/laid.py` finds to differ from LANDED by more than spelling, and the edits whose text changed, each with the place"]
    out += ["that refuses it. Under a crate with nothing but its proofs, all else is LANDED's, respelled."]
    for crate, said in laid.run():
        out += shown(crate, said, full)
    text = re.sub(r"\n{3,}", "\n\n", "\n".join(out)) + "\n"
    if write:
        page = read("docs/PORT.md").split("\n## Names\n")[0].rstrip("\n")
        with open("docs/PORT.md", "w", encoding="utf-8") as f:
            f.write(f"{page}\n\n{text}")
    else:
        print(text, end="")
    return 0


if __name__ == "__main__":
    raise SystemExit(main(sys.argv[1:]))
