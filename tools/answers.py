#!/usr/bin/env python3
"""Turns a crate's Proof.antt files, which walk a function by its goals, to Invariants.antt and Answers.antt.

usage: tools/answers.py NAMES CRATE      NAMES: names.json of `rt check --generated DIR --old-names` in the crate; CRATE: its folder

A walk along c.before.before.f becomes c.F, the step's name of today; a place that a lemma takes becomes (goal.at.GOAL c).PLACE.
Answers that only say `search rules` go. A Proof.antt that walks the code itself is left, and named. It proves nothing: rt check decides.
"""

import json
import os
import re
import sys

W = r"[^\s(){}.;,@\"«»\[\]\\]+"
plain = lambda it: re.sub("[-_]+", "-", it)


def blocks(text):
    """The imports, and the declarations at the margin with the comments above each."""
    uses, out, cur = [], [], []
    for line in text.split("\n"):
        at_margin = line[:1] not in ("", " ", ")", "}")
        if at_margin and (line.startswith("use ") or line.startswith("pub use ")):
            uses.append(line)
            continue
        if at_margin and cur and not (line.startswith("--")):
            body = [l for l in cur if l.strip()]
            head = next((l for l in body if not l.startswith("--")), "")
            name = re.match(r"(?:abbrev |unfoldable |pub )*(" + W + ")", head)
            here = re.match(r"(?:abbrev |unfoldable |pub )*(" + W + ")", line)
            if not head or line.startswith("unfolding") or (name and here and name.group(1) == here.group(1)):
                cur.append(line)
                continue
            out.append(cur)
            cur = [line]
        elif line.startswith("--") and cur and any(not l.startswith("--") and l.strip() for l in cur) and not cur[-1].strip():
            out.append(cur)
            cur = [line]
        else:
            cur.append(line)
    if cur:
        out.append(cur)
    return uses, ["\n".join(b).rstrip() for b in out if "".join(b).strip()]


class Function:
    def __init__(self, of):
        self.needs = of["needs"]
        self.asked = of["asked_at"]
        self.places = {p[0]: (p, n) for p, n in zip(of["places"], of["places_by_name"])}
        self.loops = of["loops"]
        self.changed = of["changed"]
        self.params = of["params"]
        self.typed = of["typed"]
        self.lemmas = {}

    def parent(self, place):
        return self.places[place][0][1] if place in self.places else None

    def ancestors(self, place):
        while place in self.places:
            yield place
            place = self.parent(place)

    def known(self, fields):
        """The variable that a step tells the numbers of, where the fields end at such a step."""
        if fields and re.match(r"(shared-slice|slice|array|mut-slice)-known", plain(fields[-1])):
            for of in self.typed:
                for var, known in of:
                    if plain(known) == plain(fields[-1]):
                        return var
        return None

    def step(self, place, fields):
        """The callee of the step that the fields end at."""
        fields = [x for x in fields if x != "before"]
        if len(fields) != 1:
            return None
        for p in list(self.ancestors(place)) + list(self.places):
            old = self.places[p][0][2][0]
            if old and plain(old).lower() == plain(fields[0]).lower():
                return self.places[p][0][3] if self.places[p][0][3] in self.params else None
        return None

    def chain(self, place, fields):
        """The place that a chain of fields leads to, or what is left of it as a path from c. How many steps the chain goes back is not
        counted, since today's Rattle makes fewer: a label is looked for above the place, and then anywhere."""
        fields = list(fields)
        at = place
        while fields and fields[0] == "before":
            at = self.parent(at) or at
            fields.pop(0)
        if not fields:
            return at, None
        label, rest = plain(fields[0]).removesuffix("-lem"), [x.replace("well-formed", "well_formed") for x in fields[1:]]
        if re.match(r"(shared-slice|slice|array|mut-slice|struct)-known", label) and rest[:1] == ["given"]:
            for of in self.typed:
                for var, known in of:
                    if plain(known) == label:
                        return None, ["type_inv", var] + rest[1:]
        if rest[:1] == ["given"] and not label.endswith("known"):
            # what the arm's variant says of the value
            for p in self.ancestors(place):
                if re.match(r"in[-_]", self.places[p][0][2][1] or ""):
                    if rest[1:2] == ["0"] and len(rest) > 2:
                        return None, ["_"]
                    return None, [self.places[p][0][2][1], "is"] + rest[2 if rest[1:2] in (["0"], ["1"]) else 1 :]
        for p in list(self.ancestors(place)) + list(self.places):
            old, new = self.places[p][0][2]
            if old and plain(old).lower() == label.lower():
                rest = by_name(rest, self.params.get(self.places[p][0][3]) or [])
                return None, [new] + rest
        if label == "pre":
            return None, ["requires"] + rest
        return None, [label.replace("well-formed", "well_formed").replace("type-inv", "type_inv")] + rest


def by_name(rest, params):
    """What a call left of a parameter: by its name, where it went by its place, 1.1.0 for the third."""
    if rest[:1] in (["last"], ["kept"]):
        rest = [{"last": "new", "kept": "auto"}[rest[0]]] + rest[1:]
    if rest[:1] in (["new"], ["auto"]):
        k = next((i for i, x in enumerate(rest[1:]) if x != "1"), None)
        if k is not None and rest[1 + k] == "0" and k < len(params):
            return [rest[0], params[k]] + rest[2 + k :]
    return rest


def resolved(f, text, env, goal):
    """The text with each path from c brought to today's, and the names of places gone."""
    env = dict(env)
    # names of places
    while True:
        hit = None
        for m in re.finditer(r"let (" + W + r") = (" + W + r"(?:\." + W + r")*) in\b[ ]*", text):
            head, *fields = m.group(2).split(".")
            if head in env:
                place, rest = f.chain(env[head], fields)
                known = f.known(fields)
                if known:
                    text = text[: m.start()] + re.sub(r"(?<![\w.'-])" + re.escape(m.group(1)) + r"\.given\b", "c.type_inv." + known, text[m.end() :])
                    hit = "again"
                    break
                last = plain(fields[-1]) if fields else "before"
                if last != "before" and not last.endswith("known") and re.search(r"(?<![\w.'-])" + re.escape(m.group(1)) + r"\.given\.[01]", text[m.end() :]):
                    # what an arm says of its value: its fields, and that it is that
                    _, arm = f.chain(env[head], fields + ["given", "1"])
                    tail = re.sub(r"(?<![\w.'-])" + re.escape(m.group(1)) + r"\.given\.1(?!\w)", "c." + ".".join(arm), text[m.end() :])
                    tail = re.sub(r"(?<![\w.'-])" + re.escape(m.group(1)) + r"\.given\.0(?:\.1)*(?:\.0)?", "_", tail)
                    text = text[: m.start()] + tail.lstrip("\n ") if not tail.startswith("\n") else text[: m.start()].rstrip() + tail
                    hit = "again"
                    break
                callee = f.step(env[head], fields)
                if callee:
                    of = f.params[callee]
                    text = text[: m.end()] + re.sub(r"(?<![\w.'-])" + re.escape(m.group(1)) + r"\.((?:new|auto|last|kept)(?:\.1)*\.0)", lambda n: m.group(1) + "." + ".".join(by_name(n.group(1).split("."), of)), text[m.end() :])
                if place:
                    hit = (m, place)
                    break
        if not hit:
            break
        if hit == "again":
            continue
        m, place = hit
        env[m.group(1)] = place
        before, after = text[: m.start()], text[m.end() :]
        text = before.rstrip(" ") + (" " if before.strip() and not before.endswith("\n") else "") + after.lstrip(" ") if not after.startswith("\n") else before.rstrip() + after

    text = re.sub(r"^\s*\n?\s*\((?=\n)", " (", text)

    def put(m):
        head, fields = m.group(1), m.group(2)
        if head not in env or head == "at" and not fields:
            return m.group()
        fields = [x for x in fields.split(".") if x]
        place, rest = f.chain(env[head], fields)
        if rest == ["_"]:
            return "_"
        if rest:
            return "c." + ".".join(rest)
        if place:
            new = f.places[place][1]
            before = re.findall(W, m.string[: m.start()])
            lemma = next((x for x in reversed(before[-4:]) if x in f.lemmas), None)
            if lemma:
                new = f.places[f.lemmas[lemma]][1]
            if goal:
                return f"(goal.at.{goal} c).{new}"
            if not lemma or f.lemmas[lemma] == env.get("c"):
                return "c"
            up = list(f.ancestors(env.get("c")))
            return "c" + ".before" * (up.index(f.lemmas[lemma]) if f.lemmas[lemma] in up else 0)
        return m.group() + "{-?-}"

    text = re.sub(r"--[^\n]*|(?<![\w.'₀-₉-])(" + W + r")((?:\." + W + r")*)", lambda m: m.group() if m.group().startswith("--") else put(m), text)
    return text.replace(".well-formed", ".well_formed")


def substituted(text, to):
    return re.sub(r"(?<![.\w'₀-₉-])(" + W + r")(?=[\s(){}.;,@\[\]]|$)(?! = )", lambda m: to.get(m.group(1), m.group(1)), text)


def convert(path, f, module, function):
    text = open(path, encoding="utf-8").read()
    # lemmas that only lead from a place to one above it: all places are read off c
    for name in re.findall(r"^(?:abbrev )?(" + W + r") : tie\.[^\n→]*→ tie\.(?!Need)[^\n]*$", text, re.M):
        text = re.sub(r"^(?:--[^\n]*\n)*(?:abbrev )?" + re.escape(name) + r" : tie\.[^\n]*\n" + re.escape(name) + r" [^\n]*\n\n", "", text, flags=re.M)
        chain = W + r"(?:\." + W + r")*"
        for _ in range(4):
            text = re.sub(r"\((?<![\w.'-])" + re.escape(name) + r" (" + chain + r")\)", r"\1", text)
            text = re.sub(r"(?<![\w.'-])" + re.escape(name) + r" (" + chain + r")", r"\1", text)
    # abbreviations of a path from a place
    for name, arg, way in re.findall(r"^abbrev (" + W + r") : tie\.[^\n]*\n\1 (" + W + r") = \2((?:\." + W + r")+)\s*$", text, re.M):
        rest = re.sub(r"^(?:\.before)+", "", way)
        text = re.sub(r"^abbrev " + re.escape(name) + r" : tie\.[^\n]*\n[^\n]*\n\n", "", text, flags=re.M)
        text = re.sub(r"\((?<![\w.'-])" + re.escape(name) + r" (" + W + r"(?:\." + W + r")*)\)", lambda m: m.group(1) + rest, text)
        text = re.sub(r"(?<![\w.'-])" + re.escape(name) + r" (c(?:\." + W + r")*)(?![\w.'-])", lambda m: m.group(1) + rest, text)
    uses, parts = blocks(text)
    spec = re.search(r"\(tie\.spec\b(.*?)\)\s*$", text, re.S) or re.search(r"tie\.spec\b(.*?)$", text, re.S)
    order = re.findall(W, spec.group(1)) if spec else []
    order = [x for x in order if not re.match(r"(invariant|decreases|Inv|μ)-", x)]
    by_name = {}
    if len(order) == len(f.needs):
        by_name = {n: i for i, n in enumerate(order)}
    invariants, answers, left, inline = [], [], [], {}
    top = ""
    if parts and parts[0].startswith("--"):
        top, _, rest = parts[0].partition("\n\n")
        parts[0] = rest if rest else ""
        if not all(l.startswith("--") for l in top.split("\n")):
            top, parts[0] = "", top + "\n\n" + rest
    parts = [x for x in parts if x.strip()]
    for b in parts:
        for name, arg, place in re.findall(r"^\s*(?:pub )?(" + W + r") : \((" + W + r") : tie\.(" + W + r")", b, re.M):
            at = next((p for p in f.places if plain(p) == plain(place)), None)
            if at and not place.startswith("Need"):
                f.lemmas[name] = at
        for name, place in re.findall(r"^(?:abbrev |pub )*(" + W + r") :\s+tie\.(" + W + r")[^\n→]*→", b, re.M):
            at = next((p for p in f.places if plain(p) == plain(place)), None)
            if at and not place.startswith("Need"):
                f.lemmas[name] = at
    for b in parts:
        head = next((l for l in b.split("\n") if l.strip() and not l.startswith("--")), "")
        m = re.match(r"(?:abbrev |pub )*((?:invariant|decreases)-\S+) : tie\.", head)
        if m:
            kind, label = m.group(1).split("-", 1)
            k = next((i for i, l in enumerate(f.loops) if plain(l[0][0]) == plain(label)), None)
            eq = re.search(r"^" + re.escape(m.group(1)) + r"((?: " + W + r")*?) =(\s.*)$", b, re.S | re.M)
            if k is None or not eq:
                left.append(b)
                continue
            new, live = f.loops[k][0][1], f.loops[k][1]
            changed = f.changed[k] if k < len(f.changed) else [False] * len(live)
            args = eq.group(1).split()
            to = {}
            want = len(live) + sum(bool(x) for x in changed)
            if len(args) != want:
                left.append(f"-- {len(args)} arguments, {want} wanted: {live} {changed}\n" + b)
                continue
            for i, v in enumerate(live):
                to[args[i]] = f"l.initial.{v}" if changed[i] else f"l.{v}"
            later = [v for v, c in zip(live, changed) if c]
            for v, a in zip(later, args[len(live) :]):
                to[a] = f"l.{v}"
            comments = "\n".join(l for l in b.split("\n") if l.startswith("--"))
            unfolding = "\n".join(l for l in b.split("\n") if l.startswith("unfolding"))
            invariants.append("\n".join(x for x in (comments, f"abbrev pub {kind}-{new} : goal.{kind}-{new}", unfolding, f"{kind}-{new} l ={substituted(eq.group(2), to)}") if x))
            continue
        m = re.match(r"(?:abbrev |pub )*(" + W + r") : tie\.Need-(\S+)", head)
        if m:
            name, need = m.group(1), m.group(2)
            i = by_name.get(name)
            if i is None:
                tries = {plain(x) for x in (need, re.sub(r"^overflow-", "", need), re.sub(r"^slice-bounds-", "part-", need), name)}
                i = next((j for j, (o, n) in enumerate(f.needs) if plain(o) in tries), None)
            if i is None:
                left.append(b)
                continue
            goal, place = f.needs[i][1], f.asked[i][0]
            eq = re.search(r"^" + re.escape(name) + r"((?: " + W + r")*?) =(\s.*)$", b, re.S | re.M)
            if not eq:
                left.append(b)
                continue
            args = eq.group(1).split()
            if not args:
                left.append(b)
                continue
            body = eq.group(2)
            unfolding = "\n".join(l for l in b.split("\n") if l.startswith("unfolding"))
            inline[name] = resolved(f, body, {args[0]: place}, goal).strip()
            if re.fullmatch(r"\s*search rules\s*", body) and not unfolding:
                continue
            body = resolved(f, body, {args[0]: place}, goal)
            rest = [a for a in args[1:] if a != "κs"]
            comments = "\n".join(l for l in b.split("\n") if l.startswith("--"))
            unfolding = "\n".join(l for l in b.split("\n") if l.startswith("unfolding"))
            answers.append("\n".join(x for x in (comments, f"pub {goal} : goal.{goal}", unfolding, f"{goal} {' '.join(['c'] + rest)} ={body}") if x))
            continue
        if re.match(r"(?:abbrev |pub )*\S+-spec : ", head) or "tie.close" in b:
            continue
        if head == "":
            if b.strip():
                answers.append(b)
            continue
        # a lemma of the file, over a place or over none
        env = {}
        free = re.match(r"((?:abbrev |pub )*(" + W + r") :\s+)tie\.(" + W + r")((?: (?:invariant|decreases)-\S+)*)(\s+→)", b[b.index(head) :])
        if free:
            # its first argument is a place, without a name in the signature
            at = next((p for p in f.places if plain(p) == plain(free.group(3))), None)
            arg = re.search(r"^" + re.escape(free.group(2)) + r" (" + W + r")[^\n]* =", b, re.M)
            if at and arg:
                i = b.index(head)
                b = b[:i] + free.group(1) + f"({arg.group(1)} : tie.{free.group(3)})" + free.group(5) + b[i + free.end() :]
                f.lemmas[free.group(2)] = at
        for a, place in re.findall(r"\((" + W + r") : tie\.(" + W + r")[^()]*\)", b):
            env[a] = next((p for p in f.places if plain(p) == plain(place)), None)
        env = {a: p for a, p in env.items() if p}
        if env:
            where = next(iter(env.values()))
            b = re.sub(r"\((" + W + r") : tie\.(" + W + r")[^()]*\)", lambda m: f"({m.group(1)} : goal.{f.places[env[m.group(1)]][1]})" if m.group(1) in env else m.group(), b)
            b = resolved(f, b, env, None)
            b = re.sub(r"goal\.c\b", "goal.", b)
        answers.append(b)
    # an answer that cites another's
    for i, b in enumerate(answers):
        for name, body in inline.items():
            if body in ("omega arith", "search rules"):
                b = re.sub(r", " + re.escape(name) + r" \(goal\.at\.\S+ c\)\.[^\s(){}.;,]+(?=[,)])", "", b)
            answers[i] = b = re.sub(r"\(" + re.escape(name) + r" \(goal\.at\.\S+ c\)\.[^\s(){}.;,]+\)", lambda m: f"({body})", b)
            answers[i] = b = re.sub(r"(?<![\w.'-])" + re.escape(name) + r" \(goal\.at\.\S+ c\)\.[^\s(){}.;,]+", lambda m: f"({body})", b)
    places = set()
    for i, b in enumerate(answers):
        places |= set(re.findall(r"\(goal\.at\.\S+ c\)\.(" + W + ")", b))
        typed = re.findall(r" : goal\.((?:After|At|In|Then|Else|Start|Joined)" + W + "|Start)(?=[\\s)])", b)
        places |= set(typed)
        answers[i] = re.sub(r" : goal\.((?:After|At|In|Then|Else|Joined)-" + W + r"|Start)(?=[\s)])", r" : \1", b)
    uses = [u for u in uses if not re.search(r"\.(Statement|Tie)\b|Author\.Rules", u)]
    folder = os.path.dirname(path)
    head = lambda kind: "\n".join([top] * bool(top) + uses + (["use borrow.Author.Rules.{rules}"] if kind == "Goals" else []) + [f"use Rattle.{module}.{kind} as goal"] + ([f"use Rattle.{module}.Goals.{{{', '.join(sorted(places))}}}"] if kind == "Goals" and places else [])) + "\n\n"
    if invariants:
        with open(os.path.join(folder, "Invariants.antt"), "w", encoding="utf-8") as o:
            o.write(head("Given") + "\n\n".join(invariants) + "\n")
    rest = "\n\n".join(answers)
    if any(a.split("\n")[-1:] and not all(l.startswith("--") for l in a.split("\n")) for a in answers):
        with open(os.path.join(folder, "Answers.antt"), "w", encoding="utf-8") as o:
            o.write(head("Goals") + rest + "\n")
    os.remove(path)
    for b in left:
        print(f"left: {path}: {b}")


def main(argv):
    names, crate = argv
    of = json.load(open(names, encoding="utf-8"))
    name = os.path.basename(os.path.abspath(crate))
    functions = {}
    for module, it in of.items():
        if ".Lts" in module:
            path = module.split("-proofs.", 1)[1].rsplit(".Lts", 1)[0]
            functions.setdefault(plain(path), []).append((path, it))
    for folder, _, files in os.walk(os.path.join(crate, "proofs")):
        if "Proof.antt" not in files:
            continue
        path = os.path.join(folder, "Proof.antt")
        at = os.path.relpath(folder, os.path.join(crate, "proofs")).replace("/", ".")
        text = open(path, encoding="utf-8").read()
        if "tie.close" not in text:
            print(f"left: {path}: a walk by hand")
            continue
        of = functions.get(plain(at))
        if not of or len(of) != 1:
            print(f"left: {path}: {'no names' if not of else 'many parts'}")
            continue
        convert(path, Function(of[0][1]), f"{name}.proofs.{at}", at)


if __name__ == "__main__":
    main(sys.argv[1:])
