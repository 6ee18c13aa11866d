#!/usr/bin/env python3
"""Counts the places of src/ that are written in the older forms, by the points of docs/DESIGN-PASS.md.

    python3 tools/places.py [--list] [--point N] [ROOT]   ROOT is the repository's top (here by default)

It goes by text, and says nothing of a place but that it is there. --list names each place; the second way of counting, by the words of
the code and not by its lines, is --other.
"""
import collections
import difflib
import glob
import os
import re
import sys

TESTS = {
    "answers", "cases", "column_calls", "fields", "laws_run", "list_calls", "notation", "random_calls", "random_formulas", "random_run",
    "random_sheets", "sheet_calls", "stepping",
}
def sources(root):
    for path in sorted(glob.glob(os.path.join(root, "crates/*/src/**/*.rt"), recursive=True)):
        with open(path, encoding="utf-8") as file:
            yield os.path.relpath(path, root), file.read()


def line_of(text, at):
    return text.count("\n", 0, at) + 1


def code(text):
    """The text with its comments blanked, at the same places."""
    return re.sub(r"//[^\n]*", lambda m: " " * len(m.group()), text)


def matches(pattern, text, flags=re.M):
    for found in re.finditer(pattern, text, flags):
        yield line_of(text, found.start()), " ".join(found.group().split())[:90]


def body_of(text, start):
    """The block that begins at the first brace which ends a line, or stands alone, from start on."""
    opened = re.compile(r"\{[ \t]*\n|\{ ").search(text, start)
    if not opened:
        return ""
    depth, at = 0, opened.start()
    for at in range(opened.start(), len(text)):
        depth += {"{": 1, "}": -1}.get(text[at], 0)
        if depth == 0:
            break
    return text[opened.start() : at + 1]


def functions(text):
    """name, first line, signature with its clauses, body"""
    plain = code(text)
    starts = list(re.finditer(r"^[ \t]*(?:pub(?:\(crate\))? )?(?:extern \"C\" )?fn (\w+)", plain, re.M))
    for found, after in zip(starts, starts[1:] + [None]):
        whole = plain[: after.start() if after else len(plain)]
        clauses = re.search(r"^\s+(?:requires|ensures)\b", whole[found.end() :], re.M)
        begins = re.compile(r"^[ \t]*\{\n" if clauses else r"\{", re.M).search(whole, found.end())
        end = begins.start() if begins else len(whole)
        yield found.group(1), line_of(plain, found.start()), plain[found.start() : end], body_of(whole, end)


def answers_like_result(text):
    for found in re.finditer(r"^(?:pub )?(enum|struct) (\w+)[^{;]*\{(.*?)^\}", code(text), re.M | re.S):
        inner = found.group(3)
        if re.search(r"\b(Refused|Failed|NotALength|NotBegun|Nothing)\b", inner) or re.search(r"\bfault: u32", inner):
            yield line_of(text, found.start()), f"{found.group(1)} {found.group(2)}"


def numbers_for_refusals(text):
    for name, line, head, _ in functions(text):
        if re.search(r"fault", name) and re.search(r"-> u(32|64)", head):
            yield line, f"fn {name}: a fault number, 0 for none"


def tests_of_faults(text):
    yield from matches(r"^\s*if \w*(?:fault|front|looked|listed|rising|dated|bad)\w* (?:!=|==) 0 \{", code(text))


def nothing_as_zero(text):
    for found in re.finditer(r"^((?:[ \t]*//[^\n]*\n)+)(?:[ \t]*#\[[^\n]*\n)*[ \t]*(?:pub )?fn (\w+)", text, re.M):
        said = " ".join(found.group(1).replace("//", " ").split())
        if re.search(r"\b0 (where|for any other|for none|of none|when)|M \+ 1, |; none for 0", said) and "fault" not in found.group(2):
            yield line_of(text, found.start(2)), f"fn {found.group(2)}: {said[:70]}"


def kinds_as_numbers(text):
    yield from matches(r"^\s*(?:pub )?const [A-Z_]+: (?:u64|u8|usize) = \d+;", code(text))


def loops(text):
    yield from matches(r"^\s*(?:while|loop)\b[^\n]*", code(text))


def loops_by_words(text):
    """The other way: counters that a body raises by a step, each with the name that it raises."""
    for name, line, _, body in functions(text):
        for counter in sorted(set(re.findall(r"\b(\w+) \+= [12];", body)) | set(re.findall(r"\b(\w+) = \1 \+ 1;", body))):
            if re.search(r"while [^{]*\b" + counter + r"\b", body):
                yield line, f"fn {name}: counts {counter}"


def by_hand(text):
    plain = code(text)
    yield from matches(r"if [^{}\n]* \{ 1 \} else \{ 0 \}|if [^{}\n]* \{ 0 \} else \{ 1 \}", plain)
    yield from matches(r"\bfn (?:smaller|larger|lesser|earlier|within|both|either|inverse|same|alike|number|one_less|left_after|index)\b", plain)
    yield from matches(r"256 \* \(?\w+\[|\* 256 \+|/ 256 % 256\) as u8|\b% 256\) as u8", plain)
    yield from matches(r"if (\w+) < (\w+) \{ (?:\1 \} else \{ \2|\2 \} else \{ \1) \}", plain)


def by_hand_by_words(text):
    """The other way: functions whose whole body is one choice, and loops that only compare or copy."""
    for name, line, _, body in functions(text):
        inner = " ".join(body.split())
        if re.fullmatch(r"\{ if [^{}]* \{ [^{};]* \} else \{ [^{};]* \} \}", inner):
            yield line, f"fn {name}: one choice"
        elif re.search(r"while [^{]*\{ \w+\[[^\]]*\] = \w+\[[^\]]*\]; \w+ \+= 1; \}", inner):
            yield line, f"fn {name}: copies"
        elif re.search(r"while [^{]*\{ if [^{]*\w+\[\w+\] != [^{]*\{ return false; \} (?:if [^{]*\{ return false; \} )*\w+ \+= 1; \}", inner):
            yield line, f"fn {name}: compares"


GROUPS = [
    ("sheet, left, right", r"sheet: &(?:'a )?\[u8\],\s*left: &(?:'a )?\[u32\],\s*right: &(?:'a )?\[u32\]"),
    ("text, bytes", r"text: &\[u8; 1024\],\s*bytes: usize"),
    ("out, at", r"out: &mut \[u8\],\s*at: usize"),
    ("code, m", r"code: &mut \[u64; 32\],\s*m: &mut \[usize; 5\]"),
]


def parameters(text):
    for name, line, head, _ in functions(text):
        for group, pattern in GROUPS:
            if re.search(pattern, head):
                yield line, f"fn {name}: {group}"


def buffers(text):
    plain = code(text)
    for name, line, head, _ in functions(text):
        for found in re.findall(r"\w+: &(?:mut )?\[u(?:8|64|32); \d+\],\s*\w+: usize|m: &(?:mut )?\[usize; 5\]|cells: &(?:mut )?Cells", head):
            yield line, f"fn {name}: {' '.join(found.split())}"
    for found in re.finditer(r"struct (\w+)[^{;]*\{([^}]*)\}", plain):
        if re.search(r"\[u\d+; \w+\]", found.group(2)) and re.search(r"\bcount: usize", found.group(2)):
            yield line_of(plain, found.start()), f"struct {found.group(1)}: an array and its count"


def switches(text):
    for name, line, head, _ in functions(text):
        for parameter in re.findall(r"\b(level|both|failing|set_wins|waits|letters|operation|few|on_delay): (?:bool|Operation)", head):
            yield line, f"fn {name}: {parameter}"


def repeated_facts(root):
    """Clauses that three or more functions have alike."""
    facts = collections.defaultdict(list)
    for path, text in sources(root):
        for name, line, head, _ in functions(text):
            for clause in re.findall(r"requires(?: \w+)? \{(.*?)\}\s*(?=requires|ensures|$|\n)", head, re.S):
                for fact in re.split(r" × ", " ".join(clause.split())):
                    facts[fact.strip("( )")].append((path, line, name))
    for fact, places in sorted(facts.items(), key=lambda pair: -len(pair[1])):
        if len(places) > 2:
            for path, line, name in places:
                yield path, line, f"fn {name}: requires {fact[:60]}"


def twins(root):
    """Pairs of functions whose bodies are alike in four words of five, names of variables and constants left out."""
    kept = []
    for path, text in sources(root):
        for name, line, _, body in functions(text):
            words = re.findall(r"\w+|[^\w\s]", body)
            words = ["n" if re.fullmatch(r"\d+|[A-Z_]+", word) else word for word in words]
            if len(words) >= 40:
                kept.append((path, line, name, words))
    for i, (path, line, name, words) in enumerate(kept):
        for other_path, other_line, other, others in kept[:i]:
            if abs(len(words) - len(others)) * 3 > max(len(words), len(others)):
                continue
            alike = difflib.SequenceMatcher(None, others, words, autojunk=False)
            if alike.quick_ratio() >= 0.8 and alike.ratio() >= 0.8:
                yield path, line, f"fn {name} ~ {other_path.split('/')[1]}::{other} ({alike.ratio():.2f})"


def answers(root):
    for path in sorted(glob.glob(os.path.join(root, "crates/*/proofs/**/Answers.antt"), recursive=True)):
        with open(path, encoding="utf-8") as file:
            for number, line in enumerate(file, 1):
                if re.match(r"pub [\w·'+.-]+ : ", line):
                    yield os.path.relpath(path, root), number, line.split(":")[0].strip()


def each(root, look):
    for path, text in sources(root):
        for line, said in look(text):
            yield path, line, said


KINDS = [
    (1, "enums and structs of the shape of Result or Option", lambda r: each(r, answers_like_result)),
    (1, "functions that answer a fault number, 0 for none", lambda r: each(r, numbers_for_refusals)),
    (1, "tests of such a number", lambda r: each(r, tests_of_faults)),
    (1, "functions that answer a number for nothing", lambda r: each(r, nothing_as_zero)),
    (1, "numbers for kinds and for places of an array", lambda r: each(r, kinds_as_numbers)),
    (2, "pairs of functions alike in four words of five", twins),
    (3, "while and loop", lambda r: each(r, loops)),
    (4, "choices, minima, equality, bytes and copies by hand", lambda r: each(r, by_hand)),
    (5, "functions with a group of parameters that travels", lambda r: each(r, parameters)),
    (5, "facts required by three functions or more", repeated_facts),
    (6, "arrays with a length beside, arrays for structs", lambda r: each(r, buffers)),
    (7, "parameters that switch a step", lambda r: each(r, switches)),
    (8, "answers in proofs/F/Answers.antt", answers),
]
OTHER = [
    (3, "counters that a while loop raises", lambda r: each(r, loops_by_words)),
    (4, "bodies of one choice, loops that copy or compare", lambda r: each(r, by_hand_by_words)),
]


def main():
    words = [word for word in sys.argv[1:] if not word.startswith("--")]
    point = int(words.pop(0)) if "--point" in sys.argv else 0
    root = words[0] if words else os.path.join(os.path.dirname(os.path.abspath(__file__)), "..")
    print(f"{'point':>5}  {'library':>7}  {'tests':>5}")
    for number, said, look in OTHER if "--other" in sys.argv else KINDS:
        if point and number != point:
            continue
        places = list(look(root))
        of_tests = [place for place in places if place[0].split("/")[1] in TESTS]
        print(f"{number:>5}  {len(places) - len(of_tests):>7}  {len(of_tests):>5}  {said}")
        if "--list" in sys.argv:
            for path, line, what in places:
                print(f"       {path.removeprefix('crates/')}:{line}: {what}")


if __name__ == "__main__":
    main()
