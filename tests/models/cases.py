"""The lines that the program `cases` is to print: each case of its input, by documents 01 and 02.

A case is a call and its arguments (crates/notation/src/lib.rt says how they are written). A slot (`not_in` and its like) is no notion of
document 01: what it keeps is said at `operate`.
"""
import re
import struct
import formulas
import sheets
from signals import (M, Signal, answer_fault, connective, falling, implication, list_fault, listed, negation, rising, rs,
                     sr, stretches, tof, ton, tp)

PIECE = re.compile(rb'"([^"]*)"(?:\*(\d+))?|([bh]?)(\d+)(?:\+(\d+))?(?:\*(\d+))?|@(\d*)|-')
SIZE = {b"b": 1, b"h": 2, b"": 4}
OR, AND = [[0, 1], [1, 1]], [[0, 0], [0, 1]]


def arguments(text, kept):
    """The bytes of each argument of a case."""
    read, at = [b""], 0
    while at < len(text):
        found = PIECE.match(text, at)
        quoted, times, kind, first, rise, count, front = found.groups()
        if quoted is not None:
            read[-1] += quoted * int(times or 1)
        elif first is not None:
            limit = 256 ** SIZE[kind]
            assert int(first) < limit, found.group()
            for i in range(int(count or 1)):
                read[-1] += ((int(first) + i * int(rise or 0)) % limit).to_bytes(SIZE[kind], "little")
        elif front is not None:
            read[-1] += kept[:int(front)] if front else kept
        at = found.end() + 1
        if text[found.end():at] == b" ":
            read.append(b"")
    return read


def words_of(data):
    return list(struct.unpack("<%dI" % (len(data) // 4), data[:len(data) // 4 * 4]))


def number_of(data):
    return words_of(data)[0]


# What is shown


def shown(words):
    """The words in the notation, a run of four or more that rise by the same in one piece."""
    pieces, i = [], 0
    while i < len(words):
        rises = [(b - a) % 2**32 for a, b in zip(words[i:], words[i + 1:])]
        n = 1 + next((k for k, rise in enumerate(rises) if rise != rises[0]), len(rises))
        if n < 4:
            n, piece = 1, str(words[i])
        else:
            piece = "%d%s*%d" % (words[i], "+%d" % rises[0] if rises[0] else "", n)
        pieces.append(piece)
        i += n
    return ",".join(pieces) or "-"


def shown_bytes(data):
    if len(data) <= 128:
        return bytes(data).hex() or "-"
    fold = 0
    for byte in data:
        fold = fold % 4294967291 * 65599 + byte
    return "%d bytes: %d" % (len(data), fold)


def refused(fault):
    return "refused %d" % fault


def written(fault, answer, room, show):
    """The count or the fault, then the whole output, which held sevens."""
    left = answer[:0] if fault else answer
    out = list(left) + [7] * (room - len(left))
    return "%s, %s" % (refused(fault) if fault else len(answer), show(out))


def told(value, *lists):
    fault = next(filter(None, map(list_fault, lists)), 0)
    return refused(fault) if fault else value()


def yes(value):
    return "yes" if value else "no"


def until(m):
    """The last moment of a run: an instant, or the gap before one; None where it never ends."""
    if m is None:
        return "for good"
    return "until %d" % ((m + 1) // 2) if m % 2 else "until before %d" % (m // 2 + 1)


def failing(run):
    if run is None:
        return "holds"
    first, last = run
    return "fails %s %d %s" % ("at" if first % 2 else "after", (first + 1) // 2, until(last))


# Lists and operations


def value(words, k, m, least):
    return told(lambda: yes(Signal(words).up(m)) if least <= k <= M else refused(9), words)


def tidied(words, room):
    fault, answer = list_fault(words, tidying=True), []
    if not fault:
        signal = Signal(words)
        answer = listed(signal.up, signal.dates)
        fault = 7 if len(answer) > room else 0
    return written(fault, answer, room, shown)


def summed(date, length):
    if date > M or length > M:
        return refused(9 if date > M else 8)
    return "%s%d" % ("past M " if date + length > M else "", date + length)


def operate(operation, d, operands, room, slot):
    """In a slot, which must have 256 words, the first 256 up to M of an answer that is too long or changes after M stay."""
    fault = next(filter(None, map(list_fault, operands)), 0) or (8 if d > M else 0)
    answer = [] if fault else operation(*map(Signal, operands))
    if not slot:
        return written(fault or answer_fault(answer, room), answer, room, shown)
    if fault or room < 256:
        return "not begun, " + shown([7] * room)
    fault = answer_fault(answer)
    left = [word for word in answer if word // 4 <= M][:256]
    said = {0: len(answer), 5: "too long", 6: "too late"}[fault]
    return "%s, %s" % (said, shown(left + [7] * (room - len(left))))


def operation(name, given):
    slot, name = name.endswith("_in"), name.removesuffix("_in")
    *given, room = given
    d, table = 0, None
    if name in ("ton", "tof", "tp"):
        d, *given = number_of(given[0]), *given[1:]
    if name == "connective":
        digits, *given = given
        table = [[int(chr(digit)) for digit in row] for row in (digits[:2], digits[2:])]
    call = {"not": negation, "rising": rising, "falling": falling, "sr": sr, "rs": rs, "ton": lambda f: ton(d, f),
            "tof": lambda f: tof(d, f), "tp": lambda f: tp(d, f), "connective": lambda f, g: connective(table, f, g)}[name]
    return operate(call, d, list(map(words_of, given)), number_of(room), slot)


# Sheets


def begun(room):
    return written(0 if room >= 7 else 7, sheets.MARK + b"\0\0", room, shown_bytes)


def appended(sheet, name, words, room):
    return written(*sheets.append(sheet, name, words, room), room, shown_bytes)


def looked_up(sheet, name):
    part = sheets.lookup(sheet, name)[1]
    return "%d, %s" % (len(part), shown_bytes(part))


def located(sheet, name):
    fault = sheets.lookup(sheet, name)[0]
    if fault:
        return refused(fault)
    at, n = sheets.read(sheet)[1][name]
    return "%d %d" % (at, 4 * n)


# A column of moments


def column_fault(words, moments, room):
    """The list, 20, 9, 7. A moment is its k and 0 for the instant, 1 for the gap after it, in this order."""
    if list_fault(words):
        return list_fault(words)
    if len(moments) > 1000 or any(not before < moment for before, moment in zip(moments, moments[1:])):
        return 20
    if any(moment == (0, 0) or moment[0] > M for moment in moments):
        return 9
    return 7 if len(moments) > room else 0


def column(words, numbers, room):
    """Count and number of words passed, or the fault; then the whole output."""
    moments = [divmod(number, 2) for number in numbers]
    fault = column_fault(words, moments, room)
    if fault:
        return written(fault, [], room, shown)
    signal = Signal(words)
    values = [int(signal.up(2 * k + gap - 1)) for k, gap in moments]
    last = moments[-1][0] if moments else -1
    passed = sum(date <= last for date in [0] + signal.dates)
    return written(0, values, room, shown).replace(",", " %d," % passed, 1)


# Up-times and their program

HORIZON = re.compile(rb"0|[1-9][0-9]*")


def up_stretches(sheet, name, horizon):
    """The fault, where the horizon is None when it is not written as a length is; the stretches."""
    fault = sheets.lookup(sheet, name)[0]
    if not fault and (horizon is None or horizon > M):
        fault = 19
    return fault, [] if fault else stretches(Signal(sheets.words(sheet, name)), horizon)


def uptime(sheet, name, horizon, room):
    """Count and total, or the fault; then the whole output."""
    fault, found = up_stretches(sheet, name, horizon)
    words = [word for stretch in found for word in stretch]
    said = written(fault or (7 if len(words) > room else 0), words, room, shown)
    return said if said.startswith("refused") else said.replace(",", " %d," % sum(words[1::2]), 1)


def page_lines(data):
    """What the program prints for an input, line by line."""
    name, _, rest = data[:65536].partition(b"\n")
    text, _, sheet = rest.partition(b"\n")
    fault, found = up_stretches(sheet, name, int(text[:11]) if HORIZON.fullmatch(text) else None)
    if fault:
        return [refused(fault)]
    return ["%d %d" % stretch for stretch in found] + ["total %d" % sum(length for _, length in found)]


def page(data):
    return "".join(line + "|" for line in page_lines(data))


# Formulas, claims and the program


def part_text(kind, value):
    if kind == "name":
        return value
    return kind + (" %d" % value if value else "")


def read(text):
    text = text.decode("latin-1")
    fault, parts = formulas.read(text)
    shown_parts = refused(fault) if fault else " ".join(part_text(*part) for part in parts)
    return "%s at %d" % (shown_parts, formulas.stop(text))


def evaluated(parts, sheet):
    """The fault, and the words of a formula's parts."""
    stack = []
    for kind, value in parts:
        if kind == "name":
            words = sheets.words(sheet, value.encode())
        elif kind in "01":
            words = [int(kind)]
        elif kind in ("!", "^", "~"):
            words = {"!": negation, "^": rising, "~": falling}[kind](stack.pop())
        elif kind in ("TON", "TOF", "TP"):
            words = {"TON": ton, "TOF": tof, "TP": tp}[kind](value, stack.pop())
        else:
            g, f = stack.pop(), stack.pop()
            words = {"+": lambda: connective(OR, f, g), ".": lambda: connective(AND, f, g),
                     "SR": lambda: sr(f, g), "RS": lambda: rs(f, g)}[kind]()
        if answer_fault(words):
            return answer_fault(words), []
        stack.append(Signal(words))
    return 0, words


def answers(sheet, texts, work):
    """The fault of the formulas on a sheet, and the words of each."""
    fault, signals = sheets.read(sheet)
    parts_of, words = [], []
    for text in texts:
        if not fault:
            fault, parts = formulas.read(text.decode("latin-1"))
            parts_of.append(parts)
        if not fault and any(kind == "name" and value.encode() not in signals for kind, value in parts):
            fault = 13
    if not fault and work < 8192:
        fault = 18
    for parts in parts_of:
        if not fault:
            fault, answer = evaluated(parts, sheet)
            words.append(answer)
    return fault, words


def evaluate(sheet, text, work, room):
    fault, words = answers(sheet, (text,), work)
    answer = sum(words, [])
    return written(fault or (7 if len(answer) > room else 0), answer, room, shown)


def claim(sheet, f, g, work):
    fault, words = answers(sheet, (f, g), work)
    return refused(fault) if fault else failing(implication(*map(Signal, words)))


def report(data):
    """What the program prints for an input."""
    f, _, rest = data[:65536].partition(b"\n")
    g, _, sheet = rest.partition(b"\n")
    return claim(sheet, f, g, 8192)


w, n = words_of, number_of
CALLS = {
    "list_fault": lambda a: list_fault(w(a)),
    "value_at": lambda a, k: value(w(a), n(k), 2 * n(k) - 1, 1),
    "value_in": lambda a, k: value(w(a), n(k), 2 * n(k), 0),
    "equal": lambda a, b: told(lambda: yes(a == b), w(a), w(b)),
    "implies": lambda a, b: told(lambda: failing(implication(Signal(w(a)), Signal(w(b)))), w(a), w(b)),
    "tidy": lambda a, room: tidied(w(a), n(room)),
    "date_plus_length": lambda date, length: summed(n(date), n(length)),
    "sheet_fault": lambda sheet: sheets.read(sheet)[0],
    "lookup_fault": lambda sheet, name: sheets.lookup(sheet, name)[0],
    "lookup": looked_up,
    "locate": located,
    "well_named": lambda name: yes(not sheets.name_fault(name, [])),
    "begin": lambda room: begun(n(room)),
    "append": lambda sheet, name, a, room: appended(sheet, name, w(a), n(room)),
    "read": read,
    "evaluate": lambda sheet, text, work, room: evaluate(sheet, text, n(work), n(room)),
    "claim": lambda sheet, f, g, work: claim(sheet, f, g, n(work)),
    "report": report,
    "uptime": lambda sheet, name, horizon, room: uptime(sheet, name, n(horizon), n(room)),
    "page": page,
    "values": lambda a, moments, room: column(w(a), w(moments), n(room)),
}


def lines(text):
    """The output for an input. `keep` keeps a sheet, `grow` what it appends to it."""
    kept = b""
    for line in text.split(b"\n"):
        if not line or line.startswith(b"#"):
            continue
        name, _, rest = line.decode("latin-1").partition(" ")
        given = arguments(rest.encode("latin-1"), kept)
        if name == "keep":
            kept = given[0]
            result = len(kept)
        elif name == "grow":
            result = CALLS["append"](*given)
            kept = sheets.append(given[0], given[1], w(given[2]), n(given[3]))[1]
        else:
            result = CALLS[name](*given) if name in CALLS else operation(name, given)
        yield "%s = %s" % (line.decode("latin-1"), result)
