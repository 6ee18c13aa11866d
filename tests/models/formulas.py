"""The reader of formulas, by the grammar of document 01 with document 02's TP.

A part is (kind, value): ("name", text), ("TON", length), ("+", None).
"""
import re
import sys
from signals import M

sys.setrecursionlimit(10000)


class Wrong(Exception):
    pass


class Reader:
    def __init__(self, text):
        self.text, self.at, self.parts, self.depths, self.lengths = text, 0, [], [], []

    def skip(self, token):
        found = self.text.startswith(token, self.at)
        self.at += len(token) if found else 0
        return found

    def need(self, token):
        if not self.skip(token):
            raise Wrong

    def match(self, pattern):
        found = re.compile(pattern).match(self.text, self.at)
        if not found:
            raise Wrong
        self.at = found.end()
        return found.group()

    def part(self, kind, value, depth):
        self.parts.append((kind, value))
        self.depths.append(depth)

    def chain(self, operator, operand, depth):
        operand(depth)
        while self.skip(operator):
            operand(depth)
            self.part(operator, None, depth)

    def sum(self, depth):
        self.chain("+", self.product, depth)

    def product(self, depth):
        self.chain(".", self.factor, depth)

    def factor(self, depth):
        for operator in "!^~":
            if self.skip(operator):
                self.factor(depth + 1)
                return self.part(operator, None, depth)
        for constant in "01":
            if self.skip(constant):
                return self.part(constant, None, depth)
        for latch in ("SR", "RS"):
            if self.skip(latch + "("):
                self.sum(depth + 1)
                self.need(",")
                self.sum(depth + 1)
                self.need(")")
                return self.part(latch, None, depth)
        for timer in ("TON", "TOF", "TP"):
            if self.skip(timer + "("):
                length = int(self.match("0|[1-9][0-9]*"))
                self.lengths.append(length)
                self.need(",")
                self.sum(depth + 1)
                self.need(")")
                return self.part(timer, length, depth)
        if self.skip("("):
            self.sum(depth + 1)
            return self.need(")")
        name = self.match("[a-z][a-z0-9]*")
        if len(name) > 8:
            raise Wrong
        self.part("name", name, depth)


class Beginnings:
    """All the ways at once in which the grammar goes along a text, and the farthest place that one of them comes to.

    Each rule gives the places after it. What it has passed some formula begins with, since each rule derives some bytes.
    """

    LETTERS = "abcdefghijklmnopqrstuvwxyz"
    DIGITS = "0123456789"

    def __init__(self, text):
        self.text, self.far, self.known = text, 0, {}

    def any_of(self, bytes_, places):
        after = {place + 1 for place in places if self.text[place:place + 1] in list(bytes_)}
        self.far = max(self.far, *after, 0)
        return after

    def token(self, token, places):
        for byte in token:
            places = self.any_of(byte, places)
        return places

    def after(self, rule, places):
        for place in places:
            if (rule, place) not in self.known:
                self.known[rule, place] = getattr(self, rule)(place)
        return set().union(*(self.known[rule, place] for place in places))

    def chain(self, operator, operand, place):
        ends = more = self.after(operand, {place})
        while more:
            more = self.after(operand, self.token(operator, more)) - ends
            ends = ends | more
        return ends

    def sum(self, place):
        return self.chain("+", "product", place)

    def product(self, place):
        return self.chain(".", "factor", place)

    def repeated(self, first, others, most, place):
        ends = more = self.any_of(first, {place})
        for _ in range(most - 1):
            more = self.any_of(others, more)
            ends = ends | more
        return ends

    def length(self, place):
        return self.token("0", {place}) | self.repeated(self.DIGITS[1:], self.DIGITS, len(self.text), place)

    def factor(self, place):
        ends = self.after("factor", self.any_of("!^~", {place})) | self.any_of("01", {place})
        ends |= self.token(")", self.after("sum", self.token("(", {place})))
        ends |= self.repeated(self.LETTERS, self.LETTERS + self.DIGITS, 8, place)
        for word, operand in (("SR(", "sum"), ("RS(", "sum"), ("TON(", "length"), ("TOF(", "length"), ("TP(", "length")):
            second = self.token(",", self.after(operand, self.token(word, {place})))
            ends |= self.token(")", self.after("sum", second))
        return ends


def stop(text):
    """The length of the longest beginning of a text that some formula begins with; 0 for one that is not read."""
    if len(text) > 1024:
        return 0
    beginnings = Beginnings(text)
    beginnings.sum(0)
    return beginnings.far


def read(text):
    """The fault, and the parts in the order in which they are worked out."""
    if not 1 <= len(text) <= 1024:
        return 10, []
    reader = Reader(text)
    try:
        reader.sum(0)
    except Wrong:
        return 11, []
    if reader.at < len(text):
        return 11, []
    if any(length > M for length in reader.lengths):
        return 8, []
    if len(reader.parts) > 32 or max(reader.depths) > 16:
        return 12, []
    return 0, reader.parts
