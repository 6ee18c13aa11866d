"""Sheets by document 01: read front to back, looked up, appended to."""
import re
import struct
from signals import list_fault

MARK = b"SGL\x01\x00"


def name_fault(name, names):
    return 0 if re.fullmatch(b"[a-z][a-z0-9]{0,7}", name) and name not in names else 16


def read(sheet):
    """The fault, and each name with the place and the number of its words, up to the first fault."""
    signals = {}
    if sheet[:5] != MARK:
        return 14, signals
    if len(sheet) < 7:
        return 15, signals
    count, at = struct.unpack_from("<H", sheet, 5)[0], 7
    if count > 32:
        return 15, signals
    for _ in range(count):
        if len(sheet) < at + 8:
            return 15, signals
        padded = sheet[at:at + 8]
        name = padded.rstrip(b"\0")
        if name_fault(name, signals):
            return 16, signals
        at += 8
        if len(sheet) < at + 2:
            return 15, signals
        n = struct.unpack_from("<H", sheet, at)[0]
        if not 1 <= n <= 256:
            return 17, signals
        at += 2
        there = min(n, (len(sheet) - at) // 4)
        if there and list_fault(struct.unpack_from("<%dI" % there, sheet, at)):
            return 17, signals
        if there < n:
            return 15, signals
        signals[name] = at, n
        at += 4 * n
    return 0 if at == len(sheet) else 15, signals


def lookup(sheet, name):
    """The fault, and the bytes of the signal's words."""
    fault, signals = read(sheet)
    if not fault:
        fault = name_fault(name, [])
    if not fault and name not in signals:
        fault = 13
    if fault:
        return fault, b""
    at, n = signals[name]
    return 0, sheet[at:at + 4 * n]


def words(sheet, name):
    part = lookup(sheet, name)[1]
    return list(struct.unpack("<%dI" % (len(part) // 4), part))


def append(sheet, name, added, room):
    """The fault, and the sheet with the list appended under the name."""
    fault, signals = read(sheet)
    fault = fault or name_fault(name, signals) or list_fault(added)
    if not fault and len(signals) == 32:
        fault = 15
    if fault:
        return fault, b""
    longer = (MARK + struct.pack("<H", len(signals) + 1) + sheet[7:]
              + name.ljust(8, b"\0") + struct.pack("<H%dI" % len(added), len(added), *added))
    return (0, longer) if len(longer) <= room else (7, b"")
