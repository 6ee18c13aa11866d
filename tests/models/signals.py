"""Signals, lists and operations by the sentences of document 01; TP, up stretches and how long a claim fails by those of document 02.

A moment is a number: gap k is 2k, instant k is 2k - 1. A signal is constant between its changes, so "some moment
from a to b" is asked by way of the last moment up to b that is up, or down; it lies just before a change, or is b.
"""
from bisect import bisect_right

M = 1073741823


def list_fault(words, tidying=False):
    if not 1 <= len(words) <= 256:
        return 1
    if words[0] > 1:
        return 2
    date, value = 0, words[0]
    for word in words[1:]:
        if word // 4 <= date:
            return 3
        if word % 4 == 3 * value and not tidying:
            return 4
        date, value = word // 4, word % 2
    return 0


class Signal:
    def __init__(self, words):
        self.words = words
        self.dates = [word // 4 for word in words[1:]]
        self.changes = [m for date in self.dates for m in (2 * date - 1, 2 * date)]

    def up(self, m):
        date = (m + 1) // 2
        n = bisect_right(self.dates, date)
        word = self.words[n]
        at_it = n > 0 and self.dates[n - 1] == date and m % 2 == 1
        return bool(word // 2 % 2 if at_it else word % 2)

    def last(self, value, m):
        """The last moment up to m at which the signal has the value; -1 where there is none."""
        ends = self.changes[:bisect_right(self.changes, m)]
        for end in [m] + [change - 1 for change in reversed(ends)]:
            if self.up(end) == value:
                return end
        return -1


def listed(up, dates):
    """The list of a signal that changes at some of the dates only."""
    words = [int(up(0))]
    for date in sorted(set(dates) - {0}):
        at, after = up(2 * date - 1), up(2 * date)
        if (at, after) != (words[-1] % 2, words[-1] % 2):
            words.append(4 * date + 2 * at + after)
    return words


def connective(table, f, g):
    return listed(lambda m: table[f.up(m)][g.up(m)], f.dates + g.dates)


def negation(f):
    return listed(lambda m: not f.up(m), f.dates)


def rising(f):
    return listed(lambda m: m % 2 == 1 and f.up(m) and not f.up(m - 1), f.dates)


def falling(f):
    return listed(lambda m: m % 2 == 1 and not f.up(m) and f.up(m - 1), f.dates)


def latch(s, r, own, now):
    """own: the first moment of the interval from t1 on at which r must be down; now: the case of t itself."""
    starts = sorted({m for change in s.changes + r.changes for m in (change - 1, change)})

    def up(m):
        reset = r.last(True, m)
        return now(m) or any(s.up(t1) and reset < own(t1) for t1 in starts if t1 < m)

    return listed(up, s.dates + r.dates)


def sr(s, r):
    return latch(s, r, lambda t1: t1 if t1 % 2 == 0 else t1 + 1, s.up)


def rs(s, r):
    return latch(s, r, lambda t1: t1, lambda m: s.up(m) and not r.up(m))


def delayed(d, f):
    return [0, d] + f.dates + [date + d for date in f.dates]


def ton(d, f):
    return listed(lambda m: (m + 1) // 2 >= d and f.last(False, m) < max(0, m - 2 * d), delayed(d, f))


def tof(d, f):
    return listed(lambda m: f.last(True, m) >= max(0, m - 2 * d), delayed(d, f))


def tp(d, f):
    """A rising instant a starts a pulse, up from a to before a+d; rising instants before a+d are ignored."""
    starts = []
    for a in f.dates:
        if f.up(2 * a - 1) and not f.up(2 * a - 2) and not any(a < start + d for start in starts):
            starts.append(a)
    return listed(lambda m: any(a <= (m + 1) // 2 < a + d for a in starts), delayed(d, f))


def stretches(f, horizon):
    """The longest runs of up gaps before the horizon, cut there: first gap and length of each. Gaps change their value at dates only."""
    first = [k for k in [0] + f.dates if k < horizon and f.up(2 * k) and not (k > 0 and f.up(2 * k - 2))]
    down = [k for k in f.dates if not f.up(2 * k)]
    return [(k, min([end for end in down if end > k] + [horizon]) - k) for k in first]


def answer_fault(words, room=256):
    """5, 6 and 7 of an exact answer."""
    if len(words) > 256:
        return 5
    if words[-1] // 4 > M:
        return 6
    return 7 if len(words) > room else 0


def implication(f, g):
    """The first unbroken run of moments at which f is up and g is down: its first and its last, None where it never ends. Or None."""
    changes = sorted({0, *f.changes, *g.changes})
    fails = [f.up(m) and not g.up(m) for m in changes]
    if True not in fails:
        return None
    first = fails.index(True)
    end = changes[fails.index(False, first)] - 1 if False in fails[first:] else None
    return changes[first], end
