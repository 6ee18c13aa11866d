"""The latches, timers, stretches and failing runs of signals.py against the documents' sentences, moment by moment on random lists."""
import itertools
import random
from signals import Signal, implication, negation, rs, sr, stretches, tof, ton, tp

END = 61


def moments(t1, t, with_t1):
    """Those of [t1,t], or of (t1,t], which holds t1's own only when it is a gap."""
    return range(t1 if with_t1 or t1 % 2 == 0 else t1 + 1, t + 1)


def window(d, t):
    """Those from t-d to t, t an instant or a gap."""
    return range(max(0, t - 2 * d), t + 1)


def held(s, r, t, with_t1):
    """Some t1 < t, in t's own gap too, has s, and r is down from it on."""
    return any(s(t1) and not any(map(r, moments(t1, t, with_t1))) for t1 in range(t + (t % 2 == 0)))


def pulsed(d, f, t):
    """Up at t, stepping from instant to instant: how many ticks of the pulse are left."""
    left = 0
    for k in range(1, (t + 1) // 2 + 1):
        left = max(0, left - 1)
        if left == 0 and f(2 * k - 1) and not f(2 * k - 2):
            left = d
    return left > 0


def grouped(f, horizon):
    """The runs of up gaps before the horizon, gap by gap."""
    runs = [list(run) for up, run in itertools.groupby(range(horizon), lambda k: f(2 * k)) if up]
    return [(run[0], len(run)) for run in runs]


def total(runs):
    return sum(length for _, length in runs)


def paged(f, horizon):
    """The stretches are the runs, their total the number of up gaps, and up and down total, each by its own gaps, make the horizon."""
    found, down = stretches(f, horizon), stretches(Signal(negation(f)), horizon)
    up_gaps = sum(f.up(2 * k) for k in range(horizon))
    return found == grouped(f.up, horizon) and total(found) == up_gaps and total(down) == horizon - up_gaps


def failing_run(f, g):
    """The first unbroken run of failing moments, moment by moment; past the end nothing changes."""
    runs = [list(run) for fails, run in itertools.groupby(range(END), lambda t: f(t) and not g(t)) if fails]
    return (runs[0][0], runs[0][-1] if runs[0][-1] < END - 1 else None) if runs else None


def random_list():
    words, date = [random.randrange(2)], 0
    for _ in range(random.randrange(6)):
        date += random.randrange(1, 4)
        words.append(4 * date + random.choice([x for x in range(4) if x != 3 * (words[-1] % 2)]))
    return words


def agreeing(pairs):
    """How many of the pairs of random lists agree at every moment up to gap 30."""
    random.seed(1)
    agree = 0
    for _ in range(pairs):
        f, g, d = Signal(random_list()), Signal(random_list()), random.randrange(6)
        s, r = f.up, g.up
        cases = [
            (sr(f, g), lambda t: s(t) or held(s, r, t, False)),
            (rs(f, g), lambda t: s(t) and not r(t) or held(s, r, t, True)),
            (ton(d, f), lambda t: (t + 1) // 2 >= d and all(map(s, window(d, t)))),
            (tof(d, f), lambda t: any(map(s, window(d, t)))),
            (tp(d, f), lambda t: pulsed(d, s, t)),
        ]
        alike = all(Signal(made).up(t) == stepped(t) for made, stepped in cases for t in range(END))
        alike = alike and all(paged(f, horizon) for horizon in range(31))
        agree += alike and all(implication(*pair) == failing_run(*(x.up for x in pair)) for pair in ((f, g), (g, f)))
    return agree
