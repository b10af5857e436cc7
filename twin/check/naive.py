"""A third, naive reckoning of the same documents, to catch slips of the pen
in the twin (it shares the twin's reading of the documents, not its code).

    naive.py PACK TEXTS    compares each text with its own
"""
import struct
import sys
from fractions import Fraction
from math import ceil, floor


class Refused(Exception):
    pass


def number(b):
    n = 0
    for x in b:
        n = 256 * n + x
    return n


def read_setup(f):
    at, expects = 0, "B"
    boxes, terms, contests = [], None, []
    widths = {1: 11, 2: 8, 3: 8, 4: 11, 5: 1}
    may = {"B": [1], "b": [1, 2], "t": [3], "c": [4], "d": [3, 5]}
    while True:
        def no(n, where=None):
            raise Refused("refused %d file 1 at %d\n" % (n, at if where is None else where))
        if at == len(f):
            no(1)
        code = f[at]
        if code not in may[expects]:
            no(2)
        if at + widths[code] > len(f):
            no(1)
        b = f[at:at + widths[code]]
        if code == 1:
            n = number(b[9:11])
            if n == 0 or len(boxes) + 1 > 200 or sum(boxes) + n > 65535:
                no(3)
            boxes.append(n)
            expects = "b"
        elif code == 2:
            r, d, policy, w = number(b[1:3]), number(b[3:5]), b[5], number(b[6:8])
            if r < 10 or r > 500 or d < 1 or d > 20000 or policy not in (1, 2):
                no(4)
            if (policy == 1 and w != 0) or (policy == 2 and (w < 1 or w > 1000)):
                no(4)
            terms = (r, d, policy, w)
            expects = "t"
        elif code == 3:
            kind, c, k, p, q = b[1], b[2], b[3], number(b[4:6]), number(b[6:8])
            if kind not in (1, 2, 3) or c < 2 or c > 32:
                no(5)
            if kind == 3 and not (k == 1 and p < q and 2 * p >= q and q <= 1000):
                no(5)
            if kind != 3 and not (1 <= k <= c - 1 and p == 0 and q == 0):
                no(5)
            if len(contests) == 8:
                no(5)
            how_many = sum(1 if x[0] == 3 else x[2] * (x[1] - x[2]) for x in contests)
            if how_many + (1 if kind == 3 else k * (c - k)) > 256:
                no(6)
            contests.append((kind, c, k, p, q, []))
            expects = "c"
        elif code == 4:
            v = number(b[9:11])
            kind, c, k, p, q, votes = contests[-1]
            cards = sum(boxes)
            if v > cards:
                no(7)
            votes.append(v)
            if len(votes) == c:
                if kind != 2 and sum(votes) > k * cards:
                    no(7)
                if winners(contests[-1]) is None:
                    no(8)
                expects = "d"
        else:
            if at + 1 != len(f):
                no(9, at + 1)
            return sum(boxes), terms, contests
        at += len(b)


def winners(contest):
    kind, c, k, p, q, votes = contest
    if kind == 3:
        w = [i for i in range(c) if q * votes[i] > p * sum(votes)]
        return w or None
    # A winner is a candidate with fewer than K others at least as strong.
    w = [i for i in range(c) if sum(1 for j in range(c) if votes[j] >= votes[i]) <= k]
    return w if len(w) == k else None


def votes_of(contest, marked):
    """The candidates that a card with these marks gives a vote."""
    kind, c, k = contest[:3]
    if kind == 1 and len(marked) > k or kind == 3 and len(marked) != 1:
        return set()
    return marked


class Line:
    def __init__(self, where, contest, w, l, terms):
        self.where, self.contest, self.w, self.l = where, contest, w, l
        kind, c, k, p, q, votes = contest
        if kind == 3:
            self.half, self.top = p, q
            x = Fraction(1000 * (q * votes[w] - p * sum(votes)), (q - p) * sum(votes))
        else:
            self.half, self.top = 1, 2
            x = Fraction(1000 * (votes[w] - votes[l]), votes[w] + votes[l])
        self.b0 = min(950, max(1, floor(x)))
        self.weight = terms[3]
        self.values = 0, 0
        self.wealth = self.peak = 10 ** 9
        self.tally = 0

    def value(self, found, marks):
        if not found:
            return 0
        got = votes_of(self.contest, marks[self.where])
        if self.contest[0] == 3:
            return self.half if not got else self.top if self.w in got else 0
        return 1 + (self.w in got) - (self.l in got)

    def bet(self):
        if self.weight == 0:
            return self.b0
        m, e = self.values
        span = self.top - self.half
        x = Fraction(self.weight * self.b0 * span + 1000 * e, span * (self.weight + m))
        return min(950, max(0, floor(x)))

    def play(self, a):
        stake = floor(Fraction(self.wealth * self.bet(), 1000))
        self.wealth = self.wealth - stake + floor(Fraction(stake * a, self.half))
        self.peak = max(self.peak, self.wealth)
        if a != self.half and self.values[0] < 20000:
            self.values = self.values[0] + 1, self.values[1] + a - self.half

    def risk(self):
        return ceil(Fraction(10 ** 12, self.peak))


def run(setup, draws):
    text = []
    try:
        cards, terms, contests = read_setup(setup)
        lines = []
        for i, contest in enumerate(contests):
            ws = winners(contest)
            for w in ws:
                if contest[0] == 3:
                    lines.append(Line(i, contest, w, None, terms))
                else:
                    for l in range(contest[1]):
                        if l not in ws:
                            lines.append(Line(i, contest, w, l, terms))
        follow(cards, terms, contests, lines, draws, text)
    except Refused as fault:
        text.append(str(fault))
    return "".join(text).encode()


def follow(cards, terms, contests, lines, f, text):
    at = drawn = counted = 0
    stage = "draw"
    risk_limit, most = terms[0], terms[1]
    may = {"draw": [0x11, 0x12, 0x13], "count": [0x14, 0x15], "closed": []}
    while at < len(f):
        def no(n):
            raise Refused("refused %d file 2 at %d\n" % (n, at))
        code = f[at]
        if code not in may[stage]:
            no(2)
        width = 36 if code in (0x11, 0x14) else 1
        if at + width > len(f):
            no(1)
        open_lines = [x for x in lines if x.risk() > risk_limit]
        if width == 36:
            place, found = number(f[at + 1:at + 3]), f[at + 3]
            if not 1 <= place <= cards:
                no(11)
            if found not in (0, 1):
                no(12)
            marks = []
            for i in range(8):
                n = number(f[at + 4 + 4 * i:at + 8 + 4 * i])
                marked = {j for j in range(32) if n >> j & 1}
                if marked and (found == 0 or i >= len(contests) or max(marked) >= contests[i][1]):
                    no(13)
                marks.append(marked)
            if code == 0x11:
                if not open_lines or drawn >= most:
                    no(14)
                for x in open_lines:
                    x.play(x.value(found, marks))
                drawn += 1
            else:
                if place != counted + 1:
                    no(15)
                for x in lines:
                    x.tally += x.value(found, marks)
                counted += 1
        elif code == 0x12:
            for i in range(len(contests)):
                text.append("contest %d risk %d\n" % (i + 1, max(x.risk() for x in lines if x.where == i)))
            text.append("draws %d\n" % drawn)
            text.append("confirm\n" if not open_lines else "full hand count\n" if drawn == most else "continue\n")
        elif code == 0x13:
            stage = "count"
        else:
            if counted != cards:
                no(16)
            for i in range(len(contests)):
                good = all(x.tally > x.half * cards for x in lines if x.where == i)
                text.append("contest %d %supheld\n" % (i + 1, "" if good else "not "))
            stage = "closed"
        at += width


def parts(path):
    b = open(path, "rb").read()
    at = 0
    while at < len(b):
        n = struct.unpack(">I", b[at:at + 4])[0]
        yield b[at + 4:at + 4 + n]
        at += 4 + n


def main():
    pairs, texts = parts(sys.argv[1]), parts(sys.argv[2])
    same = other = skipped = 0
    for k, text in enumerate(texts):
        setup, draws = next(pairs), next(pairs)
        if len(draws) > 3_000_000:
            skipped += 1
            continue
        if run(setup, draws) == text:
            same += 1
        else:
            other += 1
            print("pair", k, "differs")
    print(same, "alike,", other, "differ,", skipped, "skipped for length")


if __name__ == "__main__":
    main()
