#!/usr/bin/env python3
"""Random days as lines for the desk, by a seed.

    python3 reference/generate.py SEED COUNT [--odd]

prints COUNT days, one after the other; each begins with a `day` line (at times with a
mistyped line ahead of it, which still falls to the day before). A day is made
in the order in which a person would enter it, and on the way lines are mistyped,
repeated, put at the wrong time or pushed past a limit. Nothing here knows what the
box answers, except the one rounding rule that is needed to find the edge of a load.

--odd adds lines about which docs/ can be read in more than one way.
"""

import random
import sys

CODES = "ABCDET"
EDGE_QUARTERS = [0, 91, 92, 95, 96, 99, 100]

# Added to a small number these come to it again where a program cuts numbers short.
WRAPS = [2 ** 8, 2 ** 16, 2 ** 31, 2 ** 32, 2 ** 63, 2 ** 64, 2 ** 128]
HUGE = [99999999999, 2 ** 32 - 1, 2 ** 63 - 1, 2 ** 64 - 1, 10 ** 19, 10 ** 30]

# A reading, and four factors that make 4,000,000 of it exactly.
EXACT = 948_148, [500_000, 500_000, 500_000, 250_000]

MISTYPED = [
    "", " ", "    ", "# only a comment", "  # and one behind spaces", "#", "##",
    "hello", "Day 96", "DAY 96", "day", "day 96 96", "day x", "day -96", "day 96.0", "day +96",
    "days 96", "segment", "segment 0 1 0 A 1", "segment 0 1 0 A 1 0 0", "segment 0 1 0 AB 1 0",
    "segment 0 1 0 A A 0", "segment a 1 0 A 1 0", "segment 0 -1 0 A 1 0", "segment 0 1 0 # 1 0",
    "site", "site -1", "site 0 0", "site one", "grid 1", "slips", "slips 6401", "slips -1",
    "slips 99999999999999999999", "slips x", "slips 1 1", "distribution 1", "transmission 1",
    "factor", "factor 1", "factor 1 0", "factor 1 A 0 1 1", "factor 1 AB 0 1", "factor 1 A x 1",
    "factor 1 A -1 1", "factor 1 A 0 -1", "factor A 1 0 1", "factor 1 0 0x1", "codes", "codes A",
    "codes 1 1", "codes -1", "open 1", "open day", "post", "post 0 0", "post 0 0 -1", "post 0 0 1 1",
    "post -1 0 1", "post 0 -0 1", "post 0 0 1,000", "post 0 0 1e3", "post 0 0 ٣", "post 0 0 \t1",
    "post\t0 0 1", "\t", "post 0 0 =", "post 0 0 +1", "profile", "profile 0", "profile 0 100 3",
    "profile 0 100 3 0 x", "profile 0 100 3 0 1 -1", "profile 0 -100 3 0 1", "profile x 1 1 0",
    "withdraw", "withdraw 0", "withdraw 0 0 0", "withdraw 0 -1", "figure", "figure 0 0",
    "figure 0 0 --5", "figure 0 0 -", "figure 0 0 5-", "figure 0 0 +5", "figure 0 -1 5",
    "figure -1 0 5", "figure -0 0 5", "figure 0 0 - 5", "figure 0 0 1 1", "strike", "strike 0",
    "strike 0 0 0", "strike 0 -1", "seal 1", "seal now", "seals", "reopen 1", "re open", "loads",
    "loads x", "loads 0 0", "loads -1", "rtaml", "rtaml 1 0", "rtaml 1 0 0 0", "rtaml -1 0 0",
    "rtaml 1 A 0", "ufe", "ufe ?", "ufe 0 0", "ufe -0", "shares", "shares -1", "shares 0 0",
    "statement", "statement 0 2048", "statement -1", "= ok", "quit", "exit", "end", "help",
    "post 0 0 5 # five # again", "seal#", "ufe 0#", "\u00fcfe 0",
]

ODD = [
    "ufe 0\r", "\r", "segment 3 1 0 \u00e9 1 0", "factor 1 \u00e9 0 1", "ufe\u00a00", "\u00a0",
    "\f", "ufe 0 \0", "post 0 0 " + "0" * 70_000 + "5", "# " + "x" * 200_000,
]


def raised(load, factors):
    for factor in factors:
        load = (load * (1_000_000 + factor) + 500_000) // 1_000_000
    return load


class Maker:
    def __init__(self, rng, odd=False):
        self.rng, self.odd = rng, odd
        self.lines = []
        self.length = rng.choice([92, 96, 96, 100])
        self.segments = {}              # number: (QSE, point, code, meter, NOIE)
        self.sites = []
        self.layers = []                # "distribution" or "transmission"
        self.trouble = rng.choice([0, 0.02, 0.06, 0.15])    # how often a line goes wrong
        pool = [0, self.length - 1, rng.randrange(self.length), rng.randrange(self.length)]
        self.quarters = sorted(set(rng.sample(pool, rng.choice([1, 1, 2, 3]))))

    # ---- putting lines down

    def chance(self, share):
        return self.rng.random() < share

    def say(self, *fields):
        """A line, now and then with something wrong ahead of it or around it."""
        line = " ".join(str(field) for field in fields)
        if self.chance(self.trouble):
            self.lines.append(self.wrong_line(line))
        if self.chance(0.03):
            line = self.dressed(line)
        self.lines.append(line)

    def dressed(self, line):
        """The same line in other clothes."""
        way = self.rng.randrange(5)
        if way == 0:
            return "  " + line.replace(" ", "   ", 2) + " "
        if way == 1:
            return line + "# note"
        if way == 2:
            return line + "   # a note = with an equals sign"
        fields = line.split(" ")
        for i in range(1, len(fields)):
            if fields[i].isdigit() and self.chance(0.6):
                fields[i] = "0" * self.rng.choice([1, 1, 3, 25]) + fields[i]
        return " ".join(fields)

    def wrong_line(self, line):
        way = self.rng.random()
        if way < 0.35:
            return self.spoilt(line)
        if way < 0.60:
            return self.rng.choice(MISTYPED)
        if self.odd and way < 0.64:
            return self.rng.choice(ODD)
        return self.any_line()

    def spoilt(self, line):
        """A lawful line with one slip of the fingers."""
        rng, fields = self.rng, line.split(" ")
        i = rng.randrange(len(fields))
        way = rng.randrange(10)
        if way == 0:
            del fields[i]
        elif way == 1:
            fields.insert(i, fields[i])
        elif way == 2:
            fields[i] = "-" + fields[i]
        elif way == 3:
            fields[i] += rng.choice(["x", "-", ".", "0", "9", "\t", ",0", "=", "#"])
        elif way == 4:
            j = rng.randrange(len(fields))
            fields[i], fields[j] = fields[j], fields[i]
        elif way == 5 and len(fields) > 1:
            fields[rng.randrange(1, len(fields))] = str(self.large())
        elif way == 6 and len(fields) > 1:
            i = rng.randrange(1, len(fields))
            if fields[i].isdigit():
                fields[i] = str(int(fields[i]) + rng.choice(WRAPS))
        elif way == 7 and len(fields) > 1:
            fields[rng.randrange(1, len(fields))] = rng.choice(["a", "T", "A", "-", "0x1", "1.5"])
        elif way == 8 and len(fields) > 1:
            edge = rng.choice(EDGE_QUARTERS + [15, 16, 63, 64])
            fields[rng.randrange(1, len(fields))] = str(edge)
        else:
            fields[0] = fields[0].capitalize()
        return " ".join(fields)

    def large(self):
        if self.chance(0.05):
            return int("9" * self.rng.choice([50, 400]))
        return self.rng.choice(HUGE + WRAPS)

    # ---- single numbers, mostly sensible, at times at or past the edge

    def a_segment(self):
        if self.segments and self.chance(0.8):
            return self.rng.choice(sorted(self.segments))
        return self.rng.choice([self.rng.randrange(64), 63, 64, 65, 255, 256, self.large()])

    def a_site(self):
        if self.sites and self.chance(0.8):
            return self.rng.choice(self.sites)
        return self.rng.choice([self.rng.randrange(16), 15, 16, 17, 256, self.large()])

    def a_quarter(self):
        if self.chance(0.7):
            return self.rng.choice(self.quarters)
        return self.rng.choice(EDGE_QUARTERS + [self.length - 1, self.length,
                               self.rng.randrange(100), self.large()])

    def a_reading(self):
        return self.rng.choice([0, 1, self.rng.randrange(100), self.rng.randrange(5000),
                                self.rng.randrange(5000), self.rng.randrange(1_000_001),
                                999_999, 1_000_000])

    def a_figure(self):
        return self.rng.choice([0, 1, -1, self.rng.randrange(20_000), self.rng.randrange(20_000),
                                self.rng.randrange(3_000_000), self.rng.randrange(3_000_000),
                                self.rng.randrange(3_000_000), -self.rng.randrange(3_000),
                                self.rng.randrange(-10_000_000, 10_000_001),
                                10_000_000, -10_000_000, "-0"])

    def a_factor(self):
        return self.rng.choice([0, 1, 20_000, 50_000, 499_999, 500_000,
                                self.rng.randrange(100_000), self.rng.randrange(500_001)])

    def wrong_row(self):
        """A segment with one or two fields just past their limits, or far past."""
        rng = self.rng
        row = [rng.choice([rng.randrange(64), self.a_segment()])] + list(self.row())
        for field in rng.sample(range(6), rng.choice([1, 1, 1, 2])):
            row[field] = rng.choice("FSUabt05-?@") if field == 3 else \
                rng.choice([[64, 16, 8, None, 2, 2][field]] * 3 + [256, self.large()])
        return " ".join(str(field) for field in ["segment"] + row)

    def entry_past_limits(self):
        """An entry or question with any of its numbers past their limits, often several."""
        rng = self.rng

        def pick(good, *bad):
            return rng.choice(bad + (self.large(),)) if self.chance(0.4) else good

        segment, site = pick(self.a_segment(), 64, 64), pick(self.a_site(), 16, 16)
        quarter = pick(rng.choice(self.quarters), self.length, self.length, 99, 100)
        word = rng.choice(["post", "withdraw", "figure", "strike", "rtaml"])
        fields = {"post": [segment, quarter, pick(self.a_reading(), 1_000_001)],
                  "withdraw": [segment, quarter],
                  "figure": [site, quarter, pick(self.a_figure(), 10_000_001, -10_000_001)],
                  "strike": [site, quarter],
                  "rtaml": [pick(1, 16), pick(0, 8), quarter]}[word]
        return " ".join(str(field) for field in [word] + fields)

    def any_line(self):
        """Any line of the table, whatever the state, often with a number past its limit."""
        rng = self.rng
        if self.chance(0.2):
            return self.entry_past_limits()
        word = rng.choice(["day", "segment", "site", "grid", "slips", "distribution",
                           "transmission", "factor", "factor", "codes", "open", "post", "post",
                           "post", "profile", "withdraw", "withdraw", "figure", "figure", "strike",
                           "strike", "seal", "reopen", "loads", "rtaml", "rtaml", "ufe", "shares",
                           "statement"])
        quarter = self.a_quarter()
        if word == "day":       # one that is refused, so that the day goes on
            fields = [rng.choice([95, 0, 91, 93, 94, 97, 98, 99, 101, 92 + 256, 96 + 2 ** 64,
                                 self.large()])]
        elif word == "segment":
            return self.wrong_row()
        elif word == "site":
            fields = [self.a_site()]
        elif word == "slips":
            fields = [rng.choice([0, 1, 6400, 6401, rng.randrange(300), self.large()])]
        elif word == "factor":
            layer = rng.choice([0, 1, 2, 3, 4, 5, 1, 2, 257, self.large()])
            if 1 <= layer <= len(self.layers) and self.chance(0.8):
                kind = self.layers[layer - 1]
            else:
                kind = rng.choice(["distribution", "transmission"])
            fields = [layer]
            if kind == "distribution":
                fields.append(rng.choice("ABCDETaFZ0@-"))
            fields += [quarter, rng.choice([self.a_factor(), 500_000, 500_001, self.large()])]
        elif word == "codes":
            fields = [rng.choice([0, 1, 2, 3, 4, 5, 257, self.large()])]
        elif word == "post":
            fields = [self.a_segment(), quarter,
                      rng.choice([self.a_reading(), self.a_reading(), 1_000_001, self.large()])]
        elif word == "profile":
            return self.profile_line(self.a_segment())
        elif word == "withdraw":
            fields = [self.a_segment(), quarter]
        elif word == "figure":
            fields = [self.a_site(), quarter,
                      rng.choice([self.a_figure(), self.a_figure(), 10_000_001, -10_000_001,
                                  self.large(), -self.large()])]
        elif word == "strike":
            fields = [self.a_site(), quarter]
        elif word == "rtaml":
            fields = [rng.choice([0, 15, 16, 256, rng.randrange(16), self.large()]),
                      rng.choice([0, 7, 8, 256, rng.randrange(8), self.large()]), quarter]
        elif word in ("loads", "ufe", "shares", "statement"):
            fields = [quarter]
        else:
            fields = []
            if word in ("seal", "reopen", "open", "distribution", "transmission", "grid"):
                if self.chance(0.7):    # these change a lot, so let them be rarer
                    return rng.choice(MISTYPED)
                if word in ("distribution", "transmission") and len(self.layers) < 4 \
                        and "open" not in self.lines:
                    self.layers.append(word)
        return " ".join(str(field) for field in [word] + fields)

    # ---- a profiled posting

    def profile_line(self, segment, good=0.5):
        """One that is in order, or one with one or two faults."""
        rng, n = self.rng, self.length
        faults = [] if self.chance(good) else rng.sample([9, 10, 11, 12, 12, 14, 1],
                                                         rng.choice([1, 1, 1, 2]))
        shape = 1 if 12 in faults else rng.randrange(5)
        if shape == 0:
            weights = [rng.randrange(100_001) for _ in range(n)]
        elif shape == 1:
            weights = [0] * n
            for _ in range(rng.choice([1, 2, 5])):
                weights[rng.randrange(n)] = rng.choice([1, 2, 100_000, rng.randrange(100_001)])
        elif shape == 2:
            weights = [1] * n
        elif shape == 3:
            weights = [100_000] * n
        else:
            weights = [rng.randrange(8) for _ in range(n)]
        total, most = sum(weights), max(max(weights), 1)
        b = rng.choice([0, 0, 1, rng.randrange(1_000_000), 4_000_000_000 - total])
        p = b + total + rng.choice([0, 0, 1, rng.randrange(1_000_000)])
        p = max(1, min(p, 4_000_000_000))
        limit = min(1_000_000_000, 1_000_000 * p // most)   # no quarter hour above 1,000,000
        k = rng.choice([0, 1, 100, limit, rng.randrange(limit + 1), min(limit, 50_000)])
        if 12 in faults:                # one short of the edge, on it, and past it
            b = rng.choice([0, 0, 1, most])
            p = b + total + rng.choice([0, 0, 1, most])
            k = rng.choice([1_000_000 * p // most, 1_000_000 * p // most + 1,
                            1_000_001 * p // most, 1_000_001 * p // most + 1, 1_000_000_000])
            k = min(k, 1_000_000_000)
        if 11 in faults:
            if self.chance(0.5) and total:
                p = max(1, b + total - rng.choice([1, 1, total]))
            else:
                b = rng.choice([p - total + 1, 4_000_000_000])
        if 10 in faults:
            way = rng.randrange(5)
            if way == 0:
                k = rng.choice([1_000_000_001, 1_000_000_001, 2 ** 32 + 5, self.large()])
            elif way == 1:
                p = rng.choice([0, 4_000_000_001, 4_000_000_001, 2 ** 32 + p, self.large()])
            elif way == 2:
                b = rng.choice([4_000_000_001, 4_000_000_001, 2 ** 32, self.large()])
            else:
                weights[rng.randrange(n)] = rng.choice([100_001, 100_001, 2 ** 32, self.large()])
        if 9 in faults:
            short = rng.choice([n - 1, n - 1, 0, 1, 91, 92, 96])
            weights = rng.choice([weights[:short] if short != n else weights[1:], weights + [0],
                                  weights + [1] * 4, (weights * 4)[:n + rng.choice([4, 8, 200])]])
        if 14 in faults:
            segment = rng.choice([s for s in range(64) if s not in self.segments] or [64])
        if 1 in faults:
            segment = rng.choice([64, 65, self.large()])
        return " ".join(str(field) for field in ["profile", segment, k, p, b] + weights)

    # ---- the parts of a day

    def row(self, noie=0.15):
        rng = self.rng
        return (rng.choice([0, 1, 1, 2, 3, 15, rng.randrange(16)]),
                rng.choice([0, 0, 1, 7, rng.randrange(8)]),
                rng.choice("AAABBCDETT"), int(self.chance(0.4)), int(self.chance(noie)))

    def enter_roll(self, segments, sites, kinds, noie=0.15, gaps=0.03):
        """Segments, sites, layers, codes and factors of a draft, in a mixed order.

        gaps: how often something is left out.
        """
        rng = self.rng
        numbers = rng.sample(range(64), segments)
        if segments and self.chance(0.3):
            numbers = list(range(segments))
        rows = [("segment", n) for n in numbers] + [("site", n) for n in
                                                    rng.sample(range(16), sites)]
        rng.shuffle(rows)
        layers = list(kinds)
        early = self.chance(0.3)        # codes taken over before the roll is complete
        while rows or layers:
            if layers and (not rows or self.chance(0.4)):
                kind = layers.pop(0)
                self.say(kind)
                self.layers.append(kind)
                if early and kind == "distribution":
                    self.say("codes", len(self.layers))
            elif rows:
                word, n = rows.pop()
                if word == "segment":
                    row = self.row(noie)
                    self.say("segment", n, *row)
                    self.segments[n] = row
                    if self.chance(0.03):
                        self.say("segment", n, *self.row())
                    if self.chance(0.08):
                        self.lines.append(self.wrong_row())
                else:
                    self.say("site", n)
                    self.sites.append(n)
                    if self.chance(0.08):
                        self.say("site", rng.choice([n, 16, 16, self.large()]))
        if len(self.layers) == 4 and self.chance(0.1):
            self.say(rng.choice(["distribution", "transmission"]))
        self.sites.sort()
        givings = []
        for number, kind in enumerate(self.layers, 1):
            if kind == "distribution" and not self.chance(gaps):
                givings.append(("codes", number))
            for quarter in self.quarters:
                if kind == "transmission":
                    if not self.chance(gaps):
                        givings.append(("factor", number, quarter, self.a_factor()))
                    continue
                for code in sorted({row[2] for row in self.segments.values()} - {"T"}):
                    if not self.chance(gaps):
                        givings.append(("factor", number, code, quarter, self.a_factor()))
        rng.shuffle(givings)
        for giving in givings:
            self.say(*giving)
            if self.chance(0.06):
                self.wrong_factor()
            if giving[0] == "factor" and self.chance(0.05):     # given twice: the last counts
                self.say(*giving[:-1], self.a_factor())
        if self.chance(0.02):                                   # on the roll after the codes
            n = rng.choice([s for s in range(64) if s not in self.segments] or [0])
            row = self.row()
            self.say("segment", n, *row)
            self.segments.setdefault(n, row)

    def wrong_factor(self):
        """A factor past a limit, or for a code or layer that is not there; at times two faults."""
        rng = self.rng
        number = rng.randrange(1, len(self.layers) + 1)
        quarter = rng.choice(self.quarters + [99, 99, 100, self.large()])
        factor = rng.choice([500_000, 500_001, 500_001, self.large()])
        if (self.layers[number - 1] == "distribution") != self.chance(0.1):
            self.say("factor", number, rng.choice("AABCDETTaF0@"), quarter, factor)
        else:
            self.say("factor", number, quarter, factor)

    def book(self, places=None):
        if places is not None:
            self.say("slips", places)
        elif self.chance(0.3):
            self.say("grid")
        if self.chance(0.03):           # several books named: the last counts
            self.say("grid")
            if places is not None:
                self.say("slips", places)

    def read_in(self, readings=None, left_out=0.01):
        """All readings and figures of the quarter hours in use."""
        rng = self.rng
        for quarter in self.quarters:
            entries = [("post", s) for s in self.segments] + [("figure", s) for s in self.sites]
            rng.shuffle(entries)
            for word, n in entries:
                if self.chance(left_out):
                    continue
                if word == "post":
                    wh = readings() if readings else self.a_reading()
                else:
                    wh = self.a_figure()
                    if self.chance(0.4):    # about as much as is used
                        wh = rng.randrange(1 + 400_000 * len(self.segments) // len(self.sites))
                        wh = min(wh, 10_000_000)
                self.say(word, n, quarter, wh)

    def ask(self, quarter=None, most=5):
        rng = self.rng
        if quarter is None:
            quarter = rng.choice(self.quarters)
        for word in rng.sample(["loads", "rtaml", "ufe", "shares", "statement"],
                               rng.randrange(1, most + 1)):
            if word == "rtaml":
                pairs = [row[:2] for row in self.segments.values()]
                pair = rng.choice(pairs) if pairs and self.chance(0.8) else \
                    (rng.randrange(16), rng.randrange(8))
                self.say("rtaml", *pair, quarter)
            else:
                self.say(word, quarter)

    def change(self):
        """One entry on an open day, and a question."""
        rng, quarter = self.rng, self.rng.choice(self.quarters)
        segment = rng.choice(sorted(self.segments)) if self.segments else 0
        site = rng.choice(self.sites) if self.sites else 0
        way = rng.randrange(8)
        if way <= 1:
            self.say("post", segment, quarter, self.a_reading())
        elif way == 2:
            self.say("withdraw", segment, quarter)
            if self.chance(0.5):
                self.ask(quarter, 1)
            if self.chance(0.3):
                self.say("withdraw", segment, quarter)
            if self.chance(0.8):
                self.say("post", segment, quarter, self.a_reading())
        elif way <= 4:
            self.say("figure", site, quarter, self.a_figure())
        elif way == 5:
            self.say("strike", site, quarter)
            if self.chance(0.5):
                self.ask(quarter, 1)
            if self.chance(0.3):
                self.say("strike", site, quarter)
            if self.chance(0.8):
                self.say("figure", site, quarter, self.a_figure())
        elif way == 6 and self.chance(0.5):
            self.lines.append(self.profile_line(segment, 0.7))
        else:
            self.lines.append(self.any_line())
        if self.chance(0.5):
            self.ask(quarter, 2)

    def repair(self):
        """Everything of one quarter hour once more, so that nothing is missing."""
        quarter = self.rng.choice(self.quarters)
        for n in sorted(self.segments):
            self.say("post", n, quarter, self.a_reading())
        for n in self.sites:
            self.say("figure", n, quarter, self.a_figure())
        self.ask(quarter)

    def finish(self, changes):
        """Changes and questions; then perhaps a seal, a reopening, a second seal."""
        for _ in range(changes):
            self.change()
        self.ask()
        if len(self.segments) < 8 and self.chance(0.4):
            self.repair()
        if self.chance(0.6):
            return
        self.say("seal")
        if self.chance(0.5):
            self.change()               # mostly unlawful now
        self.ask()
        if self.chance(0.2):
            self.say("seal")
        if self.chance(0.4):
            return
        self.say("reopen")
        if self.chance(0.2):
            self.say("reopen")
        for _ in range(self.rng.randrange(4)):
            self.change()
        self.ask()
        if self.chance(0.4):
            return
        self.say("seal")
        self.ask(most=3)
        if self.chance(0.5):
            self.say(self.rng.choice(["reopen", "seal", "open", "grid"]))
            self.change()
        self.ask(most=2)

    def kinds(self, most=4):
        return [self.rng.choice(["distribution", "transmission"])
                for _ in range(self.rng.randrange(most + 1))]

    # ---- whole days

    def plain(self):
        rng = self.rng
        self.book()
        self.enter_roll(rng.choice([1, 1, 2, 2, 3, 4, 6]), rng.choice([0, 1, 1, 1, 1, 2, 2, 3]),
                        self.kinds())
        self.say("open")
        self.read_in()
        self.ask()
        self.finish(rng.randrange(6))

    def full_slips(self):
        """A slip book with hardly a place to spare."""
        rng = self.rng
        segments = rng.choice([1, 2, 3, 4])
        cells = segments * len(self.quarters)
        self.book(max(0, cells + rng.choice([-2, -1, 0, 0, 0, 0, 1, self.length - 1, self.length])))
        self.enter_roll(segments, rng.choice([0, 1, 1, 2]), self.kinds(2))
        self.say("open")
        self.read_in(left_out=0)
        for _ in range(3):
            s = rng.choice(sorted(self.segments))
            way = rng.randrange(4)
            if way == 0:
                self.say("withdraw", s, rng.choice(self.quarters))
            elif way == 1:
                self.say("post", s, rng.randrange(self.length), self.a_reading())
            elif way == 2:
                self.lines.append(self.profile_line(s, 0.9))
            else:
                self.say("post", s, rng.choice(self.quarters), self.a_reading())
        self.ask()
        self.finish(rng.randrange(6))

    def profiled(self):
        """Most readings by profile, over days that are partly posted."""
        rng = self.rng
        segments = rng.choice([1, 1, 2, 3])
        slack = rng.choice([None, None, None, 0, 0, -1, 1, 5])
        self.book(None if slack is None else max(0, segments * self.length + slack))
        self.enter_roll(segments, rng.choice([0, 1, 1, 2]), self.kinds(2), gaps=0.02)
        self.say("open")
        for s in sorted(self.segments):
            for _ in range(rng.choice([0, 0, 1, 3, 8])):
                self.say("post", s, rng.randrange(self.length), self.a_reading())
            for _ in range(rng.choice([1, 2, 3])):
                self.lines.append(self.profile_line(s, 0.6))
            if self.chance(0.6):
                for quarter in self.quarters:
                    self.say("post", s, quarter, self.a_reading())
        for quarter in self.quarters:
            for site in self.sites:
                self.say("figure", site, quarter, self.a_figure())
            self.ask(quarter)
        self.finish(rng.randrange(4))

    def heavy(self):
        """Piles of large factors, with readings around the edge of 4,000,000."""
        rng = self.rng
        factors = rng.choice([EXACT[1], [rng.choice([500_000, 500_000, 499_999, 450_000, 420_000])
                                         for _ in range(4)]])
        self.book()
        for n in rng.sample(range(64), rng.choice([1, 2, 3])):
            row = self.row()
            self.say("segment", n, *row)
            self.segments[n] = row
        self.say("site", 0)
        self.sites = [0]
        for factor in factors:
            kind = rng.choice(["distribution", "transmission", "transmission"])
            self.say(kind)
            self.layers.append(kind)
            number = len(self.layers)
            if kind == "distribution":
                self.say("codes", number)
            for quarter in self.quarters:
                for code in "ABCDE" if kind == "distribution" else [None]:
                    place = [number] + ([code] if code else []) + [quarter, factor]
                    self.say("factor", *place)
        self.say("open")
        edge = 4_000_000 * 10 ** 24
        for factor in factors:
            edge = edge * 10 ** 6 // (10 ** 6 + factor)
        edge = min(edge // 10 ** 24, 1_000_000)
        while edge < 1_000_000 and raised(edge + 1, factors) <= 4_000_000:
            edge += 1
        while raised(edge, factors) > 4_000_000:
            edge -= 1
        self.read_in(lambda: rng.choice([edge, edge, edge, min(edge + 1, 1_000_000), edge - 1]))
        self.ask()
        self.finish(rng.randrange(5))

    def noie_only(self):
        """Segments that carry no UFE, or have no load: 22, and answers where U is 0."""
        rng = self.rng
        self.book()
        self.enter_roll(rng.choice([1, 2, 3]), rng.choice([0, 1, 1, 2]), [],
                        noie=rng.choice([1, 1, 0.3]))
        self.say("open")
        for quarter in self.quarters:
            total, nought = 0, self.chance(0.4)
            for s in sorted(self.segments):
                wh = 0 if nought else rng.choice([0, 1, 500, rng.randrange(100_000)])
                self.say("post", s, quarter, wh)
                total += wh
            total += rng.choice([0, 0, 0, 1, -1, 100])
            for site in self.sites[1:]:
                wh = rng.randrange(-500, 500)
                self.say("figure", site, quarter, wh)
                total -= wh
            for site in self.sites[:1]:
                self.say("figure", site, quarter, total)
            self.ask(quarter)
        self.finish(rng.randrange(4))

    def empty(self):
        """A roll without segments, or without anything."""
        self.book()
        self.enter_roll(0, self.rng.choice([0, 0, 1]), self.kinds(2))
        self.say("open")
        self.read_in()
        self.ask()
        self.finish(self.rng.randrange(3))

    def full_roll(self):
        """Every segment and site, one quarter hour; often with the largest sums there are."""
        rng = self.rng
        self.quarters = self.quarters[:1]
        quarter = self.quarters[0]
        self.trouble = min(self.trouble, 0.02)
        extreme = self.chance(0.6)
        self.book(rng.choice([None, 64, 65, 6400]))
        layers = 4 if extreme else rng.randrange(3)
        for _ in range(layers):
            self.say("transmission")
            self.layers.append("transmission")
        for number in range(1, layers + 1):
            self.say("factor", number, quarter,
                     EXACT[1][number - 1] if extreme else self.a_factor())
        carriers = rng.sample(range(64), rng.choice([1, 1, 2, 64]))
        for n in rng.sample(range(64), 64):
            row = list(self.row(0))
            row[4] = int(n not in carriers)
            if extreme:
                row[0] = 0 if n in carriers else rng.choice([1, 1, 15])
            elif self.chance(0.5):
                row[0], row[1] = n // 4, n % 8      # as many pairs as there can be
            self.say("segment", n, *row)
            self.segments[n] = tuple(row)
        for n in range(16):
            self.say("site", n)
            self.sites.append(n)
        self.say("open")
        for n in range(64):
            self.say("post", n, quarter, EXACT[0] if extreme else self.a_reading())
        if extreme:
            figures = rng.choice([[10_000_000] * 16, [-10_000_000] * 16, [0] * 15 + [1],
                                  [10_000_000, -10_000_000] * 7 + [1, 0],
                                  [10_000_000, -10_000_000] * 7 + [3, 4]])
        else:
            figures = [self.a_figure() for _ in range(16)]
        for n, wh in enumerate(figures):
            self.say("figure", n, quarter, wh)
        self.ask(most=5)
        self.finish(rng.randrange(4))

    def chaos(self):
        """Lines in any order."""
        rng = self.rng
        self.trouble = 0.3
        for _ in range(rng.randrange(5, 40)):
            way = rng.randrange(12)
            if way == 0:
                self.say("open")
            elif way == 1 and len(self.layers) < 4:
                kind = rng.choice(["distribution", "transmission"])
                self.say(kind)
                self.layers.append(kind)
            elif way == 2:
                n, row = rng.randrange(4), self.row()
                self.say("segment", n, *row)
                self.segments.setdefault(n, row)
            elif way == 3:
                n = rng.randrange(3)
                self.say("site", n)
                self.sites = sorted(set(self.sites) | {n})
            elif way == 4:
                self.say(rng.choice(["seal", "reopen", "grid", "slips 3", "codes 1", "codes 2"]))
            elif way <= 7:
                self.change()
            else:
                self.lines.append(self.any_line())

    def day(self):
        rng = self.rng
        self.say("day", self.length)
        style = rng.choices([self.plain, self.full_slips, self.profiled, self.heavy,
                             self.noie_only, self.empty, self.full_roll, self.chaos],
                            [50, 12, 14, 8, 7, 2, 3, 7])[0]
        style()
        if self.chance(0.05):           # given up half way, for the next day to begin
            del self.lines[rng.randrange(1, len(self.lines) + 1):]
        return self.lines


def before_any_day(rng):
    """A few lines ahead of the first `day` of an input."""
    maker = Maker(rng)
    return [rng.choice([maker.any_line, lambda: rng.choice(MISTYPED)])()
            for _ in range(rng.randrange(6))]


def one_day(seed, number, odd=False):
    """The lines of one day; the same seed and number give the same lines."""
    return Maker(random.Random(f"{seed} {number}"), odd).day()


if __name__ == "__main__":
    words = [word for word in sys.argv[1:] if word != "--odd"]
    if len(words) != 2:
        raise SystemExit(__doc__)
    for i in range(int(words[1])):
        print("\n".join(one_day(words[0], i, "--odd" in sys.argv)))
