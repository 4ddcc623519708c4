#!/usr/bin/env python3
"""A plain reference of the settlement box, written from docs/ alone.

It is slow and short on purpose: every rule is put down as its definition, on
whole numbers of any size. Python's // goes towards minus infinity, which is the
floor of the rules.

    Refusal                     what a call is sent back with
    split, profiled             an amount over weights; a reading over a day
    Roll                        day length, segments, sites (the draft)
    Book, Distribution, Transmission
    Balance                     one quarter hour
    Day                         entries and questions
    Desk                        lines in, answers for a script out

Run as a program it answers its input as the desk does, with `-` for the words.
"""

import sys
from collections import namedtuple

if hasattr(sys, "set_int_max_str_digits"):
    sys.set_int_max_str_digits(0)       # a number of any size is a number

SEGMENTS, SITES, QSES, POINTS = 64, 16, 16, 8
BOOK_QUARTERS = 100
CELLS = SEGMENTS * BOOK_QUARTERS
MOST_READING = 1_000_000
MOST_LOAD = 4_000_000
MOST_FIGURE = 10_000_000
MOST_FACTOR = 500_000
MOST_K = 1_000_000_000
MOST_P = 4_000_000_000
MOST_WEIGHT = 100_000
MOST_HEIGHT = 255
MILLION = 1_000_000
ONE_WHOLE = 1_000_000_000               # in billionths
MOST_LAYERS = 4                         # of the desk; a pile itself has no limit


# ---------------------------------------------------------------- refusals

WORDS = {
    1: "segment number above 63",
    2: "quarter hour past the end of the day",
    3: "reading above 1,000,000 Wh",
    4: "site number above 15",
    5: "generation figure outside -10,000,000 to 10,000,000 Wh",
    6: "QSE, settlement point, loss code or mark out of range",
    7: "a day has 92, 96 or 100 quarter hours",
    8: "loss factor above 500,000, or its code not A to E",
    9: "list of the wrong length",
    10: "profiled reading, profile total or profile weight out of range",
    11: "the day's profile weights run past the profile total",
    12: "a profiled quarter hour above 1,000,000 Wh",
    13: "number already on the roll",
    14: "segment or site not on the roll",
    15: "no place left in the load book",
    16: "nothing stands there to be taken back",
    17: "no segment on the roll",
    18: "a segment has no reading",
    19: "a segment has no loss factor",
    20: "a segment's load above 4,000,000 Wh",
    21: "a site has no generation figure",
    22: "there is UFE, and no weighted load to carry it",
    23: "the total of all loads is not positive",
}


class Refusal(Exception):
    """The answer to a call that is sent back: number, subject, height."""

    def __init__(self, number, subject=0, height=0):
        super().__init__(number, subject, height)
        self.number, self.subject, self.height = number, subject, height


def refuse_if(condition, number, subject=0):
    if condition:
        raise Refusal(number, subject)


# ---------------------------------------------------------------- the split

def split(amount, weights, before=0, whole=None):
    """The parts of an amount, as differences of neighbouring floors.

    The list may be a window of a longer one: `before` is the sum of the weights
    ahead of it and `whole` the sum of all.
    """
    if whole is None:
        whole = sum(weights)
    if whole == 0:
        refuse_if(amount != 0, 22)
        return [0] * len(weights)
    assert whole > 0, "no split is defined over a negative sum"
    parts = []
    for weight in weights:
        after = before + weight
        parts.append(amount * after // whole - amount * before // whole)
        before = after
    return parts


def profiled(length, k, p, b, weights):
    """The readings of one day, from a reading for a span of days."""
    refuse_if(len(weights) != length, 9)
    refuse_if(k > MOST_K or not 1 <= p <= MOST_P or b > MOST_P
              or any(weight > MOST_WEIGHT for weight in weights), 10)
    refuse_if(b + sum(weights) > p, 11)
    readings = split(k, weights, before=b, whole=p)
    refuse_if(any(reading > MOST_READING for reading in readings), 12)
    return readings


# ---------------------------------------------------------------- the roll

class Segment(namedtuple("Segment", "qse point code meter noie")):
    """A row of the roll, always in range."""

    def weight(self):
        if self.noie == 1:
            return 0
        if self.meter == 1:
            return 10
        return 1 if self.code == "T" else 5


class Roll:
    """A draft: a day length, and the segments and sites entered so far."""

    def __init__(self, length):
        refuse_if(length not in (92, 96, 100), 7)
        self.length = length
        self.segments = {}
        self.sites = set()

    def segment(self, number, qse, point, code, meter, noie):
        refuse_if(number >= SEGMENTS, 1)
        refuse_if(qse >= QSES or point >= POINTS
                  or code not in ("A", "B", "C", "D", "E", "T")
                  or meter > 1 or noie > 1, 6)
        refuse_if(number in self.segments, 13)
        self.segments[number] = Segment(qse, point, code, meter, noie)

    def site(self, number):
        refuse_if(number >= SITES, 4)
        refuse_if(number in self.sites, 13)
        self.sites.add(number)


# ---------------------------------------------------------------- load books

class Fault(namedtuple("Fault", "number height")):
    """What grossing gives instead of a load."""

    def one_higher(self):
        return Fault(self.number, min(self.height + 1, MOST_HEIGHT))


class Book:
    """A book at the bottom of a pile. The grid and the slip book differ only in places."""

    def __init__(self, places):
        self.places = places
        self.standing = {}              # (segment, quarter hour): reading

    @classmethod
    def grid(cls, lent=CELLS):
        return cls(CELLS if lent == CELLS else 0)

    @classmethod
    def slips(cls, lent):
        return cls(min(lent, CELLS))

    def _check_cell(self, segment, quarter):
        refuse_if(segment >= SEGMENTS, 1)
        refuse_if(quarter >= BOOK_QUARTERS, 2)

    def post(self, segment, quarter, reading):
        self._check_cell(segment, quarter)
        refuse_if(reading > MOST_READING, 3)
        before = self.standing.get((segment, quarter))
        refuse_if(before is None and self.free() == 0, 15)
        self.standing[segment, quarter] = reading
        return before

    def withdraw(self, segment, quarter):
        self._check_cell(segment, quarter)
        refuse_if((segment, quarter) not in self.standing, 16)
        return self.standing.pop((segment, quarter))

    def clear(self):
        self.standing.clear()

    def read(self, segment, quarter):
        self._check_cell(segment, quarter)
        return self.standing.get((segment, quarter))

    def free(self):
        return self.places - len(self.standing)

    def load(self, segment, quarter):
        reading = self.read(segment, quarter)
        outcome = self.gross(segment, quarter, reading)
        if isinstance(outcome, Fault):
            raise Refusal(outcome.number, segment, outcome.height)
        return outcome

    def gross(self, segment, quarter, reading):
        return Fault(18, 0) if reading is None else reading


class Layer(Book):
    """An adjustment: a book on another. What stands, and the places, are those below."""

    def __init__(self, below):
        self.below = below
        self.factors = {}

    standing = property(lambda self: self.below.standing)
    places = property(lambda self: self.below.places)

    def gross(self, segment, quarter, reading):
        below = self.below.gross(segment, quarter, reading)
        if isinstance(below, Fault):
            return below.one_higher()
        return self.adjust(segment, quarter, below)

    def raised(self, load, factor):
        if factor is None:
            return Fault(19, 0)
        load = (load * (MILLION + factor) + MILLION // 2) // MILLION
        return Fault(20, 0) if load > MOST_LOAD else load


class Distribution(Layer):
    def __init__(self, below):
        super().__init__(below)
        self.codes = {}

    def give(self, code, quarter, factor):
        refuse_if(quarter >= BOOK_QUARTERS, 2)
        refuse_if(factor > MOST_FACTOR or code not in ("A", "B", "C", "D", "E"), 8)
        self.factors[code, quarter] = factor

    def take_codes(self, roll):
        self.codes = {number: segment.code for number, segment in roll.segments.items()}

    def adjust(self, segment, quarter, load):
        code = self.codes.get(segment)
        if code == "T":
            return load
        return self.raised(load, self.factors.get((code, quarter)))


class Transmission(Layer):
    def give(self, quarter, factor):
        refuse_if(quarter >= BOOK_QUARTERS, 2)
        refuse_if(factor > MOST_FACTOR, 8)
        self.factors[quarter] = factor

    def adjust(self, segment, quarter, load):
        return self.raised(load, self.factors.get(quarter))


# ---------------------------------------------------------------- the balance

class Balance:
    """The balance of one quarter hour, or the refusal (17 to 22) that it has none."""

    def __init__(self, roll, load_of, figure_of):
        refuse_if(not roll.segments, 17)
        numbers = sorted(roll.segments)
        loads = [load_of(number) for number in numbers]     # 18, 19 or 20
        figures = []
        for site in sorted(roll.sites):
            refuse_if(figure_of(site) is None, 21, site)
            figures.append(figure_of(site))

        self.g = sum(figures)
        self.u = self.g - sum(loads)
        weights = [roll.segments[number].weight() * load
                   for number, load in zip(numbers, loads)]
        parts = split(self.u, weights)                      # 22

        self.adjusted = [0] * SEGMENTS
        self.pairs = {}                 # (QSE, point): RTAML, for pairs on the roll
        self.qses = {}                  # QSE: sum of its RTAML, for QSEs on the roll
        for number, load, part in zip(numbers, loads, parts):
            row = roll.segments[number]
            self.adjusted[number] = load + part
            pair = row.qse, row.point
            self.pairs[pair] = self.pairs.get(pair, 0) + load + part
            self.qses[row.qse] = self.qses.get(row.qse, 0) + load + part

    def rtaml(self, qse, point):
        return self.pairs.get((qse, point), 0)

    def shares(self):
        sums = [self.qses.get(qse, 0) for qse in range(QSES)]
        refuse_if(sum(sums) <= 0, 23)
        return split(ONE_WHOLE, sums)

    def text(self):
        lines = [f"G {self.g} {self.u}"]
        lines += [f"A {qse} {point} {self.pairs[qse, point]}"
                  for qse, point in sorted(self.pairs)]
        try:
            shares = self.shares()
            lines += [f"S {qse} {shares[qse]}" for qse in sorted(self.qses)]
        except Refusal as refusal:
            lines.append(refusal_line(refusal))
        return lines


def refusal_line(refusal):
    return f"R {refusal.number} {refusal.subject} {refusal.height}"


# ---------------------------------------------------------------- the day

class Day:
    """What a day holds, its entries and its questions. Its state is kept by the desk.

    The lists that a caller lends for loads, shares and statement are answers here,
    so that only a profiled posting can meet 9.
    """

    def __init__(self, roll, book):
        self.roll, self.book = roll, book
        self.figures = {}               # (site, quarter hour): Wh
        book.clear()

    def _quarter(self, quarter):
        refuse_if(quarter >= self.roll.length, 2)

    def _segment_on_roll(self, segment):
        refuse_if(segment not in self.roll.segments, 14, segment)

    def _site_on_roll(self, site):
        refuse_if(site not in self.roll.sites, 14, site)

    # entries

    def post(self, segment, quarter, reading):
        refuse_if(segment >= SEGMENTS, 1)
        self._quarter(quarter)
        refuse_if(reading > MOST_READING, 3)
        self._segment_on_roll(segment)
        return self.book.post(segment, quarter, reading)

    def profile(self, segment, k, p, b, weights):
        refuse_if(segment >= SEGMENTS, 1)
        readings = profiled(self.roll.length, k, p, b, weights)
        self._segment_on_roll(segment)
        had = sum(self.book.read(segment, quarter) is not None
                  for quarter in range(self.roll.length))
        refuse_if(self.roll.length - had > self.book.free(), 15)
        for quarter, reading in enumerate(readings):
            self.book.post(segment, quarter, reading)
        return had

    def withdraw(self, segment, quarter):
        refuse_if(segment >= SEGMENTS, 1)
        self._quarter(quarter)
        self._segment_on_roll(segment)
        return self.book.withdraw(segment, quarter)

    def figure(self, site, quarter, wh):
        self._quarter(quarter)
        refuse_if(site >= SITES, 4)
        refuse_if(abs(wh) > MOST_FIGURE, 5)
        self._site_on_roll(site)
        before = self.figures.get((site, quarter))
        self.figures[site, quarter] = wh
        return before

    def strike(self, site, quarter):
        self._quarter(quarter)
        refuse_if(site >= SITES, 4)
        self._site_on_roll(site)
        refuse_if((site, quarter) not in self.figures, 16)
        return self.figures.pop((site, quarter))

    # questions

    def balance(self, quarter):
        self._quarter(quarter)
        return Balance(self.roll,
                       lambda segment: self.book.load(segment, quarter),
                       lambda site: self.figures.get((site, quarter)))

    def loads(self, quarter):
        return self.balance(quarter).adjusted

    def rtaml(self, qse, point, quarter):
        self._quarter(quarter)
        refuse_if(qse >= QSES or point >= POINTS, 6)
        return self.balance(quarter).rtaml(qse, point)

    def ufe(self, quarter):
        balance = self.balance(quarter)
        return balance.g, balance.u

    def shares(self, quarter):
        return self.balance(quarter).shares()

    def statement(self, quarter):
        """The lines of the text, without their line ends."""
        self._quarter(quarter)
        try:
            return self.balance(quarter).text()
        except Refusal as refusal:
            return [refusal_line(refusal)]


# ---------------------------------------------------------------- the desk

class Unknown(Exception):
    pass


class Unlawful(Exception):
    pass


def whole(field):
    if not field or any(character not in "0123456789" for character in field):
        raise Unknown
    return int(field)


def signed(field):
    return -whole(field[1:]) if field.startswith("-") else whole(field)


def code(field):
    if len(field) != 1:
        raise Unknown
    return field


def records(field):
    if whole(field) > CELLS:
        raise Unknown
    return whole(field)


# The fields after each word. A word may have several forms of different lengths.
FORMS = {
    "day": [[whole]],
    "segment": [[whole, whole, whole, code, whole, whole]],
    "site": [[whole]],
    "grid": [[]],
    "slips": [[records]],
    "distribution": [[]],
    "transmission": [[]],
    "factor": [[whole, code, whole, whole], [whole, whole, whole]],
    "codes": [[whole]],
    "open": [[]],
    "post": [[whole, whole, whole]],
    "profile": None,                    # four numbers, then any number of weights
    "withdraw": [[whole, whole]],
    "figure": [[whole, whole, signed]],
    "strike": [[whole, whole]],
    "seal": [[]],
    "reopen": [[]],
    "loads": [[whole]],
    "rtaml": [[whole, whole, whole]],
    "ufe": [[whole]],
    "shares": [[whole]],
    "statement": [[whole]],
}

NOTHING, DRAFT = "nothing", "draft"
OPEN_INITIAL, SEALED_INITIAL = "open initial", "sealed initial"
OPEN_FINAL, SEALED_FINAL = "open final", "sealed final"

ON_DRAFT = (DRAFT,)
ON_OPEN = (OPEN_INITIAL, OPEN_FINAL)
ON_ANY_DAY = (OPEN_INITIAL, SEALED_INITIAL, OPEN_FINAL, SEALED_FINAL)

TAKEN = {"reopen": (SEALED_INITIAL,)}
TAKEN.update(dict.fromkeys(["segment", "site", "grid", "slips", "distribution",
                            "transmission", "factor", "codes", "open"], ON_DRAFT))
TAKEN.update(dict.fromkeys(["post", "profile", "withdraw", "figure", "strike",
                            "seal"], ON_OPEN))
TAKEN.update(dict.fromkeys(["loads", "rtaml", "ufe", "shares", "statement"],
                           ON_ANY_DAY))
TAKEN["day"] = (NOTHING, DRAFT) + ON_ANY_DAY


def parse(fields):
    """Word and values of a line, or Unknown."""
    word, rest = fields[0], fields[1:]
    if word == "profile":
        if len(rest) < 4:
            raise Unknown
        return word, [whole(field) for field in rest]
    for form in FORMS.get(word, []):
        if len(form) == len(rest):
            return word, [kind(field) for kind, field in zip(form, rest)]
    raise Unknown


class Desk:
    def __init__(self):
        self.state = NOTHING
        self.roll = None
        self.day = None
        self.places = CELLS
        self.pile = []                  # the layers, from the lowest

    def answer(self, line):
        """None for a line that gets no answer; else the answer for a script and
        the lines of text that follow it."""
        fields = [field for field in line.split("#", 1)[0].split(" ") if field]
        if not fields:
            return None
        try:
            word, values = parse(fields)
            if self.state not in TAKEN[word]:
                raise Unlawful
            result = getattr(self, "do_" + word)(*values)
        except Unknown:
            return "unknown", []
        except Unlawful:
            return "unlawful", []
        except Refusal as refusal:
            return (f"refused {refusal.number} {refusal.subject} {refusal.height}", [])
        if word == "statement":
            return f"ok {sum(len(text) + 1 for text in result)}", result
        return " ".join(["ok"] + [str(number) for number in result or []]), []

    # on a draft

    def do_day(self, length):
        roll = Roll(length)             # a refused length changes nothing
        self.__init__()
        self.roll, self.state = roll, DRAFT

    def do_segment(self, *row):
        self.roll.segment(*row)

    def do_site(self, number):
        self.roll.site(number)

    def do_grid(self):
        self.places = CELLS

    def do_slips(self, number):
        self.places = number

    def _put(self, kind):
        if len(self.pile) == MOST_LAYERS:
            raise Unlawful
        self.pile.append(kind(None))    # laid on the one below at opening

    def do_distribution(self):
        self._put(Distribution)

    def do_transmission(self):
        self._put(Transmission)

    def _layer(self, number, kind):
        if not 1 <= number <= len(self.pile) or type(self.pile[number - 1]) is not kind:
            raise Unknown
        return self.pile[number - 1]

    def do_factor(self, layer, *rest):
        kind = Distribution if len(rest) == 3 else Transmission
        self._layer(layer, kind).give(*rest)

    def do_codes(self, layer):
        self._layer(layer, Distribution).take_codes(self.roll)

    def do_open(self):
        book = Book(self.places)
        for layer in self.pile:
            layer.below = book
            book = layer
        self.day = Day(self.roll, book)
        self.state = OPEN_INITIAL

    # on a day

    def do_seal(self):
        self.state = SEALED_INITIAL if self.state == OPEN_INITIAL else SEALED_FINAL

    def do_reopen(self):
        self.state = OPEN_FINAL

    @staticmethod
    def _or_none(before):
        return ["none" if before is None else before]

    def do_post(self, *values):
        return self._or_none(self.day.post(*values))

    def do_figure(self, *values):
        return self._or_none(self.day.figure(*values))

    def do_profile(self, segment, k, p, b, *weights):
        return [self.day.profile(segment, k, p, b, weights)]

    def do_withdraw(self, *values):
        return [self.day.withdraw(*values)]

    def do_strike(self, *values):
        return [self.day.strike(*values)]

    def do_loads(self, quarter):
        return self.day.loads(quarter)

    def do_rtaml(self, *values):
        return [self.day.rtaml(*values)]

    def do_ufe(self, quarter):
        return self.day.ufe(quarter)

    def do_shares(self, quarter):
        return self.day.shares(quarter)

    def do_statement(self, quarter):
        return self.day.statement(quarter)


def answers(lines):
    """For each line None, or its answer and the lines of text that follow."""
    desk = Desk()
    return [desk.answer(line) for line in lines]


if __name__ == "__main__":
    desk = Desk()
    for typed in sys.stdin.buffer.read().decode("utf-8", "surrogateescape").split("\n"):
        given = desk.answer(typed)
        if given is not None:
            print("- =", given[0])
            for text in given[1]:
                print(text)
