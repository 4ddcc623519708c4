"""The worked examples of docs/, done by box.py.

Tables that have a regular shape are read from the files, so that a changed figure
is seen here; examples in words are set down below. `python3 reference/compare.py --self`.
"""

import os
import re

import box
import generate
from box import (Balance, Book, Desk, Distribution, Fault, Refusal, Roll, Segment,
                 Transmission, profiled, split)

DOCS = os.path.join(os.path.dirname(os.path.abspath(__file__)), "..", "docs")


def read(name):
    with open(os.path.join(DOCS, name), encoding="utf-8") as file:
        return file.read()


def tables(name):
    """All tables of a file, each a list of rows, the first its head."""
    found, rows = [], []
    for line in read(name).split("\n") + [""]:
        if line.lstrip().startswith("|"):
            rows.append([cell.strip() for cell in line.strip().strip("|").split("|")])
        elif rows:
            found.append([rows[0]] + rows[2:])      # without the line of dashes
            rows = []
    return found


def table(name, *head):
    """The rows under the first table whose head begins with these cells."""
    for rows in tables(name):
        if rows[0][:len(head)] == list(head):
            return rows[1:]
    raise LookupError(f"{name}: no table {head}")


def numbers(text):
    return [int(word) for word in re.findall(r"-?\d+",
            text.replace("−", "-").replace("1,000,000,000", "1000000000"))]


def number(text):
    return int(text.replace("−", "-").replace(",", ""))


def outcome(call, *values):
    try:
        return call(*values)
    except Refusal as refusal:
        return f"refused {refusal.number}"


class Tally:
    def __init__(self):
        self.groups, self.wrong = [], []

    def group(self, name):
        self.groups.append([name, 0])

    def same(self, got, want, what=""):
        self.groups[-1][1] += 1
        if got != want:
            self.wrong.append(f"{self.groups[-1][0]} {what}: got {got!r}, docs have {want!r}")


# ---------------------------------------------------------------- each file

def refusals(tally):
    tally.group("RULES.md, words of the refusals")
    rows = table("RULES.md", "no.", "words")
    tally.same({int(row[0]): row[1] for row in rows}, box.WORDS)


def roll(tally):
    tally.group("roll.md, weights")
    for code, meter, noie, weight in table("rules/roll.md", "code", "meter"):
        tally.same(Segment(0, 0, code, int(meter), int(noie)).weight(), int(weight), code)


def splits(tally):
    tally.group("split.md, the split")
    for amount, weights, parts in table("rules/split.md", "U", "weights"):
        tally.same(split(number(amount), numbers(weights)), numbers(parts), weights)
        tally.same(carried(number(amount), numbers(weights)), numbers(parts), weights)
    tally.group("split.md, the profiled reading")
    tally.same(profiled(96, 100, 3, 0, [1, 1, 1] + [0] * 93), [33, 33, 34] + [0] * 93)
    tally.same(profiled(96, 100, 7, 0, [1, 2] + [0] * 94), [14, 28] + [0] * 94)
    tally.same(profiled(96, 100, 7, 3, [2, 1, 1] + [0] * 93), [29, 14, 15] + [0] * 93)


def carried(amount, weights):
    """The other way to the parts that split.md gives."""
    whole, rest, parts = sum(weights), 0, []
    for weight in weights:
        part = (amount * weight + rest) // whole
        rest = amount * weight + rest - part * whole
        parts.append(part)
    return parts


def books(tally):
    tally.group("load-books.md, slip book with one record")
    book = Book.slips(1)
    for call, answer in slip_rows():
        word, *values = call.split()
        got = outcome(getattr(book, word), *map(int, values))
        want = (None if answer.startswith("none") else
                answer if answer.startswith("refused") else int(answer.split()[0]))
        tally.same(got, want, call)

    tally.group("load-books.md, limits of the books")
    for made in (Book.grid(), Book.slips(1)):
        tally.same(outcome(made.post, 0, 0, 1_000_001), "refused 3")
        tally.same(outcome(made.post, 0, 0, 1_000_000), None)
    for lent in (6_399, 6_401):
        made = Book.grid(lent)
        tally.same((made.free(), outcome(made.post, 0, 0, 1)), (0, "refused 15"))
    tally.same((Book.grid().free(), Book.slips(6_401).free()), (6_400, 6_400))

    tally.group("load-books.md, layers")

    def pile(*layers):
        made = Book.grid()
        for kind, factor in layers:
            made = kind(made)
            if kind is Distribution:
                made.codes = {0: "A", 1: "T"}
                if factor is not None:
                    made.give("A", 0, factor)
            elif factor is not None:
                made.give(0, factor)
        return made

    d, t = Distribution, Transmission
    for reading, layers, want in [
            (10, [(d, 50_000)], 11), (10, [(t, 50_000)], 11),
            (1000, [(d, 50_000)], 1050), (1000, [(d, 50_000), (t, 20_000)], 1071),
            (24, [(t, 50_000)], 25), (24, [(t, 50_000), (d, 20_000)], 26),
            (24, [(t, 20_000)], 24), (24, [(t, 20_000), (d, 50_000)], 25),
            (1_000_000, [(t, 500_000)], 1_500_000),
            (1_000_000, [(t, 500_000)] * 2, 2_250_000),
            (1_000_000, [(t, 500_000)] * 3, 3_375_000),
            (1_000_000, [(t, 500_000)] * 4, Fault(20, 0)),
            (None, [], Fault(18, 0)), (None, [(d, 1), (t, None)], Fault(18, 2)),
            (1000, [(d, None), (t, 20_000)], Fault(19, 1)),
            (1000, [(t, 70_000)], 1070)]:
        tally.same(pile(*layers).gross(0, 0, reading), want, f"{reading} {layers}")
    tally.same(pile((d, None)).gross(1, 0, 1000), 1000, "code T")
    tally.same(Transmission(None).raised(2_666_666, 500_000), 3_999_999)
    tally.same(Transmission(None).raised(2_666_667, 500_000), Fault(20, 0))
    tally.same(outcome(pile((t, None)).give, 0, 500_000), None)
    tally.same(outcome(pile((t, None)).give, 0, 500_001), "refused 8")
    tally.same(outcome(pile((d, None)).give, "T", 0, 1), "refused 8")
    deep = Book.grid()
    for _ in range(300):
        deep = Transmission(deep)
    tally.same(deep.gross(0, 0, None), Fault(18, 255), "300 layers")


def slip_rows():
    """The example of the slip book: the table of calls with five rows."""
    for rows in tables("rules/load-books.md"):
        if rows[0] == ["call", "answer"]:
            return rows[1:]
    raise LookupError("the example of the slip book")


def four_segment_rows():
    return [row for row in table("rules/balance.md", "segment", "QSE") if row[0] != "sum"]


def four_segment_day(figures=(11_000, -300)):
    """The lines that enter the four-segment day, up to its figures."""
    lines = ["day 96"]
    rows = four_segment_rows()
    for row in rows:
        lines.append("segment " + " ".join(row[:6]))
    lines += ["site 0", "site 1", "distribution", "transmission", "codes 1",
              "factor 1 A 0 50000", "factor 1 B 0 25000", "factor 2 0 20000", "open"]
    lines += [f"post {row[0]} 0 {row[6]}" for row in rows]
    return lines + [f"figure {site} 0 {wh}" for site, wh in enumerate(figures)]


def ask(lines, question):
    return box.answers(lines + [question])[-1]


def balances(tally):
    tally.group("balance.md, the four-segment day")
    lines, rows = four_segment_day(), four_segment_rows()
    desk = Desk()
    for line in lines:
        tally.same(desk.answer(line)[0].split()[0], "ok", line)
    for row in rows:
        segment = int(row[0])
        tally.same(desk.day.book.below.load(segment, 0), number(row[7]), "distribution")
        tally.same(desk.day.book.load(segment, 0), number(row[8]), "load")
        tally.same(desk.roll.segments[segment].weight(), number(row[9]), "weight")
    parts = table("rules/balance.md", "segment", "part of U = 398")
    for column, u, figures in ((1, 398, (11_000, -300)), (3, -302, (10_300, -300))):
        weights = [number(row[10]) for row in rows]
        tally.same(split(u, weights), [number(row[column]) for row in parts[:-1]], "parts")
        loads = " ".join([str(number(row[column + 1])) for row in parts[:-1]] + ["0"] * 60)
        tally.same(ask(four_segment_day(figures), "loads 0")[0], "ok " + loads)
    wanted = {(int(q), int(p)): number(wh)
              for q, p, wh in table("rules/balance.md", "QSE", "point", "RTAML")}
    for qse in range(16):
        for point in range(8):
            tally.same(ask(lines, f"rtaml {qse} {point} 0")[0],
                       f"ok {wanted.get((qse, point), 0)}")
    wanted = {row[0]: row[2] for row in table("rules/balance.md", "QSE", "sum of RTAML")}
    tally.same(ask(lines, "shares 0")[0],
               "ok " + " ".join(wanted.get(str(qse), "0") for qse in range(16)))
    tally.same(ask(lines, "ufe 0")[0], "ok 10700 398")

    tally.group("balance.md, negative sums; lone NOIE; all 0")
    two = Roll(96)
    two.segment(0, 1, 0, "A", 1, 0)
    two.segment(1, 3, 0, "A", 0, 1)
    two.site(0)
    balance = Balance(two, lambda segment: [100, 1000][segment], lambda site: 900)
    tally.same((balance.u, balance.adjusted[:2]), (-200, [-100, 1000]))
    tally.same(balance.shares(), [0, -111_111_112, 0, 1_111_111_112] + [0] * 12)
    lone = Roll(96)
    lone.segment(0, 1, 0, "A", 0, 1)
    lone.site(0)
    balance = Balance(lone, lambda segment: 500, lambda site: 500)
    tally.same((balance.u, balance.adjusted[0]), (0, 500))
    tally.same(outcome(Balance, lone, lambda segment: 500, lambda site: 600), "refused 22")
    balance = Balance(two, lambda segment: 0, lambda site: 0)
    tally.same((balance.u, balance.adjusted), (0, [0] * 64))
    tally.same(outcome(balance.shares), "refused 23")


def statements(tally):
    tally.group("statement.md")
    text = read("rules/statement.md")
    first, second, third = [block.strip("\n").split("\n")
                            for block in re.findall(r"```\n(.*?)```", text, re.S)]
    nought = [re.sub(r"^(post \d+ 0) .*", r"\1 0", line)
              for line in four_segment_day((0, 0))]
    sizes = [int(size) for size in re.findall(r"(\d+) bytes[:)]", text)]
    lone = ["day 96", "segment 0 1 0 A 0 1", "site 0", "open", "post 0 0 500",
            "figure 0 0 600"]
    whole = {row[0].split(",")[0].split(" with ")[0]: row[1].strip("`")
             for row in table("rules/statement.md", "case", "text")}
    cases = [
        (four_segment_day(), first, sizes[0]),
        (four_segment_day((10_300, -300)), second, None),
        (nought, third, sizes[1]),
        (four_segment_day() + ["withdraw 2 0"],
         [whole["the reading of segment 2 withdrawn (two layers)"]], None),
        (four_segment_day() + ["strike 1 0"], [whole["the figure of site 1 struck"]], None),
        (["day 96", "open"], [whole["a roll without segments"]], None),
        (lone, [whole["a lone NOIE segment"]], None),
    ]
    for lines, want, size in cases:
        answer, got = ask(lines, "statement 0")
        tally.same(got, want)
        tally.same(answer, f"ok {size or sum(len(line) + 1 for line in want)}")


def desk(tally):
    tally.group("desk.md, the example")
    rows = table("rules/desk.md", "typed", "answered")
    typed = [row[0].strip("`") for row in rows]
    for line, row, given in zip(typed, rows, box.answers(typed)):
        tally.same("… = " + given[0], row[1].strip("`"), line)
    tally.group("desk.md, the lines of the table have a form")
    for row in table("rules/desk.md", "line", "fields after the word"):
        line = row[0].strip("`").replace(" …", "")
        tally.same(bool(box.parse(line.split(" "))), True, line)
    tally.same(len({row[0].strip("`").split()[0]
                    for row in table("rules/desk.md", "line", "fields after the word")}),
               len(box.FORMS), "words")


def laws(tally):
    """The laws of the balance and of the statement's size, on random days."""
    tally.group("balance.md, the laws, on random days")
    for i in range(300):
        typing = Desk()
        for line in generate.one_day("laws", i):
            given = typing.answer(line)
            if given is None or not given[0].startswith("ok"):
                continue
            fields = line.split("#")[0].split()
            if fields[0] == "statement":
                tally.same(int(given[0].split()[1]) <= 1576, True, "size")
            if fields[0] != "loads":
                continue
            quarter, rows = int(fields[1]), typing.roll.segments
            balance = typing.day.balance(quarter)
            g, u, adjusted = balance.g, balance.u, balance.adjusted
            loads = {s: typing.day.book.load(s, quarter) for s in rows}
            weighted = {s: rows[s].weight() * loads[s] for s in rows}
            whole = sum(weighted.values())
            tally.same(sum(adjusted), g, "law 1")
            tally.same(sum(balance.rtaml(q, p) for q in range(16) for p in range(8)), g, "law 2")
            if g > 0:
                tally.same(sum(balance.shares()), 1_000_000_000, "law 3")
            for s in rows:
                part = adjusted[s] - loads[s]
                near = abs(part * whole - u * weighted[s]) < whole if whole else part == 0
                tally.same(near, True, "law 4")


def main():
    """Prints how the examples came out; true if all are right."""
    tally = Tally()
    for part in (refusals, roll, splits, books, balances, statements, desk, laws):
        try:
            part(tally)
        except Exception as stopped:    # an example that should have come to an answer
            tally.wrong.append(f"{tally.groups[-1][0]}: stopped at {stopped!r}")
    for name, count in tally.groups:
        print(f"{count:5}  {name}")
    for line in tally.wrong:
        print("WRONG  " + line)
    checks = [count for _, count in tally.groups]
    print(f"{sum(checks[:-1])} examples of docs/ and {checks[-1]} checks of laws, "
          f"{len(tally.wrong)} wrong")
    return not tally.wrong


if __name__ == "__main__":
    raise SystemExit(0 if main() else 1)
