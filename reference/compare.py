#!/usr/bin/env python3
"""Asks a desk program and box.py the same random days, and compares every answer.

    python3 reference/compare.py [DESK] [--days N] [--seed S] [--batch N] [--odd]
    python3 reference/compare.py --self

DESK is crates/desk/out/desk of this repository if not given. Of an answer line what stands
after ` = ` is compared, and after a statement its text. Many days go into one input
(--batch).
On the first difference the input that led to it is printed, made shorter where that
works, with both answers. --odd adds lines that docs/ leave open. --self does the
worked examples of docs/ instead.

Exit status: 0 all agreed, 1 a difference, 2 the program could not be run.
"""

import argparse
import collections
import os
import random
import subprocess
import sys
import time

import box
import generate
import worked

HOME = os.path.dirname(os.path.dirname(os.path.abspath(__file__)))
SHORTENING_SECONDS = 20


def run_desk(desk, lines, seconds=120):
    """What the program printed, as lines, and how it ended if not well."""
    data = "\n".join(lines).encode("utf-8", "surrogateescape")
    if len(lines) % 2:                  # the last line counts with or without its end
        data += b"\n"
    try:
        done = subprocess.run([desk], input=data, stdout=subprocess.PIPE,
                              stderr=subprocess.PIPE, timeout=seconds)
    except subprocess.TimeoutExpired:
        return [], f"no end within {seconds} seconds"
    ended = "" if done.returncode == 0 else f"exit status {done.returncode}"
    if done.stderr:
        ended += " stderr: " + done.stderr.decode("utf-8", "replace")[:500]
    printed = done.stdout.decode("utf-8", "replace").split("\n")
    if printed[-1] == "":
        printed.pop()
    return printed, ended


Difference = collections.namedtuple("Difference", "at wanted got")


def difference(lines, wanted, printed, ended):
    """The first place where the program differs from the reference, or None."""
    at = 0
    for i, answer in enumerate(wanted):
        if answer is None:
            continue
        right, text = answer
        if at >= len(printed):
            return Difference(i, [right] + text, [f"(no output; {ended or 'ended well'})"])
        words, parted, got = printed[at].partition(" = ")
        if not parted or not words or got != right:
            return Difference(i, [right] + text, printed[at:at + 1 + len(text)])
        if printed[at + 1:at + 1 + len(text)] != text:
            return Difference(i, [right] + text, printed[at:at + 1 + len(text)])
        at += 1 + len(text)
    if at < len(printed):
        return Difference(len(lines) - 1, ["(nothing more)"], printed[at:at + 3])
    if ended:
        return Difference(len(lines) - 1, ["(a good end)"], [ended])
    return None


def differs(desk, lines):
    printed, ended = run_desk(desk, lines, 20)
    return difference(lines, box.answers(lines), printed, ended)


def shortened(desk, lines):
    """Fewer lines that still differ: leave out ever smaller pieces."""
    end = time.time() + SHORTENING_SECONDS
    found = differs(desk, lines)
    lines = lines[:found.at + 1]
    piece = max(1, len(lines) // 2)
    while piece:
        i = 0
        while i < len(lines) and time.time() < end:
            fewer = lines[:i] + lines[i + piece:]
            still = differs(desk, fewer) if fewer else None
            if still:
                lines = fewer[:still.at + 1]
            else:
                i += piece
        piece //= 2
    return lines


def report(desk, day, batch):
    """Prints a difference: from the day alone if it shows there, else from the batch."""
    lines = day if differs(desk, day) else batch
    if differs(desk, lines):
        lines = shortened(desk, lines)
    found = differs(desk, lines)
    print("\nDIFFERENCE. Input:\n")
    print("\n".join("    " + line for line in lines))
    if found is None:
        print("\nIt did not show again when the same input was given a second time.")
        return
    print("\nLine:      " + lines[found.at])
    print("Reference: " + "\n           ".join(found.wanted))
    print("Program:   " + "\n           ".join(found.got))


def number(answer):
    """`ok`, `unknown`, `unlawful` or the number of the refusal."""
    fields = answer.split()
    return int(fields[1]) if fields[0] == "refused" else fields[0]


def main():
    parser = argparse.ArgumentParser(description=__doc__,
                                     formatter_class=argparse.RawDescriptionHelpFormatter)
    parser.add_argument("desk", nargs="?", default=os.path.join(HOME, "crates", "desk", "out", "desk"))
    parser.add_argument("--days", type=int, default=5000)
    parser.add_argument("--seed", default="1")
    parser.add_argument("--batch", type=int, default=50, help="days in one input")
    parser.add_argument("--odd", action="store_true")
    parser.add_argument("--self", action="store_true", dest="examples")
    args = parser.parse_args()

    if args.examples:
        return 0 if worked.main() else 1
    desk = os.path.abspath(args.desk)
    if not os.access(desk, os.X_OK) or os.path.isdir(desk):
        print(f"no program {desk}")
        return 2

    begun = time.time()
    counts, questions = collections.Counter(), collections.Counter()
    days = typed = answered = texts = 0
    while days < args.days:
        count = min(args.batch, args.days - days)
        made = [generate.one_day(args.seed, days + i, args.odd) for i in range(count)]
        first = generate.before_any_day(random.Random(f"{args.seed} before {days}"))
        lines = first + [line for day in made for line in day]
        wanted = box.answers(lines)
        printed, ended = run_desk(desk, lines)
        found = difference(lines, wanted, printed, ended)
        if found:
            start = len(first)
            day = first
            for candidate in made:
                if found.at >= start:
                    day = candidate
                start += len(candidate)
            report(desk, day, lines[:found.at + 1])
            print(f"\n{days} days agreed before the input with this one.")
            return 1
        days += count
        typed += len(lines)
        for line, answer in zip(lines, wanted):
            if answer:
                answered += 1
                texts += len(answer[1])
                counts[number(answer[0])] += 1
                if line.split(" ", 1)[0] in ("loads", "rtaml", "ufe", "shares"):
                    questions[answer[0].startswith("ok")] += 1

    print(f"{days} days, {typed} lines, {answered} answers and {texts} lines of statements agreed, "
          f"in {time.time() - begun:.1f} s")
    print(f"questions other than statements: {questions[True]} answered, "
          f"{questions[False]} sent back, unlawful or unknown")
    for kind in ("ok", "unknown", "unlawful"):
        print(f"{counts[kind]:8}  {kind}")
    for refusal, words in box.WORDS.items():
        print(f"{counts[refusal]:8}  refused {refusal}: {words}")
    return 0


if __name__ == "__main__":
    sys.exit(main())
