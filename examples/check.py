#!/usr/bin/env python3
"""Checks a certificate from standard input, without trusting the program that printed it.

Prints `optimal NUM/DEN` where every condition holds, else the first one that fails. The lines are those of
docs/FORMATS.md, the conditions those of docs/CERTIFICATES.md. Python's whole numbers have no bound.
"""
import re
import sys
from collections import Counter
from math import gcd

MAX_SIDES, MAX_PRICE, MAX_ENTRY = 2**20, 2**90 - 1, 2**100 - 1


class Malformed(Exception):
    """The first line that isn't as it is due, and why."""


def number(field):
    if not re.fullmatch("0|-?[1-9][0-9]*", field):
        raise ValueError("form")
    return int(field)


def within(low, x, high):
    if not low <= x <= high:
        raise ValueError("range")
    return x


class Reader:
    def __init__(self, text):
        self.lines, self.at = text.split("\n"), 0

    def line(self, start, count, meaning):
        """What `meaning` makes of the next line's fields behind its start. They are `count`, or any number for None."""
        self.at += 1
        if self.at == len(self.lines):
            raise Malformed(self.at, "ended")
        fields, start = self.lines[self.at - 1].split(" "), start.split(" ")
        rest = fields[len(start) :]
        try:
            if fields[: len(start)] != start or len(rest) != (len(rest) if count is None else count):
                raise ValueError("form")
            return meaning(*rest)
        except ValueError as why:
            raise Malformed(self.at, str(why)) from None

    def numbers(self, start, *ranges):
        """The numbers of a line behind its start, each in its range."""

        def meaning(*fields):
            found = [number(field) for field in fields]
            return [within(low, x, high) for x, (low, high) in zip(found, ranges)]

        return self.line(start, len(ranges), meaning)

    def word(self, room):
        def meaning(weight, letters):
            weight = number(weight)
            if not re.fullmatch("[A-Za-z]+", letters):
                raise ValueError("form")
            within(1, weight, 1000)
            within(1, len(letters), room)
            if any(x == y.swapcase() for x, y in zip(letters, letters[1:] + letters[0])):
                raise ValueError("not-reduced")
            return weight, letters

        return self.line("word", 2, meaning)

    def value(self):
        def meaning(quotient):
            if quotient.count("/") != 1:
                raise ValueError("form")
            num, den = map(number, quotient.split("/"))
            within(0, num, 2**21)
            within(1, den, 2**21)
            within(1, gcd(num, den), 1)
            return num, den

        return self.line("value", 1, meaning)

    def table(self, start, size):
        def meaning(*fields):
            entries = [None if field == "-" else number(field) for field in fields]
            return [x if x is None else within(-MAX_ENTRY, x, MAX_ENTRY) for x in entries]

        return self.line(f"from {start}", size, meaning)

    def pivot(self, steps, rows):
        def meaning(*fields):
            row, *walk = map(number, fields or [""])
            closed = walk and all(step in steps for step in zip(walk, walk[1:] + walk[:1]))
            if not closed or len(set(walk)) < len(walk) or walk[0] != min(walk):
                raise ValueError("form")
            within(0, row, rows - 1)

        self.line("pivot", None, meaning)


def check(text):
    read = Reader(text)
    read.numbers("scallop certificate 1")
    words, letters, following, first = [], "", [], []
    for _ in range(read.numbers("words", (0, 32))[0]):
        weight, spelled = read.word(64 - len(letters))
        words.append((weight, spelled))
        first.append(len(letters))
        following += [len(letters) + (k + 1) % len(spelled) for k in range(len(spelled))]
        letters += spelled
    places = range(len(letters))
    stated = read.value()
    copies = read.numbers("copies", (1, MAX_SIDES))[0]
    side_line = [(0, 63), (0, MAX_SIDES - 1), (0, MAX_SIDES - 1)]
    sides = [read.numbers("side", *side_line) for _ in range(read.numbers("sides", (0, MAX_SIDES))[0])]

    scale = read.numbers("scale", (1, MAX_PRICE))[0]
    base = [read.numbers("base", (-MAX_PRICE, MAX_PRICE))[0] for _ in words]
    pairs = [(p, q) for p in places for q in places if p < q and letters[p] == letters[q].swapcase()]
    price = {}
    for p, q in pairs:
        price[p, q] = read.numbers(f"pair {p} {q}", (-MAX_PRICE, MAX_PRICE))[0]
        price[q, p] = -price[p, q]
    tables = [read.table(start, len(letters)) for start in places]
    # a step leads from i to each place whose letter is inverse to the one behind i; its price
    steps = {(i, j): price[following[i], j] for i in places for j in places if (following[i], j) in price}
    for i, j in steps:
        steps[i, j] += base[first.index(j)] if j in first else 0
    for _ in range(read.numbers("pivots", (0, 50000))[0]):
        read.pivot(steps, len(pairs) + len(words))
    read.numbers("end")
    if read.lines[read.at :] != [""]:
        raise Malformed(read.at + 1, "rest")

    # the sides are a labelled fatgraph over the chain
    taken = set()
    for s, (label, mate, after) in enumerate(sides):
        if label >= len(letters) or mate >= len(sides) or after >= len(sides):
            return f"rejected range {s}"
    for s, (label, mate, after) in enumerate(sides):
        if mate == s or sides[mate][1] != s:
            return f"rejected mate {s}"
    for s, (label, mate, after) in enumerate(sides):
        if letters[label] != letters[sides[mate][0]].swapcase():
            return f"rejected letter {s}"
    for s, (label, mate, after) in enumerate(sides):
        if after in taken:
            return f"rejected next {s}"
        taken.add(after)
    for s, (label, mate, after) in enumerate(sides):
        if sides[after][0] != following[label]:
            return f"rejected label {s}"
    sides_at = Counter(label for label, _, _ in sides)
    for w, (weight, _) in enumerate(words):
        if sides_at[first[w]] != copies * weight:
            return f"rejected count {w}"

    # minus its Euler number, over twice the copies, is the value
    vertices, seen = 0, [False] * len(sides)
    for s in range(len(sides)):
        vertices += not seen[s]
        while not seen[s]:
            seen[s] = True
            s = sides[sides[s][2]][1]
    if (len(sides) // 2 - vertices) * stated[1] != 2 * copies * stated[0]:
        return "rejected value"

    # the tables vouch that each closed walk costs at least the scale
    for start, table in enumerate(tables):
        if table[start] != 0:
            return f"rejected table {start}"
        for i, j in sorted(steps):
            if table[i] is None:
                continue
            total = table[i] + steps[i, j]
            if total < scale if j == start else table[j] is None or table[j] > total:
                return f"rejected table {start} {i} {j}"

    # and no fatgraph has more vertices than the prices say that this one has
    if scale * vertices != copies * sum(weight * z for (weight, _), z in zip(words, base)):
        return "rejected tight"
    return f"optimal {stated[0]}/{stated[1]}"


if __name__ == "__main__":
    try:
        print(check(sys.stdin.buffer.read().decode("latin-1")))
    except Malformed as fault:
        sys.exit("malformed line {} {}".format(*fault.args))
