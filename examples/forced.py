#!/usr/bin/env python3
"""Tells whether a chain that `scl` refuses with `sides` has a surface of its value within the limits at all.

Reads the text of the refusal (docs/FORMATS.md) from standard input. Its journal leads to an optimal basis. The prices
of that basis cover: every closed walk costs at least the scale. So in a surface that has the value each vertex costs
the scale exactly, and is a polygon that does: a tight one. The surface's vertices come to n times the right side, for
its n copies of the chain. Whole numbers of tight polygons do that for the multiples of one number alone, which is told.
All is computed in whole numbers and fractions without a bound, and that the prices cover is checked.
"""
import sys
from fractions import Fraction
from math import lcm

MAX_SIDES = 2**20


class Chain:
    """The words of the text: letters, steps, and the rows of pairs and words."""

    def __init__(self, words):
        self.weights = [weight for weight, _ in words]
        self.letters = "".join(letters for _, letters in words)
        self.next, self.firsts = [], []
        for _, letters in words:
            first = len(self.next)
            self.firsts.append(first)
            self.next += [first + (place + 1) % len(letters) for place in range(len(letters))]
        places = range(len(self.letters))
        opposite = [letter.swapcase() for letter in self.letters]
        pairs = [(p, q) for p in places for q in places if p < q and self.letters[p] == opposite[q]]
        self.row = {pair: row for row, pair in enumerate(pairs)}
        self.rows = len(pairs) + len(words)
        self.side = {len(pairs) + w: weight for w, weight in enumerate(self.weights)}
        self.word_row = {first: len(pairs) + w for w, first in enumerate(self.firsts)}
        self.steps = [[j for j in places if self.letters[j] == opposite[self.next[i]]] for i in places]
        self.length = sum(weight * len(letters) for weight, letters in words)

    def step(self, i, j):
        """What the step from i to j adds to a column: rows and numbers."""
        p = self.next[i]
        entries = [(self.row[p, j], 1)] if p < j else [(self.row[j, p], -1)]
        return entries + ([(self.word_row[i], 1)] if i in self.word_row else [])

    def column(self, walk):
        column = {}
        for i, j in zip(walk, walk[1:] + walk[:1]):
            for row, entry in self.step(i, j):
                column[row] = column.get(row, 0) + entry
        return {row: entry for row, entry in column.items() if entry}


def without(equation, key, pivot):
    """The equation without its term of `key`, by one in which that has the factor 1. Each is (terms, right sides)."""
    terms, sides = dict(equation[0]), equation[1]
    factor = terms[key]
    for other, x in pivot[0].items():
        terms[other] = terms.get(other, 0) - factor * x
        if terms[other] == 0:
            del terms[other]
    return terms, [a - factor * b for a, b in zip(sides, pivot[1])]


def eliminate(equations, may_divide):
    """Solves for one unknown after another, the shortest equation first. Without division only a factor 1 or -1 is
    solved for, so that the whole solutions stay the same. Gives the solved unknowns in order, and what is left."""
    solved = []
    while True:
        usable = [e for e in equations if any(may_divide or abs(x) == 1 for x in e[0].values())]
        if not usable:
            return solved, equations
        chosen = min(usable, key=lambda e: len(e[0]))
        key, factor = next((k, x) for k, x in chosen[0].items() if may_divide or abs(x) == 1)
        terms, sides = chosen
        if may_divide:
            factor = Fraction(factor)
        pivot = {k: x / factor if may_divide else x * factor for k, x in terms.items()}, [
            x / factor if may_divide else x * factor for x in sides
        ]
        equations = [without(e, key, pivot) if key in e[0] else e for e in equations if e is not chosen]
        solved.append((key, pivot))


def prices_of(chain, items):
    """The prices of a basis at both levels, as whole numbers over a scale each."""
    equations = [
        ({row: 1}, [-1, 0]) if walk is None else (chain.column(walk), [0, 1]) for row, walk in enumerate(items)
    ]
    solved, left = eliminate(equations, True)
    assert len(solved) == chain.rows and not left
    prices = {}
    for row, (terms, sides) in reversed(solved):
        known = [(x, prices[k]) for k, x in terms.items() if k != row]
        prices[row] = [side - sum(x * price[level] for x, price in known) for level, side in enumerate(sides)]
    scales = [lcm(*(Fraction(prices[row][level]).denominator for row in range(chain.rows))) for level in (0, 1)]
    return [[int(prices[row][level] * scales[level]) for row in range(chain.rows)] for level in (0, 1)], scales[1]


def shortest(start, steps, price):
    """The least price of a walk from `start` along steps to each place, back at the start included."""
    least = {j: price[start, j] for j in steps[start]}
    changed = True
    while changed:
        changed = False
        for i in [i for i in least if i != start]:
            for j in steps[i]:
                total = (least[i][0] + price[i, j][0], least[i][1] + price[i, j][1])
                if j not in least or total < least[j]:
                    least[j], changed = total, True
    return least


def tight_polygons(chain, prices, scale):
    """The polygons that cost the scale. Raises where a closed walk costs less."""
    bulk, fine = prices
    price = {}
    for i, steps in enumerate(chain.steps):
        for j in steps:
            entries = chain.step(i, j)
            price[i, j] = (sum(bulk[r] * x for r, x in entries), sum(fine[r] * x for r, x in entries))
    polygons = []
    for start in range(len(chain.letters)):
        # walks from the start through places behind it, and the least price of what leads back
        ahead = [[j for j in steps if j >= start] for steps in chain.steps]
        if shortest(start, ahead, price).get(start, (0, scale)) < (0, scale):
            raise ValueError("the prices don't cover")
        behind = [[i for i in range(start, len(ahead)) if j in ahead[i]] for j in range(len(ahead))]
        back = shortest(start, behind, {(j, i): x for (i, j), x in price.items()})
        pending = [((start,), (0, 0))]
        while pending:
            walk, spent = pending.pop()
            for j in ahead[walk[-1]]:
                total = (spent[0] + price[walk[-1], j][0], spent[1] + price[walk[-1], j][1])
                if j == start and total == (0, scale):
                    polygons.append(list(walk))
                elif j != start and j not in walk and j in back:
                    if (total[0] + back[j][0], total[1] + back[j][1]) == (0, scale):
                        pending.append((walk + (j,), total))
    return polygons


def least_multiple(equations):
    """The number of which n is a multiple wherever n times the right sides are sums of whole multiples of columns."""
    _, left = eliminate(equations, False)
    keys = sorted({key for terms, _ in left for key in terms})
    columns = [[terms.get(key, 0) for terms, _ in left] for key in keys]
    side, multiple = [Fraction(sides[0]) for _, sides in left], 1
    for row in range(len(left)):
        # the columns by which this row isn't 0 are made one, by their greatest common divisor there
        here = [column for column in columns if column[row]]
        columns = [column for column in columns if not column[row]]
        while len(here) > 1:
            here.sort(key=lambda column: abs(column[row]))
            least = here[0]
            reduced = [[x - column[row] // least[row] * y for x, y in zip(column, least)] for column in here[1:]]
            columns += [column for column in reduced if not column[row]]
            here = [least] + [column for column in reduced if column[row]]
        if here:
            times = side[row] / here[0][row]
            multiple = lcm(multiple, times.denominator)
            side = [x - times * y for x, y in zip(side, here[0])]
        assert side[row] == 0
    return multiple


def main():
    lines = [line.split() for line in sys.stdin.read().split("\n")]
    if lines[0] != ["scallop", "refused", "sides"]:
        sys.exit("this isn't the text of a refusal with sides")
    chain = Chain([(int(line[1]), line[2]) for line in lines if line[:1] == ["word"]])
    items = [None] * chain.rows
    for line in lines:
        if line[:1] == ["pivot"]:
            items[int(line[1])] = [int(field) for field in line[2:]]
    prices, scale = prices_of(chain, items)
    vertices = Fraction(sum(prices[1][row] * weight for row, weight in chain.side.items()), scale)
    value = (chain.length - 2 * vertices) / 4
    print(f"value {value.numerator}/{value.denominator}")
    polygons = tight_polygons(chain, prices, scale)
    print(f"tight polygons {len(polygons)}")
    equations = [({}, [chain.side.get(row, 0)]) for row in range(chain.rows)]
    for number, walk in enumerate(polygons):
        for row, entry in chain.column(walk).items():
            equations[row][0][number] = entry
    multiple = least_multiple([(terms, sides) for terms, sides in equations if terms or sides[0]])
    print(f"copies a multiple of {multiple}")
    print(f"sides a multiple of {multiple * chain.length}")
    print("forced" if multiple * chain.length > MAX_SIDES else "not forced")


main()
