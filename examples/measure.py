#!/usr/bin/env python3
"""Runs `PROGRAM scl` on chains of several families, checks each certificate, and prints a table.

    python3 examples/measure.py PROGRAM [--only PATTERN] [--limit SECONDS]

The chains are drawn by a generator with fixed seeds, so that each run has the same ones. A row a chain: its positions,
the value or the refusal, the copies of the surface, the pivots, the bytes of the certificate, and the seconds of `scl`
and of `check`. Each certificate is checked by `PROGRAM check` and by `check.py` beside this file; where one of them
doesn't say `optimal` with the printed value, the row says WRONG and the script ends with 1.
"""
import argparse
import os
import re
import subprocess
import sys
import time

HERE = os.path.dirname(os.path.abspath(__file__))
REFUSALS = {5: "wide", 6: "budget", 7: "sides"}
WEIGHTS = (
    ("1000 ab", "1000 A", "1000 B"),
    ("997 abAB", "1000 aB", "1000 bA"),
    ("999 aab", "998 AAB", "1 AAB"),
    ("991 abcABC", "983 abAB", "977 bcBC"),
    ("1000 aabAAB", "999 abAB", "1000 ab", "1000 AB"),
)


class Draws:
    """Numbers drawn by a linear congruential generator, the same on each machine."""

    def __init__(self, seed):
        self.state = seed * 2654435761 + 12345

    def below(self, bound):
        self.state = (self.state * 6364136223846793005 + 1442695040888963407) % 2**64
        return (self.state >> 33) % bound

    def shuffled(self, items):
        items = list(items)
        for i in range(len(items) - 1, 0, -1):
            j = self.below(i + 1)
            items[i], items[j] = items[j], items[i]
        return items


def is_reduced(word):
    return all(x != y.swapcase() for x, y in zip(word, word[1:] + word[:1]))


def balanced_words(draws, generators, lengths):
    """Random reduced words of these lengths, in which each generator stands as often as its inverse."""
    total = sum(lengths)
    while True:
        half = [chr(ord("a") + draws.below(generators)) for _ in range(total // 2)]
        letters = draws.shuffled(half + [x.upper() for x in half])
        words, at = [], 0
        for length in lengths:
            words.append(repaired("".join(letters[at : at + length]), draws))
            at += length
        if all(words):
            return words


def repaired(word, draws):
    """The word's letters in another order in which it is reduced; empty where a hundred tries find none."""
    letters = list(word)
    for _ in range(100):
        bad = [i for i in range(len(letters)) if letters[i] == letters[(i + 1) % len(letters)].swapcase()]
        if not bad:
            return "".join(letters)
        i, j = bad[0], draws.below(len(letters))
        letters[i], letters[j] = letters[j], letters[i]
    return ""


def families():
    """Names and texts of chains."""
    for generators in (2, 3, 4):
        for length in (20, 28, 36, 44, 52, 64):
            for seed in (1, 2):
                draws = Draws(1000 * generators + 10 * length + seed)
                word = balanced_words(draws, generators, [length])[0]
                yield f"word-{generators}-{length}-{seed}", word + "\n"
    for count, length in ((2, 16), (3, 12), (4, 10), (6, 8), (8, 6)):
        words = balanced_words(Draws(77 * count + length), 3, [length] * count)
        yield f"words-{count}x{length}", "".join(f"{word}\n" for word in words)
    for word, times in (("abAB", 5), ("abAB", 12), ("abAB", 16), ("aabbAABB", 6), ("abcABC", 9)):
        yield f"power-{word}-{times}", word * times + "\n"
    for word, times in (("abAB", 3), ("abAB", 12), ("aabAAB", 6), ("abcABC", 8)):
        yield f"lines-{word}-{times}", f"{word}\n" * times
    for number, lines in enumerate(WEIGHTS, 1):
        yield f"weights-{number}", "".join(f"{line}\n" for line in lines)
    for seed in (1, 2, 3):
        yield f"short-lines-{seed}", short_lines(Draws(900 + seed))


def short_lines(draws):
    """Thirty lines of one or two letters, fifteen and their inverses in another order, some with weights."""
    words = []
    while len(words) < 15:
        word = "".join(draws.shuffled("abcABC")[: 1 + draws.below(2)])
        if is_reduced(word):
            words.append((1 + draws.below(3), word))
    inverses = [(weight, word[::-1].swapcase()) for weight, word in words]
    turned = [(weight, word[1:] + word[:1]) for weight, word in draws.shuffled(inverses)]
    return "".join(f"{weight} {word}\n" for weight, word in words + turned)


def timed(argv, data, limit):
    """The exit code, the output and the seconds of the best of three runs, of one where it takes half a second."""
    best = None
    for _ in range(3):
        start = time.monotonic()
        try:
            done = subprocess.run(argv, input=data, capture_output=True, timeout=limit, check=False)
        except subprocess.TimeoutExpired:
            return None, b"", limit
        seconds = time.monotonic() - start
        best = seconds if best is None else min(best, seconds)
        if seconds > 0.5:
            break
    return done.returncode, done.stdout, best


def row_of(program, name, text, limit):
    """The cells of a chain's row, and whether they are right."""
    code, output, seconds = timed([program, "scl"], text.encode(), limit)
    lines = output.decode("ascii").split("\n")
    said = dict(line.split(" ", 1) for line in lines if line.startswith(("value ", "copies ", "pivots ")))
    positions = sum(len(line.split()[2]) for line in lines if line.startswith("word "))
    if code != 0 or "value" not in said:
        says = "time" if code is None else lines[0] if code == 0 else REFUSALS.get(code, f"code {code}")
        return [name, positions, says, "-", said.get("pivots", "-"), len(output), f"{seconds:.3f}", "-"], True
    wanted = f"optimal {said['value']}\n".encode()
    _, first, checking = timed([program, "check"], output, limit)
    _, second, _ = timed([sys.executable, os.path.join(HERE, "check.py")], output, limit)
    right = first == wanted and second == wanted
    says = said["value"] + ("" if right else " WRONG")
    cells = [name, positions, says, said["copies"], said["pivots"], len(output), f"{seconds:.3f}", f"{checking:.3f}"]
    return cells, right


def main():
    parser = argparse.ArgumentParser(description=__doc__)
    parser.add_argument("program")
    parser.add_argument("--only", default=".")
    parser.add_argument("--limit", type=float, default=120)
    options = parser.parse_args()
    print("| chain | positions | scl | copies | pivots | bytes | scl s | check s |")
    print("|---" * 8 + "|")
    wrong = 0
    for name, text in families():
        if re.search(options.only, name):
            cells, right = row_of(options.program, name, text, options.limit)
            wrong += not right
            print("| " + " | ".join(str(cell) for cell in cells) + " |", flush=True)
    sys.exit(1 if wrong else 0)


if __name__ == "__main__":
    main()
