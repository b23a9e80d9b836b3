#!/usr/bin/env python3
"""Compares the regions of programs that two commands print.

    python3 bench/regions.py DFC OTHER [--count N] [--seed S]

DFC and OTHER are commands in quotes, run as `COMMAND regions [checked] < text`. A text is a program written at random: jumps of
all kinds between labels anywhere, loops that never end, DOs nested, with shared terminals and jumps out, blocks of IF. The two
agree where they answer the same status and the same bytes. Prints up to five texts on which they differ; then how many texts
were refused, and last `N texts, M differ`. The exit status is 1 where any differ.
"""
import argparse
import concurrent.futures
import random
import shlex
import subprocess
import sys


class Writer:
    """Writes one program: statements as lines, each with a label of its own."""

    def __init__(self, chance):
        self.chance, self.lines, self.next = chance, [], 10
        self.spread = chance.choice([2, 5, 30, 1000])

    def put(self, text, label=None):
        if label is None:
            self.next += 10
            label = self.next
        self.lines.append((label, text))
        return label

    def target(self, low, high):
        """A label from low up to high, often near the place where the jump stands."""
        near = self.next + 10 * self.chance.randint(-self.spread, self.spread)
        wanted = near if self.chance.random() < 0.8 else self.chance.randint(low, high)
        return min(max(wanted, low), high) // 10 * 10

    def jump(self, low, high):
        form = self.chance.random()
        if form < 0.45:
            return f"GO TO {self.target(low, high)}"
        if form < 0.7:
            return "IF(I-J)" + ",".join(str(self.target(low, high)) for _ in range(3))
        return f"GO TO ({','.join(str(self.target(low, high)) for _ in range(self.chance.randint(1, 4)))}),I"

    def block(self, size, depth, low, high):
        """So many statements, whose jumps lead to labels from low up to high."""
        while size > 0:
            form = self.chance.random()
            if form < 0.3:
                self.put(self.chance.choice(["I=I+1", "J=I", "PRINT *,I", "CONTINUE", "K=I/J"]))
            elif form < 0.55:
                self.put(f"IF(I.LT.J)" + self.chance.choice(["K=1", self.jump(low, high), "STOP", "CONTINUE"]))
            elif form < 0.8 - 0.1 * depth:
                self.put(self.jump(low, high) if self.chance.random() < 0.95 else "STOP")
            elif form < 0.9:
                size -= self.loop(size // 2, depth, low, high)
            else:
                size -= self.branches(size // 2, depth, low, high)
            size -= 1

    def loop(self, size, depth, low, high):
        end = 100000 - len(self.lines) - 1 - 7 * depth
        for variable in ["M", "N"][: self.chance.choice([1, 1, 1, 2])]:
            self.put(f"DO {end} {variable}=1,{self.chance.choice(['3', 'I', '0'])}")
        if depth < 3:
            first = self.next + 20
            self.block(size, depth + 1, first, max(first, first + 10 * size - 20))
        self.put(self.chance.choice(["CONTINUE", "I=I+1", "IF(I.EQ.2)K=K+1"]), end)
        return size

    def branches(self, size, depth, low, high):
        self.put("IF(I.EQ.J)THEN")
        self.arm(size // 2, depth)
        if self.chance.random() < 0.4:
            self.put("ELSE IF(J.GT.K)THEN")
            self.arm(size // 4, depth)
        if self.chance.random() < 0.6:
            self.put("ELSE")
            self.arm(size // 4, depth)
        self.put("END IF")
        return size

    def arm(self, size, depth):
        if depth < 3:
            first = self.next + 20
            self.block(size, depth + 1, first, max(first, first + 10 * size - 20))

    def program(self):
        size = self.chance.choice([1, 3, 6, 6, 12, 12, 30, 80])
        self.block(size, 0, 20, 20 + 10 * size)
        self.put("END")
        return "".join(f"{label:5d} {text}\n" for label, text in self.lines)


def generated(chance):
    """A program; a jump to a label that doesn't stand leads to the last statement above it."""
    writer = Writer(chance)
    text = writer.program()
    return text


def answer(command, words, text):
    """The status of the command, and what it writes."""
    try:
        done = subprocess.run(command + words, input=text.encode(), stdout=subprocess.PIPE, stderr=subprocess.DEVNULL, timeout=60)
    except subprocess.TimeoutExpired:
        return None, b"no end in 60 s"
    return done.returncode, done.stdout


def compare(options, number):
    """The text with that number, and the two answers."""
    chance = random.Random(options.seed * 1000003 + number)
    text = generated(chance)
    words = ["regions"] + ["checked"] * (chance.random() < 0.2)
    return text, answer(shlex.split(options.dfc), words, text), answer(shlex.split(options.other), words, text)


def main():
    parser = argparse.ArgumentParser(description=__doc__, formatter_class=argparse.RawDescriptionHelpFormatter)
    parser.add_argument("dfc")
    parser.add_argument("other")
    for name, value in [("--count", 1000), ("--seed", 1)]:
        parser.add_argument(name, type=int, default=value)
    options = parser.parse_args()
    refused = differ = 0
    with concurrent.futures.ThreadPoolExecutor(2) as pool:
        for text, ours, theirs in pool.map(lambda number: compare(options, number), range(options.count)):
            refused += theirs[0] != 0
            differ += ours != theirs
            if differ <= 5 and ours != theirs:
                print(f"--- DFC {ours}\n--- OTHER {theirs}\n{text}", flush=True)
    print(f"{refused} refused")
    print(f"{options.count} texts, {differ} differ")
    return 1 if differ else 0


if __name__ == "__main__":
    sys.exit(main())
