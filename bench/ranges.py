#!/usr/bin/env python3
"""Compares what two commands make of DOs over arrays.

    python3 bench/ranges.py DFC OTHER [--count N] [--seed S]

DFC and OTHER are commands in quotes, run as `COMMAND graph [checked] < text` and as `COMMAND fire|trace|store limit=N [picks=..] [data=..]
[checked] < text`. A text is a program written at random whose DOs run through known values most of the time, over arrays whose
bounds are those values or miss them by one at either end: steps that skip the terminal parameter, negative ones, ranges that aren't
executed, multiples of the variable that wrap, a variable that the range writes, under its own name or under another one, a jump out of
the range, and a DO in it with the same variable; four in ten are in the checked dialect. The two agree where they answer the same status
and the same bytes. Prints up to five texts on which they differ; then how many texts were refused, how many graphs have a subscript
that leaves the line of output, and how many runs had which status, and last `N texts, M runs, K differ`. The exit status is 1 where
any differ.
"""
import argparse
import collections
import concurrent.futures
import random
import shlex
import sys

import graphs
import regions

VARIABLES = ["I", "J", "K", "L"]
FAR = 2**31


class Array:
    """An array, whose bounds are chosen as it is used first."""

    def __init__(self, name, rank):
        self.name, self.dims = name, [None] * rank

    def declared(self):
        bounds = [dim or (1, 3) for dim in self.dims]
        return f"{self.name}({','.join(f'{low}:{high}' if low != 1 else str(high) for low, high in bounds)})"


class Loop:
    """A DO that is under way: its variable, and the values of that."""

    def __init__(self, variable, values):
        self.variable, self.values = variable, values


class Writer:
    """Writes one program."""

    def __init__(self, chance):
        self.chance, self.lines, self.label = chance, [], 0
        self.arrays = [Array("NA", 1), Array("NB", 1), Array("NC", 2), Array("ND", 1)]

    def put(self, text, label=""):
        self.lines.append(f"{label:>5} {text}")

    def new_label(self):
        self.label += 10
        return self.label

    def number(self, value):
        """A text of a known number."""
        form = self.chance.random()
        if form < 0.8 or abs(value) > 1000:
            return str(value)
        if form < 0.9:
            return f"{value - 2}+2"
        return f"{value + 1}-1"

    # ---- subscripts

    def subscript(self, dim, loops):
        """The text of a subscript of this dimension and the numbers that it may be, which the bounds are made for; or None for any."""
        chance = self.chance
        loop = chance.choice(loops) if loops and chance.random() < 0.95 else None
        if loop is None and chance.random() < 0.93:
            low, high = dim or (1, 3)
            known = chance.randint(low, min(high, low + 9))
            return chance.choice([(str(known), [known]), (f"{known}-0", [known])])
        if loop is None:
            return chance.choice([("M", None), ("2", [2]), ("NA(1)", None), ("1-2", [-1]), ("M+1", None), ("I", None)])
        v, values = loop.variable, loop.values or [1, 2]
        k = chance.choice([0, 1, 2, 3, 5, -1])
        form = chance.random()
        if form < 0.3:
            return v, values
        if form < 0.4:
            return f"{v}+{abs(k)}" if chance.random() < 0.8 else f"{v}+({self.number(k)})", [x + abs(k) for x in values]
        if form < 0.5:
            return f"{self.number(abs(k))}+{v}", [x + abs(k) for x in values]
        if form < 0.62:
            return f"{v}-{abs(k)}", [x - abs(k) for x in values]
        if form < 0.72:
            return f"{abs(k)}*{v}", [x * abs(k) for x in values]
        if form < 0.8:
            return f"{v}*{abs(k)}", [x * abs(k) for x in values]
        if form < 0.84:
            return f"(-{abs(k)})*{v}", [x * -abs(k) for x in values]
        if form < 0.87:
            big = chance.choice([FAR // 2, FAR - 1, FAR // 4 + 1])
            return f"{v}*{big}", [wrapped(x * big) for x in values]
        other = (f"{v}+M", None) if chance.random() < 0.5 else (f"NA({v})", None)
        return chance.choice([
            (f"{abs(k)}-{v}", [abs(k) - x for x in values]), (f"2*{v}+1", [2 * x + 1 for x in values]), (f"{v}+{v}", [2 * x for x in values]),
            (f"({v}+1)-1", values), (f"{v}/2", [x // 2 for x in values]), (f"MOD({v},3)", [0, 2]), (f"-{v}", [-x for x in values]),
            other, (f"{v}*1+0", values), (f"0+{v}*1", values), (f"ABS({v})", [abs(x) for x in values]),
        ])

    def near(self, dim, loops):
        """A subscript, of which a few are tried for one that lies within the bounds or misses them by one."""
        slack = self.chance.choice([0] * 9 + [1])
        for _ in range(self.chance.choice([1, 8, 8])):
            text, numbers = self.subscript(dim, loops)
            if dim is None or numbers and dim[0] - slack <= min(numbers) and max(numbers) <= dim[1] + slack:
                break
        return text, numbers

    def element(self, loops):
        array = self.chance.choice(self.arrays)
        texts = []
        for at, dim in enumerate(array.dims):
            text, numbers = self.near(dim, loops)
            if dim is None and numbers:
                array.dims[at] = self.bounds(min(numbers), max(numbers))
            texts.append(text)
        return f"{array.name}({','.join(texts)})"

    def bounds(self, low, high):
        """Bounds for numbers from low to high, which may miss one at either end; not too far apart."""
        low, high = max(low, -FAR + 4), min(high, FAR - 4)
        if high - low > 60:
            low, high = (low, low + 4) if self.chance.random() < 0.5 else (high - 4, high)
        low += self.chance.choice([0] * 8 + [1, -1, -1])
        high += self.chance.choice([0] * 8 + [-1, 1, 1, 2])
        return low, max(low, high)

    # ---- statements

    def value(self, loops):
        form = self.chance.random()
        if form < 0.55:
            return self.element(loops)
        if form < 0.7:
            return self.chance.choice(VARIABLES + ["M", "N"])
        if form < 0.85:
            return f"{self.element(loops)}+{self.chance.choice(VARIABLES + ['1', '7'])}"
        return str(self.chance.randint(-9, 9))

    def simple(self, loops):
        form = self.chance.random()
        if form < 0.62:
            return f"{self.element(loops)}={self.value(loops)}"
        if form < 0.72:
            return f"{self.chance.choice(['M', 'N'])}={self.value(loops)}"
        if form < 0.82:
            return "PRINT *," + ",".join(self.value(loops) for _ in range(self.chance.randint(1, 2)))
        if form < 0.86:
            return f"READ *,{self.chance.choice(['M', self.element(loops)])}"
        if form < 0.9:
            return f"{self.chance.choice(VARIABLES + ['IE'])}={self.value(loops)}"
        return "CONTINUE"

    def block(self, size, depth, loops, out):
        chance = self.chance
        for _ in range(size):
            form = chance.random()
            if form < 0.6:
                self.put(self.simple(loops))
            elif form < 0.72:
                self.put(f"IF({self.value(loops)}.{chance.choice(['LT', 'GT', 'EQ'])}.{self.value(loops)})" + self.act(loops, out))
            elif depth < 3:
                self.loop(depth, loops)
            else:
                self.put(self.simple(loops))

    def act(self, loops, out):
        if out and self.chance.random() < 0.5:
            return f"GO TO {self.chance.choice(out)}"
        return self.simple(loops)

    def loop(self, depth, loops):
        """A DO, and perhaps a label after it, to which jumps lead out of its range."""
        chance = self.chance
        used = [loop.variable for loop in loops]
        free = [v for v in VARIABLES if v not in used] or VARIABLES
        variable = chance.choice(free if chance.random() < 0.9 else VARIABLES + ["IE"])
        text, values = self.parameters()
        end, after = self.new_label(), self.new_label()
        self.put(f"DO {end} {variable}={text}")
        self.block(chance.randint(1, 3), depth + 1, loops + [Loop(variable, values)], [after] if chance.random() < 0.4 else [])
        self.put("CONTINUE" if chance.random() < 0.6 else self.simple(loops + [Loop(variable, values)]), end)
        self.put(chance.choice(["CONTINUE", self.simple(loops + [Loop(variable, values)])]), after)

    def parameters(self):
        """The parameters of a DO, and the first and the last value that they give, or None."""
        chance = self.chance
        first, trips = chance.choice([1, 1, 1, 2, 0, -3, 4]), chance.randint(1, 5)
        step = chance.choice([1, 1, 1, 1, 2, 3, -1, -2])
        last = first + (trips - 1) * step
        values = [first, last]
        form = chance.random()
        if form < 0.08:
            return chance.choice([(f"1,M", None), (f"M,3", None), (f"1,3,N", None), ("1,NA(1)", None)])
        if form < 0.12:
            return chance.choice([(f"{FAR - 3},{FAR - 1}", [FAR - 3, FAR - 1]), (f"{FAR - 4},{FAR - 1},2", [FAR - 4, FAR - 2]), (f"-{FAR - 1},-{FAR - 3}", [1 - FAR, 3 - FAR])])
        if form < 0.18:
            return chance.choice([("3,1", [3, 3]), ("1,0", [1, 1]), ("1,5,-1", [1, 1]), ("1,3,0", [1, 3])])
        far = last + chance.choice([0, 0, *range(abs(step))]) * (1 if step > 0 else -1)
        word = f"{self.number(first)},{self.number(far)}"
        return (word, values) if step == 1 and chance.random() < 0.8 else (f"{word},{self.number(step)}", values)

    def program(self):
        chance = self.chance
        self.put("M=1" if chance.random() < 0.7 else "READ *,M,N")
        self.block(chance.randint(1, 4), 0, [], [])
        self.put(f"PRINT *,{self.value([])},M,N")
        if chance.random() < 0.5:
            self.put("PRINT *," + ",".join(self.value([]) for _ in range(2)))
        self.put("END")
        return "".join(line + "\n" for line in declarations(chance, self.arrays) + self.lines)


def wrapped(z):
    return (z + FAR) % (2 * FAR) - FAR


def declarations(chance, arrays):
    """The types of the names, and at will places that are made one."""
    lines = [f"INTEGER {array.declared()}" for array in arrays]
    for _ in range(chance.choice([0, 0, 1, 1, 2])):
        low = [",".join(str((dim or (1, 3))[0]) for dim in array.dims) for array in arrays]
        places = ["IE", "M", "N"] + VARIABLES + [f"{array.name}({at})" for array, at in zip(arrays, low)]
        lines.append(f"EQUIVALENCE ({','.join(chance.sample(places, 2))})")
    return ["      " + line for line in lines]


def words_of(chance):
    """The words of all runs of a program."""
    last = ["checked"] if chance.random() < 0.4 else []
    data = [f"data={','.join(str(chance.randint(-2, 5)) for _ in range(chance.randint(1, 6)))}"] if chance.random() < 0.7 else []
    runs = [["graph", *last]]
    for order in [[], [graphs.picks(chance)]]:
        runs += [[chance.choice(["fire", "store"]), f"limit={chance.choice([20000, chance.randint(0, 400)])}", *order, *data, *last]]
    return runs + [["trace", "limit=300", graphs.picks(chance), *data, *last]]


def leaves(graph):
    """A graph has a subscript that leaves the line of output: its bounds are no known numbers' and the node has no line."""
    return any(words[0] == b"N" and words[2] == b"OP" and words[5:] == [b"BOUND"] for words in map(bytes.split, graph.splitlines()) if words)


def compare(options, number):
    """The text with that number, the words on which something differs, and the statuses of its runs; or None for a refusal."""
    chance = random.Random(options.seed * 1000003 + number)
    text = Writer(chance).program()
    wrong, statuses, seen = [], collections.Counter(), False
    for words in words_of(chance):
        ours = regions.answer(shlex.split(options.dfc), words, text)
        theirs = regions.answer(shlex.split(options.other), words, text)
        if ours != theirs:
            wrong.append(words)
        if ours[0] == 2 and theirs[0] == 2:
            return text, wrong, None, False
        seen = seen or words[0] == "graph" and leaves(ours[1])
        statuses[ours[0]] += 1
    return text, wrong, statuses, seen


def main():
    parser = argparse.ArgumentParser(description=__doc__, formatter_class=argparse.RawDescriptionHelpFormatter)
    parser.add_argument("dfc")
    parser.add_argument("other")
    parser.add_argument("--count", type=int, default=500)
    parser.add_argument("--seed", type=int, default=0)
    options = parser.parse_args()
    refused = unlike = leaving = 0
    statuses = collections.Counter()
    with concurrent.futures.ThreadPoolExecutor() as pool:
        for text, wrong, counted, seen in pool.map(lambda number: compare(options, number), range(options.count)):
            refused += counted is None
            leaving += seen
            statuses += counted or collections.Counter()
            for words in wrong:
                unlike += 1
                if unlike <= 5:
                    print(f"{' '.join(words)}: they differ on\n{text}")
    print(f"{refused} texts refused; {leaving} graphs with a subscript that leaves the line of output")
    print(f"runs by status: {', '.join(f'{key}: {statuses[key]}' for key in sorted(statuses, key=str))}")
    print(f"{options.count} texts, {sum(statuses.values())} runs, {unlike} differ")
    return bool(unlike)


if __name__ == "__main__":
    sys.exit(main())
