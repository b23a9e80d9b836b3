#!/usr/bin/env python3
"""Compares graphs, and what their firing tells, between two commands.

    python3 bench/graphs.py DFC OTHER [--count N] [--seed S] [--limit L] [--forks]

DFC and OTHER are commands in quotes, run as `COMMAND graph [checked] < text` and as `COMMAND fire|trace|store limit=N [picks=..] [data=..]
[checked] < text`. A text is a program written at random as in `texts.py`: arrays under EQUIVALENCE and COMMON, subscripts that are
known, out of bounds or read, jumps, loops and blocks, READ and traps; three in ten are in the checked dialect. Each graph is printed,
and fired in the source's own order and by three lists of picks, with the limit L (300) or one below 60 for `trace`, and one of up to 20,000 for
`fire` and `store`; with --forks there are runs of `forks` and `forks nodes` in place of all these. The two agree where they answer the same status and the same bytes, at a limit too. Prints up to five texts on which they
differ; then how many texts were refused and how many runs had which status, and last `N texts, M runs, K differ`. The exit
status is 1 where any differ.
"""
import argparse
import collections
import concurrent.futures
import random
import shlex
import sys

import regions
import texts


def picks(chance):
    """A list of picks, as a word."""
    most = chance.choice([1, 7, 1000, 999999999])
    return "picks=" + ",".join(str(chance.randint(0, most)) for _ in range(chance.randint(1, 9)))


def words_of(chance, limit, forks):
    """The words of all runs of a program."""
    last = ["checked"] if chance.random() < 0.3 else []
    data = [f"data={','.join(str(chance.randint(-5, 9)) for _ in range(chance.randint(1, 6)))}"] if chance.random() < 0.6 else []
    runs = [] if forks else [["graph", *last]]
    for order in [[], [picks(chance)], [picks(chance)], [picks(chance)]]:
        runs += [[*(["forks", "nodes"] if forks else ["trace"]), f"limit={chance.choice([limit, chance.randint(0, 60)])}", *order, *data, *last]]
        most = chance.choice([20000, chance.randint(0, 400)])
        runs += [[job, f"limit={most}", *order, *data, *last] for job in (["forks"] if forks else ["fire", "store"])]
    return runs


def compare(options, number):
    """The text with that number, the words on which something differs, and the statuses of its runs; or None for a refusal."""
    chance = random.Random(options.seed * 1000003 + number)
    text = texts.declarations(chance) + texts.Writer(chance).program()
    wrong, statuses = [], collections.Counter()
    for words in words_of(chance, options.limit, options.forks):
        ours = regions.answer(shlex.split(options.dfc), words, text)
        theirs = regions.answer(shlex.split(options.other), words, text)
        if ours != theirs:
            wrong.append(words)
        if ours[0] == 2 and theirs[0] == 2:
            return text, wrong, None
        statuses[ours[0]] += 1
    return text, wrong, statuses


def main():
    parser = argparse.ArgumentParser(description=__doc__, formatter_class=argparse.RawDescriptionHelpFormatter)
    parser.add_argument("dfc")
    parser.add_argument("other")
    parser.add_argument("--count", type=int, default=500)
    parser.add_argument("--seed", type=int, default=0)
    parser.add_argument("--limit", type=int, default=300)
    parser.add_argument("--forks", action="store_true")
    options = parser.parse_args()
    refused = unlike = 0
    statuses = collections.Counter()
    with concurrent.futures.ThreadPoolExecutor() as pool:
        for text, wrong, counted in pool.map(lambda number: compare(options, number), range(options.count)):
            refused += counted is None
            statuses += counted or collections.Counter()
            for words in wrong:
                unlike += 1
                if unlike <= 5:
                    print(f"{' '.join(words)}: they differ on\n{text}")
    print(f"{refused} texts refused; runs by status: {', '.join(f'{key}: {statuses[key]}' for key in sorted(statuses, key=str))}")
    print(f"{options.count} texts, {sum(statuses.values())} runs, {unlike} differ")
    return bool(unlike)


if __name__ == "__main__":
    sys.exit(main())
