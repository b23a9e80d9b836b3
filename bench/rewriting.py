#!/usr/bin/env python3
"""Compares rewritten programs, and what they print, between two commands.

    python3 bench/rewriting.py DFC OTHER [--count N] [--seed S]

DFC and OTHER are commands in quotes, run as `COMMAND regen [checked] < text` and as `COMMAND run limit=N [data=..] [checked] < text`. A text is a
program written at random as in `texts.py`: arrays under EQUIVALENCE and COMMON, subscripts that are known, out of bounds or read, jumps,
loops and blocks, READ and traps; four in ten are in the checked dialect. It is rewritten, and run over data with one of three limits. The two agree where
they answer the same status and the same bytes. What DFC writes is read by DFC again: it must be a program, and where the first text ends or
traps within a limit, `fire` and `run` of the second one must write the same output and end alike, but for the line of a trap. Prints up
to five texts on which something differs, then how many texts were refused and how many runs had which status, and last
`N texts, M runs, K differ`. The exit status is 1 where any differ.
"""
import argparse
import collections
import concurrent.futures
import random
import shlex
import sys

import regions
import texts


def output(answer):
    """The status of a run that ended or trapped, and what it wrote, but for the line of a trap; None where it did neither."""
    status, text = answer
    if status == 3:
        return status, text.rsplit(b" LINE ", 1)[0].rstrip(b"\n")
    return (status, text) if status == 0 else None


def compare(options, number):
    """The text with that number, the words on which something differs, and the statuses of its runs; or None for a refusal."""
    chance = random.Random(options.seed * 1000003 + number)
    text = texts.declarations(chance) + texts.Writer(chance).program()
    last = ["checked"] if chance.random() < 0.4 else []
    data = [f"data={','.join(str(chance.randint(-5, 9)) for _ in range(chance.randint(1, 6)))}"] if chance.random() < 0.6 else []
    dfc, other = shlex.split(options.dfc), shlex.split(options.other)
    runs = [["regen", *last]]
    runs += [["run", f"limit={limit}", *data, *last] for limit in [20000, chance.randint(0, 300), chance.randint(0, 20)]]
    wrong, statuses, answers = [], collections.Counter(), []
    for words in runs:
        ours, theirs = regions.answer(dfc, words, text), regions.answer(other, words, text)
        if ours != theirs:
            wrong.append(words)
        if ours[0] == 2 and theirs[0] == 2 and not ours[1].startswith(b"REFUSED 0"):
            return text, wrong, None
        statuses[ours[0]] += 1
        answers.append(ours)
    if answers[0][0] == 0:
        again = answers[0][1].decode()
        due = output(regions.answer(dfc, ["fire", "limit=200000", *data, *last], text))
        for words in [["fire", "limit=2000000", *data, *last], ["run", "limit=2000000", *data, *last]]:
            got = regions.answer(dfc, words, again)
            statuses[got[0]] += 1
            if due and output(got) != due:
                wrong.append(["of what regen wrote,", *words])
    return text, wrong, statuses


def main():
    parser = argparse.ArgumentParser(description=__doc__, formatter_class=argparse.RawDescriptionHelpFormatter)
    parser.add_argument("dfc")
    parser.add_argument("other")
    parser.add_argument("--count", type=int, default=500)
    parser.add_argument("--seed", type=int, default=0)
    options = parser.parse_args()
    refused = unlike = 0
    statuses = collections.Counter()
    with concurrent.futures.ThreadPoolExecutor() as pool:
        for text, wrong, counted in pool.map(lambda number: compare(options, number), range(options.count)):
            refused += counted is None
            statuses += counted or collections.Counter()
            for words in wrong:
                unlike += 1
                if unlike <= 5:
                    print(f"{' '.join(words)}: they differ on\n{text}")
    print(f"{refused} texts refused; runs by status: {', '.join(f'{key}: {statuses[key]}' for key in sorted(statuses, key=str))}")
    print(f"{options.count} texts, {sum(statuses.values())} runs, {unlike} differ")
    return bool(unlike)


if __name__ == "__main__":
    sys.exit(main())
