#!/usr/bin/env python3
"""Compares what dfc_view tells of dependences with runs in many orders.

    python3 bench/dependences.py DFC DFC_VIEW [--count N] [--seed S] [--lists P]

DFC and DFC_VIEW are built programs. N (1000) texts are written at random as in `texts.py`. Each is fired in its own order, and by P (20) lists of picks under the rule of `forks`, in which
loads of a line wait for no loads. No run may fire two operations against a dependence that `dfc_view deps` tells of their statements:

- of two operations that need the line by which it is told, and of which one changes it, the firings come one after another as in the program's own order;
- before each firing of an operation of a statement that a decision controls, that decision has fired at least as often as in the program's own order.

Beside these, N / 10 texts of short statements, in a row or in a loop, are written over few variables. Of each two of their statements of which `dfc_view independent` says INDEPENDENT,
one begins first in one run and the other in another. Prints what is wrong, and last
`N texts, M runs, D dependences, K against them; T texts, P pairs, I independent, L in one order alone`. The exit status is 1 where K or L isn't 0.
"""
import argparse
import collections
import concurrent.futures
import random
import subprocess
import sys

import texts

LIMIT = 400


def said(command, text):
    """The status and the lines that a program writes on a text."""
    done = subprocess.run(command, input=text, capture_output=True, text=True, check=False)
    return done.returncode, done.stdout.splitlines()


class Graph:
    """What `dfc graph` and `dfc regions` print of a text."""

    def __init__(self, dfc, text):
        _, regions = said([dfc, "regions"], text)
        self.status, graph = said([dfc, "graph"], text)
        self.printed = "\n".join(regions + graph) + "\n"
        at = [int(line.split()[-1]) for line in regions if line.startswith("P ")]
        self.edges = [tuple(map(int, line.split()[2:4])) for line in regions if line.startswith("E ")]
        self.lines, self.needs, self.changes, self.decides, self.statement = {}, {}, set(), set(), {}
        for words in map(str.split, graph):
            if words[0] == "L":
                self.lines[int(words[1])] = " ".join(words[2:])
            if words[0] == "N" and words[2] == "OP":
                name = " ".join(words[2:5])
                self.needs[name] = set(map(int, words[6:]))
                self.statement[name] = at[int(words[3])]
                if words[5] == "DECIDE":
                    self.decides.add(name)
                elif words[5] != "LOAD":
                    self.changes.add(name)

    def of(self, statement):
        return [name for name, at in self.statement.items() if at == statement]

    def evading(self, without):
        """The pieces from which END is reached without this one."""
        found, frontier = set(), [self.edges[0][0]] if self.edges else []
        while frontier:
            piece = frontier.pop()
            if piece not in found and piece != without:
                found.add(piece)
                frontier += [begin for begin, end in self.edges if end == piece]
        return found

    def controls(self, first, second):
        """Whether the piece of one node controls that of another."""
        first, second = (int(name.split()[1]) for name in (first, second))
        evading = self.evading(second)
        return len({end in evading for begin, end in self.edges if begin == first}) == 2

    def pairs(self, dependence):
        """The operations of which the dependence, a list of words, tells."""
        first, second, kind = int(dependence[0]), int(dependence[2]), dependence[3]
        names = [word for word in dependence[4:] if word != "CARRIED"]
        if kind == "CONTROL":
            return {(a, b) for a in self.of(first) if a in self.decides for b in self.of(second) if self.controls(a, b)}
        named = "*OUT" if kind == "ORDER" else " ".join(names)
        line = next(k for k, told in self.lines.items() if told == named)
        ones, twos = ([name for name in self.of(at) if line in self.needs[name]] for at in (first, second))
        return {(a, b) for a in ones for b in twos if a in self.changes or b in self.changes}


def fired(dfc, words, text):
    """The operations that a run fires, in turn."""
    status, lines = said([dfc, *words], text)
    return [" ".join(line.split()[1:]) for line in lines if " OP " in line]


def picks(chance):
    most = chance.choice([1, 7, 1000, 999999999])
    return "picks=" + ",".join(str(chance.randint(0, most)) for _ in range(chance.randint(1, 9)))


def of_two(run, pair):
    return [name for name in run if name in pair]


def counts(run, pair):
    """How often the first had fired at each firing of the second."""
    found, fired_first = [], 0
    for name in run:
        if name == pair[1]:
            found.append(fired_first)
        fired_first += name == pair[0]
    return found


def is_against(kind, own, run, pair):
    """Whether a run fires two operations against a dependence."""
    if kind == "CONTROL":
        return any(came < due for came, due in zip(counts(run, pair), counts(own, pair)))
    due, came = of_two(own, pair), of_two(run, pair)
    return came[: len(due)] != due[: len(came)]


def against(options, number):
    """Of one random text: runs, dependences and those that a run was against, with the text."""
    chance = random.Random(options.seed * 1000003 + number)
    text = texts.declarations(chance) + texts.Writer(chance).program()
    graph = Graph(options.dfc, text)
    if graph.status:
        return None
    status, told = said([options.view, "deps"], graph.printed)
    if status:
        return text, 0, 0, [f"status {status}"]
    told = [line.split() for line in told]
    data = ["data=" + ",".join(str(chance.randint(-5, 9)) for _ in range(6))]
    own = fired(options.dfc, ["trace", f"limit={20 * LIMIT}", *data], text)
    runs = [fired(options.dfc, ["forks", "nodes", f"limit={LIMIT}", picks(chance), *data], text) for _ in range(options.lists)]
    wrong = []
    for dependence in told:
        for pair in graph.pairs(dependence):
            if any(is_against(dependence[3], own, run, pair) for run in runs):
                wrong.append(f"{' '.join(dependence)}: {pair}")
    return text, len(runs), len(told), wrong


def short(chance):
    """A text of short statements, some in a loop, and the lines of its assignments."""
    names = ["I", "J", "K", "L", "M", "N"]
    count, start = chance.randint(3, 7), chance.randint(0, 3)
    lines = [" " * 6 + f"{chance.choice(names)}={chance.choice(names)}+{chance.randint(1, 9)}" for _ in range(count)]
    if chance.random() < 0.5:
        lines.insert(min(start, count), " " * 6 + "DO 10 I1=1,2")
        lines.append("   10 CONTINUE")
    statements = [k + 1 for k, line in enumerate(lines) if "=" in line and "DO" not in line]
    return "\n".join([*lines, " " * 6 + "END"]) + "\n", statements


def first_of(run, graph, statement):
    return next((k for k, name in enumerate(run) if graph.statement[name] == statement), len(run))


def in_one_order(options, number):
    """Of one short text: the pairs that are told independent, and those that no run has in both orders, with the text."""
    chance = random.Random(options.seed * 1000003 + 500000 + number)
    text, statements = short(chance)
    graph = Graph(options.dfc, text)
    pairs = [(a, b) for a in statements for b in statements if a < b and graph.status == 0]
    told = [pair for pair in pairs if said([options.view, "independent", str(pair[0]), str(pair[1])], graph.printed)[1] == ["INDEPENDENT"]]
    seen = collections.defaultdict(set)
    for _ in range(200 * options.lists):
        if all(len(seen[pair]) == 2 for pair in told):
            break
        run = fired(options.dfc, ["forks", "nodes", f"limit={LIMIT}", picks(chance)], text)
        for a, b in told:
            seen[a, b].add(first_of(run, graph, a) < first_of(run, graph, b))
    return text, len(pairs), len(told), [pair for pair in told if len(seen[pair]) < 2]


def main():
    parser = argparse.ArgumentParser(description=__doc__, formatter_class=argparse.RawDescriptionHelpFormatter)
    parser.add_argument("dfc")
    parser.add_argument("view")
    parser.add_argument("--count", type=int, default=1000)
    parser.add_argument("--seed", type=int, default=1)
    parser.add_argument("--lists", type=int, default=20)
    options = parser.parse_args()
    totals, short_totals = [0, 0, 0, 0], [0, 0, 0, 0]
    with concurrent.futures.ThreadPoolExecutor(2) as pool:
        number = 0
        while totals[0] < options.count:
            for found in pool.map(lambda k: against(options, k), range(number, number + 100)):
                if found and totals[0] < options.count:
                    text, runs, told, wrong = found
                    totals = [totals[0] + 1, totals[1] + runs, totals[2] + told, totals[3] + len(wrong)]
                    for line in wrong[:1]:
                        print(f"{text}against {line}\n")
            number += 100
        for text, pairs, told, alone in pool.map(lambda k: in_one_order(options, k), range(options.count // 10)):
            short_totals = [short_totals[0] + 1, short_totals[1] + pairs, short_totals[2] + told, short_totals[3] + len(alone)]
            for a, b in alone:
                print(f"{text}lines {a} and {b} in one order alone\n")
    print("{} texts, {} runs, {} dependences, {} against them; {} texts, {} pairs, {} independent, {} in one order alone".format(*totals, *short_totals))
    return bool(totals[3] or short_totals[3])


if __name__ == "__main__":
    sys.exit(main())
