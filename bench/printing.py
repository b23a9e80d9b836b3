#!/usr/bin/env python3
"""Times how long a built dfc prints graphs, traces and rewritten programs, and runs these.

    python3 bench/printing.py DFC

DFC is a command in quotes. Prints for each job and text the best user time of three, in seconds, and the most memory that it took, in MB. The texts are
`nest` and `web` of `orders.py`, and

- arrays: 3,900 assignments to elements of an array;
- straight: 3,800 assignments to 950 scalars, which is refused in `regen`: with a declaration for each it has more than 4,000 statements;
- plain: 3,800 assignments to 150 scalars;
- candidates: 2,300 PRINT statements that compute 266,800 different sums.
"""
import os
import shlex
import sys
import tempfile

import orders


def arrays():
    return orders.plain(["INTEGER A(3900)"] + [f"A({k})=A({k})+{k}" for k in range(1, 3901)])


def assignments(count):
    names = orders.NAMES[:count]
    return orders.plain(orders.declared(names) + [f"{names[k % count]}={names[(7 * k + 1) % count]}+{k % 1000}" for k in range(3800)])


def straight():
    return assignments(950)


def plain():
    return assignments(150)


def candidates():
    items = [[f"K+{116 * line + k + 1}" for k in range(116)] for line in range(2300)]
    return orders.plain(["READ *,K"] + [f"PRINT *,{','.join(line)}" for line in items])


def card(label, text):
    """The lines of a statement, 66 characters on each."""
    parts = [text[at : at + 66] for at in range(0, len(text), 66)]
    return "".join(f"{label or '':>5} {part}\n" if k == 0 else f"     &{part}\n" for k, part in enumerate(parts))


def cost(command, text):
    """The user time of a run and the most memory that it took."""
    with tempfile.TemporaryFile() as source:
        source.write(text.encode())
        source.seek(0)
        child = os.fork()
        if child == 0:
            os.dup2(source.fileno(), 0)
            os.dup2(os.open(os.devnull, os.O_WRONLY), 1)
            os.execvp(command[0], command)
        _, _, used = os.wait4(child, 0)
    return used.ru_utime, used.ru_maxrss / 1024


def main():
    if {"-h", "--help"} & {*sys.argv[1:]}:
        print(__doc__)
        return 0
    if len(sys.argv) != 2:
        sys.exit(__doc__)
    dfc = shlex.split(sys.argv[1])
    jobs = [
        ("graph", orders.web), ("graph", arrays), ("graph", straight), ("trace limit=1000000", orders.nest),
        ("regen", straight), ("regen", plain), ("regen", candidates), ("run limit=30000000", orders.nest),
    ]
    for words, made in jobs:
        text = "".join(card(label, it) for label, it in made() + [(0, "END")])
        found = [cost(dfc + words.split(), text) for _ in range(3)]
        print(f"{words} {made.__name__}: {min(it[0] for it in found):.3f} s, {max(it[1] for it in found):.0f} MB")


if __name__ == "__main__":
    main()
