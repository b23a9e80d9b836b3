#!/usr/bin/env python3
"""Times how long a built dfc fires programs of several kinds, in the source's own order and by picks.

    python3 bench/orders.py DFC

DFC is a command in quotes. Each text is given to `DFC fire limit=N [picks=7,3,5]` three times, with N a million and 20 million; the
making of the net takes the same time in both, so the difference of the best times is that of 19 million firings. Prints for each text the
best time with a million firings, all included, and how many million firings a second the difference comes to. A text is

- nest: three DO loops in one another over an array;
- wide: 150 DO loops side by side;
- web: 4,000 statements, half of them jumps anywhere, over 1,000 scalars;
- straight: a loop of GO TO around 1,000 assignments to as many scalars.
"""
import random
import shlex
import subprocess
import sys
import time

MILLION = 1000000
NAMES = [f"K{number}" for number in range(1000)]


def declared(names):
    return [f"INTEGER {','.join(names[at : at + 8])}" for at in range(0, len(names), 8)]


def text_of(statements):
    """The lines of statements (label, text), and END."""
    return "".join(f"{label or '':>5} {text}\n" for label, text in statements + [(0, "END")])


def plain(texts):
    return [(0, text) for text in texts]


def nest():
    return plain(["INTEGER A(64,64),S", "DO 30 K=1,100000", "DO 20 I=1,64", "DO 10 J=1,64", "A(I,J)=A(I,J)+I*J-K", "IF(A(I,J).GT.100000)A(I,J)=0"]) + [
        (10, "S=S+A(I,J)"), (20, "CONTINUE"), (30, "CONTINUE"), (0, "PRINT *,S")]


def wide():
    lines = plain(f"INTEGER A{k}(20),S{k},I{k}" for k in range(150))
    for k in range(150):
        lines += [(0, f"DO {k + 1} I{k}=1,1000000"), (k + 1, f"S{k}=S{k}+A{k}(MOD(I{k},20)+1)")]
    return lines


def web():
    chance, lines = random.Random(1), plain(declared(NAMES))
    first, last = 10000, 10000 + (4000 - len(lines)) // 2 - 1
    for label in range(first, last):
        a, b, c = (chance.choice(NAMES) for _ in range(3))
        lines += [(label, f"{a}={b}+{c}+1"), (0, f"IF({a}.LT.{b})GO TO {chance.randint(first, last - 1)}")]
    return lines + [(0, f"GO TO {first}")]


def straight():
    lines = plain(declared(NAMES)) + [(1, "CONTINUE")]
    lines += plain(f"{name}={NAMES[(k * 7 + 1) % 1000]}+1" for k, name in enumerate(NAMES))
    return lines + [(0, "GO TO 1")]


def best(dfc, words, text):
    """The best of three times."""
    times = []
    for _ in range(3):
        begin = time.perf_counter()
        done = subprocess.run(dfc + words, input=text, stdout=subprocess.PIPE)
        times.append(time.perf_counter() - begin)
        if done.returncode != 4:
            sys.exit(f"{' '.join(words)}: status {done.returncode}, {done.stdout[:100]!r}")
    return min(times)


def main():
    if {"-h", "--help"} & {*sys.argv[1:]}:
        print(__doc__)
        return 0
    if len(sys.argv) != 2:
        sys.exit(__doc__)
    dfc = shlex.split(sys.argv[1])
    for title, statements in [("nest", nest()), ("wide", wide()), ("web", web()), ("straight", straight())]:
        text = text_of(statements).encode()
        for order, picks in [("own order", []), ("by picks", ["picks=7,3,5"])]:
            few, many = (best(dfc, ["fire", f"limit={count * MILLION}", *picks], text) for count in (1, 20))
            print(f"{title:9} {order:10} {few:7.3f} s for a million firings in all, {19 / (many - few):6.1f} million firings a second", flush=True)


if __name__ == "__main__":
    main()
