#!/usr/bin/env python3
"""Compares what programs print with GNU Fortran.

    python3 bench/gfortran.py DFC [--count N] [--seed S] [--fortran COMMAND]

DFC is a built dfc, or a command in quotes; COMMAND is the compiler (gfortran). A text is a program written at random that neither
overflows nor traps, and ends: each value is taken modulo 97 before it is stored, a divisor is 1 to 7, an exponent 0 to 3, a
subscript is brought into its bounds, and a loop goes round by its count or by a counter of its own. It has arrays under EQUIVALENCE and
COMMON, DATA, READ, logical names, DO loops of one or two dimensions with steps of either sign, shared terminals and jumps out, blocks of
IF, all kinds of GO TO and IF, and loops of GO TOs. Each name has a value before it is used, as the standard asks.

Half of the texts have one to four subroutines too: CALLs alone, after a condition and at the end of a DO, of subroutines that call others; dummies that are numbers, truths and arrays, two of
which may be one name, or one in COMMON; the block under other names; names of their own with DATA and without, which keep their values; and RETURN out of loops. The standard forbids to
change what has two names so, and leaves undefined what a name keeps; GNU Fortran does what is wanted here with -O0, -fno-automatic and -finit-local-zero.

Each text is compiled by COMMAND and run, and fired by DFC in the source's own order, by two lists of picks, and in the checked dialect; and what `DFC regen` writes of it is compiled and run too, unless
it is refused for its length. All agree where they print the same items on each line: GNU Fortran puts other blanks between them. Prints up to five texts
that differ; then how many lines were compared, how many texts have subroutines and how many were rewritten, and last `N texts, M differ`. The exit status is 1 where any differ.
"""
import argparse
import collections
import concurrent.futures
import os
import random
import shlex
import subprocess
import sys
import tempfile

SCALARS = ["I", "J", "K", "L", "M", "N"]
# The least and the greatest subscript of each dimension.
ARRAYS = {"IA": ((1, 5),), "IB": ((1, 3), (1, 2)), "IC": ((0, 3),), "ID": ((1, 6),)}
TRUTHS = ["P", "Q"]
DECLARATIONS = """      INTEGER IA(5),IB(3,2),IC(0:3),ID(6)
      LOGICAL P,Q
      COMMON /B/ I,ID
      EQUIVALENCE (IA(4),IC(0)),(J,IB(2,1))
      DATA K,L,M,N,P,Q/3,-4,5,6,.TRUE.,.FALSE./,IB/6*2/
""".splitlines()


class Writer:
    """Writes one unit: the main program, or a subroutine over names of its own."""

    def __init__(self, chance, callees=()):
        self.chance, self.lines, self.label, self.counters, self.reads, self.busy = chance, [], 0, 0, 0, []
        self.scalars, self.arrays, self.truths = SCALARS, ARRAYS, TRUTHS
        # J is a word of IB as well, and a subroutine may change I: the standard lets nothing change a DO variable in its range.
        self.counting = [it for it in SCALARS if it != "J" and not (callees and it == "I")]
        self.callees, self.calls, self.returns = callees, 0, False

    def new_label(self):
        self.label += 10
        return self.label

    def put(self, text, label=None):
        head = str(label or "").rjust(5)
        for at in range(0, len(text), 66):
            self.lines.append((head + " " if at == 0 else "     &") + text[at : at + 66])

    def subscript(self, low, high, depth):
        if self.chance.random() < 0.3:
            return str(self.chance.randint(low, high))
        inner = f"MOD(ABS({self.number(depth - 1)}),{high - low + 1})"
        return f"{inner}+{low}" if low else inner

    def element(self, depth):
        name = self.chance.choice(list(self.arrays))
        return f"{name}({','.join(self.subscript(low, high, depth) for low, high in self.arrays[name])})"

    def variable(self, depth):
        return self.element(depth) if depth > 0 and self.chance.random() < 0.35 else self.chance.choice(self.scalars)

    def number(self, depth):
        """An expression of less than 10 ** 6 in magnitude where names have values of less than 100: 97 bounds each inner one."""
        if depth <= 0 or self.chance.random() < 0.3:
            return str(self.chance.randint(0, 60)) if self.chance.random() < 0.3 else self.variable(depth)
        small = lambda: f"MOD({self.number(depth - 1)},97)" if depth > 1 else self.variable(0)
        kind = self.chance.randint(0, 9)
        if kind <= 2:
            return f"({small()}{self.chance.choice('+-*')}{small()})"
        if kind == 3:
            return f"({small()}/(MOD(ABS({small()}),7)+1))"
        if kind == 4:
            return f"({small()}**{self.chance.randint(0, 3)})"
        if kind == 5:
            return f"((-1)**{small()})"
        if kind == 6:
            return f"{self.chance.choice(['ABS', 'IABS'])}({small()})"
        if kind == 7:
            return f"{self.chance.choice(['MOD', 'SIGN', 'ISIGN'])}({small()},{self.chance.randint(1, 9)})"
        if kind == 8:
            return f"{self.chance.choice(['MAX', 'MIN', 'MAX0', 'MIN0'])}({small()},{small()},{small()})"
        return f"(-{small()})"

    def truth(self, depth):
        kind = self.chance.randint(0, 5)
        if depth <= 0 or kind == 0:
            return self.chance.choice(self.truths + [".TRUE.", ".FALSE."])
        if kind <= 3:
            return f"{self.number(depth - 1)}.{self.chance.choice(['LT', 'LE', 'EQ', 'NE', 'GE', 'GT'])}.{self.number(depth - 1)}"
        if kind == 4:
            return f".NOT.({self.truth(depth - 1)})"
        return f"({self.truth(depth - 1)}).{self.chance.choice(['AND', 'OR', 'EQV', 'NEQV'])}.({self.truth(depth - 1)})"

    def target(self):
        free = [name for name in self.scalars if name not in self.busy]
        return self.element(1) if self.chance.random() < 0.4 or not free else self.chance.choice(free)

    def simple(self):
        """A statement that may follow a condition."""
        if self.callees and self.chance.random() < 0.2 and (called := self.call()):
            return called
        if self.returns and self.chance.random() < (0.3 if self.busy else 0.03):
            return "RETURN"
        kind = self.chance.randint(0, 9)
        if kind <= 5:
            return f"{self.target()}=MOD({self.number(3)},97)"
        if kind == 6:
            return f"{self.chance.choice(self.truths)}={self.truth(2)}"
        items = ["'T%d'" % self.chance.randint(0, 99)] * self.chance.randint(0, 1)
        items += [self.number(1) if self.chance.random() < 0.8 else self.truth(1) for _ in range(self.chance.randint(0, 3))]
        return "PRINT *" + "".join("," + item for item in items)

    def loop(self, depth, ends):
        """A DO, or two that end together, at CONTINUE or at a CALL."""
        busy, ranges = list(self.busy), self.chance.randint(1, 2) if depth < 2 else 1
        label = self.new_label()
        for _ in range(ranges):
            free = [name for name in self.counting if name not in self.busy]
            if not free:
                break
            name = self.chance.choice(free)
            step = self.chance.choice(["", ",1", ",2", ",-1", ",-3"])
            first, last = f"MOD({self.number(1)},6)", f"MOD({self.number(1)},8)"
            self.put(f"DO {label} {name}={first},{last}{step}")
            self.busy.append(name)
        self.block(depth + 1, ends, self.chance.randint(0, 3))
        self.put(self.call() or "CONTINUE" if self.chance.random() < 0.3 else "CONTINUE", label)
        self.busy = busy

    def call(self):
        """A CALL, whose arguments are no variables of open DOs; or nothing where there is none."""
        if not self.callees or self.calls == 5:
            return None
        name, dummies = self.chance.choice(self.callees)
        found = []
        for it in dummies:
            fit = {"number": [one for one in self.scalars if one not in self.busy], "truth": self.truths}.get(it)
            found.append(self.chance.choice(fit if fit is not None else [one for one, dims in self.arrays.items() if dims == it] or [None]))
        if None in found:
            return None
        self.calls += 1
        return f"CALL {name}" + (f"({','.join(found)})" if found else "")

    def counted(self, depth, ends):
        """A loop of GO TOs, with a counter of its own."""
        self.counters += 1
        counter, label = f"IZ{self.counters}", self.new_label()
        self.put(f"{counter}=0")
        self.put(f"{counter}={counter}+1", label)
        self.block(depth + 1, ends, self.chance.randint(1, 3))
        self.put(f"IF({counter}.LT.{self.chance.randint(1, 6)})GO TO {label}")

    def branches(self, depth, ends):
        self.put(f"IF({self.truth(2)})THEN")
        self.block(depth + 1, ends, self.chance.randint(0, 2))
        for _ in range(self.chance.randint(0, 2)):
            self.put(f"ELSE IF({self.truth(2)})THEN")
            self.block(depth + 1, ends, self.chance.randint(0, 2))
        if self.chance.random() < 0.6:
            self.put("ELSE")
            self.block(depth + 1, ends, self.chance.randint(0, 2))
        self.put("END IF")

    def jump(self, ends):
        """A jump forward: to labels that come later, outside of all that is open here."""
        to = lambda: self.chance.choice(ends)
        kind = self.chance.randint(0, 4)
        if kind <= 1:
            self.put(f"IF({self.truth(2)})GO TO {to()}")
        elif kind == 2:
            self.put(f"GO TO ({to()},{to()},{to()}),MOD({self.number(1)},5)")
        elif kind == 3:
            here = self.new_label()
            self.put(f"IF(MOD({self.number(1)},97)){to()},{here},{to()}")
            self.put("CONTINUE", here)
        else:
            self.put(f"IF({self.truth(1)})IF(MOD({self.number(1)},97)){to()},{to()},{to()}")

    def read(self):
        free = [name for name in self.scalars if name not in self.busy]
        count = self.chance.randint(1, 2)
        if free:
            self.put("READ *," + ",".join(self.chance.choice(free) for _ in range(count)))
            self.reads += count

    def block(self, depth, ends, count):
        for _ in range(count):
            kind = self.chance.randint(0, 13)
            if kind <= 5:
                self.put(self.simple())
            elif kind == 6:
                self.put(f"IF({self.truth(2)}){self.simple()}")
            elif kind <= 8 and depth < 3:
                self.loop(depth, ends)
            elif kind == 9 and depth < 3:
                self.counted(depth, ends)
            elif kind == 10 and depth < 3:
                self.branches(depth, ends)
            elif kind <= 12 and ends:
                self.jump(ends)
            elif depth == 0:
                self.read()

    def program(self):
        for line in DECLARATIONS:
            self.lines.append(line)
        for number, name in enumerate(["I", "J", *(f"IA({k})" for k in range(1, 6)), "IC(2)", "IC(3)", *(f"ID({k})" for k in range(1, 7))]):
            self.put(f"{name}={number}")
        parts = self.chance.randint(2, 5)
        marks = [self.new_label() for _ in range(parts)]
        for at, mark in enumerate(marks):
            self.block(0, marks[at:], self.chance.randint(1, 4))
            self.put("CONTINUE", mark)
        for items in ("I,J,K,L,M,N", "P,Q", "IA(1),IA(2),IA(3),IA(4),IA(5)", "IB(1,1),IB(2,1),IB(3,1),IB(1,2),IB(2,2),IB(3,2)", "IC(1),IC(2),IC(3)"):
            self.put(f"PRINT *,{items}")
        self.put("END")
        data = [self.chance.randint(-96, 96) for _ in range(self.reads)]
        return "\n".join(self.lines) + "\n", data

    def subroutine(self, name, dummies):
        """Its names are M and N, Q, and an array, as far as they are dummies; names of its own; and the main program's block under two other names."""
        numbers, arrays = ["M", "N"], {"IA": ((1, 5),), "IE": ((1, 6),)}
        named = {"number": iter(numbers), "truth": iter("Q")}
        names = [next(named[it]) if it in named else next(one for one, dims in arrays.items() if dims == it) for it in dummies]
        self.scalars, self.truths, self.counting = ["JJ", "J", *numbers, "K", "L"], ["P", "Q"], ["K", "L"]
        self.arrays, self.returns = {**arrays, "IB": ((1, 3), (1, 2)), "IC": ((0, 3),), "IF": ((1, 6),)}, True
        self.put(f"SUBROUTINE {name}" + (f"({','.join(names)})" if names else ""))
        self.put("INTEGER IA(5),IB(3,2),IC(0:3),IE(6),IF(6)")
        self.put("LOGICAL P,Q")
        self.put("COMMON /B/ JJ,IF")
        self.put("EQUIVALENCE (J,IB(2,1))")
        self.put("DATA K,L,P/3,-4,.TRUE./,IC/4*2/")
        mark = self.new_label()
        self.block(1, [mark], self.chance.randint(2, 5))
        self.put("CONTINUE", mark)
        self.put(self.simple())
        self.put("END")
        return "\n".join(self.lines) + "\n"


def signatures(chance):
    """Subroutines, each with what its dummies are."""
    for k in range(chance.randint(1, 4)):
        dummies = ["number"] * chance.randint(0, 2) + ["truth"] * chance.randint(0, 1) + chance.choice([[], [((1, 5),)], [((1, 6),)]])
        chance.shuffle(dummies)
        yield f"S{k}", dummies


def written(chance):
    """A text, its data, and whether it has subroutines."""
    callees = list(signatures(chance)) if chance.random() < 0.5 else []
    text, data = Writer(chance, callees).program()
    units = [Writer(chance, callees[k + 1 :]).subroutine(*it) for k, it in enumerate(callees)]
    chance.shuffle(units)
    return text + "".join(units), data, bool(callees)


def items(out):
    """The items of each line."""
    return [line.split() for line in out.decode().split("\n")]


def by_fortran(compiler, text, data):
    """What the program prints where GNU Fortran compiles it, or how that failed."""
    with tempfile.TemporaryDirectory() as folder:
        source, program = os.path.join(folder, "text.f"), os.path.join(folder, "program")
        with open(source, "w") as file:
            file.write(text)
        options = "-std=legacy -ffixed-form -w -O0 -fno-automatic -finit-local-zero".split()
        built = subprocess.run([*compiler, *options, "-o", program, source], capture_output=True)
        if built.returncode:
            return "not compiled", built.stderr
        given = "".join(f"{word}\n" for word in data).encode()
        done = subprocess.run([program], input=given, capture_output=True, timeout=60)
        return done.returncode, done.stdout


def orders(chance, data):
    """The arguments of four runs of DFC."""
    given = [f"data={','.join(map(str, data))}"] if data else []
    picks = ["picks=" + ",".join(str(chance.randint(0, 99)) for _ in range(chance.randint(1, 7))) for _ in range(2)]
    return [["fire", "limit=100000000", *some, *given, *last] for some, last in (([], []), ([picks[0]], []), ([picks[1]], []), ([], ["checked"]))]


Compared = collections.namedtuple("Compared", "text lines units rewritten why")


def compared(dfc, compiler, seed):
    """A text, the lines that it prints, whether it has subroutines and was rewritten, and how the runs differ, or nothing."""
    chance = random.Random(seed)
    text, data, units = written(chance)
    status, out = by_fortran(compiler, text, data)
    if status:
        return Compared(text, 0, units, False, f"GNU Fortran: {status}: {out.decode()[:600]}")
    due = items(out)
    for words in orders(chance, data):
        done = subprocess.run(dfc + words, input=text.encode(), capture_output=True, timeout=300)
        if done.returncode or items(done.stdout) != due:
            return Compared(text, len(due), units, False, f"{' '.join(words)}: status {done.returncode}\n{done.stdout.decode()}GNU Fortran:\n{out.decode()}")
    again = subprocess.run([*dfc, "regen"], input=text.encode(), capture_output=True, timeout=300)
    if again.stdout in (b"REFUSED 0 MANYSTMTS\n", b"REFUSED 0 LONGTEXT\n"):
        return Compared(text, len(due), units, False, None)
    status, shown = by_fortran(compiler, again.stdout.decode(), data)
    why = None if status == 0 and items(shown) == due else f"{again.stdout.decode()}of regen: {status}\n{shown.decode()}GNU Fortran:\n{out.decode()}"
    return Compared(text, len(due), units, True, why)


def main():
    reader = argparse.ArgumentParser(description=__doc__, formatter_class=argparse.RawDescriptionHelpFormatter)
    reader.add_argument("dfc")
    reader.add_argument("--count", type=int, default=2000)
    reader.add_argument("--seed", type=int, default=1)
    reader.add_argument("--fortran", default="gfortran")
    given = reader.parse_args()
    dfc, compiler = shlex.split(given.dfc), shlex.split(given.fortran)
    with concurrent.futures.ThreadPoolExecutor(os.cpu_count()) as pool:
        found = list(pool.map(lambda seed: compared(dfc, compiler, seed), range(given.seed, given.seed + given.count)))
    wrong = [it for it in found if it.why]
    for it in wrong[:5]:
        print(f"{it.text}{it.why}\n")
    print(f"{sum(it.lines for it in found)} lines of GNU Fortran compared; {sum(it.units for it in found)} texts have subroutines, {sum(it.rewritten for it in found)} were rewritten")
    print(f"{len(found)} texts, {len(wrong)} differ")
    return 1 if wrong else 0


if __name__ == "__main__":
    sys.exit(main())
