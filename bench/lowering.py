#!/usr/bin/env python3
"""Compares what everyday programs print with what their lowered texts do.

    python3 bench/lowering.py LOWER DFC [--count N] [--seed S] [--fortran COMMAND]
    python3 bench/lowering.py LOWER DFC --mutations N [--seed S]

LOWER is a built `lower`, DFC a built `dfc`, each the program or a command in quotes; COMMAND is the compiler (gfortran). A text is a program
written at random in the forms of docs/LOWERING.md: PARAMETER, long names, tabs and comments, DO with END DO, loops that share their end, DO
WHILE, jumps and arithmetic IF, functions and statement functions in all kinds of statements, constants, expressions and elements as
arguments, arrays with the bounds N, * and 1 and of two dimensions, implied DO and whole arrays in DATA, READ and PRINT, SAVE, EXTERNAL,
BLOCK DATA, and units in any order. It ends, and neither overflows nor leaves an array: each value is taken modulo 97, and a subscript is
brought into its bounds. Its functions change nothing but a counter in COMMON that is printed at the end.

Each text is compiled by COMMAND and run; and lowered by LOWER and fired by DFC. The two agree where they print the same items in the same
order. Prints up to five texts that differ, and last `N texts, M differ`. The exit status is 1 where any differ.

With --mutations, N texts are made from the programs of examples/everyday and the texts above by a few slips each: a character, a word or a
line that is lost, doubled, exchanged or taken from elsewhere. LOWER has to end with status 0 and a text that DFC reads, or with status 2
and a line of the text, a column and a reason. Nothing is compiled. How many were lowered is printed too.
"""
import argparse
import glob
import os
import random
import re
import shlex
import subprocess
import sys
import tempfile

NUMBERS = [3, 14, 15, 92, 65, 35, 89, 79, 32, 38]
SCALARS = ["i", "j", "total", "counter", "last_value"]
ARRAYS = {"values": "n", "table_a": "n", "table_b": "m"}
SIZES = {**ARRAYS, "flags": "n"}
# Statements that read; the input has the numbers above.
READS = [
    "",
    "      read *, j, (values(k), k = 1, j)\n",
    "      read *, (values(k), k = 1, 3), k\n",
    "      read *, (values(k), k = 3, 1, -1)\n",
    "      read (*,*) j, ((grid(i, k), k = 1, j), i = 1, 2), total\n",
    "      read *, j\n      if (j .gt. 2) read (5,*) ((grid(i, k), i = 1, 2), k = 1, j)\n",
]


class Writer:
    """Writes one program."""

    def __init__(self, chance):
        self.chance, self.lines, self.depth, self.label, self.loops = chance, [], 0, 0, 0

    def put(self, text, label=""):
        text = "  " * min(self.depth, 4) + text
        head = "\t" if label == "" and self.chance.random() < 0.05 else str(label).rjust(5) + " "
        for at in range(0, len(text), 66):
            self.lines.append((head if at == 0 else "     &") + text[at : at + 66])
        if len(text) < 50 and self.chance.random() < 0.05:
            self.lines[-1] += self.chance.choice([" ! it's so", "!", "\t! end do"])

    def subscript(self, name, depth):
        size = SIZES[name]
        return self.chance.choice(["1", size, f"mod(abs({self.number(depth - 1)}), {size}) + 1"])

    def number(self, depth):
        kinds = ["constant", "name", "scalar", "scalar"] + ["element", "cell", "sum", "sum", "call", "formula"] * (depth > 0)
        kind = self.chance.choice(kinds)
        if kind == "constant":
            return str(self.chance.randint(0, 20))
        if kind == "name":
            return self.chance.choice(["n", "m", "low"])
        if kind == "scalar":
            return self.chance.choice(SCALARS)
        if kind == "element":
            name = self.chance.choice(list(ARRAYS))
            return f"{name}({self.subscript(name, depth)})"
        if kind == "cell":
            return f"grid({self.subscript('values', depth - 1)}, {self.subscript('table_b', depth - 1)})"
        if kind == "call":
            name = self.chance.choice(list(ARRAYS))
            return self.chance.choice(
                [
                    f"square({self.number(depth - 1)})",
                    f"larger({self.number(depth - 1)}, {self.number(depth - 1)})",
                    f"sum_of({name}, {ARRAYS[name]})",
                ]
            )
        if kind == "formula":
            return self.chance.choice([f"twice({self.number(depth - 1)})", f"between({self.number(depth - 1)}, {self.number(0)})"])
        return f"({self.number(depth - 1)} {self.chance.choice('+-*')} {self.number(depth - 1)})"

    def condition(self, depth):
        if depth and self.chance.random() < 0.3:
            return self.chance.choice(["", ".not. "]) + f"is_even({self.number(depth - 1)})"
        if self.chance.random() < 0.2:
            return f"flags({self.subscript('flags', depth)})"
        first = f"{self.number(depth)} {self.chance.choice(['.lt.', '.GE.', '.eq.', '.ne.'])} {self.number(depth)}"
        if depth and self.chance.random() < 0.2:
            return f"{first} {self.chance.choice(['.and.', '.or.'])} {self.condition(depth - 1)}"
        return first

    def simple(self):
        choice = self.chance.random()
        if choice < 0.35:
            return f"{self.chance.choice(SCALARS[1:])} = mod({self.number(2)}, 97)"
        if choice < 0.6:
            name = self.chance.choice(list(ARRAYS))
            return f"{name}({self.subscript(name, 2)}) = mod({self.number(2)}, 97)"
        if choice < 0.75:
            name = self.chance.choice(list(ARRAYS))
            return f"call fill({name}, {ARRAYS[name]}, mod({self.number(1)}, 97))"
        if choice < 0.8:
            name = self.chance.choice(list(ARRAYS))
            at = f"{self.subscript('values', 1)}, {self.subscript('table_b', 1)}"
            return self.chance.choice(
                [f"call fill_grid(grid, n, m, mod({self.number(1)}, 97))", f"call flip(flags({self.subscript('flags', 1)}), ({self.condition(1)}))"]
                + [f"grid({at}) = mod({self.number(2)}, 97)", f"call exchange({name}({self.subscript(name, 1)}), grid({at}))"]
            )
        if choice < 0.92:
            first, second = self.chance.sample(list(ARRAYS), 2)
            return f"call exchange({first}({self.subscript(first, 1)}), {second}({self.subscript(second, 1)}))"
        lists = ["values", "(table_b(k), k = m, 1, -2)", self.number(1), "flags", "((grid(j, k), k = 1, m), j = n, 1, -1)"]
        lists += ["(square(k), larger(k, j), k = 1, 3), k", "'it is ! so', .not. flags(1)", "(k, (j*k, j = 1, k), k = 1, 3), j"]
        return f"print *, {self.number(2)}, {self.chance.choice(lists)}"

    def block(self, depth):
        for _ in range(self.chance.randint(1, 4)):
            self.statement(depth)

    def statement(self, depth):
        choice = self.chance.random() if depth else 0.0
        if choice < 0.4:
            if self.chance.random() < 0.3:
                self.put(f"if ({self.condition(1)}) {self.simple()}")
            else:
                self.put(self.simple())
        elif choice < 0.48:
            self.jump()
        elif choice < 0.65:
            self.put(f"if ({self.condition(1)}) then")
            self.nested(depth)
            for _ in range(self.chance.randint(0, 2)):
                self.put(f"else if ({self.condition(1)}) then")
                self.nested(depth)
            if self.chance.random() < 0.5:
                self.put("else")
                self.nested(depth)
            self.put(self.chance.choice(["end if", "endif"]))
        elif choice < 0.85:
            self.loop(depth)
        else:
            self.loops += 1
            left = f"round{self.loops}"
            self.put(f"{left} = {self.chance.randint(1, 3)}")
            more = self.chance.choice(["", "", f" .and. larger({left}, 0) .gt. 0", f" .and. (flags(1) .or. square({left}) .ge. 1)"])
            self.put(f"do while ({left} .gt. 0{more})")
            self.nested(depth)
            self.put(f"  {left} = {left} - 1")
            self.put("end do")

    def jump(self):
        """Jumps to statements below."""
        first, second, third, last = range(self.label + 10, self.label + 50, 10)
        self.label = last
        kind = self.chance.random()
        if kind < 0.3:
            self.put(f"if ({self.condition(1)}) go to {first}")
        elif kind < 0.6:
            self.put(f"go to ({first}, {second}, {third}), mod(abs({self.number(1)}), 5)")
        else:
            self.put(f"if ({self.number(2)}) {first}, {second}, {third}")
        for label in (second, first, third):
            if label != second or self.chance.random() < 0.5:
                self.put(self.simple())
                self.put(f"go to {last}")
            self.put(self.simple(), label)
        self.put("continue", last)

    def loop(self, depth):
        self.loops += 1
        bounds = self.chance.choice(["1, n", "1, m, 2", f"{self.chance.randint(1, 4)}, 1, -1", "1, square(2)", "low, 1"])
        if self.chance.random() < 0.6:
            self.put(f"do k{self.loops} = {bounds}")
            self.nested(depth)
            self.put(self.chance.choice(["end do", "enddo"]))
        else:
            self.label += 10
            label = self.label
            self.put(f"do {label} k{self.loops} = {bounds}")
            if self.chance.random() < 0.3:
                self.loops += 1
                self.put(f"do {label}, k{self.loops} = 1, 2")
            self.nested(depth)
            if self.chance.random() < 0.3:
                self.put(f"if ({self.condition(1)}) go to {label}")
                self.put(self.simple())
            self.put(self.chance.choice(["continue", self.simple(), f"if ({self.condition(1)}) {self.simple()}"]), label)

    def nested(self, depth):
        self.depth += 1
        self.block(depth - 1)
        self.depth -= 1


def helpers(chance):
    """The units besides the main program."""
    size = chance.choice(["n", "*", "1"])
    return [
        f"""      integer function square(x)
      integer x, calls
      common /count/ calls
      calls = calls + 1
      square = mod(x, 50)*mod(x, 50)
      end
""",
        f"""      function larger(x, y)
      integer x, y, larger
      larger = y
      if (x .gt. y) larger = x
      return
      end
""",
        f"""      integer function sum_of(x, n)
      integer n, x({size})
      sum_of = 0
      do i = 1, n
        sum_of = mod(sum_of + x(i), 97)
      end do
      end
""",
        f"""      logical function is_even(x)
      integer x
      is_even = mod(x, 2) .eq. 0
      end
""",
        f"""      subroutine fill_grid(g, rows, columns, v)
      integer rows, columns, v, g(rows, {chance.choice(["columns", "*", "1"])})
      do i = 1, rows
        do j = 1, columns
          g(i, j) = mod(v + i*j, 97)
        end do
      end do
      end
""",
        """      subroutine flip(p, q)
      logical p, q
      p = p .neqv. q
      end subroutine flip
""",
        f"""      subroutine fill(x, n, v)
      integer n, v, x({chance.choice(["n", "*"])}), square
      do 10 i = 1, n
   10 x(i) = mod(v + square(i), 97)
      end
""",
        """      subroutine exchange(p, q)
      integer p, q, kept
      kept = p
      p = q
      q = kept
      end
""",
        """      block data
      common /count/ calls
      integer calls
      data calls /0/
      end
""",
    ]


def program(chance):
    """A text."""
    writer = Writer(chance)
    n, m = chance.randint(3, 6), chance.randint(3, 6)
    writer.block(3)
    rounds = "".join(f", round{k}, k{k}" for k in range(1, writer.loops + 1))
    declared = Writer(chance)
    declared.put("integer total, counter, last_value, square, larger, sum_of, twice, between, calls, low, k" + rounds)
    head = f"""      program random_one
      parameter (n = {n}, m = {m}, low = 2 - n)
""" if chance.random() < 0.5 else f"""      parameter (n = {n}, m = {m}, low = 2 - n)
"""
    main = head + "\n".join(declared.lines) + f"""
      integer*4 values(n), table_a(n), table_b(m), grid(n, m)
      logical is_even, flags(n)
      external square, is_even
      save flags, /count/
      common /count/ calls
      data values /n*1/, (table_a(i), i = 1, n) /n*low/
      data (table_b(i), i = 1, m, 1) /m*5/, flags /n*.true./
      data ((grid(i, j), j = 1, i), i = 1, 3), grid(1, 3) /6*7, low/
      twice(k) = 2*mod(k, 50)
      between(k, j) = max(min(mod(k, 97), j), mod(k, 50) + low)
      i = 1
      j = 2
      total = 3
      counter = 4
      last_value = 5
""" + chance.choice(READS) + "\n".join(
        writer.lines
    ) + """
      print *, values, table_a, (table_b(k), k = 1, m), grid, flags
      print *, i, j, k, total, counter, last_value, calls
      end
"""
    units = helpers(chance)
    units.insert(chance.randint(0, len(units)), main)
    return "".join(units)


def command(text):
    """The words of a command; a program that is named by its path is found from every folder."""
    program, *words = shlex.split(text)
    return [os.path.abspath(program) if "/" in program else program, *words]


def output(words, folder, **more):
    try:
        done = subprocess.run(words, cwd=folder, stdout=subprocess.PIPE, stderr=subprocess.DEVNULL, timeout=60, **more)
    except subprocess.TimeoutExpired:
        return None, b""
    return done.returncode, done.stdout


def items(text):
    """What was printed, without the blanks."""
    return text.replace(b"it is ! so", b"").split()


def differs(text, lower, dfc, fortran, folder):
    """What is wrong with a text, or None."""
    with open(f"{folder}/t.f", "w") as file:
        file.write(text)
    flags = ["-std=legacy", "-w", "-O0", "-fno-automatic", "-finit-local-zero", "-fwrapv", "-o", "t", "t.f"]
    if output(fortran + flags, folder)[0] != 0:
        return "is not compiled"
    status, due = output(["./t"], folder, input="".join(f"{it}\n" for it in NUMBERS).encode())
    if status != 0:
        return f"ends with status {status}"
    status, lowered = output(lower, folder, input=text.encode())
    if status != 0:
        return "is refused: " + lowered.decode().strip()
    status, found = output(dfc + ["fire", "limit=100000000", "data=" + ",".join(map(str, NUMBERS))], folder, input=lowered)
    if status != 0 or items(found) != items(due):
        return f"differs (status {status})\n{found.decode()[-300:]}\n{due.decode()[-300:]}"
    return None


def words_of(text):
    return re.findall(r"\w+|\s+|.", text, re.S)


def mutated(text, others, chance):
    """A text with one to four slips."""
    for _ in range(chance.randint(1, 4)):
        parts = chance.choice([list, words_of, lambda it: it.splitlines(True)])(text)
        if not parts:
            continue
        at, with_what = chance.randrange(len(parts)), chance.randrange(len(parts))
        kind = chance.randrange(5)
        if kind == 0:
            del parts[at]
        elif kind == 1:
            parts.insert(at, parts[with_what])
        elif kind == 2:
            parts[at], parts[with_what] = parts[with_what], parts[at]
        elif kind == 3:
            parts[at] = chance.choice(words_of(chance.choice(others)))
        else:
            parts.insert(at, chance.choice("()*',=/:.+-!&0 9AZ_\t\n\r\x00\xff\"$;"))
        text = "".join(parts)
    return text


def misbehaves(text, lower, dfc):
    """Whether a text was lowered, and what is wrong with that, or None."""
    given = text.encode("latin-1")
    status, out = output(lower, ".", input=given)
    if status == 0:
        status, said = output(dfc + ["regions"], ".", input=out)
        return True, f"was lowered to a text that is refused: {said.decode()}" if status != 0 else None
    told = re.fullmatch(rb"line (\d+), column (\d+): [ -~]+\n", out)
    if status == 2 and told and 1 <= int(told[1]) <= given.count(b"\n") + 1 and 1 <= int(told[2]) <= 73:
        return False, None
    return False, f"ended with status {status} and {out!r}"


def mutations(count, seed, lower, dfc):
    """Tries so many texts with slips, and answers whether all were well."""
    folder = os.path.join(os.path.dirname(os.path.abspath(__file__)), "..", "examples", "everyday")
    texts = [program(random.Random(number)) for number in range(50)]
    for path in sorted(glob.glob(folder + "/**/*.f", recursive=True)):
        with open(path) as file:
            texts.append(file.read())
    lowered = wrong = 0
    for number in range(seed, seed + count):
        chance = random.Random(number)
        text = mutated(chance.choice(texts), texts, chance)
        is_lowered, said = misbehaves(text, lower, dfc)
        lowered, wrong = lowered + is_lowered, wrong + bool(said)
        if said and wrong <= 5:
            print(f"seed {number} {said}\n{text!r}")
    print(f"{count} texts, {lowered} lowered, {wrong} wrong")
    return wrong == 0


def main():
    parser = argparse.ArgumentParser(description=__doc__, formatter_class=argparse.RawDescriptionHelpFormatter)
    parser.add_argument("lower")
    parser.add_argument("dfc")
    parser.add_argument("--count", type=int, default=100)
    parser.add_argument("--seed", type=int, default=1)
    parser.add_argument("--fortran", default="gfortran")
    parser.add_argument("--mutations", type=int)
    words = parser.parse_args()
    lower, dfc, fortran = (command(it) for it in (words.lower, words.dfc, words.fortran))
    if words.mutations:
        sys.exit(0 if mutations(words.mutations, words.seed, lower, dfc) else 1)
    wrong = 0
    with tempfile.TemporaryDirectory() as folder:
        for number in range(words.seed, words.seed + words.count):
            text = program(random.Random(number))
            said = differs(text, lower, dfc, fortran, folder)
            if said:
                wrong += 1
                if wrong <= 5:
                    print(f"seed {number} {said}\n{text}")
    print(f"{words.count} texts, {wrong} differ")
    sys.exit(1 if wrong else 0)


if __name__ == "__main__":
    main()
