#!/usr/bin/env python3
"""Compares what two commands refuse.

    python3 bench/refusals.py DFC OTHER [--count N] [--seed S] [--texts FOLDER].. [--limit L]

DFC and OTHER are commands in quotes, run as `COMMAND fire [limit=L] [data=1,2,..] [checked] < text`. A text is a program written at random, often with one fault or two; or, where --texts is given (once
or more), a file of FOLDER whose name has no dot, changed in a few places. The two agree where

- both answer status 2 with the same bytes, a line `REFUSED line CODE`;
- both read the text, whatever they write of its run.

Prints up to five texts on which they differ, with both answers; then how many texts got each code from OTHER, and last
`N texts, M differ`. The exit status is 1 where any differ.
"""
import argparse
import collections
import concurrent.futures
import math
import os
import random
import re
import shlex
import subprocess
import sys

PLAIN = "I J K L M N II JJ K1 LA N2 NN".split()
WIDE = PLAIN + "A B C P Q X IF DO10I MAX MOD MIN0 ABS DATA READ ENDIF".split()
ARITY = {"MOD": 2, "ABS": 1, "IABS": 1, "SIGN": 2, "ISIGN": 2}
IMPLICITS = ["INTEGER(A-C,X)", "LOGICAL(P-Q)", "INTEGER(A-H),LOGICAL(P)", "LOGICAL(L)", "INTEGER(Z-A,B)", "INTEGER(O-Z)"]
Statement = collections.namedtuple("Statement", "label text path")


class Writer:
    """Writes one program. Its statements are (label, text, path): the path has the blocks that the statement lies in."""

    def __init__(self, chance):
        self.chance = chance
        self.names = WIDE if chance.random() < 0.15 else PLAIN
        self.dimensions, self.types = {}, {}
        self.letters = {letter: "INTEGER" for letter in "IJKLMN"}
        self.free = [str(10 * k) for k in range(1, 12)]
        self.given, self.used, self.statements = set(), set(), []
        chance.shuffle(self.free)

    def one(self, *weighted):
        """One of the values of (weight, value), ..."""
        return self.chance.choices([value for _, value in weighted], [weight for weight, _ in weighted])[0]

    def rarely(self, part=0.02):
        return self.chance.random() < part

    def kind(self, name):
        return self.types.get(name, self.letters.get(name[0]))

    def named(self, kind):
        """A name of that kind, where there is one; rarely any name."""
        fit = [name for name in self.names[:8] + list(self.types) if self.kind(name) == kind]
        return self.chance.choice(self.names if self.rarely(0.005) or not fit else fit)

    def add(self, text, path=(), label=""):
        self.statements.append(Statement(label, text, path))

    def declarator(self, name, part):
        if name in self.dimensions and not self.rarely() or not self.rarely(part):
            return name
        bounds = []
        for _ in range(self.one((8, 1), (3, 2), (1, 3), (0.1, 7))):
            low = self.one((8, 1), (1, 0), (1, -2), (1, 2))
            bounds.append((low, low + self.one((150, self.chance.randint(0, 4)), (1, -2), (1, 400), (1, 200000), (0.5, 262144))))
        self.dimensions.setdefault(name, bounds)
        return name + "(" + ",".join(f"{low}:{high}" if low != 1 else str(high) for low, high in bounds) + ")"

    def implicit(self):
        text = self.chance.choice(IMPLICITS)
        for kind, ranges in re.findall(r"(\w+)\((.*?)\)", text):
            for part in ranges.split(","):
                self.letters.update((chr(code), kind) for code in range(ord(part[0]), ord(part[-1]) + 1))
        return "IMPLICIT " + text

    def member(self, name):
        """A name, or an element of it; rarely with wrong subscripts."""
        if name not in self.dimensions or self.rarely(0.2):
            return name + ("(1)" if self.rarely() and name not in self.dimensions else "")
        inside = [self.chance.randint(low, max(low, high)) for low, high in self.dimensions[name]]
        inside[0] += self.one((98, 0), (1, -9), (1, 9))
        return name + "(" + ",".join(map(str, inside[1:] if self.rarely(0.01) else inside)) + ")"

    def typed(self):
        kind = self.one((3, "INTEGER"), (1, "LOGICAL"))
        names = [name for name in self.chance.sample(self.names, 3) if name not in self.types or self.rarely()]
        self.types = {**dict.fromkeys(names, kind), **self.types}
        return kind + " " + ",".join(self.declarator(name, 0.4) for name in names or ["N9"])

    def common(self):
        text = "COMMON "
        for index in range(self.chance.randint(1, 2)):
            names = [name for name in self.chance.sample(self.names[:10], 3) if name not in self.used or self.rarely()]
            self.used.update(names)
            text += self.chance.choice([",", ""]) if index else ""
            text += "" if index == 0 and self.rarely(0.2) else self.chance.choice(["/C/", "/D/", "/I/", "//"])
            text += ",".join(self.declarator(name, 0.2) for name in names or ["N8"])
        return text

    def equivalence(self):
        groups = [self.chance.sample(self.names[:10], self.one((5, 2), (1, 3))) for _ in range(self.one((3, 1), (1, 2)))]
        return "EQUIVALENCE " + ",".join("(" + ",".join(map(self.member, group)) + ")" for group in groups)

    def dimension(self):
        names = [name for name in self.chance.sample(self.names, 2) if name not in self.dimensions]
        return "DIMENSION " + (",".join(self.declarator(name, 1) for name in names) or "N7(2)")

    def data(self):
        names = [name for name in self.chance.sample(self.names[:10], 2) if name not in self.given or self.rarely(0.05)]
        items, values = [self.member(name) for name in names[: self.one((3, 1), (1, 2))]], []
        for name, item in zip(names, items):
            self.given.add(name)
            bounds = [] if "(" in item else self.dimensions.get(name, [])
            count = math.prod(max(1, high - low + 1) for low, high in bounds) + self.one((98, 0), (1, 1), (1, -1))
            while count > 0:
                run = count if len(values) >= 30 else 1 if self.rarely(0.5) else self.chance.randint(1, count)
                truth = (self.kind(name) == "LOGICAL") != self.rarely(0.01)
                word = self.chance.choice([".TRUE.", ".FALSE."]) if truth else str(self.chance.randint(-9, 99))
                values.append((f"{run}*" if run > 1 or self.rarely() else "") + word)
                count -= run
        return "DATA " + ",".join(items) + "/" + ",".join(values) + "/" if items else "J=1"

    def variable(self, kind="INTEGER"):
        name = self.named(kind)
        inside = self.member(name) if self.rarely(0.7) else ""
        if name not in self.dimensions or self.rarely(0.005):
            return name
        return inside if "(" in inside else name + "(" + ",".join(self.chance.choice("IJK1") for _ in self.dimensions[name]) + ")"

    def integer(self, depth=0):
        turn = self.chance.random()
        if depth > 2 or turn < 0.3:
            return self.one((99, str(self.chance.randint(0, 9))), (1, "2147483647"), (1, "00012"))
        if turn < 0.55:
            return self.variable()
        if turn < 0.88:
            right = "(" + self.integer(depth + 1) + ")" if self.rarely(0.4) else self.variable()
            return self.integer(depth + 1) + self.chance.choice(["+", "-", "*", "/", "**"]) + right
        name = self.chance.choice([*ARITY, "MAX", "MAX0", "MIN", "MIN0"])
        if turn < 0.96 and name not in self.dimensions:
            count = (ARITY.get(name) or self.chance.randint(2, 4)) + self.rarely(0.01)
            return name + "(" + ",".join(self.integer(depth + 1) for _ in range(count)) + ")"
        return self.logical(depth + 1) if self.rarely(0.03) else "(-" + self.integer(depth + 1) + ")"

    def logical(self, depth=0):
        turn = self.chance.random()
        if depth > 2 or turn < 0.6:
            return self.integer(2) + self.chance.choice([".LT.", ".LE.", ".EQ.", ".NE.", ".GE.", ".GT."]) + self.integer(2)
        if turn < 0.8:
            return ".NOT.(" + self.logical(depth + 1) + ")" if turn < 0.7 else self.chance.choice([".TRUE.", ".FALSE."])
        if turn < 0.85 and "LOGICAL" in self.types.values():
            return self.variable("LOGICAL")
        operator = self.chance.choice([".AND.", ".OR.", ".EQV.", ".NEQV."])
        return "(" + self.logical(depth + 1) + operator + self.logical(depth + 1) + ")"

    def simple(self):
        """A statement that a logical IF may hold. A label is left as @, and chosen when all are known."""
        form, count = self.chance.random(), self.chance.randint(0, 3)
        if form < 0.42:
            return self.variable() + "=" + (self.integer() if not self.rarely(0.01) else self.logical())
        if form < 0.5:
            return self.variable("LOGICAL") + "=" + self.logical() if "LOGICAL" in self.types.values() else "CONTINUE"
        if form < 0.7:
            items = [self.one((1, self.integer(2)), (1, self.variable()), (1, self.logical(2)), (1, "'It''s'")) for _ in range(count)]
            return self.chance.choice(["WRITE(*,*)", "WRITE(6,*)"]) + ",".join(items) if form < 0.6 else ",".join(["PRINT *"] + items)
        if form < 0.76:
            return self.chance.choice(["READ *,", "READ(*,*)", "READ(5,*)"]) + ",".join(self.variable() for _ in range(1 + count % 2))
        labels = "(" + ",".join("@" * max(1, count)) + ")" + self.chance.choice([",", ""])
        return self.one((6, "CONTINUE"), (7, "GO TO @"), (2, self.chance.choice(["STOP", "STOP 12", "STOP 'A'"])),
                        (3, "GO TO " + labels + self.integer(2)), (3, "IF(" + self.integer(1) + ")@,@,@"))

    def loop(self, path, label):
        target, inner = self.free.pop(), path + (len(self.statements),)
        for first in [True, False][: 1 + self.rarely(0.3)]:
            name = self.one((3, " "), (1, ",")) + self.named("INTEGER")
            bounds = self.integer(3) + "," + self.chance.choice(["3", "5", self.integer(2)])
            bounds += self.one((4, ""), (1, ",2"), (1, ",-1"), (0.3, ",K"))
            self.add(f"DO {target}{name}={bounds}", path, label if first else "")
        self.block(inner)
        ends = [(6, "CONTINUE"), (3, "J=J+1"), (0.15, self.simple()), (0.03, "END IF"), (0.03, "STOP"), (0.03, "DO 10 J=1,2")]
        self.add(self.one(*ends), inner, target if not self.rarely() else "")

    def choice(self, path, label):
        start = len(self.statements)
        heads = ["ELSE IF(" + self.logical() + ")THEN" for _ in range(self.one((75, 0), (20, 1), (5, 2)))]
        for head in ["IF(" + self.logical() + ")THEN"] + heads + ["ELSE"] * self.rarely(0.4):
            self.add(head, path + (start,) if head[0] == "E" else path, label if head[0] == "I" else "")
            self.block(path + (len(self.statements),))
        if not self.rarely():
            self.add("END IF", path + (-start,), self.free.pop() if self.free and self.rarely(0.2) else "")

    def block(self, path):
        for _ in range(self.chance.randint(1, 4)):
            form = self.chance.random()
            label = self.free.pop() if self.free and self.rarely(0.25) else ""
            if form < 0.3 and len(path) < 3 and self.free:
                (self.loop if form < 0.15 else self.choice)(path, label)
            elif form < 0.4:
                self.add("IF(" + self.logical() + ")" + self.simple(), path, label)
            else:
                self.add(self.data() if form < 0.43 else self.simple(), path, label)

    def jumps(self):
        """The statements with a label for each @, mostly one that the statement may jump to."""
        placed = [statement for statement in self.statements if statement.label]
        for label, text, path in self.statements:
            seen = [other.label for other in placed if path[: len(other.path)] == other.path]
            while "@" in text:
                near = seen if not self.rarely(0.03) else [other.label for other in placed]
                text = text.replace("@", self.chance.choice(near) if near and not self.rarely(0.01) else "110", 1)
            yield label, text

    def program(self):
        if self.rarely(0.15):
            self.add("PROGRAM " + self.chance.choice(self.names))
        if self.rarely(0.3):
            self.letters, text = self.one((1, ({}, "IMPLICIT NONE")), (3, (self.letters, self.implicit())))
            self.add(text)
        for _ in range(self.chance.randint(0, 5)):
            self.add(self.one((4, self.typed), (2, self.dimension), (3, self.common), (3, self.equivalence))())
        for _ in range(self.one((5, 0), (3, 1), (1, 2))):
            self.add(self.data())
        self.block(())
        self.add("CONTINUE", (), self.free.pop() if self.free else "")
        return list(self.jumps()) + [("", "END")]


# Faults, each put into a list of (label, text), the last of which is END. A fault is some statements, parted by strokes.

FAULTS = {
    "TOODEEP": ["I=" + "(" * depth + "1" + ")" * depth for depth in (59, 60, 61, 62)],
    "NOFORM": ["I=", "I=1+", "DO 10", "GO TO", "IF(I)THEN", "PRINT I", "I=(1", "READ *", "ENDIFX", "DO10I=1,2,3,4", "A(=1", "CALL"],
    "BADCONST": ["I=2147483648", "GO TO 0", "GO TO 100000", "IF(I)0,0,0", "I=00000000000002147483647", "STOP 99999", "DATA I/0*1/",
                 "DATA I/-2147483648/", "DO 0 I=1,2", "INTEGER A(2147483648)", "DATA I/99999999999*1/"],
    "BADORDER": ["INTEGER N5", "PROGRAM P", "IMPLICIT INTEGER(A)", "COMMON N5", "END", "DIMENSION N5(2)", "EQUIVALENCE(N5,N6)"],
    "REALNAME": ["X=1", "I=Y", "PRINT *,Z1", "DO 9 X=1,2", "READ *,X", "DATA X/1/", "X(1)=2"],
    "REALNAME above": ["COMMON /X/I9,X", "EQUIVALENCE(X,Y)", "DIMENSION X(2)"],
    "BADTYPE": ["I=.TRUE.", "I=ABS(1,2)", "I=MAX(1)", "IF(I)CONTINUE", "MOD=1", "MOD(1,2)=1", "I=I(1)", "IF(1.LT.2)1,2,3", "I=.NOT.1",
                "READ *,MAX", "I=1.AND.2", "I(1)=2", "ABS=ABS(1)", "DO 10 I=1,.TRUE."],
    "BADTYPE above": ["INTEGER I,I", "IMPLICIT NONE", "IMPLICIT INTEGER(A-B,B)", "LOGICAL I"],
    "BADLAYOUT": ["DATA I/1,2/", "DATA I/.TRUE./", "DATA I,I/1,2/", "DATA I(1)/1/"],
    "BADLAYOUT above": ["INTEGER I(2),I(3)", "COMMON I,I", "INTEGER A(2:1)", "INTEGER A(262145)", "INTEGER A(1000,1000)",
                        "EQUIVALENCE(I,J(1))", "INTEGER A(-2147483647:2147483647)"],
    "LABELTWICE": ["10 CONTINUE", "20 I=1", "30 PRINT *", "40 CONTINUE|40 CONTINUE", "50 CONTINUE"],
    "NOLABEL": ["GO TO 77", "IF(1)77,77,77", "GO TO (77),I", "IF(.TRUE.)GO TO 77", "DO 77 I=1,2"],
    "BADNESTING": ["ELSE", "END IF", "ELSE IF(.TRUE.)THEN", "IF(.TRUE.)THEN", "DO 110 I=1,2"],
    "JUMPINTO": ["GO TO 201|DO 200 N5=1,2|201 CONTINUE|200 CONTINUE", "DO 200 N5=1,2|200 J=1|GO TO(200),J",
                 "DO 200 N5=1,2|GO TO 200|200 J=1", "DO 200 N5=1,2|200 IF(I.EQ.J)GO TO 200", "IF(1)200,200,201|DO 201 N5=1,2|200 J=1|201 J=2",
                 "IF(.TRUE.)THEN|200 J=1|ELSE|GO TO 200|END IF", "GO TO 200|IF(.TRUE.)THEN|J=1|200 END IF", "GO TO 200|200 IF(.TRUE.)THEN|END IF"],
    "MANYWORDS above": ["INTEGER A(200000),N6(%d)" % size for size in (62100, 62120, 62144, 62145, 99999)] + ["COMMON/W/N5(262144)"],
    "MANYOPS": ["N5=" + "+".join([term] * count) for term, middle in [("1", 500), ("N6", 250)] for count in range(middle - 2, middle + 3)]
    + ["200 CONTINUE" + ("|GO TO(200" + ",200" * 299 + "),N5") * 13 + "|GO TO(200" + ",200" * count + "),N5" for count in (98, 99, 100)],
    "MANYCLASSES above": ["|".join("INTEGER " + ",".join("W%d" % k for k in range(first, min(first + 200, count))) for first in range(0, count, 200))
                          for count in (1000, 1005, 1008, 1010, 1012, 1014, 1016, 1018, 1020, 1023, 1024)],
}


def spoil(chance, statements):
    code = chance.choice(list(FAULTS))
    fault = [re.fullmatch(r"(\d* ?)(.*)", text).groups() for text in chance.choice(FAULTS[code]).split("|")]
    low, high = 0 if code in ("BADORDER", "BADNESTING") else max(0, len(statements) - 5), len(statements) - 1
    place = chance.randint(0, min(3, high)) if code.endswith("above") else chance.randint(low, high)
    statements[place:place] = [(label.strip(), text) for label, text in fault]


def change(chance, items):
    """Exchanges, drops or repeats one of the items."""
    place, other = chance.randrange(len(items)), chance.randrange(len(items))
    form = chance.choice(["exchange", "drop", "repeat"])
    if form == "exchange":
        items[place], items[other] = items[other], items[place]
    else:
        items[place: place + (form == "drop")] = [items[other]] * (form == "repeat")


def lines_of(chance, statements):
    lines = []
    for label, text in statements:
        lines += [chance.choice(["C a comment\t", "*", "", "c"])] if chance.random() < 0.03 else []
        text = text.lower() if chance.random() < 0.03 else text
        width = 66 if chance.random() < 0.97 else min(66, max(6, len(text) // 10))
        start = (label.rjust(5) if chance.random() < 0.8 else label.ljust(5)) + " "
        for at in range(0, len(text), width):
            lines.append((start if at == 0 else "     " + chance.choice("&1+X")) + text[at: at + width])
    return lines


def spoil_lines(chance, lines):
    """Changes one line, or puts some in."""
    place, last = chance.randrange(len(lines)), len(lines) - 1
    line, column = lines[place], chance.randrange(len(lines[place]) + 1)
    ends = [[], ["      END", "      I=1"], ["      E N D", "C", ""], ["      E", "     &ND"]]
    start, stop, new = chance.choice([
        (last, last + 1, chance.choice(ends)),
        (last, last, ["      I=1"] + ["     &+1"] * chance.randint(18, 21)),
        (last, last, ["      I=1"] * chance.choice([1, 1, 1, 1, 1, chance.randint(3990, 4000)])),
        (0, 0, [chance.choice(["     &", "     1", "    1&", "C"]) + "I=1"]),
        (place, place + 1, [line[:column] + chance.choice("\t\x7f\xe9\x00") + line[column:]]),
        (place, place + 1, [chance.choice(["00000", "    X", "  -1 ", "1 2  "]) + line[5:]]),
        (place, place + 1, [line + chance.choice(["\r", " ", " " * 70 + "\t", ")"])])])
    lines[start:stop] = new


def generated(chance):
    statements = Writer(chance).program()
    for _ in range(chance.choice([0, 0, 1, 1, 2])):
        (change if chance.random() < 0.1 else spoil)(chance, statements)
    lines = lines_of(chance, statements)
    if chance.random() < 0.1:
        spoil_lines(chance, lines)
    return "\n".join(lines) + ("\n" if chance.random() < 0.97 else "")


TOKENS = ("I A P X 0 1 10 2147483648 ( ) , = + ** - * .LT. .AND. .NOT. .TRUE. ' / : GOTO10 DO10I=1,2 END ENDIF ELSE IF(P) THEN INTEGER "
          "LOGICAL COMMON DATA").split() + [""]


def mutated(chance, texts):
    """One of the texts, with one to three changes of its lines or the tokens in them."""
    lines = chance.choice(texts).split("\n")
    for _ in range(chance.randint(1, 3)):
        lines = lines or [""]
        place, form = chance.randrange(len(lines)), chance.random()
        if form < 0.42:
            (change if form < 0.35 else spoil_lines)(chance, lines)
        else:
            found = list(re.finditer(r"\d+|[A-Za-z]+\d*|\.[A-Z]+\.|\*\*|\S|$", lines[place]))
            where, new = chance.choice(found), chance.choice(TOKENS if form < 0.77 else [it.group() for it in found])
            lines[place] = lines[place][: where.start()] + new + lines[place][where.end():]
    return "\n".join(lines + ["      END"] * (chance.random() < 0.5))


def answer(command, text):
    """The status of the command, the line and the code of its refusal, and what it writes."""
    try:
        done = subprocess.run(command, input=text.encode("latin-1"), stdout=subprocess.PIPE, stderr=subprocess.DEVNULL, timeout=60)
    except subprocess.TimeoutExpired:
        return None, 0, "no end in 60 s", b""
    told = re.fullmatch(rb"REFUSED (\d+) ([A-Z]+)\n", done.stdout)
    if done.returncode == 2:
        return 2, int(told.group(1)) if told else 0, told.group(2).decode() if told else "no refusal", done.stdout
    return done.returncode, 0, "read" if done.returncode in (0, 3, 4) else f"status {done.returncode}", done.stdout


def agree(ours, theirs):
    (our_status, _, our_code, our_output), (their_status, _, their_code, their_output) = ours, theirs
    return our_status == their_status == 2 and our_output == their_output or our_code == their_code == "read"


def compare(options, texts, number):
    """The text with that number, the words and the two answers."""
    chance = random.Random(options.seed * 1000003 + number)
    text = mutated(chance, texts) if texts else generated(chance)
    words = ["data=" + ",".join(str(chance.randint(-5, 5)) for _ in range(chance.randint(1, 6)))] if chance.random() < 0.6 else []
    words += ["checked"] if chance.random() < 0.4 else []
    limit = [f"limit={options.limit}"] if options.limit else []
    ours = answer(shlex.split(options.dfc) + ["fire"] + limit + words, text)
    return text, words, ours, answer(shlex.split(options.other) + ["fire"] + limit + words, text)


def main():
    parser = argparse.ArgumentParser(description=__doc__, formatter_class=argparse.RawDescriptionHelpFormatter)
    parser.add_argument("dfc")
    parser.add_argument("other")
    parser.add_argument("--texts", action="append", default=[])
    for name, value in [("--count", 1000), ("--seed", 1), ("--limit", 0)]:
        parser.add_argument(name, type=int, default=value)
    options = parser.parse_args()
    paths = [os.path.join(folder, name) for folder in options.texts for name in sorted(os.listdir(folder)) if "." not in name]
    texts = [open(path, encoding="latin-1", newline="").read() for path in paths]
    codes, differ = collections.Counter(), 0
    with concurrent.futures.ThreadPoolExecutor(2) as pool:
        for text, words, ours, theirs in pool.map(lambda number: compare(options, texts, number), range(options.count)):
            codes[theirs[2]] += 1
            differ += not agree(ours, theirs)
            if differ <= 5 and not agree(ours, theirs):
                print(f"--- fire {' '.join(words)}: DFC {ours[::3]}, OTHER {theirs[::3]}\n{text}", flush=True)
    print(", ".join(f"{count} {code}" for code, count in codes.most_common()))
    print(f"{options.count} texts, {differ} differ")
    return 1 if differ else 0


if __name__ == "__main__":
    sys.exit(main())
