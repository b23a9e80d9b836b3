#!/usr/bin/env python3
"""Compares what two commands make of texts with subroutines.

    python3 bench/subroutines.py DFC OTHER [--count N] [--seed S] [--graphs | --changed]

DFC and OTHER are commands in quotes, run as `COMMAND WORDS [data=..] [checked] < text`. A text is written at random: a main program
and one to four subroutines, in any order and not all of them called; COMMON of the same names and of others, with EQUIVALENCE past a
block's end and DATA; arguments that are arrays, logical or twice the same name; CALL alone, after a condition, and at the end of one DO
or two; jumps to labels of CALL and END; RETURN and STOP in loops; READ; names like those that the expansion makes, like intrinsics and
like keywords. WORDS are `fire`, `run`, `store` and `regen`, with a limit; with --graphs `graph`, `regions`, and `trace`, `fire`, `forks` and
`forks nodes`, in the source's own order or by picks. With --changed each text has one to three changes of its statements, for refusals, and
WORDS is `fire`. The two agree where they answer the same status and the same bytes; where both come to
the limit, one output may begin with the other.

Prints up to five texts on which they differ, with both answers; then how many answers of each status and code there were, and last
`N texts, M differ`. The exit status is 1 where any differ.
"""
import argparse
import collections
import concurrent.futures
import random
import re
import shlex
import subprocess
import sys

SHAPES = {"int": ("INTEGER", ""), "log": ("LOGICAL", ""), "three": ("INTEGER", "(3)"), "from": ("INTEGER", "(0:2)"), "two": ("INTEGER", "(2,2)")}
WORDS = {"int": 1, "log": 1, "three": 3, "from": 3, "two": 4}
INTEGERS = "I J K L M N II JJ K1 LA N2 NN I0 J7 MM KK".split()
ODD = "MAX MIN MOD ABS IABS SIGN IF CALL READ END DO10I Y00001 Y00002 Y00004 X Y S1 GOTO RETURN".split()
KEYWORDS = "CALL SUBROUTINE COMMON INTEGER LOGICAL DIMENSION EQUIVALENCE DATA DO IF THEN ELSE END GO TO READ PRINT RETURN STOP CONTINUE".split()
ARITY = {"MOD": 2, "ABS": 1, "IABS": 1, "SIGN": 2, "MAX": 3, "MIN": 2, "MAX0": 2}


class Unit:
    """Writes one unit: its names with their shapes, and its statements, each a label and a text."""

    def __init__(self, chance, number, callees, blocks, dummies):
        self.chance, self.number, self.callees = chance, number, callees
        self.names, self.declared, self.storage, self.blocks = {}, [], [], {}
        self.called, self.free, self.loops = set(), [str(k) for k in chance.sample(range(1, 100), 60)], 0
        self.dummies = [self.fresh(shape) for shape in dummies]
        for block, shapes in blocks:
            self.blocks[block] = [self.fresh(shape) for shape in shapes]

    def rarely(self, part):
        return self.chance.random() < part

    def fresh(self, shape):
        """A new name of that shape, declared where its letter doesn't say it."""
        pool = ODD if self.rarely(0.1) else INTEGERS
        name = self.chance.choice([it for it in pool if it not in self.names] or [f"N{len(self.names)}A"])
        self.names[name] = shape
        kind, bounds = SHAPES[shape]
        if kind == "LOGICAL" or not "I" <= name[0] <= "N" or self.rarely(0.3):
            self.declared.append(f"{kind} {name}{bounds}")
        elif bounds:
            self.declared.append(f"{self.chance.choice(['INTEGER', 'DIMENSION'])} {name}{bounds}")
        return name

    def named(self, shape):
        """A name of that shape; a new one rarely, or where there is none."""
        fit = [name for name, its in self.names.items() if its == shape]
        return self.fresh(shape) if not fit or self.rarely(0.1 if len(fit) > 3 else 0.3) else self.chance.choice(fit)

    # expressions

    def subscripts(self, shape):
        low, high = (0, 2) if shape == "from" else (1, 2) if shape == "two" else (1, 3)
        one = lambda: str(self.chance.randint(low, high + self.rarely(0.01))) if self.rarely(0.93) else self.named("int")
        return ",".join(one() for _ in range(2 if shape == "two" else 1))

    def variable(self):
        shape = self.chance.choice(["int", "int", "int", "three", "from", "two"])
        name = self.named(shape)
        return name if shape == "int" else f"{name}({self.subscripts(shape)})"

    def value(self, depth=2):
        form = self.chance.random()
        if depth == 0 or form < 0.5:
            return str(self.chance.randint(0, 9)) if form < 0.2 else self.variable()
        if form < 0.6:
            name = self.chance.choice(list(ARITY))
            if name not in self.names:
                self.called.add(name)
                return f"{name}({','.join(self.value(depth - 1) for _ in range(ARITY[name]))})"
        operator = self.chance.choice("+ + + - - - * * **".split())
        if self.rarely(0.02):
            operator = "/"
        if operator == "**":
            return f"({self.value(depth - 1)})**2"
        return f"({self.value(depth - 1)}{operator}{self.value(depth - 1)})"

    def condition(self):
        form = self.chance.random()
        if form < 0.2:
            return self.named("log")
        if form < 0.3:
            return f".NOT.{self.named('log')}"
        return f"{self.value(1)}.{self.chance.choice(['LT', 'LE', 'EQ', 'NE', 'GT', 'GE'])}.{self.value(1)}"

    # statements

    def call(self):
        if not self.callees:
            return "CONTINUE"
        name, shapes = self.chance.choice(self.callees)
        arguments = [self.named(shape) for shape in shapes]
        return f"CALL {name}" + (f"({','.join(arguments)})" if arguments or self.rarely(0.3) else "")

    def simple(self):
        """A statement that may stand after a condition, or at the end of a DO."""
        form = self.chance.random()
        if form < 0.3:
            return f"{self.variable()}={self.value()}"
        if form < 0.4:
            return f"{self.named('log')}={self.condition()}"
        if form < 0.55:
            return f"PRINT *,{','.join(self.value(1) for _ in range(self.chance.randint(1, 3)))}"
        if form < 0.57:
            return f"READ *,{self.variable()}"
        return self.call() if form < 0.95 else "CONTINUE"

    def plain(self):
        return f"IF({self.condition()}){self.simple()}" if self.rarely(0.2) else self.simple()

    def jump(self):
        """A statement that goes elsewhere: to a label that is put in later, to the caller, or to the end of the run."""
        form = self.chance.random()
        away = "RETURN" if form < 0.35 and self.number else "STOP" if form < 0.42 else "GO TO ?"
        if form > 0.9:
            return f"IF({self.value(1)})?,?,?"
        return away if self.rarely(0.1) else f"IF({self.condition()}){away}"

    def body(self, path, size):
        """Statements, each a list of its label, text and path: the blocks and loops in which it stands."""
        made = []
        for _ in range(size):
            form, inner = self.chance.random(), path + (self.chance.random(),)
            if form < 0.55 or len(path) > 2:
                made.append(["", self.plain(), path])
            elif form < 0.7:
                made.append(["", self.jump(), path])
            elif form < 0.85:
                made.append(["", f"IF({self.condition()})THEN", path])
                made += self.body(inner, self.chance.randint(0, 3))
                if self.rarely(0.3):
                    made.append(["", self.chance.choice(["ELSE", f"ELSE IF({self.condition()})THEN"]), None])
                    made += self.body(inner + (1,), self.chance.randint(0, 3))
                made.append(["", "END IF", None])
            else:
                made += self.loop(path, inner)
        return made

    def loop(self, path, inner):
        """A DO, or two that end at one statement."""
        label, low = self.free.pop(), self.chance.randint(0, 2)
        made = []
        for place in (path, inner)[: 1 + self.rarely(0.3)]:
            step = self.chance.choice(["", "", "", ",2", f",{self.named('int')}"] if self.rarely(0.3) else [""])
            made.append(["", f"DO {label} {self.named('int')}={low},{self.chance.choice([2, 3, self.named('int')])}{step}", place])
        last = path + (inner[-1], 2)
        made += self.body(last, self.chance.randint(0, 3))
        return made + [[label, self.call() if self.rarely(0.5) else self.plain(), last]]

    def put_labels(self, made):
        """Each jump gets a label of a statement that it may go to: one of a block in which it stands itself."""
        for line in made:
            while "?" in line[1]:
                fit = [it for it in made if it[2] is not None and it[2] == (line[2] or ())[: len(it[2])]]
                target = self.chance.choice([made[-1]] + fit + [it for it in fit if "CALL" in it[1]])
                target[0] = target[0] or self.free.pop()
                line[1] = line[1].replace("?", target[0], 1)

    # declarations

    def items(self, names):
        """Items of DATA, with as many constants."""
        shapes = [self.names[name] for name in names]
        values = [f"{WORDS[it]}*{self.chance.randint(0, 9)}" if WORDS[it] > 1 else ".TRUE." if it == "log" else str(self.chance.randint(0, 9)) for it in shapes]
        return f"DATA {','.join(names)}/{','.join(values)}/"

    def statements(self):
        made = self.body((), self.chance.randint(2, 7 if self.number else 10))
        if self.rarely(0.9):
            shown = [name for name, shape in self.names.items() if shape == "int"]
            made.append(["", "PRINT *," + ",".join(shown[:8] or ["0"]), ()])
        made.append([self.free.pop() if self.rarely(0.3) else "", "END", ()])
        self.put_labels(made)
        for block, names in self.blocks.items():
            self.storage.append(f"COMMON {'//' if block is None else f'/{block}/'}{','.join(names)}")
        shared = [name for names in self.blocks.values() for name in names]
        own = [name for name in self.names if name not in self.dummies and name not in shared]
        integers = [name for name in own if self.names[name] != "log"]
        if integers and self.rarely(0.4):
            name = self.chance.choice(integers)
            others = [it for it in shared + own if it != name and self.names[it] != "log"]
            if others:
                first = {"int": "", "from": "(1)", "three": "(2)", "two": "(2,1)"}[self.names[name]] if self.rarely(0.6) else ""
                self.storage.append(f"EQUIVALENCE ({name}{first},{self.chance.choice(others)})")
        for names in [own, shared] if self.number else [own, own + shared]:
            if names and self.rarely(0.3 if names is own else 0.1):
                self.storage.append(self.items(self.chance.sample(names, min(len(names), self.chance.randint(1, 2)))))
        self.storage.sort(key=lambda text: text.startswith("DATA"))
        return [("", text) for text in self.declared + self.storage] + [(label, text) for label, text, _ in made]


def program(chance):
    """The statements of a text, each a label and its text."""
    shapes = list(SHAPES)
    blocks = {block: [chance.choice(shapes) for _ in range(chance.randint(1, 3))] for block in chance.sample(["C", "D", "I", None], chance.randint(0, 3))}
    subs = []
    for name in chance.sample(["S", "SUB", "A", "I", "K1", "Y00003", "X1", "MAX"], chance.randint(1, 4)):
        subs.append((name, [chance.choice(["int", "int"] + shapes) for _ in range(chance.choice([0, 0, 1, 1, 2, 3]))]))
    units = []
    for number in range(len(subs) + 1):
        has = [it for it in blocks.items() if chance.random() < 0.6]
        chance.shuffle(has)
        callees = [it for it in subs[number:] if chance.random() < 0.8]
        unit = Unit(chance, number, callees, has, subs[number - 1][1] if number else [])
        made = unit.statements()
        if number:
            dummies = f"({','.join(unit.dummies)})" if unit.dummies or chance.random() < 0.3 else ""
            made.insert(0, ("", f"SUBROUTINE {subs[number - 1][0]}{dummies}"))
        units.append(made)
    others = units[1:]
    chance.shuffle(others)
    return [line for unit in units[:1] + others for line in unit]


def card(label, text):
    """The lines of a statement, 66 characters on each."""
    parts = [text[at: at + 66] for at in range(0, len(text), 66)]
    return "".join(f"{label or '':>5} {part}\n" if k == 0 else f"     &{part}\n" for k, part in enumerate(parts))


# changes, for refusals

PUT_IN = ["RETURN", "END", "CALL S", "CALL A(I)", "CALL K1(I,I)", "SUBROUTINE S", "SUBROUTINE SUB(I)", "SUBROUTINE A(I,I)", "COMMON /C/ I", "COMMON N,M",
          "INTEGER J(4)", "DATA I/1/", "EQUIVALENCE (I,J)", "IF(I.EQ.1)CALL S", "IF(I.EQ.1)RETURN", "GO TO 7", "X=1", "ELSE", "PROGRAM S", "CALL MAX(I,J)"]


def change_unit(chance, made):
    """Changes a statement of the units: another name of a subroutine or of a block, or one of its names left out, put in or for another."""
    name = r"\w+"
    places = [k for k, (_, text) in enumerate(made) if re.search("CALL |SUBROUTINE |COMMON", text)] or [0]
    place = chance.choice(places)
    label, text = made[place]
    head, listed, rest = re.fullmatch(r"(.*(?:CALL |SUBROUTINE |COMMON[ /\w]*/ *)\w*\(?|.*?)([\w,]*)(.*)", text).groups()
    names = [it for it in listed.split(",") if it]
    form = chance.random()
    if form < 0.4:
        others = [it for _, other in made for it in re.findall(f"(?:CALL|SUBROUTINE) ({name})", other)]
        head = re.sub(f"(CALL |SUBROUTINE |/)({name})", lambda it: it.group(1) + chance.choice(others + ["S", "C"]), head, count=1)
    elif form < 0.55 and names:
        del names[chance.randrange(len(names))]
    else:
        known = [it for _, other in made for it in re.findall(r"\b[A-Z]\w{0,5}\b", other)]
        at = chance.randint(0, len(names))
        names[at: at + chance.randint(0, 1)] = [chance.choice(known)]
    made[place] = (label, head + ",".join(names) + rest)


def change(chance, made):
    """Changes a statement: left out, given twice, moved, put in, or with other names, numbers or labels in it."""
    place, form = chance.randrange(len(made)), chance.random()
    label, text = made[place]
    if form < 0.4:
        change_unit(chance, made)
    elif form < 0.5:
        del made[place]
    elif form < 0.56:
        made.insert(chance.randrange(len(made)), made[place])
    elif form < 0.64:
        made.insert(chance.randrange(len(made) - 1), made.pop(place))
    elif form < 0.72:
        made.insert(place, ("", chance.choice(PUT_IN)))
    elif form < 0.8:
        made[place] = (chance.choice([label for label, _ in made] + ["7"]), text)
    else:
        found = [it for it in re.finditer(r"\b(\d+|[A-Z]+\d*)\b", text) if it.group() not in KEYWORDS]
        if found:
            where = chance.choice(found)
            new = chance.choice(re.findall(r"\b\d+|[A-Z]+\d*\b", chance.choice(made)[1]) + ["I", "S", "A", "SUB", "2"])
            made[place] = (label, text[: where.start()] + new + text[where.end():])


def answer(command, text):
    """The status of the command and what it writes."""
    try:
        done = subprocess.run(command, input=text.encode("latin-1"), stdout=subprocess.PIPE, stderr=subprocess.DEVNULL, timeout=120)
    except subprocess.TimeoutExpired:
        return None, b"no end in 120 s"
    return done.returncode, done.stdout


def agree(ours, theirs):
    if ours == theirs:
        return True
    told = [re.fullmatch(rb"(.*?)(LIMIT \d+\n)", it[1], re.DOTALL) for it in (ours, theirs)]
    if ours[0] == theirs[0] == 4 and all(told):
        short, long = sorted((it.group(1) for it in told), key=len)
        return long.startswith(short)
    return False


def compare(options, number):
    """The text with that number, and for each list of words the two answers."""
    chance = random.Random(options.seed * 1000003 + number)
    made = program(chance)
    for _ in range(chance.randint(1, 3) if options.changed else 0):
        change(chance, made)
    text = "".join(card(label, it) for label, it in made)
    words = [f"data={','.join(str(chance.randint(-5, 9)) for _ in range(chance.randint(3, 40)))}"] if chance.random() < 0.8 else []
    words += ["checked"] if chance.random() < 0.4 else []
    dialect = ["checked"] if words[-1:] == ["checked"] else []
    jobs = [["fire", "limit=20000", *words]]
    if options.graphs:
        jobs = [["graph", *dialect], ["regions", *dialect], ["trace", "limit=3000", "picks=7,3,5", *words], ["fire", "limit=20000", "picks=5,2", *words],
                ["forks", "limit=20000", *words], ["forks", "nodes", "limit=3000", "picks=4,1,6", *words]]
    elif not options.changed:
        jobs += [["run", "limit=20000", *words], ["store", "limit=20000", *words], ["regen", *dialect]]
    answers = []
    for job in jobs:
        answers.append((job, answer(shlex.split(options.dfc) + job, text), answer(shlex.split(options.other) + job, text)))
        if answers[0][1][0] == answers[0][2][0] == 2:
            break
    return text, answers


def main():
    parser = argparse.ArgumentParser(description=__doc__, formatter_class=argparse.RawDescriptionHelpFormatter)
    parser.add_argument("dfc")
    parser.add_argument("other")
    parser.add_argument("--count", type=int, default=500)
    parser.add_argument("--seed", type=int, default=0)
    parser.add_argument("--graphs", action="store_true")
    parser.add_argument("--changed", action="store_true")
    options = parser.parse_args()
    statuses, differ = collections.Counter(), 0
    with concurrent.futures.ThreadPoolExecutor(2) as pool:
        for text, answers in pool.map(lambda number: compare(options, number), range(options.count)):
            for job, ours, theirs in answers:
                told = re.fullmatch(rb"REFUSED \d+ ([A-Z]+)\n", theirs[1])
                statuses[f"{job[0]} {told.group(1).decode() if told else theirs[0]}"] += 1
                if not agree(ours, theirs):
                    differ += 1
                    if differ <= 5:
                        print(f"--- {' '.join(job)}: DFC {ours}, OTHER {theirs}\n{text}", flush=True)
    print(", ".join(f"{count} {status}" for status, count in sorted(statuses.items())))
    print(f"{options.count} texts, {differ} differ")
    return bool(differ)


if __name__ == "__main__":
    sys.exit(main())
