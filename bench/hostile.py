#!/usr/bin/env python3
"""Runs a built dfc on hostile texts, and looks for runs that break a rule.

    python3 bench/hostile.py PROGRAM [--count N] [--seed S] [--from N] [--one] [--whole N] [--large N] [--forking] [--counts FILE]
                             [--limit L] [--seconds T] [--megabytes M] [--save FOLDER] [--other OTHER] [--stock FOLDER]

PROGRAM is a built dfc. A text is made by its number and the seed alone: a text of examples/ or cases/, or with --stock of that folder
alone, with one to eight changes of its bytes, tokens, lines or labels; or one written at random, well formed for the most part; or, one in
N of --large (100), a large one near the limits of the language. Each is run under every job: regions, graph, fire (in both dialects, and by
picks), trace, store, forks (its output and its nodes), regen and run, each in a dialect and with data by chance, and with limit=L (2,000)
where the job has a limit; and once with arguments of any kind, those of `sample` among them. With --one, a text gets one of these runs,
drawn at random, and only one text in N of --whole (100) gets all. The rules:

- no signal ends a run, none takes more than T seconds of the processor (10), and none is given more than M megabytes of memory (1,024);
- the status is 0, 2, 3, 4 or 7, the last line fits it, and nothing is written to standard error;
- a refusal is one line `REFUSED line CODE`, with a known code and a line of the text or the one after it, or of the rewriting's at line 0;
- status 7 comes with nothing written;
- invalid arguments give `USAGE` and status 1, and such as are no text status 8;
- every job refuses alike, or none does;
- runs of one dialect and one list of data that end (0) or trap (3) do so alike: the same trap, the same output, by picks and rewritten
  too; and the output of one that stopped at a limit is a prefix of that of one that ended.

With --other, each run is made with that compiler of the language too, and both have to write the same and end alike, where neither wants for
memory.

With --forking a run is a copy of a process that is loaded once (forking.py). With --counts what came of it is kept in that file now and then, and the
next run with it goes on after the last text of those; `python3 bench/counts.py FILE..` adds several up.

Prints each run that breaks a rule; saves its text under FOLDER (hostile_found) with the words; and last prints a table: texts, runs by
status, refusals by code, the slowest run and the largest. The exit status is 1 where a rule was broken.
"""
import argparse
import glob
import os
import random
import re
import resource
import sys

from counts import kept
from forking import ForkingRunner
from running import Runner, broken, last_line, refusal

TOP = os.path.dirname(os.path.dirname(os.path.abspath(__file__)))
NUMBERS = ("0 1 2 3 7 -1 00 60 61 72 255 400 500 501 1023 1024 4000 4001 99999 100000 262144 262145 2147483647 2147483648 4294967296 "
           "99999999999999999999").split()
TOKENS = ("I A P X IF ( ) (( )) , = + - * ** / : ' '' .LT. .AND. .NOT. .TRUE. .EQV. & $ END STOP ELSE END#IF CONTINUE GO#TO DO#10#I=1,2 "
          "IF(P)THEN IF(I)10,20,30 INTEGER LOGICAL COMMON DATA EQUIVALENCE(A,I) DIMENSION#A(2) IMPLICIT#NONE PROGRAM#P READ*,I PRINT*,I "
          "WRITE(*,*) MOD( MAX( ABS( SIGN( CALL#S SUBROUTINE#S RETURN REAL#X FORMAT(I5)").split()
TOKENS = [it.replace("#", " ") for it in TOKENS]


# Changes. Each takes the chance and a text of bytes, and gives one.

def change_bytes(chance, text):
    at, stop = sorted(chance.randrange(len(text) + 1) for _ in range(2))
    stop = min(stop, at + chance.choice([1, 1, 1, 2, 8, 80]))
    new = bytes(chance.choice([chance.randrange(256), chance.choice(b" \n\r\t'&()0C,=.\x00\x7f\xff")]) for _ in range(chance.choice([0, 1, 1, 2])))
    form = chance.random()
    if form < 0.1:
        return text[:at] if form < 0.05 else text[at:]
    return text[:at] + (new if form < 0.8 else text[at:stop] * chance.choice([2, 3])) + text[stop:]


def change_tokens(chance, text):
    found = list(re.finditer(rb"\d+|[A-Za-z]+\d*|\.[A-Z]+\.|\*\*|\S", text))
    if not found:
        return text
    it, other = chance.choice(found), chance.choice(found).group()
    if it.group().isdigit() and chance.random() < 0.6:
        new = chance.choice(NUMBERS).encode()
    else:
        new = chance.choice([chance.choice(TOKENS).encode(), other, b"", it.group() * 2, b"(" + it.group() + b")"])
    return text[: it.start()] + new + text[it.end():]


def change_lines(chance, text):
    lines = text.split(b"\n")
    at, other = chance.randrange(len(lines)), chance.randrange(len(lines))
    line = lines[at]
    forms = [[], [line] * chance.choice([2, 3, 20, 21]), [lines[other], line], [line[:6] + b" " * chance.choice([1, 40]) + line[6:]],
             [line[: 6 + len(line[6:]) // 2], b"     &" + line[6 + len(line[6:]) // 2:]], [b"     &" + line[6:]], [b"C" + line, line],
             [line.lower()], [line + b"\r"], [line.ljust(72) + b"IGNORED"], [line, b"      END"], [line[chance.randrange(8):]]]
    lines[at: at + 1] = chance.choices(forms, [4, 4, 4, 4, 4, 1, 2, 2, 2, 2, 1, 1])[0]
    if chance.random() < 0.3:
        lines[at: at + 1], lines[other: other + 1] = lines[other: other + 1], lines[at: at + 1]
    return b"\n".join(lines)


def change_labels(chance, text):
    labels = [it.strip() for it in re.findall(rb"^ *\d[\d ]{0,4}(?=[ 0])", text, re.M)] or [b"10"]
    lines = text.split(b"\n")
    at = chance.randrange(len(lines))
    label = chance.choice(labels + [b"77", b"0", b"99999"])[:5]
    code = chance.choice([b"GO TO " + label, b"DO " + label + b" K=1,3", b"IF(I)" + label + b"," + chance.choice(labels) + b"," + label,
                          b"GO TO(" + b",".join(chance.choice(labels) for _ in range(chance.choice([1, 3, 12]))) + b"),I", b"CONTINUE"])
    forms = [label.rjust(5) + lines[at][5:], b"     " + lines[at][5:], b"      " + code, label.rjust(5) + b" " + code]
    lines[at: at + chance.randint(0, 1)] = [chance.choice(forms)]
    return b"\n".join(lines)


def splice(chance, text, other):
    """The beginning of one text and the end of another."""
    first, second = text.split(b"\n"), other.split(b"\n")
    return b"\n".join(first[: chance.randrange(len(first) + 1)] + second[chance.randrange(len(second)):])


def changed(chance, texts):
    text = chance.choice(texts)
    for _ in range(chance.choice([1, 1, 1, 2, 2, 3, 5, 8])):
        form = chance.choice([change_bytes, change_tokens, change_tokens, change_lines, change_lines, change_labels, change_labels, None])
        text = form(chance, text) if form else splice(chance, text, chance.choice(texts))
    return text[: 1 << 17]


class Writer:
    """Writes one program of about `size` statements."""

    def __init__(self, chance, size):
        self.chance, self.size, self.lines, self.open, self.loops = chance, size, [], [], 0
        self.scalars = ["I", "J", "K", "L", "M", "N"][: chance.randint(2, 6)] + ["I%d" % k for k in range(size // 20)]
        self.arrays, self.truths = {}, ["P", "Q"][: chance.randint(1, 2)]
        self.labels = [str(10 * k) for k in range(1, 2 + size // 6)]
        self.unplaced = list(self.labels)

    def put(self, text, label=""):
        """A statement on as many lines as it needs."""
        width = 66 if self.chance.random() < 0.97 else self.chance.randint(min(66, len(text) // 19 + 1), 66)
        for at in range(0, len(text), width):
            self.lines.append((label.rjust(5) + " " if at == 0 else "     " + self.chance.choice("&1X+")) + text[at: at + width])

    def declare(self):
        self.put("LOGICAL " + ",".join(self.truths))
        for name in ["A", "B", "C"][: self.chance.choice([0, 1, 1, 2, 3])]:
            lows = self.chance.choices([1, 1, 1, 0, -3], k=self.chance.choice([1, 1, 2, 3, 7]))
            bounds = [(low, low + self.chance.choice([0, 1, 2, 4, 9])) for low in lows]
            self.arrays[name] = bounds
            self.put("INTEGER " + name + "(" + ",".join(f"{low}:{high}" if low != 1 else str(high) for low, high in bounds) + ")")
        if self.chance.random() < 0.25:
            self.put("COMMON /C/ " + ",".join(self.chance.sample(self.scalars, 2)))
        for _ in range(self.chance.choice([0, 0, 0, 1, 1, 1, 1, 3]) if self.arrays else 0):
            name = self.chance.choice(list(self.arrays))
            at = ",".join(str(self.chance.randint(*pair)) for pair in self.arrays[name])
            self.put(f"EQUIVALENCE ({name}({at}),{self.chance.choice(self.scalars)})")
        if self.chance.random() < 0.3:
            self.put(f"DATA {self.scalars[0]}/{self.chance.choice(['1', '-5', '2147483647', '1*3'])}/")

    def target(self, depth=0):
        if self.arrays and self.chance.random() < 0.3:
            name = self.chance.choice(list(self.arrays))
            return name + "(" + ",".join(self.subscript(pair, depth + 1) for pair in self.arrays[name]) + ")"
        return self.chance.choice(self.scalars)

    def subscript(self, pair, depth):
        return str(self.chance.randint(*pair)) if depth > 3 or self.chance.random() < 0.6 else self.number(depth)

    def number(self, depth=0):
        turn = self.chance.random()
        if depth > 4 or turn < 0.3:
            return self.chance.choice(["0", "1", "2", "3", "5", "2147483647"] + self.scalars[:4])
        if turn < 0.5:
            return self.target(depth + 1)
        if turn < 0.85:
            return "(" + self.number(depth + 1) + self.chance.choice("+ - * / **".split() + ["+"]) + self.number(depth + 1) + ")"
        name, count = self.chance.choice([("MOD", 2), ("ABS", 1), ("SIGN", 2), ("MAX", 2), ("MIN", 3), ("IABS", 1), ("MAX0", 4)])
        return name + "(" + ",".join(self.number(depth + 1) for _ in range(count)) + ")"

    def truth(self, depth=0):
        turn = self.chance.random()
        if depth > 3 or turn < 0.6:
            return self.number(3) + self.chance.choice([".LT.", ".LE.", ".EQ.", ".NE.", ".GE.", ".GT."]) + self.number(3)
        if turn < 0.75:
            return self.chance.choice(self.truths + [".TRUE.", ".FALSE."])
        if turn < 0.85:
            return ".NOT.(" + self.truth(depth + 1) + ")"
        return "(" + self.truth(depth + 1) + self.chance.choice([".AND.", ".OR.", ".EQV.", ".NEQV."]) + self.truth(depth + 1) + ")"

    def plain(self):
        """A statement that a logical IF may hold."""
        label = lambda: self.chance.choice(self.labels)
        turn = self.chance.random()
        if turn < 0.45:
            return self.target() + "=" + self.number()
        if turn < 0.5:
            return self.chance.choice(self.truths) + "=" + self.truth()
        if turn < 0.62:
            return "PRINT *" + "".join("," + self.chance.choice([self.number(2), self.truth(2), "'IT''S'"]) for _ in range(self.chance.randint(0, 3)))
        if turn < 0.68:
            return "READ *," + ",".join(self.target() for _ in range(self.chance.randint(1, 3)))
        if turn < 0.82:
            return "GO TO " + label()
        if turn < 0.88:
            return "GO TO (" + ",".join(label() for _ in range(self.chance.choice([1, 2, 3, 9]))) + ")," + self.number(2)
        return f"IF({self.number(2)}){label()},{label()},{label()}" if turn < 0.95 else self.chance.choice(["CONTINUE", "STOP"])

    def statement(self):
        turn = self.chance.random()
        if 0.2 <= turn < 0.3 and self.open:
            self.close()
            return
        # A jump into a block is refused, so that labels stand outside for the most part.
        is_free = self.unplaced and self.chance.random() < (0.01 if self.open else 0.4)
        label = self.unplaced.pop(0) if is_free else ""
        if turn < 0.1:
            self.loops += 1
            for _ in range(self.chance.choice([1, 1, 1, 2])):
                self.put(f"DO {50000 + self.loops} {self.chance.choice(self.scalars)}={self.number(3)},{self.number(3)}"
                         + self.chance.choice(["", "", ",2", ",-1", ",K"]), label)
                label = ""
            self.open.append(str(50000 + self.loops))
        elif turn < 0.2:
            self.put("IF(" + self.truth() + ")THEN", label)
            self.open.append("IF")
        elif turn < 0.32:
            self.put("IF(" + self.truth() + ")" + self.plain(), label)
        else:
            self.put(self.plain(), label)

    def close(self):
        if self.open[-1] == "IF" and self.chance.random() < 0.4:
            self.open[-1] = self.chance.choice(["IF", "ELSE"])
            self.put("ELSE" if self.open[-1] == "ELSE" else "ELSE IF(" + self.truth() + ")THEN")
            return
        label = self.open.pop()
        if label in ("IF", "ELSE"):
            self.put("END IF")
        else:
            self.put(self.chance.choice(["CONTINUE", "J=J+1"]), label)

    def program(self):
        self.declare()
        while len(self.lines) < self.size:
            self.statement()
        while self.open:
            self.close()
        for label in self.unplaced:
            self.put(self.chance.choice(["CONTINUE", "I=I+1", "PRINT *,J"]), label)
        self.put("END")
        return "\n".join(self.lines).encode() + b"\n"


# Large texts. Each is a list of (label, statement), near a limit of the language.

def web(chance):
    """Jumps everywhere over many names."""
    count, names = chance.choice([500, 1900]), chance.choice([8, 100, 1000])
    listed = [("", "INTEGER " + ",".join("I%d" % k for k in range(at, min(names, at + 100)))) for at in range(0, names, 100)]
    for k in range(1, min(count, 1990 - len(listed) // 2)):
        listed += [(k, f"IF(I0.EQ.{k})GO TO {chance.randint(1, 450)}"), ("", f"I{k % names}=I{k * 7 % names}+1")]
    return listed


def nest(chance):
    """DO and IF in one another."""
    depth = chance.choice([200, 1300])
    heads = [("", f"DO {k} J{k % 9}=1,2") if chance.random() < 0.3 and k < 900 else ("", f"IF(I.EQ.{k})THEN") for k in range(1, depth)]
    ends = [(text.split()[1], "CONTINUE") if text[0] == "D" else ("", "END IF") for _, text in reversed(heads)]
    return heads + [("", "I=I+1")] + ends


def choices(chance):
    """Computed GO TOs with many labels."""
    count = chance.choice([100, 400, 401])
    picks = [("", "GO TO (" + ",".join(str(chance.randint(1, 99)) for _ in range(count)) + f"),I+{k}") for k in range(10)]
    return [("", "READ *,I")] + picks + [(k, f"I=I+{k}") for k in range(1, chance.choice([100, 2000]))]


def sums(chance):
    """Long and deep expressions, shared ones among them."""
    terms = [chance.choice(["I", "J", "(I+J)", "I*J", "MAX(I,J)"]) for _ in range(chance.choice([60, 100, 126]))]
    deep = "(" * 60 + "I" + "+1)" * 60
    body = [("", "K=" + "+".join(terms)), ("", "K=" + deep)] * chance.choice([3, 1990])
    return body + [("", "PRINT *" + ",I+J,K" * chance.choice([30, 83, 84]))]


def storage(chance):
    """Many words, and places that are chained."""
    size = chance.choice([131072, 262143])
    pairs = [f"(A({k}),I{k})" for k in range(1, chance.choice([60, 500, 1015, 1030]))]
    chains = [("", "EQUIVALENCE " + ",".join(pairs[at: at + 50])) for at in range(0, len(pairs), 50)]
    body = [("", f"DATA A/{size}*7/"), ("", "A(I)=A(J)+1")] * chance.choice([0, 1])
    return [("", f"INTEGER A({size})")] + chains + body + [("", "PRINT *,A(1),I1")]


def lists(chance):
    """READ and PRINT with many items, in a loop."""
    count = chance.choice([130, 390])
    body = [("", "READ *" + ",K" * count)] * 10 + [("", "PRINT *" + ",K" * count)] * chance.choice([10, 3900])
    return [("", "DO 10 I=1,50")] + body + [("10", "CONTINUE")]


def overlays(chance):
    """Elements of an array of many classes: each read needs all of them. With 700 such statements more memory is asked for than is given."""
    pairs = [f"(A({k}),I{k})" for k in range(1, 1015)]
    chains = [("", "EQUIVALENCE " + ",".join(pairs[at: at + 50])) for at in range(0, len(pairs), 50)]
    return [("", "INTEGER A(2000)"), *chains] + [("", "K=A(I1+1)" + "+A(I1)" * 90)] * chance.choice([1, 1, 1, 1, 20, 700])


def large(chance):
    """Statements on lines, and END."""
    lines = []
    for label, text in chance.choice([web, nest, choices, sums, storage, lists, overlays])(chance):
        lines += [(str(label).rjust(5) + " " if at == 0 else "     &") + text[at: at + 66] for at in range(0, len(text), 66)]
    return "\n".join(lines + ["      END", ""]).encode()


def text_of(chance, texts, large_ones=100):
    """A text; of so many one is large."""
    if chance.random() * large_ones < 1:
        text = large(chance)
        return text if chance.random() < 0.7 else change_tokens(chance, text)
    if chance.random() < 0.5:
        return changed(chance, texts)
    text = Writer(chance, chance.choice([3, 6, 10, 15, 25, 40] * 4 + [150])).program()
    for _ in range(chance.choice([0, 0, 0, 1, 2])):
        text = chance.choice([change_tokens, change_lines, change_labels, change_bytes])(chance, text)
    return text


def word_lists(chance, limit):
    """The words of each run on a text. Data and picks are the same for all."""
    data = [] if chance.random() < 0.4 else ["data=" + ",".join(str(chance.choice([0, 1, 2, 3, -1, 10, 2147483647, -2147483648]))
                                                                 for _ in range(chance.choice([1, 3, 9])))]
    picks = ["picks=" + ",".join(str(chance.choice([0, 1, 2, 3, 7, 99, 999999999])) for _ in range(chance.choice([1, 2, 3, 8])))]
    dialect = lambda: chance.choice([[], ["checked"]])
    for job in ("regions", "graph", "regen"):
        yield [job] + dialect()
    most = [f"limit={limit}"]
    yield ["fire"] + most + data
    yield ["fire"] + most + data + ["checked"]
    yield ["fire"] + most + picks + data + dialect()
    yield ["trace"] + most + chance.choice([[], picks]) + data + dialect()
    yield ["store"] + most + chance.choice([[], picks]) + data + dialect()
    yield ["forks"] + most + chance.choice([[], picks]) + data + dialect()
    yield ["forks", "nodes"] + most + chance.choice([[], picks]) + data + dialect()
    yield ["run"] + most + data + dialect()


def hostile_words(chance):
    """Arguments that are valid or nearly so."""
    limit = "limit=" + chance.choice(["0", "7", "99", "000000000000000010", "0000000000000000010", "", "-1", "+5", "1e3", " 5", "5 "])
    picks = "picks=" + chance.choice(["0", "1,2", "999999999", "0000000001", "1,", ",1", "", "1,,2", "-1", "1 2", "7" * 9 + ",7"])
    data = "data=" + chance.choice(["1", "-1,2", "2147483647", "2147483648", "-2147483648", "-2147483649", "0000000001", "00000000001", "-",
                                    "--1", "1,", "", "+1", "1,2,3"])
    number = chance.choice(["1", "2", "13", "0", "-1", "", "000000000000000001", "0000000000000000001", "2000", "2001", "1 ", "4294967297"])
    if chance.random() < 0.1:
        return ["sample", number, *(["checked"] if chance.random() < 0.1 else [])]
    words = [chance.choice(["fire", "trace", "store", "forks", "run", "graph", "regions", "regen", "fire", "run", "Fire", "fires", "sample", ""]),
             *(["nodes"] if chance.random() < 0.2 else []),
             *(word for word in (limit, picks, data, "checked") if chance.random() < 0.5)]
    for _ in range(chance.choice([0, 0, 0, 1, 1, 2]) if words else 0):
        words = words or [""]
        at = chance.randrange(len(words))
        words[at: at + 1] = chance.choice([[], [words[at]] * 2, [words[at].upper()], [words[at] + "\udcff"], [words[at], ""], [words[at] + "="],
                                           [words[at], "checked"], [words[at][:-1]], list(reversed(words[at: at + 2])), ["x" * 100000]])
    return words


def is_number(text):
    return re.fullmatch(r"-?[0-9]{1,10}", text) is not None and -2147483648 <= int(text) <= 2147483647


def status_of_words(words):
    """1 where the arguments ask for no job, 8 where they can't be read, else nothing."""
    if any("\udcff" in word for word in words):
        return 8
    if words[:1] == ["sample"]:
        return None if len(words) == 2 and re.fullmatch("[0-9]{1,18}", words[1]) and 1 <= int(words[1]) <= 2000 else 1
    forms = [r"limit=[0-9]{1,18}", r"picks=[0-9]{1,9}(,[0-9]{1,9})*", r"data=.*", "checked"]
    allowed = {"fire": forms, "trace": forms, "store": forms, "forks": forms, "run": [forms[0], *forms[2:]]}.get(words[0] if words else "", forms[3:])
    rest = words[2:] if words[:2] == ["forks", "nodes"] else words[1:]
    for form in allowed:
        taken = bool(rest) and re.fullmatch(form, rest[0], re.S) is not None
        if taken and form == forms[2] and not all(is_number(part) for part in rest[0][5:].split(",")):
            return 1
        rest = rest[1:] if taken else rest
    is_job = words and words[0] in ("fire", "trace", "store", "forks", "run", "graph", "regions", "regen")
    return None if is_job and not rest else 1


def broken_words(words, answer, lines):
    """The rule that a run with arguments of any kind breaks, or nothing."""
    due = status_of_words(words)
    if due is None:
        return broken(words, answer, lines) or (broken_sample(words, answer) if words[0] == "sample" else None)
    return None if (answer.status, answer.begin) == (due, b"USAGE\n" if due == 1 else b"") else f"status {answer.status}, due {due}"


def broken_sample(words, answer):
    """The rule that a sample breaks, or nothing: it is done, and its two outputs agree."""
    lines = answer.begin.split(b"\n")
    good = answer.status == 0 and len(lines) == 6 and lines[0].startswith(b"SAMPLE %d BYTES " % int(words[1])) and lines[3] == lines[4]
    return None if good or answer.status == 7 else "it isn't what a sample tells"


def output_of(answer):
    """What the program itself wrote, where all of it was kept."""
    if answer.length != len(answer.begin):
        return None
    return answer.begin if answer.status == 0 else answer.begin[: -len(last_line(answer)) - 1]


def shows_output(words):
    """Whether a run writes the program's own output."""
    return words[0] in ("fire", "run") or words[0] == "forks" and words[1] != "nodes"


def disagree(runs):
    """The rule that several runs on one text break, with the words of one, or nothing."""
    refused = {words[0]: refusal(answer) for words, answer in runs if answer.status != 7}
    refused = {job: told for job, told in refused.items() if told is None or told[0] > 0 or told[1] == "TOOLONG"}
    plain = [told for job, told in refused.items() if job not in ("regen", "run")]
    if len(set(plain)) > 1 or plain and plain[0] and set(refused.values()) != {plain[0]}:
        return runs[0][0], f"the jobs don't refuse alike: {refused}"
    for checked in (True, False):
        mine = [(words, it) for words, it in runs if words[0] in ("fire", "run", "store", "trace", "forks") and ("checked" in words) == checked]
        ended = [(words, it) for words, it in mine if it.status in (0, 3)]
        traps = {last_line(it).split(" LINE")[0] if it.status == 3 else "" for _, it in ended}
        if len(traps) > 1:
            return ended[0][0], f"the runs don't end alike: {traps}"
        whole = {output_of(it) for words, it in ended if shows_output(words)} - {None}
        parts = [output_of(it) for words, it in mine if it.status == 4 and shows_output(words)]
        if len(whole) > 1 or whole and any(part is not None and not next(iter(whole)).startswith(part) for part in parts):
            return mine[0][0], "the outputs differ"
    return None


class Reports:
    """Where runs that broke a rule are told and kept."""

    def __init__(self, folder):
        self.folder, self.found = folder, 0

    def add(self, number, text, words, rule):
        self.found += 1
        os.makedirs(self.folder, exist_ok=True)
        path = os.path.join(self.folder, f"text_{number}")
        with open(path, "wb") as file, open(path + ".args", "w") as args:
            file.write(text)
            args.write("\n".join(words).encode("utf-8", "replace").decode() + "\n")
        print(f"text {number}, {' '.join(words)[:200]}: {rule}; saved as {path}", flush=True)


def differ(mine, theirs):
    """How the answer of another compiler differs, or nothing."""
    if 7 in (mine.status, theirs.status) or mine[:4] == theirs[:4]:
        return None
    return f"status {mine.status}, {mine.end[-60:]!r}; the other has status {theirs.status}, {theirs.end[-60:]!r}"


class Trial:
    """Runs of a program on texts, and what came of them."""

    def __init__(self, runner, counts, reports, other):
        self.runner, self.counts, self.reports, self.other = runner, counts, reports, other

    def try_words(self, number, text, words, rule_of):
        """One run on the text that was put."""
        answer = self.runner.run(words)
        self.counts.add(f"text {number}", words, answer, words[0] if rule_of is broken else "any arguments")
        rule = rule_of(words, answer, text.count(b"\n") + (not text.endswith(b"\n") and text != b""))
        if self.other and not rule and rule_of is broken:
            rule = differ(answer, self.runner.run(words, self.other))
        if rule:
            self.reports.add(number, text, words, rule)
        return answer

    def try_one(self, number, text, lists, hostile, chance):
        """Runs one text under one of the jobs, or with arguments of any kind."""
        at = chance.randrange(len(lists) + 1)
        answer = self.try_words(number, text, *((lists[at], broken) if at < len(lists) else (hostile, broken_words)))
        if at < len(lists) and lists[at][0] not in ("regen", "run"):
            self.counts.tell(answer)

    def try_all(self, number, text, lists, hostile):
        """Runs one text under every job, and once with arguments of any kind."""
        runs = [(words, self.try_words(number, text, words, broken)) for words in lists]
        self.try_words(number, text, hostile, broken_words)
        self.counts.tell(runs[0][1])
        rule = disagree(runs)
        if rule:
            self.reports.add(number, text, *rule)


def corpus(folder):
    """The texts of the folder, or of examples/ and cases/, but for long ones."""
    paths = glob.glob(os.path.join(folder, "*")) if folder else glob.glob(os.path.join(TOP, "examples", "*.f")) + glob.glob(os.path.join(TOP, "cases", "*", "*"))
    for path in sorted(paths):
        if os.path.isfile(path) and (path.endswith(".f") or "." not in os.path.basename(path)) and os.path.getsize(path) < 20000:
            with open(path, "rb") as file:
                yield file.read()


def options_of():
    parser = argparse.ArgumentParser(description=__doc__, formatter_class=argparse.RawDescriptionHelpFormatter)
    parser.add_argument("program")
    parser.add_argument("--save", default="hostile_found")
    parser.add_argument("--other")
    parser.add_argument("--counts")
    parser.add_argument("--stock")
    for name in ("one", "forking"):
        parser.add_argument("--" + name, action="store_true")
    for name, value in [("count", 1000), ("seed", 1), ("from", 0), ("limit", 2000), ("seconds", 10), ("megabytes", 1024), ("whole", 100), ("large", 100)]:
        parser.add_argument("--" + name, type=int, default=value)
    return parser.parse_args()


def processor():
    """The seconds of the processor that this process and those that it started have taken, as far as they have ended."""
    return sum(it.ru_utime + it.ru_stime for it in map(resource.getrusage, (resource.RUSAGE_SELF, resource.RUSAGE_CHILDREN)))


def main():
    options = options_of()
    counts, reports, texts = kept(options.counts or ""), Reports(options.save), list(dict.fromkeys(corpus(options.stock)))
    runner = (ForkingRunner if options.forking else Runner)(options.program, options.seconds, options.megabytes)
    trial, first = Trial(runner, counts, reports, options.other), getattr(options, "from")
    before, taken = counts.found, counts.processor
    for number in range(first + counts.texts, first + options.count):
        chance = random.Random(options.seed * 1000003 + number)
        text = text_of(chance, texts, options.large)
        lists, hostile = list(word_lists(chance, options.limit)), hostile_words(chance)
        runner.put(text)
        if options.one and number % options.whole != 0:
            trial.try_one(number, text, lists, hostile, chance)
        else:
            trial.try_all(number, text, lists, hostile)
        counts.add_text(text)
        if number % 1000 == 999 or number == first + options.count - 1:
            counts.found, counts.processor = before + reports.found, taken + processor() + runner.processor()
            if options.counts:
                counts.keep(options.counts)
            print(f"{counts.texts} texts, {counts.found} runs broke a rule", file=sys.stderr, flush=True)
    counts.show()
    return 1 if counts.found else 0


if __name__ == "__main__":
    sys.exit(main())
