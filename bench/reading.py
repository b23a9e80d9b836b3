#!/usr/bin/env python3
"""Times how long a built dfc takes for the largest texts of several kinds.

    python3 bench/reading.py DFC

DFC is a command in quotes. Each text is given to `DFC fire` or to `DFC regions`, three times. Prints for each text its size, the best
time, and the answer: a refusal, `run`, or another status; at the end the most memory that a run of `DFC regions` took.
"""
import resource
import shlex
import subprocess
import sys
import time

DIGITS = "0123456789ABCDEFGHIJKLMNOPQRSTUVWXYZ"


def text_of(statements):
    """The lines of statements (label, text), up to 66 columns each, and END."""
    lines = []
    for label, text in statements + [("", "END")]:
        for at in range(0, len(text), 66):
            lines.append((label.rjust(5) + " " if at == 0 else "     &") + text[at: at + 66])
    return "\n".join(lines) + "\n"


def name(number):
    """An integer name of six characters."""
    return "I" + "".join(DIGITS[number // 36 ** place % 36] for place in (4, 3, 2, 1, 0))


def unlabelled(texts):
    return [("", text) for text in texts]


def wide():
    """Statements of 1,319 characters, on 20 lines each."""
    return unlabelled("I=I%05d" % (number % 9) + "+J%05d" % (number % 7) * 187 + "+17" for number in range(2700))


def jumps(count):
    """As many labels, each on a GO TO to another one."""
    return [(str(number + 1), "GO TO %d" % (number * 7919 % count + 1)) for number in range(count)]


def ifs(depth):
    return unlabelled(["IF(I.EQ.J)THEN"] * depth + ["END IF"] * depth)


def loops(depth):
    starts = [("", "DO %d I=1,2" % (depth - number)) for number in range(depth)]
    return starts + [(str(number + 1), "CONTINUE") for number in range(depth)]


def equivalent(count, part, shared):
    """Groups of that many names; where `shared`, each group has the last name of the one before."""
    groups = []
    for at in range(0, count, part):
        first = at - 1 if shared and at else at
        groups.append("(" + ",".join(name(number) for number in range(first, min(count, at + part))) + ")")
    each = 1300 // (7 * (part + 1) + 2)
    return unlabelled("EQUIVALENCE" + ",".join(groups[at: at + each]) for at in range(0, len(groups), each))


def covering(arrays, parts):
    """Arrays at one place, and scalars in every second word of it."""
    size = 2 * parts + 1
    declared = ["%s(%d)" % (name(number), size) for number in range(arrays)]
    placed = ["(%s(1),%s(1))" % (name(0), name(number)) for number in range(1, arrays)]
    placed += ["(%s(%d),J%d)" % (name(0), 2 * part + 2, part) for part in range(parts)]
    return unlabelled([word + ",".join(items[at: at + 50]) for word, items in [("INTEGER ", declared), ("EQUIVALENCE", placed)] for at in range(0, len(items), 50)])


def one_by_one():
    """DATA with a value for each word of 403 arrays."""
    arrays = ["M%03d" % number for number in range(403)]
    return unlabelled(["INTEGER %s(650)" % array for array in arrays] + ["DATA %s/1%s/" % (array, ",2" * 649) for array in arrays])


def loops_of_jumps(count):
    """Loops of GO TO, each within the one before."""
    starts = [(str(number + 1), "I=I+1") for number in range(count)]
    return starts + [("", "IF(I.LT.%d)GO TO %d" % (number, count - number)) for number in range(count)]


def one_terminal(count):
    return unlabelled(["DO 1 I=1,2"] * count) + [("1", "CONTINUE")]


def many_targets():
    """Computed GO TOs with 4,000 labels in all."""
    starts = [(str(number + 1), "I=I+1") for number in range(3900)]
    return starts + unlabelled("GO TO(%s),I" % ",".join(str(number * 180 + k + 1) for k in range(200)) for number in range(20))


def endless(count):
    """Loops that never end, each entered by a jump past it."""
    lines = []
    for number in range(count // 2):
        lines += [("", "IF(I.EQ.%d)GO TO %d" % (number, number + 1)), (str(number + 1), "GO TO %d" % (number + 1))]
    return lines


def into_endless(count):
    """Jumps into a loop that never ends, in reverse order."""
    first = [("", "IF(I.EQ.%d)GO TO %d" % (number, count // 2 - number)) for number in range(count // 2)]
    return first + [(str(number + 1), "CONTINUE") for number in range(count // 2)] + [("", "GO TO 1")]


def chain(count, calls):
    """The main program and that many subroutines, each unit but the last with so many CALLs of the next one."""
    lines = ["CALL S1"] * calls
    for number in range(1, count + 1):
        lines += ["END", "SUBROUTINE S%d" % number] + ["CALL S%d" % (number + 1)] * (calls if number < count else 0)
    return unlabelled(lines)


def comments():
    return ("C" * 63 + "\n") * 65535 + "      END\n"


TEXTS = [
    ("4 MiB of comments", comments()),
    ("2,700 statements of 1,319 characters", wide()),
    ("3,999 statements I=1", unlabelled(["I=1"] * 3999)),
    ("3,000 labels, 3,000 GO TOs", jumps(3000)),
    ("1,999 nested IF blocks", ifs(1999)),
    ("1,020 nested DO loops", loops(1020)),
    ("100,000 names in EQUIVALENCE, one storage", equivalent(100000, 100, True)),
    ("100,000 names in EQUIVALENCE, in pairs", equivalent(100000, 2, False)),
    ("20,000 arrays, 1,000 scalars in each", covering(20000, 1000)),
    ("DATA of 262,144 words, one run", unlabelled(["INTEGER A(262144)", "DATA A/262144*1/"])),
    ("DATA of 261,950 words, one by one", one_by_one()),
    ("DATA of 3,998 elements", unlabelled(["INTEGER A(262144)"] + ["DATA A(%d)/1/" % (262144 - k) for k in range(3998)])),
    ("1,200 subroutines in a chain of CALLs", chain(1200, 1)),
    ("999 subroutines, called 2^999 times", chain(999, 2)),
]


GRAPHS = [
    ("3,999 statements I=1", unlabelled(["I=1"] * 3999)),
    ("1,020 nested DO loops", loops(1020)),
    ("1,020 DOs with one terminal statement", one_terminal(1020)),
    ("1,999 nested loops of GO TO", loops_of_jumps(1999)),
    ("computed GO TOs with 4,000 labels", many_targets()),
    ("1,950 loops that never end", endless(3900)),
    ("1,950 jumps into a loop that never ends", into_endless(3900)),
]


def show(dfc, job, title, statements):
    """The size of a text, the best of three times, and the answer."""
    text, best = (statements if isinstance(statements, str) else text_of(statements)).encode(), None
    for _ in range(3):
        begin = time.perf_counter()
        done = subprocess.run(dfc + [job], input=text, stdout=subprocess.PIPE)
        took = time.perf_counter() - begin
        best = min(best or took, took)
    answer = done.stdout.decode().strip() if done.returncode == 2 else "run" if done.returncode == 0 else f"status {done.returncode}"
    print(f"{job:7} {title:42} {len(text):9,} bytes  {best:7.3f} s  {answer}", flush=True)


def main():
    if {"-h", "--help"} & {*sys.argv[1:]}:
        print(__doc__)
        return 0
    if len(sys.argv) != 2:
        sys.exit(__doc__)
    dfc = shlex.split(sys.argv[1])
    for title, statements in GRAPHS:
        show(dfc, "regions", title, statements)
    most = resource.getrusage(resource.RUSAGE_CHILDREN).ru_maxrss
    print(f"regions: at most {most / 1024:.0f} MiB", flush=True)
    for title, statements in TEXTS:
        show(dfc, "fire", title, statements)


main()
