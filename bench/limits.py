#!/usr/bin/env python3
"""Runs a built dfc on texts at each limit and one past it.

    python3 bench/limits.py PROGRAM [--only WORD] [--store FOLDER]

PROGRAM is a built dfc, or another compiler of the language. docs/LIMITS.md has a row for each name here. A row gives a text and arguments for
a number: for the limit `greatest` and for one more, or, where it is a least number, for `least` and for one less; and what is due for
each. Five of them are tried under each job in each dialect too. Prints the rows that differ, and last `N passed, M failed`; compares the names with those of docs/LIMITS.md. With --store, writes those texts
of at most 60,000 bytes as stored cases: NAME_at and NAME_past.
"""
import argparse
import collections
import os
import re
import subprocess
import sys

TOP = os.path.dirname(os.path.dirname(os.path.abspath(__file__)))
SMALL = 60000
STATUS = {"USAGE": 1, "REFUSED": 2, "TRAP": 3, "LIMIT": 4}
# `make` gives arguments and a text for a number; `at` is due for `number`, and `past` for `number + step`.
Limit = collections.namedtuple("Limit", "name number make at past step", defaults=[1])


def text(*statements):
    """The text of statements, each a text or a label with one, and END."""
    lines = []
    for it in (*statements, "END"):
        label, what = it if isinstance(it, tuple) else ("", it)
        for at in range(0, len(what), 66):
            lines.append(str(label).rjust(5) + (" " if at == 0 else "&") + what[at: at + 66])
    return "\n".join(lines) + "\n"


def fire(*statements):
    return ["fire"], text(*statements)


def graph(*statements):
    return ["regions"], text(*statements)


def run(*statements):
    return ["run"], text(*statements)


def expansion(count):
    """CALLs whose expansion has so many statements, three for each CALL."""
    return ["fire"], text(*["CALL S"] * 1332, *["I=1"] * (count - 3997)) + text("SUBROUTINE S", "CONTINUE")


def own_names(count):
    """Subroutines with so many names of their own."""
    first = "ABCDEFGHIJKLMNOPQRSTUVWXYZ"
    names = [a + b for a in first for b in ["", *first, *"0123456789"]]
    units = [text()]
    for number, at in enumerate(range(0, count, len(names))):
        some = names[: count - at]
        units.append(text(f"SUBROUTINE S{number}", *("INTEGER " + ",".join(some[k: k + 321]) for k in range(0, len(some), 321))))
    return ["fire"], "".join(units)


def bytes_of_text(count):
    """A program after comments, of so many bytes."""
    program = text("PRINT *,1")
    comment = "C" * 63 + "\n"
    whole, rest = divmod(count - len(program), 64)
    return ["fire"], comment * whole + ("C" * (rest - 1) + "\n" if rest else "") + program


def continued(count):
    return ["fire"], "      PRINT *,1\n" + "     &+1\n" * count + "      END\n"


def column(number):
    """A digit in that column, after another in column 15."""
    return ["fire"], ("      PRINT *,1".ljust(number - 1) + "2") + "\n      END\n"


def characters(count):
    """A statement of so many characters."""
    return fire("PRINT *," + "7".rjust(count - 8, "0"))


def in_brackets(depth):
    return fire("PRINT *," + "(" * depth + "1" + ")" * depth)


def dimensions(count):
    return graph("INTEGER A(" + ",".join(["1"] * count) + ")")


def labels(count):
    rows = [("", "GO TO (" + ",".join(["10"] * min(400, count - at)) + "),I") for at in range(0, count, 400)]
    return fire((10, "I=I+1"), "IF(I.GT.1)STOP", *rows)


def takes(count, words=("run",), *others):
    """So many items of READ, at most 250 in a statement."""
    return list(words), text(*["READ *" + ",K" * min(250, count - at) for at in range(0, count, 250)], *others)


def scalars(count):
    names = ["I%d" % k for k in range(count)]
    return fire(*["INTEGER " + ",".join(names[at: at + 200]) for at in range(0, count, 200)])


def picks(digits):
    return ["fire", "picks=" + "7".rjust(digits, "0")], text("PRINT *,1")


def data(value):
    return ["fire", f"data={value}"], text("READ *,I", "PRINT *,I")


def data_digits(count):
    return data("7".rjust(count, "0"))


def sample_digits(count):
    return ["sample", "1".rjust(count, "0")], ""


def limit_digits(count):
    return ["fire", "limit=" + "9" * count], text("PRINT *,1")


def limit_of_firings(count):
    return ["store", f"limit={9 - count}"], text("I=2", "J=I*I+1", "PRINT *,J,I")


def firings(count):
    """So many firings, 1,000,000 or one more."""
    return ["store"], text("DO 10 I=1,199999", (10, "CONTINUE"), *["J=1"] * (count - 1000000))


def steps(count):
    """So many steps of the rewritten program, 1,000,000 or one more."""
    return ["run"], text("DO 10 I=1,333332", (10, "J=I"), *["J=1"] * (count - 999999), "PRINT *,I")


def words_with_temporary(count):
    """A program with one repeated expression, and so many words with its temporary."""
    return run(f"INTEGER A({count - 4})", "READ *,I,J", "K=I+J", "PRINT *,I+J")


def rewritten_statements(count):
    """A program whose simplified form has so many statements: one more for the name K, and END."""
    return takes(count - 2)


def shared_statements(count):
    """A program whose shared form has so many statements."""
    return takes(count - 10, ["run"], "READ *,I,J", "K=I+J", "PRINT *,I+J")


def long_text(count):
    """A statement whose text becomes so many characters long."""
    digits = count - 3 - 11 * 119 - 4
    return run("READ *,J", "N=-1000000", "M=-" + "1".ljust(digits, "0"), "K=J" + "+N" * 119 + "+M")


def deep_text(depth):
    """A statement in whose text so many brackets become open at once."""
    return run("READ *,J", "N=-3", "K=" + "J-(" * (depth - 1) + "J-N" + ")" * (depth - 1))


def temporaries(count):
    """A program that asks for so many temporaries, 159 in each pair of statements."""
    rows = ["PRINT *" + "".join(f",I+{k}" for k in range(at, min(at + 120, count))) for at in range(0, count, 120)]
    return run("READ *,I", *rows, *rows)


def blocks(count):
    return fire(*["IF(I.EQ.0)THEN"] * count, *["END IF"] * count)


SAMPLE_1 = "SAMPLE 1 BYTES 239\nPIECES 20 EDGES 23 CLASSES 7 REGIONS 16\nLINES 8 NODES 69\n" + " 5 7 1\n" * 2
SAMPLE_2000 = ("SAMPLE 2000 BYTES 27698\nPIECES 2842 EDGES 3343 CLASSES 1003 REGIONS 2340\nLINES 174 NODES 10859\n"
               + " 14696 316226023 167\n" * 2)

LIMITS = [
    Limit("text_bytes", 4194304, bytes_of_text, " 1\n", "REFUSED 0 TOOLONG\n"),
    Limit("byte_greatest", 126, lambda code: fire(f"PRINT *,'{chr(code)}'"), " ~\n", "REFUSED 1 BADBYTE\n"),
    Limit("byte_least", 32, lambda code: fire(f"PRINT *,'{chr(code)}'"), "  \n", "REFUSED 1 BADBYTE\n", -1),
    Limit("column", 72, column, " 12\n", " 1\n"),
    Limit("continuations", 19, continued, " 20\n", "REFUSED 21 MANYCONT\n"),
    Limit("characters", 1320, characters, " 7\n", "REFUSED 21 MANYCONT\n"),
    Limit("statements", 4000, lambda count: fire(*["I=1"] * (count - 1)), "", "REFUSED 4001 MANYSTMTS\n"),
    Limit("expansion", 4000, expansion, "", "REFUSED 1337 MANYSTMTS\n"),
    Limit("own_names", 99999, own_names, "", "REFUSED 1 MANYNAMES\n"),
    Limit("blocks", 1999, blocks, "", "REFUSED 4001 MANYSTMTS\n"),
    Limit("label_greatest", 99999, lambda label: fire(f"GO TO {label}", (99999, "PRINT *,1")), " 1\n", "REFUSED 1 BADCONST\n"),
    Limit("label_least", 1, lambda label: fire(f"GO TO {label}", (1, "PRINT *,1")), " 1\n", "REFUSED 1 BADCONST\n", -1),
    Limit("label_field", 1, lambda label: fire((label, "PRINT *,1")), " 1\n", "REFUSED 1 BADLABEL\n", -1),
    Limit("name", 6, lambda count: fire("J" * count + "=1"), "", "REFUSED 1 NOFORM\n"),
    Limit("constant", 2147483647, lambda number: fire(f"PRINT *,{number}"), " 2147483647\n", "REFUSED 1 BADCONST\n"),
    Limit("brackets", 60, in_brackets, " 1\n", "REFUSED 1 TOODEEP\n"),
    Limit("text_constant", 1, lambda count: fire("PRINT *,'" + "A" * count + "'"), " A\n", "REFUSED 1 NOFORM\n", -1),
    Limit("stop", 5, lambda count: fire("STOP " + "1" * count), "", "REFUSED 1 NOFORM\n"),
    Limit("arguments", 2, lambda count: fire("PRINT *,MAX(" + ",".join("12"[:count]) + ")"), " 2\n", "REFUSED 1 BADTYPE\n", -1),
    Limit("group", 2, lambda count: fire("EQUIVALENCE (" + ",".join("IJ"[:count]) + ")"), "", "REFUSED 1 NOFORM\n", -1),
    Limit("dimensions", 7, dimensions, None, "REFUSED 1 NOFORM\n"),
    Limit("bound_greatest", 2147483647, lambda high: graph(f"INTEGER A(2147483647:{high})"), None, "REFUSED 1 BADCONST\n"),
    Limit("bound_least", -2147483647, lambda low: graph(f"INTEGER A({low}:-2147483600)"), None, "REFUSED 1 BADCONST\n", -1),
    Limit("elements", 262144, lambda count: graph(f"INTEGER A({count})"), None, "REFUSED 1 BADLAYOUT\n"),
    Limit("words", 262144, lambda count: graph("INTEGER A(262143)", f"INTEGER B({count - 262143})"), None, "REFUSED 3 MANYWORDS\n"),
    Limit("repeat_greatest", 2147483647, lambda count: fire(f"DATA I/{count}*1/"), "REFUSED 1 BADLAYOUT\n", "REFUSED 1 BADCONST\n"),
    Limit("repeat_least", 1, lambda count: fire(f"DATA I/{count}*7/", "PRINT *,I"), " 7\n", "REFUSED 1 BADCONST\n", -1),
    Limit("operations", 500, lambda count: fire("I=I" + "+I" * 249 + "+1" * (count - 500)), "", "REFUSED 1 MANYOPS\n"),
    Limit("labels", 4000, labels, "", "REFUSED 193 MANYOPS\n"),
    Limit("read_items", 4000, lambda count: takes(count, ["fire"]), "TRAP INPUT LINE 1\n", "REFUSED 129 MANYOPS\n"),
    Limit("classes", 1023, scalars, "", "REFUSED 82 MANYCLASSES\n"),
    Limit("word", 2147483646, lambda number: (["fire", "checked"], text(f"I={number}", "PRINT *,I+1")), " 2147483647\n", "TRAP OVERFLOW LINE 2\n"),
    Limit("limit_digits", 18, limit_digits, " 1\n", "USAGE\n"),
    Limit("pick_digits", 9, picks, " 1\n", "USAGE\n"),
    Limit("data_greatest", 2147483647, data, " 2147483647\n", "USAGE\n"),
    Limit("data_least", -2147483648, data, " -2147483648\n", "USAGE\n", -1),
    Limit("data_digits", 10, data_digits, " 7\n", "USAGE\n"),
    Limit("sample_greatest", 2000, lambda number: (["sample", str(number)], ""), SAMPLE_2000, "USAGE\n"),
    Limit("sample_least", 1, lambda number: (["sample", str(number)], ""), SAMPLE_1, "USAGE\n", -1),
    Limit("sample_digits", 18, sample_digits, SAMPLE_1, "USAGE\n"),
    Limit("limit", 0, limit_of_firings, "I 2\nJ 5\nFIRED 9\n", "LIMIT 8\n"),
    Limit("firings", 1000000, firings, "I 200000\nFIRED 1000000\n", "LIMIT 1000000\n"),
    Limit("steps", 1000000, steps, " 333333\n", " 333333\nLIMIT 1000000\n"),
    Limit("rewritten_words", 262144, words_with_temporary, "TRAP INPUT\n", "REFUSED 0 MANYNAMES\n"),
    Limit("temporaries", 99999, temporaries, "REFUSED 0 MANYSTMTS\n", "REFUSED 0 MANYNAMES\n"),
    Limit("rewritten_statements", 4000, rewritten_statements, "TRAP INPUT\n", "REFUSED 0 MANYSTMTS\n"),
    Limit("shared_statements", 4000, shared_statements, "TRAP INPUT\n", "REFUSED 0 MANYSTMTS\n"),
    Limit("rewritten_characters", 1320, long_text, "TRAP INPUT\n", "REFUSED 0 LONGTEXT\n"),
    Limit("rewritten_brackets", 60, deep_text, "TRAP INPUT\n", "REFUSED 0 LONGTEXT\n"),
]


# The jobs that read a text, and the limits at which each is tried.
JOBS = ["regions", "graph", "fire", "trace", "store", "forks", "forks nodes", "regen", "run"]
OF_EACH_JOB = ["text_bytes", "statements", "elements", "words", "operations"]


def status_of(due):
    return STATUS.get(due.split("\n")[-2].split(" ")[0], 0) if due else 0


def answer(program, words, given):
    done = subprocess.run([program] + words, input=given.encode("latin-1"), stdout=subprocess.PIPE)
    return done.returncode, done.stdout.decode("latin-1")


def cases(limit):
    """The text at a limit and the one past it: name, arguments, text and what is due."""
    for end, number, due in [("at", limit.number, limit.at), ("past", limit.number + limit.step, limit.past)]:
        words, given = limit.make(number)
        yield f"{limit.name}_{end}", words, given, due


def is_due(due, status, out):
    """Without bytes due the text has to be accepted."""
    return (status, out) == (status_of(due), due) if due is not None else status == 0 and out.startswith("PIECES ")


def under_each_job(program, limit):
    """What each job doesn't accept at a limit, or doesn't refuse past it."""
    for name, _, given, due in cases(limit):
        for words in [job.split() + dialect for job in JOBS for dialect in ([], ["checked"])]:
            is_long = limit.name == "statements" and words[0] in ("regen", "run")
            status, out = answer(program, words, given)
            if name.endswith("_past"):
                good = (status, out) == (2, due)
            elif is_long:
                good = (status, out) == (2, "REFUSED 0 MANYSTMTS\n")
            else:
                # (`regions` tells lines of the text)
                short = text("PRINT *,1") if limit.name == "text_bytes" and words[0] != "regions" else given
                good = (status, out) == (0, answer(program, words, short)[1])
            yield None if good else f"{name} ({' '.join(words)}): status {status}, {out[:60]!r}"


def store(folder, name, words, given, out):
    os.makedirs(folder, exist_ok=True)
    for end, what in [("", given), (".args", "".join(word + "\n" for word in words)), (".stdout", out)]:
        with open(os.path.join(folder, name + end), "w", encoding="latin-1", newline="") as file:
            file.write(what)


def documented():
    """The names that docs/LIMITS.md has a row for."""
    with open(os.path.join(TOP, "docs", "LIMITS.md")) as file:
        return set(re.findall(r"\| `(\w+)` \|$", file.read(), re.M))


def main():
    parser = argparse.ArgumentParser(description=__doc__, formatter_class=argparse.RawDescriptionHelpFormatter)
    parser.add_argument("program")
    parser.add_argument("--only", default="")
    parser.add_argument("--store")
    options = parser.parse_args()
    passed, failed = 0, 0
    for limit in [it for it in LIMITS if options.only in it.name]:
        for name, words, given, due in cases(limit):
            status, out = answer(options.program, words, given)
            good = is_due(due, status, out)
            passed, failed = passed + good, failed + (not good)
            if not good:
                print(f"{name} ({' '.join(words)[:60]}): status {status}, {out[:60]!r}, due {due!r}")
            if good and options.store and len(given) <= SMALL:
                store(options.store, name, words, given, out)
        wrong = list(under_each_job(options.program, limit)) if limit.name in OF_EACH_JOB else []
        passed, failed = passed + wrong.count(None), failed + len(wrong) - wrong.count(None)
        print("".join(it + "\n" for it in wrong if it), end="")
    if not options.only:
        differ = documented() ^ {it.name for it in LIMITS}
        passed, failed = passed + (not differ), failed + bool(differ)
        print("".join(f"docs/LIMITS.md and this script differ in {name}\n" for name in sorted(differ)), end="")
    print(f"{passed} passed, {failed} failed")
    return 1 if failed else 0


if __name__ == "__main__":
    sys.exit(main())
