#!/usr/bin/env python3
"""Runs a built dfc on texts cut at each byte, and with a standard input or output that fails.

    python3 bench/truncated.py PROGRAM [--texts FOLDER].. [--limit L]

PROGRAM is a built dfc. The texts are those of examples/, and of each FOLDER the files of less than 400 bytes without a dot in their names.
Each text is cut at each byte, the whole one among them, and run under every job in both dialects, with limit=L (2,000) where the job has
one. The rules are those of bench/hostile.py for a single run, and that all jobs refuse alike: where the whole text is accepted, a part of
it whose last statement isn't END by NOEND at the line after the last, unless it ends in a CR. Then each whole text is run under every job

- with a standard input that is a folder, or is closed: status 5, and nothing is written;
- with a standard output that is full, or is closed: status 6, or where nothing is due the status that is due;
- into a pipe that is closed after a few bytes: they are the beginning of what is due, and the status is 6 or the one that is due.

Prints each run that breaks a rule, and last how many runs there were. The exit status is 1 where any did.
"""
import argparse
import collections
import glob
import os
import subprocess
import sys

from running import REWRITERS, Runner, broken, refusal

TOP = os.path.dirname(os.path.dirname(os.path.abspath(__file__)))
JOBS = ["regions", "graph", "fire", "trace", "store", "forks", "regen", "run"]
LIMITED = ("fire", "trace", "store", "forks", "run")


def word_lists(limit):
    for job in JOBS:
        for dialect in ([], ["checked"]):
            yield [job] + ([f"limit={limit}"] if job in LIMITED else []) + dialect


def ends(text):
    """Whether the last line that is no comment is END or a continuation line, of which it may be the end."""
    lines = [line[:72].rstrip() for line in text.replace(b"\r\n", b"\n").split(b"\n")]
    lines = [line for line in lines if line and line[:1] not in (b"C", b"c", b"*")]
    return bool(lines) and (lines[-1][6:].replace(b" ", b"").upper() == b"END" or lines[-1][5:6] not in (b"", b" ", b"0"))


def cut(runner, text, lists):
    """What is wrong with the runs on each beginning of a text."""
    runner.put(text)
    is_accepted = runner.run(["regions"]).status == 0
    for size in range(len(text) + 1):
        part = text[:size]
        lines = part.count(b"\n") + (part != b"" and not part.endswith(b"\n"))
        runner.put(part)
        answers = [(words, runner.run(words)) for words in lists]
        yield from ((size, words, broken(words, answer, lines)) for words, answer in answers)
        told = collections.Counter(refusal(answer) for words, answer in answers if words[0] not in REWRITERS)
        has_no_end = is_accepted and not ends(part) and not part.endswith(b"\r")
        due = (lines + 1, "NOEND") if has_no_end else next(iter(told))
        yield size, ["all"], None if list(told) == [due] else f"refused so: {told}"


def ended(program, words, given, output):
    """The status, with this standard input and output; None is a closed one."""
    def close():
        if given is None:
            os.close(0)
        if output is None:
            os.close(1)
    return subprocess.run([program] + words, stdin=given, stdout=output, stderr=subprocess.DEVNULL, preexec_fn=close).returncode


def source_fails(program, words):
    """Whether a standard input that can't be read is told by status 5 alone."""
    folder = os.open(".", os.O_RDONLY)
    for given in (folder, None):
        reading, writing = os.pipe()
        status = ended(program, words, given, writing)
        os.close(writing)
        taken = os.read(reading, 100)
        os.close(reading)
        yield None if (status, taken) == (5, b"") else f"a source that fails: status {status}, {taken!r} written"
    os.close(folder)


def sink_fails(program, words, path):
    """Whether a standard output that can't be written is told by status 6, if there is anything to write."""
    with open(path, "rb") as given:
        done = subprocess.run([program] + words, stdin=given, stdout=subprocess.PIPE)
    due = 6 if done.stdout else done.returncode
    with open("/dev/full", "wb") as full:
        for output in (full, None):
            with open(path, "rb") as given:
                status = ended(program, words, given, output)
            yield None if status == due else f"a sink that fails: status {status}, due {due}"
    for count in (0, 1, 7):
        status, taken = into_short_pipe(program, words, path, count)
        good = done.stdout.startswith(taken) and status in (6, done.returncode)
        yield None if good else f"a pipe that is closed after {count} bytes: status {status}, {taken!r} taken"


def into_short_pipe(program, words, path, count):
    """The status and what was taken where the reader of a pipe takes `count` bytes and closes it."""
    with open(path, "rb") as given:
        process = subprocess.Popen([program] + words, stdin=given, stdout=subprocess.PIPE)
    taken = process.stdout.read(count)
    process.stdout.close()
    return process.wait(), taken


def is_short(path):
    return "." not in os.path.basename(path) and os.path.getsize(path) < 400


def main():
    parser = argparse.ArgumentParser(description=__doc__, formatter_class=argparse.RawDescriptionHelpFormatter)
    parser.add_argument("program")
    parser.add_argument("--texts", action="append", default=[])
    parser.add_argument("--limit", type=int, default=2000)
    options = parser.parse_args()
    runner, lists = Runner(options.program), list(word_lists(options.limit))
    paths = sorted(glob.glob(os.path.join(TOP, "examples", "*.f")))
    paths += [path for folder in options.texts for path in sorted(glob.glob(os.path.join(folder, "*"))) if is_short(path)]
    runs, found = 0, 0
    for path in paths:
        with open(path, "rb") as file:
            text = file.read()
        wrong = list(cut(runner, text, lists))
        for words in lists:
            rules = [*source_fails(options.program, words), *sink_fails(options.program, words, path)]
            wrong += [(len(text), words, rule) for rule in rules]
        runs, told = runs + len(wrong), [it for it in wrong if it[2]]
        found += len(told)
        for size, words, rule in told:
            print(f"{os.path.relpath(path)} cut at {size}, {' '.join(words)}: {rule}", flush=True)
    print(f"{len(paths)} texts, {runs} tests, {found} failed")
    return 1 if found else 0


if __name__ == "__main__":
    sys.exit(main())
