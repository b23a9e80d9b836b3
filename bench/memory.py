#!/usr/bin/env python3
"""Runs a built dfc where memory is refused, at each allocation in turn.

    python3 bench/memory.py PROGRAM [--texts PATH].. [--most N] [--few]

PROGRAM is a built dfc that asks the C library for memory; `cc` has to be there. The texts are four of cases/ (`sequence`, `shared_word` and
`euclid` of cases/fire, `two_ways` of cases/regions), those of examples/, unless --few leaves them out, and each PATH, or where it is a folder
its files of less than 400 bytes without a dot in their names. Each text is run under every job, fire, store and forks by picks too, with data and with
limit=500 where the job takes them; and `sample 1` is, on no text. First each run has ample memory, and then the allocation number k is refused,
for each k (at most N of a run, 3,000, spread over all): once alone, and once with every later one. Each run has to end with status 7 and
nothing written, or as with ample memory.

Prints each run that doesn't, and last how many did. The exit status is 1 where any doesn't.
"""
import argparse
import glob
import os
import subprocess
import sys
import tempfile

TOP = os.path.dirname(os.path.dirname(os.path.abspath(__file__)))
FIRST = ["fire/sequence", "fire/shared_word", "fire/euclid", "regions/two_ways"]
GAME = ["limit=500", "data=3,5,-4,7,1,2,9"]
LISTS = [["regions"], ["graph"], ["regen", "checked"], ["run"] + GAME, ["fire"] + GAME, ["fire", "limit=500", "picks=7,3,5"] + GAME[1:],
         ["trace"] + GAME, ["store", "limit=500", "picks=1"] + GAME[1:] + ["checked"],
         ["forks"] + GAME, ["forks", "nodes", "limit=500", "picks=7,3,5"] + GAME[1:]]
# Put before the C library: it counts the calls that ask for memory, refuses some, and tells the count where none is to be refused.
REFUSER = r"""
#include <stdio.h>
#include <stdlib.h>
extern void *__libc_malloc(size_t);
extern void *__libc_realloc(void *, size_t);
static long count, first = -1, last;
__attribute__((constructor)) static void begin(void) {
    const char *text = getenv("REFUSED_ALLOCATIONS");
    if (text) sscanf(text, "%ld %ld", &first, &last);
    count = 0;
}
__attribute__((destructor)) static void tell(void) { if (first == 0) fprintf(stderr, "%ld\n", count); }
static int is_refused(void) { ++count; return first > 0 && first <= count && count <= last; }
void *malloc(size_t size) { return is_refused() ? 0 : __libc_malloc(size); }
void *realloc(void *old, size_t size) { return is_refused() ? 0 : __libc_realloc(old, size); }
"""


def compiled(folder):
    """The library that refuses memory."""
    source, library = os.path.join(folder, "refuser.c"), os.path.join(folder, "refuser.so")
    with open(source, "w") as file:
        file.write(REFUSER)
    subprocess.run(["cc", "-shared", "-fPIC", "-O1", "-fno-builtin", "-o", library, source], check=True)
    return library


def run(program, words, text, library, first, last):
    """The status, what was written, and what was told on standard error."""
    settings = {**os.environ, "LD_PRELOAD": library, "REFUSED_ALLOCATIONS": f"{first} {last}"}
    done = subprocess.run([program] + words, input=text, capture_output=True, env=settings)
    return done.returncode, done.stdout, done.stderr


def refusals(program, words, text, library, most):
    """The runs that are wrong, and how many there were."""
    status, due, told = run(program, words, text, library, 0, 0)
    count = int(told.split()[-1])
    if count == 0 or b"\n" not in told:
        sys.exit("PROGRAM doesn't ask the C library for memory")
    wrong, runs = [], 0
    for k in range(1, count + 1, -(-count // most)):
        for last in (k, count + 1000000):
            got, out, _ = run(program, words, text, library, k, last)
            runs += 1
            if (got, out) not in [(7, b""), (status, due)]:
                wrong.append(f"{' '.join(words)}, allocations {k} to {last}: status {got}, {out[:60]!r}; due {status}, {due[:60]!r}")
    return wrong, runs


def paths_of(options):
    """The paths of the texts."""
    paths = [os.path.join(TOP, "cases", name) for name in FIRST]
    paths += [] if options.few else sorted(glob.glob(os.path.join(TOP, "examples", "*.f")))
    for path in options.texts:
        names = sorted(glob.glob(os.path.join(path, "*"))) if os.path.isdir(path) else [path]
        paths += [it for it in names if it == path or "." not in os.path.basename(it) and os.path.getsize(it) < 400]
    return paths


def main():
    parser = argparse.ArgumentParser(description=__doc__, formatter_class=argparse.RawDescriptionHelpFormatter)
    parser.add_argument("program")
    parser.add_argument("--texts", action="append", default=[])
    parser.add_argument("--most", type=int, default=3000)
    parser.add_argument("--few", action="store_true")
    options = parser.parse_args()
    paths = paths_of(options)
    total, found = 0, 0
    with tempfile.TemporaryDirectory() as folder:
        library = compiled(folder)
        for path in [os.devnull, *paths]:
            with open(path, "rb") as file:
                text = file.read()
            for words in LISTS if path != os.devnull else [["sample", "1"]]:
                wrong, runs = refusals(options.program, words, text, library, options.most)
                total, found = total + runs, found + len(wrong)
                print("".join(f"{os.path.relpath(path)}, {it}\n" for it in wrong), end="", flush=True)
    print(f"{total} runs on {len(paths)} texts, {found} failed")
    return 1 if found else 0


if __name__ == "__main__":
    sys.exit(main())
