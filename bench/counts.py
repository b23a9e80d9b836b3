#!/usr/bin/env python3
"""What the runs of bench/hostile.py came to, kept in files.

    python3 bench/counts.py FILE..

adds them up and prints a table.
"""
import collections
import json
import os
import sys

from running import refusal


class Counts:
    """Texts and runs: how many, and the greatest."""

    def __init__(self):
        self.texts, self.bytes, self.found, self.processor = 0, 0, 0, 0.0
        self.statuses, self.jobs, self.codes = collections.Counter(), collections.Counter(), collections.Counter()
        self.slowest, self.largest, self.longest = (0, ""), (0, ""), (0, "")

    def add_text(self, text):
        self.texts, self.bytes = self.texts + 1, self.bytes + len(text)

    def add(self, name, words, answer, job):
        """One run; `name` is the text's."""
        name = f"{name}, {' '.join(words)[:100]}"
        self.statuses[str(answer.status)] += 1
        self.jobs[job] += 1
        self.slowest = max(self.slowest, (answer.seconds, name))
        if answer.status != 7:
            self.largest = max(self.largest, (answer.megabytes, name))
        self.longest = max(self.longest, (answer.length, name))

    def tell(self, answer):
        """What one run tells of its text."""
        told = refusal(answer)
        self.codes[told[1] if told else "accepted"] += 1

    def join(self, other):
        for name in ("texts", "bytes", "found", "processor"):
            setattr(self, name, getattr(self, name) + getattr(other, name))
        for name in ("statuses", "jobs", "codes"):
            getattr(self, name).update(getattr(other, name))
        for name in ("slowest", "largest", "longest"):
            setattr(self, name, max(getattr(self, name), getattr(other, name)))

    def keep(self, path):
        """Writes them whole, or not at all."""
        with open(path + ".new", "w") as file:
            json.dump(vars(self), file)
        os.replace(path + ".new", path)

    def show(self):
        print(f"{self.texts} texts of {self.bytes} bytes, {sum(self.statuses.values())} runs, {self.processor:.0f} s of the processor in all")
        for what, counter in (("status", self.statuses), ("job", self.jobs)):
            print(f"runs by {what}:", ", ".join(f"{name}: {count}" for name, count in sorted(counter.items())))
        print("texts by refusal:", ", ".join(f"{count} {code}" for code, count in self.codes.most_common()))
        print("slowest run: %.2f s of the processor (%s)" % tuple(self.slowest))
        print("largest run, but for those of status 7: %.0f MB in memory (%s)" % tuple(self.largest))
        print("longest output: %d bytes (%s)" % tuple(self.longest))
        print(f"{self.found} runs broke a rule")


def kept(path):
    """Those of a file, or none where there is no such file."""
    counts = Counts()
    if os.path.exists(path):
        with open(path) as file:
            told = json.load(file)
        for name, value in told.items():
            setattr(counts, name, collections.Counter(value) if isinstance(value, dict) else tuple(value) if isinstance(value, list) else value)
    return counts


def main():
    if {"-h", "--help"} & {*sys.argv[1:]}:
        print(__doc__)
        return 0
    if not sys.argv[1:] or sys.argv[1].startswith("-"):
        sys.exit(__doc__)
    whole = Counts()
    for path in sys.argv[1:]:
        whole.join(kept(path))
    whole.show()


if __name__ == "__main__":
    main()
