"""Single runs of a built dfc under a limit of time and of memory, for the scripts beside this one."""
import collections
import os
import re
import resource
import select
import signal
import tempfile
import time

# How much of an output is kept: its beginning and its end.
KEPT, END = 1 << 16, 1 << 10
CODES = ("TOOLONG BADBYTE BADLABEL STRAYCONT MANYCONT MANYSTMTS NOEND TOODEEP NOFORM BADCONST SUBTWICE NOSUB BADCALL BADBLOCK RECURSION "
         "MANYNAMES BADORDER REALNAME BADTYPE BADLAYOUT LABELTWICE NOLABEL BADNESTING JUMPINTO MANYWORDS MANYOPS MANYCLASSES").split()
# The codes of the rewriting, told at line 0 by these jobs alone.
REWRITING, REWRITERS = ("MANYNAMES", "MANYSTMTS", "LONGTEXT"), ("regen", "run")
KINDS = ("DIVIDE", "SUBSCRIPT", "STEP", "INPUT", "OVERFLOW")

# A status is the negative number of a signal where one ended the run; `seconds` are those of the processor, and `megabytes` what it had
# in memory at most; `begin` and `end` are parts of the `length` bytes that it wrote.
Answer = collections.namedtuple("Answer", "status begin end length errors seconds megabytes late")


class Runner:
    """Runs a program on texts. What it may take of memory is set for this process, and is so for all that it starts."""

    def __init__(self, program, seconds=10, megabytes=1024):
        self.program, self.seconds = program, seconds
        self.folder = tempfile.TemporaryDirectory(dir="/dev/shm" if os.path.isdir("/dev/shm") else None)
        self.text = os.path.join(self.folder.name, "text")
        self.errors = os.path.join(self.folder.name, "errors")
        resource.setrlimit(resource.RLIMIT_AS, (megabytes << 20, resource.getrlimit(resource.RLIMIT_AS)[1]))

    def processor(self):
        """What runs have taken of the processor that isn't told of this process."""
        return 0

    def put(self, text):
        """Makes these bytes the standard input of the next runs."""
        with open(self.text, "wb") as file:
            file.write(text)

    def started(self, program, words, output):
        """The number of a process that writes to `output`."""
        actions = [(os.POSIX_SPAWN_OPEN, 0, self.text, os.O_RDONLY, 0), (os.POSIX_SPAWN_DUP2, output, 1),
                   (os.POSIX_SPAWN_OPEN, 2, self.errors, os.O_WRONLY | os.O_CREAT | os.O_TRUNC, 0o600)]
        pid = os.posix_spawn(program, [program] + words, os.environ, file_actions=actions)
        resource.prlimit(pid, resource.RLIMIT_CPU, (self.seconds, self.seconds + 1))
        return pid

    def run(self, words, program=None):
        """One run on the text that was put last, of the program or of another one."""
        reading, writing = os.pipe()
        pid = self.started(program or self.program, words, writing)
        os.close(writing)
        begin, end, length, late = b"", b"", 0, False
        # Other work may hold the processor, so that the clock on the wall is no measure: it only ends a run that waits for ever.
        until = time.monotonic() + 30 * self.seconds
        while True:
            if not select.select([reading], [], [], max(0, until - time.monotonic()))[0]:
                os.kill(pid, signal.SIGKILL)
                late = True
            piece = os.read(reading, 1 << 20)
            if not piece:
                break
            begin, end = begin + piece[: KEPT - len(begin)], (end + piece)[-END:]
            length += len(piece)
        os.close(reading)
        _, status, used = os.wait4(pid, 0)
        status = -os.WTERMSIG(status) if os.WIFSIGNALED(status) else os.WEXITSTATUS(status)
        return Answer(status, begin, end, length, os.path.getsize(self.errors), used.ru_utime + used.ru_stime, used.ru_maxrss / 1024, late)


def last_line(answer):
    return answer.end[:-1].rpartition(b"\n")[2].decode("latin-1") if answer.end.endswith(b"\n") else ""


def refusal(answer):
    """The line and the code of a refusal, or nothing."""
    told = re.fullmatch(rb"REFUSED (0|[1-9]\d*) ([A-Z]+)\n", answer.begin) if answer.status == 2 else None
    return (int(told.group(1)), told.group(2).decode()) if told else None


def limit_of(words):
    return next((str(int(word[6:])) for word in words if word.startswith("limit=")), "1000000")


def is_refusal(words, answer, lines):
    """Whether it is a refusal in the one form: a code at a line of the text or the one after it, or at line 0 one of the rewriting."""
    line, code = refusal(answer) or (-1, "")
    if line == 0 and code != "TOOLONG":
        return words[0] in REWRITERS and code in REWRITING
    return code in CODES and (line == 0 or line <= lines + 1)


def broken(words, answer, lines):
    """The rule that a run of one of the jobs breaks on a text of so many lines, or nothing."""
    last, status = last_line(answer), answer.status
    if answer.late or status in (-signal.SIGXCPU, -signal.SIGKILL):
        return "no end in time"
    if status < 0:
        return f"signal {-status}"
    if answer.errors:
        return "it wrote to standard error"
    trap = "TRAP (%s)%s" % ("|".join(KINDS), "" if words[0] == "run" else r" LINE [1-9]\d*")
    good = {
        0: not re.match("USAGE|REFUSED|TRAP|LIMIT", last),
        2: is_refusal(words, answer, lines),
        3: re.fullmatch(trap, last) is not None,
        4: last == "LIMIT " + limit_of(words),
        7: answer.length == 0,
    }
    return None if good.get(status) else f"status {status} with the last line {last[:60]!r}"
