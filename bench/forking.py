"""Runs of a built dfc as copies of one process that is loaded once: some four times as cheap as starting it for each run.

A library that is put before the C library, which `cc` compiles, waits for arguments where the C library would start the program, forks, has the copy
go on with these arguments, and tells how that ended. Standard input, output and the errors are files in memory.
"""
import os
import struct
import subprocess
import tempfile

from running import END, KEPT, Answer

SOURCE = r"""
#define _GNU_SOURCE
#include <dlfcn.h>
#include <stdint.h>
#include <stdlib.h>
#include <string.h>
#include <sys/resource.h>
#include <sys/wait.h>
#include <unistd.h>

typedef int (*program)(int, char **, char **);
static char words[1 << 20], *list[1 << 12];

// Handles of the requests, the replies, the text, the output and the errors, and the limits in seconds and megabytes.
static int handle[5], seconds, megabytes;

static int take(char *to, size_t size) {
    while (size > 0) {
        ssize_t count = read(handle[0], to, size);
        if (count <= 0) return 0;
        to += count;
        size -= count;
    }
    return 1;
}

// The copy's: limits and streams, and the arguments with the settings behind them, as the C library takes them.
static int go_on(char *name, uint32_t size, char **settings) {
    struct rlimit memory = {(rlim_t)megabytes << 20, (rlim_t)megabytes << 20}, time = {seconds, seconds + 1};
    int count = 0;
    list[count++] = name;
    for (char *at = words; at < words + size; at += strlen(at) + 1) list[count++] = at;
    for (char **at = list + count + 1; *settings; ) *at++ = *settings++;
    for (int to = 0; to < 3; ++to) dup2(handle[2 + to], to);
    for (int k = 0; k < 5; ++k) close(handle[k]);
    // Other work may hold the processor for long: the clock on the wall only ends a run that waits for ever.
    alarm(360 * seconds);
    setrlimit(RLIMIT_CPU, &time);
    setrlimit(RLIMIT_AS, &memory);
    return count;
}

// The number of a copy's arguments, in each copy; the server itself ends here.
static int serve(char *name, char **settings) {
    uint32_t size;
    while (take((char *)&size, sizeof size) && size <= sizeof words && take(words, size)) {
        for (int k = 2; k < 5; ++k) {
            if (k > 2 && ftruncate(handle[k], 0)) _exit(9);
            lseek(handle[k], 0, SEEK_SET);
        }
        pid_t copy = fork();
        if (copy == 0) return go_on(name, size, settings);
        struct rusage used;
        int status;
        if (copy < 0 || wait4(copy, &status, 0, &used) != copy) _exit(9);
        int64_t told[3] = {WIFSIGNALED(status) ? -WTERMSIG(status) : WEXITSTATUS(status), 0, used.ru_maxrss};
        told[1] = (used.ru_utime.tv_sec + used.ru_stime.tv_sec) * 1000000 + used.ru_utime.tv_usec + used.ru_stime.tv_usec;
        if (write(handle[1], told, sizeof told) != sizeof told) _exit(9);
    }
    _exit(0);
}

int __libc_start_main(program main, int count, char **given, void (*init)(void), void (*fini)(void), void (*end)(void), void *stack) {
    int (*next)(program, int, char **, void *, void *, void *, void *) = dlsym(RTLD_NEXT, "__libc_start_main");
    char *text = getenv("FORKING");
    for (int k = 0; k < 7; ++k) {
        int value = strtol(text, &text, 10);
        if (k < 5) handle[k] = value; else if (k == 5) seconds = value; else megabytes = value;
    }
    return next(main, serve(given[0], given + count + 1), list, init, fini, end, stack);
}
"""


class ForkingRunner:
    """Runs a program on texts, as running.Runner does."""

    def __init__(self, program, seconds=10, megabytes=1024):
        self.text, self.out, self.errors = (os.memfd_create(name, 0) for name in ("text", "out", "errors"))
        requests, self.requests = os.pipe()
        self.replies, replies = os.pipe()
        handles = (requests, replies, self.text, self.out, self.errors)
        with tempfile.TemporaryDirectory() as folder:
            library = os.path.join(folder, "forking.so")
            with open(library[:-2] + "c", "w") as file:
                file.write(SOURCE)
            subprocess.run(["cc", "-shared", "-fPIC", "-O1", "-o", library, library[:-2] + "c"], check=True)
            settings = {**os.environ, "LD_PRELOAD": library, "FORKING": " ".join(map(str, handles + (seconds, megabytes)))}
            self.server = subprocess.Popen([program], env=settings, pass_fds=handles)
            # The first reply shows that the library is loaded.
            os.close(requests), os.close(replies)
            self.put(b"")
            self.run(["regions"])

    def processor(self):
        """The seconds of the processor that the server and its copies have taken."""
        with open(f"/proc/{self.server.pid}/stat") as file:
            return sum(map(int, file.read().rpartition(")")[2].split()[11:15])) / os.sysconf("SC_CLK_TCK")

    def put(self, text):
        """Makes these bytes the standard input of the next runs."""
        os.ftruncate(self.text, 0)
        os.pwrite(self.text, text, 0)

    def run(self, words):
        """One run on the text that was put last."""
        given = b"".join(word.encode("utf-8", "surrogateescape") + b"\0" for word in words)
        os.write(self.requests, struct.pack("=I", len(given)) + given)
        reply = os.read(self.replies, 24)
        if len(reply) != 24:
            raise SystemExit("the server of forked runs has ended")
        status, micros, kilobytes = struct.unpack("=3q", reply)
        length = os.fstat(self.out).st_size
        end = os.pread(self.out, END, max(0, length - END))
        begin = end if length <= END else os.pread(self.out, KEPT, 0)
        return Answer(status, begin, end, length, os.fstat(self.errors).st_size, micros / 1e6, kilobytes / 1024, status == -14)
