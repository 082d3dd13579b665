"""Runs programs with limited memory, and returns how they ended and their peak memory.

A small program in C starts them. If Python did, its own memory would count: the peak that the
system reports for a child includes what its parent had when it was started.
"""
import collections
import subprocess

STARTER = r"""
#define _GNU_SOURCE
#include <fcntl.h>
#include <stdio.h>
#include <stdlib.h>
#include <string.h>
#include <sys/resource.h>
#include <sys/wait.h>
#include <unistd.h>
static void bound(int what, rlim_t most) {
    struct rlimit limit = {most, most};
    if (most) setrlimit(what, &limit);
}
static void put(int place, const char *path) {
    int file = open(path, O_WRONLY | O_CREAT | O_TRUNC, 0600);
    if (file < 0 || dup2(file, place) < 0) _exit(126);
    close(file);
}
int main(void) {
    static char line[1 << 16], *words[64];
    while (fgets(line, sizeof line, stdin)) {
        int count = 0, status;
        struct rusage used;
        line[strcspn(line, "\n")] = 0;
        for (char *word = strtok(line, "\t"); word && count < 63; word = strtok(0, "\t"))
            words[count++] = word;
        words[count] = 0;
        pid_t child = fork();
        if (!child) {
            put(1, words[2]), put(2, words[3]);
            bound(RLIMIT_CPU, atol(words[1])), bound(RLIMIT_AS, atol(words[0]) << 10);
            struct rlimit none = {0, 0};
            setrlimit(RLIMIT_CORE, &none);
            execv(words[4], words + 4);
            _exit(127);
        }
        wait4(child, &status, 0, &used);
        printf("%d %d %ld %ld\n", WIFEXITED(status) ? WEXITSTATUS(status) : -1,
               WIFSIGNALED(status) ? WTERMSIG(status) : 0, used.ru_maxrss,
               (used.ru_utime.tv_sec + used.ru_stime.tv_sec) * 1000000L
                   + used.ru_utime.tv_usec + used.ru_stime.tv_usec);
        fflush(stdout);
    }
}
"""

# How a program ended: its status, or the signal; its peak memory in bytes; its processor seconds.
Ended = collections.namedtuple("Ended", "status signal peak seconds")


class Starter:
    """Starts programs, one after the other."""

    def __init__(self, folder):
        source, program = folder / "starter.c", folder / "starter"
        source.write_text(STARTER)
        subprocess.run(["cc", "-O1", "-o", program, source], check=True)
        self.child = subprocess.Popen([program], stdin=subprocess.PIPE, stdout=subprocess.PIPE, text=True)

    def run(self, words, room=0, seconds=0, out="/dev/null", err="/dev/null"):
        """Runs a program to its end, with limits of its address space (in KiB) and its processor time.

        A limit of 0 means no limit. The output is written to `out` and `err`."""
        return self.run_all([(words, room, seconds, out, err)])[0]

    def run_all(self, runs):
        """Runs up to some hundred programs one after the other, and returns how each of them ended.

        All of them are requested at once, so that none waits for this process.
        """
        for words, room, seconds, out, err in runs:
            line = "\t".join(str(word) for word in [room, seconds, out, err, *words])
            self.child.stdin.write(line + "\n")
        self.child.stdin.flush()
        return [self.ended() for _ in runs]

    def ended(self):
        status, signal, peak, used = map(int, self.child.stdout.readline().split())
        return Ended(status, signal, peak * 1024, used / 1e6)

    def close(self):
        self.child.stdin.close()
        self.child.wait()
