"""Starts programs and tells what they take. A process that starts another is counted with its own peak until then, so a program
is started by a small one, which is made with `cc`."""

import os
import subprocess

STARTER = r"""
#include <stdio.h>
#include <sys/resource.h>
#include <sys/wait.h>
#include <unistd.h>
int main(int count, char **words) {
    struct rusage used;
    int status;
    pid_t child = fork();
    if (child == 0) { execv(words[1], words + 1); _exit(127); }
    if (wait4(child, &status, 0, &used) < 0 || !WIFEXITED(status)) return 126;
    fprintf(stderr, "\n%ld.%06ld %ld.%06ld %ld\n", (long)used.ru_utime.tv_sec, (long)used.ru_utime.tv_usec,
            (long)used.ru_stime.tv_sec, (long)used.ru_stime.tv_usec, used.ru_maxrss);
    return WEXITSTATUS(status);
}
"""


def starter(work):
    """The small program that starts others."""
    source, made = os.path.join(work, "starter.c"), os.path.join(work, "starter")
    with open(source, "w", encoding="ascii") as out:
        out.write(STARTER)
    subprocess.run(["cc", "-O2", "-o", made, source], check=True)
    return made


def started(start, words, out):
    """What a program that is started with these words takes: its status, what it says on standard error, its processor seconds
    and its peak of memory in kilobytes. Its standard output goes to a file."""
    with open(out, "wb") as shelf:
        ran = subprocess.run([start] + words, stdout=shelf, stderr=subprocess.PIPE, check=False)
    said, told = ran.stderr.rstrip(b"\n").rsplit(b"\n", 1)
    user, system, peak = told.split()
    return ran.returncode, said, float(user) + float(system), int(peak)
