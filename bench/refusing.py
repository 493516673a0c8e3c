"""Runs of a program in which the Nth growth of memory is refused, by a library of ten lines that stands before malloc and realloc."""

import os
import subprocess
import sys

SHIM = r"""
#define _GNU_SOURCE
#include <dlfcn.h>
#include <stdlib.h>
static long left = -1;
static int refused(void) {
    if (left < 0) { const char *at = getenv("FAIL_AT"); left = at ? atol(at) : 0; }
    return left > 0 && --left == 0;
}
void *malloc(size_t n) { return refused() ? 0 : ((void *(*)(size_t))dlsym(RTLD_NEXT, "malloc"))(n); }
void *realloc(void *p, size_t n) { return refused() ? 0 : ((void *(*)(void *, size_t))dlsym(RTLD_NEXT, "realloc"))(p, n); }
"""


def built(source, work):
    """The library that this text of C is compiled to."""
    text, shim = os.path.join(work, "shim.c"), os.path.join(work, "shim.so")
    with open(text, "w", encoding="ascii") as out:
        out.write(source)
    subprocess.run(["cc", "-shared", "-fPIC", "-O1", "-o", shim, text, "-ldl"], check=True)
    return shim


def says(program, shim, words, at):
    """Status, output and error of the program, with the growth of this number refused (0: none)."""
    env = {"LD_PRELOAD": shim, "FAIL_AT": str(at)} if at else {}
    done = subprocess.run([program] + words, env=env, capture_output=True, check=False)
    return done.returncode, done.stdout, done.stderr


def refused_runs(program, shim, words, name="capcheck"):
    """How many runs had a growth refused; it ends after twenty in a row that say what ample memory says. `name` is how the program
    calls itself."""
    ample = says(program, shim, words, 0)
    runs = 0
    at = 1
    quiet = 0
    while quiet < 20:
        said = says(program, shim, words, at)
        if said == ample:
            quiet += 1
        elif said[0] == 3 and said[2] == f"{name}: memory\n".encode() and ample[1].startswith(said[1]):
            quiet = 0
            runs += 1
        else:
            sys.exit(f"{words}, growth {at}: {said}")
        at += 1
    return runs
