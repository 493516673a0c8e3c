"""What processes of the prover are at work, and how much of the processor they take: for the scripts that measure proofs.

A process is seen while it runs, five times a second, so up to 0.2 s of each is missed."""

import collections
import os
import time

TICK = os.sysconf("SC_CLK_TCK")


def read(path):
    try:
        with open(path, "rb") as file:
            return file.read()
    except OSError:
        return b""


def step_of(pid, root):
    """The crate and the step that a process of the prover works for below the folder `root`, or None."""
    words = read(f"/proc/{pid}/cmdline").split(b"\0")
    if not words[0].endswith(b"/rattle") or b"--crate-name" not in words:
        return None
    try:
        folder = os.readlink(f"/proc/{pid}/cwd")
    except OSError:
        return None
    name = words[words.index(b"--crate-name") + 1].decode()
    if "rt-edit-" in folder:
        return name, "edits"
    if folder.startswith(root):
        return name, "tests" if b"--test" in words else "proof"
    return None


def seconds_of(pid):
    fields = read(f"/proc/{pid}/stat").rpartition(b") ")[2].split()
    return (int(fields[11]) + int(fields[12])) / TICK if len(fields) > 12 else None


def watch(process, root):
    """The seconds of the prover's processes below `root`, by what they work for, until the process ends; and when, in seconds from now, the first
    of them began and the last was seen."""
    seen, spans, start = {}, {}, time.time()
    while process.poll() is None:
        for pid in filter(str.isdigit, os.listdir("/proc")):
            step, seconds = step_of(pid, root), seconds_of(pid)
            if step and seconds is not None:
                seen[pid, step] = seconds
                now = time.time() - start
                spans[step] = spans.get(step, (now, now))[0], now
        time.sleep(0.2)
    took = collections.Counter()
    for (_, step), seconds in seen.items():
        took[step] += seconds
    return took, spans
