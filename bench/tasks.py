"""Tasks that benches judge."""

CALLS = ["read r1", "write r2 r3", "renameat r1 \"a\" r2 \"b\"", "fstat r1", "openat r1 \"a\" read", "unlinkat r2 \"a\"", "lseek r1 r3",
    "mkdirat r2 \"a\""]


def counting_task_of(programs):
    """A task of so many programs of 256 points, each with one process, in the mode, that has one directory. A program counts: it has
    127 loops, one after another, each up to a number of its own, and these don't rise; so 381 numbers have to be looked through where
    an interval is widened, and each loop is gone through until its interval stays."""
    starts = ",\n ".join(f'{{program="p{program}", mode="cap", fd=[{{number=0, path="/work"}}]}}' for program in range(programs))
    lines = ["set r1 1"]
    for loop in range(127):
        lines += [f"l{loop}: add r0 r1", f"jlt r0 {loop * 37 % 1000 + 5} l{loop}"]
    code = "\n".join(lines + ["halt"])
    texts = "".join(f"[[program]]\nname = \"p{program}\"\ncode = '''\n{code}\n'''\n" for program in range(programs))
    return (
        'node = [{path="/work", kind="dir"}]\n'
        'grant = [{name="work", path="/work", ops=["look", "read"]}]\n'
        f"process = [{starts}]\n{texts}"
    )


def task_of(programs):
    """A task of so many programs of 256 points, each with one process, in the mode, that has sixteen directories of a grant. Three
    registers are read first, so that a call through one goes to any descriptor; every point is reached, as each call may fail."""
    slots = ", ".join(f'{{number={number}, path="/work"}}' for number in range(16))
    starts = ",\n ".join(f'{{program="p{program}", mode="cap", fd=[{slots}]}}' for program in range(programs))
    lines = ["in r1", "in r2", "in r3"] + [f"{CALLS[point % len(CALLS)]} else l{point + 1}" for point in range(3, 255)] + ["halt"]
    code = "".join(f"l{point}: {line}\n" for point, line in enumerate(lines))
    texts = "".join(f"[[program]]\nname = \"p{program}\"\ncode = '''\n{code}'''\n" for program in range(programs))
    return (
        'node = [{path="/work", kind="dir"}]\n'
        'grant = [{name="work", path="/work", ops=["look", "read", "write", "create", "remove"]}]\n'
        f"process = [{starts}]\n{texts}"
    )


def certificate_of(programs):
    """The certificate of a task of task_of, which bounds no register."""
    lines = ["capcert 1"]
    for program in range(programs):
        for point in range(256):
            lines.append(f"at p{program} {point} on")
            lines.extend(f"fd {number} open grant work 3fff 3fff 3 3" for number in range(16))
    return "\n".join(lines + ["end", ""])
