"""Tasks that benches run, and how many events of them."""

import os

TOP = os.path.dirname(os.path.dirname(os.path.abspath(__file__)))


def loop():
    """The task of bench/loop.toml."""
    with open(os.path.join(TOP, "bench/loop.toml"), encoding="ascii") as task:
        return task.read()


def task(nodes, processes, programs):
    """A task of these nodes, without grants."""
    listed = ",\n ".join(nodes)
    texts = "".join(f"[[program]]\nname = \"{name}\"\ncode = '''\n{code}'''\n" for name, code in programs.items())
    return f"node = [{listed}]\ngrant = []\nprocess = [{', '.join(processes)}]\n{texts}"


def again(lines):
    """A program that does these lines again and again, with as few jumps as there may be."""
    made = [f"l{at}: {lines[at % len(lines)]} else l{at}" for at in range(255 // len(lines) * len(lines))]
    return "\n".join(made + ["jmp l0"]) + "\n"


def exchange():
    """Each event sends or receives a byte, but for the jumps."""
    ends = [f'{{program="{name}", fd=[{{number=0, pair=0, side="{side}"}}]}}' for name, side in (("sender", "a"), ("receiver", "b"))]
    return task([], ends, {"sender": again(["write 0 65"]), "receiver": again(["read 0"])})


def reopen():
    """Each event opens, duplicates or closes, but for the jumps."""
    file = '{path="/in", kind="file", content="x"}'
    return task([file], ['{program="p", fd=[]}'], {"p": again(['open "/in" read', "dup 0", "close 0", "close 1"])})


def lookup(depth, beside):
    """Each event but for the jumps looks up a name of a path through so many directories, with so many files beside the last."""
    nodes = [f'{{path="{"/a" * (at + 1)}", kind="dir"}}' for at in range(depth)]
    nodes += [f'{{path="{"/a" * depth}/f{at}", kind="file", content=""}}' for at in range(beside)]
    return task(nodes, ['{program="p", fd=[]}'], {"p": again([f'stat "{"/a" * depth}/f0"'])})


def rename(below):
    """Each event but for the jumps renames a directory with so many files."""
    nodes = ['{path="/a", kind="dir"}'] + [f'{{path="/a/f{at}", kind="file", content=""}}' for at in range(below)]
    start = '{program="p", fd=[{number=0, path="/"}]}'
    return task(nodes, [start], {"p": again(['renameat 0 "a" 0 "b"', 'renameat 0 "b" 0 "a"'])})


# the case, the task, how many processes take turns, how many events
CASES = [("loop", loop(), 1, 4_096), ("loop", loop(), 1, 16_384), ("loop", loop(), 1, 65_536),
    ("exchange", exchange(), 2, 4_096), ("exchange", exchange(), 2, 65_536),
    ("reopen", reopen(), 1, 4_096), ("reopen", reopen(), 1, 65_536),
    ("lookup through 50", lookup(50, 1), 1, 16_384), ("lookup through 200", lookup(200, 1), 1, 16_384),
    ("lookup beside 247", lookup(2, 247), 1, 16_384), ("lookup beside 997", lookup(2, 997), 1, 16_384),
    ("rename of 125", rename(125), 1, 16_384), ("rename of 500", rename(500), 1, 16_384)]


# what starts, and the task
STARTS = [("start, 50 nodes 10 deep", lookup(10, 40)), ("start, 250 nodes 50 deep", lookup(50, 200)), ("start, 1000 nodes 200 deep", lookup(200, 800))]
