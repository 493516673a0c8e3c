"""What the files of crates/examples/data ask of the program: which words, and of which files."""

import glob
import os
import tomllib

TOP = os.path.dirname(os.path.dirname(os.path.abspath(__file__)))
EXAMPLES = os.path.join(TOP, "crates/examples/data")


def task_of(name):
    """The task of an example: NAME.toml, or the file beside it that NAME.task names, or task.toml."""
    if os.path.exists(name + ".toml"):
        return name + ".toml"
    other = "task.toml"
    if os.path.exists(name + ".task"):
        with open(name + ".task", encoding="ascii") as line:
            other = line.read().strip()
    return os.path.join(os.path.dirname(name), other)


def asked():
    """The words of each line that the examples ask for."""
    for kind, commands in (("schedule", ["run"]), ("cert", ["check", "report", "expand"]), ("search", ["search"])):
        for path in sorted(glob.glob(os.path.join(EXAMPLES, f"*/*.{kind}"))):
            task = task_of(path[: -len(kind) - 1])
            for command in commands:
                yield [command, task] + ([path] if command != "search" else [])


def asked_why():
    """The words of each line that the examples ask of `capwhy`; a search for a run that breaks something among few states."""
    with open(os.path.join(EXAMPLES, "cases.toml"), "rb") as cases:
        rows = tomllib.load(cases)["case"]
    for row in rows:
        if row.get("why") and row["words"]:
            command, *files = row["words"]
            words = [os.path.join(EXAMPLES, it) if os.path.exists(os.path.join(EXAMPLES, it)) else it for it in files]
            yield [command] + words + (["20"] if command == "breach" and len(words) == 1 else [])
