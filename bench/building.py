"""Proves and builds a program of bench/ over copies of the crates that it needs."""

import os
import shutil
import subprocess
import sys

TOP = os.path.dirname(os.path.dirname(os.path.abspath(__file__)))


def built(work, source, crates, uses):
    """The program of this source in bench/, which uses these crates; `crates` are all that they stand on."""
    for crate in crates:
        for part in ["src", "specs", "proofs", "out"]:
            folder = os.path.join(TOP, "crates", crate, part)
            if os.path.isdir(folder):
                shutil.copytree(folder, os.path.join(work, "crates", crate, part))
    name = f"{source}_bench"
    own = os.path.join(work, "crates", name)
    os.makedirs(os.path.join(own, "src"))
    shutil.copy(os.path.join(TOP, f"bench/{source}.rs"), os.path.join(own, "src/main.rt"))
    with open(os.path.join(TOP, "crates.txt"), encoding="utf-8") as lines:
        kept = [line for line in lines if line.split(":")[0] in crates]
    with open(os.path.join(work, "crates.txt"), "w", encoding="utf-8") as out:
        out.writelines(kept + [f"{name}: {uses}\n"])
    ran = subprocess.run(["rt", "run"], cwd=own, capture_output=True, text=True, check=False)
    if ran.returncode != 0:
        sys.exit(ran.stdout + ran.stderr)
    return os.path.join(own, "out", name)
