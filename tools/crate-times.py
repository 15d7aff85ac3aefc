#!/usr/bin/env python3
"""Prints a table of times: tools/crate-times.py GATE_LOG, from the repository's root.

Proves each crate alone, from nothing, those below it being built already, and takes the seconds and the most memory of one
process; beside them the must-fail edits that the run of the gate refused whose output is GATE_LOG.
"""

import os
import re
import shutil
import subprocess
import sys
import time
from collections import Counter
from pathlib import Path

import build


def proved(name):
    """The seconds that the prover took for a crate, and the most memory of one of its processes, in MiB."""
    folder = Path("crates") / name
    shutil.rmtree(folder / "out", ignore_errors=True)
    began = time.monotonic()
    child = subprocess.Popen(["rt", "check"], cwd=folder, stdout=subprocess.PIPE, stderr=subprocess.STDOUT, text=True)
    said = child.stdout.read()
    _, status, usage = os.wait4(child.pid, 0)
    if status != 0:
        sys.exit(f"{said}\ncrate-times.py: {name} is not proved")
    return round(time.monotonic() - began), usage.ru_maxrss // 1024


def main(log):
    edits = Counter(re.findall(r"^rt: must-fail (\w+)/\w+\.edit: refused", Path(log).read_text(), re.M))
    below, _ = build.read_crates()
    print("| crate | seconds | MiB | edits |\n|---|---|---|---|")
    done = []
    while len(done) < len(below):
        for name in below:
            if name not in done and all(it in done for it in below[name]):
                took, memory = proved(name)
                print(f"| `{name}` | {took} | {memory} | {edits[name]} |", flush=True)
                if not build.prove(name)[1]:
                    sys.exit(f"crate-times.py: {name} is not built")
                done.append(name)


if __name__ == "__main__":
    if len(sys.argv) != 2:
        sys.exit("usage: tools/crate-times.py GATE_LOG")
    main(sys.argv[1])
