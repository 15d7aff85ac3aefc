#!/usr/bin/env python3
"""Proves and builds programs and the static library: tools/build.py judge page join solver_c, from anywhere.

A program comes to target/bin, the static library to target/staticlib. The crates that they stand on are proved first, as many at a
time as there are processors; a line tells of each. What an earlier run proved is not proved again.
"""

import os
import shutil
import subprocess
import sys
import time
from concurrent.futures import FIRST_COMPLETED, ThreadPoolExecutor, wait
from pathlib import Path

ROOT = Path(__file__).resolve().parent.parent


def read_crates():
    """The crates that each crate stands on, and which of them are static libraries."""
    below, static = {}, set()
    for line in (ROOT / "crates.txt").read_text().splitlines():
        head, colon, rest = line.split("#")[0].partition(":")
        if colon:
            name, *words = head.split()
            below[name] = rest.split()
            if "staticlib" in words:
                static.add(name)
    return {name: [it for it in on if it in below] for name, on in below.items()}, static


def needed(names, below):
    found = set()
    unseen = list(names)
    while unseen:
        name = unseen.pop()
        if name not in below:
            sys.exit(f"build.py: crates.txt has no crate {name}")
        if name not in found:
            found.add(name)
            unseen += below[name]
    return found


def prove(name):
    """Runs rt in the crate's folder: what it said, whether it passed, and the seconds. A program is built by a run with no input and no arguments."""
    is_program = (ROOT / "crates" / name / "src/main.rt").exists()
    began = time.monotonic()
    ran = subprocess.run(
        ["rt", "run" if is_program else "lib"], cwd=ROOT / "crates" / name, stdin=subprocess.DEVNULL, stdout=subprocess.PIPE, stderr=subprocess.STDOUT, text=True, errors="replace"
    )
    return ran.stdout, ran.returncode == 0, round(time.monotonic() - began)


def prove_all(names, below):
    left = needed(names, below)
    done, running = set(), {}
    with ThreadPoolExecutor(os.cpu_count() or 1) as pool:
        while left or running:
            ready = sorted(it for it in left if done.issuperset(below[it]))
            if not ready and not running:
                sys.exit(f"rt: FAILED: crates.txt has a cycle among {', '.join(sorted(left))}")
            left.difference_update(ready)
            running |= {pool.submit(prove, it): it for it in ready}
            ended, _ = wait(running, return_when=FIRST_COMPLETED)
            for one in ended:
                name = running.pop(one)
                said, passed, seconds = one.result()
                if not passed:
                    pool.shutdown(cancel_futures=True)
                    print(f"{said}\nrt: {name} NOT PROVED ({seconds} s)\nrt: FAILED: {name}", flush=True)
                    return False
                print(f"rt: {name} proved ({seconds} s)", flush=True)
                done.add(name)
    return True


def install(name, static):
    """Puts what was built in its place at once, so that whoever runs the program has the old one or the new one."""
    made = f"lib{name}.a" if name in static else name
    folder = ROOT / "target" / ("staticlib" if name in static else "bin")
    folder.mkdir(parents=True, exist_ok=True)
    beside = folder / f".{made}"
    shutil.copy(ROOT / "crates" / name / "out" / made, beside)
    beside.replace(folder / made)


def main(names):
    below, static = read_crates()
    if not names:
        sys.exit("usage: tools/build.py NAME..")
    if not prove_all(names, below):
        sys.exit(1)
    for name in names:
        install(name, static)
    print("rt: ok")


if __name__ == "__main__":
    main(sys.argv[1:])
