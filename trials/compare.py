"""Runs a console on random scripts and compares every byte with trials/console.py.

python3 trials/compare.py [--from SEED] [--count N] [--jobs J] [--fuzz] [PROGRAM]
"""

import argparse
import os
import subprocess
import sys
import tempfile
import time
from collections import Counter
from functools import partial
from multiprocessing import Pool

from console import reply, split_lines
from scripts import fuzz, print_tally, script, tally

SECONDS = 60
SHOWN = 5


def run(command, data):
    """Runs a program on the bytes: its status, standard output and standard error."""
    try:
        done = subprocess.run(command, input=data, capture_output=True, timeout=SECONDS)
        return done.returncode, done.stdout, done.stderr
    except subprocess.TimeoutExpired:
        return f"none within {SECONDS} s", b"", b""
    except OSError as problem:
        return f"none: {problem}", b"", b""


def short(data):
    """Bytes for printing, cut after 100."""
    return repr(data[:100]) + (" ..." if len(data) > 100 else "")


def difference(data, expected, got):
    """Where the first reply differs: its number, its command and both replies."""
    commands, wanted, given = split_lines(data), expected.split(b"\n"), got.split(b"\n")
    at = next((i for i, (a, b) in enumerate(zip(wanted, given)) if a != b), min(len(wanted), len(given)))
    rows = [("command", commands), ("expected", wanted), ("got", given)]
    shown = [f"  {name}: {short(row[at]) if at < len(row) else 'nothing'}" for name, row in rows]
    return "\n".join([f"  first difference at reply {at + 1}"] + shown)


def problems(data, expected, outcome):
    """What is wrong with the outcome of a run, in text; empty where nothing is."""
    status, got, errors = outcome
    found = []
    if status != 0:
        found.append(f"  status {status}, not 0")
    if errors != b"":
        found.append(f"  standard error holds {short(errors)}")
    if got != expected:
        found.append(difference(data, expected, got))
    return "\n".join(found)


def trial(make, program, seed):
    """One script: its seed, what is wrong, the files to keep where something is, and its tally."""
    data = make(seed)
    expected = reply(data)
    outcome = run([program], data)
    wrong = problems(data, expected, outcome)
    kept = {"in": data, "expected": expected, "got": outcome[1]} if wrong else None
    return seed, wrong, kept, tally(data, expected)[0]


def keep(directory, seed, files):
    """Writes the script and both outputs; the path of the script."""
    for ending, content in files.items():
        with open(os.path.join(directory, f"{seed}.{ending}"), "wb") as file:
            file.write(content)
    return os.path.join(directory, f"{seed}.in")


def main():
    options = argparse.ArgumentParser()
    options.add_argument("--from", dest="first", type=int, default=0, metavar="SEED")
    options.add_argument("--count", type=int, default=1000, metavar="N")
    options.add_argument("--jobs", type=int, default=2, metavar="J")
    options.add_argument("--fuzz", action="store_true", help="scripts of random bytes")
    options.add_argument("program", nargs="?", default="crates/console/out/console", metavar="PROGRAM")
    asked = options.parse_args()
    program = os.path.abspath(asked.program)
    if not os.access(program, os.X_OK):
        sys.exit(f"compare: {program} is no program")
    started, counts, failed, directory = time.monotonic(), Counter(), 0, None
    task = partial(trial, fuzz if asked.fuzz else script, program)
    with Pool(asked.jobs) as pool:
        seeds = range(asked.first, asked.first + asked.count)
        for seed, wrong, kept, found in pool.imap(task, seeds, chunksize=8):
            counts += found
            if not wrong:
                continue
            failed += 1
            if failed <= SHOWN:
                directory = directory or tempfile.mkdtemp(prefix="compare-")
                print(f"script {seed} differs: {keep(directory, seed, kept)}\n{wrong}")
    print_tally(counts)
    print(f"{time.monotonic() - started:.1f} s")
    print(f"{asked.count - failed} passed, {failed} failed")
    sys.exit(1 if failed else 0)


if __name__ == "__main__":
    main()
