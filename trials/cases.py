"""Runs the stored cases of trials/cases: python3 trials/cases.py [PROGRAM]

NAME.in is the input and NAME.out the output. NAME.args holds arguments, one to a line; NAME.status the exit
status where it is not 0; NAME.err bytes that standard error must contain where it may not stay empty.
python3 trials/cases.py --write writes each NAME.out of a case without arguments from trials/console.py.
"""

import os
import sys
from pathlib import Path

from compare import difference, run, short
from console import reply

CASES = Path(__file__).parent / "cases"

# Output that was worked out by hand.
LOADS = b"ok\n" * 16
WORKED = {
    "worked-session": b"ok\n" * 9 + b"g,1,-2,2,1,0\n",
    "worked-direct": b"ok\n" * 7 + b"g,0,50,0,5,40\ng,1,-10,10,5,40\ng,2,-10,0,5,40\ng,3,-10,-10,5,40\n",
    "worked-sixteen": b"ok\nno,5\nok\nok\n" + LOADS + b"ok\n" + b"ok\n" * 4 + b"g,1,35,-91,100,36800\n"
    b"ok\nno,5\nok\nok\n" + LOADS + b"ok\n" + b"ok\n" * 2 + b"g,1,4,-9,10,2000\n"
    b"ok\nno,5\nok\nok\n" + LOADS + b"ok\n" + b"g,1,4,-9,10,1600\n",
    "size-limit-65537": b"no,15\n",
    "refusal-15-long": b"no,15\n",
    "empty": b"",
    "one-line-feed": b"no,14\n",
}

# Cases with the same samples under three schemes.
SAME = ["scheme-plain", "scheme-system", "scheme-split"]


def padded(commands, length):
    """The commands as input of exactly this length: leading zeros are added to numbers until it is reached."""
    spare = length - sum(len(command) + 1 for command in commands)
    out = []
    for command in commands:
        fields = command.split(",")
        for at in range(1, len(fields)) if fields[0] == "l" else []:
            digits = fields[at].lstrip("-")
            added = min(19 - len(digits), spare)
            spare -= added
            fields[at] = "-" * (fields[at] != digits) + "0" * added + digits
        out.append(",".join(fields) + "\n")
    assert spare == 0
    return "".join(out).encode()


def limit_session(length):
    """A lawful session of exactly this length: 256 samples by each method over the split."""
    modulus = 2**62 - 1
    commands = [f"s,p,{modulus}"]
    for method, stages in [("2", 8), ("4", 4), ("d", 0)]:
        commands.append(f"p,{method},256,1000,20")
        for n in range(256):
            re, im = n * n * 7 % 2001 - 1000, n * 31 % 2001 - 1000
            commands.append(f"l,{n},{re},{im},{n * 2**54 % modulus},{modulus - 1 - n}")
        commands += ["b"] + ["a"] * stages + [f"g,{k}" for k in [0, 1, 2, 63, 64, 127, 128, 192, 255]]
    return padded(commands, length)


GENERATED = {
    "size-limit-65536": lambda: limit_session(65536),
    "size-limit-65537": lambda: limit_session(65537),
    "refusal-15-long": lambda: b"\n" * 65537,
}


def names():
    return sorted({path.stem for path in CASES.iterdir() if path.suffix in (".in", ".out", ".args")} | set(GENERATED))


def part(name, ending):
    """What a file of a case holds, or None."""
    path = CASES / (name + ending)
    return path.read_bytes() if path.exists() else None


def input_of(name):
    return GENERATED[name]() if name in GENERATED else part(name, ".in") or b""


def outcome_problems(name, program):
    """What is wrong with the program's run of a case."""
    arguments = (part(name, ".args") or b"").decode().splitlines()
    data, expected, errors = input_of(name), part(name, ".out"), part(name, ".err")
    if expected is None:
        return ["  there is no stored output"]
    status, got, got_errors = run([program, *arguments], data)
    wanted = int(part(name, ".status") or 0)
    found = []
    if status != wanted:
        found.append(f"  status {status}, not {wanted}")
    if errors is None and got_errors != b"":
        found.append(f"  standard error holds {short(got_errors)}")
    if errors is not None and errors.strip() not in got_errors:
        found.append(f"  standard error lacks {short(errors)} and holds {short(got_errors)}")
    if got != expected:
        found.append(difference(data, expected, got))
    return found


def stored_problems(name):
    """What is wrong with the stored output of a case without arguments."""
    stored, found = part(name, ".out"), []
    if part(name, ".args") is None and stored != reply(input_of(name)):
        found.append("  the stored output is not that of trials/console.py")
    if name in WORKED and stored != WORKED[name]:
        found.append("  the stored output is not the one worked out by hand")
    if name in SAME and stored != part(SAME[0], ".out"):
        found.append(f"  the stored output is not that of {SAME[0]}")
    return found


def main():
    if sys.argv[1:] == ["--write"]:
        for name in names():
            if part(name, ".args") is None:
                (CASES / (name + ".out")).write_bytes(reply(input_of(name)))
        return
    program = os.path.abspath(sys.argv[1] if len(sys.argv) > 1 else "crates/console/out/console")
    passed = failed = 0
    missing = sorted((set(WORKED) | set(SAME)) - set(names()))
    for name in names() + missing:
        found = stored_problems(name) + outcome_problems(name, program)
        if found:
            failed += 1
            print("\n".join([f"case {name}"] + found))
        else:
            passed += 1
    print(f"{passed} passed, {failed} failed")
    sys.exit(1 if failed else 0)


if __name__ == "__main__":
    main()
