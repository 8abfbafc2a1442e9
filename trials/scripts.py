"""Random command scripts for the console: script(seed) is the same bytes on every machine.

python3 trials/scripts.py SEED                         writes one script
python3 trials/scripts.py --tally [--from S] [--count N]  counts what the scripts reach
"""

import argparse
import random
import sys
from collections import Counter
from math import gcd, prod

from console import reply, split_lines
from definitions import figures, fine, is_modulus, is_system, plan_refusal, turn

LARGEST = 2**62
LARGEST_SYSTEM = (1048575, 1048573, 1048571)
SIZES = {"d": [2**t for t in range(9)], "2": [2**t for t in range(9)], "4": [4**t for t in range(5)]}
FOREIGN = ["é", "中", "😀", "٣", "３", "−", "\u00a0", "\ufeff", "²", "\u2028"]


def least_modulus(plan):
    return 2 * figures(*plan)[1] + 1


def scale_up_to(rng, top):
    """A scale from 1 to top: often an end, else any order of magnitude."""
    return rng.choice([1, 2, top, rng.randint(1, top), rng.randint(1, 100), 2 ** rng.randint(0, 14)])


def lawful_plan(rng, most):
    """A plan with a least modulus of at most `most`, which is 3 or more."""
    method = rng.choice("d24")
    weights = [6 if size <= 16 else 3 if size <= 64 else 1.5 for size in SIZES[method]]
    size = rng.choices(SIZES[method], weights)[0]
    sample, scale = scale_up_to(rng, 32767), scale_up_to(rng, 32768)
    if rng.random() < 0.2:
        sample, scale = 32767, 32768
    while least_modulus((method, size, sample, scale)) > most:
        if sample == scale == 1:
            method, size = "2", max(size // 4, 1)
        elif scale > 1 and (sample == 1 or rng.random() < 0.6):
            scale //= 2
        else:
            sample = max(sample // 2, 1)
    return method, size, sample, scale


def refused_plan(rng, modulus):
    """A plan that is refused with 1, 2, 3 or, under a modulus that is small enough, 5."""
    while True:
        method = rng.choice("d24")
        size = rng.choice(SIZES[method] + [0, 3, 5, 8, 32, 255, 257, 512, LARGEST])
        sample = rng.choice([0, 1, 10, 32767, 32767, 32768, LARGEST])
        scale = rng.choice([0, 1, 10, 32768, 32768, 32769, LARGEST])
        plan = method, size, sample, scale
        if plan_refusal(*plan) is not None or least_modulus(plan) > modulus:
            return plan


def exact_system(least):
    """Three lawful moduli with this product, or None where small factors do not give them."""
    rest, powers = least, []
    for p in range(3, 1100, 2):
        power = 1
        while rest % p == 0:
            rest, power = rest // p, power * p
        if power > 1:
            powers.append(power)
    powers = sorted(powers + [rest] * (rest > 1), reverse=True)
    bins = [1, 1, 1]
    for power in powers:
        bins[bins.index(min(bins))] *= power
    return tuple(bins) if is_system(bins) else None


def near_system(rng, least, above):
    """Three lawful moduli with a product near least: at least it where above, else below it."""
    for _ in range(50):
        top = rng.choice([9, 99, 9999, 1048575])
        m1, m2 = (rng.randrange(3, top + 1, 2) for _ in range(2))
        m3 = least // (m1 * m2)
        m3 += 1 - m3 % 2
        while not above and m1 * m2 * m3 >= least and m3 > 0:
            m3 -= 2
        while (above and m1 * m2 * m3 < least) or (m3 > 2 and gcd(m3, m1 * m2) > 1):
            m3 += 2 if above else -2
        moduli = rng.sample([m1, m2, m3], 3)
        if is_system(moduli):
            return tuple(moduli)
    return LARGEST_SYSTEM if above else (3, 5, 7)


def scheme_for(rng, kind, least):
    """The numbers of a lawful scheme whose modulus is at least `least`."""
    if kind == "y":
        exact = exact_system(least) if rng.random() < 0.5 else None
        return exact or rng.choice([near_system(rng, least, True), LARGEST_SYSTEM])
    wider = [min(least + 2, LARGEST - 1), LARGEST - 1, rng.randrange(least, LARGEST, 2)]
    return (rng.choice([least, least, *wider]),)


def narrow_scheme(rng, kind, least):
    """The numbers of a scheme just too narrow for the plan; not always a lawful one."""
    return near_system(rng, least, False) if kind == "y" else (max(least - 2, 3),)


def refused_scheme(rng):
    """A scheme that is declined with 13."""
    while True:
        if rng.random() < 0.5:
            kind = rng.choice("rp")
            n = rng.choice([0, 1, 2, 4, 2 * rng.randrange(LARGEST // 2), LARGEST - 2, LARGEST])
            if not is_modulus(n):
                return (kind, n)
        else:
            lawful = [3, 5, 7, 9, 15, 25, 1048575, 1048573, 1048571]
            moduli = rng.sample(lawful, 3)
            odd_one = rng.choice([0, 1, 2, 1048576, 1048577, 2**20 + 7, LARGEST - 1, LARGEST, moduli[1]])
            moduli[0] = rng.choice([moduli[0], odd_one])
            rng.shuffle(moduli)
            if not is_system(moduli):
                return ("y", *moduli)


class Writer:
    """Writes sessions: windows carried through, with declined commands in between."""

    def __init__(self, rng):
        self.rng = rng
        self.out = []
        self.noise = rng.choice([0, 0.05, 0.2])
        self.zeros = rng.choice([0, 0, 0.2])

    def chance(self, probability):
        return self.rng.random() < probability

    def field(self, value):
        """A field: text as it is, numbers at times with leading zeros."""
        if isinstance(value, str):
            return value
        digits = str(abs(value))
        if self.chance(self.zeros):
            digits = digits.zfill(self.rng.randint(1, 19))
        return ("-" if value < 0 else "") + digits

    def say(self, *fields):
        self.out.append(",".join(map(self.field, fields)).encode())

    def word(self):
        return self.rng.choice([0, 1, self.modulus - 1, self.rng.randrange(self.modulus)])

    def sample(self, n):
        """A sample within the sample scale, after the style of the window."""
        q = self.plan[2]
        if self.style == "peak":
            a, b = fine(n * self.peak * 256 // self.plan[1])
            return turn((q if a >= 0 else -q, -q if b >= 0 else q), self.quarters)
        choices = {"ends": [q, -q], "mixed": [q, -q, 0], "random": []}[self.style]
        drawn = [] if self.style == "ends" else [self.rng.randint(-q, q) for _ in range(2)]
        return tuple(self.rng.choice(choices + drawn) for _ in range(2))

    def load(self, n):
        parts = ["-0" if part == 0 and self.chance(0.1) else part for part in self.sample(n)]
        self.say("l", n, *parts, self.word(), self.word())

    def refused_load(self, n):
        """A load of sample n that breaks the row 11, or 12, or both in one of several ways."""
        q, half, rng = self.plan[2], (self.modulus - 1) // 2, self.rng
        large = rng.choice([q + 1, half + 1, self.modulus, LARGEST]) * rng.choice([1, -1])
        bad_word = rng.choice([self.modulus, self.modulus + 1, LARGEST])
        parts, words = list(self.sample(n)), [self.word(), self.word()]
        row = rng.choice(["large", "mask", "both"])
        if row != "mask":
            parts[rng.randrange(2)] = large
        if row != "large":
            words[rng.randrange(2)] = bad_word
        self.say("l", n, *parts, *words)

    def stray(self, state, count=0):
        """A command that is declined in this state, with the count of samples loaded."""
        rng, size = self.rng, self.plan[1]
        common = ["s", "p", "14"]
        kinds = {
            "idle": ["l", "b", "a", "g", "r"],
            "filling": ["a", "g", "place", "seal", "seal"] + ["b"] * (count < size),
            "running": ["l", "b", "g"],
            "finished": ["l", "b", "a", "above"],
        }[state]
        kind = rng.choice(kinds + kinds + common)
        if kind == "s":
            self.say("s", *refused_scheme(rng))
        elif kind == "p":
            self.say("p", *refused_plan(rng, self.modulus))
        elif kind == "14":
            self.out.append(no_command(rng, rng.choice(self.out or [b"b"])))
        elif kind == "seal" and count < size:
            self.refused_load(rng.choice([count, rng.randint(0, count)]))
        elif kind in ("place", "seal"):
            self.load(rng.choice([count + 1, size, LARGEST]))
        elif kind == "l":
            self.load(rng.choice([0, size - 1, size, LARGEST]))
        elif kind in ("g", "above"):
            self.say("g", rng.choice([size, size + 1, LARGEST] + [0, size - 1] * (kind == "g")))
        else:
            self.say(kind)

    def strays(self, state, count=0):
        while self.chance(self.noise):
            self.stray(state, count)

    def fill(self, count):
        """Loads the first samples up to the count, at times replacing earlier ones."""
        for n in range(count):
            self.strays("filling", n)
            if n > 0 and self.chance(self.noise):
                self.load(self.rng.randrange(n))
            self.load(n)
        self.strays("filling", count)
        if count > 0 and self.chance(0.3):
            self.load(self.rng.randrange(count))

    def stages(self):
        method, size = self.plan[:2]
        return 0 if method == "d" else SIZES[method].index(size)

    def carry_through(self):
        """Fills, runs and opens, or stops at some moment before the end."""
        rng, size = self.rng, self.plan[1]
        self.style = rng.choice(["peak", "ends", "mixed", "random"])
        self.peak, self.quarters = rng.randrange(size), rng.randrange(4)
        if self.chance(0.12):
            return self.fill(rng.randrange(size))
        self.fill(size)
        self.say("b")
        for stage in range(self.stages()):
            self.strays("running")
            if self.chance(0.03):
                return
            self.say("a")
        asked = [0, size - 1, self.peak] + [rng.randrange(size) for _ in range(5)]
        for k in range(size) if size <= 16 or self.chance(0.2) else asked:
            self.strays("finished")
            self.say("g", k)

    def window(self):
        """A new window and its first plan, with what goes wrong before."""
        rng = self.rng
        kind = rng.choice("rpy")
        self.plan = lawful_plan(rng, prod(LARGEST_SYSTEM) if kind == "y" else LARGEST - 1)
        self.modulus, self.style = LARGEST - 1, "random"
        if not self.out:
            self.strays("idle")
        if self.chance(0.15):
            self.say("s", kind, *narrow_scheme(rng, kind, least_modulus(self.plan)))
            self.say("p", *self.plan)
        numbers = scheme_for(rng, kind, least_modulus(self.plan))
        self.modulus = prod(numbers)
        self.say("s", kind, *numbers)
        self.strays("idle")
        self.say("p", *self.plan)

    def session(self):
        """One or several windows, each with one or several plans and restarts."""
        self.window()
        self.carry_through()
        while self.chance(0.4) and sum(map(len, self.out)) < 12000:
            then = self.rng.choice(["restart", "plan", "window"])
            if then == "restart":
                self.say("r")
            elif then == "plan":
                self.plan = lawful_plan(self.rng, self.modulus)
                self.say("p", *self.plan)
            else:
                self.window()
            self.carry_through()
        return self.out


def walk(rng):
    """Commands drawn one by one, with small numbers, so that every state is met at random."""
    size = rng.choice([1, 1, 2, 4])
    out = [b"s,%c,%d" % (rng.choice(b"rp"), rng.choice([3, 9, 99, 9999]))] * rng.randint(0, 1)
    count = 0
    for _ in range(rng.randint(1, 80)):
        kind = rng.choice("lllllllbbaaaggggrpps")
        n = rng.choice([count, count, 0, rng.randint(0, 5)])
        if kind == "l":
            parts, words = (rng.randint(-3, 3), rng.randint(-2, 2)), (rng.choice([0, 2, 9]), rng.choice([0, 1, 3, 99]))
            out.append(b"l,%d,%d,%d,%d,%d" % (n, *parts, *words))
            count = (count + 1) % (size + 1)
        elif kind == "p":
            scales = rng.randint(0, 3), rng.randint(0, 3)
            out.append(b"p,%c,%d,%d,%d" % (rng.choice(b"d24"), rng.choice([size, 2, 8]), *scales))
            count = 0
        elif kind == "s" and rng.random() < 0.5:
            out.append(b"s,y,%d,%d,%d" % tuple(rng.choice([3, 4, 5, 7, 9, 11]) for _ in range(3)))
        elif kind == "s":
            out.append(b"s,%c,%d" % (rng.choice(b"rp"), rng.choice([1, 2, 3, 9, 99, 9999])))
        else:
            out.append(b"g,%d" % n if kind == "g" else kind.encode())
            count = 0 if kind == "r" else count
    return out


def garble(rng, line):
    """A line with one thing changed; most, but not all, of the results are no command."""
    fields = line.split(b",")
    at = rng.randrange(len(fields))
    field = fields[at]
    place = rng.randint(0, len(line))

    def put(new):
        return b",".join(fields[:at] + [new] + fields[at + 1 :])

    def insert(new):
        return line[:place] + new + line[place:]

    numbers = [2**62, 2**62 + 1, 2**63 - 1, 2**63, 2**64 - 1, 2**64, 10**19 - 1, 10**19]
    return rng.choice(
        [
            lambda: line.replace(b",", b"", 1),
            lambda: line.replace(b",", b",,", 1),
            lambda: rng.choice([b"," + line, line + b",", line + b",0", insert(b",")]),
            lambda: rng.choice([b" " + line, line + b" ", insert(b" "), insert(b"\t")]),
            lambda: line + b"\r",
            lambda: insert(rng.choice([b"\r", b"\v", b"\f", b"\x1c", b"\x85", b'"', b";", b"_", b".", b"e1"])),
            lambda: put(rng.choice([b"+", b"-", b"--", b"-+", b" ", b"0x"]) + field),
            lambda: put(field + b"-"),
            lambda: put(rng.choice([b"", b"-", b"--1", b"+1", b"x", b"1.0", b"1e3"])),
            lambda: put(rng.choice([b"", b"-"]) + b"%d" % rng.choice(numbers)),
            lambda: put(field.zfill(rng.choice([18, 19, 20]))),
            lambda: put(rng.choice([b"0" * 19, b"0" * 20, b"-" + b"0" * 19, b"-" + b"0" * 20, b"1" * 20])),
            lambda: line.upper(),
            lambda: rng.choice([b"", b"\n", line + b"\n", b"\n" + line]),
            lambda: insert(bytes([rng.choice([0, rng.randrange(128, 256), rng.randrange(256)])])),
            lambda: insert(rng.choice(FOREIGN).encode()),
            lambda: put(rng.choice(FOREIGN).encode()),
            lambda: line.replace(b"p,", b"p," + rng.choice([b"3", b"8", b"D", b"02", b"r", b"dd", b"-2"]) + b",", 1),
            lambda: b",".join(fields[:at] + fields[at + 1 :]),
            lambda: b",".join(fields[:at] + [field] + fields[at:]),
            lambda: line[: max(place - 1, 0)] + line[place:],
            lambda: bytes([rng.randrange(256)]) + line[1:],
        ]
    )()


def no_command(rng, line):
    """A garbled line that the console declines with 14, with all that a line feed in it makes of it."""
    while True:
        changed = garble(rng, line)
        if set(reply(changed + b"\n").split()) == {b"no,14"}:
            return changed


def garbled(rng):
    """A session with garbled lines beside its lines, or in place of them."""
    keeps, out = rng.random() < 0.7, []
    for line in Writer(rng).session():
        if rng.random() < 0.25:
            out.append(garble(rng, line))
            if not keeps:
                continue
        out.append(line)
    return out


def noise_bytes(rng, length):
    """Random bytes: of all values, or of the values that commands are made of."""
    alphabet = rng.choice([bytes(range(256)), b"slpbagrdy24,-0123456789\n", b"sprbagl,,,,013\n\n\n\n"])
    return bytes(rng.choices(alphabet, k=length))


def long_input(rng):
    """An input near the limit of 65,536 bytes, often at it or one above."""
    length = rng.choice([65535, 65536, 65536, 65536, 65537, 65537, 65538, 70000, 131072])
    data = b"\n".join(Writer(rng).session()) + b"\n"
    padding = rng.choice([b"\n", b"g,0\n", b"l,0,1,-1,0,0\n", b"0", b"\xff", b"r\n", b"g," + b"0" * 19 + b"\n"])
    padding = padding * length
    if rng.random() < 0.5:
        return (data + padding)[:length]
    return padding[: max(length - len(data), 0)] + data[-length:]


def fuzz(seed):
    """Random bytes of a random length, mostly short."""
    rng = random.Random(seed)
    longest = rng.choices([20, 200, 2000, 70000], [30, 50, 17, 3])[0]
    return noise_bytes(rng, rng.randint(0, longest))


def script(seed):
    """The script of a seed."""
    rng = random.Random(seed)
    kinds = {"session": 50, "walk": 15, "garbled": 20, "bytes": 8, "tiny": 4, "long": 3}
    kind = rng.choices(list(kinds), list(kinds.values()))[0]
    if kind == "bytes":
        return noise_bytes(rng, rng.randint(0, 400))
    if kind == "tiny":
        return rng.choice([b"", b"\n", b"\n\n", b"\r\n", b"\0", b"b", b"s,r,3", b"g,0\n", b"\xff\n", b"s,r,3\n\np"])
    if kind == "long":
        return long_input(rng)
    commands = {"session": lambda r: Writer(r).session(), "walk": walk, "garbled": garbled}[kind](rng)
    return b"\n".join(commands) + b"\n" * (rng.random() < 0.9)


def tally(data, replies):
    """How often each reply occurs: "ok", "line" and the numbers of refusals; and the windows that opened lines."""
    counts, windows = Counter(), Counter()
    scheme = plan = None
    answers = replies.split(b"\n")[:-1]
    for line, answer in zip(split_lines(data), answers):
        if answer.startswith(b"g,"):
            windows[scheme, *plan] += 1
        elif answer == b"ok" and line.startswith(b"s"):
            scheme = line.split(b",")[1].decode()
        elif answer == b"ok" and line.startswith(b"p"):
            plan = line.split(b",")[1].decode(), int(line.split(b",")[2])
    for answer in answers:
        kind = answer.decode().split(",")
        counts[int(kind[1]) if kind[0] == "no" else "line" if kind[0] == "g" else "ok"] += 1
    return counts, windows


def print_tally(counts):
    """The counts of all replies that the console can give."""
    names = ["ok", "line", 1, 2, 3, 5, 6, 7, 10, 11, 12, 13, 14, 15]
    assert set(counts) <= set(names), counts
    print("replies: " + ", ".join(f"{name}: {counts[name]}" for name in names))


def main():
    options = argparse.ArgumentParser()
    options.add_argument("seed", nargs="?", type=int, default=0)
    options.add_argument("--tally", action="store_true")
    options.add_argument("--from", dest="first", type=int, default=0)
    options.add_argument("--count", type=int, default=1000)
    asked = options.parse_args()
    if not asked.tally:
        sys.stdout.buffer.write(script(asked.seed))
        return
    counts, windows, scripts = Counter(), Counter(), Counter()
    for seed in range(asked.first, asked.first + asked.count):
        data = script(seed)
        found, opened = tally(data, reply(data))
        counts += found
        windows += opened
        scripts.update(found.keys())
    print_tally(counts)
    print("scripts with each: " + ", ".join(f"{name}: {scripts[name]}" for name in sorted(scripts, key=str)))
    print("lines opened by scheme and method, at the sizes:")
    for scheme, method in sorted({key[:2] for key in windows}):
        sizes = sorted(size for s, m, size in windows if (s, m) == (scheme, method))
        print(f"  {scheme} {method}: " + ", ".join(f"{size}: {windows[scheme, method, size]}" for size in sizes))


if __name__ == "__main__":
    main()
