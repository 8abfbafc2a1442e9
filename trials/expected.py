"""Writes what a program of crates/ must print: python3 trials/expected.py NAME > crates/NAME/stdout"""

import sys
from fractions import Fraction
from math import ceil, cos, isqrt, pi, radians, sin

from definitions import (
    C_TABLE,
    METHODS,
    S_TABLE,
    away,
    figures,
    fine,
    fine_lines,
    is_modulus,
    is_system,
    lines,
    meaning,
    plan_refusal,
    seal_refusal,
    spread,
    twiddle,
)


def sweep():
    for v in range(66):
        print("circle", v, *((C_TABLE[v], S_TABLE[v]) if v <= 64 else ["none"]))
    for u in range(260):
        print("fine", u, *fine(u))
    for scale in [0, 1, 2, 10, 12345, 32768, 2**32 - 1]:
        print("spread", scale, spread(scale))
        for u in range(256):
            print("twiddle", scale, u, *twiddle(scale, u))
    for method in METHODS:
        for size in [0, 1, 2, 3, 4, 8, 15, 16, 17, 32, 64, 128, 255, 256, 257, 512, 2**64 - 1]:
            for sample in [0, 1, 32767, 32768]:
                for scale in [0, 1, 32768, 32769]:
                    refusal = plan_refusal(method, size, sample, scale)
                    if refusal is None:
                        d, b, e = figures(method, size, sample, scale)
                        answer = f"{d} {b} {e} {2 * b + 1}"
                    else:
                        answer = refusal
                    print(f"{METHODS[method]} {size} {sample} {scale}: {answer}")


def decimal(x):
    """A fraction to two decimals, halves away from zero."""
    hundredths = away(x * 100)
    sign = "-" if hundredths < 0 else ""
    return f"{sign}{abs(hundredths) // 100}.{abs(hundredths) % 100:02}"


def card(method, size, sample, scale, modulus):
    print(f"{METHODS[method]}, size {size}, sample scale {sample}, twiddle scale {scale}")
    d, b, e = figures(method, size, sample, scale)
    print(f"  scale {d}, bound {b}, distance {e}")
    least = 2 * b + 1
    verdict = f"fits {modulus}" if least <= modulus else f"{modulus} is refused, 5 narrow"
    print(f"  least modulus {least}: {verdict}")


class Cycle:
    """One cycle of the demonstration: its plan, its samples and what each house holds of them."""

    modulus, size, sample_scale, twiddle_scale = 999999999989, 64, 1000, 512
    harmonics = [(1, 480, -8), (3, 300, 160), (5, 150, -30), (7, 60, 135)]

    def __init__(self):
        turns = [2 * pi * n / self.size for n in range(self.size)]
        self.current = [
            round(sum(a * sin(h * turn + radians(phase)) for h, a, phase in self.harmonics))
            for turn in turns
        ]
        self.samples = [(x, 0) for x in self.current]
        words = self.words()
        self.first = [(next(words), next(words)) for _ in self.samples]
        self.second = [self.other(x, w) for x, w in zip(self.samples, self.first)]

    def words(self):
        """The mask words: a linear congruential generator modulo 2^64, less its low 20 bits."""
        x = 1
        while True:
            x = (x * 6364136223846793005 + 1442695040888963407) % 2**64
            yield x // 2**20 % self.modulus

    def other(self, sample, shares):
        """The shares which, with these, make up the sample."""
        return tuple((x - share) % self.modulus for x, share in zip(sample, shares))

    def held(self, house, stages, place):
        """What a house holds at a place after so many stages of radix 4: line k of size 4^stages over its shares of
        the samples whose low digits, all but `stages`, are g's reversed."""
        g, k = divmod(place, 4**stages)
        step, start = 1, 0
        for _ in range(3 - stages):
            step, start, g = 4 * step, 4 * start + g % 4, g // 4
        part = lines("4", self.twiddle_scale, house[start::step])[k]
        return tuple(x % self.modulus for x in part)


SHARE_COLUMNS = "first house: re, im         second house: re, im"


def shares(first, second):
    return f"{first[0]:>12} {first[1]:>12}   {second[0]:>12} {second[1]:>12}"


def houses(cycle):
    print("\nThe two houses: the window, call by call\n")
    print("begin: no, 6 moment")
    print("plan radix 4, size 64, scales 1000 and 512: ok")
    print("begin: no, 10 short\nload 0 to 63: 64 ok\nbegin: ok")
    print("line 5: no, 6 moment\nadvance: ok\nadvance: ok\nadvance: ok")
    print("advance: no, 6 moment\nline 64: no, 7 place")
    print("\nWhat each house holds at place 5, by the stages done\n")
    print(f"stages           {SHARE_COLUMNS}")
    for t in range(4):
        first, second = (cycle.held(house, t, 5) for house in (cycle.first, cycle.second))
        print(f"{t:>6}           {shares(first, second)}")


def reader(cycle, opened):
    print("\nThe reader: joins the shares, opens the lines, divides by the scale\n")
    first, second = cycle.held(cycle.first, 3, 5)[0], cycle.held(cycle.second, 3, 5)[0]
    joined = (first + second) % cycle.modulus
    meant = meaning(joined, cycle.modulus)
    print(f"line 5, real part: {first} + {second} is {joined}, which means {meant}\n")
    d, _, e = figures("4", cycle.size, cycle.sample_scale, cycle.twiddle_scale)
    print(f"Each line is stated with scale {d} and distance {e}:")
    print("divided by the scale, no component is off by more than the last column.\n")
    print("line      opened: re, im      divided by the scale          true value           within")
    exact = fine_lines(cycle.samples)
    for k in [1, 3, 5, 7, 9]:
        value = " ".join(f"{decimal(Fraction(part, d)):>10}" for part in opened[k])
        true = " ".join(f"{decimal(Fraction(part, 2**30)):>10}" for part in exact[k])
        within = decimal(Fraction(ceil(Fraction(100 * e, d)), 100))
        print(f"{k:>4} {opened[k][0]:>11} {opened[k][1]:>11}  {value}  {true}  {within:>10}")


def amplitude(line, scale, size):
    """Twice the size of the line over the samples, once it is divided by the scale."""
    return Fraction(isqrt(line[0] ** 2 + line[1] ** 2), scale * size // 2)


def meter(cycle):
    print("\nThe meter: one cycle in 64 samples, in hundredths of an ampere\n")
    print("fundamental 480, third harmonic 300, fifth 150, seventh 60")
    print("a fixed generator stands in for random mask words\n")
    print(f"sample   value   {SHARE_COLUMNS}")
    for n in range(4):
        print(f"{n:>6} {cycle.current[n]:>7}   {shares(cycle.first[n], cycle.second[n])}")
    print("   ...")


def spectrum(cycle, opened, scale):
    print("\nThe spectrum: amplitudes, one # for every 10\n")
    for k in range(11):
        high = amplitude(opened[k], scale, cycle.size)
        print(f"{k:>4} {decimal(high):>10} |{'#' * min(int(high / 10), 50)}")


def wrong_scale(cycle, scale):
    plan = cycle.size, cycle.sample_scale
    told = figures("d", *plan, 32768)[0]
    print(f"\nA wrong scale: the fifth harmonic, read with {told} from a comment\n")
    card("d", *plan, 32768, cycle.modulus)
    print(f"\ntwiddle scale  stated scale   amplitude  with {told}")
    for method, twiddle_scale in [("d", 32768), ("4", cycle.twiddle_scale)]:
        line = lines(method, twiddle_scale, cycle.samples)[5]
        stated = figures(method, *plan, twiddle_scale)[0]
        right, wrong = (decimal(amplitude(line, d, cycle.size)) for d in (stated, told))
        print(f"{twiddle_scale:>13} {stated:>13}  {right:>10}  {wrong:>10}   {METHODS[method]}")
    print(f"\nWith the comment's scale the line by radix 4 reads {scale // told} times too large:")
    print("divide by the scale that is stated with the line.")


def other_schemes(cycle, opened):
    print("\nThe same lines under the other schemes\n")
    for name, n in [
        ("plain residues", cycle.modulus),
        ("the residue system 10007, 10009, 10037", 10007 * 10009 * 10037),
    ]:
        same = all(meaning(x % n, n) == x for line in opened[:11] for x in line)
        print(f"by {name}: {'yes' if same else 'no'}")


def masks(cycle):
    print("\nWhat a house cannot tell: that the current is not a flat 400\n")
    print(f"sample   value   {SHARE_COLUMNS}")
    print("sealed so that the first house holds what it holds of the current:")
    for n in range(3):
        print(f"{n:>6} {400:>7}   {shares(cycle.first[n], cycle.other((400, 0), cycle.first[n]))}")
    print("sealed so that the second house does:")
    for n in range(3):
        print(f"{n:>6} {400:>7}   {shares(cycle.other((400, 0), cycle.second[n]), cycle.second[n])}")


def harmonics_cycle():
    cycle = Cycle()
    plan = cycle.size, cycle.sample_scale, cycle.twiddle_scale
    print(f"The plan by each method, modulus {cycle.modulus}\n")
    for method in METHODS:
        card(method, *plan, cycle.modulus)
    meter(cycle)
    houses(cycle)
    opened, scale = lines("4", cycle.twiddle_scale, cycle.samples), figures("4", *plan)[0]
    reader(cycle, opened)
    spectrum(cycle, opened, scale)
    wrong_scale(cycle, scale)
    masks(cycle)
    other_schemes(cycle, opened)


def cycle():
    print("\nOne cycle of a feeder current\n")
    angle = 2 * pi / 16
    current = [round(80 * sin(n * angle) + 15 * sin(5 * n * angle)) for n in range(16)]
    samples = [(x, 0) for x in current]
    d, _, e = figures("4", 16, 100, 1000)
    print("begin: no, 6 moment")
    print("plan radix 4, size 16, scales 100 and 1000: ok")
    print("begin: no, 10 short")
    for n in range(16):
        print(f"load {n}: ok")
    print("begin: ok\nadvance: ok\nline 1: no, 6 moment\nadvance: ok")
    opened = lines("4", 1000, samples)
    for k in [1, 3, 5, 7]:
        print(f"line {k}: {opened[k][0]}, {opened[k][1]}, scale {d}, distance {e}")
        re, im = (decimal(Fraction(part, d)) for part in opened[k])
        print(f"  divided by the scale {re}, {im}")
        re, im = (
            decimal(Fraction(round(part * 10**6), 10**6))
            for part in (
                sum(x * cos(n * k * angle) for n, x in enumerate(current)),
                -sum(x * sin(n * k * angle) for n, x in enumerate(current)),
            )
        )
        print(f"  exact {re}, {im}")
    print("line 16: no, 7 place\nrestart: ok")
    unknown(current[:3])


def unknown(current):
    print("\nWhat the houses cannot tell\n")
    n = 2**31 - 1
    words = [((k + 1) * 123456789 % n, (k + 1) * 123456789 * 7 % n) for k in range(3)]
    seconds = [((x - a) % n, -b % n) for x, (a, b) in zip(current, words)]
    print("the first house would hold the same for a flat 40 under the mask words")
    for a, b in words:
        print(f"  {a} and {b}")
    print("the second house would hold the same for a flat 40 under the mask words")
    for a, b in seconds:
        print(f"  {(40 - a) % n} and {-b % n}")


def cards():
    modulus = 540801
    print(f"Plan cards for the modulus {modulus}\n")
    for request in [
        ("d", 4, 10, 5),
        ("d", 16, 100, 10),
        ("2", 16, 100, 10),
        ("4", 16, 100, 10),
        ("2", 32, 100, 10),
        ("4", 64, 10, 4),
        ("2", 256, 32767, 32768),
        ("4", 8, 100, 10),
        ("2", 16, 32768, 10),
        ("d", 16, 100, 0),
    ]:
        method, size, sample, scale = request
        print(f"{METHODS[method]}, size {size}, sample scale {sample}, twiddle scale {scale}")
        refusal = plan_refusal(*request)
        if refusal is not None:
            print(f"  refused, {refusal}")
            continue
        d, b, e = figures(*request)
        print(f"  scale {d}, bound {b}, distance {e}")
        least = 2 * b + 1
        verdict = f"fits {modulus}" if least <= modulus else f"{modulus} is refused, 5 narrow"
        print(f"  least modulus {least}: {verdict}")
    print("\nOne sample on its way\n")
    for sample, word in [(-57, 123456), (-57, modulus), (270401, 1)]:
        refusal = seal_refusal(sample, word < modulus, modulus)
        if refusal is not None:
            print(f"split: {sample} with mask word {word} is refused, {refusal}")
            continue
        second = (sample - word) % modulus
        print(f"split, modulus {modulus}: {sample} sealed with mask word {word}")
        print(f"  the first house holds {word}, the second {second}")
        print(f"  the reader opens {meaning((word + second) % modulus, modulus)}")
    moduli = (79, 83, 89)
    residues = [-57 % m for m in moduli]
    whole = 79 * 83 * 89
    opened = next(n for n in range(whole) if [n % m for m in moduli] == residues)
    print(f"residue system 79, 83, 89, modulus {whole}: -57 sealed")
    print(f"  the residues are {residues[0]}, {residues[1]}, {residues[2]}")
    print(f"  the reader opens {meaning(opened, whole)}")
    cycle()


U64, I64_MAX, I64_MIN = 2**64 - 1, 2**63 - 1, -(2**63)


def scheme_table(name, n, takes):
    print(name, "modulus", n)
    print(name, "zero", 0)
    half = (n - 1) // 2

    def seals(m):
        for word in [0, 1, n - 1, n, U64]:
            print(f"{name} seal {m} {word}: {seal_refusal(m, takes(word), n) or m}")
        for limit in [0, (abs(m) - 1) % 2**64, abs(m), U64]:
            print(f"{name} within {limit} {m}: {seal_refusal(m, True, n, limit) or m}")

    for m in [0, 1, -1, half, -half, half + 1, -half - 1]:
        seals(m)
        print(name, "numbers", m, half)
        if abs(m) <= half:
            sums = [meaning(x % n, n) for x in (m + half, m - half, -m)]
            print(name, "sum", *sums, "true")
            for c in [0, 1, -1, 2, 3, -7, 1000, I64_MAX, I64_MIN]:
                print(f"{name} times {c}: {meaning(c * m % n, n)}")
    seals(I64_MAX)
    seals(I64_MIN)


def schemes():
    for n in [0, 1, 2, 3, 4, 81, 2**62 - 1, 2**62, 2**62 + 1, U64]:
        if not is_modulus(n):
            print(f"plain {n}: 13 modulus")
            continue
        scheme_table("plain", n, lambda w: w < n)
        for x in [0, n - 1, n, U64]:
            print("plain any", "true" if x < n else "false")
        scheme_table("split", n, lambda w: w < n)
        for halves in [(0, n - 1), (n, 0), (0, n), (U64, U64)]:
            print("split any", "true" if max(halves) < n else "false")
        scheme_table("split twice", n, lambda w: w < n)
    for moduli in [
        (3, 5, 7),
        (1048575, 1048573, 1048571),
        (1, 5, 7),
        (3, 5, 8),
        (3, 1048577, 7),
        (9, 5, 15),
        (5, 21, 9),
        (7, 7, 9),
        (0, U64, 3),
    ]:
        if not is_system(moduli):
            print("system", f"{moduli[0]} {moduli[1]} {moduli[2]}: 13 modulus")
            continue
        n = moduli[0] * moduli[1] * moduli[2]
        scheme_table("system", n, lambda w: w < n)
        for formed in ["true", "false", "false", "false", "false"]:
            print("system any", formed)
        scheme_table("split system", n, lambda w: w < n)
    for n in [2, 3, 540801, 2**62 - 1]:
        if not is_modulus(n):
            print(f"rerandomised {n}: 13 modulus")
            continue
        scheme_table("rerandomised", n, lambda w: w % 2 == 1)
        scheme_table("split rerandomised", n, lambda w: w < n)


def component(kind, scale, n, which):
    """The samples of transforms_sweep: its generator, in 64-bit arithmetic."""
    x = (n * 6364136223846793005 + which) * 1442695040888963407 % 2**64
    drawn = (x ^ (x >> 29)) * 3202034522624059733 % 2**64 >> 33
    if kind == "ends":
        return scale if drawn % 2 == 0 else -scale
    return drawn % 65535 % (scale + 1) - drawn // 65535 % 65535 % (scale + 1)


def transforms():
    for name, most, kind in [
        ("plain", 256, "spread"),
        ("plain", 256, "ends"),
        ("split", 16, "spread"),
        ("split twice", 16, "ends"),
        ("system", 16, "spread"),
        ("split system", 16, "ends"),
        ("rerandomised", 16, "spread"),
    ]:
        for method in METHODS:
            for size in [1, 2, 4, 8, 16, 32, 64, 128, 256]:
                if size > most or plan_refusal(method, size, 1000, 100) is not None:
                    continue
                samples = [
                    (component(kind, 1000, n, 1), component(kind, 1000, n, 2)) for n in range(size)
                ]
                print(name, METHODS[method], size)
                for k, line in enumerate(lines(method, 100, samples)):
                    print(k, *line)


{"transforms_sweep": transforms, "schemes_sweep": schemes, "sweep": sweep, "harmonics": cards, "harmonics_cycle": harmonics_cycle}[sys.argv[1]]()
