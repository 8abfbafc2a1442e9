"""The console of docs/GUIDE.md over whole numbers: python3 trials/console.py < commands

Samples are kept as the whole numbers that were typed and lines are computed by the method's definition.
Nothing is hidden, split or reduced modulo N, so a line that wraps in the program differs from the line here.
"""

import re
import sys

from definitions import figures, is_modulus, is_system, lines, plan_refusal, seal_refusal

LONGEST_INPUT = 65536
LARGEST_NUMBER = 2**62

NUMBER = rb"([0-9]{1,19})"
SIGNED = rb"(-?[0-9]{1,19})"
COMMAND = re.compile(
    b"|".join(
        b",".join(fields)
        for fields in [
            (b"(s)", b"([rp])", NUMBER),
            (b"(s)", b"(y)", NUMBER, NUMBER, NUMBER),
            (b"(p)", b"([d24])", NUMBER, NUMBER, NUMBER),
            (b"(l)", NUMBER, SIGNED, SIGNED, NUMBER, NUMBER),
            (b"(b)",),
            (b"(a)",),
            (b"(g)", NUMBER),
            (b"(r)",),
        ]
    )
)


class Refused(Exception):
    """A command is declined; the argument is the number of the refusal."""


def refuse_if(condition, number):
    if condition:
        raise Refused(number)


def refuse_with(refusal):
    """Declines with a refusal in text, such as "1 size"; does nothing for None."""
    if refusal is not None:
        raise Refused(int(refusal.split()[0]))


def decode(line):
    """The letter of a command, its second letter or method where it has one, and its numbers."""
    found = COMMAND.fullmatch(line)
    refuse_if(found is None, 14)
    fields = [field for field in found.groups() if field is not None]
    letter = fields.pop(0).decode()
    choice = fields.pop(0).decode() if letter in "sp" else None
    numbers = [int(field) for field in fields]
    refuse_if(any(abs(number) > LARGEST_NUMBER for number in numbers), 14)
    return letter, choice, numbers


def stages(method, size):
    """How many stages the method has: the digits of the places, none for the direct method."""
    count = 0
    while method != "d" and int(method) ** count < size:
        count += 1
    return count


class Window:
    """A window under one scheme, of which only the modulus matters here."""

    def __init__(self, modulus):
        self.modulus = modulus
        self.state = "idle"

    def plan(self, method, size, sample_scale, twiddle_scale):
        refuse_with(plan_refusal(method, size, sample_scale, twiddle_scale))
        scale, bound, distance = figures(method, size, sample_scale, twiddle_scale)
        refuse_if(2 * bound + 1 > self.modulus, 5)
        self.method, self.size = method, size
        self.sample_scale, self.twiddle_scale = sample_scale, twiddle_scale
        self.scale, self.distance = scale, distance
        self.state, self.samples = "filling", []

    def load(self, n, re, im, word_re, word_im):
        refuse_if(self.state != "filling", 6)
        refuse_if(n > len(self.samples) or n >= self.size, 7)
        answers = [
            seal_refusal(part, word < self.modulus, self.modulus, self.sample_scale)
            for part, word in [(re, word_re), (im, word_im)]
        ]
        refuse_if("11 large" in answers, 11)
        refuse_if("12 mask" in answers, 12)
        self.samples[n : n + 1] = [(re, im)]

    def begin(self):
        refuse_if(self.state != "filling", 6)
        refuse_if(len(self.samples) < self.size, 10)
        self.due = stages(self.method, self.size)
        self.state = "running" if self.due > 0 else "finished"
        self.lines = None

    def advance(self):
        refuse_if(self.state != "running", 6)
        self.due -= 1
        if self.due == 0:
            self.state = "finished"

    def line(self, k):
        refuse_if(self.state != "finished", 6)
        refuse_if(k >= self.size, 7)
        if self.lines is None:
            self.lines = lines(self.method, self.twiddle_scale, self.samples)
        return k, *self.lines[k], self.scale, self.distance

    def restart(self):
        refuse_if(self.state == "idle", 6)
        self.state, self.samples = "filling", []


def modulus_of(kind, numbers):
    """The modulus of the scheme that a command s names."""
    if kind == "y":
        refuse_if(not is_system(numbers), 13)
        return numbers[0] * numbers[1] * numbers[2]
    refuse_if(not is_modulus(numbers[0]), 13)
    return numbers[0]


def carry_out(window, line):
    """Carries a line out on the window, or None before the first: the window after it and the reply."""
    try:
        letter, choice, numbers = decode(line)
        if letter == "s":
            return Window(modulus_of(choice, numbers)), b"ok\n"
        refuse_if(window is None, 6)
        if letter == "g":
            return window, b"g,%d,%d,%d,%d,%d\n" % window.line(*numbers)
        if letter == "p":
            window.plan(choice, *numbers)
        else:
            calls = {"l": window.load, "b": window.begin, "a": window.advance, "r": window.restart}
            calls[letter](*numbers)
        return window, b"ok\n"
    except Refused as refusal:
        return window, b"no,%d\n" % refusal.args[0]


def split_lines(data):
    """The lines of the input, without their line feeds; the last line may lack its line feed."""
    parts = data.split(b"\n")
    return parts[:-1] if parts[-1] == b"" else parts


def reply(data):
    """What the console prints for this input."""
    if len(data) > LONGEST_INPUT:
        return b"no,15\n"
    window, replies = None, []
    for line in split_lines(data):
        window, answer = carry_out(window, line)
        replies.append(answer)
    return b"".join(replies)


if __name__ == "__main__":
    sys.stdout.buffer.write(reply(sys.stdin.buffer.read()))
