#!/usr/bin/env python3
"""Brings the repository's own definitions, lemmas and record fields to one spelling: words in snake case.

usage: python3 tools/spell_names.py [--list]      at the top of the checkout, once, after the toolchain's own port.py

A name is ours where specs/ or a lemma file of proofs/ declares it: a definition or lemma with a signature, a record's field, a
constructor. Types, modules and operators keep their spelling, and so does every name that Rattle makes (goals, steps) or that the
source has. A name with a dash or with a capital inside is written with underscores, in specs/, proofs/, the clauses of src/ and the
must-fail edits' clauses. --list prints old and new and writes nothing.
"""

import os
import re
import sys

NAME = r"[A-Za-z][A-Za-z0-9_'\-]*"
TOKEN = re.compile(r"(?<![A-Za-z0-9_'\-◌])" + NAME)
# a signature at the left margin or in a nameless module; a record's field
SIGNATURE = re.compile(r"^ {0,4}(?:abbrev |unfoldable |private )*(?:pub )?(?:abbrev )?(" + NAME + r")((?: " + NAME + r")*) :(?: |$)", re.M)
# a name given to an import
ALIAS = re.compile(r"^use .* as (" + NAME + r")[,}]", re.M)
# where the plain spelling is a function of the source, or two names would fall together
OTHERS = {
    "directLine": "direct_line_of",
    "fineLine": "fine_line_of",
    "radixLine": "radix_line_of",
    "firstLine": "first_line_of",
    "firstMalformed": "first_malformed_place",
    "leastModulus": "least_modulus_of",
    "limitFor": "limit_in",
    "numberThen": "number_and_rest",
    "wholeThen": "whole_and_rest",
    "quarterTurn": "quarter_turn_of",
    "stagesOf": "stage_count",
    "wellFormedAt": "is_well_formed_at",
    "joint-inverse": "joint_inverse_lem",
    "figure-stands": "figure_stands_lem",
    "places-stand": "places_stand_lem",
    "runs-exist": "runs_exist_lem",
    "sizes-are-powers": "sizes_are_powers_lem",
    "stages-compose": "stages_compose_lem",
    "choice-by": "choice_by_lem",
    "command-by": "command_by_lem",
    "line-from": "line_from_lem",
}
TAKEN = re.compile(r"^(?:abbrev |pub )*(" + NAME + r") : (?:goal|need)\.", re.M)


def files():
    for folder, dirs, names in os.walk("crates"):
        dirs[:] = sorted(d for d in dirs if d != "out")
        for name in sorted(names):
            yield os.path.join(folder, name)


def spelled(name):
    if name in OTHERS:
        return OTHERS[name]
    word = re.sub(r"(?<=[a-z0-9])([A-Z])", lambda m: "_" + m.group(1).lower(), name)
    return word.replace("-", "_")


def is_lemma_file(path):
    return path.endswith(".antt") and (re.match(r"crates/\w+/specs/", path) or re.match(r"crates/\w+/proofs/\w+\.antt$", path))


def is_ours(name):
    return name[0].islower() and spelled(name) != name


def respelled(line, mark, names):
    """The line with its names in their new spelling; in a comment a dash may be plain English, so only capitals count there."""
    at = line.find(mark)
    code, comment = (line, "") if at < 0 else (line[:at], line[at:])
    code = TOKEN.sub(lambda m: names.get(m.group(0), m.group(0)), code)
    return code + TOKEN.sub(lambda m: m.group(0) if "-" in m.group(0) else names.get(m.group(0), m.group(0)), comment)


def main(argv):
    texts = {}
    for path in files():
        if path.endswith((".antt", ".rt", ".edit")):
            with open(path, encoding="utf-8") as f:
                texts[path] = f.read()
    ours, made = {}, set()
    for path, text in texts.items():
        if is_lemma_file(path):
            bare = re.sub(r"--.*", "", text)
            for m in SIGNATURE.finditer(bare):
                for name in [m.group(1), *m.group(2).split()]:
                    if is_ours(name):
                        ours.setdefault(name, path)
            for m in ALIAS.finditer(bare):
                if is_ours(m.group(1)):
                    ours.setdefault(m.group(1), path)
        elif path.endswith(".antt"):
            made |= {m.group(1) for m in TAKEN.finditer(text)}
    names = {n: spelled(n) for n in sorted(ours) if n not in made}
    clash = {}
    for old, new in names.items():
        clash.setdefault(new, []).append(old)
    words = {t for text in texts.values() for t in TOKEN.findall(text)}
    if "--list" in argv:
        for old, new in names.items():
            mark = "  TOGETHER " + " ".join(clash[new]) if len(clash[new]) > 1 else "  STANDS" if new in words else ""
            print(f"{ours[old]}: {old} -> {new}{mark}")
        print("made by Rattle too:", *sorted(n for n in ours if n in made))
        return 0
    for path, text in texts.items():
        mark = "--" if path.endswith(".antt") else "//"
        new = "\n".join(respelled(line, mark, names) for line in text.split("\n"))
        if new != text:
            with open(path, "w", encoding="utf-8") as f:
                f.write(new)
    print(f"{len(names)} names")
    return 0


if __name__ == "__main__":
    raise SystemExit(main(sys.argv[1:]))
