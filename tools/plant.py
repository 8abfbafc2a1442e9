#!/usr/bin/env python3
"""Plants bugs, one at a time, and says which of them the prover lets through.

The bugs stand in tools/planted/, for each crate those in code in CRATE.txt and those in statements in
CRATE.statements.txt. A bug is a few lines, and an empty line ends it:

    label: a word of its own
    file: src/lib.rt            a file of the crate, under src/ or specs/
    old: TEXT                   stands exactly once in the file; the sign ⏎ stands for a line feed
    new: TEXT                   several 'old:' and 'new:' pairs, and several 'file:' lines, may follow one another
    turns: what the edit turns, in one line
    note: what a reader should know of the result (this line may be left out)

Lines that start with '#' are passed over. Each bug is planted in a scratch copy of the repository, which is kept
between runs with what rt keeps in each crate's out/, so that mostly what changed is proved again. The crate is
checked with 'rt check' in its folder. A bug in specs/ that the crate lets through is tried on the crates above it as
well, in order, until one refuses it. A bug that rt cannot read or compile, or gives no verdict on, is a bad edit and
counts for nothing. Results are kept, so that an interrupted run goes on where it stopped: a bug is tried again where
the bug or the sources of its crate have changed.

    tools/plant.py                      plant all
    tools/plant.py --crate NAME         those of one crate (may be given several times)
    tools/plant.py --label L            one bug (may be given several times)
    tools/plant.py --code, --statements those in code alone, or those in statements alone
    tools/plant.py --jobs N             the jobs of 'rt check' (1 unless given); bugs are planted one after another
    tools/plant.py --again              try again what has a result
    tools/plant.py --table              print the results kept as rows of a table, and plant nothing: 'at the promise'
                                        where the first error is in src/, 'in its proof' where a proof in proofs/ fails
    tools/plant.py --scratch DIR        the scratch copy (a folder of its own under the temporary files unless given)

The last line is 'N planted, K refused, M survive'; the status is 0 where none survives and each edit could be tried.
"""

import argparse
import hashlib
import json
import os
import re
import shutil
import subprocess
import sys
import tempfile
import time
from pathlib import Path

REPO = Path(__file__).resolve().parent.parent
PARTS = ("src", "specs", "proofs")


class Bug:
    def __init__(self, crate):
        self.crate = crate
        self.label = ""
        self.turns = ""
        self.note = ""
        self.edits = []  # (file, old, new)

    def text(self):
        return json.dumps([self.crate, self.edits], ensure_ascii=False)

    def in_specs(self):
        return any(file.startswith("specs/") for file, _, _ in self.edits)


def read_bugs():
    """All bugs of tools/planted/, in the order of crates.txt."""
    bugs = []
    files = [(c, REPO / "tools" / "planted" / f"{c}{end}") for end in (".txt", ".statements.txt") for c in crates()]
    for crate, path in files:
        if not path.exists():
            continue
        bug, file, old = None, None, None
        for number, line in enumerate(path.read_text().splitlines() + [""], 1):
            if line.startswith("#"):
                continue
            if not line.strip():
                if bug:
                    if not bug.edits or not bug.turns or old is not None:
                        sys.exit(f"{path}:{number}: the bug {bug.label} lacks a line")
                    bugs.append(bug)
                bug, file, old = None, None, None
                continue
            key, _, value = line.partition(": ")
            if key == "label":
                if bug:
                    sys.exit(f"{path}:{number}: no empty line before this label")
                bug = Bug(crate)
                bug.label = value
            elif bug is None:
                sys.exit(f"{path}:{number}: a bug starts with its label")
            elif key == "file":
                file = value
            elif key == "old":
                old = value.replace("⏎", "\n")
            elif key in ("new", "new:"):
                if file is None or old is None:
                    sys.exit(f"{path}:{number}: 'new:' without 'file:' and 'old:'")
                bug.edits.append((file, old, value.replace("⏎", "\n")))
                old = None
            elif key == "turns":
                bug.turns = value
            elif key == "note":
                bug.note = value
            else:
                sys.exit(f"{path}:{number}: unknown line '{key}'")
    labels = [b.label for b in bugs]
    for label in labels:
        if labels.count(label) > 1:
            sys.exit(f"the label {label} stands twice")
    return bugs


def crates():
    """The crates, each after those of the repository that it rests on, and what each rests on."""
    deps = {}
    for line in (REPO / "crates.txt").read_text().splitlines():
        line = line.split("#")[0].strip()
        if line:
            name, _, rest = line.partition(":")
            deps[name.split()[0]] = rest.split()
    deps = {name: [d for d in rest if d in deps] for name, rest in deps.items()}
    order = {}

    def add(name):
        if name not in order:
            for dep in deps[name]:
                add(dep)
            order[name] = deps[name]

    for name in deps:
        add(name)
    return order


def above(name):
    """The crates that rest on this one, lowest first."""
    return [c for c, deps in crates().items() if name in deps]


def digest(crate):
    """What the sources of a crate are."""
    h = hashlib.sha256()
    for part in PARTS:
        folder = REPO / "crates" / crate / part
        for path in sorted(folder.rglob("*")) if folder.exists() else []:
            if path.is_file():
                h.update(str(path.relative_to(folder)).encode() + b"\0" + path.read_bytes() + b"\0")
    return h.hexdigest()


def sources(root):
    """The files of the crates below root, without what rt made (out/) and without must-fail edits."""
    for folder, names, files in os.walk(root / "crates"):
        depth = len(Path(folder).relative_to(root).parts)
        names[:] = [n for n in names if depth != 2 or n not in ("out", "must-fail")]
        for file in files:
            yield (Path(folder) / file).relative_to(root)


def sync(scratch):
    """Brings the scratch copy to the sources of the repository; what rt keeps in the out/ of its crates stays."""
    scratch.mkdir(parents=True, exist_ok=True)
    for top in ("crates.txt", "HANDLES"):
        if (REPO / top).exists():
            shutil.copyfile(REPO / top, scratch / top)
    wanted = set(sources(REPO))
    for relative in wanted:
        path, copy = REPO / relative, scratch / relative
        if not copy.exists() or copy.read_bytes() != path.read_bytes():
            copy.parent.mkdir(parents=True, exist_ok=True)
            shutil.copyfile(path, copy)
    for relative in list(sources(scratch)):
        if relative not in wanted:
            (scratch / relative).unlink()


def check(scratch, crate, jobs):
    """Checks one crate of the scratch copy: whether it is proved, the crate that came last, and what was said of that one."""
    done = subprocess.run(
        ["nice", "-n", "5", "rt", "check", "--jobs", str(jobs)], cwd=scratch / "crates" / crate, text=True,
        errors="replace", stdin=subprocess.DEVNULL, stdout=subprocess.PIPE, stderr=subprocess.STDOUT,
    )
    out = done.stdout
    verdicts = re.findall(r"^logic=.*$", out, re.M)
    proved = done.returncode == 0 and bool(verdicts) and verdicts[-1].startswith("logic=proved")
    below = re.search(r"^rt: the library (\S+) did not build, so nothing above it was checked$", out, re.M)
    # what comes before was said of libraries that were built, or by a quick pass over the sources
    last = re.split(r"^logic=proved.*$", out, flags=re.M)[-1]
    quick = re.search(r"^only=.*$", last, re.M)
    if quick and "logic=not-proved" not in last[: quick.start()]:
        last = last[quick.end() :]
    return proved, below.group(1) if below else crate, out if proved else last


def said(scratch, crate, out):
    """The functions that are not proved, without those that only wait for another, and the first error: place and line."""
    names = re.findall(r"^(?:fn|impl|struct|enum|trait|law) (\S+): (?!proved|.*\bit (?:calls|waits for)\b)", out, re.M)
    error = r"(\S+?:\d+:\d+): error(?:\[[\w-]+\])?: (.*)"
    first = re.search(rf"^(?:{error}|note: (\S+?:\d+:\d+): (.*))$", out, re.M)
    if first:
        place, words = first.group(1) or first.group(3), first.group(2) or first.group(4)
    else:
        first = re.search(r"^(\S+?): error(?:\[[\w-]+\])?: (.*)$", out, re.M)
        lines = out.strip().splitlines() or [""]
        place, words = (first.group(1), first.group(2)) if first else ("", lines[-1])
    if place:
        place = os.path.relpath(scratch / "crates" / crate / place, scratch / "crates")
    return names, place, words


def unread(out, files):
    """The line that says that an edited file cannot be read as it is now, so that no promise was tried, or ''."""
    for line in out.splitlines():
        at = re.match(r"(?:\./)?(\S+?):\d+:\d+: error: (?:(`[^`]*`): )?(.*)", line)
        if at and at.group(1) in files:
            words = re.sub(r"`[^`]*`", "", at.group(3))
            if not at.group(2) or re.search(r"not in scope|has no field|is no name|operand is missing|expected the end|cannot continue", words):
                return line
    return ""


def plant(scratch, bug, jobs, logs):
    """Plants one bug: 'refused', 'SURVIVES' or 'bad edit', and where and why."""
    folder = scratch / "crates" / bug.crate
    before = {}
    try:
        for file, old, new in bug.edits:
            path = folder / file
            if not file.startswith(("src/", "specs/", "proofs/")) or not path.is_file():
                return dict(result="bad edit", why=f"{file} is no file of the crate")
            text = path.read_text()
            if text.count(old) != 1:
                return dict(result="bad edit", why=f"the old text stands {text.count(old)} times in {file}")
            before.setdefault(path, text)
            path.write_text(text.replace(old, new))
        log = ""
        for crate in [bug.crate] + (above(bug.crate) if bug.in_specs() else []):
            proved, last, out = check(scratch, crate, jobs)
            log += f"== {crate}\n{out}\n"
            (logs / f"{bug.label}.log").write_text(log)
            if proved:
                continue
            names, place, words = said(scratch, last, out)
            line = unread(out, [file for file, _, _ in bug.edits]) if last == bug.crate else ""
            if line:
                return dict(result="bad edit", why=f"cannot be read: {line}")
            if "logic=not-proved" not in out and last == bug.crate and not bug.in_specs():
                return dict(result="bad edit", why=f"does not compile, or no verdict: {place}: {words}")
            return dict(result="refused", crate=last, names=names, place=place, why=words)
        return dict(result="SURVIVES")
    finally:
        for path, text in before.items():
            path.write_text(text)


def main():
    parser = argparse.ArgumentParser(description="Plants bugs and says which the prover lets through.")
    parser.add_argument("--crate", action="append")
    parser.add_argument("--label", action="append")
    parser.add_argument("--code", action="store_true")
    parser.add_argument("--statements", action="store_true")
    parser.add_argument("--jobs", type=int, default=1)
    parser.add_argument("--again", action="store_true")
    parser.add_argument("--table", action="store_true")
    parser.add_argument("--scratch", type=Path)
    args = parser.parse_args()
    name = "planted-" + hashlib.sha256(str(REPO).encode()).hexdigest()[:12]
    scratch = args.scratch or Path(tempfile.gettempdir()) / name
    bugs = [b for b in read_bugs() if (not args.crate or b.crate in args.crate) and (not args.label or b.label in args.label)]
    if args.code != args.statements:
        bugs = [b for b in bugs if b.in_specs() == args.statements]
    kept_file = scratch / "results.json"
    kept = json.loads(kept_file.read_text()) if kept_file.exists() else {}
    if args.table:
        for bug in bugs:
            r = kept.get(bug.label, {})
            by = ", ".join(n.split("::", 1)[-1] for n in r.get("names", []))
            where = r.get("crate", bug.crate)
            by = by if where == bug.crate else f"in {where}: {by}"
            if r.get("result") == "refused":
                by += " (at the promise)" if "/src/" in r["place"] else " (in its proof)"
            note = f" {bug.note}" if bug.note else ""
            print(f"| {bug.label} | {bug.crate} | {bug.turns} | {r.get('result', 'not tried')} | {by}.{note} |")
        return 0
    logs = scratch / "logs"
    sync(scratch)
    logs.mkdir(exist_ok=True)
    warm = set()
    count = dict(refused=0, SURVIVES=0, bad=0)
    for bug in bugs:
        key = hashlib.sha256((bug.text() + digest(bug.crate)).encode()).hexdigest()
        r = kept.get(bug.label)
        if args.again or not r or r.get("key") != key:
            if bug.crate not in warm:
                proved, _, out = check(scratch, bug.crate, args.jobs)
                if not proved:
                    sys.exit(f"{bug.crate} is not proved before a bug is planted:\n{out[-2000:]}")
                warm.add(bug.crate)
            began = time.time()
            r = plant(scratch, bug, args.jobs, logs)
            r.update(key=key, took=round(time.time() - began))
            kept[bug.label] = r
            kept_file.write_text(json.dumps(kept, indent=1, ensure_ascii=False))
        if r["result"] == "refused":
            count["refused"] += 1
            names = ", ".join(r["names"][:3])
            print(f"{bug.crate}/{bug.label}: refused ({names}) at {r['place']}: {r['why'][:160]} [{r['took']} s]")
        elif r["result"] == "SURVIVES":
            count["SURVIVES"] += 1
            print(f"{bug.crate}/{bug.label}: SURVIVES: {bug.turns} [{r['took']} s]")
        else:
            count["bad"] += 1
            print(f"{bug.crate}/{bug.label}: BAD EDIT: {r['why'][:300]}")
        sys.stdout.flush()
    bad = f", {count['bad']} could not be tried" if count["bad"] else ""
    print(f"{len(bugs)} planted, {count['refused']} refused, {count['SURVIVES']} survive{bad}")
    return 1 if count["SURVIVES"] or count["bad"] else 0


if __name__ == "__main__":
    sys.exit(main())
