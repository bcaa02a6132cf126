#!/usr/bin/env python3
"""Respells the repository's own definitions and lemmas as today's Rattle spells names.

usage: python3 tools/respell.py     at the top of the repository, once, after the kit's own script

A word is in snake case (`page-at` becomes `page_at`), a type or a fact in camel case (`In-range` becomes `InRange`).
Only names that specs/ and proofs/ declare are touched: functions of src/, strings, inputs and outputs keep theirs,
and so do the names that the check makes (goals, steps, invariants and measures).
It stops before it writes anything where two of our names would fall together.
"""
import glob
import re
import sys

TOKEN = re.compile(r"[^\s(){}\[\];,.:λ|\"`]+")
HEAD = re.compile(
    r"^ *(?:(?:abbrev|pub|unfoldable|data|record|ruleset) +)*([A-Za-z][^\s(){}:;,.]*) *(?:\{[^}]*\} *|\([^)]*\) *)*:(?!=)(.*)$", re.M)
MADE = re.compile(r"(invariant|decreases|loop|returns|overflow|bounds|slice|then|else|in)-|.*-requires(-|$)")
# declared over several lines, or local names that stand for a declared one
MORE = "Emptied-block Named-by Lines-law Words-law Read-page Chip-refusal books-admitted books-noticed opened-books walk-begun all-are-free is-open".split()
# ours, though they begin as a name that the check makes
OURS = set(
    "in-range in-front in-first in-second in-block in-block-outside in-step in-use in-pool in-blocks returns-on "
    "then-entry then-none then-open then-admit then-notice then-take then-return then-store then-no-store then-read then-tick then-no-tick".split())


def camel(name):
    return "".join(part[0].upper() + part[1:] for part in name.split("-") if part)


def snake(name):
    return name.replace("-", "_")


def files():
    antt = glob.glob("crates/*/specs/**/*.antt", recursive=True) + glob.glob("crates/*/proofs/**/*.antt", recursive=True)
    rt = glob.glob("crates/*/src/**/*.rt", recursive=True)
    edits = glob.glob("crates/*/must-fail/*.edit")
    return sorted(antt), sorted(rt), sorted(edits)


def read(path):
    with open(path, encoding="utf-8") as f:
        return f.read()


def declared(antt):
    names, goals = set(MORE), set()
    for path in antt:
        for m in HEAD.finditer(read(path)):
            name, kind = m.group(1), m.group(2)
            if "-" not in name or name.startswith("--"):
                continue
            (goals if "goal." in kind else names).add(name)
    return {n for n in names - goals if n in OURS or not MADE.match(n)}


def main():
    antt, rt, edits = files()
    new = {n: camel(n) if n[0].isupper() else snake(n) for n in declared(antt)}
    back = {}
    for old, name in sorted(new.items()):
        if back.setdefault(name, old) != old:
            sys.exit(f"{old} and {back[name]} would both be {name}")

    def name(m):
        return new.get(m.group(0), m.group(0))

    # a line of code, and of its comment what stands in backticks or is explained there
    def turn(line, mark):
        code, sep, prose = line.partition(mark)
        prose = re.sub(r"`[^`]*`", lambda m: TOKEN.sub(name, m.group(0)), prose)
        prose = re.sub(r"^ *[^\s(){}\[\];.:λ|\"`]+( [^\s(){}\[\];.:λ|\"`]+)*?(?=  +)|\(likewise [^)]*\)", lambda m: TOKEN.sub(name, m.group(0)), prose)
        return TOKEN.sub(name, code) + sep + prose

    written = 0
    for path in antt + rt + edits:
        text = read(path)
        mark = "-- " if path.endswith(".antt") else "// "
        after = "\n".join(line if '"' in line and mark == "// " else turn(line, mark) for line in text.split("\n"))
        if after != text:
            with open(path, "w", encoding="utf-8") as f:
                f.write(after)
            written += 1
    print(f"{len(new)} names, {written} files")


main()
