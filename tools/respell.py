#!/usr/bin/env python3
"""Respells this repository's own names as today's Rattle spells them, once, after the kit's port.py.

Definitions, record fields, lemmas and variables of specs/ and proofs/ that were joined by dashes are
put into snake case, in the .antt files and in the clauses of the .rt files. Where a dash joins the
names of two functions, as in length-call_bytes, it stays. Names of src/, of the library, and those
that Rattle makes for goals and steps keep their spelling.

    python3 tools/respell.py        at the top of the repository
"""
import glob
import re
import sys

WORD = r"[A-Za-z0-9_'≤≡<]+"
DASHED = re.compile(rf"(?<![\w'-]){WORD}(?:-{WORD})+(?![\w'-])")
DECLARED = re.compile(rf"^\s*(?:abbrev |unfoldable |pub |record |data )*({WORD}(?:-{WORD})+)\s+(?::|\(|\{{)")

# lemmas in whose names a dash joins two functions
JOINED = {
    "call-bytes-append": "call_bytes-append",
    "calls-of-call-bytes": "calls_of-call_bytes",
    "length-call-bytes": "length-call_bytes",
    "length-written": "length-written",
    "getD-blank": "get_or_blank",
}

# variables of proofs and of modules' parameters
VARIABLES = """
after-side after-top at-kind b-small before-index c-small call-asked f-here found-open from-fourth
from-third g-here k-th left-keeps left-made left-means left-run left-runs left-sound left-takes
make-anew mark-after mark-before named-i named-j named-p named-q new-lock new-pile none-tally
not-false not-out not-Some now-joined own-share rest-bidders rest-bids rest-credit rest-limit
rest-share right-keeps right-made right-means right-run right-runs right-sound right-takes side-free
top-keeps top-made top-means top-run top-runs top-takes unfit-here pile-four-lock phase-word
""".split()

# names that Rattle makes for goals, invariants and measures
MADE = re.compile(r"(returns|loop|invariant|decreases|unreachable|slice|make-call|make-calls)-")


def is_answers(path):
    return path.endswith("/Answers.antt") or path.endswith("/Invariants.antt")


def own_names(paths):
    names = set(VARIABLES)
    for path in paths:
        for line in open(path, encoding="utf-8"):
            found = DECLARED.match(line)
            if found and not (is_answers(path) and MADE.match(found.group(1))):
                names.add(found.group(1))
    return names


def respelled(text, names):
    def spell(match):
        name = match.group(0)
        if name not in names:
            return name
        return JOINED.get(name, name.replace("-", "_"))

    return DASHED.sub(spell, text)


def is_clause(line):
    return re.match(r"\s*(ghost|requires|ensures)\b", line) or re.match(r"\s+\(λ", line)


def main():
    antt = sorted(glob.glob("crates/*/specs/**/*.antt", recursive=True) + glob.glob("crates/*/proofs/**/*.antt", recursive=True))
    rt = sorted(glob.glob("crates/*/src/**/*.rt", recursive=True))
    names = own_names(antt)
    taken = {}
    for name in sorted(names):
        taken.setdefault(JOINED.get(name, name.replace("-", "_")), []).append(name)
    words = set()
    for path in antt:
        words |= set(re.findall(r"[A-Za-z0-9_'-]+", open(path, encoding="utf-8").read()))
    for new, olds in taken.items():
        if len(olds) > 1 or (new in words and new not in olds):
            print(f"falls together: {olds} and {new}", file=sys.stderr)
    for path in antt + rt:
        before = open(path, encoding="utf-8").read()
        if path.endswith(".rt"):
            after = "".join(
                respelled(line, names) if is_clause(line) else line for line in before.splitlines(keepends=True)
            )
        else:
            after = respelled(before, names)
        if after != before:
            open(path, "w", encoding="utf-8").write(after)


main()
