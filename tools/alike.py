#!/usr/bin/env python3
"""Lists pairs of places in source files that are alike for four or more lines but for their names.

usage: python3 tools/alike.py FILE..
A run of lines that stands in more than eight places is too common to be listed.
"""
import re
import sys
from collections import defaultdict

LEAST = 4
COMMON = 8


def shape(line):
    line = re.sub(r'b?"(\\.|[^"\\])*"', '"', line.strip())
    line = re.sub(r"\b\d[\d_]*\b", "0", line)
    return re.sub(r"[A-Za-z_]\w*", "w", line)


def lines_of(path):
    with open(path, encoding="utf-8") as file:
        numbered = enumerate(file.read().split("\n"), 1)
        return [(n, shape(text)) for n, text in numbered
                if text.strip() and not text.strip().startswith(("//", "ghost use", "use "))]


def main(paths):
    windows = defaultdict(list)
    numbers = {}
    for path in paths:
        lines = lines_of(path)
        numbers[path] = [n for n, _ in lines]
        for i in range(len(lines) - LEAST + 1):
            window = tuple(text for _, text in lines[i:i + LEAST])
            if sum(len(text) > 3 for text in window) >= 3:
                windows[window].append((path, i))
    pairs = set()
    for places in windows.values():
        if 1 < len(places) <= COMMON:
            pairs.update((a, b) for a in places for b in places
                         if a < b and not (a[0] == b[0] and b[1] - a[1] < LEAST))
    listed = 0
    for (p, i), (q, j) in sorted(pairs):
        if ((p, i - 1), (q, j - 1)) in pairs:
            continue
        k = 0
        while ((p, i + k + 1), (q, j + k + 1)) in pairs:
            k += 1
        last = k + LEAST - 1
        print(f"{p}:{numbers[p][i]}-{numbers[p][i + last]} ~ {q}:{numbers[q][j]}-{numbers[q][j + last]}")
        listed += 1
    print(f"{listed} pairs")


main(sys.argv[1:])
