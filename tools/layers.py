#!/usr/bin/env python3
"""Checks the layers of docs/ARCHITECTURE.md against crates.txt: each crate stands on one line, and each crate that it stands on stands on a line
below, or on its own line further to the right behind a dash. Programs of tables, tests and benches may stand on anything."""
import re
import sys

PROGRAMS = re.compile(r"(_rows|_tests|_bench|_main|_try)$|^(bench_\w+|replay_cli|proxy_loop)$")


def layers():
    text = open("docs/ARCHITECTURE.md", encoding="utf-8").read()
    block = text.split("## Which crate stands on which")[1].split("```")[1]
    rank = {}
    for line, row in enumerate(block.strip("\n").split("\n")):
        row = re.sub(r"\(to come:[^)]*\)", "", row[16:])
        for place, group in enumerate(re.split(r" - ", row)):
            for name in re.findall(r"[a-z0-9]+_[a-z0-9_]+|huffman", group):
                rank[name] = (line, place)
    return rank


def main():
    rank, wrong, own = layers(), 0, {}
    for line in open("crates.txt", encoding="utf-8"):
        if line.strip():
            name, below = line.split(":")
            own[name.strip()] = below.split()
    for name, below in own.items():
        if PROGRAMS.search(name):
            continue
        if name not in rank:
            wrong += 1
            print(f"{name} stands on no line")
            continue
        for other in below:
            if other not in own:
                continue
            if other not in rank:
                continue
            (line, place), (low, at) = rank[name], rank[other]
            if not (low > line or (low == line and at > place)):
                wrong += 1
                print(f"{name} stands on {other}, which isn't below it")
    for name in rank:
        if name not in own:
            wrong += 1
            print(f"{name} is no crate")
    print(f"{len(own)} crates, {wrong} wrong")
    return 1 if wrong else 0


sys.exit(main())
