#!/usr/bin/env python3
"""Prints the table of docs/PERFORMANCE.md from bench/results/table.csv.

    python3 bench/cut.py [--check]

With --check it compares the table in the document with the data, prints each row that is missing there, and ends with 1 if one is.
"""
import csv
import os
import sys

TOP = os.path.dirname(os.path.dirname(os.path.abspath(__file__)))


def rows():
    with open(f"{TOP}/bench/results/table.csv", encoding="utf-8", newline="") as file:
        return list(csv.DictReader(line for line in file if not line.startswith("#")))


def printed(row):
    named = {"nbd": "wbnbd: ", "opening": "opening: ", "settle": "settling ", "tick": "tick: "}.get(row["row"], "")
    return f"| {named}{row['what']} | {row['ours']} | {row['peer']} | {row['ratio']} | {row['aim']} |"


if __name__ == "__main__":
    lines = [printed(row) for row in rows()]
    if "--check" in sys.argv[1:]:
        with open(f"{TOP}/docs/PERFORMANCE.md", encoding="utf-8") as file:
            text = file.read().split("\n")
        missing = [line for line in lines if line not in text]
        print("\n".join(missing + [f"{len(lines) - len(missing)} passed, {len(missing)} failed"]))
        sys.exit(1 if missing else 0)
    print("\n".join(["| What | Ours | Peer | Ratio | Aim |", "|---|---|---|---|---|"] + lines))
