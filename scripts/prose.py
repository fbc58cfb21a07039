#!/usr/bin/env python3
"""Figures of README.md and docs/*.md, and what breaks their bounds.

    python3 scripts/prose.py

The bounds: 30,000 words in all; 20 words a sentence on average in each document, 45 in the longest; lines of 120 characters outside tables and
code; every link to a file of the repository leads somewhere, also to a section of a document; no word that aspell does not know and scripts/words.txt does not list. Where
aspell is missing that is said. It prints a line for each document, then what failed, and at the end 'N passed, M failed'.
"""
import glob
import os
import re
import shutil
import subprocess
import sys

TOP = os.path.dirname(os.path.dirname(os.path.abspath(__file__)))
MOST_WORDS, MOST_AVERAGE, MOST_SENTENCE, MOST_LINE = 30_000, 20, 45, 120


def prose(text):
    """The text without code, tables and headings."""
    text = re.sub(r"```.*?```", "", text, flags=re.S)
    return re.sub(r"^(?:    |\||#).*$", "", text, flags=re.M)


def sentences(text):
    """How many words each sentence has; fragments of one or two words do not count."""
    return [n for n in (len(part.split()) for part in re.split(r"(?<=[.!?:])\s+", prose(text))) if n > 2]


def long_lines(text):
    """The numbers of lines that are too long."""
    lines = re.sub(r"```.*?```", lambda code: "\n" * code[0].count("\n"), text, flags=re.S).split("\n")
    return [number for number, line in enumerate(lines, 1) if len(line) > MOST_LINE and not line.startswith(("|", "    "))]


def sections(path):
    """What a link names a document's sections by."""
    with open(path, encoding="utf-8") as file:
        headings = re.findall(r"^#+ (.+)$", re.sub(r"```.*?```", "", file.read(), flags=re.S), re.M)
    return {re.sub(r"[^\w -]", "", heading.lower()).replace(" ", "-") for heading in headings}


def dead_links(path, text):
    """The links that lead to no file, or to no section of a document."""
    dead = []
    for link, section in re.findall(r"\]\(([^)#:]*)(?:#([^)]*))?\)", text):
        there = os.path.join(os.path.dirname(path), link) if link else path
        if not os.path.exists(there):
            dead.append(link)
        elif section and section not in sections(there):
            dead.append(f"{link}#{section}")
    return dead


def unknown_words(text):
    """The words that nobody knows."""
    text = re.sub(r"```.*?```|`[^`]*`|\]\([^)]*\)|<[^>]*>", " ", text, flags=re.S)
    text = re.sub(r"^    .*$", "", text, flags=re.M)
    text = re.sub(r"\b\w*[_\d/.]\w*\b|\w+\.\w+", " ", text)
    words = ["aspell", "list", "--lang=en_US", "--encoding=utf-8", "--ignore-case", "--camel-case"]
    found = subprocess.run(words, input=text, capture_output=True, text=True, check=True).stdout.split()
    with open(f"{TOP}/scripts/words.txt", encoding="utf-8") as file:
        known = {line.strip().lower() for line in file if not line.startswith("#")}
    return sorted({word for word in found if word.lower() not in known})


def main():
    paths = [f"{TOP}/README.md", *sorted(glob.glob(f"{TOP}/docs/*.md"))]
    has_aspell = shutil.which("aspell") is not None
    passed, failures, total = 0, [], 0
    for path in paths:
        name = os.path.relpath(path, TOP)
        with open(path, encoding="utf-8") as file:
            text = file.read()
        counts = sentences(text) or [0]
        words, average, longest = len(text.split()), sum(counts) / len(counts), max(counts)
        total += words
        print(f"{name}: {words} words, {average:.1f} a sentence, {longest} in the longest")
        wrong = {
            "words a sentence": average if average > MOST_AVERAGE else None,
            "words in a sentence": longest if longest > MOST_SENTENCE else None,
            "long lines": long_lines(text),
            "dead links": dead_links(path, text),
            "unknown words": unknown_words(text) if has_aspell else [],
        }
        failures += [f"{name}: {what}: {found}" for what, found in wrong.items() if found]
        passed += sum(not found for found in wrong.values())
    print(f"all: {total} words")
    if total > MOST_WORDS:
        failures.append(f"more than {MOST_WORDS} words: {total}")
    else:
        passed += 1
    if not has_aspell:
        print("not tried: spelling, since there is no aspell")
    for failure in failures:
        print(f"failed: {failure}")
    print(f"{passed} passed, {len(failures)} failed")
    return 1 if failures else 0


if __name__ == "__main__":
    sys.exit(main())
