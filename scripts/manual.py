#!/usr/bin/env python3
"""The manual pages in docs/man beside what the programs say by --help, and whether what is said there is so.

    python3 scripts/manual.py WBCACHE WBNBD WBMETA

Each page has its sections, and just the commands, options and lines of a script that the help has. Each line of a script that the help lists is tried. It
prints what failed, and at the end 'N passed, M failed'; its status is 0 where nothing failed."""
import os
import re
import subprocess
import sys
import tempfile

TOP = os.path.dirname(os.path.dirname(os.path.abspath(__file__)))
TABLE = "cache m.img c.img o.img 64 0 tinylfu 0"
# The subcommands of each program, whose own usage is shown as well.
SUBCOMMANDS = {"wbcache": ["format", "run", "replay"], "wbnbd": [], "wbmeta": ["check", "dump", "verify", "writeback", "detach", "cleared"]}
SECTIONS = ["NAME", "SYNOPSIS", "DESCRIPTION", "OPTIONS", "EXIT STATUS", "EXAMPLES", "FILES", "SEE ALSO"]
# What stands for a placeholder of the help in a line that is tried.
EXAMPLES = {"S": "0", "N": "1", "hh": "11", "M": "promote_min 3", "@K": "@1", "LINE": "r 0 1", "..": "a comment"}


def said(program, *words):
    """What a program prints, called so."""
    return subprocess.run([program, *words], capture_output=True, text=True, timeout=60).stdout


def plain(line):
    """A line of a page without its roff."""
    for mark, text in (("\\fB", ""), ("\\fI", ""), ("\\fR", ""), ("\\-", "-"), ("\\(aq", "'"), ("\\&", "")):
        line = line.replace(mark, text)
    return line


def sections(path):
    """The sections of a page, by name, each as lines."""
    found = {}
    with open(path, encoding="utf-8") as file:
        for line in file.read().splitlines():
            if line.startswith(".SH "):
                found[line[4:]] = []
            elif found:
                found[list(found)[-1]].append(plain(line))
    return found


def options_of(program):
    """The long options of a program and of its commands, by its helps."""
    texts = [said(program, *words, "--help") for words in [[], *([word] for word in SUBCOMMANDS[os.path.basename(program)])]]
    return {option for text in texts for option in re.findall(r"^ +(?:-\w, )?(--[a-z-]+)", text, re.M)}


def options_in(lines):
    """The long options that a section has as the head of an entry."""
    heads = [line for before, line in zip(lines, lines[1:]) if before == ".TP"]
    return {option for head in heads for option in re.findall(r"--[a-z-]+", head)}


def script_words(lines):
    """The first words of the lines of a script that a page lists."""
    heads = [line for before, line in zip(lines, lines[1:]) if before == ".TP"]
    return {part.split()[0] for head in heads for part in head.split(", ")} - {"@K"}


def listed(help_text):
    """The lines of a script that the help lists, each as it may be written."""
    part = help_text.split("A script, one answer a line", 1)[1].split("What is refused", 1)[0]
    for line in part.split("\n")[1:]:
        match = re.match(r"  (\S.*?)(?:  |$)", line)
        if match:
            names, *places = match.group(1).split(" ")
            if names == "tw,":
                yield "tw 0 1 11"
                yield "tr 0 1"
            else:
                yield " ".join(EXAMPLES.get(word, word) for word in [names] + places)


def words_read():
    """The first words of lines that the reader of scripts knows, by its source."""
    source = open(os.path.join(TOP, "crates/wb_dialogue/src/line.rt"), encoding="utf-8").read()
    return set(re.findall(r'^ *"(\w+)" =>', source, re.M)) | set(re.findall(r'name == "(\w+)"', source))


def main():
    programs = [os.path.abspath(word) for word in sys.argv[1:] if not word.startswith("-")]
    passed, failed = 0, 0

    def check(what, found, wanted):
        nonlocal passed, failed
        if found == wanted:
            passed += 1
        else:
            failed += 1
            print(f"failed: {what}: {found!r}, wanted {wanted!r}")

    for program in programs:
        name = os.path.basename(program)
        page = sections(os.path.join(TOP, "docs/man", f"{name}.1"))
        check(f"the sections of {name}.1", [word for word in page if word in SECTIONS], SECTIONS)
        check(f"the options of {name}.1", options_in(page["OPTIONS"]), options_of(program))
        synopsis = [line.split()[1] for line in page["SYNOPSIS"] if line.startswith(f"{name} ")]
        check(f"the commands of {name}.1", [word for word in synopsis if not word.startswith("[")], SUBCOMMANDS[name])
        for option in set(re.findall(r"--[a-z-]+", " ".join(page["SYNOPSIS"]))):
            check(f"{option} of the synopsis of {name}.1", option in options_of(program), True)
    help_text = said(programs[0], "run", "--help")
    lines = list(listed(help_text))
    check("the lines of a script in wbcache.1", script_words(sections(os.path.join(TOP, "docs/man/wbcache.1"))["SCRIPT"]), words_read())
    check("the words that the help lists are those that a script may have", {line.split()[0] for line in lines} - {"#", "@1"}, words_read())
    with tempfile.TemporaryDirectory() as work:
        for name, size in (("m.img", 2048), ("c.img", 131072), ("o.img", 327680)):
            with open(os.path.join(work, name), "wb") as file:
                file.truncate(size)
        subprocess.run([programs[0], "format", TABLE], cwd=work, capture_output=True, timeout=60)
        for line in lines:
            run = subprocess.run([programs[0], "run", TABLE], cwd=work, input=line + "\n", capture_output=True, text=True, timeout=60)
            check(f"the line '{line}' of the help is one", "bad line" in run.stdout, False)
    print(f"{passed} passed, {failed} failed")
    return 1 if failed else 0


sys.exit(main())
