#!/usr/bin/env python3
"""Whether docs/ERRORS.md has each text that the programs print on standard error, and each refusal.

    python3 scripts/errors.py           compares the sources with docs/ERRORS.md
    python3 scripts/errors.py --list    prints the texts of the sources, each with its file

A text is a string of two words or more in src/ of the crates below that is printed on standard error, or is a part of what is. In docs/ERRORS.md it stands
between backquotes, in the first cell of a row, with a name in capital letters for each {part}. A row is out of date where no source has its text. It prints
what is missing and what is out of date, and at the end 'N passed, N failed'; its status is 0 where nothing failed."""
import os
import re
import sys

TOP = os.path.dirname(os.path.dirname(os.path.abspath(__file__)))
CRATES = (
    "wbcache wbnbd wbmeta wb_arguments wb_checks wb_dialogue wb_files wb_lanes wb_nbd wb_opened wb_play wb_script wb_services wb_table wb_types"
).split()
# Files whose texts are printed on standard output: status lines and answers.
ANSWERS = {"status.rt", "answers.rt"}
# A string, behind the call whose first string it is, where there is one.
STRING = re.compile(r'(\w+!?)?(?:\((?:[^"();]*[;,])?)?\s*"((?:[^"\\]|\\.)*)"', re.S)
# Calls whose strings are no messages: answers and marks, words that are compared, the help of an option.
OTHER_CALLS = {"writeln!", "push_str", "expect", "get_str", "get_flag", "split", "split_once", "strip_prefix", "help", "b"}
# What a program is for, and what an option is, by its help.
HELP = re.compile(r'^(?:pub )?const ABOUT\b.*?;$|^ +(?:help|about|name): .*?$', re.S | re.M)
PROGRAM = re.compile(r"^(?:wbcache|wbnbd|wbmeta|\{program\}): ")
# A refusal alone, which has a table of its own.
REFUSAL = re.compile(r"\d+ [A-Z]\w+(?: \{0\})?$")
# Texts of values that are passed over before they would be printed, and one of standard output.
OTHERS = {
    "ok {generation} {clean} {mapped} {dirty}",
    "no line was refused",
    "the client went without an end of the connection",
    "the slots of the roots are as commits leave them",
    "neither slot holds a valid root",
}


def texts_of(source):
    """The texts of a source. A string of several lines is one of a help."""
    code = HELP.sub("", re.sub(r"^ *//.*$", "", source, flags=re.M))
    for call, text in STRING.findall(code):
        text = PROGRAM.sub("", text).strip(" ")
        words = re.findall(r"[A-Za-z_]{2,}", re.sub(r"\{[^}]*\}", "", text))
        is_message = " " in text and (len(words) > 1 or words and re.search("[{0-9?]", text)) and not REFUSAL.match(text)
        if is_message and "\n" not in text and call not in OTHER_CALLS and text not in OTHERS:
            yield text


def sources(*crates):
    """Each source of these crates: its path, and what it says."""
    for crate in crates:
        for folder, _, names in sorted(os.walk(os.path.join(TOP, "crates", crate, "src"))):
            for name in sorted(names):
                if name.endswith(".rt") and name not in ANSWERS:
                    path = os.path.join(folder, name)
                    yield os.path.relpath(path, TOP), open(path, encoding="utf-8").read()


def pattern(text):
    """What a text is in the document."""
    return re.compile(".+".join(re.escape(part) for part in re.split(r"\{[^}]*\}", text)))


def main():
    texts = {text: path for path, source in sources(*CRATES) for text in texts_of(source)}
    if "--list" in sys.argv:
        for text, path in texts.items():
            print(f"{path}: {text}")
        return 0
    document = open(os.path.join(TOP, "docs/ERRORS.md"), encoding="utf-8").read().replace("\\|", "|")
    rows = re.findall(r"^\| `(.+?)` \|", document, re.M)
    refusals = [text for _, source in sources("wb_types") for text in re.findall(r'#\[error\("(\d+ \w+)', source)]
    missing = [f"{path}: {text}" for text, path in texts.items() if not any(pattern(text).search(row) for row in rows)]
    missing += [text for text in refusals if "| {} | {} |".format(*text.split()) not in document]
    stale = [row for row in rows if not any(pattern(text).search(row) for text in texts)]
    for what in missing:
        print(f"failed: docs/ERRORS.md lacks {what}")
    for row in stale:
        print(f"failed: no source has the text of docs/ERRORS.md: {row}")
    print(f"{len(texts) + len(refusals) + len(rows) - len(missing) - len(stale)} passed, {len(missing) + len(stale)} failed")
    return 1 if missing or stale else 0


sys.exit(main())
