#!/usr/bin/env python3
"""Brings the definitions and lemmas of this repository to the spelling of today's Rattle: words in snake case.

    python3 tools/respell.py [FOLDER]

Run once, after the kit's port.py. tools/respelled.txt has each old name and its new one. Functions of src/, strings, inputs and outputs
keep their names. In comments and pages a name is turned where it stands between backticks, or is in camel case.
"""
import glob
import os
import re
import sys

HERE = os.path.dirname(os.path.abspath(__file__))
ROOT = sys.argv[1] if len(sys.argv) > 1 else os.path.dirname(HERE)
NEW = dict(line.split() for line in open(os.path.join(HERE, "respelled.txt"), encoding="utf-8"))
CAMEL = {old: new for old, new in NEW.items() if "-" not in old}
# A lemma of `packing` has the name that a definition there gets.
OWN = {"packing": {"goes_on": "goes_on_lem"}}

TOKEN = re.compile(r"[^\s(){}\[\];:,.@\"`]+")
WORD = re.compile(r"(?<![\w'-])[A-Za-z][\w']*(?![\w'-])")
QUOTED = re.compile(r"`[^`\n]*`")


def tokens(text, names, own):
    def turned(match):
        token = match.group(0)
        if token in own:
            before, after = text[: match.start()], text[match.end():]
            return token if before.endswith(".") or after.startswith(".") else own[token]
        return names.get(token, token)

    return TOKEN.sub(turned, text)


def prose(text, own):
    text = QUOTED.sub(lambda m: tokens(m.group(0), NEW, own), text)
    return WORD.sub(lambda m: CAMEL.get(m.group(0), m.group(0)), text)


def antt(text, own):
    lines = []
    for line in text.split("\n"):
        at = re.search(r"(^|\s)--(\s|$)", line)
        code, comment = (line[: at.start()], line[at.start():]) if at else (line, "")
        lines.append(tokens(code, NEW, own) + prose(comment, own))
    return "\n".join(lines)


def rust(text, own):
    """Ghost names in camel case stand in clauses and imports alone; strings stay."""
    lines = []
    for line in text.split("\n"):
        at = re.search(r"(^|\s)//", line)
        code, comment = (line[: at.start()], line[at.start():]) if at else (line, "")
        parts = re.split(r'("(?:[^"\\]|\\.)*")', code)
        parts[::2] = [WORD.sub(lambda m: CAMEL.get(m.group(0), m.group(0)), part) for part in parts[::2]]
        lines.append("".join(parts) + prose(comment, own))
    return "\n".join(lines)


def edit(text, own):
    of_rust = re.search(r"^file: .*\.rt$", text, re.M)
    turn = rust if of_rust else antt
    return "\n".join(
        line[:5] + turn(line[5:], own) if line.startswith(("old: ", "new: ")) else prose(line, own) if not line.startswith("file:") else line
        for line in text.split("\n")
    )


def main():
    for path in sorted(glob.glob(os.path.join(ROOT, "**", "*"), recursive=True)):
        parts = os.path.relpath(path, ROOT).split(os.sep)
        if not os.path.isfile(path) or "out" in parts or "tools" in parts or "target" in parts:
            continue
        own = OWN.get(parts[1], {}) if parts[0] == "crates" else {}
        turn = {".antt": antt, ".rt": rust, ".edit": edit, ".md": prose}.get(os.path.splitext(path)[1])
        if turn is None or parts[-1] == "PORT.md":
            continue
        with open(path, encoding="utf-8") as file:
            old = file.read()
        new = turn(old, own)
        if new != old:
            with open(path, "w", encoding="utf-8") as file:
                file.write(new)


main()
