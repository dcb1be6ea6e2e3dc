#!/usr/bin/env python3
"""Respells this project's own definitions and lemmas by the table tools/respell.tsv: words in snake case, with a dash only where it joins a list's function to another name, as in length-tab.

usage: python3 tools/respell.py      once, at the top of a tree in which the older spelling stands

It turns whole names in specs/, proofs/, the clauses of src/ and must-fail edits; in comments those alone that stand in backticks or have a capital within. Strings, functions of src/ and what C links to keep their names.
"""
import pathlib
import re

TABLE = dict(line.split("\t") for line in pathlib.Path(__file__).with_name("respell.tsv").read_text().splitlines())
WORD = re.compile(r"[^\s(){}\[\].;,@\"«»:`]+")
TEXT = re.compile(r'"(?:[^"\\\n]|\\.)*"')
CAPITAL = re.compile(r"[a-z][A-Z]")


def turned(text):
    return WORD.sub(lambda m: TABLE.get(m.group(0), m.group(0)), text)


def outside_strings(text):
    out, end = [], 0
    for m in TEXT.finditer(text):
        out += [turned(text[end:m.start()]), m.group(0)]
        end = m.end()
    return "".join(out + [turned(text[end:])])


def in_comment(text):
    text = re.sub(r"`[^`]*`", lambda m: turned(m.group(0)), text)
    return WORD.sub(lambda m: TABLE.get(m.group(0), m.group(0)) if CAPITAL.search(m.group(0)) else m.group(0), text)


def line_turned(line, mark):
    m = re.search(r"(?:^|(?<=\s))" + mark + r"(?=\s|$)", line)
    if not m:
        return outside_strings(line)
    return outside_strings(line[: m.start()]) + in_comment(line[m.start() :])


def main():
    for path in sorted(pathlib.Path("crates").glob("*/**/*")):
        mark = {".antt": "--", ".rt": "//", ".edit": "//"}.get(path.suffix)
        if mark and path.is_file() and "out" not in path.parts:
            was = path.read_text()
            now = "\n".join(line_turned(line, mark) for line in was.split("\n"))
            if now != was:
                path.write_text(now)


main()
