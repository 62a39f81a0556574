#!/usr/bin/env python3
"""Brings the names of the repository's own definitions and lemmas to the spelling of today's Rattle, after port.py has run: words in snake
case, where they had capitals inside, as `leapYear`, which becomes `leap_year`. Types, modules, facts and functions of src/ keep theirs.

usage: python3 tools/respell.py [FOLDER]     (once; FOLDER is the top of the checkout, else the current one)

It goes over the .antt, .rt and .edit files of crates/ and over the pages, and leaves what stands in double quotes alone. A lemma that would fall
together with the definition that it speaks of gets `_lem` (LEMMAS).
"""

import os
import re
import sys

# Lemmas whose names the definitions take: `goesOn` becomes `goes_on`, and the lemma that was `goes_on` becomes `goes_on_lem`.
LEMMAS = ["after_first", "goes_on", "moved_at", "read_out", "row_number", "rows_all", "source_row", "sub_at", "take_by"]
NAME = re.compile(r"(?<![\w'.-])[a-z][\w'-]*(?<![-])|(?<=\.)[a-z][\w'-]*")
QUOTED = re.compile(r'"(?:[^"\\\n]|\\.)*"')


def snake(name):
    parts = []
    for part in name.split("-"):
        if re.match("[a-z]", part):
            part = part.replace("getD", "get_or")
            part = re.sub("([a-z0-9])([A-Z])", lambda m: m.group(1) + "_" + m.group(2).lower(), part)
        parts.append(part)
    return "-".join(parts)


def files(top):
    for folder, folders, names in os.walk(top):
        folders[:] = sorted(f for f in folders if f not in (".git", "out", "target"))
        for name in sorted(names):
            if name.endswith((".antt", ".rt", ".edit", ".md")):
                yield os.path.join(folder, name)


def outside_quotes(text, change):
    out, at = [], 0
    for m in QUOTED.finditer(text):
        out += [change(text[at:m.start()]), m.group(0)]
        at = m.end()
    return "".join(out) + change(text[at:])


def main(top):
    wanted = {}
    for path in files(os.path.join(top, "crates")):
        if not path.endswith(".antt"):
            continue
        with open(path, encoding="utf-8") as f:
            text = re.sub("--.*", "", f.read())
        for name in NAME.findall(QUOTED.sub("", text)):
            if re.search("[a-z0-9_][A-Z]", name) and snake(name) != name:
                wanted[name] = snake(name)
    for name in LEMMAS:
        wanted[name] = name + "_lem"
    for path in files(top):
        if os.path.basename(path) in ("PORT.md", "respell.py"):
            continue
        with open(path, encoding="utf-8") as f:
            text = f.read()

        def turned(m):
            # A path segment or a field keeps a lemma's name.
            name = m.group(0)
            if name in LEMMAS and (text_part[m.start() - 1:m.start()] == "." or text_part[m.end():m.end() + 1] in (".", "/")):
                return name
            return wanted.get(name, name)

        def change(part):
            nonlocal text_part
            text_part = part
            return NAME.sub(turned, part)

        text_part = ""
        if path.endswith(".md"):
            # Code in pages: between backticks, and in blocks that are set in.
            new = re.sub("`[^`\n]*`", lambda m: change(m.group(0)), text)
        elif path.endswith(".rt"):
            new = outside_quotes(text, change)
        else:
            new = outside_quotes(text, change)
        if new != text:
            with open(path, "w", encoding="utf-8") as f:
                f.write(new)
    print(f"{len(wanted)} names")


if __name__ == "__main__":
    main(sys.argv[1] if len(sys.argv) > 1 else ".")
