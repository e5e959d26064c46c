#!/usr/bin/env python3
"""Brings definitions and lemmas to today's spelling, by tools/spelling.tsv (old name, new name).

usage: tools/spell.py [FILE..]     with no file: every .antt and .rt file below crates/

Whole words alone are turned, and all rows at once. In a .rt file only words that Rust has no use for are turned. A word with
dashes behind a dot is turned if a record of specs/ has it as a field. Comments: words in backquotes.
"""
import os
import re
import sys

HERE = os.path.dirname(os.path.realpath(__file__))
WORD = re.compile(r"[^\s(){}.;,@«»\"`]+")


def rows():
    with open(os.path.join(HERE, "spelling.tsv"), encoding="utf-8") as it:
        return dict(line.rstrip("\n").split("\t") for line in it if line.strip() and not line.startswith("#"))


TABLE = rows()
FIELDS = set()


def fields():
    """The fields of records in specs/: what is declared, further in, below a line with `record`."""
    for path in files():
        if "/specs/" not in path or not path.endswith(".antt"):
            continue
        inside = None
        with open(path, encoding="utf-8") as it:
            for line in it:
                depth = len(line) - len(line.lstrip())
                if re.match(r" *(pub )?record ", line):
                    inside = depth
                elif inside is not None and line.strip() and depth <= inside:
                    inside = None
                m = inside is not None and re.match(r" *(?:pub )?([^\s(){}.;,]+) :", line)
                if m:
                    FIELDS.add(m.group(1))


def turned(word, before, rust):
    if word not in TABLE:
        return word
    camel = bool(re.fullmatch(r"[a-z]\w*[a-z0-9][A-Z]\w*", word))
    # behind a dot, what is no field of ours and was not camel case is the toolchain's own
    if before == "." and not camel and word not in FIELDS:
        return word
    if rust and not camel and "-" not in word:
        return word
    return TABLE[word]


def code(text, rust):
    return WORD.sub(lambda m: turned(m.group(0), text[m.start() - 1 : m.start()], rust), text)


def comment(text):
    return re.sub(r"`[^`\n]+`", lambda m: "`" + code(m.group(0)[1:-1], False) + "`", text)


def spell(text, rust):
    sign = "//" if rust else "--"
    out = []
    for line in text.split("\n"):
        m = re.search(r"(?:(?<=\s)|^)" + sign + r"(?=\s|$).*", line)
        at = m.start() if m else len(line)
        out.append(code(line[:at], rust) + comment(line[at:]))
    return "\n".join(out)


def files():
    for folder, dirs, names in os.walk("crates"):
        dirs[:] = sorted(d for d in dirs if d != "out")
        for name in sorted(names):
            if name.endswith((".antt", ".rt")):
                yield os.path.join(folder, name)


def main():
    fields()
    for path in sys.argv[1:] or files():
        with open(path, encoding="utf-8") as it:
            text = it.read()
        new = spell(text, path.endswith(".rt"))
        if new != text:
            with open(path, "w", encoding="utf-8") as it:
                it.write(new)


if __name__ == "__main__":
    main()
