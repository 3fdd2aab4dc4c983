#!/usr/bin/env python3
"""Writes docs/DEFINITIONS.md: the public definitions of each crate's specs/, as the comments above them tell them.

usage: definitions.py [--check]     anywhere; it reads crates.txt and the .antt files of crates/NAME/specs

Crates come in the order of crates.txt, and a crate's files in that of its specs/Lib.antt. A comment is of the definitions that follow it up to the next blank
line or comment, and is listed with all their names; definitions without one are named at the end of their file's entry. A comment `-- ---- ..` is a heading.

Status 0: written, or with --check as it would be written; 1: with --check, it isn't; 2: bad words.
"""
import glob
import os
import re
import sys
import textwrap
from collections import namedtuple

COLUMNS = 120
LIST = "docs/DEFINITIONS.md"
HEAD = """# Definitions, as their comments tell them

What each public definition in `crates/*/specs` is, crate by crate and file by file: its name, and the comment above it.
`tools/definitions.py` makes this list from those files: change a comment there, and run it.

[ARCHITECTURE](ARCHITECTURE.md#the-floors) says what each crate is, and [THEOREMS](THEOREMS.md) what is promised in
these words."""

# A public definition's first line: how far it is indented, whether it has fields or variants below it, and its name.
DEFINITION = re.compile(r"( *)(?:(?:abbrev |unfoldable )pub |pub (record |data )?)(?!mod |use )(\S+)")
# Names that are taken over from the code: listed where they have a comment.
TAKEN = re.compile(r" *pub use .*\.\{(.*)\}$")
COMMENT = re.compile(r" *-- ?(.*)")
SECTION = "---- "
# What begins a list, a heading or a quotation where it stands first in a line, so that no line is broken before it.
LINE_START = re.compile(r" (?=(?:[-+*#>]|\d+[.)])(?: |$))")
# Entries of a file: each a heading (no names) or a comment with the names of its definitions; and the names without a comment.
File = namedtuple("File", "about entries bare")


def text_of(path):
    with open(path, encoding="utf-8") as it:
        return it.read()


def crates():
    """The crates of crates.txt that have definitions, in its order."""
    rows = (line.partition("#")[0].partition(":")[0].split() for line in text_of("crates.txt").split("\n"))
    return [row[0] for row in rows if row and os.path.exists(f"crates/{row[0]}/specs/Lib.antt")]


def files_of(crate):
    """The files of a crate's definitions in the order in which its specs/Lib.antt has them, and behind them any that it leaves out."""
    folder = f"crates/{crate}/specs"
    listed = [f"{folder}/{it}.antt" for it in re.findall(r"^pub mod (\w+)", text_of(f"{folder}/Lib.antt"), re.M)]
    there = sorted(set(glob.glob(f"{folder}/**/*.antt", recursive=True)) - {f"{folder}/Lib.antt"})
    return [it for it in listed if it in there] + [it for it in there if it not in listed]


def pieces(lines):
    """The lines of a file as pairs of a kind and a text: a comment of one or more lines, a heading, a definition's name, one that is taken over, another
    line, or a blank one. What stands below a record's or a type's first line is a part of it, and is left out."""
    body, told = None, []
    for line in lines:
        indent = len(line) - len(line.lstrip(" "))
        if body is not None and line.strip() and indent > body:
            continue
        comment, definition, taken = COMMENT.match(line), DEFINITION.match(line), TAKEN.match(line)
        if line.strip():
            body = None
        if comment and comment[1].startswith(SECTION):
            told.append(("heading", comment[1].removeprefix(SECTION)))
        elif comment and told and told[-1][0] == "comment":
            told[-1] = ("comment", f"{told[-1][1]} {comment[1]}")
        elif comment:
            told.append(("comment", comment[1]))
        elif definition:
            told.append(("name", definition[3]))
            body = len(definition[1]) if definition[2] else None
        elif taken:
            told += [("taken", it) for it in taken[1].split(", ")]
        else:
            told.append(("line" if line.strip() else "blank", ""))
    return told


def read_file(path):
    """What a file of definitions says."""
    told = pieces(text_of(path).split("\n"))
    about = told.pop(0)[1] if told and told[0][0] == "comment" else ""
    entries, bare, comment = [], [], None
    for kind, text in told:
        if kind == "heading":
            entries.append((text, None))
        if kind == "comment":
            comment = (text, [])
            entries.append(comment)
        elif kind in ("name", "taken") and comment:
            comment[1].append(text)
        elif kind == "name":
            bare.append(text)
        elif kind in ("heading", "blank"):
            comment = None
    return File(about, [it for it in entries if it[1] != []], bare)


def plain(text):
    """A comment as a document's text: outside of its code no letter is a mark of the document's."""
    parts = text.split("`")
    return "`".join(it if at % 2 else re.sub(r"([\\*<>#\[\]|])", r"\\\1", it) for at, it in enumerate(parts))


def wrapped(text, indent=""):
    """The lines of a text, with what follows the first one indented."""
    whole = LINE_START.sub("\0", text)
    lines = textwrap.wrap(whole, COLUMNS, subsequent_indent=indent, break_long_words=False, break_on_hyphens=False)
    return "\n".join(lines).replace("\0", " ")


def names_of(names):
    return ", ".join(f"`{it}`" for it in names)


def heading(text):
    """A heading, and what it says behind a colon as a paragraph of its own."""
    title, _, rest = plain(text[:1].upper() + text[1:]).partition(": ")
    return [f"#### {title}", wrapped(f"{rest[:1].upper()}{rest[1:]}.")] if rest else [f"#### {title}"]


def told_file(path):
    """A file's part of the list. A heading below which nothing stands is left out."""
    file = read_file(path)
    parts = [f"### [{os.path.basename(path).removesuffix('.antt')}](../{path})"]
    if file.about:
        parts.append(wrapped(plain(file.about)))
    rows = []
    for at, (text, names) in enumerate(file.entries):
        if names:
            rows.append(wrapped(f"- {names_of(names)}: {plain(text)}", "  "))
        elif file.entries[at + 1 : at + 2] and file.entries[at + 1][1]:
            parts += ["\n".join(rows)] if rows else []
            parts += heading(text)
            rows = []
    parts += ["\n".join(rows)] if rows else []
    if file.bare:
        parts.append(wrapped(f"Without a comment: {names_of(file.bare)}."))
    return "\n\n".join(parts)


def document():
    """The whole list."""
    found = crates()
    parts = [HEAD, wrapped(" ".join(f"[{it}](#{it})" for it in found))]
    for crate in found:
        parts += [f"## {crate}", *map(told_file, files_of(crate))]
    return "\n\n".join(parts) + "\n"


def main(words):
    if words not in ([], ["--check"]):
        print(__doc__.split("\n")[2], file=sys.stderr)
        return 2
    os.chdir(os.path.dirname(os.path.dirname(os.path.abspath(__file__))))
    text = document()
    if not words:
        with open(LIST, "w", encoding="utf-8") as it:
            it.write(text)
    elif not os.path.exists(LIST) or text_of(LIST) != text:
        print(f"{LIST} isn't what tools/definitions.py makes of crates/*/specs: run it")
        return 1
    return 0


if __name__ == "__main__":
    sys.exit(main(sys.argv[1:]))
