#!/usr/bin/env python3
"""Spells the names that this repository declares in specs/ and proofs/ as today's Rattle spells names: words in snake case.

usage: tools/respell.py [--check] at the top of the checkout, once, right after the kit's port.py

    byteAt    -> byte_at      a definition's words
    get-same  -> get_same     a lemma's words
    kids-from -> kids_from_lem where a definition (kidsFrom) takes the plain spelling

Types, modules, functions of src/, exported names, strings, inputs and outputs keep their names. It turns .antt, .rt, the
edits below must-fail/ and, between backticks, the pages. With --check it writes nothing and prints where two names would
meet in one file.
"""
import os
import re
import sys

NAME = r"[^\s(){}\[\].;,@\"«»:`|]+"
DECLARED = re.compile(r"^(\s*)((?:(?:pub|abbrev|unfoldable|data|record|mutual|package)\s+)*)(" + NAME + r")((?: \{[^{}\n]*\})*)(?: \([^\n]*?\))*\s+:\s")
RECORD = re.compile(r"^(\s*)(?:pub |unfoldable |abbrev )*record\s+(\S+).*where\s*$")
FIELD = re.compile(r"^\s*(?:pub )?(" + NAME + r") :")
WORD = re.compile(r"(?<![\w'◌-])[a-z][\w'₀-₉]*(?:-[\w'₀-₉]+)*[?]?(?![\w'◌-])")
# Lemmas that were in snake case already and would meet a definition's new spelling in their crate.
ALSO = {
    "components": {"size_in": "size_in_lem"},
    "entries": {"field_in": "field_in_lem"},
    "structure": {"row_is": "row_is_lem", "root_is": "root_is_lem", "same_at": "same_at_lem"},
}
# Words that a comment or a page writes in English.
ENGLISH = {"well-formed", "in-range"}


def texts(ends):
    for top in ("crates", "docs", "README.md", "host/README.md", "host/bench/findings.md"):
        if os.path.isfile(top):
            if top.endswith(ends):
                yield top
            continue
        for folder, dirs, files in os.walk(top):
            dirs[:] = sorted(d for d in dirs if d != "out")
            for f in sorted(files):
                if f.endswith(ends):
                    yield os.path.join(folder, f)


def is_walk(path):
    return path.endswith("/Proof.antt") or "/Proof/" in path


def spelled(name):
    if not re.match(r"[a-z]", name):
        return name
    s = re.sub(r"(?<=[a-z0-9])([A-Z])", lambda m: "_" + m.group(1).lower(), name)
    return re.sub(r"(?<=[\w'])-(?=[\w])", "_", s)


def declared():
    names, fields = set(), set()
    for path in texts(".antt"):
        if is_walk(path):
            continue
        inside = None
        for line in open(path, encoding="utf-8"):
            if not line.strip() or line.lstrip().startswith("--"):
                continue
            depth = len(line) - len(line.lstrip())
            if inside is not None and depth <= inside:
                inside = None
            m = RECORD.match(line)
            if m:
                inside = len(m.group(1))
                continue
            if inside is not None:
                m = FIELD.match(line)
                if m:
                    fields.add(m.group(1))
                    continue
            m = DECLARED.match(line)
            if m:
                names.add(m.group(3))
    return names, fields


def table():
    names, fields = declared()
    new = {}
    for it in sorted(names | fields):
        to = spelled(it)
        if to != it:
            new[it] = to
    taken = {to for it, to in new.items() if "-" not in it} | {it for it in names | fields if it not in new}
    for it in new:
        if "-" in it and new[it] in taken and it not in fields:
            new[it] += "_lem"
    return new, fields


def crate_of(path):
    parts = path.split("/")
    return parts[1] if parts[0] == "crates" else None


def turn_code(code, new, fields, also):
    """Names in a text with no comment and no string."""

    def one(m):
        word, before = m.group(0), code[max(0, m.start() - 1) : m.start()]
        if before == ".":
            two = code[max(0, m.start() - 2) : m.start()]
            module = re.search(r"[A-Z][\w']*\.$", code[: m.start()])
            if word in fields or (module and word in new):
                return new.get(word, word)
            return word
        return new.get(word, also.get(word, word))

    return WORD.sub(one, code)


def turn_words(text, new):
    return WORD.sub(lambda m: m.group(0) if m.group(0) in ENGLISH else new.get(m.group(0), m.group(0)), text)


def turn_line(line, mark, new, fields, also):
    """A line of code: its comment's words too, and no string."""
    at, quoted, i = None, False, 0
    while i < len(line):
        if line[i] == '"' and (i == 0 or line[i - 1] != "\\"):
            quoted = not quoted
        if not quoted and line.startswith(mark, i) and (mark == "//" or i == 0 or line[i - 1] in " \t"):
            at = i
            break
        i += 1
    code, said = (line, "") if at is None else (line[:at], line[at:])
    parts = re.split(r'("(?:[^"\\]|\\.)*")', code)
    done, so_far = "", ""
    for k, part in enumerate(parts):
        done += part if k % 2 else turn_code(part, new, fields, also)
    return done + turn_words(said, new)


def turned(path, text, new, fields):
    also = ALSO.get(crate_of(path), {})
    if path.endswith(".antt"):
        return "".join(turn_line(l, "--", new, fields, also) for l in text.splitlines(True))
    if path.endswith(".rt"):
        return "".join(turn_line(l, "//", new, fields, also) for l in text.splitlines(True))
    if path.endswith(".edit"):
        keep = lambda l: l if l.startswith("file:") else turn_line(l, "\0", new, fields, also)
        return "".join(keep(l) for l in text.splitlines(True))
    return re.sub(r"`[^`\n]+`", lambda m: turn_words(m.group(0), new), text)


def meetings(path, text, new, fields):
    """Names of two spellings that would be one in this file."""
    words = {m.group(0) for m in WORD.finditer(text) if text[max(0, m.start() - 1) : m.start()] != "."}
    also = ALSO.get(crate_of(path), {})
    to = {}
    for it in words:
        to.setdefault(new.get(it, also.get(it, it)), set()).add(it)
    return {k: v for k, v in to.items() if len(v) > 1}


def main():
    new, fields = table()
    check = "--check" in sys.argv
    for path in texts((".antt", ".rt", ".edit", ".md")):
        with open(path, encoding="utf-8") as f:
            text = f.read()
        if check and path.endswith((".antt", ".rt")):
            code = "\n".join(l.split(" -- ")[0] for l in text.splitlines() if not l.lstrip().startswith(("--", "//")))
            for k, v in sorted(meetings(path, code, new, fields).items()):
                print(f"{path}: {k} would be {', '.join(sorted(v))}")
        out = turned(path, text, new, fields)
        if out != text and not check:
            with open(path, "w", encoding="utf-8") as f:
                f.write(out)
    print(f"{len(new)} names")
    if check:
        for it in sorted(new):
            print(f"  {it} -> {new[it]}")


main()
