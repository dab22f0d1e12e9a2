#!/usr/bin/env python3
"""Brings this repository's own names to today's spelling, once, after port.py.

usage: python3 tools/respell.py [--list]      at the top of the repository; --list prints the renamings and changes nothing

A word of ours with a capital inside, as `legalNumber`, gets underscores. So does the dash in the name of a definition, a field or a
constructor; in a lemma's name a dash joins the names of what it speaks of, and stays. What would then get the name of a definition
has a name in MEETINGS, or `_lem` behind it. Names of files, types and Rattle functions stay, and so does what Rattle makes itself,
as `returns-2`.
"""
import glob
import re
import sys

WORD = re.compile(r"[^\s(){}\[\],;.:`\"⌜⌝λ→×≡&]+")
PATH = re.compile(r"Rattle(?:\.[\w+-]+)+(?=\.\{|\s|$)")
CAPITAL_INSIDE = re.compile(r"(?:^|(?<=-))[a-z][a-z0-9_]*[A-Z][A-Za-z0-9_]*'?(?=$|-)")
MADE = re.compile(r"^(invariant|decreases|returns)-")
MEETINGS = {"wrong_first": "wrong_first_block", "wrong-offset": "wrong_header_offset", "next-live": "next_live_lem"}


def antt_files():
    return sorted(p for folder in ("specs", "proofs") for p in glob.glob(f"crates/*/{folder}/**/*.antt", recursive=True))


def read(path):
    with open(path, encoding="utf-8") as file:
        return file.read()


def snake(word):
    return CAPITAL_INSIDE.sub(lambda m: re.sub(r"(?<=[a-z0-9])([A-Z])", lambda n: "_" + n.group(1).lower(), m.group(0)), word)


def declared():
    """The names of fields and constructors, of definitions, and of lemmas."""
    members, definitions, lemmas = set(), set(), set()
    for path in antt_files():
        indent = None
        for line in read(path).splitlines():
            depth = len(line) - len(line.lstrip())
            if line.strip().startswith("--") or not line.strip():
                continue
            if indent is not None and depth <= indent:
                indent = None
            if re.match(r"\s*(?:pub )?(?:record|data) (\S+)", line):
                indent = depth
                continue
            member = re.match(r"\s+(?:pub )?(\S+)(?: \S+)* : ", line)
            if indent is not None:
                if member and depth == indent + 2:
                    members.add(member.group(1))
                continue
            definition = re.match(r"\s*(?:abbrev|unfoldable)(?: pub)? (\S+)", line)
            lemma = re.match(r"\s*(?:pub )?(\S+) : ", line)
            if definition:
                definitions.add(definition.group(1))
            elif lemma:
                lemmas.add(lemma.group(1))
    return members, definitions, lemmas


def renamings():
    """The renamings of words everywhere, and those that hold only outside the proofs of functions."""
    members, definitions, lemmas = declared()
    names, meetings = {}, {}
    for path in antt_files():
        for word in set(WORD.findall(read(path))):
            if snake(word) != word and not re.search(r"_[A-Z]", word):
                names[word] = snake(word)
    taken = {names.get(n, n) for n in definitions}
    for name in members | {d for d in definitions if not d.startswith("μ")}:
        new = names.get(name, name)
        if "-" in new and not MADE.match(new):
            new = new.replace("-", "_")
            names[name] = MEETINGS.get(name, new + "_lem" if new in taken and name in members else new)
    for name in (members | lemmas) - definitions - set(names):
        if name in taken:
            meetings[name] = MEETINGS.get(name, name + "_lem")
    return names, meetings


def turn(names, text):
    """The text with its words renamed; in paths only those with a capital inside."""
    def words(part, table):
        return WORD.sub(lambda m: table.get(m.group(0), m.group(0)), part)

    parts, end = [], 0
    for path in PATH.finditer(text):
        parts.append(words(text[end:path.start()], names))
        parts.append(".".join(snake(c) if CAPITAL_INSIDE.fullmatch(c) else c for c in path.group(0).split(".")))
        end = path.end()
    return "".join(parts) + words(text[end:], names)


def tables():
    """Each file to turn, with its renamings."""
    names, meetings = renamings()
    ours = {old: new for old, new in names.items() if snake(old) != old}
    for path in antt_files():
        yield path, names if path.endswith("/Proof.antt") else names | meetings
    for path in sorted(glob.glob("crates/*/src/**/*.rt", recursive=True)):
        yield path, ours
    for path in sorted(glob.glob("crates/*/must-fail/*.edit")):
        yield path, ours if "file: src/" in read(path) else names


def main(argv):
    if argv[1:] == ["--list"]:
        names, meetings = renamings()
        for old, new in sorted(names.items()):
            print(old, new)
        for old, new in sorted(meetings.items()):
            print("outside functions' proofs:", old, new)
    for path, table in list(tables()):
        text = read(path)
        if argv[1:] == ["--list"]:
            was = {}
            for word in set(WORD.findall(PATH.sub("", text))):
                was.setdefault(table.get(word, word), set()).add(word)
            for new, olds in sorted(was.items()):
                if len(olds) > 1:
                    print(f"{path}: {' and '.join(sorted(olds))} would both be {new}")
            continue
        new = turn(table, text)
        if new != text:
            with open(path, "w", encoding="utf-8") as file:
                file.write(new)


if __name__ == "__main__":
    main(sys.argv)
