#!/usr/bin/env python3
"""cited.py: says of each name that docs/ARCHITECTURE.md cites whether it is there. The exit status is 1 where one is not.

A name in back quotes is a definition, a law, a record's field, a function, a struct, an enum, a constant or a crate; 'record .field' is a field of
that record; a word with a slash is a file, a folder or a must-fail edit. Where a place in round brackets follows, as in `name` (crate/specs/File),
each name since the last such place, semicolon or cell has to stand in that file, or in a file of that folder. And the map has every crate of
crates.txt, with the crates that it reads.
"""
import os
import re
import sys

ROOT = os.path.dirname(os.path.dirname(os.path.abspath(__file__)))
PAGE = "docs/ARCHITECTURE.md"
KIT = {"io", "libc", "os", "check", "bytes"}
FOLDERS = ("specs", "proofs", "src", "must-fail")
# words in back quotes that name nothing of the repository's crates: the languages' own, files, commands, bytes of a format
OTHER = re.compile(r"^(→|⊥|refl|requires|ensures|rt( \w+)?|make \w+|cargo \w+|&mut \w+|&mut \[\w+\]|&\[\w+\]|&\w+|[A-Z],.*|#\[.*\]|\d+|pevghazo)$")


def read(path):
    with open(path, encoding="utf-8") as f:
        return f.read()


def sources():
    """path -> text of every Rattle and antt file of the crates."""
    found = {}
    for folder, inner, files in os.walk(os.path.join(ROOT, "crates")):
        inner[:] = [name for name in inner if name != "out"]
        for name in files:
            if name.endswith((".antt", ".rt")):
                path = os.path.join(folder, name)
                found[os.path.relpath(path, os.path.join(ROOT, "crates"))] = re.sub(r"(--|//).*", "", read(path))
    return found


def declares(text, name):
    """Whether a file declares a name: 'name :', 'data name', 'record name', a constructor, 'fn name', 'struct name', 'enum name', 'const name'."""
    word = re.escape(name)
    antt = rf"^[ \t]*(?:(?:abbrev|unfoldable|pub|data|record)[ \t]+)*(?:[^\s:(){{}}]+[ \t]+)*{word}(?:[ \t][^\n:]*)?[ \t]*:"
    rattle = rf"\b(?:fn|struct|enum|const|mod)[ \t]+{word}\b"
    return re.search(antt, text, re.M) or re.search(rattle, text)


def within(place, files):
    """The files that a place such as modes/specs/Rules, xoodoo/src or sanse names."""
    stem = place.rstrip("/")
    return [f for f in files if f in (stem + ".antt", stem + ".rt") or f.startswith(stem + "/")]


def is_place(text, files):
    return re.fullmatch(r"[a-z_0-9]+(/[A-Za-z_0-9]+)*", text) and within(text, files)


def known(name, files, crates):
    if name in crates or OTHER.match(name):
        return True
    if "/" in name:
        path = name.rstrip("/").split(" ")[0]
        edit = "crates/" + path.replace("/", "/must-fail/", 1) + ".edit"
        pattern = re.sub(r"\b(NAME|CRATE|FUNCTION)\b", "*", path)
        if "*" in pattern or path in FOLDERS or within(path, files):
            return True
        return any(os.path.exists(os.path.join(ROOT, p)) for p in (path, "crates/" + path, edit))
    if " ." in name:
        record, field = name.split(" .", 1)
        return any(declares(t, record) and declares(t, field) for t in files.values())
    if name.startswith("."):
        return any(declares(t, name[1:]) for t in files.values())
    if name.endswith((".md", ".txt", ".h", ".py", ".in", ".pc")) or os.path.exists(os.path.join(ROOT, name)):
        return any(os.path.exists(os.path.join(ROOT, p, name)) for p in ("", "docs", "include", "scripts", "tools"))
    return any(declares(t, name.split(" ")[0]) for t in files.values())


def cells(line):
    """The parts of a line in which names and places belong together."""
    return re.split(r"[;|]", line)


def listed():
    """crate -> the crates that it reads, the kit's left out, as crates.txt has them; a static library has that word after its name there."""
    lines = [line.split(":") for line in read(os.path.join(ROOT, "crates.txt")).split("\n") if ":" in line and not line.startswith("#")]
    return {name.split()[0]: set(reads.split()) - KIT for name, reads in lines}


def wrong_map(crates):
    """What the map says otherwise than crates.txt: rows `| `crate` | holds | reads |`."""
    rows = {name: set(re.findall(r"\w+", reads)) for name, reads in re.findall(r"^\| `(\w+)` \| .* \| ([^|]*) \|$", read(os.path.join(ROOT, PAGE)), re.M)}
    return [name for name in crates if rows.get(name) != crates[name]]


def main():
    files = sources()
    crates = listed()
    bad = count = 0
    for name in wrong_map(crates):
        print(f"{PAGE}: the map has crate {name} not at all, or reading other crates than crates.txt says")
        bad += 1
    for number, line in enumerate(read(os.path.join(ROOT, PAGE)).split("\n"), 1):
        for cell in cells(line):
            names = []
            for name, bracket in re.findall(r"`([^`]+)`|\(([^()]*)\)", cell):
                if name:
                    names.append(name)
                    count += 1
                    if not known(name, files, crates):
                        print(f"{PAGE}:{number}: `{name}` is not there")
                        bad += 1
                    continue
                places = [p for p in re.split(r",? and |, ", bracket) if is_place(p, files)]
                if places:
                    here = [files[f] for p in places for f in within(p, files)]
                    for n in names:
                        plain = n.split(" .")[0].lstrip(".")
                        if "/" not in n and n not in crates and not OTHER.match(n) and not any(declares(t, plain) for t in here):
                            print(f"{PAGE}:{number}: `{n}` is not in {', '.join(places)}")
                            bad += 1
                    names = []
    print(f"{count} names cited in {PAGE}, {bad} not there")
    sys.exit(1 if bad else 0)


main()
