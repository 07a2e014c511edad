#!/usr/bin/env python3
"""Brings the repository's own definitions and lemmas to snake case: run once at the top, after the kit's port.py.

A part of a name that begins small and has a capital inside (rotateLeft) becomes words with underscores (rotate_left); a part that begins
with a capital, as a fact's or a type's, stays. A record's field with a dash (in-range) is written with an underscore (in_range).
Functions of src/, exported names and strings keep theirs. Names that fall together are listed, and then nothing is written.
Files turned: .antt and .rt of crates/, and the must-fail edits.
"""
import glob
import re
import sys

TOKEN = re.compile(r"[^\s(){}\[\];:,.\"@`]+")
STRING = re.compile(r'b?"(?:[^"\\\n]|\\.)*"')
HUMP = re.compile(r"(?<=[a-z0-9])(?=[A-Z])")
# Names that would fall together with another, or with a module that a proof imports.
APART = {
    "groupAt": "group_at",
    "group_at": "group_at_lem",
    "bothWays": "both_ways",
    "both_ways": "both_ways_lem",
    "noCode": "no_code",
    "no_code": "without_code",
    "noGroup": "no_group_outcome",
    "firstCheck": "first_check_of",
    "zero-record": "record_of-zero_record",
    "a-line": "is_a_line",
    "group-fits": "group_in_range",
    "no-day": "no_such_day",
    "openDay": "opening_day",
    "openMonth": "opening_month",
    "closeDay": "closing_day",
    "closeMonth": "closing_month",
}
# A definition may have the name of the function of src/ that it speaks of, and of a name of another crate that no file has beside it.
FUNCTION = re.compile(r"\bfn (\w+)")
BESIDE = {"all_left", "closed_at", "is_m", "is_open", "runs_of"}
FIELD = re.compile(r"^\s+(?:pub )?([a-z][\w'-]*-[\w'-]*) :")


def snake(name):
    parts = re.split(r"([-_])", name)
    return "".join(HUMP.sub("_", p).lower() if p and p[0].islower() and HUMP.search(p) else p for p in parts)


def fields(text):
    """The fields with a dash of the records that text declares."""
    inside = False
    for line in text.split("\n"):
        if re.match(r"(pub )?record ", line):
            inside = line.rstrip().endswith("where")
        elif inside and line.strip() and not line.startswith((" ", "--")):
            inside = False
        if inside and (found := FIELD.match(line)):
            yield found.group(1)


def main():
    proofs = sorted(glob.glob("crates/*/specs/**/*.antt", recursive=True) + glob.glob("crates/*/proofs/**/*.antt", recursive=True))
    code = sorted(glob.glob("crates/*/src/**/*.rt", recursive=True))
    edits = sorted(glob.glob("crates/*/must-fail/*.edit"))
    texts = {p: open(p, encoding="utf-8").read() for p in proofs + code + edits}
    names = set()
    for p in proofs + code:
        names.update(TOKEN.findall(STRING.sub('""', texts[p]) if p.endswith(".rt") else texts[p]))
    turned = {n: snake(n) for n in names if snake(n) != n}
    for p in proofs:
        for field in fields(texts[p]):
            turned[field] = snake(field).replace("-", "_")
    turned |= {a: b for a, b in APART.items() if a in names}
    functions = {f for p in code for f in FUNCTION.findall(texts[p])}
    news = list(turned.values())
    together = sorted((a, b) for a, b in turned.items() if b in names and b not in turned and b not in functions | BESIDE or news.count(b) > 1)
    if together:
        print("fall together:", *together, sep="\n  ")
        return 1

    def turn(text):
        return TOKEN.sub(lambda m: turned.get(m.group(), m.group()), text)

    for p, text in texts.items():
        if p.endswith(".rt"):
            parts, at = [], 0
            for s in STRING.finditer(text):
                parts += [turn(text[at : s.start()]), s.group()]
                at = s.end()
            new = "".join(parts) + turn(text[at:])
        else:
            new = turn(text)
        if new != text:
            open(p, "w", encoding="utf-8").write(new)
    print(f"{len(turned)} names turned")
    return 0


sys.exit(main())
