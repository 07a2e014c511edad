#!/usr/bin/env python3
"""vectors.py [--check]: turns vectors/*.txt into the standard input and the expected standard output of the vector programs.

With --check nothing is written: the exit status is 1 where a file is not what the vectors give.
"""
import itertools
import os
import sys

ROOT = os.path.dirname(os.path.dirname(os.path.abspath(__file__)))


def records(name):
    """The records of a vector file: lists of (field, value), in their order."""
    found, record = [], []
    for line in open(os.path.join(ROOT, "vectors", name), encoding="ascii"):
        line = line.strip()
        if line.startswith("#"):
            continue
        if not line:
            if record:
                found.append(record)
            record = []
            continue
        field, value = line.split(" = ")
        record.append((field, value))
    return found + [record] if record else found


def data(value):
    """A byte string of a vector file."""
    return b"" if value == "-" else bytes.fromhex(value)


def perm_program():
    """Permutations at six rounds, and the two rollings."""
    given, expected = b"", ""
    for record in map(dict, records("perm.txt")):
        if record["rounds"] == "6":
            given += b"P" + (1).to_bytes(4, "little") + data(record["in"])
            expected += record["out"] + "\n"
    for record in map(dict, records("roll.txt")):
        for op, field in ((b"C", "c"), (b"E", "e")):
            given += op + int(record["times"]).to_bytes(4, "little") + data(record["in"])
            expected += record[field] + "\n"
    return given, expected.encode()


def header(letter, closing, length, offset):
    """The header of a record of xoofff_vectors."""
    return letter + bytes([closing]) + length.to_bytes(2, "little") + offset.to_bytes(2, "little")


def closing_byte(frame):
    """The byte after a string's last byte: the frame bits, first bit first, and the padding bit."""
    bits = ("" if frame == "-" else frame) + "1"
    return sum(int(bit) << place for place, bit in enumerate(bits))


def xoofff_program():
    """The deck function: histories of strings with frame bits, and runs of the output."""
    given, expected = b"", ""
    for record in map(dict, records("xoofff.txt")):
        key = data(record["key"])
        given += header(b"K", 0, len(key), 0) + key
        for i in range(int(record["strings"])):
            string = data(record[f"s{i}"])
            given += header(b"S", closing_byte(record[f"f{i}"]), len(string), 0) + string
        given += header(b"O", 0, int(record["length"]), int(record["offset"]))
        expected += "".join(record[field] + "\n" for field in ("index", "acc", "mask", "out"))
    return given, expected.encode()


def sanse_program():
    """Sessions of SANSE: both starts, wraps and unwraps at the two ends, and the records after each; all of them with full blocks taken one after
    the other, and once more with four side by side."""
    given, expected = b"", ""
    for blocks, record in itertools.product(b"14", map(dict, records("sanse.txt"))):
        op = record["op"]
        number = 11 if record.get("result") == "tag" else 0
        tag = data(record["T"]) if op != "start" else b""
        if op == "start":
            parts, out = (data(record["key"]), b""), b""
        elif op == "wrap":
            parts, out = (data(record["A"]), data(record["M"])), data(record["C"])
        else:
            parts = (data(record["A"]), data(record["C"]))
            out = bytes(len(parts[1])) if number else data(record["M"])
        for end in "ab" if op == "start" else record["end"]:
            given += op[0].upper().encode() + end.encode() + bytes([blocks]) + b"".join(len(p).to_bytes(2, "little") for p in parts)
            given += b"".join(parts) + (tag if op == "unwrap" else bytes(32))
            expected += f"{number} {record['count']} {record['index']} {record['e']}\n"
            expected += "".join(line + "\n" for line in (out.hex(), tag.hex(), record["acc"], record["mask"]))
    return given, expected.encode()


PROGRAMS = {"perm_vectors": perm_program, "xoofff_vectors": xoofff_program, "sanse_vectors": sanse_program}


def main():
    check, bad = "--check" in sys.argv[1:], []
    for name, make in PROGRAMS.items():
        for file, content in zip(("stdin", "stdout"), make()):
            path = os.path.join(ROOT, "crates", name, file)
            if check:
                if not os.path.isfile(path) or open(path, "rb").read() != content:
                    bad.append(os.path.relpath(path, ROOT))
            else:
                with open(path, "wb") as f:
                    f.write(content)
    for path in bad:
        print(f"vectors.py: {path} is not what vectors/ gives; run scripts/vectors.py")
    sys.exit(1 if bad else 0)


main()
