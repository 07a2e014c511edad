#!/usr/bin/env python3
"""Make the cases of the program envelope_vectors, and the lines that it must write.

    scripts/envelope_vectors.py            write crates/envelope_vectors/stdin and stdout
    scripts/envelope_vectors.py --check    say whether the two files are those that would be written

The layout of an envelope is taken from document 01, "Envelope", the letter N from document 02, request 2, and the letter F, which is read and never
written, from its request 9: a pattern for the header and Python's own numbers. Nothing here comes from the crates. A case is a record of 24 bytes,
numbers in it two bytes each, lowest first:

    0, h, 20 bytes, n                         read the first h of the 20 bytes, followed by the first n bytes of the string
    1, letter, group, a, c, t, room, 0 ..     write parts of the string of these lengths to a buffer, and read the buffer
"""
import os
import re
import struct
import sys

SIZE = 33000
HERE = os.path.join(os.path.dirname(os.path.abspath(__file__)), "..", "crates", "envelope_vectors")
STRING = bytes((j % 251 * 7 + j // 251) % 256 for j in range(SIZE))
TAG = {"S": 32, "N": 16, "F": 16}
NUMBER = rb"(0|[1-9][0-9]*)"
HEADER = re.compile(rb"([SNF])," + NUMBER + rb"," + NUMBER + rb"," + NUMBER + rb",")


def read(data):
    """Number, letter, group, place and the three parts."""
    found = HEADER.match(data)
    group, a, m = (int(x) for x in found.groups()[1:]) if found else (0, 0, 0)
    if not found or group > 31 or a > 16384 or m > 16384:
        return 1, 0, 0, 0, b"", b"", b""
    letter = found.group(1).decode()
    body = data[found.end():]
    end = a + m + TAG[letter]
    if len(body) < end:
        return 2, 0, 0, 0, b"", b"", b""
    return 0, ord(letter), group, found.end() + end, body[:a], body[a:a + m], body[a + m:end]


def write(letter, group, a, c, t, buffer):
    """Number, how many bytes were written, and the buffer afterwards."""
    if letter == "F":
        return 18, 0, buffer
    if letter not in TAG:
        return 1, 0, buffer
    if group > 31:
        return 3, 0, buffer
    if len(a) > 16384 or len(c) > 16384:
        return 6, 0, buffer
    if len(t) != TAG[letter]:
        return 7, 0, buffer
    made = header(letter, group, len(a), len(c)) + a + c + t
    if len(buffer) < len(made):
        return 8, 0, buffer
    return 0, len(made), made + buffer[len(made):]


def checksum(data):
    total = 0
    for b in data:
        total = (total * 31 + b) % 65521
    return total


def read_line(data):
    *numbers, metadata, cryptogram, tag = read(data)
    parts = [n for p in (metadata, cryptogram, tag) for n in (len(p), checksum(p))]
    return "".join(f"{n} " for n in numbers + parts)


class Cases:
    def __init__(self):
        self.records, self.lines, self.seen = [], [], set()

    def add(self, record, line):
        assert len(record) == 24
        if record not in self.seen:
            self.seen.add(record)
            self.records.append(record)
            self.lines.append(line() + "\n")

    def read(self, head, n):
        assert len(head) <= 20
        self.add(struct.pack("<BB20sH", 0, len(head), head.ljust(20, b"#"), n), lambda: read_line(head + STRING[:n]))

    def write(self, letter, group, a, c, t, room):
        def line():
            out = b"\0" + STRING[:SIZE - 1]
            number, length, start = write(letter, group, STRING[:a], STRING[7:7 + c], STRING[11:11 + t], out[:room])
            out = start + out[room:]
            return f"{number} {length} {checksum(out)} " + read_line(out)
        self.add(struct.pack("<BBHHHHH12x", 1, ord(letter), group, a, c, t, room), line)


def header(letter, group, a, m):
    return f"{letter},{group},{a},{m},".encode()


def damages(cases, head, n, values):
    """Each byte of the header replaced, taken out, doubled, and with another in front of it."""
    for i in range(len(head)):
        for v in values:
            cases.read(head[:i] + bytes([v]) + head[i + 1:], n)
        cases.read(head[:i] + head[i + 1:], n)
        cases.read(head[:i] + head[i:i + 1] + head[i:], n)
        for v in b"0 +-,SNF":
            cases.read(head[:i] + bytes([v]) + head[i:], n)


def readings(cases, letter):
    """Envelopes of a letter: valid, at and past the limits, cut and damaged."""
    tag = TAG[letter]
    # valid, with as many bytes as needed, one fewer, and some more
    for group, a, m in [(7, 20, 48), (0, 0, 0), (31, 0, 1), (9, 9, 10), (10, 99, 100), (30, 999, 1000), (1, 9999, 10000), (31, 16384, 16384), (2, 16384, 0), (3, 0, 16384)]:
        for more in (0, -1, 1, 5):
            cases.read(header(letter, group, a, m), a + m + tag + more)
    # every group, and numbers at and past their limits
    for group in list(range(34)) + [99, 100, 255, 256, 310, 4294967296]:
        cases.read(header(letter, group, 3, 4), 60)
    for a, m in [(16383, 1), (16385, 1), (1, 16385), (16390, 0), (99999, 0), (163840, 2), (2, 4294967295), (4294967296, 0)]:
        cases.read(header(letter, 4, a, m), 32999 - 20)
    # cut at every length, past the longest tag
    for group, a, m in [(7, 20, 48), (31, 3, 5), (0, 0, 0)]:
        head = header(letter, group, a, m)
        for k in range(len(head)):
            cases.read(head[:k], 0)
        for k in range(a + m + 34):
            cases.read(head, k)
    # every byte as the letter, with bytes enough for this letter's tag
    for v in range(256):
        cases.read(bytes([v]) + header(letter, 7, 20, 48)[1:], 68 + tag)
    # damaged at every byte of the header
    damages(cases, header(letter, 7, 20, 48), 68 + tag, b"0123456789,./: SsNnFf\0\x80\xff")
    damages(cases, header(letter, 31, 16384, 16384), 32768 + tag, b"0123456789,./: SsNF")
    damages(cases, header(letter, 0, 0, 0), tag + 8, b"0123456789,./: SsNF")


def writings(cases, letter):
    """Envelopes of a letter written, which F's are not: with room, at and past the limits, with tags of every letter's length."""
    tag = TAG[letter]
    for group, a, c in [(7, 20, 48), (0, 0, 0), (31, 16384, 16384), (5, 9, 100), (10, 1000, 9999)]:
        need = len(header(letter, group, a, c)) + a + c + tag
        for room in (need, need - 1, need + 1, need + 100, 33000, 0):
            cases.write(letter, group, a, c, tag, room)
    for group in (31, 32, 33, 255, 65535):
        cases.write(letter, group, 4, 5, tag, 100)
    for a, c in [(16384, 0), (16385, 0), (0, 16385), (16385, 16385), (20000, 3)]:
        for t in (tag, tag - 1):
            cases.write(letter, 3, a, c, t, 32900)
            cases.write(letter, 32, a, c, t, 10)
    for t in (0, 1, 15, 16, 17, 31, 32, 33, 64, 256):
        cases.write(letter, 6, 2, 3, t, 200)
        cases.write(letter, 6, 2, 3, t, 5)


def unknown(cases):
    """Letters that are neither S, N nor F: alone, and beside each of the other checks."""
    for letter in "\0,0EGMORTfns\x7f\xc6\xce\xd3\xff":
        cases.write(letter, 7, 20, 48, 32, 33000)
        cases.write(letter, 7, 20, 48, 16, 33000)
        cases.write(letter, 7, 20, 48, 0, 33000)
    for letter in "\0fn":
        for group, a, c, t, room in [(32, 1, 2, 32, 100), (7, 16385, 2, 16, 33000), (7, 1, 16385, 32, 33000), (7, 1, 2, 31, 100), (7, 1, 2, 16, 5), (32, 16385, 16385, 0, 0)]:
            cases.write(letter, group, a, c, t, room)


def make():
    cases = Cases()
    for letter in TAG:
        readings(cases, letter)
    # all printable bytes and some others, at every byte of a header
    damages(cases, header("S", 7, 20, 48), 100, list(range(32, 127)) + [0, 9, 10, 13, 127, 128, 211, 255])
    # long runs of digits
    for head in [b"S,77777777777777777", b"S,1,000000000000000", b"N,1,2,9999999999999,", b"N,18446744073709551", b"F,1,9999999999999999", b"S,00000000000000007,"]:
        cases.read(head, 100)
    for letter in TAG:
        writings(cases, letter)
    unknown(cases)
    return b"".join(cases.records), "".join(cases.lines).encode()


def main():
    for name, content in zip(("stdin", "stdout"), make()):
        path = os.path.join(HERE, name)
        if "--check" in sys.argv[1:]:
            with open(path, "rb") as f:
                same = f.read() == content
            print(name, "as made" if same else "DIFFERS")
            if not same:
                sys.exit(1)
        else:
            with open(path, "wb") as f:
                f.write(content)


main()
