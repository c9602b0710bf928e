"""The tables of rows that tools/test_vectors, tools/test_programs and tools/test_modules run: those of oer_vectors, and those in
tests/.

The head of oer_vectors says how rows are spelt there, and tests/oer.rows how they are in tests/.
"""

import os
import re

TOP = os.path.dirname(os.path.dirname(os.path.realpath(__file__)))
VECTORS = f"{TOP}/crates/oer_vectors/src"
EXAMPLE = f"{TOP}/examples/ieee1609dot2"
CONSTANT = re.compile(r'pub const (\w+): &str =\s*(?:r(#*)"(.*?)"\2|"([^"\\]*)");', re.S)


def vectors():
    """The rows of each table of oer_vectors."""
    found = {}
    for file in sorted(os.listdir(VECTORS)):
        with open(f"{VECTORS}/{file}", encoding="utf-8") as it:
            for name, _, raw, plain in CONSTANT.findall(it.read()):
                found[name] = (raw or plain).split("\n")
    return found


def tables(name):
    """The rows of each table of a file in tests/, each with the lines that stand below it, or below the next."""
    found, rows, below = {}, None, []
    with open(f"{TOP}/tests/{name}", encoding="utf-8") as it:
        for line in it.read().split("\n"):
            if line.startswith("== "):
                rows, below = found.setdefault(line[3:], []), []
            elif line.startswith(("    ", "  ! ")):
                below.append(line)
            elif line and not line.startswith("#"):
                below = [] if below else below
                rows.append((line, below))
    return found


def expanded(text):
    """The text with each piece as often as it comes."""
    pieces = text.split("~")
    for place in range(1, len(pieces), 2):
        piece, _, times = pieces[place].rpartition("*")
        pieces[place] = piece * int(times)
    return "".join(pieces)


def with_files(text):
    """The text with each file of the example in the place of its name."""

    def held(name):
        with open(f"{EXAMPLE}/{name[1]}", encoding="utf-8") as it:
            return it.read().rstrip("\n")

    return re.sub(r"@([\w-]+\.(?:asn|hex))", held, text)


def octets_of(digits):
    """The octets of hexadecimal digits; `-` stands for none."""
    return b"" if digits == "-" else bytes.fromhex(digits)


def placed(row, place):
    """A row of KINDS as one of VALUES, of the type that PLACES puts round its own; none where no value can stand there."""
    kind, json, canonical, encodings = row.split(" | ")
    kinds, jsons, octets = place.split(" | ")
    if canonical == "-" and kinds.startswith("SEQUENCE OF"):
        return None

    def put(digits):
        own = octets_of(digits)
        return octets.replace("!", f"{len(own):02x}?").replace("?", own.hex()) or "-"

    put_all = " ".join(it if it == "=" else put(it) for it in encodings.split(" "))
    return " | ".join((kinds.replace("?", kind), jsons.replace("?", json), put(canonical), put_all))


def spelt(text):
    """The text, with the characters that are spelt by their number."""
    return re.sub(r"\\u([0-9a-f]{4})", lambda it: chr(int(it[1], 16)), text)


def wrapped(definitions):
    """A module M with AUTOMATIC TAGS, and these definitions on its second line."""
    return f"M DEFINITIONS AUTOMATIC TAGS ::= BEGIN\n{definitions}\nEND"
