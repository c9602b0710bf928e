"""What Wireshark's dissector of IEEE 1609.2 shows of messages, as values of the form in which `oer show` prints them.

tools/test_wireshark compares it with what `oer show` prints. A value is taken apart into what stands at each path of it, as
`Ieee1609Dot2Data.content.unsecuredData`: a number, text or None, for a SEQUENCE OF how many items it has, and {} for a SEQUENCE
or CHOICE. Additions that the types don't know are left out; such an alternative stands at the path `..#`, or `..another class` where
its tag isn't of class context.
"""

import os
import re
import shutil
import struct
import subprocess
import tempfile
from xml.etree import ElementTree

MESSAGE, PREFIX, LINK_TYPE, SECONDS = "Ieee1609Dot2Data", "ieee1609dot2.", 147, 600
OTHER = "another class"
BOUND = f'uat:user_dlts:"User 0 (DLT={LINK_TYPE})","{PREFIX}data","0","","0",""'

# Where the reading of a message ends. The dissector of Wireshark 4.0.17 doesn't step over the preamble of missingCrlIdentifier,
# and takes it for the first octet of cracaId.
FAULTS = "_ws.expert", "_ws.malformed", f"{PREFIX}missingCrlIdentifier_element"

# That fault, and those by which the dissector says that it can't read: a signed INTEGER without bounds, a BIT STRING, a number
# without an upper bound or a length of more than four octets, an alternative that it doesn't know of no octets or more than four.
CANNOT = re.compile("missingCrlIdentifier|is not of type FT_|bitstring values not handled|to many octets|Long form [1-9]|"
                    "integer with length")


def is_there():
    """Whether tshark is here."""
    return shutil.which("tshark") is not None


def tshark(words, room):
    """What tshark prints."""
    environment = {**os.environ, "HOME": room, "XDG_CONFIG_HOME": room}
    return subprocess.run(["tshark", *words], env=environment, capture_output=True, timeout=SECONDS, check=True).stdout


def leaves(value, path=MESSAGE):
    """What stands at each path of a value that `oer show` prints."""
    if isinstance(value, list):
        yield path, f"{len(value)} items"
        for place, held in enumerate(value):
            yield from leaves(held, f"{path}.{place}")
    elif isinstance(value, dict):
        yield path, {}
        for name, held in value.items():
            if not re.match(r"#\d", name):
                name = OTHER if re.match("#[aup]", name) else re.sub("^#.*", "#", name)
                yield from leaves(held, f"{path}.{name}")
    else:
        yield path, value


def below(field):
    """The fields directly below one. An addition that the dissector doesn't know has the name of its SEQUENCE."""
    for it in field:
        if it.get("name", "").startswith(PREFIX) and it.get("name") != field.get("name"):
            yield it
        elif not it.get("name"):
            yield from below(it)


class Dissector:
    """The dissector, with the kind of each of its fields, and the names of those that were compared."""

    def __init__(self):
        with tempfile.TemporaryDirectory() as room:
            lines = [it.split("\t") for it in tshark(["-G", "fields"], room).decode().split("\n")]
        self.kinds = {it[2]: it[3] for it in lines if it[0] == "F" and it[2].startswith(PREFIX)}
        self.seen = set()

    def unseen(self):
        """The fields that were never compared."""
        return sorted(it.removeprefix(PREFIX) for it in self.kinds.keys() - self.seen)

    def packets(self, strings):
        """What tshark shows of each string of octets."""
        with tempfile.TemporaryDirectory() as room:
            with open(f"{room}/octets", "wb") as it:
                it.write(struct.pack("<IHHiIII", 0xA1B2C3D4, 2, 4, 0, 0, 1 << 18, LINK_TYPE))
                it.writelines(struct.pack("<IIII", 0, 0, len(octets), len(octets)) + octets for octets in strings)
            words = ["-n", "-o", BOUND, "--disable-protocol", "its", "-T", "pdml", "-r", f"{room}/octets"]
            return ElementTree.fromstring(tshark(words, room)).findall("packet")

    def message(self, packet, size):
        """The message in a packet of so many octets, up to its first fault, and that fault, or `taken`."""
        order = list(packet.iter())
        field = next(it for it in order if it.get("name") == f"{PREFIX}{MESSAGE}_element")
        end = next((at for at, it in enumerate(order) if it.get("name") in FAULTS), len(order))
        for it in order[end:]:
            it.set("name", "behind")
        if end < len(order):
            return field, order[end].get("showname")
        return field, "taken" if field.get("size") == str(size) else "octets follow the value"

    def leaves(self, field, ours, path=MESSAGE):
        """What the dissector shows at each path. What may be a number, a name or a CHOICE is what `ours` has there."""
        name, wanted, digits = field.get("name"), ours.get(path), field.get("value", "")
        kind, text = self.kinds[name], field.get("showname").partition(": ")[2]
        word = text.rpartition(" (")[0]
        self.seen.add(name)
        if kind == "FT_BYTES":
            yield path, digits
        elif kind == "FT_STRING":
            yield path, bytes.fromhex(digits).decode(errors="replace")
        elif kind == "FT_NONE":
            yield path, None if text == "NULL" else {}
            for it in below(field):
                yield from self.leaves(it, ours, f"{path}.{it.get('showname').partition(':')[0]}")
        elif re.fullmatch(r"\d+ items?", text):
            yield path, f"{field.get('show')} items"
            for place, it in enumerate(below(field)):
                yield from self.leaves(it, ours, f"{path}.{place}")
        elif wanted == {}:
            yield path, {}
            for it in below(field):
                label = it.get("showname").partition(":")[0]
                yield from self.leaves(it, ours, f"{path}.{label if label == word else text}")
            if len(field) == 0 and field.get("size") != "0":
                yield f"{path}.#", digits
        elif isinstance(wanted, str) and not wanted.isdigit():
            yield path, word
        else:
            yield path, field.get("show") if isinstance(wanted, str) else int(field.get("show"))
