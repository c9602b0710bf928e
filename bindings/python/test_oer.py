"""The vectors of the tests in C, through the module; and random octets, as many strings as the variable
OER_STRINGS says. OER_LIB_DIR or OER_LIB says where the library is. The table of vectors is the file that
OER_TABLE names, or else what bindings/table prints."""

import collections
import copy
import ctypes
import ctypes.util
import gc
import os
import pickle
import random
import resource
import subprocess
import sys
import threading
import unittest
from typing import Any, Callable, List, NamedTuple, Optional, Tuple
from unittest import mock

import oer

HERE = os.path.dirname(os.path.abspath(__file__))
EXAMPLE = os.path.join(HERE, "..", "..", "examples", "ieee1609dot2")
MODULES = [os.path.join(HERE, "..", "..", "examples", "modules", name) for name in ("messages.asn", "common.asn")]


def table() -> List[List[str]]:
    file = os.environ.get("OER_TABLE")
    if file:
        with open(file, encoding="ascii") as lines:
            return [line.rstrip("\n").split("\t") for line in lines]
    made = subprocess.run([os.path.join(HERE, "..", "table")], check=True, stdout=subprocess.PIPE)
    return [line.split("\t") for line in made.stdout.decode("ascii").splitlines()]


TABLE = table()


def rows(kind: str) -> List[List[str]]:
    found = [row[1:] for row in TABLE if row[0] == kind]
    if not found:
        raise AssertionError(f"the table has no {kind}")
    return found


def from_hex(digits: str) -> bytes:
    return b"" if digits == "-" else bytes.fromhex(digits)


class Vector(NamedTuple):
    """A call and what it has to answer."""

    task: str
    kind: bytes
    given: bytes
    path: bytes
    limit: int
    status: int
    why: int
    octets: int
    written: int
    answer: bytes

    def call(self, types: oer.Types, name: Any) -> Any:
        if self.task == "check":
            return types.check(name, self.given)
        if self.task == "whole":
            return types.check_whole(name, self.given)  # type: ignore[func-returns-value]
        if self.task == "canon":
            return types.canon(name, self.given, self.limit)
        if self.task == "part":
            return types.part(name, self.given, self.path)
        if self.task == "to_json":
            return types.to_json(name, self.given, self.limit)
        if self.task == "explain_json":
            return types.explain_json(name, self.given)
        if self.task == "explain_octets":
            return types.explain_octets(name, self.given)
        return types.from_json(name, self.given)

    def wanted(self) -> Any:
        """What is returned."""
        if self.task == "check":
            return (self.octets, self.written == 1)
        if self.task == "whole":
            return None
        if self.task == "part":
            return oer.Part(self.answer, self.octets)
        if self.task == "canon":
            return (self.answer, self.octets)
        if self.task == "to_json":
            return (self.answer.decode("utf-8"), self.octets)
        if self.task in ("explain_json", "explain_octets"):
            return self.answer.decode("utf-8")
        return self.answer

    def raised(self) -> Tuple[type, Optional[int], Optional[int]]:
        """Which exception is raised, with its reason and place."""
        if self.status == 1:
            if self.task == "from_json":
                return (oer.JsonRejected, self.why, None)
            return (oer.OctetsRejected, self.why, self.octets)
        if self.status == 9:
            return (oer.NotJson, None, self.octets)
        errors = {6: oer.NoPath, 7: oer.NoStep, 8: oer.Absent, 11: oer.NotCanonical, 12: oer.Follows}
        return (errors[self.status], None, None)


VECTORS = [
    Vector(row[0], from_hex(row[1]), from_hex(row[2]), from_hex(row[3]), int(row[4]), int(row[5]), int(row[6]),
           int(row[7]), int(row[8]), from_hex(row[9]))
    for row in rows("vector")
]


def types_of(kind: bytes) -> oer.Types:
    return oer.Types(b"A ::= " + kind)


def hex_file(name: str) -> bytes:
    with open(os.path.join(EXAMPLE, name), encoding="ascii") as file:
        return bytes.fromhex(file.read())


class Calls(unittest.TestCase):
    def raised(self, call: Callable[[], Any]) -> Tuple[type, Optional[int], Optional[int]]:
        with self.assertRaises(oer.Error) as caught:
            call()
        problem = caught.exception
        self.assertNotEqual(str(problem), "")
        return (type(problem), getattr(problem, "reason", None), getattr(problem, "place", None))

    def test_vectors(self) -> None:
        for row in VECTORS:
            with self.subTest(row=row), types_of(row.kind) as types:
                if row.status == 0:
                    self.assertEqual(row.call(types, "A"), row.wanted())
                else:
                    self.assertEqual(self.raised(lambda: row.call(types, "A")), row.raised())
                if row.status in (7, 8, 12):
                    self.assertEqual(self.problem(lambda: row.call(types, "A")).read, row.octets)
                for name in ("B", "", b"\xff"):
                    self.assertEqual(self.raised(lambda: row.call(types, name)), (oer.Unnamed, None, None))

    def test_places(self) -> None:
        for row in rows("place"):
            self.lies(row, oer.Types.part, oer.Types.part_at)

    def test_named_places(self) -> None:
        for row in rows("named"):
            self.lies(row, oer.Types.part_named, oer.Types.part_named_at)

    def lies(self, row: List[str], part: Callable[..., oer.Part], part_at: Callable[..., oer.Place]) -> None:
        """That the part of the row lies where it says, and is copied from there."""
        errors = {6: oer.NoPath, 7: oer.NoStep, 8: oer.Absent}
        given, way = from_hex(row[1]), from_hex(row[2])
        status, why, octets, at, length = (int(number) for number in row[3:])
        with self.subTest(row=row), types_of(from_hex(row[0])) as types:
            for call, wanted in ((part, (given[at:at + length], octets)), (part_at, (at, length, octets))):
                if status == 0:
                    self.assertEqual(call(types, "A", given, way), wanted)
                else:
                    error = (oer.OctetsRejected, why, octets) if status == 1 else (errors[status], None, None)
                    self.assertEqual(self.raised(lambda: call(types, "A", given, way)), error)
                if status in (7, 8):
                    self.assertEqual(self.problem(lambda: call(types, "A", given, way)).read, octets)
                self.assertEqual(self.raised(lambda: call(types, "B", given, way)), (oer.Unnamed, None, None))
        for call in (part, part_at):
            self.assertEqual(self.raised(lambda: call(types, "A", given, way)), (oer.NoTypes, None, None))

    def test_many(self) -> None:
        for row in (row for row in VECTORS if row.task == "check"):
            size = len(row.given)
            messages = [(0, size), (0, size // 2), (size // 2, size - size // 2), (size, 0)]
            outside = [(1, size), (size + 1, 0), (2**64 - 1, 1), (0, 2**64 - 1)]
            with self.subTest(row=row), types_of(row.kind) as types:
                answers = types.check_many("A", row.given, messages + outside)
                self.assertEqual([type(answer) for answer in answers[4:]], [oer.Outside] * 4)
                for (at, length), answer in zip(messages, answers):
                    part = row.given[at:at + length]
                    if isinstance(answer, oer.Error):
                        alone = self.raised(lambda: types.check("A", part))
                        self.assertEqual((type(answer), answer.reason, answer.place), alone)
                    else:
                        self.assertEqual(answer, types.check("A", part))
                self.assertEqual(self.raised(lambda: types.check_many("B", row.given, [])), (oer.Unnamed, None, None))
            self.assertEqual(self.raised(lambda: types.check_many("A", row.given, [])), (oer.NoTypes, None, None))

    def test_calls_without_types(self) -> None:
        for row in VECTORS:
            with self.subTest(row=row):
                types = types_of(row.kind)
                for _ in range(2):
                    types.close()
                    self.assertEqual(self.raised(lambda: row.call(types, "A")), (oer.NoTypes, None, None))
                self.assertEqual(self.raised(lambda: row.call(oer.Types(), "A")), (oer.NoTypes, None, None))
                with types_of(row.kind) as left:
                    pass
                self.assertEqual(self.raised(lambda: row.call(left, "A")), (oer.NoTypes, None, None))

    def test_rejected_definitions(self) -> None:
        for text, why, place in rows("rejected"):
            with self.subTest(text=from_hex(text)):
                wanted = (oer.DefinitionsRejected, int(why), int(place))
                self.assertEqual(self.raised(lambda: oer.Types(from_hex(text))), wanted)
                types = types_of(b"BOOLEAN")
                self.assertEqual(self.raised(lambda: types.read(from_hex(text))), wanted)
                self.assertEqual(types.check("A", b"\xff"), (1, True))

    def test_explained_definitions(self) -> None:
        for text, lines in rows("explained"):
            with self.subTest(text=from_hex(text)):
                self.assertEqual(oer.Types.explain_types(from_hex(text)), from_hex(lines).decode("utf-8"))
        for text, _, _ in rows("rejected"):
            self.assertNotEqual(oer.Types.explain_types(from_hex(text)), "")
        self.assertEqual(oer.Types().explain_types("A ::= \u00e4").splitlines()[1], "  A ::= \u00e4")
        self.assertRaises(TypeError, oer.Types.explain_types, 5)

    def test_parts(self) -> None:
        text = "A ::= NULL B ::= SEQUENCE {a A}"
        for parts in (3, 2**70, None):
            with self.subTest(parts=parts), oer.Types(text, parts) as types:
                self.assertEqual(types.check("A", b""), (0, True))
        self.assertEqual(self.raised(lambda: oer.Types(text, parts=2)), (oer.DefinitionsRejected, 20, 11))
        self.assertEqual(self.raised(lambda: oer.Types(text, parts=0)), (oer.DefinitionsRejected, 20, 0))
        self.assertRaises(ValueError, oer.Types, text, -1)

    def test_rejected_modules(self) -> None:
        for first, second, why, *numbers, words in rows("modules"):
            texts = [from_hex(first)] + ([] if second == "-" else [from_hex(second)])
            text, place, line, column = (int(number) for number in numbers)
            with self.subTest(texts=texts), self.assertRaises(oer.ModulesRejected) as caught:
                oer.Types.from_module_texts(*texts)
            rejected = caught.exception
            self.assertEqual((rejected.reason, rejected.text or 0, rejected.place or 0), (int(why), text, place))
            self.assertEqual((rejected.line or 0, rejected.column or 0), (line, column))
            self.assertEqual((rejected.place is None, rejected.line is None), (text == 0, line == 0))
            self.assertEqual(rejected.words, from_hex(words).decode("ascii"))
            self.assertEqual(str(rejected), "modules rejected: " + rejected.words)
            again = pickle.loads(pickle.dumps(rejected))
            self.assertEqual((str(again), vars(again)), (str(rejected), vars(rejected)))
        self.assertEqual(self.raised(oer.Types.from_modules), (oer.ModulesRejected, oer.ModulesReason.NO_TYPES, None))

    def test_modules(self) -> None:
        message = bytes.fromhex("80000000000100000002")
        texts = []
        for path in MODULES:
            with open(path, encoding="utf-8") as file:
                texts.append(file.read())
        for types in (oer.Types.from_modules(*MODULES), oer.Types.from_module_texts(*texts[::-1], nesting=0)):
            self.assertIsNone(types.check_whole("Message", message))  # type: ignore[func-returns-value]
            json = '{"report":{"position":{"north":1,"east":2}}}'
            self.assertEqual(types.from_json("Message", json), message)
            self.assertEqual(types.from_json("Message", types.to_json("Message", message).text), message)
            self.assertEqual(self.raised(lambda: types.check("Log", message)), (oer.Unnamed, None, None))
            deep = self.raised(lambda: types.check("Forwarded", bytes.fromhex("01818000")))
            self.assertEqual(deep, (oer.OctetsRejected, oer.Reason.INTEGER_RANGE, 3))
            self.assertIsNone(types.check_nesting("Forwarded", bytes.fromhex("01818000")))  # type: ignore[func-returns-value]
        types = oer.Types.from_modules(*MODULES, nesting=1)
        for call, reason in ((types.check, oer.Reason.UNKNOWN_ALTERNATIVE), (types.check_nesting, oer.Reason.NESTING)):
            deep = self.raised(lambda: call("Forwarded", bytes.fromhex("01818000")))  # type: ignore[operator]
            self.assertEqual(deep, (oer.OctetsRejected, reason, 3))
        for nesting in (-1, 256, 2**70):
            self.assertRaises(ValueError, lambda: oer.Types.from_modules(*MODULES, nesting=nesting))
        self.assertRaises(TypeError, lambda: oer.Types.from_module_texts(5))  # type: ignore[arg-type]
        self.assertRaises(FileNotFoundError, lambda: oer.Types.from_modules(os.path.join(HERE, "none.asn")))

    def test_types_in_place_of_others(self) -> None:
        types = types_of(b"BOOLEAN")
        types.read("B ::= BOOLEAN")
        self.assertEqual(self.raised(lambda: types.check("A", b"\xff")), (oer.Unnamed, None, None))
        self.assertEqual(types.check("B", b"\xff"), oer.Checked(octets=1, canonical=True))

    def test_arguments(self) -> None:
        types = types_of(b"OCTET STRING")
        for octets in (b"\x01\x05", bytearray(b"\x01\x05"), memoryview(b"\x00\x01\x05")[1:]):
            self.assertEqual(types.canon("A", octets), oer.Canonical(octets=b"\x01\x05", read=2))
        for octets in ("0105", 2, None, [1, 5], {1: 5}, {1, 5}):
            for call in (types.check, types.check_whole, types.check_nesting, types.canon, types.to_json):
                self.assertRaises(TypeError, call, "A", octets)
            self.assertRaises(TypeError, types.part, "A", octets, "c0")
            self.assertRaises(TypeError, types.part_at, "A", octets, "c0")
            self.assertRaises(TypeError, types.part_named, "A", octets, "a")
            self.assertRaises(TypeError, types.part_named_at, "A", octets, "a")
            self.assertRaises(TypeError, types.check_many, "A", octets, [])
        for name in (2, None, {"A": 1}, ["A"]):
            self.assertRaises(TypeError, types.check, name, b"\x01\x05")
            self.assertRaises(TypeError, types.from_json, "A", name)
            self.assertRaises(TypeError, types.explain_json, "A", name)
            self.assertRaises(TypeError, types.part, "A", b"\x01\x05", name)
            self.assertRaises(TypeError, types.part_named, "A", b"\x01\x05", name)
        for definitions in (2, {"A": "NULL"}, ["A ::= NULL"]):
            self.assertRaises(TypeError, types.read, definitions)
        self.assertEqual(types.check("A", b"\x01\x05"), (2, True))
        self.assertEqual(self.raised(lambda: types.check("\ud800", b"")), (oer.Unnamed, None, None))
        self.assertEqual(self.raised(lambda: types.canon("A", b"\x01\x05", 1)), (oer.OctetsRejected, 4, 1))
        self.assertEqual(types.canon("A", b"\x01\x05", 2**70).read, 2)
        self.assertRaises(ValueError, types.to_json, "A", b"\x01\x05", -1)
        for limit in ("2", 2.0, [2]):
            self.assertRaises(TypeError, types.canon, "A", b"\x01\x05", limit)

    def test_subclasses_that_lie(self) -> None:
        class Long(bytes):
            def __len__(self) -> int:
                return 2**40

            def __bytes__(self) -> bytes:
                return self

        class LongArray(bytearray):
            def __len__(self) -> int:
                return 2**40

        class Text(str):
            def encode(self, *how: Any) -> bytes:
                return Long(b"B")

            def __len__(self) -> int:
                return 2**40

        class Claims:
            @property  # type: ignore[misc]
            def __class__(self) -> type:
                return str

            def encode(self, *how: Any) -> bytes:
                return Long(b"A")

        class Number(int):
            def __lt__(self, other: int) -> bool:
                return True

            def __gt__(self, other: int) -> bool:
                return False

            def __index__(self) -> int:
                return 0

            __int__ = __index__

        types = oer.Types(Text("A ::= OCTET STRING"))
        for octets in (Long(b"\x01\x05"), LongArray(b"\x01\x05")):
            self.assertEqual(types.check(Text("A"), octets), (2, True))
            self.assertEqual(types.canon(Long(b"A"), octets, Number(2)), (b"\x01\x05", 2))
            self.assertEqual(types.check_many("A", octets, [(Number(1), Number(1))])[0].place, 1)  # type: ignore[union-attr]
        self.assertEqual(types.canon("A", b"\x01\x05", Number(2**64)).read, 2)
        self.assertEqual(types.from_json(Text("A"), Text('"05"')), b"\x01\x05")
        self.assertEqual(self.raised(lambda: types.part("A", b"\x01\x05", Text("c0"))), (oer.NoStep, None, None))
        self.assertRaises(TypeError, types.check, Claims(), b"\x01\x05")

    def test_places_of_messages(self) -> None:
        """Numbers that the library has none for are those of no octets, and no others."""
        types = types_of(b"BOOLEAN")
        outside = [(2**64, 1), (0, 2**64 + 1), (2**64 + 1, 2**64 + 1), (2**200, 1), (-1, 1), (0, -1), (1, -1), (-2**64, 1),
                   (2**64 - 1, 2), (2**64 - 1, 1), (2**64 - 1, 2**64 - 1)]
        answers = types.check_many("A", b"\xff\xff", [(0, 1)] + outside + [(1, 1)])
        self.assertEqual((answers[0], answers[-1]), ((1, True), (1, True)))
        self.assertEqual([type(answer) for answer in answers[1:-1]], [oer.Outside] * len(outside))
        for message in ((), (0,), (0, 1, 2), ("0", 1), (0, "1"), (0.0, 1), (None, 1), 5, None, "", "01"):
            self.assertRaises(TypeError, types.check_many, "A", b"\xff", [message])
        for messages in (5, None, [(0, 1), 5]):
            self.assertRaises(TypeError, types.check_many, "A", b"\xff", messages)

        for message in ({0: 1, 1: 2}, {"at": 0, "length": 1}, {0, 1}, frozenset((0, 1)), b"\x00\x01", bytearray(b"\x00\x01"),
                        memoryview(b"\x00\x01"), collections.OrderedDict(((0, 0), (1, 0))), {}):
            with self.assertRaisesRegex(TypeError, "a message is a place and a length, and not a "):
                types.check_many("A", b"\xff", [message])  # type: ignore[list-item]
        for unordered in ({(0, 1): None}, {(0, 1)}, {}, set(), b"", "", memoryview(b"")):
            with self.assertRaisesRegex(TypeError, "messages are a sequence, and not a "):
                types.check_many("A", b"\xff", unordered)  # type: ignore[arg-type]
        for message in ([0, 1], range(2), (number for number in (0, 1))):
            self.assertEqual(types.check_many("A", b"\xff", [message]), [(1, True)])  # type: ignore[list-item]

        class Messages(List[Tuple[int, int]]):
            def __len__(self) -> int:
                return 1000

        self.assertEqual(types.check_many("A", b"\xff", Messages([(0, 1)])), [(1, True)])
        self.assertEqual(types.check_many("A", b"\xff", iter([oer.Place(0, 1, 1)])), [(1, True)])  # type: ignore[arg-type]

    def test_types_are_freed(self) -> None:
        with mock.patch.object(oer, "_library", wraps=oer._library) as library:
            def freed() -> int:
                return library.oer_types_free.call_count

            with types_of(b"NULL"):
                self.assertEqual(freed(), 0)
            self.assertEqual(freed(), 2)
            types = types_of(b"NULL")
            types.close()
            self.assertEqual(freed(), 3)
            del types
            self.assertEqual(freed(), 4)

    def test_begun_again(self) -> None:
        """Types whose __init__ is called again have others, and nothing of the first is left in memory."""
        types = types_of(b"BOOLEAN")
        held, lock = ctypes.addressof(types._held), types._one
        types.__init__("B ::= NULL")  # type: ignore[misc]
        self.assertEqual(types.check("B", b""), (0, True))
        self.assertEqual(self.raised(lambda: types.check("A", b"\xff")), (oer.Unnamed, None, None))
        self.assertEqual((ctypes.addressof(types._held), types._one), (held, lock))
        wanted = (oer.DefinitionsRejected, 3, 1)
        self.assertEqual(self.raised(lambda: types.__init__("B")), wanted)  # type: ignore[misc]
        self.assertEqual(types.check("B", b""), (0, True))
        with mock.patch.object(oer, "_library", wraps=oer._library) as library:
            types.__init__()  # type: ignore[misc]
            self.assertEqual(library.oer_types_free.call_count, 1)
        self.assertEqual(self.raised(lambda: types.check("B", b"")), (oer.NoTypes, None, None))

    def test_begun_again_takes_no_memory(self) -> None:
        text = "A ::= SEQUENCE {" + ", ".join(f"a{place} INTEGER" for place in range(4000)) + "}"
        types = oer.Types(text)
        for turn in range(300):
            if turn == 20:
                before = resource.getrusage(resource.RUSAGE_SELF).ru_maxrss
            types.__init__(text)  # type: ignore[misc]
        self.assertLess(resource.getrusage(resource.RUSAGE_SELF).ru_maxrss - before, 16 * 1024)

    def test_other_statuses(self) -> None:
        types = types_of(b"NULL")
        for status, wanted in ((4, oer.OutOfMemory), (42, oer.Error)):
            with mock.patch.object(oer, "_library") as library:
                library.oer_types_read.return_value = oer._Parsed(status, 0, 0)
                library.oer_types_read_within.return_value = oer._Parsed(status, 0, 0)
                library.oer_check.return_value = oer._Checked(status, 0, 0, 0)
                library.oer_canon.return_value = oer._Written(status, 0, 0, 0)
                library.oer_explain_types.return_value = oer._Written(status, 0, 0, 0)
                library.oer_explain_json.return_value = oer._Written(status, 0, 0, 0)
                library.oer_explain_octets.return_value = oer._Written(status, 0, 0, 0)
                for call in (lambda: types.read("A ::= NULL"), lambda: types.read("A ::= NULL", 1),
                             lambda: types.check("A", b""), lambda: types.canon("A", b""),
                             lambda: types.explain_types(""), lambda: types.explain_json("A", ""), lambda: types.explain_octets("A", b"")):
                    self.assertEqual(self.raised(call), (wanted, None, None))
        self.assertEqual(types.check("A", b""), (0, True))

    def test_exceptions(self) -> None:
        types = types_of(b"OCTET STRING")
        with self.assertRaises(oer.Rejected) as caught:
            types.check("A", b"\x03\x61")
        problem = caught.exception
        self.assertEqual((problem.reason, problem.place), (oer.Reason.END, 2))
        self.assertEqual(str(problem), "octets rejected: END, place 2")
        again = pickle.loads(pickle.dumps(problem))
        self.assertEqual((type(again), again.reason, again.place), (oer.OctetsRejected, oer.Reason.END, 2))
        with self.assertRaises(oer.Rejected) as caught:
            types.from_json("A", "{}")
        problem = caught.exception
        self.assertEqual((problem.reason, problem.place, str(problem)), (oer.JsonReason.KIND, None, "JSON rejected: KIND"))
        again = pickle.loads(pickle.dumps(problem))
        self.assertEqual((again.reason, again.place, str(again)), (oer.JsonReason.KIND, None, "JSON rejected: KIND"))
        self.assertRaises(TypeError, copy.copy, types)
        self.assertTrue(issubclass(oer.OutOfMemory, MemoryError))

    def problem(self, call: Callable[[], Any]) -> Any:
        with self.assertRaises(oer.Error) as caught:
            call()
        return caught.exception

    def test_steps(self) -> None:
        types = types_of(b"SEQUENCE {a SEQUENCE OF SEQUENCE {b BOOLEAN}, ...}")
        octets = bytes.fromhex("000102ff00")
        self.assertEqual(types.part("A", octets, "c0.i1.c0"), (b"\x00", 5))
        for path, count in (("c1", 1), ("v.c0.c0.c0.c0", 1), ("c0.c0.i0", 2), ("c0.i2.c0", 2), ("c0.i1.c1", 3), ("c0.i1.c0.v", 4),
                            ("c0.i1.c0.v.v.v.v.v", 4), ("a0", 1), ("a0.c0", 1), ("c0.i0.i0.i0", 3)):
            for call in (types.part, types.part_at):
                problem = self.problem(lambda: call("A", octets, path))
                to_it = path.split(".")[:count]
                self.assertEqual((type(problem), problem.step, problem.path), (oer.NoStep, to_it[-1], ".".join(to_it)))
        self.assertEqual(types.part_named("A", octets, "a.1.b"), (b"\x00", 5))
        for names, count in (("b", 1), ("b.a.a.a.a", 1), ("a.b", 2), ("a.2.b", 2), ("a.2.c", 2), ("a.1.a", 3), ("a.1.b.0", 4), ("a.01.b", 2)):
            for call in (types.part_named, types.part_named_at):
                problem = self.problem(lambda: call("A", octets, names))
                to_it = names.split(".")[:count]
                self.assertEqual((type(problem), problem.step, problem.path), (oer.NoStep, to_it[-1], ".".join(to_it)))
        long_path = self.problem(lambda: types.part("A", octets, ".".join(["c0.i0.c0"] * 10000)))
        self.assertEqual(str(long_path), "there is no step 'c0' (path 'c0.i0.c0.c0')")

    def test_messages(self) -> None:
        types = types_of(b"SEQUENCE {a BOOLEAN OPTIONAL}")
        table = (
            (lambda: oer.Types().check("A", b""), "there are no types"),
            (lambda: oer.Types().share(), "there are no types"),
            (lambda: types.check("B", b""), "no definition has the name 'B'"),
            (lambda: types.canon("B", b""), "no definition has the name 'B'"),
            (lambda: types.part("B", b"", "c0"), "no definition has the name 'B'"),
            (lambda: types.part_at(b"B\xff", b"", "c0"), "no definition has the name 'B\\\\xff'"),
            (lambda: types.to_json("B\n", b""), "no definition has the name 'B\\n'"),
            (lambda: types.from_json("B" * 70, "{}"), f"no definition has the name '{'B' * 60}..'"),
            (lambda: types.check_many("", b"", []), "no definition has the name ''"),
            (lambda: types.part("A", b"\x00", "c01"), "'c01' is not a path"),
            (lambda: types.part_at("A", b"\x00", ""), "'' is not a path"),
            (lambda: types.part_named("A", b"\x00", "a b"), "'a b' is not names joined by dots"),
            (lambda: types.part_named_at("A", b"\x00", ""), "'' is not names joined by dots"),
            (lambda: types.part_named("A", b"\x00", "b"), "there is no step 'b' (path 'b')"),
            (lambda: types.part("A", b"\x00", "c1"), "there is no step 'c1' (path 'c1')"),
            (lambda: types.part("A", b"\x00", "c0"), "the part is absent"),
            (lambda: types.check_whole("A", b"\x80\x01"), "the octets are not the canonical encoding"),
            (lambda: types.check_whole("A", b"\x00\x01"), "octets follow the encoding, which has 1"),
            (lambda: types.from_json("A", "{"), "the text is not JSON, place 1"),
            (lambda: types.from_json("A", '{"a": yes}'), "the text is not JSON, place 6"),
        )
        for call, message in table:
            problem = self.problem(call)
            self.assertEqual(str(problem), message)
            again = pickle.loads(pickle.dumps(problem))
            self.assertEqual((type(again), str(again), vars(again)), (type(problem), message, vars(problem)))
        self.assertEqual(str(types.check_many("A", b"", [(1, 1)])[0]), "the message is not all in the octets")
        self.assertEqual(self.problem(lambda: types.check("B" * 70, b"")).name, "B" * 70)

    def test_messages_without_documents(self) -> None:
        """Python leaves out documents where it is called with -OO."""
        program = """
import oer
types = oer.Types("A ::= OCTET STRING")
for call in (lambda: types.check("B", b""), lambda: types.part("A", b"\\0", "c0"), lambda: oer.Types().check("A", b"")):
    try:
        call()
    except oer.Error as problem:
        print(problem)
"""
        wanted = "no definition has the name 'B'\nthere is no step 'c0' (path 'c0')\nthere are no types\n"
        run = subprocess.run([sys.executable, "-OO", "-c", program], cwd=HERE, stdout=subprocess.PIPE, stderr=subprocess.STDOUT)
        self.assertEqual(run.stdout.decode("utf-8"), wanted)

    def test_large_buffers(self) -> None:
        types = types_of(b"SEQUENCE OF SEQUENCE {a-long-name-of-a-component BOOLEAN}")
        for count in (100, 200, 3000, 3):
            octets = bytes([2, count // 256, count % 256]) + b"\xff" * count
            json = types.to_json("A", octets)
            self.assertEqual((len(json.text), json.read), (count * 36 + 1, len(octets)))
            self.assertEqual(types.from_json("A", json.text)[-count:], b"\xff" * count)
            self.assertLessEqual(len(types._room or b""), oer._KEPT)
        names = [letter * 200 for letter in "abcdefgh"]
        types = oer.Types(f"A ::= SEQUENCE {{{', '.join(name + ' NULL' for name in names)}}}")
        self.assertIn(", ".join(names), types.explain_json("A", '{"m": null}'))

    def test_call_within_a_call(self) -> None:
        types = types_of(b"OCTET STRING")
        types.canon("A", b"\x01\x05")
        within: List[bytes] = []
        canon = oer._library.oer_canon

        def call(*given: Any) -> Any:
            answer = canon(*given)
            if not within:
                within.append(b"")
                within[0] = types.canon("A", b"\x01\x06").octets
            return answer

        with mock.patch.object(oer, "_library", wraps=oer._library) as library:
            library.oer_canon.side_effect = call
            self.assertEqual(types.canon("A", b"\x01\x05").octets, b"\x01\x05")
        self.assertEqual(within, [b"\x01\x06"])

    def test_certificate(self) -> None:
        with open(os.path.join(EXAMPLE, "types.asn"), encoding="utf-8") as file:
            types = oer.Types(file.read())
        certificate, basic = hex_file("certificate-rsu.hex"), hex_file("certificate-rsu-basic.hex")
        self.assertEqual(types.check("Certificate", certificate), (230, True))
        self.assertEqual(types.check("Certificate", basic), (236, False))
        self.assertIsNone(types.check_whole("Certificate", certificate))  # type: ignore[func-returns-value]
        self.assertIsInstance(self.problem(lambda: types.check_whole("Certificate", basic)), oer.NotCanonical)
        self.assertEqual(self.problem(lambda: types.check_whole("Certificate", certificate + b"\0")).read, 230)
        self.assertEqual(types.canon("Certificate", basic, 236), (certificate, 236))
        rejected = self.raised(lambda: types.canon("Certificate", basic, 235))
        self.assertEqual(rejected[:2], (oer.OctetsRejected, oer.Reason.LIMIT))
        self.assertEqual(types.part("Certificate", certificate, "c3"), (hex_file("tbs-rsu.hex"), 230))
        self.assertEqual(types.part_at("Certificate", certificate, "c3"), (12, 152, 230))
        self.assertEqual(types.part_named("Certificate", certificate, "toBeSigned.appPermissions.0.psid"), (b"\x01\x24", 230))
        self.assertEqual(types.part_named_at("Certificate", certificate, "toBeSigned.crlSeries"), (32, 2, 230))
        json = types.to_json("Certificate", basic)
        self.assertEqual(types.from_json("Certificate", json.text), certificate)


class Header(unittest.TestCase):
    """That numbers and structs are those of oer.h."""

    def test_numbers(self) -> None:
        found = {"OER_" + reason.name: reason.value for reason in oer.Reason}
        found.update({"OER_TEXT_" + reason.name: reason.value for reason in oer.TextReason})
        found.update({"OER_MODULES_" + reason.name: reason.value for reason in oer.ModulesReason})
        found.update({"OER_JSON_" + reason.name: reason.value for reason in oer.JsonReason})
        statuses = "OK REJECTED NO_TYPES UNNAMED MEMORY ROOM NO_PATH NO_STEP ABSENT NO_JSON OUTSIDE "
        statuses += "NOT_CANONICAL FOLLOWS"
        found.update({"OER_" + name: getattr(oer, "_" + name) for name in statuses.split()})
        self.assertEqual(found, {name: int(number) for name, number in rows("number")})

    def test_layout(self) -> None:
        def place(field: Any) -> str:
            return f"{field.offset}+{field.size}"

        structs = {"oer_types": oer._Types, "oer_parsed": oer._Parsed, "oer_understood": oer._Understood,
                   "oer_checked": oer._Checked,
                   "oer_message": oer._Message, "oer_written": oer._Written, "oer_located": oer._Located}
        found = [
            [name, str(ctypes.sizeof(struct))] + [place(getattr(struct, field[0])) for field in struct._fields_]
            for name, struct in structs.items()
        ]
        self.assertEqual(found, rows("layout"))

    def test_version(self) -> None:
        self.assertEqual([[str(oer.version())]], rows("version"))
        self.assertEqual(oer.VERSION_NUMBER, oer.version())
        major, minor, patch = (int(number) for number in oer.__version__.split("."))
        self.assertEqual(10000 * major + 100 * minor + patch, oer.VERSION_NUMBER)

    def test_no_library(self) -> None:
        for file in (os.path.join(HERE, "none.so"), __file__, ctypes.util.find_library("c") or __file__):
            run = subprocess.run([sys.executable, "-c", "import oer"], cwd=HERE, stderr=subprocess.PIPE,
                                 env={**os.environ, "OER_LIB": file})
            self.assertEqual(run.returncode, 1)
            self.assertIn(b"ImportError: no liboer", run.stderr)

    def test_free_of_null(self) -> None:
        oer._library.oer_types_free(None)

    def test_left_at_the_end(self) -> None:
        program = "import oer; types = oer.Types('A ::= NULL'); again = [types]; print(types.check('A', b''))"
        run = subprocess.run([sys.executable, "-W", "error", "-c", program], cwd=HERE, stdout=subprocess.PIPE,
                             stderr=subprocess.STDOUT)
        self.assertEqual((run.returncode, run.stdout), (0, b"Checked(octets=0, canonical=True)\n"))


class Threads(unittest.TestCase):
    def in_thread(self, call: Callable[[], Any]) -> Any:
        answers: List[Any] = []

        def run() -> None:
            try:
                answers.append(call())
            except oer.Error as problem:
                answers.append(type(problem))

        thread = threading.Thread(target=run)
        thread.start()
        thread.join()
        return answers[0]

    def test_other_thread(self) -> None:
        types = types_of(b"BOOLEAN")
        self.assertEqual(self.in_thread(lambda: types.check("A", b"\xff")), (1, True))
        self.assertEqual(self.in_thread(lambda: types.read("A ::= NULL")), None)
        self.assertEqual(types.check("A", b""), (0, True))
        self.in_thread(types.close)
        self.assertEqual(self.in_thread(lambda: types.check("A", b"\xff")), oer.NoTypes)

    def test_shared(self) -> None:
        types = types_of(b"BOOLEAN")
        other = types.share()
        types.read("A ::= NULL")
        self.assertEqual((types.check("A", b""), other.check("A", b"\xff")), ((0, True), (1, True)))
        types.close()
        self.assertRaises(oer.NoTypes, types.share)
        kept = [other.share()]
        self.in_thread(lambda: (kept.clear(), gc.collect()))
        self.assertEqual(other.check("A", b"\xff"), (1, True))

    def side_by_side(self, of_thread: Callable[[], oer.Types]) -> None:
        def run() -> None:
            types = of_thread()
            for _ in range(2000):
                answers.append(types.canon("A", b"\x02\x00\x02\x01\x07"))

        answers: List[oer.Canonical] = []
        threads = [threading.Thread(target=run) for _ in range(4)]
        for thread in threads:
            thread.start()
        for thread in threads:
            thread.join()
        self.assertEqual(collections.Counter(answers), {(b"\x01\x02\xff\xff", 5): 8000})

    def test_side_by_side(self) -> None:
        types = types_of(b"SEQUENCE OF BOOLEAN")
        self.side_by_side(lambda: types)
        self.side_by_side(types.share)
        self.side_by_side(lambda: types_of(b"SEQUENCE OF BOOLEAN"))


class Random(unittest.TestCase):
    COMMON = bytes.fromhex("00010203808182ff2060")

    def compare(self, types: oer.Types, octets: bytes) -> Optional[oer.Checked]:
        """That check and canon agree on the octets. Returns what check found, if they begin with an
        encoding."""
        try:
            found = types.check("A", octets)
        except oer.OctetsRejected as rejected:
            with self.assertRaises(oer.OctetsRejected) as caught:
                types.canon("A", octets)
            self.assertEqual((caught.exception.reason, caught.exception.place), (rejected.reason, rejected.place))
            self.assertLessEqual(rejected.place or 0, len(octets))
            return None
        made = types.canon("A", octets)
        self.assertEqual(made.read, found.octets)
        self.assertEqual(found.canonical, octets[:made.read] == made.octets)
        self.assertEqual(types.check("A", made.octets), (len(made.octets), True))
        return found

    def test_check_and_canon_agree(self) -> None:
        strings = int(os.environ.get("OER_STRINGS", 100000))
        kinds = sorted({row.kind for row in VECTORS})
        numbers = random.Random(20260101)
        common = self.COMMON
        tried = encodings = canonicals = 0
        for place, kind in enumerate(kinds):
            types = types_of(kind)
            while tried < strings * (place + 1) // len(kinds):
                drawn = numbers.getrandbits(400).to_bytes(50, "little")[:2 * numbers.randrange(25)]
                # Small octets, so that many strings are encodings; or an octet of any kind.
                pairs = zip(drawn[::2], drawn[1::2])
                octets = bytes(common[octet % 10] if choice % 4 else octet for choice, octet in pairs)
                found = self.compare(types, octets)
                tried += 1
                if found:
                    encodings += 1
                    canonicals += found.canonical
        self.assertTrue(tried == strings and strings > 0)
        self.assertTrue(strings // 10 < encodings < strings, f"{encodings} encodings of {strings}")
        self.assertTrue(0 < canonicals < encodings, f"{canonicals} canonical of {encodings}")
        print(f"{encodings} encodings of {strings} strings, {canonicals} of them canonical")


if __name__ == "__main__":
    unittest.main()
