"""Encodings of ASN.1 values by the octet encoding rules (ITU-T X.696), over the proved library liboer.

A Types holds the types of definitions, or of published modules, that were read. By the types in it octets are
checked, rewritten as canonical octets, taken apart, shown as JSON, and made from JSON:

    with oer.Types("Flags ::= SEQUENCE OF BOOLEAN") as types:
        types.check("Flags", b"\\x02\\x00\\x02\\x01\\x07")   # Checked(octets=5, canonical=False)
        types.canon("Flags", b"\\x02\\x00\\x02\\x01\\x07")   # Canonical(octets=b"\\x01\\x02\\xff\\xff", read=5)

Octets are bytes, or whatever bytes() takes as a buffer. Names, paths, definitions and JSON are str, or
UTF-8 as bytes. Lengths and places are numbers of octets. The notation of definitions is in NOTATION.md,
that of paths in COMMAND.md, and the JSON in JSON.md.

The library is the file that the variable OER_LIB of the environment names, or liboer.so in the folder
that OER_LIB_DIR names, or the one beside this module, as a wheel may have it, or the one that the system
finds. Where there is none, or one of another version, to import this module raises ImportError.

Of a subclass of str, bytes or int what counts is its text, its octets or its number, and not what its own
methods say.

Threads: a Types takes calls from any thread. One waits for the other, as the library wants one call at a
time. For calls at the same time each thread has a Types of its own, by share(). No call may be made in the
child of a fork of a process with threads.
"""

import collections.abc
import ctypes
import ctypes.util
import enum
import operator
import os
import threading
from types import TracebackType
from typing import Any, Callable, Dict, Iterable, List, NamedTuple, Optional, Sequence, Tuple, Type, Union

__all__ = [
    "__version__", "VERSION_NUMBER", "version", "Types", "Checked", "Canonical", "Json", "Part", "Place", "Reason", "TextReason", "ModulesReason",
    "JsonReason", "Error", "Rejected", "OctetsRejected", "DefinitionsRejected", "ModulesRejected", "JsonRejected", "NoTypes", "Unnamed",
    "OutOfMemory", "NoPath", "NoStep", "Absent", "NotJson", "Outside", "NotCanonical", "Follows",
]

__version__ = "0.1.0"
"""The version of this module: major, minor, patch."""

VERSION_NUMBER = 100
"""The version of the header that this module was written for: 10,000 times the major number, 100 times the
minor number, and the patch. A library with the same major and minor number is taken."""

Octets = Union[bytes, bytearray, memoryview]
Text = Union[str, bytes]


class Reason(enum.IntEnum):
    """Why octets are rejected. ENCODING.md says in which order the reasons are looked for."""

    END = 3  # they end within the value
    LIMIT = 4  # they would pass the limit
    WINDOW = 5  # they would pass the end of the addition or alternative that they are in, or end before it
    LENGTH_FORM = 6  # a length begins with 80
    EMPTY_NUMBER = 7  # a number of no octets
    INTEGER_RANGE = 8  # a number outside its range or bounds
    ENUM_FORM = 9  # an enumeration with count 0, or outside 64 bits
    UNKNOWN_ENUM = 10  # a number that isn't listed, in an enumeration without a marker
    SIZE = 11  # a size outside its constraint, or above 2^64 - 1
    CHARACTER = 12  # a character outside the type, or not UTF-8
    BIT_UNUSED = 13  # a BIT STRING without an initial octet, or with a wrong one
    OBJECT_ID = 14  # contents that are no object identifier
    PREAMBLE_PADDING = 15  # a preamble with a bit set after its last one
    TAG_FORM = 16  # no tag, or one with a number above 2^32 - 1
    UNKNOWN_ALTERNATIVE = 17  # a tag that no alternative has, in a CHOICE without a marker
    UNKNOWN_ADDITION = 18  # a bit set for an addition past place 65,535
    NESTING = 19  # they nest deeper than the type, one of modules, is written out: only check_nesting() says so


class TextReason(enum.IntEnum):
    """Why definitions are rejected (NOTATION.md)."""

    NOT_UTF8 = 0  # the text is not UTF-8 from the place on
    TOKEN = 2  # no token begins here, or it has no end
    SYNTAX = 3  # a token that the grammar doesn't have here
    NUMBER = 4  # a number out of range for its place
    NAME = 5  # a name that no earlier definition has
    REPEATED = 6  # a name that is defined twice
    MIXED = 7  # tags on some alternatives only, or numbers on some items only
    DEFAULT = 8  # a value that isn't in the notation of the component's type
    TOO_DEEP = 9  # a type of more than 32 levels
    TOO_MANY_PARTS = 10  # a type of more than 4,096 parts
    BOUND_ORDER = 11  # a lower bound above the upper bound
    SIZE_ORDER = 12  # a least size above the greatest
    BAD_NAME = 13  # a name that is no identifier; no text has this fault
    REPEATED_NAME = 14  # the same name twice in a SEQUENCE, CHOICE or ENUMERATED
    NO_ITEMS = 15  # no items or alternatives; no text has this fault
    REPEATED_NUMBER = 16  # the same number twice in an ENUMERATED
    REPEATED_TAG = 17  # the same tag twice in a CHOICE
    DEFAULT_MISFIT = 18  # a default that doesn't fit its type
    EMPTY_ELEMENT = 19  # a SEQUENCE OF whose elements may take no octets
    PARTS = 20  # all types together have more parts than they may have, or hold more octets


class ModulesReason(enum.IntEnum):
    """Why modules are rejected (MODULES.md)."""

    NOT_UTF8 = 0  # a text is not UTF-8 from the place on
    TOKEN = 1  # no token begins at the place, or it has no end
    SYNTAX = 2  # a token that the grammar doesn't have at the place, or the text ends there
    TOO_DEEP = 3  # types or values nest too deep at the place
    NO_TYPES = 4  # no definition is understood, and the words say why the first one is refused


class JsonReason(enum.IntEnum):
    """Why JSON is rejected (JSON.md)."""

    KIND = 2  # JSON of another kind than the type's values have, or of another form
    NAME = 3  # a key that the type doesn't have, or a text that is no item's name
    MISSING = 4  # a component that must be there has no key
    RANGE = 5  # a number out of range
    MISFIT = 6  # a value of the right form that doesn't fit the type


AnyReason = Union[Reason, TextReason, ModulesReason, JsonReason]


class Error(Exception):
    """A call has no answer. The types are as before."""


class Rejected(Error):
    """Octets, definitions, modules or JSON are rejected."""

    what = "input"

    def __init__(self, reason: AnyReason, place: Optional[int]) -> None:
        at = "" if place is None else f", place {place}"
        super().__init__(f"{self.what} rejected: {reason.name}{at}")
        self.reason = reason
        """What is wrong."""
        self.place = place
        """Where, in octets, or None where no place is known; the classes below say what is counted."""

    def __reduce__(self) -> Tuple[Any, ...]:
        return (type(self), (self.reason, self.place))


class OctetsRejected(Rejected):
    """The octets don't begin with an encoding of a value of the type. `reason` is a Reason, `place` how
    many octets had been looked at."""

    what = "octets"


class DefinitionsRejected(Rejected):
    """The text spells no types. `reason` is a TextReason, `place` the octet of the text, counted from 0, at
    which the token or type begins that shows the fault, or from which on it is not UTF-8."""

    what = "definitions"


class ModulesRejected(Rejected):
    """Texts of modules are rejected, or no definition of them is understood. `reason` is a ModulesReason, `place` the
    octet of the text, counted from 0, at which the fault shows, or from which on it is not UTF-8; None where it is in
    none of the texts. The message has the words."""

    what = "modules"

    def __init__(self, reason: ModulesReason, place: Optional[int], text: Optional[int], line: Optional[int],
                 column: Optional[int], words: str) -> None:
        super().__init__(reason, place)
        self.args = (f"{self.what} rejected: {words}",)
        self.text = text
        """Which of the texts it is, counted from 1."""
        self.line = line
        """The line of the place, counted from 1; None where the text is not UTF-8, or there is none."""
        self.column = column
        """Its column in characters, counted from 1; None where there is no line."""
        self.words = words
        """The fault in words, on one line."""

    def __reduce__(self) -> Tuple[Any, ...]:
        return (type(self), (self.reason, self.place, self.text, self.line, self.column, self.words))


class JsonRejected(Rejected):
    """The JSON is no value of the type. `reason` is a JsonReason. `place` is None, as the library says no place
    of it, and the message names none."""

    what = "JSON"


class NoTypes(Error):
    """There are no types: none were read, or they were freed."""


class Unnamed(Error):
    """No definition has the name."""

    def __init__(self, name: str) -> None:
        super().__init__(f"no definition has the name {_shown(name)}")
        self.name = name
        """The name. Octets of it that are not UTF-8 are escaped, here and in the classes below."""

    def __reduce__(self) -> Tuple[Any, ...]:
        return (type(self), (self.name,))


class OutOfMemory(Error, MemoryError):
    """An allocation failed in the library. One in Python is a MemoryError."""


class NoPath(Error):
    """The text is not a path, or not names."""

    def __init__(self, path: str, wanted: str = "a path") -> None:
        super().__init__(f"{_shown(path)} is not {wanted}")
        self.path = path
        """The text."""
        self.wanted = wanted
        """What it has to be, in words."""

    def __reduce__(self) -> Tuple[Any, ...]:
        return (type(self), (self.path, self.wanted))


class NoStep(Error):
    """The path has a step that the type doesn't have, one past the last element, or one to an addition that
    the type doesn't know and that isn't there; or it goes on from a part that the type doesn't know; or the same
    of names."""

    def __init__(self, step: str, path: str, read: int) -> None:
        super().__init__(f"there is no step {_shown(step)} (path {_shown(path)})")
        self.step = step
        """The first such step, or name."""
        self.path = path
        """The path, or the names, up to this step, with it."""
        self.read = read
        """How many octets the encoding has, here and in Absent and Follows."""

    def __reduce__(self) -> Tuple[Any, ...]:
        return (type(self), (self.step, self.path, self.read))


class Absent(Error):
    """The path leads to a component or a known addition that is absent; or names do, or to an alternative that
    isn't chosen."""

    def __init__(self, read: int) -> None:
        super().__init__("the part is absent")
        self.read = read

    def __reduce__(self) -> Tuple[Any, ...]:
        return (type(self), (self.read,))


class NotJson(Error):
    """The text is not JSON, or not UTF-8."""

    def __init__(self, place: int) -> None:
        super().__init__(f"the text is not JSON, place {place}")
        self.place = place
        """The octet of the text, counted from 0, at which reading stopped, at the fault or soon after it, or from
        which on it is not UTF-8; and its length where it ends too soon."""

    def __reduce__(self) -> Tuple[Any, ...]:
        return (type(self), (self.place,))


class Outside(Error):
    """The message is not all in the octets."""


class NotCanonical(Error):
    """The octets are an encoding, but not the canonical one."""


class Follows(Error):
    """An encoding is at the front of the octets, and others follow it."""

    def __init__(self, read: int) -> None:
        super().__init__(f"octets follow the encoding, which has {read}")
        self.read = read

    def __reduce__(self) -> Tuple[Any, ...]:
        return (type(self), (self.read,))


def _shown(text: str) -> str:
    """The text in quotes on one line, cut where it is long."""
    return repr(text if len(text) <= 60 else text[:60] + "..")


class Checked(NamedTuple):
    """What check() returns."""

    octets: int
    """How many octets the encoding has."""
    canonical: bool
    """Whether it is the canonical one."""


class Canonical(NamedTuple):
    """What canon() returns."""

    octets: bytes
    """The canonical octets of the value."""
    read: int
    """How many octets the encoding has that was read."""


class Json(NamedTuple):
    """What to_json() returns."""

    text: str
    """The JSON of the value."""
    read: int
    """How many octets the encoding has that was read."""


class Part(NamedTuple):
    """What part() and part_named() return."""

    octets: bytes
    """The octets of the part."""
    read: int
    """How many octets the encoding has that it is in."""


class Place(NamedTuple):
    """What part_at() and part_named_at() return. It may be given to check_many() as a message."""

    at: int
    """The place of the part's first octet."""
    length: int
    """How many octets it has."""
    read: int
    """How many octets the encoding has that it is in."""


# ---- the calls, as oer.h has them

(_OK, _REJECTED, _NO_TYPES, _UNNAMED, _MEMORY, _ROOM, _NO_PATH, _NO_STEP, _ABSENT, _NO_JSON, _OUTSIDE, _NOT_CANONICAL,
 _FOLLOWS) = range(13)
_NO_LIMIT = 2**64 - 1
_MOST = ctypes.c_size_t(-1).value  # the greatest place and length
_KEPT = 65536  # a buffer of more octets is not kept for the next call
_WORDS = 256  # how many octets of words there is room for


class _Types(ctypes.Structure):
    _fields_ = [("at_", ctypes.c_void_p), ("full_", ctypes.c_uint32)]


class _Parsed(ctypes.Structure):
    _fields_ = [("status", ctypes.c_uint32), ("why", ctypes.c_uint32), ("place", ctypes.c_uint64)]


class _Understood(ctypes.Structure):
    _fields_ = [("status", ctypes.c_uint32), ("why", ctypes.c_uint32), ("text", ctypes.c_uint64), ("place", ctypes.c_uint64),
                ("line", ctypes.c_uint64), ("column", ctypes.c_uint64), ("words", ctypes.c_uint64)]


class _Checked(ctypes.Structure):
    _fields_ = [("status", ctypes.c_uint32), ("why", ctypes.c_uint32), ("octets", ctypes.c_uint64),
                ("canonical", ctypes.c_uint32)]


class _Message(ctypes.Structure):
    _fields_ = [("at", ctypes.c_size_t), ("length", ctypes.c_size_t)]


class _Written(ctypes.Structure):
    _fields_ = [("status", ctypes.c_uint32), ("why", ctypes.c_uint32), ("octets", ctypes.c_uint64),
                ("written", ctypes.c_uint64)]


class _Located(ctypes.Structure):
    _fields_ = [("status", ctypes.c_uint32), ("why", ctypes.c_uint32), ("octets", ctypes.c_uint64),
                ("at", ctypes.c_size_t), ("length", ctypes.c_size_t)]


def _file() -> str:
    """The file of the library."""
    file = os.environ.get("OER_LIB")
    if file:
        return file
    folder = os.environ.get("OER_LIB_DIR")
    if folder:
        return os.path.join(folder, "liboer.so")
    beside = os.path.join(os.path.dirname(os.path.abspath(__file__)), "liboer.so")
    if os.path.exists(beside):
        return beside
    return ctypes.util.find_library("oer") or "liboer.so.0"


def _load() -> ctypes.CDLL:
    """The library, with the types of its calls. Raises ImportError."""
    file = _file()
    try:
        library = ctypes.CDLL(file)
        library.oer_version.argtypes, library.oer_version.restype = [], ctypes.c_uint32
        found = library.oer_version()
    except (OSError, AttributeError) as problem:
        raise ImportError(f"no liboer (OER_LIB and OER_LIB_DIR say where it is): {problem}") from problem
    if found // 100 != VERSION_NUMBER // 100:
        raise ImportError(f"{file} has version number {found}, and this module is for {VERSION_NUMBER}")
    handle, size, limit = ctypes.POINTER(_Types), ctypes.c_size_t, ctypes.c_uint64
    given, out = [ctypes.c_char_p, size], [ctypes.c_void_p, size]
    calls: Dict[str, Tuple[Any, Any]] = {
        "oer_types_read": ([handle] + given, _Parsed),
        "oer_types_read_within": ([handle] + given + [limit], _Parsed),
        "oer_types_read_modules": ([handle] + given + [ctypes.c_void_p, size, ctypes.c_uint8] + out, _Understood),
        "oer_explain_types": (given + out, _Written),
        "oer_types_free": ([handle], None),
        "oer_types_share": ([handle, handle], ctypes.c_uint32),
        "oer_check": ([handle] + given + given, _Checked),
        "oer_check_whole": ([handle] + given + given, _Checked),
        "oer_check_nesting": ([handle] + given + given, _Checked),
        "oer_check_many": ([handle] + given + given + [ctypes.c_void_p, size] + out, ctypes.c_uint32),
        "oer_canon": ([handle] + given + given + [limit] + out, _Written),
        "oer_part": ([handle] + given + given + given + out, _Written),
        "oer_part_at": ([handle] + given + given + given, _Located),
        "oer_part_named": ([handle] + given + given + given + out, _Written),
        "oer_part_named_at": ([handle] + given + given + given, _Located),
        "oer_to_json": ([handle] + given + given + [limit] + out, _Written),
        "oer_from_json": ([handle] + given + given + out, _Written),
        "oer_explain_json": ([handle] + given + given + out, _Written),
        "oer_explain_octets": ([handle] + given + given + out, _Written),
    }
    for name, (arguments, answer) in calls.items():
        call = getattr(library, name)
        call.argtypes, call.restype = arguments, answer
    return library


_library = _load()


class _Way(NamedTuple):
    """A way to a part: the call that takes it, the one that says where it lies, and what the text has to be."""

    take: str
    locate: str
    text: str


_PATH = _Way("oer_part", "oer_part_at", "a path")
_NAMES = _Way("oer_part_named", "oer_part_named_at", "names joined by dots")


def version() -> int:
    """The version of the library, as VERSION_NUMBER has that of the header."""
    return int(_library.oer_version())


_ERRORS: Dict[int, Tuple[Type[Error], str]] = {
    _NO_TYPES: (NoTypes, "there are no types"),
    _MEMORY: (OutOfMemory, "an allocation failed"),
    _OUTSIDE: (Outside, "the message is not all in the octets"),
    _NOT_CANONICAL: (NotCanonical, "the octets are not the canonical encoding"),
}


def _error(status: int, name: bytes = b"") -> Error:
    """The exception of a status other than OK, REJECTED, NO_PATH, NO_STEP, ABSENT, NO_JSON and FOLLOWS."""
    if status == _UNNAMED:
        return Unnamed(_readable(name))
    kind, message = _ERRORS.get(status, (Error, f"status {status}"))
    return kind(message)


def _readable(text: bytes) -> str:
    """A text that a call was given, as the caller may read it."""
    return text.decode("utf-8", "backslashreplace")


def _octets(octets: Octets) -> bytes:
    """Octets that nothing else changes during the call, as bytes and not as a subclass."""
    return octets if type(octets) is bytes else bytes(memoryview(octets))


def _text(text: Text) -> bytes:
    """A text as octets. Half of a surrogate pair is kept, as octets that are not UTF-8."""
    return str.encode(text, "utf-8", "surrogatepass") if isinstance(text, str) else _octets(text)


def _number(number: int) -> int:
    """A number as an int, and not as a subclass."""
    return int.__index__(operator.index(number))


def _limited(limit: Optional[int]) -> int:
    """A limit as the library takes it. None stands for the greatest, as a greater number does."""
    if limit is None:
        return _NO_LIMIT
    number = _number(limit)
    if number < 0:
        raise ValueError("a limit is not negative")
    return min(number, _NO_LIMIT)


def _nesting(nesting: int) -> int:
    """A nesting as the library takes it."""
    number = _number(nesting)
    if not 0 <= number <= 255:
        raise ValueError("a nesting is from 0 to 255")
    return number


def _contents(path: Any) -> bytes:
    """The octets of a file."""
    with open(path, "rb") as file:
        return file.read()


def _in_order(items: Any, what: str) -> Iterable[Any]:
    """Items that are in an order, and are not the keys of a mapping or octets, which would be taken for numbers."""
    if isinstance(items, (collections.abc.Mapping, set, frozenset, str, bytes, bytearray, memoryview)):
        raise TypeError(f"{what}, and not a {type(items).__name__}")
    return items  # type: ignore[no-any-return]


def _filled(call: Callable[..., Any], out: Any) -> Tuple[Any, Any]:
    """Calls with the buffer, and where that is too small once more with one of as many octets as are needed. Returns
    the answer, and the buffer."""
    answer = call(out, len(out))
    if answer.status == _ROOM:
        out = ctypes.create_string_buffer(answer.written)
        answer = call(out, len(out))
    return answer, out


def _written(answer: Any, out: Any) -> bytes:
    """What the call wrote into the buffer."""
    return bytes(memoryview(out)[:answer.written]) if answer.status == _OK else b""


def _message(message: Tuple[int, int]) -> Tuple[int, int]:
    """A message as the library takes it. One for whose numbers it has none is outside of all octets."""
    numbers = _in_order(message[:2] if isinstance(message, Place) else message, "a message is a place and a length")
    try:
        at, length = (_number(number) for number in numbers)
    except ValueError:
        raise TypeError("a message is a place and a length") from None
    if 0 <= at <= _MOST and 0 <= length <= _MOST:
        return at, length
    return _MOST, _MOST


class Types:
    """Definitions that were read, by their names; or none.

    It is freed by close(), by the end of a `with`, or when it is collected.

    The calls that take a name raise NoTypes if there are no types, and Unnamed
    if no definition has the name; all may raise OutOfMemory, except check() and close(). Their further
    exceptions stand with each. After an exception the types are those from before.
    """

    def __init__(self, definitions: Optional[Text] = None, parts: Optional[int] = None) -> None:
        """Reads the definitions, as read() does; without any there are no types. Called again, it does the same in
        place of the types that were there."""
        if not hasattr(self, "_one"):
            self._held = _Types()
            self._at = ctypes.byref(self._held)
            self._room: Optional[Any] = None
            self._one = threading.RLock()
        elif definitions is None:
            self.close()
        if definitions is not None:
            self.read(definitions, parts)

    def read(self, definitions: Text, parts: Optional[int] = None) -> None:
        """Reads definitions, each `Name ::= type`, in place of the types that were there.

        With `parts`, their types may have at most so many parts together, and hold no more octets than these
        have room for (NOTATION.md, Limits). Use it for definitions from someone else: a short text may spell
        many parts, and hold many octets, and they take memory.

        Raises DefinitionsRejected if the text spells no types, or if they have or hold more (PARTS).
        """
        text = _text(definitions)
        if parts is None:
            parsed = self._call(_library.oer_types_read, text, len(text))
        else:
            parsed = self._call(_library.oer_types_read_within, text, len(text), _limited(parts))
        if parsed.status == _REJECTED:
            raise DefinitionsRejected(TextReason(parsed.why), parsed.place)
        if parsed.status != _OK:
            raise _error(parsed.status)

    @classmethod
    def from_modules(cls, *paths: Any, nesting: int = 0) -> "Types":
        """The types of published ASN.1 modules (MODULES.md) in these files, in any order: those of all definitions that
        are understood, each by its name. A file has one module or more. A type that contains itself is written out so
        often as `nesting` says, from 1 to 255; 0 stands for the most that fits, up to 8.

        Raises ModulesRejected if a text is not UTF-8 or can't be read, or if no definition is understood; and what open()
        raises.
        """
        return cls.from_module_texts(*(_contents(path) for path in paths), nesting=nesting)

    @classmethod
    def from_module_texts(cls, *texts: Text, nesting: int = 0) -> "Types":
        """The same of these texts.

        Raises ModulesRejected.
        """
        given = [_text(text) for text in texts]
        places, at = (_Message * len(given))(), 0
        for place, text in zip(places, given):
            place.at, place.length = at, len(text)
            at += len(text)
        types, words = cls(), ctypes.create_string_buffer(_WORDS)
        answer = types._call(_library.oer_types_read_modules, b"".join(given), at, places, len(places), _nesting(nesting),
                             words, _WORDS)
        if answer.status == _REJECTED:
            raise ModulesRejected(ModulesReason(answer.why), answer.place if answer.text else None, answer.text or None,
                                  answer.line or None, answer.column or None, _readable(words.raw[:answer.words]))
        if answer.status != _OK:
            raise _error(answer.status)
        return types

    @staticmethod
    def explain_types(definitions: Text) -> str:
        """Why definitions are rejected, in lines, each with its line feed, or nothing where they are accepted: the line
        and the column of the place that DefinitionsRejected names, that line of the text with a mark under the place,
        what is wrong there, and perhaps what may help.

        The text is read again, by as much memory as read() takes without `parts`: of one from someone else ask only
        where read() with `parts` rejects it, and not with PARTS.
        """
        text = _text(definitions)
        answer, out = _filled(lambda *buffer: _library.oer_explain_types(text, len(text), *buffer),
                              ctypes.create_string_buffer(1024))
        if answer.status != _OK:
            raise _error(answer.status)
        return _written(answer, out).decode("utf-8")

    def close(self) -> None:
        """Frees the types. After it there are none, and types may be read again. It may be called twice."""
        self._call(_library.oer_types_free)

    def share(self) -> "Types":
        """The same types once more. Each of the two is used by itself, so that calls on them run at the same
        time. They are in memory once, and are freed when nothing has them.

        Raises NoTypes if there are none.
        """
        other = Types()
        status = self._call(_library.oer_types_share, other._at)
        if status != _OK:
            raise _error(status)
        return other

    def check(self, name: Text, octets: Octets) -> Checked:
        """Whether the octets begin with an encoding of a value of the type with the name, in any spelling
        that the rules allow (Basic-OER): how long it is, and whether it is the canonical one. What follows
        it is not looked at.

        Raises OctetsRejected if they don't.
        """
        named, given = _text(name), _octets(octets)
        answer = self._call(_library.oer_check, named, len(named), given, len(given))
        found = self._checked(answer, named)
        if isinstance(found, Error):
            raise found
        return found

    def check_whole(self, name: Text, octets: Octets) -> None:
        """That the octets are the canonical encoding (Canonical-OER) of a value of the type with the name,
        and nothing else: what has to be asked before a signature over them counts. They are canonical by these
        types: the content of an addition that the types don't know is taken as it stands (LIBRARY.md).

        Raises Follows if an encoding is at the front and others follow it, NotCanonical if they are an
        encoding and not the canonical one, and OctetsRejected if no encoding is at the front.
        """
        named, given = _text(name), _octets(octets)
        answer = self._call(_library.oer_check_whole, named, len(named), given, len(given))
        if answer.status == _FOLLOWS:
            raise Follows(answer.octets)
        if answer.status != _OK:
            raise self._rejection(answer, named)

    def check_nesting(self, name: Text, octets: Octets) -> None:
        """That the octets don't nest deeper than the type with the name is written out by from_modules(). The other
        calls reject those that do as UNKNOWN_ALTERNATIVE, at the same place: ask then, and by types that are read
        with a greater nesting they may be an encoding.

        Raises OctetsRejected, with the reason NESTING, if they do.
        """
        named, given = _text(name), _octets(octets)
        answer = self._call(_library.oer_check_nesting, named, len(named), given, len(given))
        if answer.status != _OK:
            raise self._rejection(answer, named)

    def check_many(self, name: Text, octets: Octets,
                   messages: Sequence[Tuple[int, int]]) -> List[Union[Checked, Error]]:
        """Checks each message as check() does, in one call. A message is the place of its first octet and
        its length; messages may overlap. Returns their answers in their order: what check() returns, or the
        exception that it raises, or Outside where the message is not all in the octets, as with a number
        below 0. Neither a message nor the messages are a mapping, a set, a text or octets: TypeError.
        """
        named, given = _text(name), _octets(octets)
        wanted = [_Message(*_message(message)) for message in _in_order(messages, "messages are a sequence")]
        places = (_Message * len(wanted))(*wanted)
        answers = (_Checked * len(wanted))()
        status = self._call(
            _library.oer_check_many, named, len(named), given, len(given), places, len(places), answers, len(answers))
        if status != _OK:
            raise _error(status, named)
        return [self._checked(answer, named) for answer in answers]

    def canon(self, name: Text, octets: Octets, limit: Optional[int] = None) -> Canonical:
        """The canonical octets (Canonical-OER) of the value whose encoding, of at most `limit` octets, is at
        the front of the octets. What follows it is not looked at.

        Raises OctetsRejected if there is no such encoding.
        """
        named, given = _text(name), _octets(octets)
        answer, made = self._gather(
            _library.oer_canon, (named, len(named), given, len(given), _limited(limit)), len(given))
        if answer.status != _OK:
            raise self._rejection(answer, named)
        return Canonical(made, answer.octets)

    def part(self, name: Text, octets: Octets, path: Text) -> Part:
        """The part of the encoding at the front of the octets to which the path leads, as it stands in them.
        A path is steps joined by dots: c0 a component, a0 an addition, i0 an element, v the alternative
        chosen. What follows the encoding is not looked at.

        Raises OctetsRejected if the octets don't begin with an encoding; NoPath, NoStep, Absent.
        """
        return self._part(_PATH, name, octets, path)

    def part_at(self, name: Text, octets: Octets, path: Text) -> Place:
        """Where that part lies in the octets: it is octets[at:at + length].

        Raises what part() raises.
        """
        return self._part_at(_PATH, name, octets, path)

    def part_named(self, name: Text, octets: Octets, names: Text) -> Part:
        """The part to which names lead, in place of a path: those of the parts on the way, joined by dots. A name
        is the identifier of a component, an addition or an alternative, or the number of an element, counted
        from 0. What the type doesn't know has no name. All else is as in part().

        Raises OctetsRejected if the octets don't begin with an encoding; NoPath if a name is empty, as the whole
        text may be, or has another character than letters, digits and hyphens; NoStep if the type has no such
        name, or there is no such element; Absent if a component or a known addition is absent, or another
        alternative is chosen.
        """
        return self._part(_NAMES, name, octets, names)

    def part_named_at(self, name: Text, octets: Octets, names: Text) -> Place:
        """Where that part lies in the octets: it is octets[at:at + length].

        Raises what part_named() raises.
        """
        return self._part_at(_NAMES, name, octets, names)

    def to_json(self, name: Text, octets: Octets, limit: Optional[int] = None) -> Json:
        """The JSON of the value whose encoding, of at most `limit` octets, is at the front of the octets.
        What follows it is not looked at.

        Raises OctetsRejected if there is no such encoding.
        """
        named, given = _text(name), _octets(octets)
        answer, made = self._gather(
            _library.oer_to_json, (named, len(named), given, len(given), _limited(limit)), 4 * len(given) + 64)
        if answer.status != _OK:
            raise self._rejection(answer, named)
        return Json(made.decode("utf-8"), answer.octets)

    def from_json(self, name: Text, json: Text) -> bytes:
        """The canonical octets of the value that the JSON stands for.

        Raises NotJson if the text is not JSON, and JsonRejected if the JSON is no value of the type.
        """
        named, given = _text(name), _text(json)
        answer, made = self._gather(_library.oer_from_json, (named, len(named), given, len(given)), len(given))
        if answer.status == _REJECTED:
            raise JsonRejected(JsonReason(answer.why), None)
        if answer.status == _NO_JSON:
            raise NotJson(answer.octets)
        if answer.status != _OK:
            raise _error(answer.status, named)
        return made

    def explain_json(self, name: Text, json: Text) -> str:
        """Why from_json() rejects the JSON, in lines, each with its line feed, or nothing where it is accepted: the way to
        the innermost part that the type rejects, what is wrong with it, and what is wanted there; of a text that is not
        JSON the line and the column of the place, and that line with a mark under it.
        """
        named, given = _text(name), _text(json)
        answer, made = self._gather(_library.oer_explain_json, (named, len(named), given, len(given)), 1024)
        if answer.status != _OK:
            raise _error(answer.status, named)
        return made.decode("utf-8")

    def explain_octets(self, name: Text, octets: Octets) -> str:
        """Why check() rejects the octets, in lines, each with its line feed, or nothing where they are accepted: what each
        octet is, up to the part that was being read, the names on the way to it, what is wrong with it, and what is wanted
        there. Each part that was read has a line, so they are much longer than the octets.
        """
        named, given = _text(name), _octets(octets)
        answer, made = self._gather(_library.oer_explain_octets, (named, len(named), given, len(given)), 1024)
        if answer.status != _OK:
            raise _error(answer.status, named)
        return made.decode("utf-8")

    def __enter__(self) -> "Types":
        return self

    def __exit__(self, kind: Optional[Type[BaseException]], problem: Optional[BaseException],
                 trace: Optional[TracebackType]) -> None:
        self.close()

    def __del__(self) -> None:
        if hasattr(self, "_one"):
            _library.oer_types_free(self._at)

    def __reduce__(self) -> Tuple[Any, ...]:
        raise TypeError("an oer.Types is neither copied nor pickled")

    def _call(self, call: Callable[..., Any], *given: Any) -> Any:
        """What the library answers. A call from another thread waits until this one has returned."""
        with self._one:
            return call(self._at, *given)

    def _part(self, way: _Way, name: Text, octets: Octets, text: Text) -> Part:
        """The part to which the steps of the text lead."""
        named, given, steps = _text(name), _octets(octets), _text(text)
        call = getattr(_library, way.take)
        answer, made = self._gather(call, (named, len(named), given, len(given), steps, len(steps)), len(given))
        if answer.status != _OK:
            raise self._no_part(way, answer, named, given, steps)
        return Part(made, answer.octets)

    def _part_at(self, way: _Way, name: Text, octets: Octets, text: Text) -> Place:
        """Where it lies."""
        named, given, steps = _text(name), _octets(octets), _text(text)
        answer = self._located(way, named, given, steps)
        if answer.status != _OK:
            raise self._no_part(way, answer, named, given, steps)
        return Place(answer.at, answer.length, answer.octets)

    def _located(self, way: _Way, named: bytes, given: bytes, steps: bytes) -> Any:
        """What the library answers on where a part lies."""
        return self._call(getattr(_library, way.locate), named, len(named), given, len(given), steps, len(steps))

    def _checked(self, answer: Any, named: bytes) -> Union[Checked, Error]:
        """What a check returns, or the exception that it raises."""
        if answer.status == _OK:
            return Checked(answer.octets, bool(answer.canonical))
        return self._rejection(answer, named)

    def _rejection(self, answer: Any, named: bytes) -> Error:
        """The exception of an answer about octets that is not OK."""
        if answer.status == _REJECTED:
            return OctetsRejected(Reason(answer.why), answer.octets)
        return _error(answer.status, named)

    def _no_part(self, way: _Way, answer: Any, named: bytes, given: bytes, steps: bytes) -> Error:
        """The same, of an answer about a part."""
        if answer.status == _NO_STEP:
            return self._no_step(way, named, given, steps.split(b"."), answer.octets)
        if answer.status == _ABSENT:
            return Absent(answer.octets)
        if answer.status == _NO_PATH:
            return NoPath(_readable(steps), way.text)
        return self._rejection(answer, named)

    def _no_step(self, way: _Way, named: bytes, given: bytes, steps: List[bytes], read: int) -> NoStep:
        """The exception of the first step that isn't there: the shorter paths tell which, by halves."""
        there, lacking = 0, len(steps)
        while lacking - there > 1:
            middle = (there + lacking) // 2
            if self._located(way, named, given, b".".join(steps[:middle])).status == _NO_STEP:
                lacking = middle
            else:
                there = middle
        return NoStep(_readable(steps[lacking - 1]), _readable(b".".join(steps[:lacking])), read)

    def _gather(self, call: Callable[..., Any], given: Tuple[Any, ...], room: int) -> Tuple[Any, bytes]:
        """Calls with a buffer of at least `room` octets, and where that is too small once more with as many
        as are needed. Returns the answer, and what was written. A small buffer is kept for the next call, but
        not during the call, so that one from within (by a finalizer) has its own."""
        with self._one:
            out, self._room = self._room, None
        if out is None or len(out) < room:
            out = ctypes.create_string_buffer(max(room, 1024))
        answer, out = _filled(lambda *buffer: self._call(call, *given, *buffer), out)
        made = _written(answer, out)
        if len(out) <= _KEPT:
            self._room = out
        return answer, made
