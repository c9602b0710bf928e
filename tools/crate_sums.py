"""The crates of crates.txt, and checksums of their files. tools/wrong and tools/passed use it."""

import hashlib
import os
import re
import subprocess
from dataclasses import dataclass
from functools import cache

TOP = os.path.dirname(os.path.dirname(os.path.realpath(__file__)))
# What a crate is made from.
PARTS = ("proofs", "specs", "src")


@dataclass(frozen=True)
class Crate:
    """A crate, and what it stands on."""

    name: str
    below: tuple

    @property
    def folder(self):
        return f"{TOP}/crates/{self.name}"


def crates():
    """The crates of crates.txt, by name."""
    found = {}
    with open(f"{TOP}/crates.txt", encoding="utf-8") as lines:
        for line in lines:
            head, _, below = line.partition("#")[0].partition(":")
            if head.strip():
                name = head.split()[0]
                found[name] = Crate(name, tuple(below.split()))
    return found


def all_below(crate, known):
    """The repository's crates that it stands on, and those that these stand on."""
    found = {}
    for name in crate.below:
        if name in known:
            found.update({name: known[name], **all_below(known[name], known)})
    return found


def files_of(crate, parts):
    """The files of these folders and of these names in a crate, in order."""
    for part in parts:
        if os.path.isfile(f"{crate.folder}/{part}"):
            yield f"{crate.folder}/{part}"
        for at, folders, names in os.walk(f"{crate.folder}/{part}"):
            folders.sort()
            yield from (f"{at}/{name}" for name in sorted(names))


@cache
def toolchain():
    """The line of the toolchain: its kit, and behind ` logic ` the name of its logic."""
    return subprocess.run(["rt", "version"], capture_output=True, text=True, check=True).stdout.strip()


@cache
def digests(crate, parts):
    """Its line of crates.txt, and the names and checksums of these files."""
    found = [f"{crate.name}: {' '.join(crate.below)}\n".encode()]
    for file in files_of(crate, parts):
        with open(file, "rb") as octets:
            found.append(file[len(TOP):].encode() + b"\0" + hashlib.sha256(octets.read()).digest())
    return b"".join(found)


# A function in the layout of rt fmt, from its first line to the brace that closes it.
FUNCTION = re.compile(r"^(?P<indent> *)(?P<open>pub )?(?:pub\([^)]*\) )?(?:(?:unsafe|extern \"C\") )*fn (?P<name>\w+)[^\n]*\n.*?^(?P=indent)}\n", re.M | re.S)
COMMENTS = {".rt": re.compile(r"^ *//.*\n", re.M), ".antt": re.compile(r"^ *--.*\n", re.M)}
# How functions are proved, and the names of private modules.
UNSEEN = re.compile(r"^ *#!?\[(?:tactic|cycle)\b[^\n]*\n|^mod \w+;\n", re.M)
# A file of definitions.
NAMED = re.compile(r"\bRattle\.(\w+\.specs\.(?:[a-z]\w*\.)*[A-Z]\w*)")
# Names of other modules. What `pub use` lists, others see.
IMPORT = re.compile(r"^((?:ghost )?use [^;{\n]*)(?:\{([^;{}]*)\})?;\n", re.M)
# A constant or a macro, which a blank line follows.
CONSTANT = re.compile(r"^(?:pub )?(?:const|macro_rules!) (\w+)\b.*?[;}]\n(?=\n|\Z)", re.M | re.S)


def without_body(function, is_hidden):
    """The text of a function as the crates above see it: one that promises something without its body, and a free one that is
    private, or stands in a module that hides it, not at all."""
    if not function["indent"] and (not function["open"] or is_hidden(function["name"])):
        return ""
    head, _, _ = function[0].partition(f"\n{function['indent']}{{\n")
    return f"{head}\n" if " ensures " in head else function[0]


def text_of(file):
    with open(file, encoding="utf-8") as it:
        return it.read()


@cache
def cited():
    """The modules whose constants some contract, definition or proof names, as CRATE.specs.declared.MODULE."""
    texts = (text_of(file) for crate in crates().values() for file in files_of(crate, PARTS))
    lines = (line for text in texts if ".TheConstants" in text for line in text.split("\n"))
    return {it for line in lines for it in re.findall(r"\b(\w+\.specs\.declared\.\w+)\.TheConstants", line)}


@cache
def root_of(crate):
    """The text of lib.rt, and what the other files of a crate pass on."""
    lib = f"{crate.folder}/src/lib.rt"
    passed_on = [line for file in files_of(crate, ("src",)) for line in re.findall(r"^ *pub use [^;]*;", text_of(file), re.M)]
    return "\n".join([text_of(lib) if os.path.exists(lib) else "", *passed_on])


def hides(crate, file):
    """Whether the module of a file is private, and neither lib.rt names what has this name, nor does another file pass it on."""
    root = root_of(crate)
    module = os.path.relpath(file, f"{crate.folder}/src").removesuffix(".rt").split("/")[0]
    is_private = re.search(rf"^mod {module};$", root, re.M) is not None
    return lambda name: is_private and not re.search(rf"\b{name}\b", root)


def shown_constants(crate, file, text):
    """The text of a file without the constants and macros that its module hides."""
    is_hidden = hides(crate, file)
    name = os.path.basename(file).removesuffix(".rt")
    if "macro_export" in text or f"{crate.name}.specs.declared.{name}" in cited():
        return text
    return CONSTANT.sub(lambda it: "" if is_hidden(it[1]) else it[0], text)


def with_needed_imports(text):
    """The text of a file in Rattle without imported names that nothing else in it says."""
    rest = IMPORT.sub("", text)
    words = set(re.findall(r"\w+", rest))

    def is_needed(name):
        if "◌" in name:
            return all(sign in rest for sign in name.split("◌"))
        return not re.fullmatch(r"[\w.: ]+", name) or re.findall(r"\w+", name)[-1] in words

    def without_others(line):
        if line[2] is None:
            return line[0] if is_needed(line[1]) else ""
        names = [name.strip() for name in line[2].split(",") if name.strip() and is_needed(name.strip())]
        if len(names) == 1 and line[1].endswith("::"):  # as rt fmt has it
            return f"{line[1]}{names[0]};\n"
        return f"{line[1]}{{{', '.join(names)}}};\n" if names else ""

    return IMPORT.sub(without_others, text)


def shown_of(crate, file, text):
    """What the crates above see of a file with this text."""
    if not file.endswith(".rt"):
        return text
    is_hidden = hides(crate, file)
    shown = UNSEEN.sub("", shown_constants(crate, file, text))
    return with_needed_imports(FUNCTION.sub(lambda it: without_body(it, is_hidden), shown))


@cache
def named_definitions():
    """The files of definitions that each crate names, of all crates, as CRATE.specs.FILE."""
    return {name: {it for file in files_of(crate, PARTS) for it in NAMED.findall(text_of(file))} for name, crate in crates().items()}


def seen_definitions(crate, shown):
    """The files of definitions of a crate that other crates name, or that these texts do, and those that such files name."""
    files = {}
    for file in files_of(crate, ("specs",)):
        at = os.path.relpath(file, f"{crate.folder}/specs").removesuffix(".antt").replace("/", ".")
        files[f"{crate.name}.specs.{at}"] = file
    others = set().union(*(found for name, found in named_definitions().items() if name != crate.name))
    found, more = set(), {*others, *(it for text in shown for it in NAMED.findall(text))} & files.keys()
    while more:
        found |= more
        more = {it for name in more for it in NAMED.findall(text_of(files[name]))} & files.keys() - found
    return {files[name] for name in found}


@cache
def seen_of(crate):
    """What the crates above see of a crate: its line of crates.txt, and its types and the contracts of its functions with the names
    that these import, and the definitions that these or other crates name, but no body under a contract, no function that a
    private module hides, no tactic, no constant that is private, no proof and no comment."""
    texts = {}
    for file in files_of(crate, ("specs", "src")):
        comments = COMMENTS.get(os.path.splitext(file)[1])
        text = comments.sub("", text_of(file)) if comments else text_of(file)
        texts[file] = re.sub(r"\n{2,}", "\n", shown_of(crate, file, text)).strip()
    definitions = seen_definitions(crate, [text for file, text in texts.items() if file.endswith(".rt")])
    found = [f"{crate.name}: {' '.join(crate.below)}\n"]
    for file, text in texts.items():
        if text and (file.endswith(".rt") or file in definitions):
            found.append(f"{file[len(TOP):]}\0{text}\0")
    return hashlib.sha256("".join(found).encode()).digest()


def checksum(head, crate, known, more, below=lambda it: digests(it, PARTS)):
    """A checksum of a line, of what the crate is made from and of more of its own files, and of each crate below: of what it is
    made from too, if nothing else is said."""
    others = (below(it) for _, it in sorted(all_below(crate, known).items()))
    return hashlib.sha256(b"".join((f"{head}\n".encode(), digests(crate, (*PARTS, *more)), *others))).hexdigest()
