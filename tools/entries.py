"""Whether each crate lists in crates.txt what its files name, and nothing else."""
import os
import re

from repository import HERE, listed, text_of

ALWAYS = {"std"}  # never listed

COMMENT = {".rt": re.compile(r"//.*"), ".antt": re.compile(r"^\s*--.*", re.M)}
GHOST = re.compile(r"\bRattle\.(\w+)\.")
USE = re.compile(r"\buse (\w+)(?=::|;| as\b)")
PATH = re.compile(r"(?<![\w:])(\w+)::")


def files_of(crate: str) -> list:
    """The sources, definitions and proofs of a crate."""
    found = []
    for part in ("src", "specs", "proofs"):
        for folder, _, names in os.walk(os.path.join(HERE, "crates", crate, part)):
            found += [os.path.relpath(os.path.join(folder, name), HERE) for name in names if os.path.splitext(name)[1] in COMMENT]
    return sorted(found)


def names_in(path: str, libraries: set) -> set:
    """The crates that a file names, by `use X::` or `X::` in code, and by `Rattle.X.` in ghost code. In code a word before `::` may be
    a module or a type, so only those of libraries count."""
    kind = os.path.splitext(path)[1]
    text = COMMENT[kind].sub("", text_of(path))
    named = set(GHOST.findall(text))
    if kind == ".rt":
        named |= libraries.intersection(USE.findall(text) + PATH.findall(text))
    return named


def faults() -> list:
    """What is listed and never named, and what is named and not listed, a line for each crate."""
    entries, said = listed(), []
    libraries = {*entries, *(name for deps in entries.values() for name in deps)}
    for crate, deps in entries.items():
        named = set().union(*(names_in(path, libraries) for path in files_of(crate))) - ALWAYS - {crate}
        idle = [it for it in deps if it not in named]
        lacking = sorted(named.difference(deps))
        said += [f"crates.txt: no file of {crate} names {' '.join(idle)}"] * bool(idle)
        said += [f"crates.txt: {crate} names {' '.join(lacking)}, which it doesn't list"] * bool(lacking)
    return said
