"""What the tools read of the repository, and how they write what they make, or say that it is stale."""
import argparse
import difflib
import os
import re
import sys
from functools import lru_cache

HERE = os.path.dirname(os.path.dirname(os.path.abspath(__file__)))

SHOWN = 40  # lines of what differs

ITEM = re.compile(r"^(pub|fn|mod|use|struct|enum|trait|impl|const)\b", re.M)


class Wrong(Exception):
    """Why something can't be made."""


@lru_cache(maxsize=None)
def text_of(path: str) -> str:
    """What stands in a file of the repository."""
    try:
        with open(os.path.join(HERE, path), encoding="utf-8") as file:
            return file.read()
    except OSError as error:
        raise Wrong(f"{path}: {error.strerror}") from error


def is_ours(crate: str) -> bool:
    return os.path.isdir(os.path.join(HERE, "crates", crate))


def listed() -> dict:
    """The crates of crates.txt, each with all on which it stands, those of the kit among them."""
    found = {}
    for line in text_of("crates.txt").splitlines():
        name, _, deps = line.partition("#")[0].partition(":")
        if name.strip():
            found[name.split()[0]] = deps.split()
    return found


def crates() -> dict:
    """The crates of crates.txt, each with those of the repository on which it stands."""
    return {crate: list(filter(is_ours, deps)) for crate, deps in listed().items()}


def has_code(crate: str) -> bool:
    """Whether a crate has items, and not definitions and laws alone."""
    folder = f"crates/{crate}/src"
    return any(ITEM.search(text_of(f"{folder}/{name}")) for name in os.listdir(os.path.join(HERE, folder)))


def in_order(items, below) -> list:
    """The items and all that is below them, each after what is below it, and else as they come."""
    order = {}

    def visit(item):
        if item not in order:
            for other in below(item):
                visit(other)
            order[item] = None

    for item in items:
        visit(item)
    return list(order)


# ---- what is made

def differences(path: str, old: str, new: str) -> list:
    """The first lines that differ."""
    lines = list(difflib.unified_diff(old.splitlines(), new.splitlines(), f"{path} as it stands", f"{path} as made", n=0, lineterm=""))
    more = [f".. and {len(lines) - SHOWN} lines more"] if len(lines) > SHOWN else []
    return [*lines[:SHOWN], *more, f"{path} is stale"]


def write(path: str, text: str) -> None:
    with open(os.path.join(HERE, path), "w", encoding="utf-8") as file:
        file.write(text)


def run(doc: str, make, faults=list) -> int:
    """Writes the files that `make` gives, or with --check says what differs from them, and the lines of `faults`, and returns the
    status."""
    parser = argparse.ArgumentParser(description=doc, formatter_class=argparse.RawDescriptionHelpFormatter)
    parser.add_argument("--check", action="store_true", help="write nothing; status 1 where something is stale or wrong")
    check = parser.parse_args().check
    try:
        made = make()
        exists = {path: os.path.exists(os.path.join(HERE, path)) for path in made}
        old = {path: text_of(path) if exists[path] else "" for path in made}
        wrong = faults() if check else []
    except Wrong as why:
        print(f"{parser.prog}: {why}", file=sys.stderr)
        return 2
    stale = [path for path in made if old[path] != made[path]]
    for path in stale:
        if check:
            print(*differences(path, old[path], made[path]), sep="\n")
        else:
            write(path, made[path])
    for line in wrong:
        print(line)
    return 1 if wrong or check and stale else 0
