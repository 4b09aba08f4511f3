"""Places in a text as tools/hint shows them, and names that are like others."""
import os

SHOWN = 60  # bytes of a line on each side of a mark


def plain(text: bytes) -> str:
    """The text with a `?` for what a terminal might take for more than a letter."""
    return "".join(it if it.isprintable() else "?" for it in text.replace(b"\t", b" ").decode("utf-8", "replace"))


def marked(line: bytes, at: int) -> list:
    """A line with a mark under the byte at an offset."""
    front, back = plain(line[:at]), plain(line[at:])
    front = front if len(front) <= SHOWN else f".. {front[-SHOWN:]}"
    back = back if len(back) <= SHOWN else f"{back[:SHOWN]} .."
    return [f"    {front}{back}", f"    {' ' * len(front)}^"]


def line_at(text: bytes, at: int) -> list:
    """The line in which an offset of the input is, with its number and a mark."""
    start = text.rfind(b"\n", 0, at) + 1
    line = text[start:].partition(b"\n")[0].removesuffix(b"\r")
    return [f"line {text.count(10, 0, at) + 1} of the input:", *marked(line, at - start)]


def is_like(name: str, other: str) -> bool:
    """Whether two names differ in capitals alone, or in one letter that is changed, left out or exchanged with the next."""
    if name.lower() == other.lower():
        return name != other
    if max(len(name), len(other)) < 3:
        return False
    front = len(os.path.commonprefix([name, other]))
    name, other = name[front:], other[front:]
    return name[1:] in (other, other[1:]) or name == other[1:] or (name[:2] == other[1::-1] and name[2:] == other[2:])


def counted(count: int, what: str) -> str:
    return f"{count} {what}{'' if count == 1 else 's'}"
