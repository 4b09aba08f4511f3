"""Formulas as tools/why takes them apart: what has to hold where one is true, or where it is false."""
import re
from dataclasses import dataclass, field

from repository import Wrong

SIGNS = r"<->\*|<->|<=>|<<|>>|-\|\|->|->[*+=!^_]|->|=>|[(),~&|=]"
TOKEN = re.compile(rf"\s*(\{{[^}}]*\}}|{SIGNS}|\[[1-9]\]|[A-Za-z][A-Za-z0-9_]*)\s*")
PROPERTIES = ("CR", "WCR", "SCR", "WN", "UNR", "UNC", "NFP", "COM", "SN")
RELATION = re.compile(r"<->\*?|-\|\|->|->[*+=!^_]?|=$")

# What a property says, with @ for its index; SN isn't among them.
MEANINGS = {
    "CR": "forall x, y, z (x ->*@ y & x ->*@ z => exists u (y ->*@ u & z ->*@ u))",
    "WCR": "forall x, y, z (x ->@ y & x ->@ z => exists u (y ->*@ u & z ->*@ u))",
    "SCR": "forall x, y, z (x ->@ y & x ->@ z => exists u (y ->=@ u & z ->*@ u))",
    "WN": "forall x (exists y (x ->!@ y))",
    "UNR": "forall x, y, z (x ->!@ y & x ->!@ z => y = z)",
    "UNC": "forall x, y (x <->*@ y & NF@(x) & NF@(y) => x = y)",
    "NFP": "forall x, y (x <->*@ y & NF@(y) => x ->*@ y)",
    "COM": "forall x, y, z (x ->* y & x ->*[2] z => exists u (y ->*[2] u & z ->* u))",
    "SN": "forall x (SN@(x))",
}
JOINED = "exists u (LEFT ->*@ u & RIGHT ->*@ u)"


@dataclass(frozen=True)
class Node:
    """A formula. Its names are the variables of a quantifier, its arguments those of a relation or of a word."""
    kind: str
    text: str
    parts: tuple = ()
    names: tuple = ()
    arguments: tuple = ()
    relation: str = ""
    index: str = ""

    def free(self) -> set:
        inside = set().union(*(part.free() for part in self.parts))
        return (inside | {it for it in self.arguments if not it.startswith("{")}) - set(self.names)


@dataclass(frozen=True)
class Literal:
    """A formula that has to be true, or one that has to be false."""
    node: Node
    is_true: bool

    def text(self) -> str:
        text, kind = self.node.text, self.node.kind
        if self.is_true:
            return f"({text})" if kind in ("iff", "imp", "or") else text
        return f"~{text}" if kind in ("not", "word", "exists", "forall", "infinite") else f"~({text})"


class Parser:
    """Reads a formula that fort takes; of others it says that they can't be read."""

    def __init__(self, text: str):
        self.text, self.tokens, self.at = text, [], 0
        place = 0
        while place < len(text):
            found = TOKEN.match(text, place)
            if not found:
                raise Wrong(f"the formula can't be read at {text[place:place + 20]!r}")
            self.tokens.append((found[1], found.start(1), found.end(1)))
            place = found.end()

    def sees(self) -> str:
        return self.tokens[self.at][0] if self.at < len(self.tokens) else ""

    def take(self, wanted: str = "") -> str:
        token = self.sees()
        if not token or wanted and token != wanted:
            raise Wrong(f"the formula can't be read: {token!r} stands where {wanted or 'more'!r} is wanted")
        self.at += 1
        return token

    def since(self, start: int) -> str:
        return self.text[self.tokens[start][1]:self.tokens[self.at - 1][2]]

    def whole(self) -> Node:
        node = self.formula()
        if self.sees():
            raise Wrong(f"the formula can't be read: {self.sees()!r} stands after it")
        return node

    def formula(self) -> Node:
        start, left = self.at, self.implication()
        if self.sees() != "<=>":
            return left
        self.take()
        right = self.implication()
        return Node("iff", self.since(start), (left, right))

    def implication(self) -> Node:
        start, left = self.at, self.chain("or", "|")
        if self.sees() != "=>":
            return left
        self.take()
        right = self.implication()
        return Node("imp", self.since(start), (left, right))

    def chain(self, kind: str, sign: str) -> Node:
        start = self.at
        parts = [self.chain("and", "&") if kind == "or" else self.unary()]
        while self.sees() == sign:
            self.take()
            parts.append(self.chain("and", "&") if kind == "or" else self.unary())
        return parts[0] if len(parts) == 1 else Node(kind, self.since(start), tuple(parts))

    def inside(self) -> Node:
        self.take("(")
        node = self.formula()
        self.take(")")
        return node

    def unary(self) -> Node:
        start, word = self.at, self.sees()
        if word == "(":
            return self.inside()
        if word == "~":
            self.take()
            part = self.unary()
            return Node("not", self.since(start), (part,))
        if word in ("exists", "forall", "infinite"):
            self.take()
            names = [self.take()]
            while self.sees() == ",":
                self.take()
                names.append(self.take())
            part = self.inside()
            return Node(word, self.since(start), (part,), tuple(names))
        if word in (*PROPERTIES, "NF", "JOIN", "true", "false"):
            return self.word()
        return self.related()

    def index(self) -> str:
        return self.take() if self.sees().startswith("[") else ""

    def word(self) -> Node:
        start, word = self.at, self.take()
        index, arguments = self.index(), []
        if self.sees() == "(" and word in ("NF", "JOIN", "SN"):
            self.take()
            arguments.append(self.take())
            while self.sees() == ",":
                self.take()
                arguments.append(self.take())
            self.take(")")
        return Node("word", self.since(start), arguments=tuple(arguments), relation=word, index=index)

    def related(self) -> Node:
        start, left, relation = self.at, self.take(), self.take()
        if relation == "<<":
            while self.take() != ">>":
                pass
        elif not RELATION.match(relation):
            raise Wrong(f"the formula can't be read at {relation!r}")
        index = self.index()
        right = self.take()
        return Node("relation", self.since(start), arguments=(left, right), relation=relation, index=index)


def parsed(text: str) -> Node:
    return Parser(text).whole()


def renamed(text: str, taken: set) -> str:
    """The same with other names for its variables x, y, z and u, where these are taken."""
    for name in "xyzu":
        new, number = name, 0
        while new in taken:
            number += 1
            new = f"{name}{number}"
        text = re.sub(rf"\b{name}\b", new, text)
    return text


# ---- what has to hold

@dataclass
class Unravelled:
    """The literals that all have to hold, with the names that were taken out of quantifiers."""
    literals: list = field(default_factory=list)
    taken: set = field(default_factory=set)

    def add(self, node: Node, is_true: bool) -> None:
        kind = node.kind
        opens = kind == ("exists" if is_true else "forall")
        if kind == "not":
            self.add(node.parts[0], not is_true)
        elif opens and not self.taken.intersection(node.names):
            self.taken.update(node.names)
            self.add(node.parts[0], is_true)
        elif kind == ("and" if is_true else "or"):
            for part in node.parts:
                self.add(part, is_true)
        elif kind == "imp" and not is_true:
            self.add(node.parts[0], True)
            self.add(node.parts[1], False)
        elif kind == "word" and node.relation in PROPERTIES and not node.arguments and not is_true:
            self.add(parsed(renamed(MEANINGS[node.relation], self.taken).replace("@", node.index)), False)
        elif kind == "word" and node.relation == "JOIN":
            self.add_join(node, is_true)
        else:
            self.literals.append(Literal(node, is_true))

    def add_join(self, node: Node, is_true: bool) -> None:
        text = renamed(JOINED, self.taken.union(node.arguments)).replace("@", node.index)
        left, right = node.arguments
        made = parsed(re.sub("LEFT|RIGHT", lambda found: {"LEFT": left, "RIGHT": right}[found[0]], text))
        if is_true:
            self.add(made, True)
        else:
            self.literals.append(Literal(made, False))

    def text(self) -> str:
        return " & ".join(literal.text() for literal in self.literals)


def unravelled(text: str, is_true: bool) -> Unravelled:
    """What has to hold where a formula is true, or where it is false."""
    node = parsed(text)
    made = Unravelled(taken=node.free())
    made.add(node, is_true)
    return made
