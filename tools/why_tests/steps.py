#!/usr/bin/env python3
"""Checks the steps that an answer of tools/why shows, without fort and without the tool's code.

    tools/why_tests/steps.py PROBLEM ANSWER

Each step has to be made by its rule at its place; a sequence has to begin and end with the terms that its line names, and to
have as many steps as that line says. Where each term has finitely many successors, no sequence may be shorter. Prints how
many sequences and steps were checked; where one is wrong it says which, with status 1.
"""
import re
import sys

TITLE = re.compile(r"(.*), in (\d+) steps?(, perhaps not the fewest)?:$")
STEP = re.compile(r"  (->|<-) (.*?)    rule (\d+) at (the root|[\d.]+)$")
NAMED = re.compile(r"  (\w+) = (.*)$")
BETWEEN = re.compile(r"(\w+|\{.*?\}) (\S+?)(\[\d\])? (\w+|\{.*?\})$")
HAS = re.compile(r"(\(.*\)|\S+) has (\(.*\)|\S+) in it$")
ENDLESS = re.compile(r"so there is a reduction without end: (.*) comes back( in a larger term)?$")


def read(text: str) -> list:
    """The words and lists of a text, as Python's lists."""
    words = re.sub(r";.*", "", text).replace("(", " ( ").replace(")", " ) ").split()
    stack = [[]]
    for word in words:
        if word == "(":
            stack.append([])
        elif word == ")":
            last = stack.pop()
            stack[-1].append(last)
        else:
            stack[-1].append(word)
    return stack[0]


class System:
    def __init__(self, text: str):
        forms = read(text)
        self.names = {form[1] for form in forms if form[0] == "fun"}
        self.rules = [(form[1], form[2], int(form[4]) if len(form) > 3 else 1) for form in forms if form[0] == "rule"]

    def is_ground(self, side) -> bool:
        return all(map(self.is_ground, side[1:])) if isinstance(side, list) else side in self.names

    def matches(self, side, term) -> bool:
        if isinstance(side, str):
            return side not in self.names or side == term
        is_alike = isinstance(term, list) and side[0] == term[0] and len(side) == len(term)
        return is_alike and all(map(self.matches, side[1:], term[1:]))

    def is_step(self, old, new, rule: int, path: list) -> bool:
        """Whether a rule makes new of old at a place."""
        if not path:
            left, right, _ = self.rules[rule - 1]
            return self.matches(left, old) and self.matches(right, new)
        i = path[0]
        if not isinstance(old, list) or not isinstance(new, list) or not 0 < i < len(old):
            return False
        return old[:i] == new[:i] and old[i + 1:] == new[i + 1:] and self.is_step(old[i], new[i], rule, path[1:])

    def successors(self, term, index: int, both: bool) -> list:
        """All of them, where the sides that are put in are ground."""
        found = []
        for left, right, its in self.rules:
            found += [right] if its == index and self.matches(left, term) else []
            found += [left] if both and its == index and self.matches(right, term) else []
        for i in range(1, len(term) if isinstance(term, list) else 0):
            found += [[*term[:i], new, *term[i + 1:]] for new in self.successors(term[i], index, both)]
        return found

    def is_shortest(self, start, goal, count: int, index: int, both: bool, least: int) -> bool:
        """Whether fewer steps don't lead to the goal; true as well where a term may have infinitely many successors."""
        for left, right, its in self.rules:
            if its == index and not (self.is_ground(right) and (not both or self.is_ground(left))):
                return True
        level, seen = [start], []
        for steps in range(count):
            if steps >= least and goal in level:
                return False
            level = [new for term in level for new in self.successors(term, index, both)]
            level = [new for i, new in enumerate(level) if new not in seen and new not in level[:i]]
            seen += level
        return goal in level


def ends_of(title: str, named: dict) -> tuple:
    """The first and the last term of a sequence, by its line; relation and index."""
    left, relation, index, right = BETWEEN.match(title).groups()
    start, goal = (it[1:-1] if it.startswith("{") else named[it] for it in (left, right))
    return start, goal, relation, int(index[1]) if index else 1


def has(term, part) -> bool:
    return term == part or isinstance(term, list) and any(has(it, part) for it in term[1:])


def faults(system: System, lines: list) -> tuple:
    """What is wrong, and how many sequences and steps there are."""
    wrong, sequences, steps, named = [], 0, 0, {}
    named.update(found.groups() for found in map(NAMED.match, lines) if found)
    for at, line in enumerate(lines):
        title, inside, endless = TITLE.match(line), HAS.match(line), ENDLESS.match(line)
        if inside and not has(read(inside[1])[0], read(inside[2])[0]):
            wrong.append(f"line {at + 1}: {inside[2]} isn't in that term")
        if endless and (read(endless[1])[0] != terms[0] or not has(terms[-1], terms[0]) or len(terms) < 2):
            wrong.append(f"line {at + 1}: the first term isn't in the last one")
        if not title:
            continue
        start, goal, relation, index = ends_of(title[1], named)
        terms = [read(lines[at + 1])[0]]
        for found in map(STEP.match, lines[at + 2:]):
            if not found:
                break
            new, rule = read(found[2])[0], int(found[3])
            path = [] if found[4] == "the root" else [int(it) for it in found[4].split(".")]
            pair = (terms[-1], new) if found[1] == "->" else (new, terms[-1])
            is_allowed = system.rules[rule - 1][2] == index and (found[1] == "->" or "<->" in relation)
            if not is_allowed or not system.is_step(*pair, rule, path):
                wrong.append(f"line {at + len(terms) + 2}: {found[0].strip()}")
            terms.append(new)
        count, both = len(terms) - 1, relation.startswith("<->")
        if terms[0] != read(start)[0] or terms[-1] != read(goal)[0] or count != int(title[2]):
            wrong.append(f"line {at + 1}: other terms, or another number of steps")
        least = 0 if relation in ("->*", "->!", "->=", "<->*") else 1
        if not title[3] and not system.is_shortest(terms[0], terms[-1], count, index, both, least):
            wrong.append(f"line {at + 1}: there are fewer steps")
        sequences, steps = sequences + 1, steps + count
    return wrong, sequences, steps


def main() -> int:
    with open(sys.argv[1], encoding="utf-8") as problem, open(sys.argv[2], encoding="utf-8") as answer:
        wrong, sequences, steps = faults(System(problem.read()), answer.read().splitlines())
    print(*wrong, f"{sequences} sequences, {steps} steps, {len(wrong)} wrong", sep="\n")
    return 1 if wrong else 0


if __name__ == "__main__":
    sys.exit(main())
