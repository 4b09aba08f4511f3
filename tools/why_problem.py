"""Problems as tools/why shows them, and the rule and the place by which one term becomes another."""
import re
from dataclasses import dataclass

WORD = re.compile(r";[^\n]*|([()]|[^\s();]+)")


@dataclass(frozen=True)
class Rule:
    number: int
    left: object  # a name, or a tuple of a name and terms
    right: object
    index: int


@dataclass(frozen=True)
class Problem:
    text: str
    arities: dict
    rules: tuple
    systems: int

    def of(self, index: int) -> list:
        return [rule for rule in self.rules if rule.index == index]

    def variables(self, term) -> list:
        if isinstance(term, tuple):
            return [name for part in term[1:] for name in self.variables(part)]
        return [] if term in self.arities else [term]

    def variables_of(self, rule: Rule) -> list:
        return self.variables(rule.left) + self.variables(rule.right)


def forms_of(text: str) -> list:
    """The words and lists of a text, which fort has accepted."""
    stack = [[]]
    for found in WORD.finditer(text):
        word = found[1]
        if word == "(":
            stack.append([])
        elif word == ")":
            made = tuple(stack.pop())
            stack[-1].append(made)
        elif word:
            stack[-1].append(word)
    return stack[0]


def shown(term) -> str:
    return f"({' '.join(map(shown, term))})" if isinstance(term, tuple) else term


def read_problem(text: str) -> Problem:
    forms = forms_of(text)
    arities = {form[1]: int(form[2]) for form in forms if form[0] == "fun"}
    rules = [form for form in forms if form[0] == "rule"]
    made = [Rule(i, form[1], form[2], int(form[4]) if len(form) > 3 else 1) for i, form in enumerate(rules, 1)]
    return Problem(text, arities, tuple(made), int(forms[0][3]) if len(forms[0]) > 2 else 1)


def told_problem(problem: Problem) -> list:
    """What was read: symbols, rules, variables."""
    lines = ["symbols: " + ", ".join(f"{name} {arity}" for name, arity in problem.arities.items())]
    for index in range(1, problem.systems + 1):
        lines.append("rules:" if problem.systems == 1 else f"rules of index {index}:")
        lines += [f"  {rule.number}  {shown(rule.left)} -> {shown(rule.right)}" for rule in problem.of(index)] or ["  none"]
    places = [f"{name} in rule {rule.number}" for rule in problem.rules for name in problem.variables_of(rule)]
    return [*lines, f"variables, which no fun declares: {', '.join(places) or 'none'}"]


def fits(problem: Problem, pattern, term) -> bool:
    """Whether a ground term is an instance of a side; no variable stands twice."""
    if isinstance(pattern, tuple):
        return isinstance(term, tuple) and len(pattern) == len(term) and pattern[0] == term[0] and all(
            fits(problem, part, below) for part, below in zip(pattern[1:], term[1:]))
    return pattern not in problem.arities or pattern == term


def how(problem: Problem, index: int, old, new) -> str:
    """A rule and a place that make one ground term of another, if there are some."""
    for rule in problem.of(index):
        if fits(problem, rule.left, old) and fits(problem, rule.right, new):
            return f"rule {rule.number} at the root"
    if not (isinstance(old, tuple) and isinstance(new, tuple) and len(old) == len(new)):
        return ""
    differ = [i for i in range(len(old)) if old[i] != new[i]]
    for i in differ if differ else range(1, len(old)):
        below = how(problem, index, old[i], new[i]) if len(differ) < 2 and i else ""
        if below:
            rule, _, place = below.partition(" at ")
            return f"{rule} at {i}" + ("" if place == "the root" else f".{place}")
    return ""
