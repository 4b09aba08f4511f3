"""What lies behind a refusal of an input, and what of an input may be meant otherwise than it was read."""
import re
from dataclasses import dataclass, field
from functools import cached_property

from hint_call import Call
from hint_text import counted, is_like, line_at

PIECE = re.compile(rb"[()]|[!-'*-:<-~]+|;[^\n]*")
ARITY = re.compile("[0-8]")

TEXT_FAULTS = {
    "bad byte": "outside of comments stand ASCII letters, digits and signs alone",
    "extra close": "this `)` closes no `(`",
    "too deep": "at most 200 parentheses are open at once",
    "unclosed": "this `(` is never closed",
}
FORM_FAULTS = {
    "wrong count": "a symbol has another number of arguments than its `fun` says",
    "variable applied": "a list begins with a name that no `fun` before the rules declares",
    "bad name": "a name is a word of at most 255 bytes that doesn't begin with `:`",
    "bad arity": "an arity is one of 0 to 8",
    "duplicate": "this name is declared already",
}


# ---- forms

@dataclass
class Form:
    """A word, or a list of forms, at an offset."""
    start: int
    word: str = ""
    items: list = field(default_factory=list)

    @property
    def head(self) -> str:
        return self.items[0].word if self.items else ""

    def shown(self) -> str:
        return self.word or f"({' '.join(it.shown() for it in self.items)})"


def forms_of(text: bytes) -> list:
    """The forms of a text as far as they go; faults of the text are passed over."""
    open_lists = [Form(0)]
    for piece in PIECE.finditer(text):
        if piece[0] == b"(":
            made = Form(piece.start())
            open_lists[-1].items.append(made)
            open_lists.append(made)
        elif piece[0] == b")":
            open_lists = open_lists[:-1] or open_lists
        elif not piece[0].startswith(b";"):
            open_lists[-1].items.append(Form(piece.start(), piece[0].decode("latin-1")))
        if len(open_lists) > 200:
            break
    return open_lists[0].items


def lists_of(form: Form) -> list:
    return [] if form.word else [form, *(found for it in form.items for found in lists_of(it))]


# ---- problems

@dataclass
class Problem:
    """What can be told of an input; nothing where it can't be read again."""
    text: bytes = b""

    @cached_property
    def forms(self) -> list:
        return forms_of(self.text)

    @cached_property
    def arities(self) -> dict:
        """The symbols that stand in declarations that are in order, with their numbers of arguments."""
        found = {}
        for form in self.forms:
            if form.head == "fun" and len(form.items) == 3 and ARITY.fullmatch(form.items[2].word):
                found.setdefault(form.items[1].word, int(form.items[2].word))
        return found

    @cached_property
    def systems(self) -> int:
        found = re.match(r"\(format TRS :number ([1-9])\)", self.forms[0].shown()) if self.forms else None
        return int(found[1]) if found else 1

    def systems_shown(self) -> str:
        if not self.forms:
            return "fewer; without `(format TRS :number 2)` it has one"
        return f"{self.systems} systems" if self.systems > 1 else "one; two begin with `(format TRS :number 2)`"

    def rules(self) -> list:
        return [it for it in self.forms if it.head == "rule" and len(it.items) >= 3]

    def variables(self, side: Form) -> list:
        """The words of a side that no declaration has, where arguments or a side may stand."""
        if side.word:
            return [side] if side.word not in self.arities else []
        return [found for it in side.items[1:] for found in self.variables(it)]

    def near(self, name: str) -> list:
        return [it for it in self.arities if is_like(name, it)]

    def line_of(self, number: int) -> list:
        """The line of a form; nothing where the input has no such form."""
        return line_at(self.text, self.forms[number].start) if number < len(self.forms) else []

    # of terms

    def of_strange(self, term: Form, is_ground: bool) -> list:
        """What is said of a term whose symbol no declaration has."""
        name = term.word or term.head
        near = "".join(f"; `{it}` is" for it in self.near(name)[:1])
        if term.items:
            declaration = f"(fun {name} {len(term.items) - 1})"
            return [f"`{name}` has arguments, and no `{declaration}` before the rules declares it{near}"]
        near = near or ", and no variable stands in braces"
        return [f"`{name}` isn't declared by a `fun`{near}"] if is_ground else []

    def term_faults(self, term: Form, is_ground: bool) -> list:
        """The first fault of a term, in words."""
        name = term.word or term.head
        if not name:
            return ["a list in a term begins with its symbol: `(f x)`"]
        if name not in self.arities:
            return self.of_strange(term, is_ground)
        if len(term.items) == 1:
            return [f"a constant stands without parentheses: `{name}`"]
        count, wanted = max(len(term.items) - 1, 0), self.arities[name]
        if count != wanted:
            return [f"`{name}` has {counted(count, 'argument')} here, and {wanted} by its `fun`"]
        return next((said for said in (self.term_faults(it, is_ground) for it in term.items[1:]) if said), [])

    def of_right_variable(self, index: int) -> list:
        said = [f"`SN` is decided where no rule of index {index} has a variable on its right side"]
        for rule in self.rules():
            of_index = rule.items[4].word if len(rule.items) == 5 else "1"
            found = self.variables(rule.items[2])
            if of_index == str(index) and found:
                near = [f"`{found[0].word}` is a variable, as no `fun` declares it"]
                return [*said, *line_at(self.text, rule.start), *near]
        return [*said, "one of these has one there: a name that no `fun` declares is a variable"]


# ---- refusals

def of_text(fault: str, problem: Problem) -> list:
    """What is said of a line `REFUSED text FAULT at O`."""
    kind, _, offset = fault.partition(" at ")
    at = int(offset)
    return [*(line_at(problem.text, at) if at < len(problem.text) else []), TEXT_FAULTS[kind]]


def of_problem(fault: str, call: Call, problem: Problem) -> list:
    """What is said of a line `REFUSED problem FAULT`."""
    if fault == "no format":
        return of_no_format(call, problem)
    if fault == "no constant":
        return of_no_constant(problem)
    if fault.startswith("form "):
        _, number, kind = fault.split(" ", 2)
        form = problem.forms[int(number)] if int(number) < len(problem.forms) else None
        return [*problem.line_of(int(number)), *of_form(form, kind, call, problem)]
    return {"too many functions": ["a problem has at most 255 forms `fun`"],
            "too many rules": ["a problem has at most 4,096 rules, of all systems together"]}.get(fault, [])


def of_no_format(call: Call, problem: Problem) -> list:
    begins = "a problem begins with `(format TRS)`"
    if call.command == "synth":
        begins = "for `synth` a problem is `(format TRS)` and its `fun` forms alone"
    if not problem.text:
        return [f"{begins}; where nothing comes on standard input, give a file: `< FILE`"]
    if not problem.forms:
        return [f"{begins}, and the input has no form at all", *of_line_ends(problem)]
    first, said = problem.forms[0], problem.line_of(0)
    if first.head in ("VAR", "RULES", "SIG", "THEORY", "STRATEGY", "COMMENT"):
        return [*said, "this is the older format; `(VAR x) (RULES f(x) -> a)` is written here as",
                "    (format TRS) (fun f 1) (fun a 0) (rule (f x) a)"]
    if first.head == "format" and call.command != "synth":
        return [*said, "the format is `(format TRS)` or, for 1 to 9 systems, `(format TRS :number W)`"]
    if re.match("[#%/]", first.word):
        return [*said, "a comment begins with `;`"]
    return [*said, begins + "; this form stands before it" * any(it.head == "format" for it in problem.forms[1:])]


def of_no_constant(problem: Problem) -> list:
    others = problem.forms[1:]
    stray = next((it for it in others if it.head != "fun"), None)
    if stray and stray.head in ("meta-info", "sort"):
        return [*line_at(problem.text, stray.start), f"`({stray.head} ..)` is no form of a problem: leave it out"]
    if stray and any(it.head == "fun" for it in others):
        said = "this form isn't a `fun`: declarations end here, and none of arity 0 stands before it"
        return [*line_at(problem.text, stray.start), said]
    if others and not stray:
        return ["each `fun` has arguments; a problem declares a constant, `(fun a 0)`"]
    return ["before the rules stands a declaration of a constant, `(fun a 0)`; forms `fun` after a rule don't count"]


def of_form(form, kind: str, call: Call, problem: Problem) -> list:
    """What is said of a form with a fault; without a form, of the fault."""
    if kind == "bad form":
        return of_bad_form(form, call, problem)
    if kind in ("wrong count", "variable applied") and form:
        sides = (problem.term_faults(it, False) for it in form.items[1:3])
        return next((said for said in sides if said), [])
    if kind in FORM_FAULTS:
        return [FORM_FAULTS[kind]]
    name = kind.split(" ")[-1]
    near = problem.near(name)
    return [f"`{name}` is a variable, as no `fun` declares it" + (f"; `{near[0]}` is declared" if near else ""),
            "no variable stands twice in a rule, in one side or in both (rules are linear and variable-separated)"]


def of_bad_form(form, call: Call, problem: Problem) -> list:
    if form is None:
        return ["a declaration is `(fun NAME ARITY)`; a rule `(rule LEFT RIGHT)`, where the format has `:number` also"
                " `(rule LEFT RIGHT :index I)`", "a term is `a` or `(f x)`, and nothing else stands after the rules"]
    if form.head == "rule" and call.command == "synth":
        return ["for `synth` a problem is its signature: no form stands after its declarations, no rule either"]
    if form.head == "rule":
        return of_bad_rule(form, problem)
    if form.head == "fun" and any(it.head == "rule" for it in problem.forms[:problem.forms.index(form)]):
        return ["this declaration stands after a rule: all `fun` forms stand before the first `rule`"]
    if form.head == "fun":
        return ["a declaration is `(fun NAME ARITY)`"]
    if form.head == "certificate":
        return [f"a certificate is read by `check` and `confirm`, not by `{call.command}`"]
    return [f"`{form.word or form.head}` is no form of a problem: after the format stand `fun` and then `rule` forms"]


def of_bad_rule(form: Form, problem: Problem) -> list:
    sides = form.items[1:]
    arrow = next((it.word for it in sides if it.word in ("->", "=>", "==", "=", "→")), "")
    applied = next((it.word for it, then in zip(sides, sides[1:]) if it.word and it.word[0] != ":" and then.items), "")
    single = next((it for side in sides for it in lists_of(side) if len(it.items) < 2), None)
    if arrow:
        return [f"a rule is two terms, without `{arrow}`: `(rule LEFT RIGHT)`"]
    if len(sides) != 2 and applied:
        return [f"a term is written `({applied} ..)`, with its symbol in the parentheses: `(f x)`, not `f(x)`"]
    if single:
        return [f"a constant stands without parentheses: `{single.head or 'a'}`, not `{single.shown()}`"]
    if any(it.word == ":index" for it in sides):
        return [f"a rule of another system is `(rule LEFT RIGHT :index I)`, I from 1 to {problem.systems}"
                if problem.systems > 1 else
                "`:index` wants a first line `(format TRS :number 2)`, with as many systems as there are"]
    if len(sides) == 2:
        return ["a list in a term is a symbol and its arguments: `(f x)`"]
    return [f"a rule is two terms, `(rule LEFT RIGHT)`; here stand{'s' if len(sides) == 1 else ''} {len(sides)}"]


def of_certificate(fault: str, call: Call, problem: Problem) -> list:
    """What is said of a line `REFUSED certificate form I FAULT`."""
    _, number, kind = fault.split(" ", 2)
    writer = "witness" if call.command == "confirm" else "decide"
    if problem.forms and int(number) >= len(problem.forms):
        return ["here the input ends, and the certificate after the problem is missing or breaks off:",
                f"    (cat FILE; ./fort {writer} --certificate FORMULA < FILE) | ./fort {call.command} FORMULA"]
    said = {
        "bad form": "this is no form of a certificate (docs/CERTIFICATES.md)",
        "bad number": "here a number is wanted",
        "version": f"`{call.command}` reads what `{writer} --certificate` writes of such a problem, and this is another version",
    }[kind]
    return [*problem.line_of(int(number)), said]


# ---- answers

def of_line_ends(problem: Problem) -> list:
    """Where lines end with CR alone, a comment ends with the text."""
    comment = problem.text.find(b";")
    if 0 <= comment and b"\r" in problem.text[comment:] and b"\n" not in problem.text[comment:].rstrip():
        return ["the lines end with CR alone: all that stands after the first `;` was a comment (lines end with LF)"]
    return []


def of_misspelt(problem: Problem) -> list:
    """Variables of rules that are like a symbol, the first of each name; without one, the first on a right side."""
    found = {}
    for rule in problem.rules():
        for variable in problem.variables(Form(0, items=rule.items[:3])):
            found.setdefault(variable.word, variable)
    said = []
    for name, variable in found.items():
        if problem.near(name):
            said += [f"`{name}` is a variable, as no `fun` declares it; `{problem.near(name)[0]}` is a symbol",
                     *line_at(problem.text, variable.start)]
    rights = [it for rule in problem.rules() for it in problem.variables(rule.items[2])]
    if rights and not said:
        said = [f"`{rights[0].word}` is a variable on a right side, so any term, as no `fun` declares it",
                *line_at(problem.text, rights[0].start)]
    return said
