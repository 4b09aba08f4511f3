"""What lies behind a refusal of a formula, told by its text and by the problem, where that can be read again."""
import os
import re

from hint_call import Call, is_file_name, of_file_name
from hint_problem import Problem, forms_of
from hint_text import marked, plain

PROPERTIES = "CR WCR SCR WN UNR UNC NFP COM SN".split()
BINDERS = ("exists", "forall", "infinite")
RESERVED = {*PROPERTIES, *BINDERS, *"true false NF JOIN".split()}
CONNECTIVES = ("not", "and", "or", "implies", "iff")
HAVE_ARGUMENTS = ("NF", "JOIN", "SN")
# What is meant perhaps by a name, and by a byte with which no token begins.
INSTEAD = {
    "not": "~", "and": "&", "or": "|", "implies": "=>", "iff": "<=>", "all": "forall", "some": "exists", "ex": "exists",
    "T": "true", "F": "false", "top": "true", "bottom": "false", "nf": "NF", "join": "JOIN",
    "confluence": "CR", "confluent": "CR", "termination": "SN", "terminating": "SN", "commutation": "COM",
}
NO_TOKEN = {
    "!": "not is `~`, and `x != y` is `~(x = y)`",
    "-": "not is `~`, a step is `->`",
    "{": "a `{` has its `}`, and holds no `;`",
    ".": "after a quantifier stands its formula in parentheses: `forall x (..)`",
    ":": "after a quantifier stands its formula in parentheses: `forall x (..)`",
    ";": "between two formulas stands `&`, `|`, `=>` or `<=>`",
    "<": "the tokens that begin with `<` are <=> <-> <->* <<, and `x <- y` is `y -> x`",
    ">": "a `>` stands in the tokens -> ->* ->+ ->= ->! ->^ ->_ -||-> <-> <->* => <=> >> alone",
    "*": "a `*` stands in the tokens ->* and <->* alone",
    "/": "and is `&`, or is `|`",
    "\\": "and is `&`, or is `|`",
    "_": "a name begins with a letter",
    "'": "no quotes stand in a formula",
    '"': "no quotes stand in a formula",
}

TOKEN = re.compile(rb"([A-Za-z][A-Za-z0-9_]*|\{[ \t\r\n!-:<-|~]*\}|\[[1-9]\]"
                   rb"|-\|\|->|<->\*?|<=>|->[*+=!^_]?|=>|<<|>>|[(),~&|=])|[ \t\r\n]+")
RELATION = re.compile(r"=|<?-.*|>>")
INDEX = re.compile(r"\[.\]")
BRACES = re.compile(r"[{]\s*([^\s(){}]+)\s*\(\s*(.*)")


# ---- tokens

def tokens_of(formula: bytes) -> list:
    return [found[1].decode("latin-1") for found in TOKEN.finditer(formula) if found[1]]


def is_variable(token: str) -> bool:
    return re.fullmatch("[A-Za-z][A-Za-z0-9_]*", token) is not None and token not in RESERVED


def is_relation(token: str) -> bool:
    return RELATION.fullmatch(token) is not None


def is_argument(token: str) -> bool:
    return is_variable(token) or token.startswith("{")


def ends_with_relation(tokens: list) -> bool:
    """Whether the last token is a relation, or an index after one."""
    rest = tokens[:-1] if tokens and INDEX.fullmatch(tokens[-1]) else tokens
    return bool(rest) and is_relation(rest[-1])


def names_of(formula: bytes) -> list:
    """The variables of a formula, each once."""
    return [it for it in dict.fromkeys(tokens_of(formula)) if is_variable(it)]


def ends_with_binder(tokens: list) -> bool:
    """Whether the last tokens are `exists`, `forall` or `infinite` and some variables, with `,` between them."""
    rest = list(tokens)
    while len(rest) > 1 and is_variable(rest[-1]) and rest[-2] == ",":
        rest = rest[:-2]
    return len(rest) > 1 and is_variable(rest[-1]) and rest[-2] in BINDERS


# ---- syntax: the commonest cause of a token with which no formula goes on, by the tokens before it

def of_word(word: str) -> list:
    """What is said of a name that stands where a formula may."""
    instead = INSTEAD.get(word) or INSTEAD.get(word.lower()) or next((it for it in PROPERTIES if it == word.upper()), "")
    if instead:
        return [f"`{word}` is a variable, `{instead}` is meant perhaps"]
    if word[0] == "G" and word[1:] in PROPERTIES:
        return [f"`{word}` is an unknown word; all properties are of ground terms here: `{word[1:]}`"]
    said = [f"`{word}` is a variable, after which a relation wants to stand, as in `{word} -> y`"]
    if word.isupper():
        said = [f"`{word}` is an unknown word, read as a variable"]
    return [*said, f"the properties are {' '.join(PROPERTIES)}"] if len(word) > 1 else said


def of_expression(before: list, token: str) -> list:
    """The cause within `<<` and `>>`."""
    if before.count("<<") == before.count(">>"):
        return []
    return ["between `<<` and `>>` stand an expression and two words: `<<root, one, all>>`, with one, some or any and then"
            " root, below or all"]


def of_arguments(before: list, token: str) -> list:
    """The cause at the arguments of a word, or where it has none."""
    last, front = before[-1] if before else "", before[-3:]
    if last in ("NF", "JOIN") or last == "SN" and (is_variable(token) or token.startswith("{")):
        return ["arguments stand in parentheses: `NF(x)`, `JOIN(x, y)`, `SN(x)`"]
    if any(it in HAVE_ARGUMENTS for it in front) and "(" in front and ")" not in front and is_argument(last or "("):
        return ["arguments stand in parentheses, with `,` between, each a variable or a term in braces: `JOIN(x, {a})`"]
    word = last if last in PROPERTIES else before[-2] if INDEX.fullmatch(last) and len(before) > 1 else ""
    if word in PROPERTIES and (token == "(" or is_variable(token) and word != "SN" and token not in CONNECTIVES):
        return [f"`{word}` has no arguments: it is about all terms"]
    return []


def of_terms(before: list, token: str) -> list:
    """The cause where a term stands without braces."""
    last = before[-1] if before else ""
    if token == "(" and ends_with_relation(before):
        return ["a term in a formula stands in braces: `{(f a)}`"]
    if token == "(" and is_variable(last) and not ends_with_binder(before):
        said = [f"`{last}` is a variable; a term of the problem stands in braces: `{{({last} ..)}}`"]
        return [*said, *of_word(last)[1:]] if last.isupper() else said
    return []


def of_binders(before: list, token: str) -> list:
    """The cause at a quantifier."""
    last = before[-1] if before else ""
    if last in BINDERS or last == "," and ends_with_binder(before[:-1]):
        return [f"after `{last}` stands a variable" + (f"; `{token}` is a reserved word" if token in RESERVED else "")]
    if token == "," and before[-2:-1] == ["infinite"]:
        return ["`infinite` has one variable"]
    if ends_with_binder(before):
        return ["after a quantifier's variables, with `,` between, stands its formula in parentheses: `forall x, y (..)`"]
    return []


def of_names(before: list, token: str) -> list:
    """The cause where a name is none that is known."""
    last = before[-1] if before else ""
    if token.lower() in CONNECTIVES:
        return of_word(token)
    return of_word(last) if is_variable(last) and not ends_with_relation(before[:-1]) else []


def of_relations(before: list, token: str) -> list:
    """The cause where a relation or a connective doesn't go on."""
    last = before[-1] if before else ""
    if token == "<=>" and "<=>" in before:
        return ["`<=>` stands once, other ones in parentheses: `(F <=> G) <=> H`"]
    if is_relation(token) and ends_with_relation(before[:-1]):
        return ["a relation has two arguments; a chain is written with `&`: `x -> y & y -> z`"]
    if is_relation(token) and last == "=":
        return ["equality is `=`"]
    if token == last and token in ("&", "|"):
        return [f"`{token}` stands once between two formulas"]
    return []


def of_end(before: list, token: str) -> list:
    """The cause where the formula ends too early or too late, or where none of the others is seen."""
    is_open, last = before.count("(") > before.count(")"), before[-1] if before else ""
    if not token:
        said = "the formula breaks off here" if before else "the formula is empty"
        return [said + (": a `(` lacks its `)`" if is_open else "")]
    if token == ")" and not is_open:
        return ["this `)` has no `(`"]
    if last == ")" or last in ("true", "false", *PROPERTIES) or INDEX.fullmatch(last) or is_argument(last):
        return ["between two formulas stands `&`, `|`, `=>` or `<=>`"]
    return ["with this token no formula goes on (docs/FORMULAS.md has the grammar)"]


def of_syntax(before: list, token: str) -> list:
    causes = (of_expression, of_arguments, of_terms, of_binders, of_names, of_relations, of_end)
    return next(said for said in (cause(before, token) for cause in causes) if said)


# ---- bytes and braces

def of_bad_byte(formula: bytes, at: int) -> list:
    byte, name = formula[at:at + 1].decode("latin-1"), os.fsdecode(formula)
    if is_file_name(name):
        return [of_file_name(plain(formula))]
    if byte == "[":
        return ["indices are [1] to [9], without blanks"]
    if byte > "~":
        return ["formulas are written in ASCII: ~ & | => <=> exists forall"]
    return [NO_TOKEN.get(byte, "no token begins so; constants and terms of the problem stand in braces: `{0}`")]


def of_braces(text: bytes, problem: Problem) -> list:
    """The cause by which what stands in braces is no ground term of the problem."""
    inside = text.partition(b"}")[0] + b"}"
    shape = BRACES.match(inside.decode("latin-1"))
    if shape:
        arguments = shape[2].partition(")")[0].replace(",", " ")
        return [f"a term is written `{{({shape[1]} {arguments})}}`, with its symbol in the parentheses"]
    forms = forms_of(inside[1:-1])
    if len(forms) != 1:
        return ["in braces stands one term: `{a}`, `{(f a)}`"]
    if not problem.forms:
        return ["a symbol isn't declared, has another number of arguments, or a constant in parentheses: `{a}`, `{(f a)}`"]
    return problem.term_faults(forms[0], True) or ["in braces stands a constant or `(f t1 .. tn)`, of declared symbols"]


# ---- refusals

def of_open(name: str, call: Call, problem: Problem) -> list:
    constants = [it for it in names_of(call.formula) if problem.arities.get(it) == 0]
    said = [f"`{name}` is a variable that no quantifier binds: `forall {name} (..)` or `exists {name} (..)`"]
    if call.command in ("decide", ""):
        said.append("`witness` prints the least terms for free variables")
    if constants:
        return [*said, *(f"`{it}` is a variable here; the problem's constant is written `{{{it}}}`" for it in constants)]
    return [*said, "a name is a variable; a constant of the problem wants braces: `{a}`"]


def of_place(kind: str, formula: bytes, at: int, problem: Problem) -> list:
    """What is said of a fault at an offset of the formula."""
    if kind == "bad byte at":
        return of_bad_byte(formula, at)
    if kind == "too deep at":
        return ["at most 200 parentheses are open at once"]
    if kind == "term at":
        return of_braces(formula[at:], problem)
    return of_syntax(tokens_of(formula[:at]), (tokens_of(formula[at:]) or [""])[0])


def of_formula(fault: str, call: Call, problem: Problem) -> list:
    """What is said of a line `REFUSED formula FAULT`."""
    kind, _, value = fault.rpartition(" ")
    if kind.endswith(" at"):
        mark = marked(call.formula.replace(b"\n", b" "), int(value))
        return ["the formula, with a mark at the fault:", *mark, *of_place(kind, call.formula, int(value), problem)]
    if kind == "open":
        return of_open(value, call, problem)
    if kind == "index":
        return [f"the formula speaks of the rules of index {value}, and the problem has {problem.systems_shown()}"]
    if kind == "sn":
        return problem.of_right_variable(int(value))
    return [{
        "closed": "`solutions`, `confirm` and `witness --certificate` want a free variable; without one ask `decide`",
        "too long": "a formula has at most 1,000 tokens",
        "too wide": "a part of the formula has more than 16 free variables, or an expression more than 32 words `root`",
    }[fault]]


def of_meant(formula: bytes, problem: Problem) -> list:
    """Variables of the formula that are named as constants of the problem."""
    meant = [it for it in names_of(formula) if problem.arities.get(it) == 0]
    return [f"`{it}` is a variable of the formula; the problem's constant is written `{{{it}}}`" for it in meant]
