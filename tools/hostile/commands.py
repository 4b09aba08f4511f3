"""The commands that are run in hostile surroundings: an answer of each kind, and each kind of refusal.

Each command has the status and the begin of its answer's first line beside it, so that a command which no longer reaches what it is
here for is found out.
"""
import shlex
from dataclasses import dataclass

LIMIT = 67_108_864  # the most bytes of an input

# ---- problems

ONE = "(format TRS) (fun a 0)\n"
UNARY = "(format TRS) (fun a 0) (fun f 1)\n"
GROWS = "(format TRS) (fun a 0) (fun f 1) (rule a (f a))\n"
FALLS = "(format TRS) (fun a 0) (fun f 1) (rule (f x) a)\n"
LOSES = "(format TRS) (fun a 0) (fun f 1) (rule a (f y))\n"
FORK = "(format TRS) (fun a 0) (fun b 0) (fun g 2) (rule a b)\n"
RING = "(format TRS) (fun a 0) (fun b 0) (fun c 0) (fun d 0) (rule b a) (rule b c) (rule c b) (rule c d)\n"
FIVE = ("(format TRS) (fun a 0) (fun b 0) (fun c 0) (fun f 2) (fun g 1) "
        "(rule (f a a) b) (rule a c) (rule (f c x) (g b)) (rule (g b) a) (rule b c)\n")
WIDE_FAMILY = "(format TRS) (fun a 0) (fun b 0) (fun f 3)\n"
TWO = "(format TRS :number 2) (fun a 0) (fun b 0) (fun f 1) (rule a b) (rule (f x) b :index 2)\n"

# ---- formulas

MANY = "forall x (infinite y (x ->* y))"
PEAK = "forall x, y (x <<comp(inv(root), root), one, root>> y => exists z (x -||-> z & y -||-> z))"
STABLE = "~NF(y) & ~exists z (y <<clos(root), one, root>> z)"
TWICE = "x ->! y & x ->! z & ~(y = z)"
WIDE = " & ".join(f"x{i} = x{i + 1}" for i in range(16))
EXPRESSION_WIDE = "union(root, " * 32 + "root" + ")" * 32

# ---- the most bytes that a short read or write moves

BY_BYTES = (1, 2, 7, 16)
BY_PIECES = (4_093, 65_535)  # for long inputs


@dataclass(frozen=True)
class Command:
    """Words and an input, and the answer to them where nothing is hostile, with the begin of its first line."""
    group: str
    words: tuple  # of str; bytes where a word is no text
    problem: str
    status: int
    first_line: str
    edit: tuple = ()  # `old, new`: the program's own certificate stands after the problem, with old replaced by new
    flags: tuple = ()  # with which that certificate is written
    length: int = 0  # blanks stand after all, up to so many bytes
    pieces: tuple = BY_BYTES

    def input(self, certificate: bytes) -> bytes:
        """What the command reads; the certificate is the one that the program writes, where the command has an edit."""
        if self.edit:
            old, new = (part.encode() for part in self.edit)
            certificate = certificate.replace(old, new, 1)
        return (self.problem.encode() + certificate).ljust(self.length)

    def writer(self) -> tuple:
        """The words with which the certificate is written that this command checks."""
        command = "witness" if self.words[0] == "confirm" else "decide"
        return (command, "--certificate", *self.flags, *self.words[1:])

    def shown(self) -> str:
        """The words as a shell takes them; one that is no text as Python writes it."""
        return " ".join(shlex.quote(word) if isinstance(word, str) else repr(word) for word in self.words)


def decided(status: int, first_line: str, problem: str, *words: str, **more) -> Command:
    return Command("decide", ("decide", *words), problem, status, first_line, **more)


def witnessed(status: int, first_line: str, problem: str, *words: str) -> Command:
    return Command("witness", ("witness", *words), problem, status, first_line)


def listed(status: int, first_line: str, problem: str, *words: str) -> Command:
    return Command("solutions", ("solutions", *words), problem, status, first_line)


def searched(status: int, first_line: str, problem: str, *words: str) -> Command:
    return Command("synth", ("synth", *words), problem, status, first_line)


def written(first_line: str, problem: str, *words: str) -> Command:
    return Command("decide --certificate", ("decide", "--certificate", *words), problem, 0, first_line)


def checked(status: int, first_line: str, problem: str, formula: str, old: str = "", new: str = "", flags: tuple = ()) -> Command:
    """The certificate is the one that the program writes for the formula, with `old` replaced by `new`."""
    return Command("check", ("check", formula), problem, status, first_line, edit=(old, new), flags=flags)


def checked_merges(status: int, first_line: str, problem: str, formula: str, old: str = "", new: str = "") -> Command:
    """The same of the certificate of reduced tables."""
    return checked(status, first_line, problem, formula, old, new, flags=("--reduce",))


def written_open(first_line: str, problem: str, *words: str) -> Command:
    return Command("witness --certificate", ("witness", "--certificate", *words), problem, 0, first_line)


def confirmed(status: int, first_line: str, problem: str, formula: str, old: str = "", new: str = "", flags: tuple = ()) -> Command:
    """The certificate is the one that the program writes for the open formula, with `old` replaced by `new`."""
    return Command("confirm", ("confirm", formula), problem, status, first_line, edit=(old, new), flags=flags)


def asks_nothing(*words: str | bytes) -> Command:
    return Command("no request", words, "", 2, "usage: fort ")


def formula_refused(fault: str, formula: str, problem: str = "", command: tuple = ("decide",)) -> Command:
    return Command("formula refused", (*command, formula), problem, 3, f"REFUSED formula {fault}")


def text_refused(fault: str, text: str, **more) -> Command:
    return Command("text refused", ("decide", "CR"), text, 3, f"REFUSED text {fault}", **more)


def problem_refused(fault: str, problem: str) -> Command:
    return Command("problem refused", ("decide", "CR"), problem, 3, f"REFUSED problem {fault}")


def certificate_refused(fault: str, forms: str, *words: str) -> Command:
    return Command("certificate refused", words or ("check", "CR"), ONE + forms, 3, f"REFUSED certificate {fault}")


def too_long(text: str, *words: str) -> Command:
    return Command("input too long", words, text, 3, "REFUSED input too long", length=LIMIT + 1, pieces=BY_PIECES)


ANSWERS = [
    decided(0, "YES", ONE, "forall x (NF(x))"),
    decided(0, "YES", ONE, "forall x (NF(x))", length=LIMIT, pieces=BY_PIECES),
    decided(0, "YES", GROWS, MANY),
    decided(0, "YES", FALLS, "CR & WN & ~exists x (x ->+ x)"),
    decided(0, "YES", FALLS, "{(f a)} <->* {a} & NFP"),
    decided(0, "YES", FALLS, "SN & infinite x (SN(x))"),
    decided(0, "YES", FALLS, PEAK),
    decided(0, "YES", RING, "WCR"),
    decided(1, "NO", RING, "CR"),
    decided(1, "NO", RING, "--reduce", "SN | SCR | UNR"),
    decided(1, "NO", RING, PEAK),
    decided(1, "NO", FIVE, "--reduce", "CR"),
    decided(0, "YES", TWO, "COM & CR[2]"),
    decided(0, "YES", TWO, "--reduce", "exists x, y (x <<clos(union(root, root[2])), some, all>> y)"),
    decided(4, "LIMIT 0 step 1", FALLS, "--states", "1", "exists x, y (x -> y)"),
    decided(4, "LIMIT 0 rex 2", RING, "--reduce", "--states", "2", "exists x, y (x <<root, one, all>> y)"),
    witnessed(0, "WITNESS", FALLS, "~NF(x)"),
    witnessed(0, "WITNESS", FORK, "x -||-> y & ~(x ->= y)"),
    witnessed(0, "WITNESS", FORK, STABLE),
    witnessed(0, "WITNESS", RING, "~SN(x)"),
    witnessed(0, "WITNESS", FIVE, "--reduce", TWICE),
    witnessed(1, "NONE", FALLS, "x -> y & y -> x"),
    witnessed(1, "NONE", ONE, "--reduce", "~NF(x)"),
    witnessed(4, "LIMIT 0 star 1", FALLS, "--states", "1", "x ->* y"),
    listed(0, "SOLUTIONS 2", FALLS, "2", "~NF(x)"),
    listed(0, "SOLUTIONS 3 AND MORE", FORK, "--most", "3", "4", "x ->* y & ~(x = y)"),
    listed(0, "SOLUTIONS 2", RING, "1", "~SN(x)"),
    listed(1, "SOLUTIONS 0", FALLS, "0", "~NF(x)"),
    listed(4, "LIMIT 0 step 1", FALLS, "--states", "1", "2", "x -> y"),
    searched(0, "SYSTEM", UNARY, "1", "1", "SN & exists x (~NF(x))"),
    searched(0, "SYSTEM", UNARY, "2", "1", "exists x (NF(x)) & exists x (x ->+ x)"),
    searched(1, "NO SYSTEM", UNARY, "1", "0", "SN"),
    searched(4, "LIMIT 0 nf 1", UNARY, "--states", "1", "1", "0", "exists x (NF(x))"),
    written("(certificate 1 yes)", ONE, "forall x (NF(x))"),
    written("(certificate 1 yes)", GROWS, MANY),
    written("(certificate 1 no)", RING, "CR"),
    written("(certificate 1 no)", RING, PEAK),
    written("(certificate 1 yes)", FALLS, "SN"),
    written("(certificate 2 yes)", TWO, "COM"),
    written("(certificate 3 yes)", GROWS, "--reduce", MANY),
    written("(certificate 3 yes)", TWO, "--reduce", "COM"),
    checked(0, "CERTIFIED YES", GROWS, MANY),
    checked(0, "CERTIFIED NO", RING, "CR"),
    checked(0, "CERTIFIED NO", RING, PEAK),
    checked(0, "CERTIFIED YES", FALLS, "SN"),
    checked(0, "CERTIFIED YES", TWO, "COM"),
    checked_merges(0, "CERTIFIED YES", GROWS, MANY),
    checked_merges(0, "CERTIFIED YES", TWO, "COM"),
    checked_merges(1, "REJECTED form 7 place 6 class", GROWS, MANY, "1 3 2 3)", "1 2 2 3)"),
    checked(1, "REJECTED form 4 place 0 verdict", GROWS, MANY, " yes", " no"),
    checked(1, "REJECTED form 5 place 0 due", GROWS, MANY, "closure star", "closure conv"),
    checked(1, "REJECTED form 6 place 15 short", GROWS, MANY, " 7 8)", " 7)"),
    checked(1, "REJECTED form 6 place 1 label", GROWS, MANY, "(part 0 0 1 ", "(part 0 0 0 "),
    written_open("(certificate 4 found)", FALLS, "~NF(x)"),
    written_open("(certificate 4 found)", FORK, "x -||-> y & ~(x ->= y)"),
    written_open("(certificate 4 found)", FORK, STABLE),
    written_open("(certificate 4 found)", RING, "~SN(x)"),
    written_open("(certificate 4 found)", FIVE, "--reduce", TWICE),
    written_open("(certificate 4 empty)", FALLS, "x -> y & y -> x"),
    written_open("(certificate 4 empty)", ONE, "--reduce", "~NF(x)"),
    confirmed(0, "CERTIFIED WITNESS", FALLS, "~NF(x)"),
    confirmed(0, "CERTIFIED WITNESS", FORK, "x -||-> y & ~(x ->= y)"),
    confirmed(0, "CERTIFIED WITNESS", FORK, STABLE),
    confirmed(0, "CERTIFIED WITNESS", RING, "~SN(x)"),
    confirmed(0, "CERTIFIED WITNESS", FIVE, TWICE, flags=("--reduce",)),
    confirmed(0, "CERTIFIED NONE", FALLS, "x -> y & y -> x"),
    confirmed(0, "CERTIFIED NONE", ONE, "~NF(x)", flags=("--reduce",)),
    confirmed(1, "REJECTED form 7 place 0 node", FALLS, "~NF(x)", "node (1) 0", "node (1) 1"),
    confirmed(1, "REJECTED form 6 place 0 due", FALLS, "~NF(x)", "found", "empty"),
    confirmed(1, "REJECTED form 5 place 2 label", FALLS, "~NF(x)", " 0 1 1)", " 0 1 0)"),
    Command("sample", ("sample", "3"), "", 0, "sample 3"),
]

REFUSALS = [
    asks_nothing(),
    asks_nothing("decide"),
    asks_nothing("decide", "--states", "0", "CR"),
    asks_nothing("check", "--reduce", "CR"),
    asks_nothing("check", "CR", "CR"),
    asks_nothing("sample", "65"),
    asks_nothing("solutions", "NF(x)"),
    asks_nothing("solutions", "--most", "1001", "2", "NF(x)"),
    asks_nothing("synth", "5", "0", "CR"),
    asks_nothing("decide", b"\xff"),
    formula_refused("bad byte at 2", "x #"),
    formula_refused("too long", "~" * 1_000 + "true"),
    formula_refused("too deep at 200", "(" * 201 + "true" + ")" * 201),
    formula_refused("syntax at 14", "true <=> true <=> true"),
    formula_refused("too wide", WIDE, command=("witness",)),
    formula_refused("too wide", f"x <<{EXPRESSION_WIDE}, any, all>> y", command=("witness",)),
    formula_refused("open x", "NF(x)"),
    formula_refused("open x", "NF(x)", command=("check",)),
    formula_refused("closed", "CR", command=("solutions", "2")),
    formula_refused("closed", "CR", command=("confirm",)),
    formula_refused("open x", "NF(x)", command=("synth", "1", "0")),
    formula_refused("index 2", "CR & WN[2]", ONE),
    formula_refused("term at 6", "{a} = {b}", ONE),
    formula_refused("sn 1", "SN", LOSES),
    text_refused("bad byte at 13", "(format TRS) \x01"),
    text_refused("bad byte at 0", "\x01", length=200_000, pieces=BY_PIECES),
    text_refused("extra close at 12", "(format TRS))"),
    text_refused("unclosed at 12", "(format TRS)(fun"),
    text_refused("too deep at 200", "(" * 201),
    problem_refused("no format", ""),
    problem_refused("too many functions", ONE + "".join(f"(fun f{i} 1)" for i in range(255))),
    problem_refused("too many rules", ONE + "(rule a a)" * 4_097),
    problem_refused("no constant", "(format TRS) (fun f 1)"),
    problem_refused("form 1 bad form", "(format TRS) (fun a)"),
    problem_refused("form 2 bad form", ONE + "(rule a)"),
    problem_refused("form 3 bad form", ONE + "(rule a a) (end)"),
    problem_refused("form 1 bad name", "(format TRS) (fun :a 0)"),
    problem_refused("form 1 bad arity", "(format TRS) (fun a 9)"),
    problem_refused("form 2 duplicate", ONE + "(fun a 0)"),
    problem_refused("form 3 wrong count", ONE + "(fun f 1) (rule (f a a) a)"),
    problem_refused("form 2 variable applied", ONE + "(rule (x a) a)"),
    problem_refused("form 3 left side repeats x", ONE + "(fun f 2) (rule (f x x) a)"),
    problem_refused("form 3 right side repeats x", ONE + "(fun f 2) (rule a (f x x))"),
    problem_refused("form 3 sides share x", ONE + "(fun f 1) (rule (f x) x)"),
    certificate_refused("form 2 bad form", "(certificate 1)"),
    certificate_refused("form 3 bad number", "(certificate 1 yes) (part 0 00)"),
    certificate_refused("form 2 version", "(certificate 9 yes)"),
    certificate_refused("form 2 version", "(certificate 1 found)", "confirm", "NF(x)"),
    certificate_refused("form 3 bad form", "(certificate 4 found) (node 0)", "confirm", "NF(x)"),
    certificate_refused("form 3 bad number", "(certificate 4 found) (node (0) 00)", "confirm", "NF(x)"),
    Command("family refused", ("synth", "1", "2", "CR"), WIDE_FAMILY, 3, "REFUSED family too large"),
    too_long("", "decide", "CR"),
    too_long("\x01", "check", "CR"),
    too_long("", "confirm", "NF(x)"),
]

COMMANDS = ANSWERS + REFUSALS
