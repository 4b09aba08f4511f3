"""The arguments of a call of fort as the program reads them, and what is wrong with them."""
import os
import re
from dataclasses import dataclass, field

from hint_text import is_like

NUMBERS = {"--states": (1, 1_000_000), "--most": (1, 1_000), "N": (1, 64), "H": (0, 64), "RULES": (1, 4), "HEIGHT": (0, 2)}
FLAGS = ("--reduce", "--certificate")
HELP = ("--help", "-h", "help", "--version", "-V")

# The options and the texts of each command.
COMMANDS = {
    "decide": (("--states", *FLAGS), ("FORMULA",)),
    "witness": (("--states", *FLAGS), ("FORMULA",)),
    "check": ((), ("FORMULA",)),
    "sample": ((), ("N",)),
    "solutions": (("--states", "--most"), ("H", "FORMULA")),
    "confirm": ((), ("FORMULA",)),
    "synth": (("--states",), ("RULES", "HEIGHT", "FORMULA")),
}


def number_faults(name: str, value: str) -> list:
    """What is wrong with a number that an argument gives."""
    low, high = NUMBERS[name]
    if re.fullmatch(r"0|[1-9][0-9]{0,8}", value) and low <= int(value) <= high:
        return []
    return [f"`{value}`: {name} is a number from {low} to {high}, in digits, without a needless zero"]


def is_file_name(argument: str) -> bool:
    return os.path.isfile(argument) or re.search(r"\.(ari|trs|txt|cert)$", argument) is not None


def of_file_name(argument: str) -> str:
    return f"`{argument}` is a file's name: the problem is read from standard input, `< {argument}`"


@dataclass
class Call:
    """The arguments of a call, taken apart."""
    arguments: list
    command: str = ""
    options: dict = field(default_factory=dict)
    texts: list = field(default_factory=list)
    faults: list = field(default_factory=list)

    def __post_init__(self):
        first = self.arguments[0] if self.arguments else ""
        if first in COMMANDS:
            self.command = first
            self.read_options(iter(self.arguments[1:]))
            self.read_texts()
        elif first in HELP:
            self.faults.append(f"`{first}` is no command of the program; `./fort --help` says what the arguments are")
        else:
            near = [it for it in COMMANDS if is_like(it, first)]
            self.faults += [f"`{first}` is no command; the commands are {' '.join(COMMANDS)}"] * bool(self.arguments)
            self.faults.append(f"`{near[0]}` is one" if near else "a command stands first, as in: decide CR")

    def read_options(self, rest) -> None:
        for argument in rest:
            if argument == "--":
                self.texts += rest
            elif argument == "-" or not argument.startswith("-"):
                self.texts.append(argument)
            else:
                self.read_option(argument, rest)

    def read_option(self, argument: str, rest) -> None:
        name, has_value, value = argument.partition("=")
        if name not in COMMANDS[self.command][0]:
            self.faults += self.strange(name)
        elif name in self.options:
            self.faults.append(f"`{name}` stands twice")
        elif name in FLAGS:
            self.faults += [f"`{argument}`: {name} has no value"] * bool(has_value)
            self.options[name] = ""
        else:
            self.options[name] = value if has_value else next(rest, "")
            self.faults += number_faults(name, self.options[name])

    def strange(self, name: str) -> list:
        """What is said of an option that the command doesn't have."""
        having = [it for it, (options, _) in COMMANDS.items() if name in options]
        if having:
            return [f"`{self.command}` has no `{name}`; {', '.join(having)} {'have' if having[1:] else 'has'} it"]
        if name in HELP:
            return [f"`{name}` is no option; `./fort --help` says what the arguments are"]
        if not name.startswith("--"):
            return [f"`{name}` is read as an option: put `--` before a formula that begins with `-` (in one, not is `~`)"]
        near = [it for it in NUMBERS if it.startswith("--")] + list(FLAGS)
        near = [it for it in near if it.startswith(name) or is_like(it, name)]
        return [f"`{name}` is no option{f'; `{near[0]}` is one' if near else ''}"]

    def read_texts(self) -> None:
        wanted = COMMANDS[self.command][1]
        if len(self.texts) < len(wanted):
            self.faults.append(self.missing(wanted))
        elif len(self.texts) > len(wanted):
            self.faults.append(self.too_many(wanted))
        else:
            for name, text in zip(wanted, self.texts):
                self.faults += number_faults(name, text) if name in NUMBERS else []

    def missing(self, wanted: tuple) -> str:
        """Which text isn't there: the numbers come first."""
        lacking = wanted[sum(it.isdigit() for it in self.texts)]
        tells = "a number from {} to {}".format(*NUMBERS[lacking]) if lacking in NUMBERS else "one argument, in quotes"
        return f"{lacking} is missing ({tells}): {self.command} {' '.join(wanted)}"

    def too_many(self, wanted: tuple) -> str:
        """Which text is one too many: a file's name, or else the first that isn't wanted."""
        files = [it for it in self.texts if is_file_name(it)]
        if files:
            return of_file_name(files[0])
        tells = "a formula is one argument, in quotes, and the problem comes by `< FILE`"
        tells = tells if "FORMULA" in wanted else f"{self.command} {' '.join(wanted)}"
        return f"`{self.texts[len(wanted)]}` is one argument too many: {tells}"

    @property
    def formula(self) -> bytes:
        return os.fsencode(self.texts[-1]) if self.texts else b""
