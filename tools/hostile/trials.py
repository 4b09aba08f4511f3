"""What is done to one run of a command, and whether what came of it is right."""
import os
import struct
import subprocess
from contextlib import ExitStack
from dataclasses import dataclass, field
from typing import NamedTuple

# The errors of a call that fails.
EIO = 5
EINTR = 4
NOTHING = 0  # no error, but no byte is moved

# Devices that fail by themselves.
FOLDER = "a folder as standard input"
FULL = "a full device as standard output"
GONE = "a pipe that nobody reads as standard output"

# The program's statuses without an answer.
OUT_OF_MEMORY = 5
READ_FAILED = 6
WRITE_FAILED = 7

SECONDS = 120  # that a run may take
MOST_CALLS = 64  # reads or writes of a command that are failed at most, spread over all
MOST_SHORT_CALLS = 8  # the same where each call is short as well


class Tally(NamedTuple):
    """`struct tally` of surroundings.c."""
    allocations: int
    reads: int
    writes: int
    refused: int
    failed: int


TALLY = struct.Struct(f"{len(Tally._fields)}q")


@dataclass(frozen=True)
class Place:
    """Where all runs find what they need."""
    binary: str
    library: str
    folder: str


@dataclass(frozen=True)
class Trial:
    """A kind of surroundings, with the numbers that surroundings.c is handed, or with a device."""
    kind: str
    numbers: dict = field(default_factory=dict)
    device: str = ""

    def environment(self) -> dict:
        return {f"HOSTILE_{name}": str(n) for name, n in self.numbers.items()}

    def shown(self) -> str:
        return " ".join(f"{name}={n}" for name, n in self.environment().items()) or self.device or self.kind


@dataclass(frozen=True)
class Came:
    """What came of a run. Where a signal ended it, the status is that signal's number below zero."""
    status: int | str
    output: bytes
    errors: bytes
    tally: Tally

    def shown(self) -> str:
        calls = f"{self.tally.allocations} allocations, {self.tally.reads} reads, {self.tally.writes} writes"
        told = f"status {self.status} after {calls}, {len(self.output)} bytes {self.output[:60]!r}"
        return told + (f", on standard error {self.errors[:60]!r}" if self.errors else "")


# ---- the trials of a command

PLAIN = Trial("plain")
DEVICES = [Trial("read", device=FOLDER), Trial("write", device=FULL), Trial("write", device=GONE)]


def spread(count: int, most: int) -> list[int]:
    """At most so many of the numbers from 1 to count, evenly spread, with the first and the last."""
    if count <= most:
        return list(range(1, count + 1))
    return [1 + i * (count - 1) // max(most - 1, 1) for i in range(most)]


def short_trials(pieces: tuple) -> list[Trial]:
    """Reads, writes, and both at once, of so many bytes at most."""
    both = (["SHORT_READ"], ["SHORT_WRITE"], ["SHORT_READ", "SHORT_WRITE"])
    return [Trial("short", dict.fromkeys(names, size)) for size in pieces for names in both]


def refused_allocations(numbers: list[int]) -> list[Trial]:
    """Each of these allocations refused alone, and with all later ones."""
    alone = [{"REFUSE": n} for n in numbers]
    return [Trial("allocation", one | more) for one in alone for more in ({}, {"ONWARD": 1})]


def failed_calls(tally: Tally, short: Trial) -> list[Trial]:
    """Each read and each write failed, while calls are as short as in this trial, where they are so many."""
    most = MOST_SHORT_CALLS if short.numbers else MOST_CALLS
    trials = []
    for n in spread(tally.reads, most):
        for kind, error in (("read", EIO), ("interrupted read", EINTR)):
            trials.append(Trial(kind, short.numbers | {"FAIL_READ": n, "ERROR": error}))
    for n in spread(tally.writes, most):
        for kind, error in (("write", EIO), ("write", NOTHING), ("interrupted write", EINTR)):
            trials.append(Trial(kind, short.numbers | {"FAIL_WRITE": n, "ERROR": error}))
    return trials


# ---- one run

def standard_input(device: str, path: str, folder: str) -> int:
    return os.open(folder if device == FOLDER else path, os.O_RDONLY)


def standard_output(device: str) -> int:
    if device == FULL:
        return os.open("/dev/full", os.O_WRONLY)
    if device == GONE:
        reading, writing = os.pipe()
        os.close(reading)
        return writing
    return subprocess.PIPE


def run_once(place: Place, words: tuple, path: str, trial: Trial) -> Came:
    """Runs the program on the file at the path, with nothing in its environment but what is said here."""
    counts = os.path.join(place.folder, f"tally-{os.getpid()}")
    with open(counts, "wb") as file:
        file.write(bytes(TALLY.size))
    environment = trial.environment() | {"LD_PRELOAD": place.library, "HOSTILE_TALLY": counts}
    with ExitStack() as opened:
        source, sink = standard_input(trial.device, path, place.folder), standard_output(trial.device)
        for device in (source, sink):
            if device >= 0:
                opened.callback(os.close, device)
        try:
            done = subprocess.run([place.binary, *words], stdin=source, stdout=sink, stderr=subprocess.PIPE,
                                  env=environment, timeout=SECONDS, close_fds=False, check=False)
            came = (done.returncode, done.stdout or b"", done.stderr)
        except subprocess.TimeoutExpired:
            came = (f"none after {SECONDS} s", b"", b"")
    with open(counts, "rb") as file:
        return Came(*came, Tally(*TALLY.unpack(file.read())))


# ---- what is right

def is_answer(came: Came, plain: Came) -> bool:
    return (came.status, came.output) == (plain.status, plain.output)


def is_silent(came: Came, status: int) -> bool:
    return (came.status, came.output) == (status, b"")


def is_cut_short(came: Came, plain: Came) -> bool:
    is_front = plain.output.startswith(came.output) and len(came.output) < len(plain.output)
    return came.status == WRITE_FAILED and is_front


def has_failed(trial: Trial, tally: Tally) -> bool:
    """Whether the program met the failure."""
    if trial.device:
        return (tally.reads if trial.device == FOLDER else tally.writes) > 0
    return tally.failed > 0


def is_right(trial: Trial, came: Came, plain: Came) -> bool:
    """Whether this may come of the trial. A call that was interrupted may be made again, or taken as one that failed."""
    if came.errors:
        return False
    answered, failed = is_answer(came, plain), has_failed(trial, came.tally)
    match trial.kind:
        case "allocation":
            return came.tally.refused > 0 and (answered or is_silent(came, OUT_OF_MEMORY))
        case "read":
            return is_silent(came, READ_FAILED) if failed else answered
        case "write":
            return is_cut_short(came, plain) if failed else answered
        case "interrupted read":
            return answered or (failed and is_silent(came, READ_FAILED))
        case "interrupted write":
            return answered or (failed and is_cut_short(came, plain))
        case _:
            return answered
