"""What the program must print for a chart file, written from the rules alone.

Run it with a chart file on standard input, or call `answer`.
Lines count from 1, everything else from 0.
"""

import re
import sys
from typing import NamedTuple

MOST_BYTES = 16_384
MOST_EXITS_OF_A_MODE = 64
GREATEST_NUMBER = 4_294_967_295
GREATEST_FAULTS = 255
GREATEST_K = 99


class Fault(Exception):
    """A refusal; its text is the line that tells it."""


class Exit(NamedTuple):
    mode: int
    to: int
    faults: int
    dwell: int
    line: int


class Lock(NamedTuple):
    mode: int
    exit: int
    line: int


class Question(NamedTuple):
    start: int
    watched: int
    letter: str
    k: int


class ChartFile(NamedTuple):
    names: list
    exits: list
    exits_line: int  # the line that counts the exits
    locks: list
    questions: list


# Lines and words


class Lines:
    """The complete lines of a file, taken one by one, and the rest without a line end."""

    def __init__(self, data):
        *self.complete, self.rest = data.split(b"\n")
        self.taken = 0

    def take(self):
        if self.taken == len(self.complete):
            raise reading_fault(5, self.taken + 1)
        self.taken += 1
        return self.complete[self.taken - 1]

    def fault(self, number):
        """A fault of the line taken last."""
        return reading_fault(number, self.taken)

    def end(self):
        """Nothing may stand behind the last section."""
        if self.taken < len(self.complete) or self.rest:
            raise reading_fault(6, self.taken + 1)


def reading_fault(number, line):
    return Fault(f"fault reading {number} line {line}")


def number(word):
    """The number a word writes, or None."""
    if not re.fullmatch(rb"0|[1-9][0-9]{0,9}", word):
        return None
    value = int(word)
    return value if value <= GREATEST_NUMBER else None


def take_words(lines, count):
    """The words of the next line, which has just so many."""
    words = lines.take().split(b" ")
    if len(words) != count:
        raise lines.fault(2)
    return words


def form_numbers(lines, words):
    """The numbers that words of the line taken last write; each word must write one."""
    values = [number(word) for word in words]
    if None in values:
        raise lines.fault(2)
    return values


# Sections


def take_count(lines, least, greatest):
    [count] = form_numbers(lines, take_words(lines, 1))
    if not least <= count <= greatest:
        raise lines.fault(3)
    return count


def take_name(lines):
    line = lines.take()
    if not re.fullmatch(rb"[a-z0-9-]{1,16}", line):
        raise lines.fault(2)
    return line.decode("ascii")


def take_exit(lines, modes, least_mode):
    """An exit line; its first mode exists and is not below that of the exit line before."""
    mode, to, faults, dwell = form_numbers(lines, take_words(lines, 4))
    if faults > GREATEST_FAULTS:
        raise lines.fault(2)
    if mode >= modes or mode < least_mode:
        raise lines.fault(4)
    return Exit(mode, to, faults, dwell, lines.taken)


def take_exits(lines, count, modes):
    exits = []
    for _ in range(count):
        least_mode = exits[-1].mode if exits else 0
        exits.append(take_exit(lines, modes, least_mode))
    return exits


def take_lock(lines):
    mode, exit_number = form_numbers(lines, take_words(lines, 2))
    return Lock(mode, exit_number, lines.taken)


def take_question(lines):
    start, watched, letter, k = take_words(lines, 4)
    start, watched, k = form_numbers(lines, [start, watched, k])
    if letter not in (b"d", b"f"):
        raise lines.fault(2)
    if k > GREATEST_K:
        raise lines.fault(3)
    return Question(start, watched, letter.decode("ascii"), k)


def read(data):
    """The content of a chart file that reads well."""
    if len(data) > MOST_BYTES:
        raise reading_fault(1, 0)
    lines = Lines(data)
    names = [take_name(lines) for _ in range(take_count(lines, 1, 64))]
    exit_count = take_count(lines, 0, 512)
    exits_line = lines.taken
    exits = take_exits(lines, exit_count, len(names))
    locks = [take_lock(lines) for _ in range(take_count(lines, 0, 32))]
    questions = [take_question(lines) for _ in range(take_count(lines, 1, 8))]
    lines.end()
    return ChartFile(names, exits, exits_line, locks, questions)


# Chart and locks


def exit_counts(file):
    """How many exits each mode has."""
    counts = [0] * len(file.names)
    for step in file.exits:
        counts[step.mode] += 1
    return counts


def check_chart(file):
    # The exits of mode p end at offset p + 1, so that is the offset too far up.
    for mode, count in enumerate(exit_counts(file)):
        if count > MOST_EXITS_OF_A_MODE:
            raise Fault(f"fault chart 11 offset {mode + 1} line {file.exits_line}")
    for entry, step in enumerate(file.exits):
        if step.to >= len(file.names):
            raise Fault(f"fault chart 12 entry {entry} line {step.line}")


def check_locks(file):
    counts = exit_counts(file)
    for index, lock in enumerate(file.locks):
        if lock.mode >= len(file.names):
            raise Fault(f"fault lock 20 lock {index} line {lock.line}")
        if lock.exit >= counts[lock.mode]:
            raise Fault(f"fault lock 21 lock {index} line {lock.line}")


# The report


def question_line(file, index, question):
    modes = len(file.names)
    if question.start >= modes:
        return f"fault lister 30 question {index}"
    if question.watched >= modes:
        return f"fault lister 31 question {index}"
    start = file.names[question.start]
    watched = file.names[question.watched]
    return f"question {index} {start} {watched} {question.letter}"


def report(data):
    """The lines to print; a fault of the file, its chart or its locks is the only one."""
    try:
        file = read(data)
        check_chart(file)
        check_locks(file)
    except Fault as fault:
        return [str(fault)]
    numbers = (len(file.names), len(file.exits), len(file.locks), len(file.questions))
    head = "chart {} modes {} exits {} locks {} questions".format(*numbers)
    return [head] + [question_line(file, i, q) for i, q in enumerate(file.questions)]


def answer(data: bytes) -> bytes:
    """The bytes to print; every line ends with byte 10."""
    return "".join(line + "\n" for line in report(data)).encode("ascii")


if __name__ == "__main__":
    sys.stdout.buffer.write(answer(sys.stdin.buffer.read()))
