"""A numbered series of good and damaged chart files.

The limit files come first and are the same for every seed. Each later file hangs on the
seed and its own number only: `generate.py SEED NUMBER` prints it again.
"""

import random
import sys

LETTERS = "abcdefghijklmnopqrstuvwxyz0123456789-"
SECTIONS = ("modes", "exits", "locks", "questions")

# A draft holds for each section its lines, each as a list of words.


def draft(modes, exits=(), locks=(), questions=((0, 0, "d", 1),)):
    return {
        "modes": [[name] for name in modes],
        "exits": [list(line) for line in exits],
        "locks": [list(line) for line in locks],
        "questions": [list(line) for line in questions],
    }


def lines_of(chart, counts=()):
    """The lines of a draft; `counts` declares other counts than the true ones."""
    counts = dict(counts)
    lines = []
    for section in SECTIONS:
        rows = [[counts.get(section, len(chart[section]))]] + chart[section]
        lines += [" ".join(map(str, row)).encode("latin-1") for row in rows]
    return lines


def text_of(lines):
    return b"".join(line + b"\n" for line in lines)


def text(chart, counts=()):
    return text_of(lines_of(chart, counts))


# Files at the limits, one on either side


def names(count, length=3):
    return [f"{i:0{length}d}" for i in range(count)]


def fan(mode, count, to=0):
    """Exit lines of one mode."""
    return [(mode, to, i % 256, i) for i in range(count)]


def sized(size):
    """A file of just that many bytes that reads well; its chart has an unknown mode.

    Only long numbers of unknown modes make such a file that long.
    """
    far = 4_294_967_295
    exits = [[56 + i // 64, far if i >= 60 else 10, 255, far] for i in range(512)]
    chart = draft(names(64, 16), exits, [(far, far)] * 32, [(far, far, "d", 99)] * 8)
    spare = len(text(chart)) - size
    for row in reversed(chart["exits"]):
        cut = min(9, spare)
        row[3] = int("1" * (10 - cut))
        spare -= cut
    assert len(text(chart)) == size
    return text(chart)


def section_limits():
    for count in (0, 1, 63, 64, 65):
        yield text(draft(names(count)))
    for length in (0, 1, 16, 17):
        yield text(draft(["a" * length]))
    for count in (0, 1, 511, 512, 513):
        yield text(draft(names(64), [(i // 9, i % 64, 0, i) for i in range(count)]))
    for count in (31, 32, 33):
        locks = [(0, i) for i in range(count)]
        yield text(draft(names(1), fan(0, 64), locks))
        yield text(draft(names(1), fan(0, 1), [(0, 0)] * count))
    for count in (0, 1, 7, 8, 9):
        yield text(draft(names(2), (), (), [(0, 1, "df"[i % 2], i) for i in range(count)]))


def exit_limits():
    for mode in (0, 1, 2):
        for count in (63, 64, 65, 66):
            yield text(draft(names(3), fan(mode, count)))
    yield text(draft(names(3), fan(0, 64) + fan(1, 65) + fan(2, 65)))
    yield text(draft(names(8), [row for mode in range(8) for row in fan(mode, 64)]))
    yield text(draft(names(1), fan(0, 512)))
    yield text(draft(names(1), fan(0, 65, to=1), [(1, 0)]))
    for to in (1, 2, 4_294_967_295):
        yield text(draft(names(2), [(0, 1, 0, 0), (0, to, 0, 0), (1, to, 0, 0)]))


def number_limits():
    """Numbers at the greatest one and beyond, also those that 32 or 64 bits would wrap to 1."""
    for big in ("4294967295", "4294967296", "4294967297", "18446744073709551617", "9" * 5000):
        for section in SECTIONS:
            yield text(draft(["a"]), {section: big})
        for place in range(4):
            row = [0, 0, 0, 0]
            row[place] = big
            yield text(draft(["a"], [row]))
        for place in (0, 1, 3):
            row = [0, 0, "f", 0]
            row[place] = big
            yield text(draft(["a"], (), (), [row]))
        yield text(draft(["a"], fan(0, 2), [(big, 0)]))
        yield text(draft(["a"], fan(0, 2), [(0, big)]))
    for faults in (254, 255, 256, 257):
        yield text(draft(["a"], [(0, 0, faults, 0)]))
    for k in (98, 99, 100, 101):
        yield text(draft(["a"], (), (), [(0, 0, "d", k)]))


def byte_limits():
    """Bytes that stand next to the ones allowed, and some that a reader might let pass."""
    yield text(draft(["0", "9", "a", "z", "-", "0-9-a-z-"]))
    for strange in "/:`{,._@AZ[\0\r\t\x80\xe1\xff":
        yield text(draft(["a" + strange]))
    for strange in "/:-.a\0\r\x80\xb0\xff":
        yield text(draft(["a"], [(0, 0, 0, "1" + strange)]))
        yield text(draft(["a"], [(0, 0, strange + "1", 0)]))
    for strange in "\x1f!\t\0\xa0":
        yield text(draft(["a"], fan(0, 2), [(f"0{strange}1",)]))
    for strange in ("c", "e", "g", "D", "F", "dd", "df", "", "\0", "\xe4", "0"):
        yield text(draft(["a"], (), (), [(0, 0, strange, 1)]))


def order_of_faults():
    """Files with two faults, of which one counts."""
    yield text(draft(["a"], [(1, 0, 256, 0)]))
    yield text(draft(["a"], [(1, 0, 0, "00")]))
    yield text(draft(["a", "b"], [(1, 0, 0, 0), (0, 0, 256, 0)]))
    yield text(draft(["a", "b"], [(1, 0, 0, 0), (2, 0, 0, 0), (0, 0, 256, 0)]))
    yield text(draft(["a"], (), (), [(0, 0, "e", 100)]))
    yield text(draft(["a"], (), (), [(0, 0, "d", 100), (0, 0, "e", 0)]))
    yield text(draft(["a"], [(0, 1, 0, 0)], [(1, 0)], [(0, 0, "d", 100)]))
    yield text(draft(["a"], [(0, 1, 0, 0)], [(1, 0)]))
    yield text(draft(["a"], fan(0, 2), [(0, 1), (0, 2), (1, 0)]))
    yield text(draft(["a"], fan(0, 2), [(0, 1), (1, 2), (0, 2)]))
    yield text(draft(["a"], (), [(0, 0)]))
    pairs = [(1, 1), (0, 1), (1, 0), (0, 0)]
    yield text(draft(["a"], (), (), [(start, watched, "f", 0) for start, watched in pairs]))
    yield text(draft(["A"])) + b"more"
    yield text(draft(["a"], (), (), [(0, 0, "d", 100)])) + b"\n"
    yield text(draft(["a", "A"]))[:-3]
    yield text(draft(["-", "0", "-", "0"], [(3, 0, 0, 0)], (), [(0, 3, "d", 1)]))


def ends():
    """A small file cut at every place, and with something behind it."""
    good = text(draft(["a", "b"], [(0, 1, 2, 30), (1, 0, 0, 4)], [(0, 0)], [(0, 1, "d", 9)]))
    for size in range(len(good) + 1):
        yield good[:size]
    for more in (b"\n", b"\n\n", b"0", b"0\n", b" ", b"\0", b"\r\n", b"0 1 d 9\n"):
        yield good + more


def size_limits():
    for size in (16_383, 16_384, 16_385):
        yield sized(size)
        yield b"\n" * size
        yield b"\0" * size
        good = text(draft(["a"]))
        yield good + b"x" * (size - len(good))
    yield b"\n" * 100_000
    yield text(draft(["a"])) * 10_000


def limits():
    parts = (
        section_limits,
        exit_limits,
        number_limits,
        byte_limits,
        order_of_faults,
        ends,
        size_limits,
    )
    return [data for part in parts for data in part()]


# Random good files


def random_name(rng):
    length = rng.choice([1, 2, 4, 8, 15, 16])
    return "".join(rng.choice(LETTERS) for _ in range(length))


def random_number(rng):
    return rng.choice([0, rng.randrange(10), rng.randrange(1000), rng.randrange(2**32), 2**32 - 1])


def random_draft(rng):
    modes = rng.choice([1, 2, 3, rng.randint(1, 9), rng.randint(1, 64)])
    exits = []
    for mode in range(modes):
        most = rng.choice([0, 1, 3, 64])
        for _ in range(rng.randint(0, min(most, 512 // modes))):
            exits.append((mode, rng.randrange(modes), rng.randrange(256), random_number(rng)))
    locks = []
    for _ in range(rng.choice([0, 1, 2, rng.randint(0, 32)]) if exits else 0):
        mode = rng.choice(exits)[0]
        locks.append((mode, rng.randrange(exits_of(exits, mode))))
    questions = []
    for _ in range(rng.choice([1, 2, rng.randint(1, 8)])):
        k = rng.choice([0, 1, 3, 99, rng.randrange(100)])
        questions.append((rng.randrange(modes), rng.randrange(modes), rng.choice("df"), k))
    return draft([random_name(rng) for _ in range(modes)], exits, locks, questions)


def exits_of(exits, mode):
    return sum(row[0] == mode for row in exits)


# Slips that leave every line in its form


def unknown_mode(rng, chart):
    modes = len(chart["modes"])
    return rng.choice([modes, modes, modes + 1, 64, 4_294_967_295])


def slip_unknown(section, place):
    def slip(rng, chart):
        if chart[section]:
            rng.choice(chart[section])[place] = unknown_mode(rng, chart)

    return slip


def slip_order(rng, chart):
    """Two exit lines change places."""
    rows = chart["exits"]
    if len(rows) > 1:
        i, j = rng.sample(range(len(rows)), 2)
        rows[i], rows[j] = rows[j], rows[i]


def slip_many_exits(rng, chart):
    """One mode gets about 64 exits."""
    mode = rng.randrange(len(chart["modes"]))
    others = [row for row in chart["exits"] if row[0] != mode][:400]
    many = [list(row) for row in fan(mode, rng.choice([64, 65, 65, 66]))]
    chart["exits"] = sorted(others + many, key=lambda row: row[0])


def slip_lock_exit(rng, chart):
    """A lock's exit is just one too high, or far too high."""
    mode = rng.randrange(len(chart["modes"]))
    count = exits_of(chart["exits"], mode)
    lock = [mode, rng.choice([count, count, count + 1, 4_294_967_295])]
    chart["locks"] = chart["locks"][:31]
    chart["locks"].insert(rng.randint(0, len(chart["locks"])), lock)


def slip_same_lock(rng, chart):
    if chart["locks"] and len(chart["locks"]) < 32:
        chart["locks"].append(list(rng.choice(chart["locks"])))


def slip_k(rng, chart):
    rng.choice(chart["questions"])[3] = rng.choice([100, 101, 4_294_967_295])


SLIPS = [
    slip_unknown("exits", 0),
    slip_unknown("exits", 1),
    slip_unknown("exits", 1),
    slip_unknown("locks", 0),
    slip_unknown("locks", 0),
    slip_unknown("questions", 0),
    slip_unknown("questions", 1),
    slip_order,
    slip_many_exits,
    slip_lock_exit,
    slip_lock_exit,
    slip_same_lock,
    slip_k,
]


def slip_some(rng, chart):
    for _ in range(rng.choice([1, 1, 2, 3])):
        rng.choice(SLIPS)(rng, chart)


# Damage within a line

EDGES = [0, 1, 8, 9, 32, 33, 64, 65, 99, 100, 255, 256, 512, 513, 2**32 - 1, 2**32, 2**64 + 1]
WRONG_WORDS = "00 007 +1 -0 -1 1.0 0x1 1e1 1_0 d f e D F df a_b A".split() + [""]
# Beside blanks and bytes over 127, the neighbours of the digits and letters.
STRANGE_BYTES = [bytes([byte]) for byte in b" \t\r\v\0,_/:`{\x80\xb2\xff"]


def put(rng, line, more):
    place = rng.randint(0, len(line))
    return line[:place] + more + line[place:]


def on_words(change):
    def damage(rng, line):
        words = line.split(b" ")
        change(rng, words)
        return b" ".join(words)

    return damage


def other_word(rng, words):
    word = rng.choice(EDGES if rng.random() < 0.6 else WRONG_WORDS)
    words[rng.randrange(len(words))] = str(word).encode()


def leading_zero(rng, words):
    place = rng.randrange(len(words))
    words[place] = b"0" + words[place]


def lost_word(rng, words):
    del words[rng.randrange(len(words))]


def word_twice(rng, words):
    words.insert(rng.randint(0, len(words)), rng.choice(words))


def swapped_words(rng, words):
    i, j = rng.randrange(len(words)), rng.randrange(len(words))
    words[i], words[j] = words[j], words[i]


def strange_byte(rng, line):
    return put(rng, line, rng.choice(STRANGE_BYTES))


def strange_end(rng, line):
    return line + rng.choice([b"\r", b" ", b"\t", b"\0"])


def strange_space(rng, line):
    return line.replace(b" ", rng.choice([b"  ", b"\t", b"\xa0", b"", b"\0", b","]), 1)


def leading_space(_rng, line):
    return b" " + line


def empty_line(_rng, _line):
    return b""


def longer(rng, line):
    return line + rng.choice([b"0", b"9", b"a", b"z", b"-"]) * rng.randint(1, 17)


def changed_case(_rng, line):
    return line.upper()


LINE_DAMAGES = [
    on_words(other_word),
    on_words(other_word),
    on_words(leading_zero),
    on_words(lost_word),
    on_words(word_twice),
    on_words(swapped_words),
    strange_byte,
    strange_end,
    strange_space,
    leading_space,
    empty_line,
    longer,
    changed_case,
]


def damage_line(rng, lines, place):
    lines[place] = rng.choice(LINE_DAMAGES)(rng, lines[place])


def one_line(rng, lines):
    damage_line(rng, lines, rng.randrange(len(lines)))


def same_line_twice(rng, lines):
    place = rng.randrange(len(lines))
    damage_line(rng, lines, place)
    damage_line(rng, lines, place)


def two_lines(rng, lines):
    for place in rng.sample(range(len(lines)), 2):
        damage_line(rng, lines, place)


# Damage among lines


def lost_line(rng, lines):
    del lines[rng.randrange(len(lines))]


def line_twice(rng, lines):
    place = rng.randrange(len(lines))
    lines.insert(place, lines[place])


def swapped_lines(rng, lines):
    i, j = rng.sample(range(len(lines)), 2)
    lines[i], lines[j] = lines[j], lines[i]


def added_line(rng, lines):
    line = rng.choice([b"", b"0", b"1", b"0 0", b"0 0 0 0", b"0 0 d 1"])
    lines.insert(rng.randint(0, len(lines)), line)


LINES_DAMAGES = [
    one_line,
    one_line,
    same_line_twice,
    two_lines,
    lost_line,
    line_twice,
    swapped_lines,
    added_line,
]


# Damage of bytes, whatever they mean


def cut(rng, data):
    return data[: rng.randint(0, len(data) - 1)]


def appended(rng, data):
    any_byte = bytes([rng.randrange(256)])
    return data + rng.choice([b"\n", b"0", b"0\n", b" ", b"\r\n", b"0 0 d 1\n", any_byte])


def flipped(rng, data):
    place = rng.randrange(len(data))
    return data[:place] + bytes([data[place] ^ 1 << rng.randrange(8)]) + data[place + 1 :]


def other_byte(rng, data):
    place = rng.randrange(len(data))
    return data[:place] + bytes([rng.choice(b"0123456789 \nadf-")]) + data[place + 1 :]


def lost_byte(rng, data):
    place = rng.randrange(len(data))
    return data[:place] + data[place + 1 :]


def byte_twice(rng, data):
    place = rng.randrange(len(data))
    return data[:place] + data[place : place + 1] + data[place:]


def swapped_bytes(rng, data):
    changed = bytearray(data)
    i = rng.randrange(len(data))
    j = rng.choice([rng.randrange(len(data)), min(i + 1, len(data) - 1)])
    changed[i], changed[j] = changed[j], changed[i]
    return bytes(changed)


def filled_up(rng, data):
    return data + b"x" * (16_384 + rng.choice([0, 1]) - len(data))


BYTE_DAMAGES = [
    cut,
    cut,
    appended,
    appended,
    flipped,
    other_byte,
    lost_byte,
    byte_twice,
    swapped_bytes,
]


# Kinds of files in the series


def good(rng):
    return text(random_draft(rng))


def slipped(rng):
    chart = random_draft(rng)
    slip_some(rng, chart)
    return text(chart)


def miscounted(rng):
    """One section declares a line more or less than it has, or a count at a limit."""
    chart = random_draft(rng)
    section = rng.choice(SECTIONS)
    count = len(chart[section])
    return text(chart, {section: rng.choice([count + 1, abs(count - 1), rng.choice(EDGES)])})


def lines_damaged(rng):
    lines = lines_of(random_draft(rng))
    rng.choice(LINES_DAMAGES)(rng, lines)
    return text_of(lines)


def bytes_damaged(rng):
    return rng.choice(BYTE_DAMAGES)(rng, text(random_draft(rng)))


def all_damaged(rng):
    """Slips, a damaged line and damaged bytes, in one file."""
    chart = random_draft(rng)
    slip_some(rng, chart)
    lines = lines_of(chart)
    rng.choice(LINES_DAMAGES)(rng, lines)
    return rng.choice(BYTE_DAMAGES + [filled_up])(rng, text_of(lines))


KINDS = [
    good,
    slipped,
    slipped,
    slipped,
    miscounted,
    lines_damaged,
    lines_damaged,
    bytes_damaged,
    bytes_damaged,
    all_damaged,
]


def random_file(seed, number):
    rng = random.Random(f"{seed} {number}")
    return KINDS[number % len(KINDS)](rng)


def series(count, seed):
    """Files 0, 1, 2 and so on: all limit files, then random ones up to the count."""
    fixed = limits()
    yield from fixed
    for number in range(len(fixed), count):
        yield random_file(seed, number)


def main():
    seed, number = int(sys.argv[1]), int(sys.argv[2])
    fixed = limits()
    data = fixed[number] if number < len(fixed) else random_file(seed, number)
    sys.stdout.buffer.write(data)


if __name__ == "__main__":
    main()
