"""Compares the program with the reference: `run.py BINARY [COUNT] [SEED]`.

Both get the worked files, the examples, any further cases kept in `cases`, and COUNT
generated files. The first difference ends the run.
"""

import collections
import pathlib
import re
import subprocess
import sys
import tempfile

import generate
import reference
import selftest

HERE = pathlib.Path(__file__).resolve().parent
TIME_LIMIT = 20  # seconds for one file

# Every refusal that a file can bring about.
REACHED_BY_FILES = (1, 2, 3, 4, 5, 6, 11, 12, 20, 21, 30, 31)


def files(count, seed):
    """The files to compare, each with its label."""
    for number, (data, _) in enumerate(selftest.WORKED):
        yield f"worked file {number}", data
    for path in sorted(HERE.parent.glob("examples/*.chart")) + sorted(HERE.glob("cases/*.chart")):
        yield path.name, path.read_bytes()
    for number, data in enumerate(generate.series(count, seed)):
        yield f"generated file {number} of seed {seed}", data


def run(binary, data):
    """The status and the printed bytes; a program that does not end has no status."""
    try:
        done = subprocess.run([binary], input=data, capture_output=True, timeout=TIME_LIMIT)
    except subprocess.TimeoutExpired as late:
        return None, late.stdout or b"", b"did not end"
    return done.returncode, done.stdout, done.stderr


def show_difference(label, data, wanted, got):
    status, printed, complaint = got
    folder = pathlib.Path(tempfile.mkdtemp(prefix="compare-"))
    kept = folder / "difference.chart"
    kept.write_bytes(data)
    print(f"{label} differs; it is kept as {kept}")
    print("wanted, with status 0:")
    print(wanted.decode("ascii"), end="")
    print(f"printed, with status {status}:")
    print(printed.decode("ascii", "backslashreplace"), end="")
    if complaint:
        print(complaint.decode("utf-8", "backslashreplace"))


def refusals(report):
    """The refusal numbers that a report tells."""
    return {int(number) for number in re.findall(rb"^fault [a-z]+ (\d+)", report, re.MULTILINE)}


def compare(binary, count, seed):
    compared = accepted = 0
    reached = collections.Counter()
    for label, data in files(count, seed):
        wanted = reference.answer(data)
        got = run(binary, data)
        if got[:2] != (0, wanted):
            show_difference(label, data, wanted, got)
            return False
        compared += 1
        accepted += wanted.startswith(b"chart ")
        reached.update(refusals(wanted))
    told = ", ".join(f"{number}: {reached[number]}" for number in sorted(reached))
    print(f"{compared} files compared, {accepted} accepted; files by refusal {told}")
    missing = [number for number in REACHED_BY_FILES if not reached[number]]
    if missing:
        print(f"no file reached {missing}")
    return not missing


def main():
    if not 2 <= len(sys.argv) <= 4:
        sys.exit(__doc__)
    binary = str(pathlib.Path(sys.argv[1]).resolve())
    count, seed = (int(word) for word in sys.argv[2:] + ["600", "1"][len(sys.argv) - 2 :])
    selftest.check()
    sys.exit(0 if compare(binary, count, seed) else 1)


if __name__ == "__main__":
    main()
