"""How reading grows with the file: `linear.py BINARY`.

Counts the instructions that the program runs (by valgrind's callgrind, which counts alike whatever else the machine does) on
good files of growing length and on one byte, side by side, and prints instructions for each byte beyond the start-up.
"""

import pathlib
import re
import subprocess
import sys
import tempfile


def good_file(exits):
    """A file of 64 modes with so many exit lines, in order."""
    lines = ["64"] + [f"mode-{number:010}" for number in range(64)]
    lines.append(str(exits))
    lines += [f"{number * 64 // max(exits, 1)} {number % 64} {number % 256} {4294967295 - number}" for number in range(exits)]
    lines += ["0", "1", "0 1 d 9"]
    return "\n".join(lines).encode("ascii") + b"\n"


def instructions(binary, data):
    with tempfile.TemporaryDirectory() as folder:
        out = pathlib.Path(folder) / "out"
        done = subprocess.run(
            ["valgrind", "--tool=callgrind", f"--callgrind-out-file={out}", binary],
            input=data,
            capture_output=True,
            check=True,
        )
    return int(re.search(rb"refs:\s+([\d,]+)", done.stderr).group(1).replace(b",", b""))


def main(binary):
    start = instructions(binary, b"\n")
    print(f"start-up and one byte: {start} instructions")
    first = None
    for exits in (0, 64, 128, 256, 512):
        data = good_file(exits)
        each = (instructions(binary, data) - start) / len(data)
        first = first or each
        print(f"{exits:4} exits, {len(data):6} bytes: {each:7.1f} instructions a byte, {each / first:5.2f} times the first")


if __name__ == "__main__":
    main(sys.argv[1])
