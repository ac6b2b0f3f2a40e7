"""Chart files with their reports, worked out by hand, to check the reference itself."""

import reference

HUB = b"""3
run
hold
feather
4
0 1 1 200
0 2 2 50
1 0 0 500
1 2 0 300
0
2
0 2 d 3
0 2 f 3
"""
HUB_REPORT = """chart 3 modes 4 exits 0 locks 2 questions
question 0 run feather d
question 1 run feather f"""


def hub(old, new):
    """The hub file with one place changed."""
    assert HUB.count(old) == 1
    return HUB.replace(old, new)


WORKED = [
    (HUB, HUB_REPORT),
    # ends
    (b"", "fault reading 5 line 1"),
    (b"\n", "fault reading 2 line 1"),
    (b"3", "fault reading 5 line 1"),
    (b"3\n", "fault reading 5 line 2"),
    (b"x", "fault reading 5 line 1"),
    (HUB[:-1], "fault reading 5 line 13"),
    (HUB[:-8], "fault reading 5 line 13"),
    (HUB[:-9], "fault reading 5 line 12"),
    (HUB + b"\n", "fault reading 6 line 14"),
    (HUB + b" ", "fault reading 6 line 14"),
    (HUB + HUB, "fault reading 6 line 14"),
    (HUB + b"x" * (16_384 - len(HUB)), "fault reading 6 line 14"),
    (HUB + b"x" * (16_385 - len(HUB)), "fault reading 1 line 0"),
    (b"\n" * 16_384, "fault reading 2 line 1"),
    (b"\n" * 16_385, "fault reading 1 line 0"),
    # forms
    (hub(b"3\nrun", b"03\nrun"), "fault reading 2 line 1"),
    (hub(b"3\nrun", b"3 \nrun"), "fault reading 2 line 1"),
    (hub(b"3\nrun", b"+3\nrun"), "fault reading 2 line 1"),
    (hub(b"hold", b"Hold"), "fault reading 2 line 3"),
    (hub(b"hold", b""), "fault reading 2 line 3"),
    (hub(b"hold", b"hold\r"), "fault reading 2 line 3"),
    (hub(b"hold", b"h old"), "fault reading 2 line 3"),
    (hub(b"hold", b"h\xf6ld"), "fault reading 2 line 3"),
    (hub(b"hold", b"-"), HUB_REPORT),
    (hub(b"hold", b"run"), HUB_REPORT),
    (hub(b"run", b"0123456789-abxyz"), HUB_REPORT.replace("run", "0123456789-abxyz")),
    (hub(b"run", b"0123456789-abxyzw"), "fault reading 2 line 2"),
    (hub(b"0 1 1 200", b"0 1 1  200"), "fault reading 2 line 6"),
    (hub(b"0 1 1 200", b"0 1 1\t200"), "fault reading 2 line 6"),
    (hub(b"0 1 1 200", b"0 1 1"), "fault reading 2 line 6"),
    (hub(b"0 1 1 200", b"0 1 1 200 0"), "fault reading 2 line 6"),
    (hub(b"0 1 1 200", b"0 1 1 00"), "fault reading 2 line 6"),
    (hub(b"0 1 1 200", b"0 1 1 0"), HUB_REPORT),
    (hub(b"0 1 1 200", b"0 1 255 4294967295"), HUB_REPORT),
    (hub(b"0 1 1 200", b"0 1 256 200"), "fault reading 2 line 6"),
    (hub(b"0 1 1 200", b"0 1 1 4294967296"), "fault reading 2 line 6"),
    (hub(b"0 2 f 3", b"0 2 e 3"), "fault reading 2 line 13"),
    (hub(b"0 2 f 3", b"0 2 ff 3"), "fault reading 2 line 13"),
    (hub(b"0 2 f 3", b"0 2 3 f"), "fault reading 2 line 13"),
    # ranges
    (hub(b"3\nrun", b"0\nrun"), "fault reading 3 line 1"),
    (hub(b"3\nrun", b"65\nrun"), "fault reading 3 line 1"),
    (hub(b"3\nrun", b"4294967295\nrun"), "fault reading 3 line 1"),
    (hub(b"3\nrun", b"4294967296\nrun"), "fault reading 2 line 1"),
    (hub(b"4\n0", b"513\n0"), "fault reading 3 line 5"),
    (hub(b"4\n0", b"512\n0"), "fault reading 2 line 10"),
    (hub(b"4\n0", b"3\n0"), "fault reading 2 line 9"),
    (hub(b"\n0\n2\n", b"\n33\n2\n"), "fault reading 3 line 10"),
    (hub(b"\n0\n2\n", b"\n32\n2\n"), "fault reading 2 line 11"),
    (hub(b"\n0\n2\n", b"\n0\n0\n"), "fault reading 3 line 11"),
    (hub(b"\n0\n2\n", b"\n0\n9\n"), "fault reading 3 line 11"),
    (hub(b"\n0\n2\n", b"\n0\n8\n"), "fault reading 5 line 14"),
    (hub(b"\n0\n2\n", b"\n0\n1\n"), "fault reading 6 line 13"),
    (hub(b"0 2 f 3", b"0 2 f 99"), HUB_REPORT),
    (hub(b"0 2 f 3", b"0 2 f 100"), "fault reading 3 line 13"),
    (hub(b"0 2 f 3", b"0 2 e 100"), "fault reading 2 line 13"),
    # first modes of exit lines
    (hub(b"0 2 2 50", b"2 2 2 50"), "fault reading 4 line 8"),
    (hub(b"1 2 0 300", b"3 2 0 300"), "fault reading 4 line 9"),
    (hub(b"1 2 0 300", b"3 2 256 300"), "fault reading 2 line 9"),
    (hub(b"1 2 0 300", b"2 2 0 300"), HUB_REPORT),
    # chart
    (hub(b"1 0 0 500", b"1 3 0 500"), "fault chart 12 entry 2 line 8"),
    (hub(b"1 0 0 500", b"1 3 0 500")[:-1], "fault reading 5 line 13"),
    (hub(b"4\n", b"67\n" + b"0 9 0 0\n" * 63), "fault chart 11 offset 1 line 5"),
    (hub(b"4\n", b"66\n" + b"0 9 0 0\n" * 62), "fault chart 12 entry 0 line 6"),
    (b"1\na\n65\n" + b"0 0 0 0\n" * 65 + b"0\n1\n0 0 d 0\n", "fault chart 11 offset 1 line 3"),
    # locks
    (hub(b"\n0\n2\n", b"\n1\n2 0\n2\n"), "fault lock 21 lock 0 line 11"),
    (hub(b"\n0\n2\n", b"\n1\n3 0\n2\n"), "fault lock 20 lock 0 line 11"),
    (hub(b"\n0\n2\n", b"\n3\n0 1\n0 2\n3 0\n2\n"), "fault lock 21 lock 1 line 12"),
    (hub(b"\n0\n2\n", b"\n2\n1 1\n1 1\n2\n"), HUB_REPORT.replace("0 locks", "2 locks")),
    # questions
    (hub(b"0 2 f 3", b"3 3 f 3"), HUB_REPORT[:-24] + "fault lister 30 question 1"),
    (hub(b"0 2 f 3", b"2 3 f 3"), HUB_REPORT[:-24] + "fault lister 31 question 1"),
]


def check():
    for data, report in WORKED:
        told = reference.answer(data)
        assert told == report.encode() + b"\n", (data[:200], report, told)


if __name__ == "__main__":
    check()
    print(f"{len(WORKED)} worked files, as told by hand")
