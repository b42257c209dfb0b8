#!/usr/bin/env python3
"""Makes data/lines, the list of inputs of program `cells` and of what it prints of them, which the program `lines` replays.

A walk is answered by the harness: its plain walk over the original's box_state. Refusals 1 to 13 are written here by hand
from document 01's table, and the harness has to say the same; refusal 14 is written by hand alone. Run from the project's
root, where the harness finds the original:

    python3 crates/lines/lines_list.py > crates/lines/data/lines

A case is two numbers of six digits, the bytes of the input and of the output, on a line of their own; then the input,
then the output. The exit status is 2 where the original is not at hand.
"""
import subprocess
import sys
from pathlib import Path

ROOT = Path(__file__).resolve().parents[2]
ASK = "cargo run -q --release --offline --manifest-path harness/Cargo.toml --bin ask -- --reference".split()
FRAME = [1, 0, 0, 0, 0, 0, 0]
# The tie rule that `cells` names.
LOWEST_AXIS = 1
LISTING = b"10240 0 0 0 0 0 0 0 2048 0 0 0 0 1024 1024 1024 1\n"


def line(period=10240, kind=0, anchors=(0, 0, 0, 0, 0, 0), start=2048, end=0, box=(0, 0, 0, 1024, 1024, 1024), depth=1):
    return " ".join(map(str, [period, kind, *anchors, start, end, *box, depth])).encode() + b"\n"


def request(text):
    """The request to the harness that a line is: the network, the part frame and the tie rule are set; the table has 64 KiB."""
    n = [int(word) for word in text.split()]
    entries = [n[0], 0, *n[1:10], *FRAME, *n[10:], LOWEST_AXIS, 65536]
    return "walk " + " ".join(map(str, entries)) + "\n"


def printed(answer):
    """The harness's answer of a walk as document 01 has it printed: a line for each cell, without the depth behind its state."""
    words = answer.split()
    if words[0] == "refused":
        return answer + "\n"
    rows = [words[:4]] + [words[i:i + 1] + words[i + 2:i + 8] for i in range(4, len(words), 8)]
    return "".join(" ".join(row) + "\n" for row in rows)


RAMP = (0, 0, 0, 10240, 0, 0)
DIAGONAL = (0, 0, 0, 10240, 10240, 0)
LEAST, MOST = -1048576, 1048576
# With a period of one tick no tick cube is settled: all are cells.
CUBES = (LEAST, LEAST, LEAST, LEAST + 89, LEAST + 23, LEAST + 1)

WALKS = [
    LISTING,
    line(depth=0),
    line(depth=24, box=(0, 0, 0, 1, 1, 1)),
    line(depth=24, start=0, box=(0, 0, 0, 1, 1, 2)),
    line(depth=24, period=1, start=0, box=(-3, 0, 0, 0, 1, 1)),
    line(depth=9, period=1, start=0, box=(-4, 7, -2, 1, 10, 3)),
    line(depth=8, start=0),
    line(depth=7, start=-512, box=(-3000, -2000, -1000, 1000, 2000, 3000)),
    line(depth=6, start=4096), line(depth=6, start=-4096),
    line(depth=3, box=(LEAST, LEAST, LEAST, MOST, MOST, MOST)),
    line(depth=2, period=1048576, box=(1048575, 1048575, 1048575, 1048576, 1048576, 1048576)),
    line(depth=7, kind=1, anchors=RAMP, start=-256, end=256, box=(-1024, 0, 0, 11264, 4096, 4096)),
    line(depth=7, kind=1, anchors=(0, 5120, 0, 0, 0, 0), start=256, end=-256, box=(0, -100, -200, 2000, 6000, 1800)),
    line(depth=5, kind=1, anchors=DIAGONAL, start=1000, end=1000),
    line(depth=4, kind=1, anchors=DIAGONAL, start=4000, end=4000),
    # 2047 cells, which fill the table; of the first every coordinate has eight bytes
    line(depth=24, period=1, start=0, box=CUBES),
    line(depth=14, start=1024, box=(647, 1252, -1402, 4064, 6221, 1494)),
]

REFUSED = [
    # 1: an entry outside its limits or kinds, unused ones and the box's too
    (1, line(period=1048577)), (1, line(period=-1048577)), (1, line(kind=3)), (1, line(kind=-1)), (1, line(kind=9)),
    (1, line(anchors=(1048577, 0, 0, 0, 0, 0))), (1, line(anchors=(0, 0, 0, 0, 0, -1048577))),
    (1, line(start=4097)), (1, line(start=-4097)), (1, line(end=4097)),
    (1, line(box=(-1048577, 0, 0, 1, 1, 1))), (1, line(box=(0, 0, 0, 1, 1, 1048577))),
    (1, line(period=0, box=(0, 0, 0, 1, 1, 1048577))), (1, line(period=9999999)),
    # 2: the period; linear with from = to
    (2, line(period=0)), (2, line(period=-5)), (2, line(kind=1, start=0)), (2, line(kind=1, start=7, end=7)),
    (2, line(period=0, kind=2, box=(0, 0, 0, 0, 1, 1))),
    # 3: distance
    (3, line(kind=2)), (3, line(kind=2, anchors=RAMP, depth=25)),
    # 4: anchors that differ on other than one axis; 5: an end, or the slope
    (4, line(kind=1, anchors=DIAGONAL, start=0, end=1)), (4, line(kind=1, anchors=DIAGONAL, start=300, end=0)),
    (5, line(kind=1, anchors=RAMP, start=257, end=0)), (5, line(kind=1, anchors=RAMP, start=0, end=-257)),
    (5, line(kind=1, anchors=(0, 0, 0, 0, 0, 5119), start=-256, end=256)),
    # 11: a span below 1; 12: the depth
    (11, line(box=(0, 0, 0, 0, 1, 1))), (11, line(box=(0, 5, 0, 1, 4, 1))), (11, line(box=(0, 0, 9, 1, 1, 9), depth=25)),
    (12, line(depth=-1)), (12, line(depth=25)), (12, line(depth=-9999999)), (12, line(depth=9999999)),
    # 13: 2048 cells; and many more
    (13, line(depth=24, period=1, start=0, box=(0, 0, 0, 64, 32, 1))),
    (13, line(depth=14, start=1024, box=(647, 1252, -1402, 4067, 6221, 1494))),
    (13, line(depth=16, start=0, box=(-5120, -5120, -5120, 5120, 5120, 5120))),
    # the longest line of all, whose period is 0
    (2, b" ".join([b"-0000000"] * 17) + b"\n"),
]

# Other spellings of document 01's listing.
SPELLINGS = [
    LISTING.replace(b" 0 ", b" -0 "),
    LISTING.replace(b" 1024 ", b" 0001024 ").replace(b" 0 ", b" 0000000 "),
    LISTING.replace(b"10240 0", b"0010240 -0000000"),
]

BODY = LISTING[:-1]
NO_LINES = [
    b"", b"\n", b" ", b"-", b"0", b"\x00",
    BODY, BODY + b" \n", BODY + b"\r\n", BODY + b"\x00", BODY + b"\n\x00", BODY + b"\n\n", BODY + b"\n ", BODY + b"\n" + LISTING,
    b" " + LISTING, b"\n" + LISTING, b"\xef\xbb\xbf" + LISTING,
    BODY + b" 1\n", LISTING[6:], LISTING[:-3] + b"\n", LISTING[:-2] + b"\n",
    LISTING.replace(b"10240", b"00010240"), LISTING.replace(b"10240", b"-00010240"), LISTING.replace(b"10240", b"99999999"),
    LISTING.replace(b"10240 ", b"10240  "), LISTING.replace(b"10240 ", b"10240\t"), LISTING.replace(b"10240 ", b"10240,"),
    LISTING.replace(b"10240 ", b"10240\n"), LISTING.replace(b"10240 ", b"10240\xa0"),
    LISTING.replace(b"10240", b"+10240"), LISTING.replace(b"10240", b"--10240"), LISTING.replace(b"10240", b"- 10240"),
    LISTING.replace(b"10240", b"10240-"), LISTING.replace(b"10240", b"-"), LISTING.replace(b"10240", b""),
    LISTING.replace(b"10240", b"10240.0"), LISTING.replace(b"10240", b"0x2800"), LISTING.replace(b"10240", b"1e4"),
    LISTING.replace(b"10240", b"1024O"), LISTING.replace(b"10240", b"\xd9\xa1"), LISTING.replace(b"10240", b"10240/"),
    LISTING.replace(b"10240", b":0240"), LISTING.replace(b"2048", b"20\x0048"),
    LISTING.replace(b" 1\n", b" 1 \n"), LISTING.replace(b" 1\n", b" x\n"), LISTING.replace(b" 1\n", b" -\n"),
    b" ".join([b"-0000000"] * 17) + b"\n\n", b"0" * 153, b"1 " * 128, b"7" * 4096,
]


def answers(texts):
    said = subprocess.run(ASK, cwd=ROOT, input="".join(map(request, texts)), stdout=subprocess.PIPE, text=True)
    if said.returncode:
        sys.exit(said.returncode)
    return [printed(answer) for answer in said.stdout.splitlines()]


def case(given, wanted):
    sys.stdout.buffer.write(b"%06d %06d\n" % (len(given), len(wanted)) + given + wanted)


def main():
    walked = answers(WALKS)
    for text, answer in zip(WALKS, walked, strict=True):
        assert not answer.startswith("refused"), text
        case(text, answer.encode())
    refused = [text for _, text in REFUSED]
    for (number, text), answer in zip(REFUSED, answers(refused), strict=True):
        assert answer == f"refused {number}\n", (text, answer)
        case(text, answer.encode())
    for text in SPELLINGS:
        assert text != LISTING
        case(text, walked[0].encode())
    for text in NO_LINES:
        assert text != LISTING
        case(text, b"refused 14\n")


main()
