"""The expected output of each program of the gate, made by the model: the program's cases and its way of printing, with the model's answers."""
from pathlib import Path

import runs
import vectors
from printing import spaced
from ruszvedok_model import call, recording, wraplist

CRATES = Path(__file__).resolve().parents[2] / "crates"


def given(name):
    """What the program reads."""
    return (CRATES / name / "stdin").read_bytes()


# ── wraplist and rows_test

def rows_test():
    head = b"width break bytes\n"
    short = [b"", b"\n", b"width break bytes", b"width break bytes\r\n", b"width break bytes \n", head, head + b"5 0 6f"]
    longest = [head + b"\n" * (65536 - len(head)), head + b"\n" * (65537 - len(head))]
    many_bytes = [head + b"1 1 " + b"66" * 4000 + b"\n", head + b"1 1 " + b"66" * 4001 + b"\n"]
    shown = [given("rows_test")] + short
    files = [(CRATES / "rows_test" / "data" / name).read_bytes() for name in ("full", "over", "more")]
    # What document 01 does not fix: what the program says of a failure and of itself.
    told = [
        b"wraplist: cannot read the sheet\n",
        b"wraplist: cannot write the rows\n",
        b"wraplist reads a sheet of wrapping tasks from standard input and prints where their lines start and end, and how wide they are.\n",
        b"A sheet: the line 'width break bytes', then on each line a width, 1 to break long words or else 0, and hexadecimal bytes or -.\n",
    ]
    lengths = [b"%d\n" % len(wraplist(sheet)) for sheet in longest + many_bytes]
    return b"".join([*map(wraplist, shown), *lengths, *map(wraplist, files), *told])


# ── replace_records_test

def replace_case(name, content, records, d, e, t):
    numbers, (data, entries, text, _) = call("write_replaced", content, records, b"XY", room=(b"." * d, (7,) * e, b"." * t))
    return name.encode() + b":" + spaced(numbers) + b" |" + data + b"|" + spaced(entries) + b" |" + text + b"|\n"


def replace_records_test():
    plain, labelled = recording(b"abcdef"), recording(b"abcdef", (1, 0, 1, 2, 3, 2, 3, 1, 4, 1, 0, 0), b"?hiR?")
    falling = recording(b"ab", (2, 1, 0, 0, 1, 1, 0, 0))
    a, b, bad = (1, 3, 0, 1), (4, 4, 1, 2), (2, 4, 0, 1)
    return b"".join(replace_case(*case) for case in [
        ("C14", plain, a + (6, 6, 1, 2), 12, 0, 0),
        ("touching", plain, a + (3, 4, 1, 2), 12, 0, 0),
        ("at both ends", plain, (0, 0, 0, 1, 6, 6, 1, 2), 12, 0, 0),
        ("twice in at the pop", labelled, (4, 4, 0, 1, 4, 4, 1, 2), 8, 12, 4),
        ("at both ends", labelled, (0, 0, 0, 1, 6, 6, 1, 2), 8, 12, 3),
        ("start > end", plain, a + (5, 4, 0, 1), 12, 0, 0),
        ("end beyond the data", plain, a + (4, 7, 0, 1), 12, 0, 0),
        ("start below the previous end", plain, a + bad, 12, 0, 0),
        ("from > to", plain, a + (4, 5, 1, 0), 12, 0, 0),
        ("to beyond its text", plain, a + (4, 5, 0, 3), 12, 0, 0),
        ("the first", plain, (3, 2, 0, 1, 4, 5, 0, 1), 12, 0, 0),
        ("exactly full", labelled, a + b, 6, 12, 3),
        ("data one short", labelled, a + b, 5, 12, 3),
        ("entries one short", labelled, a + b, 6, 11, 3),
        ("text one short", labelled, a + b, 6, 12, 2),
        ("bad and short", labelled, a + bad, 5, 11, 2),
        ("falling", falling, a + bad, 4, 8, 1),
    ])


PROGRAMS = {
    "replace_records_test": replace_records_test,
    "rows_test": rows_test,
    "runs_test": runs.runs_test,
    "vectors": lambda: vectors.check(given("vectors").decode())[0].encode(),
    "wraplist": lambda: wraplist(given("wraplist")),
}
