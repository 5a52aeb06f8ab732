"""The model's own tests: document 01's cases C1 to C16, with document 02's widths of lines, tab stops, indent taken off, pictures, two readers and line
index; its reading of UTF-8 against Python's decoder; and laws, on random inputs (those of the two readers are in `views.py`, of the line index in
`indexes.py`, of shared label texts in `sharing.py`, of pages of cells in `cells.py`, of tally sheets in
`tally.py`)."""
import random
from contextlib import contextmanager

import cells
import indexes
import lists
import random_calls
import ruszvedok_model
import tally

from runs import NAMES
from ruszvedok_model import (CALLS, PICTURES, PUSH, QUESTIONS, RAW, TEXT_CALLS, Recording, balanced, call, char_width, chars, coloured, listed_lines,
                             recording, text_width, width_of, wraplist)

FACE, TRUCK = "\U0001F600".encode(), "\U0001F680".encode()
WRAPS = [
    ("C1", b"oak 12 ft b", 5, False, [0, 3, 3, 4, 9, 5, 10, 11, 1]),
    ("C2", b"", 5, False, [0, 0, 0]),
    ("C3", b"ab\n", 5, False, [0, 2, 2, 3, 3, 0]),
    ("C4", b"   ab", 2, False, [0, 0, 0, 3, 5, 2]),
    ("C5", b"abcde", 2, True, [0, 2, 2, 2, 4, 2, 4, 5, 1]),
    ("C5, break 0", b"abcde", 2, False, [0, 5, 5]),
    ("C6", b"ab c", 0, True, [0, 2, 2, 3, 4, 1]),
    ("C7", b"\xE6\x9C\xA8a", 1, True, [0, 3, 2, 3, 4, 1]),
    ("Q-5, C7 of a face", FACE + b"a", 1, True, [0, 4, 2, 4, 5, 1]),
    ("Q-5, a column is left before a truck", b"a" + TRUCK + b" b", 2, True, [0, 1, 1, 1, 5, 2, 6, 7, 1]),
    ("Q-5, its last byte in the next word", FACE[:3] + b" " + FACE[3:], 2, False, [0, 3, 1, 4, 5, 1]),
]
SPRUCE, DOTS = recording(b"spruce"), recording(b"..")
DATA = [
    ("C9", ("write_truncated_end", SPRUCE, DOTS, 4), b"sp..", 4),
    ("C10", ("write_truncated_start", SPRUCE, DOTS, 4), b"..ce", 4),
    ("C11", ("write_truncated_end", SPRUCE, DOTS, 1), b".", 1),
    ("C12", ("write_padded_centered", recording(b"fir"), recording(b"."), 6), b".fir..", 0),
    ("C13", ("write_indented", recording(b"a\n\nb"), recording(b"> ")), b"> a\n\n> b", 0),
    ("C14", ("write_replaced", recording(b"abcdef"), (1, 3, 0, 1, 6, 6, 1, 2), b"XY"), b"aXdefY", 0),
    ("C15", ("elide_end", b"spruce", b"..", 4), b"sp..", 4),
    ("Q-2, up to the next stop", ("write_tabs_expanded", recording(b"ab\tc"), 8), b"ab      c", 0),
    ("Q-2, at a stop", ("write_tabs_expanded", recording(b"abcd\te"), 4), b"abcd    e", 0),
    ("Q-2, columns since the last 0A", ("write_tabs_expanded", recording(b"abc\n\xE6\x9C\xA8\t\t"), 4), b"abc\n\xE6\x9C\xA8      ", 0),
    ("Q-3, C13 back", ("write_unindented", recording(b"> a\n\n> b"), recording(b"> ")), b"a\n\nb", 0),
    ("Q-3, a last 0A, and a line that is the prefix", ("write_unindented", recording(b"> a\n> \n"), recording(b"> ")), b"a\n\n", 0),
    ("Q-3, once from each line", ("write_unindented", recording(b"aaaa\naaa\naa"), recording(b"aa")), b"aa\na\n", 0),
    ("Q-3, an empty prefix", ("write_unindented", recording(b"a\n\nb"), recording(b"", (0, 2, 0, 1), b"R")), b"a\n\nb", 0),
    ("Q-3, bytes and no characters", ("write_unindented", recording(b"\xE6\x9C\xA8"), recording(b"\xE6\x9C")), b"\xA8", 0),
    ("Q-5, a face passes the width", ("write_truncated_end", recording(b"a" + FACE + b"b"), DOTS, 3), b"a..", 3),
    ("Q-5, from the end back", ("write_truncated_start", recording(b"b" + TRUCK + b"a"), DOTS, 3), b"..a", 3),
    ("Q-5, an ellipsis that has one", ("write_truncated_end", SPRUCE, recording(FACE + b"."), 4), b"s" + FACE + b".", 4),
    ("Q-5, two columns are not filled", ("write_padded_end", recording(FACE), recording(b"."), 3), FACE + b".", 0),
    ("Q-5, without its last byte it has one", ("write_padded_end", recording(FACE[:3]), recording(b"."), 3), FACE[:3] + b"..", 0),
    ("Q-5, a tab behind a truck", ("write_tabs_expanded", recording(TRUCK + b"\ta"), 4), TRUCK + b"  a", 0),
    ("Q-5, elided", ("elide_start", b"ab" + FACE, b".", 3), b"." + FACE, 3),
    ("fill ab, an entry at 1, twice", ("write_padded_start", recording(b""), recording(b"ab", (1, 2, 0, 1), b"x"), 2), b"aabb", 0),
]
# Entries and text of a recording whose parts are over the text's limit together.
TWICE = (0, 0, 0, 32769, 0, 2, 0, 32769), b"x" * 32769
REFUSALS = [
    ("1 of the ellipsis before 7 of the text", ("elide_end", b"\xFF", b"a" * 1048577, 4), 1),
    ("6 of the content before 2 of the fill", ("write_padded_end", recording(b"", (0, 0, 0, 1), b"\xFF"), recording(b"", (0,)), 4), 6),
    ("8 before 9", ("write_replaced", recording(b"ab"), (0, 0, 0, 1048576, 2, 1, 0, 0), b"a" * 1048576), 8),
    ("9 before 21", ("write_padded_end", recording(b"ab"), recording(b"."), 1048577), 9),
    ("6 before 31", ("write_tabs_expanded", recording(b"", (0, 0, 0, 1), b"\xFF"), 0), 6),
    ("31 before 9", ("write_tabs_expanded", recording(b"\t" * 16385), 65), 31),
    ("9 at stop 64", ("write_tabs_expanded", recording(b"\t" * 16385), 64), 9),
    ("the limit at stop 64", ("write_tabs_expanded", recording(b"\t" * 16384), 64), 21),
    ("32, the prefix has a 0A", ("write_unindented", recording(b""), recording(b">\n")), 32),
    ("33 in the first line", ("write_unindented", recording(b"a\n>b"), recording(b">")), 33),
    ("33 in the last line", ("write_unindented", recording(b">a\nb"), recording(b">")), 33),
    ("33, a line shorter than the prefix", ("write_unindented", recording(b"> a\n>\n> b"), recording(b"> ")), 33),
    ("33, behind a line's first byte", ("write_unindented", recording(b".>a"), recording(b">")), 33),
    ("33, its last byte", ("write_unindented", recording(b">>a\n>.b"), recording(b">>")), 33),
    ("empty lines are not asked", ("write_unindented", recording(b"\n\n"), recording(b">")), 21),
    ("6 of the content before 2 of the prefix", ("write_unindented", recording(b"a", (0, 0, 0, 1), b"\xFF"), recording(b"\n", (0,))), 6),
    ("6 of the prefix before 32", ("write_unindented", recording(b"a"), recording(b"\n", (0, 0, 0, 1), b"\xFF")), 6),
    ("2 of the prefix before 33", ("write_unindented", recording(b"a"), recording(b"b", (0,))), 2),
    ("32 before 33", ("write_unindented", recording(b"a"), recording(b"b\n")), 32),
    ("32 before 9", ("write_unindented", recording(b">", *TWICE), recording(b"\n")), 32),
    ("33 before 9", ("write_unindented", recording(b"a", *TWICE), recording(b">")), 33),
    ("9 before 21", ("write_unindented", recording(b">a", *TWICE), recording(b">")), 9),
    ("the prefix's text is not counted", ("write_unindented", recording(b">a"), recording(b">", *TWICE)), 21),
    *[(f"{refusal} of {name}, {why}", (name, content, label), refusal) for name in ("write_for_office", "write_for_floor") for why, content, label, refusal in [
        ("the label is empty", recording(b""), b"", 34),
        ("the label is ill-formed", recording(b""), b"x\xE6", 34),
        ("a label stays open", recording(b"a", (0, 0, 0, 1), b"x"), b"y", 35),
        ("a pop has nothing to close", recording(b"a", (0, 1, 0, 0, 0, 0, 0, 1), b"x"), b"y", 35),
        ("6 before 34", recording(b"", (0, 0, 0, 1), b"\xFF"), b"", 6),
        ("34 before 35", recording(b"", (0, 1, 0, 0)), b"", 34),
        ("34 before 9", recording(b"", *TWICE), b"\xFF", 34),
        ("35 before 9", recording(b"", *TWICE), b"y", 35),
        ("9 before 21", recording(b"a", TWICE[0] + (1, 1, 0, 0), TWICE[1]), b"y", 9),
    ]],
    ("9 of the office, whose raw sequence stays", ("write_for_office", recording(b"a", TWICE[0] + (1, 1, 0, 0), TWICE[1]), TWICE[1]), 9),
    ("21 of the floor, whose raw sequence goes", ("write_for_floor", recording(b"a", TWICE[0] + (1, 1, 0, 0), TWICE[1]), TWICE[1]), 21),
    ("nothing is left of a tab", ("write_for_floor", recording(b"\t", (0, 0, 0, 1, 1, 1, 0, 0), b"x"), b"x"), 22),
]
# The code points on both sides of the ends of the two ranges, and their neighbours inside.
PICTURE_WIDTHS = [(0x1F5FF, 1), (0x1F600, 2), (0x1F601, 2), (0x1F64E, 2), (0x1F64F, 2), (0x1F650, 1), (0x1F67F, 1), (0x1F680, 2), (0x1F681, 2), (0x1F6C4, 2), (0x1F6C5, 2), (0x1F6C6, 1)]
LABELLED = recording(b"ab cd", (0, 0, 0, 1, 2, 1, 0, 0), b"x")
TABBED = recording(b"a\tb", (1, 0, 0, 1, 2, 1, 0, 0), b"x")
# Entries at the line's first byte, inside the prefix, at its end, and behind it; a prefix with entries of its own.
QUOTED = recording(b"> a\n> b", (0, 0, 0, 1, 1, 2, 1, 1, 2, 1, 0, 0, 4, 0, 0, 1, 5, 0, 2, 1, 6, 1, 0, 0, 7, 1, 0, 0), b"xRy")
QUOTE = recording(b"> ", (0, 0, 0, 1, 1, 2, 1, 1, 2, 1, 0, 0), b"pS")
# The floor's reading for x (document 02, Q-6): data and entries, and what is left of them.
TREE = "木".encode()
X, Y, POP, Q, R = (PUSH, b"x"), (PUSH, b"y"), (1, b""), (RAW, b"q"), (RAW, b"r")
FLOOR = [
    ("a wide character", TREE, [(0, X), (3, POP)], b"**", [(0, X), (2, POP)]),
    ("one of width 0, a tab among them, and a face", b"a\xCC\x81\tb" + FACE, [(1, X), (4, POP), (5, X), (9, POP)], b"ab**", [(1, X), (1, POP), (2, X), (4, POP)]),
    ("0A stays", b"1\n2", [(0, X), (3, POP)], b"*\n*", [(0, X), (3, POP)]),
    ("0A alone under it", b"1\n2", [(1, X), (2, POP)], b"1\n2", [(1, X), (2, POP)]),
    ("its last byte only: under the labels of its first", TREE + b"a", [(0, Y), (2, X), (3, POP), (3, POP)], b"**a", [(0, Y), (2, X), (2, POP), (2, POP)]),
    ("its first byte only", TREE + b"a", [(0, X), (1, POP)], b"**a", [(0, X), (2, POP)]),
    ("entries inside, in their order", TREE, [(0, X), (1, Y), (2, POP), (3, POP)], b"**", [(0, X), (2, Y), (2, POP), (2, POP)]),
    ("entries inside a character that stays", TREE + b"1", [(1, Y), (2, POP), (3, X), (4, POP)], TREE + b"*", [(1, Y), (2, POP), (3, X), (4, POP)]),
    ("over no byte of a character: it stays, the raw sequence goes", TREE, [(1, X), (1, R), (1, POP)], TREE, [(1, X), (1, POP)]),
    ("raw sequences before, under and behind", b"1", [(0, Q), (0, X), (0, R), (1, R), (1, POP), (1, Q)], b"*", [(0, Q), (0, X), (1, POP), (1, Q)]),
    ("raw sequences inside a character, under and behind", TREE, [(0, X), (2, R), (2, POP), (2, Q)], b"**", [(0, X), (2, POP), (2, Q)]),
    ("a raw sequence inside one that the label reaches later", TREE, [(1, Q), (2, X), (3, POP)], b"**", [(2, Q), (2, X), (2, POP)]),
    ("twice, one inside the other", b"123", [(0, X), (0, X), (1, POP), (1, R), (2, POP), (2, Q)], b"**3", [(0, X), (0, X), (1, POP), (2, POP), (2, Q)]),
    ("under another inside it, and inside another", b"1234", [(0, X), (0, Y), (1, POP), (1, POP), (2, Y), (3, X), (4, POP), (4, POP)], b"*23*",
     [(0, X), (0, Y), (1, POP), (1, POP), (2, Y), (3, X), (4, POP), (4, POP)]),
    ("longer and shorter labels are others", b"12", [(0, (PUSH, b"xx")), (0, R), (1, POP), (1, (PUSH, b"")), (2, POP)], b"12", [(0, (PUSH, b"xx")), (0, R), (1, POP), (1, (PUSH, b"")), (2, POP)]),
    ("ill-formed bytes: one each, but for a sequence cut off", b"\xFF\xE6\x9C\xE0\x80A", [(0, X), (5, POP)], b"****A", [(0, X), (4, POP)]),
    ("two that meet", b"\xC3\xCC\x81\xA9", [(1, X), (3, POP)], b"\xC3\xA9", [(1, X), (1, POP)]),
]

# Document 02, Q-7: data, its index, first byte and end of each line, line and column of each offset.
INDEXES = [
    ("the lines of a text", b"a\nbb\n", (0, 2, 5), [(0, 1), (2, 4), (5, 5)], [(0, 0), (0, 1), (1, 0), (1, 1), (1, 2), (2, 0)]),
    ("no data", b"", (0,), [(0, 0)], [(0, 0)]),
    ("a 0A", b"\n", (0, 1), [(0, 0), (1, 1)], [(0, 0), (1, 0)]),
    ("0A only", b"\n\n", (0, 1, 2), [(0, 0), (1, 1), (2, 2)], [(0, 0), (1, 0), (2, 0)]),
    ("no 0A", b"ab", (0,), [(0, 2)], [(0, 0), (0, 1), (0, 2)]),
    ("0D is a byte of its line", b"a\r\nb", (0, 3), [(0, 2), (3, 4)], [(0, 0), (0, 1), (0, 2), (1, 0), (1, 1)]),
    ("bytes and no characters", TREE + b"\n\xC3", (0, 4), [(0, 3), (4, 5)], [(0, 0), (0, 1), (0, 2), (0, 3), (1, 0), (1, 1)]),
]
ROWS, FAULTY = recording(b"a\nbb\n"), recording(b"a\nbb\n", (0, 0, 0, 1), b"\xFF")
# The list before, which a refusal leaves so, and the number.
INDEX_REFUSALS = [
    ("too short by one", ("build_line_index", ROWS), (7, 8), 36),
    ("none", ("build_line_index", recording(b"")), (), 36),
    ("6 before 36", ("build_line_index", FAULTY), (), 6),
    ("1 before 36", ("build_line_index", recording(b"a" * 1048577)), (), 1),
    ("too short by one, extended", ("extend_line_index", ROWS, 2, 2), (0, 2), 36),
    ("nothing used", ("extend_line_index", ROWS, 0, 0), (0, 2, 5), 36),
    ("nothing used of no data", ("extend_line_index", recording(b""), 0, 0), (0,), 36),
    ("more used than the list has", ("extend_line_index", ROWS, 5, 4), (0, 2, 5), 36),
    ("more earlier data than there is", ("extend_line_index", ROWS, 6, 3), (0, 2, 5, 7), 36),
    ("one used too few", ("extend_line_index", ROWS, 5, 2), (0, 2, 5), 36),
    ("one used too many", ("extend_line_index", ROWS, 4, 3), (0, 2, 5), 36),
    ("a number of the earlier index is wrong", ("extend_line_index", ROWS, 3, 2), (0, 1, 5), 36),
    ("its first number is wrong", ("extend_line_index", ROWS, 3, 2), (1, 2, 5), 36),
    ("2 before 36, extended", ("extend_line_index", recording(b"a", (0,)), 2, 9), (), 2),
]
INDEX_EXTENSIONS = [
    ("by nothing", 5, 3, (0, 2, 5, 9)),
    ("by a 0A", 4, 2, (0, 2, 8, 9)),
    ("from behind a 0A", 2, 2, (0, 2, 8, 9)),
    ("from before it", 1, 1, (0, 7, 8, 9)),
    ("from no data", 0, 1, (0, 7, 8, 9)),
]
QUESTION_REFUSALS = [
    ("line 3 of 3", ("line_at", ROWS, (0, 2, 5), 3), 37),
    ("offset 6 of 5", ("place_of", ROWS, (0, 2, 5), 6), 37),
    *[(f"{why}, {name}", (name, r, index, asked), refusal) for name, asked in (("line_at", 3), ("place_of", 6)) for why, r, index, refusal in [
        ("a number wrong", ROWS, (0, 3, 5), 36), ("one too few", ROWS, (0, 2), 36), ("one too many", ROWS, (0, 2, 5, 5), 36),
        ("not in order", ROWS, (0, 5, 2), 36), ("the first not 0", ROWS, (1, 2, 5), 36), ("none", ROWS, (), 36),
        ("6 before 36", FAULTY, (0,), 6), ("6 before 37", FAULTY, (0, 2, 5), 6),
        ("4 before 36", recording(b"", (1, 1, 0, 0)), (), 4), ("5 before 36", recording(b"", (), b"x" * 65537), (), 5)]],
    ("36 though the line is there", ("line_at", ROWS, (0, 2, 5, 6), 0), 36),
    ("36 though the offset is there", ("place_of", ROWS, (0, 2), 0), 36),
]


def index_cases():
    """The names of the cases of the line index that do not come out so."""
    wrong = []
    for name, data, index, lines, places in INDEXES:
        r = recording(data, (0, 0, 0, 1, len(data), 1, 0, 0), b"x")
        answers = call("build_line_index", r, room=(0, 0, 0, len(index) + 1)), call("build_line_index", r, room=(0, 0, 0, len(index)))
        if answers != tuple(((0, 0, 0, 0, len(index)), (b"", (), b"", index + rest)) for rest in ((0xA5A5A5A5,), ())):
            wrong.append(name)
        for question, expected in (("line_at", lines), ("place_of", places)):
            if [call(question, r, index, k) for k in range(len(expected) + 1)] != [((0, *pair), ()) for pair in expected] + [((37, 0, 0), ())]:
                wrong.append(f"{name}, {question}")
    wrong += [name for name, inputs, held, refusal in INDEX_REFUSALS if call(*inputs, room=(3, 2, 1, held)) != ((refusal, 0, 0, 0, 0), lent(3, 2, 1, held))]
    wrong += [name for name, earlier, used, held in INDEX_EXTENSIONS
              if call("extend_line_index", ROWS, earlier, used, room=(3, 2, 1, held)) != ((0, 0, 0, 0, 3), lent(3, 2, 1, (0, 2, 5, 9)))]
    return wrong + [name for name, inputs, refusal in QUESTION_REFUSALS if call(*inputs) != ((refusal, 0, 0), ())]


def lent(data, numbers, text, lines):
    """Buffers with A5 in every byte, and a list."""
    return b"\xA5" * data, (0xA5A5A5A5,) * numbers, b"\xA5" * text, lines


def entry_list(parts):
    """Entry numbers and text of entries given by place, kind and text, as a result has them: an equal label has the part of the first one."""
    numbers, text = [], b""
    for k, (position, (kind, part)) in enumerate(parts):
        same = next((i for i, (_, what) in enumerate(parts[:k]) if kind == PUSH and what == (PUSH, part)), None)
        numbers += (position, kind, 0 if kind == 1 else len(text) if same is None else numbers[4 * same + 2], len(part))
        text += part if same is None else b""
    return numbers, text


def document_cases():
    """The names of the cases that do not come out as the document says."""
    wrong = []
    if wraplist(b"width break bytes\n5 0 6f616b2031322066742062\n5\n") != b"row line start end width\n0 0 0 3 3\n0 1 4 9 5\n0 2 10 11 1\n1 ! 0 0\n":
        wrong.append("the listing")
    for name, data, width, breaks, lines in WRAPS:
        full = ((0, 0, 0, 0, len(lines) // 3), (b"", (), b"", tuple(lines)))
        short = ((24, 0, 0, 0, 0), (b"", (), b"", (0xA5A5A5A5,) * (len(lines) - 1)))
        if [call("wrap_bytes", data, width, breaks, room=(0, 0, 0, room)) for room in (len(lines), len(lines) - 1)] != [full, short]:
            wrong.append(name)
    if text_width(b"\xE6\x9C\x41") != 2:
        wrong.append("C8")
    for name, inputs, data, number in DATA:
        numbers, buffers = call(*inputs, room=(len(data), 8, 4))
        if (numbers[0], numbers[1], numbers[4], buffers[0]) != (0, len(data), number, data):
            wrong.append(name)
    wrong += [f"Q-5, U+{code:X}" for code, width in PICTURE_WIDTHS if [char_width(code), text_width(chr(code).encode())] != [width, width]]
    wrong += [name for name, inputs, refusal in REFUSALS if call(*inputs) != ((refusal, 0, 0, 0, 0), (b"", (), b"", ()))]
    numbers, (data, entries, text, lines) = call("write_wrapped", LABELLED, 2, False, room=(5, 8, 1, 6))
    if (entries, lines) != ((0, 0, 0, 1, 2, 1, 0, 0), (0, 2, 2, 3, 5, 2)) or coloured(recording(data, entries, text))[2] != (0x0A, ()):
        wrong.append("C16")
    numbers, (data, entries, text, _) = call("write_tabs_expanded", TABBED, 4, room=(5, 8, 1))
    if entries != (1, 0, 0, 1, 4, 1, 0, 0) or coloured(recording(data, entries, text)) != [(0x61, ()), *[(0x20, (b"x",))] * 3, (0x62, ())]:
        wrong.append("Q-2, the tab's labels")
    numbers, (data, entries, text, _) = call("write_unindented", QUOTED, QUOTE, room=(3, 28, 3))
    if (numbers[0], data, text) != (0, b"a\nb", b"xRy") or entries != (0, 0, 0, 1, 0, 2, 1, 1, 0, 1, 0, 0, 2, 0, 0, 1, 2, 0, 2, 1, 2, 1, 0, 0, 3, 1, 0, 0):
        wrong.append("Q-3, the entries")
    for name, content, parts, data, left in FLOOR:
        given, expected = recording(content, *entry_list(parts)), recording(data, *entry_list(left))
        numbers, buffers = call("write_for_floor", given, b"x", room=tuple(map(len, expected)))
        office = call("write_for_office", given, b"x", room=tuple(map(len, given)))
        if (numbers, buffers[:3], office) != ((0, *map(len, expected), 0), expected, ((0, *map(len, given), 0), given + ((),))):
            wrong.append(f"Q-6, {name}")
    wrong += [f"Q-7, {name}" for name in index_cases()]
    if there_and_back(recording(b">a\n>\n>b"), recording(b">"), "write_unindented", "write_indented")[1].data != b">a\n\n>b":
        wrong.append("Q-3, a line that is exactly the prefix does not come back")
    return wrong


def samples():
    """Every text of two bytes, and longer ones of lead, tail and other bytes at the edges of table 3-7."""
    yield from (bytes([a, b]) for a in range(256) for b in range(256))
    edges = bytes.fromhex("00417f808f909fa0bfc0c1c2dfe0e1ecedeeeff0f1f3f4f5ff")
    pick = random.Random(1)
    yield from (bytes(pick.choice(edges) for _ in range(pick.randrange(3, 9))) for _ in range(100_000))


def unlike_python():
    """The texts that Python's decoder, which replaces each maximal subpart by one U+FFFD, reads otherwise."""
    return [s for s in samples() if [c.code for c in chars(s)] != [ord(c) for c in s.decode("utf-8", "replace")]]


def alone(line, broken):
    """A word alone; where words are broken, one character alone with the zero-width characters after it."""
    return 0x20 not in line and (not broken or all(width_of(c) == 0 for c in chars(line)[1:]))


def lines_too_wide(count=20_000):
    """The random texts with a line whose listed width passes the width asked for, though it is not alone."""
    pick, wrong = random.Random(3), []
    pieces = [b"a", b"bc", b" ", b"  ", b"\n", b"\t", b"\xCC\x81", b"\xE6\x9C\xA8", b"\xE6\x9C", b"\xFF", FACE, FACE[:3]]
    for _ in range(count):
        data, width, breaks = b"".join(pick.choice(pieces) for _ in range(pick.randrange(12))), pick.randrange(7), pick.random() < 0.5
        if any(wide > width and not alone(data[start:end], breaks and width > 0) for start, end, wide in listed_lines(data, width, breaks)):
            wrong.append((data, width, breaks))
    return wrong


def random_recording(pick, inside=True):
    """A balanced recording, with entries inside its data or not."""
    data = b"".join(pick.choice([b"a", b"b", b" ", b"\t", b"\n", b"\xCC\x81", b"\xE6\x9C\xA8", b"\xE6", b"\x9C", TRUCK, TRUCK[:3], TRUCK[3:]]) for _ in range(pick.randrange(8)))
    return with_entries(pick, data, inside)


def with_entries(pick, data, inside=True):
    numbers, text, open_labels = [], b"", 0
    for position in sorted(pick.choice([pick.randrange(len(data) + 1) if inside else 0, 0, len(data)]) for _ in range(pick.randrange(5))):
        kind = pick.randrange(3)
        if kind == 1 and open_labels == 0:
            continue
        open_labels += {0: 1, 1: -1, 2: 0}[kind]
        new = b"" if kind == 1 else pick.choice([b"x", b"yz"])
        numbers += [position, kind, 0 if kind == 1 else len(text), len(new)]
        text += new
    return recording(data, numbers + [len(data), 1, 0, 0] * open_labels, text)


def random_call(pick):
    name = pick.choice(list(dict.fromkeys(NAMES)))
    if name == "write_wrapped":
        return name, pick.randrange(6), pick.random() < 0.5
    if name == "write_tabs_expanded":
        return name, pick.randrange(6)
    if name == "write_replaced":
        places = sorted(pick.randrange(7) for _ in range(4))
        return name, (places[0], places[1], 0, pick.randrange(3), places[2], places[3], 1, 2), b"X\n"
    second = random_recording(pick, inside="padded" not in name)
    return (name, second) if name in ("write_indented", "write_unindented") else (name, second, pick.randrange(9))


def random_prefix(pick):
    return b"".join(pick.choice([b">", b" ", b"a", b"ab", b"\xE6\x9C\xA8", b"\x9C"]) for _ in range(pick.randrange(4)))


def indented(pick, prefix):
    """A balanced recording with the prefix's bytes at each line that is not empty; some lines are nothing else."""
    lines = [pick.choice([b"", prefix, prefix + prefix, prefix + b"b", prefix + b"\xA8", prefix + b"a b"]) for _ in range(pick.randrange(5))]
    return with_entries(pick, b"\n".join(lines))


def random_list(pick):
    """A first content and calls. Often it comes with an indent; a call that takes one off has mostly the bytes of the last one, under entries of its own."""
    prefix = random_prefix(pick)
    first, calls = random_recording(pick) if pick.random() < 0.5 else indented(pick, prefix), []
    for _ in range(pick.randrange(5)):
        name, *inputs = random_call(pick)
        if name == "write_unindented" and pick.random() < 0.8:
            inputs = [with_entries(pick, prefix)]
        if name == "write_indented":
            prefix = inputs[0].data
        calls.append((name, *inputs))
    return first, calls


def there_and_back(content, prefix, there, back):
    """The refusals of two calls with one prefix, the second on what the first leaves, and what is left."""
    refusals, result = [], content
    for name in (there, back):
        numbers, buffers = call(name, result, prefix, room=(200, 400, 100))
        refusals.append(numbers[0])
        if numbers[0] == 0:
            result = lists.result_of(numbers, buffers)
    return refusals, result


def indents_not_taken_off(count=20_000):
    """The random contents and prefixes, both balanced, that do not have their coloured bytes back after indenting and taking off. A prefix with a 0A is refused 32, and one without it is never refused 33."""
    pick, wrong = random.Random(4), []
    for _ in range(count):
        content, prefix = random_recording(pick), random_recording(pick)
        refusals, result = there_and_back(content, prefix, "write_indented", "write_unindented")
        if refusals != [0, 32 if b"\n" in prefix.data else 0] or refusals == [0, 0] and coloured(result) != coloured(content):
            wrong.append((content, prefix))
    return wrong


def indents_not_put_back(count=20_000):
    """The random contents that do not have their data back after an indent is taken off and put back, though no line is exactly the prefix; or that have it back though one is, and is not empty."""
    pick, wrong = random.Random(5), []
    for _ in range(count):
        prefix = random_prefix(pick)
        content = indented(pick, prefix)
        refusals, result = there_and_back(content, with_entries(pick, prefix), "write_unindented", "write_indented")
        if refusals != [0, 0] or (result.data == content.data) != (prefix == b"" or prefix not in content.data.split(b"\n")):
            wrong.append((content, prefix))
    return wrong


def lists_that_do_not_commute(count=4000):
    """The random lists of calls for which demand 3 does not hold."""
    pick, wrong = random.Random(2), []
    for k in range(count):
        first, calls = random_list(pick)
        if not balanced(first) or not lists.commutes(first, calls, room=(pick.choice([8, 24, 64]), 96, 64, 24)):
            wrong.append(k)
    return wrong


# ── Document 02, Q-5: what the widths of pictures change

@contextmanager
def former_widths():
    """The widths before Q-5. `char_width` remembers what it gave, so that goes at each change."""
    now = ruszvedok_model.TWO
    ruszvedok_model.TWO = [r for r in now if r not in PICTURES]
    char_width.cache_clear()
    try:
        yield
    finally:
        ruszvedok_model.TWO = now
        char_width.cache_clear()


def has_picture(text):
    return any(first <= c.code <= last for c in chars(text) for first, last in PICTURES)


def texts_lent(inputs):
    """Data and plain texts. Of labels and raw sequences no width is asked, so they may have such a character."""
    return [x.data if isinstance(x, Recording) else x for x in inputs if isinstance(x, (Recording, bytes))]


def any_call(pick):
    """A call of any name, and the room that it is lent."""
    name, text, room = pick.choice([*CALLS, *TEXT_CALLS, *QUESTIONS]), random_calls.text(pick), (pick.choice((8, 400)), 80, 80, pick.choice((6, 300)))
    if name in random_calls.LAYOUT:
        content = random_calls.content(pick)
        return (name, content, *random_calls.LAYOUT[name](pick, content)), room
    if name in random_calls.WITH_CONTENT:
        return (name, *random_calls.WITH_CONTENT[name](pick)), room
    if name in indexes.WRITTEN:
        inputs, held = indexes.WRITTEN[name](pick, lambda length: (0xA5A5A5A5,) * length)
        return (name, *inputs), (0, 0, 0, held)
    if name in QUESTIONS:
        return (name, *indexes.ASKED[name](pick, name)), ()
    if name == cells.NAME:
        return (name, *cells.page(pick, long=0)), room
    if name == tally.NAME:
        return (name, *tally.given(pick, long=0)), (pick.choice((400, 4_000)),)
    if name in ("truncate_end_pos", "truncate_start_pos"):
        return (name, text, random_calls.width(pick)), room
    if name == "wrap_bytes":
        return (name, text, random_calls.width(pick), pick.random() < 0.5), room
    if name in ("elide_start", "elide_end"):
        # Made well-formed, but for a few, which are refused.
        text, ellipsis = (t if pick.random() < 0.05 else t.decode("utf-8", "replace").encode() for t in (text, random_calls.text(pick, 3)))
        return (name, text, ellipsis, random_calls.width(pick)), room
    if name in ("write", "push_label", "pop_label", "raw"):
        # Their buffers are the content, with places behind it.
        content = random_calls.content(pick)
        return (name, tuple(map(len, content)), *[text] * (name != "pop_label")), tuple(part + type(part)([0xA5] * 20) for part in content)
    return (name, text), room


def calls_changed(count=20_000):
    """The random calls lent no text with a picture that do not answer as by the former widths. Of those lent one some have to; otherwise nothing is shown."""
    pick = random.Random(6)
    made = [any_call(pick) for _ in range(count)]
    answers = [call(*c, room=room) for c, room in made]
    with former_widths():
        former = [call(*c, room=room) for c, room in made]
    changed = [(c, any(map(has_picture, texts_lent(c)))) for (c, room), answer, before in zip(made, answers, former) if answer != before]
    return [c for c, such in changed if not such] + ["no call changed"] * (not changed)


# Over a list of calls it does not hold: two texts, neither of which has a picture, can meet and make one, and a later call measures it. First content, calls, and the data that is left by the
# former widths and by these. A search over the bytes F0, 9F, 98, 80 and 2E with widths up to 3 found no such list of one call, and none with fewer than three bytes in all.
MET = [
    ("a prefix and a line", b"\x80", [("write_indented", recording(b"\xF0\x9F\x98")), ("write_truncated_end", recording(b""), 1)], FACE, b""),
    ("content and fill, three bytes", b"\xF0\x9F", [("write_padded_end", recording(b"\x98"), 3), ("write_truncated_end", recording(b""), 1)], b"\xF0\x9F\x98\x98", b""),
    ("content and replacement", b"\xF0\x9F", [("write_replaced", (2, 2, 0, 2), b"\x98\x80"), ("write_padded_end", recording(b"."), 3)], FACE + b"..", FACE + b"."),
    ("content and ellipsis", b"\xF0\x9F\x98aa", [("write_truncated_end", recording(b"\x80"), 2), ("write_padded_start", recording(b"."), 2)], b"." + FACE, FACE),
    ("both sides of what goes", b"\xF0\x9F\x98a\x80", [("write_replaced", (3, 4, 0, 0), b""), ("write_wrapped", 1, True), ("write_padded_end", recording(b"."), 2)], FACE + b".", FACE),
]


def pictures_that_meet():
    """The names of those lists that leave something else, or are lent a text with a picture."""
    def left():
        return [lists.run_list(recording(first), calls, (16, 0, 0, 6)) for _, first, calls, _, _ in MET]
    now = left()
    with former_widths():
        former = left()
    wrong = []
    for (name, first, calls, data_before, data), (result, refusals), (result_before, refusals_before) in zip(MET, now, former):
        lent = [first] + [t for c in calls for t in texts_lent(c)]
        if (result_before.data, result.data) != (data_before, data) or any(refusals + refusals_before) or any(map(has_picture, lent)):
            wrong.append(name)
    return wrong
