"""Document 02, Q-10: the edger's tally sheet. Cases by hand; random inputs; and laws over the call, beside those that cut and pad a recording.

The random inputs are also those of `compare_calls`."""
import io
import random
import unicodedata

from ruszvedok_model import call, recording, text_width

NAME = "write_tally"
LIMIT, MOST = 1_048_576, 4_096
LARGEST = 2 ** 32 - 1
UNWRITTEN = 0xA5A5A5A5
TREE, MARK, FACE = "木".encode(), "\u0301".encode(), "\U0001F600".encode()

# ── By hand

# Input and columns; the sheet.
SHEETS = [
    ("a shift", (b"mill,boards,grade\nspruce,120,A\nfir,7,BC\n", (5, 0, 6, 1, 5, 2)), b"mill  boards grade\nspru~    120   A  \nfir        7  BC  \n2 127\n"),
    ("its last line without 0A", (b"mill,boards\nfir,7", (4, 0, 6, 1)), b"mill boards\nfir       7\n1 7\n"),
    ("names alone", (b"boards", (6, 0)), b"boards\n0 0\n"),
    ("no input", (b"", (3, 0)), b"   \n0 0\n"),
    ("one 0A", (b"\n", (3, 1)), b"   \n0 0\n"),
    ("two", (b"\n\n", (3, 2)), b"   \n   \n1 0\n"),
    ("a blank line at the end is one", (b"a\n\n", (1, 0)), b"a\n \n1 0\n"),
    ("a name wider than its column", (b"boards,length\n1,2", (3, 0, 4, 1)), b"bo~ len~\n1      2\n1 1\n"),
    ("no such column", (b"Boards, boards,boards ,board\n1,2,3,4", (2, 0, 2, 0, 2, 0, 2, 0)), b"B~  ~ b~ b~\n1  2  3  4 \n1 0\n"),
    ("two such columns: the first", (b"a,boards,boards\nx,3,y\nx,4,-1", (1, 0, 1, 0, 2, 0)), b"a ~ b~\nx 3 y \nx 4 -1\n2 7\n"),
    ("the least and the most", (b"boards\n0\n65535\n65535\n9", (5, 1)), b"boar~\n    0\n65535\n65535\n    9\n4 131079\n"),
    ("the sum counts what is cut", (b"boards\n65535\n12", (1, 0)), b"~\n~\n~\n2 65547\n"),
    ("wide characters in a column of 1", (TREE + b"\na" + TREE + b"\n" + FACE, (1, 2)), b"~\n~\n~\n2 0\n"),
    ("a column is left", (TREE * 2 + b"\n" + TREE, (3, 1)), TREE + b"~\n " + TREE + b"\n1 0\n"),
    ("a column is left before the ellipsis", (TREE * 2, (2, 1)), b" ~\n0 0\n"),
    ("marks have no width", (b"a" + MARK * 300 + b",b\n" + MARK + b"," + MARK + b"ab", (1, 0, 1, 1)), b"a" + MARK * 300 + b" b\n" + MARK + b"  " + MARK + b"~\n1 0\n"),
    ("1 and 80 wide", (b"ab," + b"c" * 81 + b"\n,d", (1, 0, 80, 1)), b"~ " + b"c" * 79 + b"~\n  " + b" " * 79 + b"d\n1 0\n"),
    ("80 wide exactly", (b"c" * 80, (80, 2)), b"c" * 80 + b"\n0 0\n"),
    ("twelve columns", (b"a,," * 5 + b"a,\n" + b",b," * 5 + b",b", (1, 0) * 12), (b"a   " * 6)[:-1] + b"\n" + (b"  b " * 6)[:-1] + b"\n1 0\n"),
    ("centred, odd and even", (b"a,a,ab,ab", (4, 2, 5, 2, 4, 2, 5, 2)), b" a     a    ab   ab  \n0 0\n"),
    ("the ends of what is no control character", (b" ~" + "\u00A0\u200B".encode(), (4, 0)), b" ~" + "\u00A0\u200B".encode() + b" \n0 0\n"),
    ("all lines that there may be", (b"\n" * MOST, (1, 0)), b" \n" * MOST + b"4095 0\n"),
    ("the longest input", (b"a" * LIMIT, (4, 0)), b"aaa~\n0 0\n"),
    ("only a comma is between cells", (b"a;b", (4, 0)), b"a;b \n0 0\n"),
    ("the largest sum", (b"boards" + b"\n65535" * (MOST - 1), (1, 2)), b"~\n" * MOST + b"4095 268365825\n"),
]
ROWS_OF_12 = b"," * 11 + b"\n"
WIDE_12 = (80, 0) * 12
# 1,811 rows of 579 bytes, and as many bytes as are missing to the limit if the sum has one digit.
FULL_NAMES, FULL_ROW, FULL_COLUMNS = b"boards,,,,,,,\n", b"0,,,,,,,\n", (80, 0) * 7 + (11, 0)
OVER = b"a" * (LIMIT + 1)
# Refused in a room of 30 bytes.
REFUSALS = [
    ("the input is over the limit", (OVER, (1, 0)), 1),
    ("1 before 39", (OVER, ()), 1),
    ("1 before 40 and 41", (b"\0,\n" + OVER, (1, 0)), 1),
    ("no columns", (b"", ()), 39),
    ("half a column", (b"a", (1,)), 39),
    ("a column and a half", (b"a,b", (1, 0, 1)), 39),
    ("13 columns", (b"," * 12, (1, 0) * 13), 39),
    ("a width of 0", (b"a", (0, 0)), 39),
    ("a width of 81", (b"a", (81, 0)), 39),
    ("a large width", (b"a", (2 ** 31 + 1, 0)), 39),
    ("alignment 3", (b"a", (1, 3)), 39),
    ("a large alignment", (b"a", (1, 2 ** 16)), 39),
    ("of the last column", (b"a,b", (1, 0, 1, LARGEST)), 39),
    ("over 4,096 lines", (b"\n" * (MOST + 1), (1, 0)), 39),
    ("the last of them without 0A", (b"\n" * MOST + b"a", (1, 0)), 39),
    ("39 for a width before 41", (b"a,b", (0, 0)), 39),
    ("39 for a width before 40", (b"\0", (81, 0)), 39),
    ("39 for lines before 41", (b"a,b" + b"\n" * (MOST + 1), (1, 0)), 39),
    ("39 for lines before 40", (b"\xFF" + b"\n" * (MOST + 1), (1, 0)), 39),
    ("too few names", (b"a\nb,c", (1, 0, 1, 0)), 41),
    ("too many", (b"a,b,\nb,c", (1, 0, 1, 0)), 41),
    ("no input, and two columns", (b"", (1, 0, 1, 0)), 41),
    ("a value line has too few", (b"a,b\nb,c\nd", (1, 0, 1, 0)), 41),
    ("a value line has too many", (b"a,b\nb,c,d\n", (1, 0, 1, 0)), 41),
    ("a blank line", (b"a,b\n\nb,c", (1, 0, 1, 0)), 41),
    ("one at the end", (b"a,b\nb,c\n\n", (1, 0, 1, 0)), 41),
    ("ill-formed", (b"a,b\n\xE6\x9C,c", (1, 0, 1, 0)), 40),
    ("a surrogate", (b"a\n\xED\xA0\x80", (1, 0)), 40),
    ("CR", (b"a,b\r\nc,d", (1, 0, 1, 0)), 40),
    ("a tab", (b"a\tb", (9, 0)), 40),
    ("the last control character", (b"a\n\xC2\x9F", (9, 0)), 40),
    ("beyond the cut", (b"boards" + b"a" * 90 + b"\x1F", (9, 0)), 40),
    ("boards too many", (b"boards\n65536", (1, 0)), 41),
    ("an empty one", (b"boards\n\n", (1, 0)), 41),
    ("two zeros", (b"boards\n00", (1, 0)), 41),
    ("a leading zero", (b"boards\n01", (1, 0)), 41),
    ("a sign", (b"boards\n+1", (1, 0)), 41),
    ("the other sign", (b"boards\n-1", (1, 0)), 41),
    ("a space behind", (b"boards\n1 ", (1, 0)), 41),
    ("a space before", (b"boards\n 1", (1, 0)), 41),
    ("other digits", (b"boards\n" + "\uFF11".encode(), (1, 0)), 41),
    ("many digits", (b"boards\n" + b"1" * 5_000, (1, 0)), 41),
    ("2 to the 32nd", (b"boards\n4294967296", (1, 0)), 41),
    ("2 to the 64th and one", (b"boards\n18446744073709551617", (1, 0)), 41),
    ("in a line 41 for its cells before 40", (b"a\n\0,", (1, 0)), 41),
    ("40 before 41 for the boards", (b"boards,a\nx,\x7F", (1, 0, 1, 0)), 40),
    ("40 in the boards", (b"boards\n1\xC2\x80", (1, 0)), 40),
    ("40 of a line before 41 of the next", (b"\xFF\na,b", (1, 0)), 40),
    ("41 for the boards before 40 of the next line", (b"boards\nx\n\0", (1, 0)), 41),
    ("40 of a line before boards of the next", (b"boards,a\n1,\0\nx,a", (1, 0, 1, 0)), 40),
    ("40 before 9", (ROWS_OF_12 * 1_100 + b"," * 11 + b"\0", WIDE_12), 40),
    ("41 before 9", (ROWS_OF_12 * 1_100 + b",", WIDE_12), 41),
    ("39 before 9", (ROWS_OF_12 * 4_097, WIDE_12), 39),
    ("9 for the last row", (FULL_NAMES + FULL_ROW * 1_809 + b"10,,,,,,,", FULL_COLUMNS), 9),
    ("not with one digit less", (FULL_NAMES + FULL_ROW * 1_809 + b"9,,,,,,,", FULL_COLUMNS), 21),
    ("9 before 21", (ROWS_OF_12 * 1_100, WIDE_12), 9),
    ("21", (b"boards" + b"\n1" * 13, (1, 0)), 21),
    ("41 before 21", (b"boards" + b"\n1" * 13 + b"\nx", (1, 0)), 41),
    ("40 before 21", (b"boards" + b"\n1" * 13 + b"\n1\x00", (1, 0)), 40),
    ("39 before 21", (b"boards" + b"\n1" * 13, (1, 3)), 39),
]


def left(sheet, more):
    """The answer, and buffers that hold this and `more` places."""
    return (0, len(sheet), 0, 0, 0), (sheet + b"\xA5" * more, (UNWRITTEN,) * more, b"\xA5" * more, (UNWRITTEN,) * more)


def untouched(refusal, room):
    return (refusal, 0, 0, 0, 0), (b"\xA5" * room, (UNWRITTEN,) * 2, b"\xA5" * 2, (UNWRITTEN,) * 2)


def in_rooms(given, sheet):
    """Whether an input leaves this in a buffer exactly full and in longer ones, and is refused in one that is too short by one, and in none."""
    n = len(sheet)
    return (all(call(NAME, *given, room=(n + more, more, more, more)) == left(sheet, more) for more in (0, 2))
            and all(call(NAME, *given, room=(room, 2, 2, 2)) == untouched(21, room) for room in (n - 1, 0)))


def cases():
    """The names of the cases by hand that do not come out so."""
    wrong = [name for name, *case in SHEETS if not in_rooms(*case)]
    return wrong + [name for name, given, refusal in REFUSALS if call(NAME, *given, room=(30, 2, 2, 2)) != untouched(refusal, 30)]


# ── Random inputs

NAMES = [b"boards", b"boards", b"boards", b"boards", b"Boards", b" boards", b"boards ", b"board", b"boardss", b"BOARDS", b"", b"a", b"length", b"species and grade", TREE + TREE, b"boards" + MARK,
         b'"boards"', b"b\xC3\xA9ards"]
RIGHT = [b"0", b"1", b"7", b"9", b"10", b"12", b"120", b"999", b"1000", b"9999", b"10000", b"65534", b"65535"]
NO_BOARDS = [b"", b"00", b"01", b"007", b"065535", b"+1", b"-1", b"-0", b"1 ", b" 1", b" ", b"1.0", b"1e3", b"0x1", b"a", b"1a", b"1_0", b"65536", b"65540", b"66000", b"70000", b"99999", b"100000",
             b"655350", b"4294967295", b"4294967296", b"4294967297", b"18446744073709551616", b"18446744073709551617", b"1" * 20, b"1" * 300, b"0" * 5, b"/", b":", b"1/", b"1:", b"\xEF\xBC\x91",
             b"\xD9\xA1", b"1\xCC\x81", b"boards"]
WORDS = [p.encode() for p in ("oak", "fir", "spruce", "larch", " ", "  ", "~", "a", "é", "木", "木", "字", "\u3000", "\uFF21", "\U00020000", "\U0001F600", "\U0001F680", "\u0301", "e\u0301", "\u200B",
                              "\uFE0F", "\u20D0", "\u00A0", "\u00AD", "\u2028", "12", '"', "\\", ".", ";")]
# Control characters: the ends of both ranges, and some between. Ill-formed: some are parts that would go on behind a comma or a 0A.
CONTROLS = [bytes([b]) for b in (0x00, 0x01, 0x07, 0x08, 0x09, 0x0B, 0x0C, 0x0D, 0x0D, 0x1B, 0x1E, 0x1F, 0x7F)] + [bytes([0xC2, b]) for b in (0x80, 0x85, 0x9B, 0x9E, 0x9F)]
BROKEN = [b"\x80", b"\xBF", b"\xC0", b"\xC1", b"\xC2", b"\xC3", b"\xE6", b"\xE6\x9C", b"\xF0\x9F", b"\xF0\x9F\x98", b"\xFF", b"\xFE", b"\xC0\x80", b"\xC0\xAC", b"\xE0\x80\xAC", b"\xED\xA0\x80",
          b"\xED\xBF\xBF", b"\xF4\x90\x80\x80", b"\xF5\x80\x80\x80", b"\xE0\x9F\xBF", b"\xF0\x8F\xBF\xBF", b"\xA8"]
WIDTHS = (1, 1, 1, 2, 2, 3, 4, 5, 6, 7, 8, 9, 12, 16, 20, 40, 79, 80, 80)
LENGTHS = (14, 15, 16, 17, 18, 31, 32, 33, 47, 48, 49, 63, 64, 65, 79, 80, 81, 82)


def several(pick, pieces, most):
    return b"".join(pick.choices(pieces, k=int(pick.random() * (most + 1))))


def cell(pick):
    """None; ASCII about as long as a block or as the widest column; marks by the dozen; or words."""
    way = pick.random()
    if way < 0.12:
        return b""
    if way < 0.25:
        return (b"oak 12 ft board planed " * 4)[:pick.choice(LENGTHS)] + pick.choice((b"", b"", b"", TREE, MARK))
    if way < 0.3:
        return pick.choice((b"", b"a", TREE)) + MARK * pick.choice((1, 2, 8, 40)) + pick.choice((b"", b"", b"b"))
    return several(pick, WORDS, pick.choice((2, 2, 4, 8)))


def columns(pick, count):
    return tuple(n for _ in range(count) for n in (pick.choice(WIDTHS) if pick.random() < 0.8 else 1 + int(pick.random() * 80), int(pick.random() * 3)))


def other_columns(pick, numbers):
    """Mostly no columns: a width or an alignment changed, a number too few or too many, none, 13 and more of them."""
    numbers, at, way = list(numbers), 2 * int(pick.random() * (len(numbers) // 2)), int(pick.random() * 6)
    if way < 2:
        numbers[at] = pick.choice((0, 0, 81, 81, 82, 128, 256, 257, 2 ** 16 + 1, 2 ** 31, 2 ** 31 + 5, LARGEST, LARGEST - 79, 80))
    elif way < 4:
        numbers[at + 1] = pick.choice((3, 3, 3, 4, 80, 256, 2 ** 16, 2 ** 31 + 1, LARGEST, 2))
    else:
        numbers = pick.choice((numbers[:-1], numbers[:-1], numbers + [0], numbers + [1], [], [], [1], (1, 0) * 13, (1, 0) * 13, (1, 0) * 12 + (1,), (1, 0) * 14, (1, 0) * 60))
    return tuple(numbers)


def grid(pick):
    """Lines of cells that are right: names, one of them mostly `boards` or nearly so, and values."""
    count = pick.choice((1, 1, 2, 2, 2, 3, 3, 4, 5, 6, 8, 11, 12, 12))
    names = [pick.choice(NAMES) if pick.random() < 0.6 else cell(pick) for _ in range(count)]
    if pick.random() < 0.7:
        names[int(pick.random() * count)] = b"boards"
    lines = [names] + [[cell(pick) for _ in range(count)] for _ in range(pick.choice((0, 1, 1, 2, 2, 3, 4, 5, 6, 9)) if pick.random() < 0.97 else 40)]
    for line in lines[1:]:
        for k, name in enumerate(names):
            if name == b"boards" and (names.index(b"boards") == k or pick.random() < 0.5):
                line[k] = pick.choice(RIGHT) if pick.random() < 0.7 else b"%d" % int(pick.random() * 65_536)
    return lines


def with_fault(pick, lines):
    """One place changed, mostly to a fault, in the boards often."""
    at, way = int(pick.random() * len(lines)), pick.random()
    line, names = lines[at], lines[0]
    k = int(pick.random() * len(line)) if line else 0
    if way < 0.3 and b"boards" in names and names.index(b"boards") < len(line):
        line[names.index(b"boards")] = pick.choice(NO_BOARDS)
    elif way < 0.65 and line:
        place = int(pick.random() * (len(line[k]) + 1))
        line[k] = line[k][:place] + pick.choice(CONTROLS if way < 0.48 else BROKEN) + line[k][place:]
    elif way < 0.72:
        line.insert(k, pick.choice((b"", b"a", b"1")))
    elif way < 0.8:
        del line[k:k + 1]
    elif way < 0.86:
        lines.insert(at, [b""])
    elif way < 0.9:
        names[:] = names[::-1]
    elif way < 0.95:
        line[-1:] = [b"".join(line[-1:]) + b"\r"]
    else:
        del lines[0]
        lines.extend([[b""]] * (not lines))


def at_limit(pick):
    """A sheet at the limit, one below it or one above it, or far above: what is missing to that is marks in one cell, and a letter of two bytes; or, by the digits of the sum, without these."""
    if pick.random() < 0.2:
        return FULL_NAMES + FULL_ROW * 1_809 + pick.choice((b"0", b"9", b"9", b"10", b"10", b"65535")) + FULL_ROW[1:pick.choice((8, 9))], FULL_COLUMNS
    numbers = columns(pick, pick.choice((10, 12)))
    row = sum(numbers[::2]) + len(numbers) // 2
    if row < 300:
        numbers = (*numbers[:-6], 80, 0, 80, 1, 80, 2)
        row = sum(numbers[::2]) + len(numbers) // 2
    count, blank = LIMIT // row - 1, b"," * (len(numbers) // 2 - 1)
    short = LIMIT + pick.choice((-1, 0, 0, 0, 1, 1, 1, 5_000)) - count * row - len(b"%d 0\n" % (count - 1))
    lines = [blank] * count
    lines[int(pick.random() * count)] += MARK * (short // 2) + b"\xC3\xA9" * (short % 2)
    return b"\n".join(lines) + pick.choice((b"", b"\n")), numbers


def long_input(pick):
    """At the limit of lines or beyond it; an input at the limit or one over it; a sheet about the limit; some with a fault as well."""
    way, last = pick.random(), pick.choice((b"", b"\n"))
    if way < 0.35:
        count, other = MOST + pick.choice((-1, 0, 0, 1, 1, 2)), pick.choice((b"5", b"5", b"5", b"", b"\xFF"))
        return b"boards\n" + b"65535\n" * (count - 2) + (other or b"65536") + last, pick.choice(((1, 0), (5, 1), (1, 0), (1, 0, 1, 0)))
    if way < 0.55:
        length = LIMIT + (way < 0.5)
        return (b"a,\0"[:pick.choice((1, 1, 2, 3))] + b"b" * length)[:length - 1] + pick.choice((b"\n", b"c", b"\xFF")), pick.choice(((9, 0), (1, 0, 2, 2), (), (0, 0)))
    data, numbers = at_limit(pick)
    return data + pick.choice((b"", b"", b"", b"", b"\0")), numbers


def given(pick, long=0.0006, faults=0.45):
    """Input and columns; many have a fault or two, in the cells, in the columns, or in both."""
    if pick.random() < long:
        return long_input(pick)
    lines = grid(pick)
    numbers, faulty = columns(pick, len(lines[0])), pick.random()
    if faulty < 0.05:
        numbers = other_columns(pick, numbers)
    if 0.04 < faulty < faults:
        for _ in range(pick.choice((1, 1, 1, 2, 2, 3))):
            with_fault(pick, lines)
    ends = pick.choice((b"\n", b"\n", b"\n", b"", b"", b"\n\n")) if len(lines[-1]) == 1 or pick.random() < 0.1 else pick.choice((b"\n", b""))
    return (b"\r\n" if pick.random() < 0.01 else b"\n").join(map(b",".join, lines)) + ends, numbers


# ── Laws

def cells_in(data):
    """The lines and their cells another way: as a file is read."""
    return [line.removesuffix(b"\n").split(b",") for line in io.BytesIO(data).readlines() or [b""]]


def pairs(numbers):
    return [tuple(numbers[i:i + 2]) for i in range(0, len(numbers), 2)]


def is_shown(part):
    """Python reads it, and finds no character of the kind Cc."""
    try:
        return not any(unicodedata.category(c) == "Cc" for c in part.decode("utf-8"))
    except UnicodeDecodeError:
        return False


ALL_BOARDS = {b"%d" % n: n for n in range(65_536)}


def faults(data, numbers):
    """Every fault of an input: when it is met, and its number."""
    lines, count = cells_in(data), len(numbers) / 2
    if count not in range(1, 13) or any(width not in range(1, 81) or alignment not in (0, 1, 2) for width, alignment in pairs(numbers)) or len(lines) > MOST:
        yield (-1,), 39
        return
    columns_called = [k for k, name in enumerate(lines[0]) if name == b"boards"]
    for n, line in enumerate(lines):
        if len(line) != count:
            yield (n, 0), 41
        for k, part in enumerate(line):
            if not is_shown(part):
                yield (n, 1, k), 40
        for k in columns_called[:1] if n else ():
            if k < len(line) and line[k] not in ALL_BOARDS:
                yield (n, 2), 41


def padded(part, width, alignment):
    """What the calls that cut and pad a recording leave of a cell."""
    def left_by(name, content, second):
        (refusal, length, *_), (data, *_) = call(name, recording(content), recording(second), width, room=(len(content) + 90, 0, 0))
        assert refusal == 0
        return data[:length]
    return left_by(("write_padded_end", "write_padded_start", "write_padded_centered")[alignment], left_by("write_truncated_end", part, b"~"), b" ")


def totals(data):
    """The number of value lines and the sum of their boards, counted line by line."""
    names, *values = cells_in(data)
    count = boards = 0
    for line in values:
        for name, part in zip(names, line):
            if name == b"boards":
                boards += ALL_BOARDS[part]
                break
        count += 1
    return count, boards


def made(data, numbers):
    """The whole sheet, cell by cell by the calls on recordings."""
    rows = [b" ".join(padded(part, *column) for part, column in zip(line, pairs(numbers))) for line in cells_in(data)]
    return b"\n".join([*rows, b" ".join(b"%d" % n for n in totals(data)), b""])


def by_columns(row, widths):
    """The cells of a printed row by their places: each begins where its column does, and one space is between two. None if a character or something else stands there."""
    text, found = row.decode(), []
    for k, width in enumerate(widths):
        if k:
            if text[:1] != " ":
                return None
            text = text[1:]
        end = wide = 0
        while end < len(text) and wide + text_width(text[end].encode()) <= width:
            wide += text_width(text[end].encode())
            end += 1
        if wide != width:
            return None
        found.append(text[:end].encode())
        text = text[end:]
    return None if text else found


def is_cell(shown, part, width, alignment):
    """A cell that fits is there whole, another one begins as it did and has `~` behind, with no further character for which there is room; spaces beside it, on the side of its alignment."""
    def is_shown_as(head):
        missing = width - text_width(head)
        before = (0, missing, missing // 2)[alignment]
        return shown == b" " * before + head + b" " * (missing - before)
    text = part.decode()
    if text_width(part) <= width:
        return is_shown_as(part)
    end = max((k for k in range(len(text)) if text_width(text[:k].encode()) < width), default=0)
    return is_shown_as(text[:end].encode() + b"~")


def asked(data, numbers):
    """The rows of a sheet, each without its 0A, and what is behind the last 0A."""
    needed = len(made(data, numbers))
    (refusal, length, *_), (buffer, *_) = call(NAME, data, numbers, room=(needed + 9,))
    return buffer[:length].split(b"\n")


def other_end(data):
    """The same lines with the last 0A put there or left out, unless that is all of its line."""
    return data if data.endswith(b"\n\n") else data.removesuffix(b"\n") if data.endswith(b"\n") else data + b"\n"


def halves(data):
    """Two inputs that have the names, and a part of the value lines each."""
    names, *values = (line.removesuffix(b"\n") for line in io.BytesIO(data).readlines() or [b""])
    half = len(values) // 2
    return [b"".join(line + b"\n" for line in (names, *some)) for some in (values[:half], values[half:])]


def laws(data, numbers):
    """The names of the laws that do not hold of an input without a fault."""
    sheet, lines, widths = made(data, numbers), cells_in(data), numbers[::2]
    answer = call(NAME, data, numbers, room=(len(sheet) + 3,))
    *rows, last, behind = answer[1][0][:answer[0][1]].split(b"\n")
    found = [by_columns(row, widths) for row in rows]
    one, other = (asked(half, numbers) for half in halves(data))
    turned = b"".join(b",".join(line) + b"\n" for line in (lines[0], *lines[:0:-1]))
    told = {
        "as by the calls on recordings, in any room": in_rooms((data, numbers), sheet),
        "the length, and nothing else": answer[0] == (0, len(sheet), 0, 0, 0),
        "all beyond stays": answer[1] == (sheet + b"\xA5" * 3, (), b"", ()),
        "a row for each line, and one": len(rows) == len(lines) and behind == b"",
        "every row but the last is as wide as the columns and the gaps": all(text_width(row) == sum(widths) + len(widths) - 1 for row in rows),
        "each cell begins at its column": None not in found,
        "each cell is what the two calls leave": found == [[padded(part, *column) for part, column in zip(line, pairs(numbers))] for line in lines],
        "it is whole or cut, with spaces on its side": all(is_cell(shown, part, *column) for line, row in zip(lines, found) if row for shown, part, column in zip(row, line, pairs(numbers))),
        "the last row is the count and the sum": last == b"%d %d" % totals(data),
        "the last 0A changes nothing": call(NAME, other_end(data), numbers, room=(len(sheet) + 3,)) == answer,
        "two halves are the whole": rows == one[:-2] + other[1:-2] and added(one[-2], other[-2]) == last,
        "the other way round, the sum stays": asked(turned, numbers) == [rows[0], *rows[:0:-1], last, b""],
    }
    return [name for name, holds in told.items() if not holds]


def added(one, other):
    """Two last rows as one."""
    return b"%d %d" % tuple(map(sum, zip(*(map(int, row.split(b" ")) for row in (one, other)))))


def laws_broken(count=1_500):
    """The laws that do not hold of random inputs without a fault, each with the first of them. Many have to have boards, cells that are cut, and widths that are not the bytes."""
    pick, wrong, seen = random.Random(17), {}, [0, 0, 0, 0]
    for _ in range(count):
        data, numbers = given(pick, long=0, faults=0.05)
        if list(faults(data, numbers)):
            continue
        for name in laws(data, numbers):
            wrong.setdefault(name, (name, data, numbers))
        lines = cells_in(data)
        seen = [n + bool(more) for n, more in zip(seen, (totals(data)[1], any(text_width(part) > width for line in lines for part, width in zip(line, numbers[::2])),
                                                        text_width(data) != len(data), lines[0].count(b"boards") > 1))]
    return list(wrong.values()) + [f"too few: {seen}"] * any(n < count // few for n, few in zip(seen, (4, 4, 4, 20)))


def refusal_of(data, numbers, room):
    """The refusal that an input must get, or 0: that of the fault that is met first."""
    if len(data) > LIMIT:
        return 1
    met = min(faults(data, numbers), default=None)
    if met:
        return met[1]
    length = len(made(data, numbers))
    return 9 if length > LIMIT else 21 if length > room else 0


def refusals_unlike(count=10_000):
    """The random calls that are refused otherwise than they must be, or leave something else. Each refusal has to come up, and inputs with several faults that have different numbers."""
    pick, wrong, seen, several_faults = random.Random(18), [], {}, 0
    for _ in range(count):
        data, numbers = given(pick, long=0.004)
        room = max((len(data.split(b"\n")) * (sum(numbers[::2]) + len(numbers)) if sum(numbers) < 2_000 else 0) + pick.choice((-300, -30, -9, -1, 0, 5, 200, 2_000, LIMIT)), 0)
        refusal = refusal_of(data, numbers, room)
        answer = call(NAME, data, numbers, room=(room, 2, 2, 2))
        if answer[0][0] != refusal or refusal and answer != untouched(refusal, room):
            wrong.append((data, numbers, room))
        seen[refusal] = seen.get(refusal, 0) + 1
        several_faults += len({number for _, number in faults(data, numbers)}) > 1
    few = [f"too few: {refusal}" for refusal in (0, 1, 9, 21, 39, 40, 41) if seen.get(refusal, 0) < (3 if refusal in (1, 9) else count // 200)]
    return wrong + few + [f"too few with several faults: {several_faults}"] * (several_faults < count // 50)
