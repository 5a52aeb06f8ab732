"""Document 02, Q-9: a whole page of cells in one call. Cases by hand; random pages; and laws over the call, beside the one that cuts a recording.

The random pages are also those of `compare_calls`."""
import random

import random_calls
from ruszvedok_model import call, recording, text_width

NAME = "write_truncated_cells"
LIMIT, MOST = 1_048_576, 64
LARGEST = 2 ** 32 - 1
UNWRITTEN = 0xA5A5A5A5
TREE, FACE = "木".encode(), "\U0001F600".encode()

# ── By hand

# Data, part ends, ellipsis and width; the joined result, and of each cell its end there and its width.
PAGES = [
    ("C9 of one cell", (b"spruce", (6,), b"..", 4), b"sp..", (4, 4)),
    ("C11, the ellipsis is wider than the width", (b"spruce", (6,), b"..", 1), b".", (1, 1)),
    ("three cells, the second fits", (b"sprucefirlarch", (6, 9, 14), b"..", 4), b"sp..firla..", (4, 4, 7, 3, 11, 4)),
    ("no cells", (b"", (), b"..", 4), b"", ()),
    ("empty cells", (b"", (0, 0, 0), b"..", 4), b"", (0, 0, 0, 0, 0, 0)),
    ("empty ones before, between and behind", (b"sprucefir", (0, 6, 6, 9, 9), b"..", 4), b"sp..fir", (0, 0, 4, 4, 4, 0, 7, 3, 7, 0)),
    ("the columns that one leaves are not the next one's", (b"aspruce", (1, 7), b"..", 4), b"asp..", (1, 1, 5, 4)),
    ("of width 0: what has none is kept", (b"\tab\t", (2, 4), b"..", 0), b"\t", (1, 0, 1, 0)),
    ("no ellipsis", (b"sprucefir", (6, 9), b"", 2), b"spfi", (2, 2, 4, 2)),
    ("exactly as wide", ((TREE + TREE) * 2, (6, 12), b".", 4), (TREE + TREE) * 2, (6, 4, 12, 4)),
    ("a column is left before the ellipsis", (TREE * 4, (6, 12), b".", 2), b"..", (1, 1, 2, 1)),
    ("a character across an end is two", (TREE, (2, 3), b".", 1), TREE, (2, 1, 3, 1)),
    ("a face across three ends is four", (FACE, (1, 2, 3, 4), b".", 1), FACE, (1, 1, 2, 1, 3, 1, 4, 1)),
    ("content and ellipsis make one: the sum of what is kept", (b"\xC3ab", (3,), b"\xA9", 2), b"\xC3\xA9", (2, 2)),
    ("an ill-formed ellipsis", (b"abc", (3,), b"\xE6\x9C\xFF", 2), b"\xE6\x9C\xFF", (3, 2)),
    ("the largest width", (b"spruce", (3, 6), b"..", LARGEST), b"spruce", (3, 3, 6, 3)),
    ("a width whose lower bits are 0", (b"spruce", (3, 6), b"..", 2 ** 31), b"spruce", (3, 3, 6, 3)),
    ("64 cells", (b"ab" * 64, tuple(range(2, 130, 2)), b".", 1), b"." * 64, tuple(n for k in range(1, 65) for n in (k, 1))),
]
# A page whose joined result is at the limit: each of 64 cells gives way to the ellipsis.
FULL = b"ab" * 64, tuple(range(2, 130, 2)), b"." + b"\t" * 16_383, 1
OVER = b"a" * (LIMIT + 1)
# Refused in a room of 8 bytes and 4 numbers.
REFUSALS = [
    ("the data is over the limit", (OVER, (LIMIT + 1,), b"", 4), 1),
    ("the ellipsis is", (b"ab", (2,), OVER, 4), 1),
    ("1 of the data before 38", (OVER, (9, 1), b"", 4), 1),
    ("1 of the ellipsis before 38", (b"ab", (9, 1), OVER, 4), 1),
    ("data without cells", (b"ab", (), b".", 4), 38),
    ("65 cells", (b"", (0,) * 65, b".", 4), 38),
    ("an end falls", (b"abcd", (3, 2, 4), b".", 4), 38),
    ("the last one falls", (b"abcd", (4, 3), b".", 4), 38),
    ("it falls to the length", (b"abcd", (5, 4), b".", 4), 38),
    ("the last end is short", (b"abcd", (1, 3), b".", 4), 38),
    ("it is beyond", (b"abcd", (1, 5), b".", 4), 38),
    ("the largest end", (b"abcd", (1, LARGEST), b".", 4), 38),
    ("no data, and an end", (b"", (1,), b".", 4), 38),
    ("38 before 9", (FULL[0] + b"ab", FULL[1] + (130,), *FULL[2:]), 38),
    ("38 before 21 and 24", (b"spruce" * 5, (10, 20, 31), b".", 40), 38),
    ("9 before 21 and 24", (b"\t" + FULL[0], tuple(end + 1 for end in FULL[1]), *FULL[2:]), 9),
    ("21 at the limit, before 24", FULL, 21),
    ("21 before 24", (b"abcdefghi", (3, 6, 9), b".", 3), 21),
    ("24", (b"abcdef", (2, 4, 6), b".", 2), 24),
]


def left(data, listed, more):
    """The answer, and buffers that hold this and `more` places."""
    return (0, len(data), 0, 0, len(listed) // 2), (data + b"\xA5" * more, (UNWRITTEN,) * more, b"\xA5" * more, listed + (UNWRITTEN,) * more)


def untouched(refusal, *lengths):
    return (refusal, 0, 0, 0, 0), tuple(one * n for one, n in zip((b"\xA5", (UNWRITTEN,), b"\xA5", (UNWRITTEN,)), lengths))


def in_rooms(page, data, listed):
    """Whether a page leaves this in buffers exactly full and in longer ones, and is refused where one is too short by one, or both are."""
    n, m = len(data), len(listed)
    short = [((n - 1, 0, 0, m), 21)] * (n > 0) + [((n, 0, 0, m - 1), 24)] * (m > 0) + [((n - 1, 0, 0, m - 1), 21)] * (n > 0 < m)
    return (all(call(NAME, *page, room=(n + more, more, more, m + more)) == left(data, listed, more) for more in (0, 2))
            and all(call(NAME, *page, room=room) == untouched(refusal, *room) for room, refusal in short))


def cases():
    """The names of the cases by hand that do not come out so."""
    wrong = [name for name, *page in PAGES if not in_rooms(*page)]
    return wrong + [name for name, page, refusal in REFUSALS if call(NAME, *page, room=(8, 4, 4, 4)) != untouched(refusal, 8, 4, 4, 4)]


# ── Random pages

LENGTHS = (1, 2, 3, 7, 8, 9, 15, 16, 17, 31, 32, 33, 47, 48, 49, 63, 64, 65)
WIDE = [p.encode() for p in ("木", "木", "字", "\u3000", "\uFF21", "\U00020000", "\U0001F600", "\U0001F680", "é", "a", " ")]
MARKED = [p.encode() for p in ("e\u0301", "a\u0308\u0301", "\u0301", "\u200B", "木\u0301", "\t", "\0", "b", "\u20D0", "\uFE0F")]
# Ill-formed, some of them parts that make a character where a cell or the ellipsis goes on with the rest of it.
BROKEN = [b"\xE6", b"\xE6\x9C", b"\x9C\xA8", b"\xA8", b"\xC3", b"\xA9", b"\xCC", b"\x81", b"\xF0\x9F", b"\x98\x80", b"\xF0\x9F\x98", b"\x80", b"\xFF", b"\xC0\x80", b"\xED\xA0\x80", b"a"]
ELLIPSES = [b"", b"", b".", b".", b"..", b"...", "…".encode(), "…".encode(), TREE, FACE, b"." + TREE, TREE + b".", "\u0301".encode(), b".\xCC\x81", b"\t", b"\xA8", b"\x9C\xA8", b"\x81",
            b"\x98\x80", b"\x80", b"\xE6", b"\xFF\xFF", b"." * 16, b"-" * 33]


def cell(pick):
    """None; ASCII about as long as a block; wide characters; marks; ill-formed bytes; or pieces."""
    way = pick.random()
    if way < 0.1:
        return b""
    if way < 0.3:
        return (b"oak 12 ft board, planed, " * 3)[:pick.choice(LENGTHS)] + pick.choice((b"", b"", b"", TREE, b"\xCC\x81", b"\xFF"))
    for most, pieces in ((0.45, WIDE), (0.55, MARKED), (0.7, BROKEN)):
        if way < most:
            return b"".join(pick.choices(pieces, k=1 + int(pick.random() * 8)))
    return random_calls.text(pick, 4)


def how_many(pick):
    """Few cells mostly; some pages have as many as a page may, or more."""
    way = pick.random()
    return int(pick.random() * 6) if way < 0.9 else int(pick.random() * 30) if way < 0.95 else pick.choice((63, 64, 64, 64, 65, 65, 66, 127, 128, 129, 200))


def other_ends(pick, ends, length):
    """Mostly no ends of the data: one changed, two exchanged, one too few or too many, or none."""
    ends, at = list(ends), int(pick.random() * len(ends)) if ends else 0
    way = int(pick.random() * 6)
    if way == 0 and ends:
        ends[at] = pick.choice((0, ends[at] + 1, max(ends[at] - 1, 0), length, length + 1, max(length - 1, 0), LARGEST, ends[at] ^ 1 << int(pick.random() * 32)))
    elif way == 1 and ends:
        ends[at], ends[at - 1] = ends[at - 1], ends[at]
    elif way == 2 and ends:
        del ends[pick.choice((-1, -1, at))]
    elif way == 3 and ends:
        ends[-1] = pick.choice((length - 1 if length else 1, length + 1, 0, LARGEST, length + 2 ** 31, ends[0]))
    elif way == 4:
        ends.insert(pick.choice((at, len(ends))), pick.choice((0, length, length + 1, LARGEST)))
    else:
        ends = pick.choice(([], ends[::-1], ends[:-1], [0, *ends], [*ends, 0]))
    return tuple(ends)


def ends_of(pick, parts):
    """Where the cells end; or as many places anywhere in the data, in the middle of characters too, some of them equal."""
    data, way = b"".join(parts), pick.random()
    if way < 0.7 or not parts:
        return tuple(sum(map(len, parts[:k + 1])) for k in range(len(parts)))
    places = range(len(data) + 1) if way < 0.9 else pick.choices(range(len(data) + 1), k=2)
    return (*sorted(pick.choices(places, k=len(parts) - 1)), len(data))


def ellipsis(pick):
    return pick.choice(ELLIPSES) if pick.random() < 0.8 else random_calls.text(pick, 3)


def width(pick, parts):
    """About as wide as a cell often; a few are large, with lower bits that are a small number."""
    way = pick.random()
    if way < 0.01:
        return pick.choice((2 ** 16, 2 ** 31)) + int(pick.random() * 4)
    if parts and way < 0.5:
        return max(text_width(pick.choice(parts)) + pick.choice((-3, -2, -1, -1, 0, 0, 1)), 0)
    return random_calls.width(pick)


def long_page(pick):
    """Data or ellipsis at the limit or one over it, with ends that are right or not; or a joined result at the limit, or one off it. These have few characters, since the model is slow."""
    way, more, bad = pick.random(), pick.choice((0, 1, 1)), pick.choice((0, 0, 0, 1))
    if way < 0.25:
        length = LIMIT + 1 if way < 0.2 else LIMIT
        return b"a" * length, tuple(range(0, 50, 7)) + (length + bad,), pick.choice((b".", b"", b"a" * (LIMIT + 1))), pick.choice((0, 5, LARGEST))
    if way < 0.45:
        return b"abc" + b"d" * pick.choice((0, 0, LIMIT)), (1, 3 + bad), b"." * (LIMIT + 1 if way < 0.4 else LIMIT), pick.choice((0, 1, 2, LARGEST))
    # 16,384 bytes of width 1, which 64 cells give way to.
    dots = b"." + "\u200B".encode() * 5461
    cells = [b"ab"] * MOST
    if more:
        cells[int(pick.random() * MOST)] = b"\tab"
    elif pick.random() < 0.3:
        cells[-1] = pick.choice((b"", b"a"))
    if bad:
        cells.append(b"")
    return b"".join(cells), tuple(sum(map(len, cells[:k + 1])) for k in range(len(cells))), dots, 1


def page(pick, long=0.0003):
    """Data, part ends, ellipsis and width; of some the ends are no ends of the data."""
    if pick.random() < long:
        return long_page(pick)
    parts = [cell(pick) for _ in range(how_many(pick))]
    data, ends = b"".join(parts), ends_of(pick, parts)
    if pick.random() < 0.04:
        data += pick.choice((b"a", TREE, b"\xA8"))
    if pick.random() < 0.12:
        ends = other_ends(pick, ends, len(data))
    return data, ends, ellipsis(pick), width(pick, parts)


# ── Laws

def parts_of(data, ends):
    """The cells another way: what is before an end, without what was before the one ahead of it."""
    parts, taken = [], 0
    for end in ends:
        parts.append(data[:end][taken:])
        taken = end
    return parts


def is_page(data, ends):
    return len(ends) < 65 and list(ends) == sorted(ends) and max(ends, default=0) == len(data)


def by_itself(part, dots, wide):
    """What the call that cuts a recording leaves of a cell, and the width that it returns."""
    (refusal, length, _, _, number), (data, *_) = call("write_truncated_end", recording(part), recording(dots), wide, room=(len(part) + len(dots), 0, 0))
    assert refusal == 0
    return data[:length], number


def joined(data, ends, dots, wide):
    """The cells cut one by one: the results joined, and their ends and widths."""
    made = [by_itself(part, dots, wide) for part in parts_of(data, ends)]
    return b"".join(d for d, _ in made), tuple(n for k, (_, w) in enumerate(made) for n in (sum(len(d) for d, _ in made[:k + 1]), w))


def laws(given):
    """The names of the laws that do not hold of a page that has no fault."""
    (data, ends, dots, wide), n = given, len(given[1])
    text, listed = joined(*given)
    numbers, (bytes_left, *_, list_left) = call(NAME, *given, room=(len(text) + 3, 0, 0, 2 * n + 3))
    cell_ends, widths = list_left[:2 * n:2], list_left[1:2 * n:2]
    parts, made = parts_of(data, ends), parts_of(bytes_left, cell_ends)
    told = {
        "as each by itself, in any room": in_rooms(given, text, listed),
        "the length and the count": numbers == (0, len(text), 0, 0, n),
        "ends never fall, the last is the length": (*cell_ends, numbers[1]) == (*sorted(cell_ends), max(cell_ends, default=0)),
        "all beyond stays": (bytes_left[numbers[1]:], list_left[2 * n:]) == (b"\xA5" * 3, (UNWRITTEN,) * 3),
        "no width passes the one asked for": all(w <= wide for w in widths),
        "a cell that is as wide at most stays": all((part, w) == (kept, text_width(part)) for part, kept, w in zip(parts, made, widths) if text_width(part) <= wide),
        "another begins as it did, and has the ellipsis if that fits": all(cut_so(part, kept, w, dots, wide) for part, kept, w in zip(parts, made, widths) if text_width(part) > wide),
        "as two pages, one after the other": joined_pages(halves(given)) == (text, listed),
    }
    return [name for name, holds in told.items() if not holds]


def cut_so(part, kept, kept_width, dots, wide):
    """A cell that was cut: a beginning and the ellipsis; or, if that is too wide, no column of the cell and a beginning of the ellipsis."""
    if text_width(dots) > wide:
        return any(kept == part[:k] + dots[:len(kept) - k] and text_width(part[:k]) == 0 for k in range(len(kept) + 1)) and kept_width <= wide
    head = kept[:len(kept) - len(dots)]
    return kept == head + dots and part.startswith(head) and kept_width == text_width(head) + text_width(dots)


def halves(given):
    """The page as two, with about as many cells."""
    (data, ends, *rest), n = given, len(given[1]) // 2
    cut = ends[n - 1] if n else 0
    return [(data[:cut], ends[:n], *rest), (data[cut:], tuple(end - cut for end in ends[n:]), *rest)]


def joined_pages(pages):
    """What the pages leave one after another, with the ends as in one."""
    text, listed = b"", ()
    for one in pages:
        numbers, (data, *_, numbers_left) = call(NAME, *one, room=(len(one[0]) + len(one[1]) * len(one[2]), 0, 0, 2 * len(one[1])))
        listed += tuple(number + len(text) * (k % 2 == 0) for k, number in enumerate(numbers_left))
        text += data[:numbers[1]]
    return text, listed


def laws_broken(count=6_000):
    """The laws that do not hold of random pages, each with the first of them. Many have to have several cells, and one that is cut across a character."""
    pick, wrong, several, across, full = random.Random(15), {}, 0, 0, 0
    for _ in range(count):
        given = page(pick, long=0)
        data, ends, dots, wide = given
        if not is_page(data, ends):
            continue
        for name in laws(given):
            wrong.setdefault(name, (name, given))
        several += len(ends) > 2
        across += sum(map(text_width, parts_of(data, ends))) != text_width(data)
        full += len(ends) == 64
    return list(wrong.values()) + [f"too few: {several}, {across}, {full}"] * (several < count // 4 or across < count // 20 or full < count // 100)


def refusal_of(given, data_room, list_room):
    """The refusal that a page must get, or 0."""
    data, ends, dots, wide = given
    if max(len(data), len(dots)) > LIMIT:
        return 1
    if not is_page(data, ends):
        return 38
    length = len(joined(*given)[0])
    return 9 if length > LIMIT else 21 if length > data_room else 24 if 2 * len(ends) > list_room else 0


def refusals_unlike(count=20_000):
    """The random calls that are refused otherwise than they must be, or leave something else. Each refusal has to come up."""
    pick, wrong, seen = random.Random(16), [], {}
    for _ in range(count):
        given = page(pick, long=0.0015)
        room = (max(len(given[0]) + pick.choice((-9, -1, 0, 5, 200, LIMIT)), 0), 3, 3, max(2 * len(given[1]) + pick.choice((-9, -2, -1, 0, 0, 0, 0, 1, 9)), 0))
        refusal = refusal_of(given, room[0], room[3])
        answer = call(NAME, *given, room=room)
        if answer[0][0] != refusal or refusal and answer != untouched(refusal, *room):
            wrong.append((given, room))
        seen[refusal] = seen.get(refusal, 0) + 1
    return wrong + [f"too few: {refusal}" for refusal in (0, 1, 9, 21, 24, 38) if seen.get(refusal, 0) < (3 if refusal in (1, 9) else count // 200)]
