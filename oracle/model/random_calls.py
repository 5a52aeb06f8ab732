"""Random calls for `compare_calls`: recordings of short texts rich in what is hard, some of them faulty, a few as long as a limit or longer.

`LAYOUT` has for each layout call what it takes after its content, `LAYOUT_WITH_CONTENT` what it takes together with it; a new call is a line of one of them. `VIEWS` has the two readers, which no
list holds. `list_of_calls` makes a list for `run_calls`, `adding` what the calls that add take.
"""
import views
from runs import NAMES, Pools
from ruszvedok_model import recording

LARGEST = 2 ** 32 - 1
# Tabs, newlines and spaces often; wide, zero-width and ill-formed characters; parts of sequences, which may meet and make a whole one.
PIECES = [p.encode() if isinstance(p, str) else p for p in [
    "\t", "\t", "\t", "\t", "\t", "\t", "\t", "\n", "\n", "\n", " ", " ", "   ", "a", "b", "cde", "fghijkl", "木", "木", "é", "\U00010000", "\U00020000", "\u0301", "\u200B", "\r", "\0",
    "\x7F", "\x85", b"\x9C", b"\xA8", b"\xE6", b"\xE6\x9C", b"\xF0", b"\xF0\x9F\x98", b"\xC3", b"\xFF", b"\xC0\x89", b"\xE0\x80\x89", b"\xED\xA0\x80", b"\xF4\x90",
    # Pictures (document 02, Q-5): both sides of the ends of their ranges, and parts of them.
    "\U0001F5FF", "\U0001F600", "\U0001F64F", "\U0001F650", "\U0001F67F", "\U0001F680", "\U0001F6C5", "\U0001F6C6", b"\xF0\x9F", b"\xF0\x9F\x9A", b"\x98\x80", b"\x80"]]
# Some differ in their first or last byte only, or are the end or the beginning of another.
LABELS = [b"x", b"x", b"x", b"yz", b"yx", b"xz", b"xx", b"", b"", "木".encode(), b"\t", b"working_copy", b"working"]
# Two are labels too.
RAWS = [b"R", b"\xFF", b"\x1B[1m", b"\t\n", b"\x9C", b"x", b"yz"]


def text(pick, most=10):
    if pick.random() < 0.06:
        most *= 12
    return b"".join(pick.choices(PIECES, k=int(pick.random() * (most + 1))))


def content(pick, most=10):
    return with_entries(pick, text(pick, most))


def with_entries(pick, data, places=None):
    """A recording: entries at any of the places, their texts in order with some unused before them, or a part that an earlier entry has, or one that lies anywhere in the text. Mostly few labels,
    so that equal ones are often there, stored once or more than once (document 02, Q-8); some recordings have many entries."""
    count = int(pick.random() * (6 if pick.random() < 0.85 else 25))
    few = pick.choices(LABELS, k=pick.choice((1, 2, 3, 9)))
    numbers, texts, parts = [], b"", {0: [], 2: []}
    for position in sorted(pick.choices(places or range(len(data) + 1), k=count)):
        kind = pick.choice((0, 0, 1, 1, 2))
        if kind == 1:
            numbers += (position, 1, 0, 0)
            continue
        new, way = pick.choice(few if kind == 0 else RAWS), pick.random()
        if parts[kind] and way < 0.2:
            part = pick.choice(parts[kind])
        elif way < 0.35 and new in texts:
            part = (pick.choice((texts.find(new), texts.rfind(new))), len(new))
        else:
            texts += b"" if pick.random() < 0.7 else b"?\xFF"
            part = (len(texts), len(new))
            parts[kind].append(part)
            texts += new
        numbers += (position, kind, *part)
    return damaged(pick, data, numbers, texts) if pick.random() < 0.12 else recording(data, numbers, texts)


def damaged(pick, data, numbers, texts):
    """One number changed, too many or too few of them, or a byte of the text that is ill-formed. Some are no fault."""
    way = pick.random()
    if way < 0.7 and numbers:
        odd = (0, 1, 2, 3, len(data), len(data) + 1, len(texts), len(texts) + 1, LARGEST)
        numbers[int(pick.random() * len(numbers))] = pick.choice(odd)
    elif way < 0.85:
        numbers = numbers[:-1] if numbers and pick.random() < 0.5 else numbers + [0] * pick.choice((1, 2, 3))
    elif texts:
        at = int(pick.random() * len(texts))
        texts = texts[:at] + pick.choice((b"\xFF", b"\xE6", b"\x9C")) + texts[at + 1:]
    return recording(data, numbers, texts)


def long_content(pick):
    """At a limit of the recording or of the result, one below it or above it."""
    more = pick.choice((-1, 0, 0, 1, 1))
    way = int(pick.random() * 5)
    if way == 0:
        return recording(b"\t" * (16384 + min(more, 0)) + b"a" * pick.choice((0, 1, 63, 64, 65)), (0, 0, 0, 1), b"x")
    if way == 1:
        return recording(b"a" * 1048577)
    if way == 2:
        return recording(b"a\tb", (1, 1, 0, 0) * (4096 + more))
    if way == 3:
        return recording(b"a\tb", (1, 0, 1, 3), b"x" * (65536 + more))
    return recording(b"a\tb", (1, 0, 0, 32768 + more, 2, 2, 0, 32768), b"x" * (32768 + max(more, 0)))


def long_labels(pick):
    """Balanced, with labels that come more than once: they are about a limit if each is stored once, and far beyond it, or not, if each entry's text is copied."""
    half, more = 32768, pick.choice((-1, 0, 0, 1, 1))
    if pick.random() < 0.2:
        return recording(b"a\tb", sum(((1, 0, 3 * (i % 8), 3) for i in range(2048)), ()) + (2, 1, 0, 0) * (2048 + min(more, 0)), b"No.123456789abcdefghijkl")
    entries = [(0, 0, 0, half), (0, 2, 1, half + more), (1, 1, 0, 0), (1, 0, 1, half), (2, 1, 0, 0)]
    if pick.random() < 0.3:
        entries[1:2] = [(0, 0, 0, half + more), (1, 1, 0, 0)] if more else [(0, 2, 0, half // 2)] * 2
    return recording(b"a\tb", sum(entries, ()), b"x" * (half + 2))


def any_content(pick):
    way = pick.random()
    return long_content(pick) if way < 0.001 else long_labels(pick) if way < 0.004 else content(pick)


def second(pick):
    return content(pick, 3)


def width(pick):
    return LARGEST if pick.random() < 0.02 else int(pick.random() * 20)


def stop(pick, r=None):
    """In range mostly, small ones often; for a long content one that takes it to the limit."""
    if r and len(r.data) > 10_000:
        return pick.choice((63, 64, 64, 64, 65))
    way = pick.random()
    if way < 0.08:
        return pick.choice((0, 65, 66, 128, 256, LARGEST - 63, LARGEST))
    return pick.choice((1, 2, 3, 4, 5, 7, 8, 64)) if way < 0.6 else 1 + int(pick.random() * 64)


def records(pick, length, new):
    """Replacement records, in order mostly."""
    places = sorted(pick.choices(range(length + 1), k=2 * int(pick.random() * 4)))
    numbers = []
    for start, end in zip(places[::2], places[1::2]):
        numbers += (start, end, *sorted(pick.choices(range(len(new) + 1), k=2)))
    if numbers and pick.random() < 0.1:
        numbers[int(pick.random() * len(numbers))] = pick.choice((0, length + 1, len(new) + 1, LARGEST))
    return tuple(numbers)


def replacing(pick, r):
    new = text(pick, 3)
    return records(pick, len(r.data), new), new


# ── contents with an indent, and prefixes

# The library looks for 0A at sixteen bytes at a time, and may compare so: lengths around that, and twice it.
LENGTHS = (14, 15, 16, 17, 18, 30, 31, 32, 33, 34, 50)


def bytes_of_line(pick, most):
    """Some without 0A."""
    return b"".join(p for p in pick.choices(PIECES, k=int(pick.random() * (most + 1))) if b"\n" not in p)


def prefix_bytes(pick):
    """None, a few, some that repeat themselves, some longer than sixteen."""
    way = pick.random()
    if way < 0.08:
        return b""
    if way < 0.4:
        return pick.choice((b">", b"> ", b"> ", b"aa", b"aaa", b"abab", b"\t", b"  ", "木".encode(), b"\xE6\x9C", b"\x9C"))
    if way < 0.6:
        return (pick.choice((b"a", b"a", b"ab", b"> ", b"aab")) * 50)[:pick.choice(LENGTHS)]
    return bytes_of_line(pick, 4)


def line_behind(pick, prefix):
    """What stands behind the prefix in a line: nothing, it once more or its beginning, long runs, or any bytes."""
    way = pick.random()
    if way < 0.15:
        return b""
    if way < 0.3:
        return prefix[:pick.choice((1, 2, len(prefix)))] + bytes_of_line(pick, 1)
    return pick.choice((b"a", b"b", b"\x9C")) * pick.choice(LENGTHS) if way < 0.5 else bytes_of_line(pick, 4)


def broken(pick, prefix):
    """The beginning of a line that is not the prefix: a byte of it other, in its last place often, or its end left out."""
    at = pick.choice((0, len(prefix) - 1, len(prefix) - 1, int(pick.random() * len(prefix))))
    return prefix[:at] + pick.choice((b"", b"", b"?", bytes([prefix[at] ^ 1])))


def indented(pick, prefix):
    """A content whose lines, but for empty ones, have the prefix; of some a line has not. Entries stand mostly around and inside the prefixes, and at the ends of lines."""
    lines = [b"" if pick.random() < 0.2 else prefix + line_behind(pick, prefix) for _ in range(pick.choice((0, 1, 1, 2, 2, 3, 3, 4, 5, 6, 7, 24)))]
    if prefix and lines and pick.random() < 0.12:
        lines[int(pick.random() * len(lines))] = broken(pick, prefix) + pick.choice((b"", b"", prefix, b"a" * 20))
    if pick.random() < 0.4:
        lines.append(b"")
    data, places = b"\n".join(lines), [0]
    for line in lines:
        start = places[-1]
        inside = int(pick.random() * (len(prefix) + 1))
        places += (min(start + n, len(data)) for n in (0, 1, inside, len(prefix), len(prefix) + 1, len(line), len(line) + 1))
    return with_entries(pick, data, places if pick.random() < 0.8 else None)


def prefixed(pick, prefix):
    """A prefix of these bytes under entries of its own; a few with a 0A more."""
    if pick.random() < 0.05:
        at = int(pick.random() * (len(prefix) + 1))
        prefix = prefix[:at] + b"\n" + prefix[at:]
    return with_entries(pick, prefix) if pick.random() < 0.5 else recording(prefix)


def unindenting(pick):
    """A content and a prefix that it mostly has; a few are any, or at a limit."""
    way = pick.random()
    if way < 0.002:
        return long_labels(pick), recording(b"")
    if way < 0.004:
        made = long_content(pick), long_content(pick)
        return made[0], recording(made[0].data[:pick.choice((0, 1, len(made[0].data)))]) if way < 0.0035 else made[1]
    if way < 0.08:
        return content(pick), second(pick)
    prefix = prefix_bytes(pick)
    return indented(pick, prefix), prefixed(pick, prefix)


# ── contents with something under a label, and labels

def long_view(pick):
    """Entries or text at a limit or one beyond it, of the content or of what a reader is left; under the label x and not."""
    more, half = pick.choice((-1, 0, 0, 1, 1)), 32768 + pick.choice((-1, 0, 1))
    way = int(pick.random() * 5)
    if way == 0:
        return recording(b"1" * 1048577, (0, 0, 0, 1, 9, 1, 0, 0), b"x")
    if way == 1:
        return recording("1木2".encode(), (1, 0, 0, 1) * 2048 + (4, 1, 0, 0) * 2048 + (4, 2, 0, 1) * (more > 0), b"x")
    if way == 2:
        return recording("1木2".encode(), (1, 0, 0, 1, 1, 2, 0, 1) + (2, 2, 0, 1, 2, 0, 1, 1, 2, 1, 0, 0) * 1364 + (4, 1, 0, 0) * (1 + max(more, 0)), b"xy")
    if way == 3:
        return recording(b"12", (0, 0, 0, 1, 1, 2, 1, 65535 + more, 2, 1, 0, 0), b"x" * (65536 + more))
    raws = [(0, 2, 0, half), (2, 2, 0, half)]
    under = [(0, 0, 0, 1), *raws, (2, 1, 0, 0)] if pick.random() < 0.5 else [raws[0], (0, 0, 0, 1), raws[1], (2, 1, 0, 0)] if pick.random() < 0.5 else raws
    return recording(b"12", sum(under, ()), b"x" * (half + 9))


def viewing(pick):
    """A content, mostly balanced, and a label that it mostly has; a few are any, damaged, or at a limit."""
    way = pick.random()
    if way < 0.002:
        return long_view(pick) if way < 0.001 else long_labels(pick), pick.choice((b"x", b"x", b"y"))
    made = content(pick) if way < 0.06 else views.content(pick)
    return damaged(pick, made.data, list(made.numbers), made.text) if way > 0.94 else made, views.label(pick)


# ── recordings to add to

def full(pick):
    """A recording and a label to push: its entries or its text are at the limit or one below it, with two parts that are equal or nearly so; the label is there, or is not."""
    label = pick.choice((b"working_copy", b"working_copy", b"orking_copyw", b"working_cop", b"y", b""))
    if pick.random() < 0.3:
        return recording(b"ab", (0, 0, 0, 12) * (4096 - pick.choice((0, 0, 1))), b"working_copy"), label
    texts, first = (b"working_copy" * 5462)[:65536 - pick.choice((0, 0, 1))], pick.choice((0, 12, 1))
    return recording(b"ab", (0, 0, first, 12, 1, 0, 24, 12, 1, 2, 0, 5), texts), label


def adding(pick, name):
    """A content, and what is added: of labels mostly one that the content has."""
    way = pick.random()
    if name == "push_label" and way < 0.01:
        return full(pick)
    r = long_content(pick) if way > 0.999 else content(pick)
    labels = [r.text[start:start + length] for _, kind, start, length in zip(*[iter(r.numbers)] * 4) if kind == 0]
    if name == "push_label":
        way = pick.random()
        return r, pick.choice(labels) if labels and way < 0.6 else pick.choice(LABELS) if way < 0.93 else pick.choice((b"\xFF", b"x\xE6", text(pick, 2)))
    return r, b"" if name == "pop_label" else pick.choice((*RAWS, *RAWS, b"")) if name == "raw" else text(pick, 3)


# What a layout call takes after its content.
LAYOUT = {
    "replay": lambda pick, r: (),
    "write_truncated_start": lambda pick, r: (second(pick), width(pick)),
    "write_truncated_end": lambda pick, r: (second(pick), width(pick)),
    "write_padded_start": lambda pick, r: (second(pick), width(pick)),
    "write_padded_end": lambda pick, r: (second(pick), width(pick)),
    "write_padded_centered": lambda pick, r: (second(pick), width(pick)),
    "write_indented": lambda pick, r: (second(pick),),
    "write_wrapped": lambda pick, r: (width(pick), pick.random() < 0.5),
    "write_replaced": replacing,
    "write_tabs_expanded": lambda pick, r: (stop(pick, r),),
}
# What a layout call takes with its content, where the two are made for each other.
LAYOUT_WITH_CONTENT = {"write_unindented": unindenting}
# What the two readers take (document 02, Q-6): a content and a label.
VIEWS = {"write_for_office": viewing, "write_for_floor": viewing}
# The calls that add.
ADDING = ("write", "push_label", "pop_label", "raw")
# All calls whose content is made for them.
WITH_CONTENT = {**LAYOUT_WITH_CONTENT, **VIEWS}
# Those of them that are lent a line list.
LINED = ("write_wrapped",)


def inputs(pick, name):
    """A content, and what else the call takes."""
    if name in WITH_CONTENT:
        return WITH_CONTENT[name](pick)
    r = any_content(pick)
    return r, *LAYOUT[name](pick, r)


def list_of_calls(pick):
    """A first content, and the calls with their pools, as `run_calls` takes them. Now and then a number is missing or another one: no kind, or a range that is not in its pool.

    Half of the contents have an indent; a call that takes one off has mostly the prefix that was put on last, which such a call often follows.
    """
    pools, calls, prefix, kind = Pools(), (), prefix_bytes(pick), None
    first = indented(pick, prefix) if pick.random() < 0.5 else content(pick)
    for _ in range(int(pick.random() * 6)):
        follows = kind is not None and NAMES[kind] == "write_indented" and pick.random() < 0.5
        kind = NAMES.index("write_unindented") if follows else int(pick.random() * len(NAMES))
        new = second(pick)
        if NAMES[kind] == "write_indented":
            new = prefixed(pick, prefix_bytes(pick)) if pick.random() < 0.5 else new
            prefix = new.data
        elif NAMES[kind] == "write_unindented" and pick.random() < 0.9:
            new = prefixed(pick, prefix)
        numbers = records(pick, 10, new.data) if NAMES[kind] == "write_replaced" else new.numbers
        number = stop(pick) if NAMES[kind] == "write_tabs_expanded" else width(pick)
        calls += (kind, number, *pools.add(new.data, numbers, new.text))
    if calls and pick.random() < 0.02:
        at = int(pick.random() * len(calls))
        calls = calls[:at] + pick.choice(((), (LARGEST,), (0,), (len(NAMES),), (len(pools.data) + 1,))) + calls[at + 1:]
    return first, calls, pools.data, pools.numbers
