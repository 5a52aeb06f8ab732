"""A list of layout calls as `run_calls` takes it: eight numbers a call, two sets of buffers, a line list and a list of answers. And the expected output of the program `runs_test`, which runs such lists."""
from printing import spaced
from ruszvedok_model import call, recording

NAMES = ["write_truncated_start", "write_truncated_end", "write_padded_start", "write_padded_end", "write_padded_centered", "write_indented", "write_wrapped", "write_wrapped",
         "write_replaced", "write_tabs_expanded", "write_unindented"]


def fault(calls, pool, pool_numbers, used, first, other, answers):
    """The refusal of the list itself, before any call, or 0."""
    if any(n > len(buffer) for n, buffer in zip(used, first)):
        return 10
    if [len(buffer) for buffer in first] != [len(buffer) for buffer in other]:
        return 61
    rows = [calls[i:i + 8] for i in range(0, len(calls), 8)]
    inside = lambda a, b, whole: a <= b <= len(whole)
    if len(calls) % 8 or any(k >= len(NAMES) or not (inside(a, b, pool) and inside(n, m, pool_numbers) and inside(s, e, pool)) for k, _, a, b, n, m, s, e in rows):
        return 62
    return 63 if len(answers) < 2 * len(rows) else 0


def run_calls(calls, pool, pool_numbers, used, first, other, lines, answers):
    """The five numbers that come back; then both sets, the line list and the list of answers as they are left."""
    refused = fault(calls, pool, pool_numbers, used, first, other, answers)
    if refused:
        return (refused, 0, 0, 0, 0), first, other, lines, answers
    sets, here, made, told = [tuple(first), tuple(other)], 0, 0, ()
    for i in range(0, len(calls), 8):
        kind, width, a, b, n, m, s, e = calls[i:i + 8]
        content = recording(*(buffer[:length] for buffer, length in zip(sets[here], used)))
        second = recording(pool[a:b], pool_numbers[n:m], pool[s:e])
        inputs = {5: (second,), 6: (width, False), 7: (width, True), 8: (pool_numbers[n:m], pool[a:b]), 9: (width,), 10: (second,)}.get(kind, (second, width))
        wraps = kind in (6, 7)
        numbers, buffers = call(NAMES[kind], content, *inputs, room=sets[1 - here] + ((lines,) if wraps else ()))
        told += numbers[0], numbers[4]
        if numbers[0] == 0:
            here, made, used = 1 - here, made + 1, numbers[1:4]
            sets[here] = tuple(buffers[:3])
            lines = buffers[3] if wraps else lines
    if here == 1:
        sets[0] = tuple(result[:length] + old[length:] for result, old, length in zip(sets[1], sets[0], used))
    return (0, *used, made), *sets, lines, told + tuple(answers[len(told):])


# ── runs_test: its pools, its list, and lists that are refused

class Pools:
    def __init__(self):
        self.data, self.numbers = b"", ()

    def add(self, data=b"", numbers=(), text=b""):
        """The three ranges where these stand."""
        a, n = len(self.data), len(self.numbers)
        s = a + len(data)
        self.data, self.numbers = self.data + data + text, self.numbers + tuple(numbers)
        return a, s, n, len(self.numbers), s, len(self.data)


POOLS = Pools()
ARROW = POOLS.add(b"=>", (0, 0, 0, 1, 2, 1, 0, 0), b"a")
CUT = POOLS.add(b"~", (0, 2, 0, 2, 0, 0, 2, 1, 1, 1, 0, 0), b"^^c")
WIDE = POOLS.add("木".encode())
DASH = POOLS.add(b"-+", (0, 0, 0, 4, 1, 1, 0, 0), b"blue")
BAR = POOLS.add(b"| ", (0, 0, 0, 5, 2, 1, 0, 0), b"green")
OAK = POOLS.add(b"oak", (0, 2, 0, 3, 20, 20, 0, 0))
TWO = POOLS.add(b"X\t", (2, 5, 0, 2, 8, 8, 1, 2))
FAULTY = POOLS.add(b".", (0, 1, 0))
QUOTE = POOLS.add(b"> ", (0, 0, 0, 1, 2, 1, 0, 0), b"g")
NONE = (0,) * 6
LIST = [(0, 9, ARROW), (8, 0, OAK), (1, 8, CUT), (2, 10, WIDE), (3, 4294967295, DASH), (3, 14, DASH), (4, 60, ARROW), (4, 17, BAR), (6, 8, NONE), (7, 1, NONE), (7, 7, NONE),
        (7, 7, NONE), (0, 3, FAULTY), (5, 0, CUT), (5, 0, QUOTE), (8, 0, TWO), (9, 65, NONE), (9, 4, NONE), (10, 4294967295, QUOTE), (1, 12, CUT)]
CALLS = sum(((kind, width, *ranges) for kind, width, ranges in LIST), ())
# A call that can be run, one of no kind, ranges that run backwards, and ranges that pass their pools.
NUMBERS = ((0, 9) + ARROW + (11, 9) + ARROW + (0, 9, 2, 0, 0, 8, 2, 3) + (0, 9, 0, 2, 8, 0, 2, 3) + (0, 9, 0, 2, 0, 8, 3, 2)
           + (0, 9, 0, len(POOLS.data) + 1, 0, 8, 2, 3) + (0, 9, 0, 2, 0, len(POOLS.numbers) + 1, 2, 3) + (0, 9, 0, 2, 0, 8, 0, len(POOLS.data) + 1))
# From and to in these numbers, how much of the data is used, the other set's text, the list of answers.
REFUSED = [(0, 8, 65, 24, 2), (0, 8, 11, 23, 2), (0, 7, 11, 24, 2), *((i, i + 8, 11, 24, 2) for i in range(8, 64, 8)),
           (0, 8, 11, 24, 1), (8, 15, 65, 23, 0), (8, 15, 11, 23, 0), (8, 15, 11, 24, 0), (0, 0, 11, 24, 0)]


def shown_set(name, buffers):
    data, numbers, text = buffers
    return name + b" " + data.replace(b"\n", b"$") + spaced(numbers) + b" " + text.replace(b"\n", b"$") + b"\n"


def shown(first, other, lines, answers):
    return shown_set(b"  first", first) + shown_set(b"  other", other) + b"  lines" + spaced(lines) + b"\n  answers" + spaced(answers) + b"\n"


def with_content(buffers):
    content = b"oak 12 ft b", (0, 0, 0, 3, 3, 1, 0, 0, 4, 2, 3, 1), b"redR"
    return tuple(new + old[len(new):] for new, old in zip(content, buffers))


def runs_test():
    first, other, lines, answers = with_content((b"_" * 64, (9,) * 96, b"_" * 24)), (b"_" * 64, (9,) * 96, b"_" * 24), (9,) * 16, (9,) * 42
    out = b""
    for a, b, used, text, room in REFUSED:
        numbers = run_calls(NUMBERS[a:b], POOLS.data, POOLS.numbers, (used, 12, 4), first, other[:2] + (other[2][:text],), lines, answers[:room])[0]
        out += b"list" + spaced((a, b, used, text, room)) + b":" + spaced(numbers) + b"\n"
    out += shown(first, other, lines, answers)
    numbers, first, other, lines, answers = run_calls(CALLS, POOLS.data, POOLS.numbers, (11, 12, 4), first, other, lines, answers)
    out += b"at once:" + spaced(numbers) + b"\n" + shown(first, other, lines, answers)
    first, used = with_content(first), (11, 12, 4)
    for i in range(0, len(CALLS), 8):
        numbers, first, other, lines, answers = run_calls(CALLS[i:i + 8], POOLS.data, POOLS.numbers, used, first, other, lines, answers)
        used = numbers[1:4]
        out += b"call" + spaced(CALLS[i:i + 2]) + b":" + spaced(numbers) + b"\n" + shown_set(b"  first", first) + b"  answers" + spaced(answers[:2]) + b"\n"
    return out
