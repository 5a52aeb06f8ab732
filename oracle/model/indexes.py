"""Document 02, Q-7: random recordings with lines, line indexes that are right or nearly so, and laws over the four calls on them.

The random inputs are also those of `compare_calls`."""
import random

import random_calls
from ruszvedok_model import QUESTIONS, call, line_starts, recording

LARGEST = 2 ** 32 - 1
# Bytes that are 0A but for one bit or for one, and others; 0D before some 0As.
NEAR = b"\x0A\x0A\x0A\x0B\x09\x08\x0E\x02\x1A\x2A\x4A\x8A\x8B\x89\x00\xF5\xFFa"
PIECES = [b"\n"] * 4 + [b"\n\n", b"\r\n", b"a", b"b c", b"oak 12 ft", "木".encode(), "é".encode(), b"\t", b"\0", b"\x8A", b"\x0B", b"\xFF", b"\xE6"]
# The library looks for 0A at sixteen bytes at a time and counts it at sixty-four: lines, and runs of 0A, about as long.
LENGTHS = (0, 1, 7, 8, 9, 14, 15, 16, 17, 18, 30, 31, 32, 33, 34, 47, 48, 49, 62, 63, 64, 65, 66, 127, 128, 129)
NEWLINES = (1, 1, 2, 3, 15, 16, 17, 31, 32, 33, 63, 64, 65, 127, 128, 129, 255, 256, 257)


# ── Data, and recordings of it

def data(pick, most=10):
    """None; 0A, with a line behind or not; without 0A; lines about as long as a block, the last with a 0A or without; pieces; or bytes that are nearly 0A."""
    way = pick.random()
    if way < 0.04:
        return b""
    if way < 0.1:
        return b"\n" * pick.choice(NEWLINES) + b"a" * pick.choice((0, 0, 0, 1, 16, 63, 64))
    if way < 0.16:
        return pick.choice((b"a", b"\x0B", b"\x8A", b"\r", b"ab ")) * pick.choice(LENGTHS)
    if way < 0.45:
        lines = [pick.choice((b"a", b"b", b"\x0B", b"\x8A", b"\x00")) * pick.choice(LENGTHS) for _ in range(1 + int(pick.random() * 5))]
        return pick.choice((b"\n", b"\n", b"\r\n")).join(lines) + pick.choice((b"", b"\n"))
    if way < 0.6:
        return bytes(pick.choices(NEAR, k=int(pick.random() * 6 * most)))
    if way < 0.66:
        most *= 12
    return b"".join(pick.choices(PIECES, k=int(pick.random() * (most + 1))))


def long_content(pick):
    """As long as the limit, or longer by one: of one line, of a few, or of 0A only; or at the limit of the entries or the text, or beyond it."""
    way = pick.random()
    if way < 0.1:
        return recording(b"\n" * (1048576 + pick.choice((0, 1))))
    if way < 0.5:
        length = 1048576 + pick.choice((0, 0, 1))
        return recording(pick.choice((b"a" * length, b"a" * (length - 1) + b"\n", (b"a" * 65535 + b"\n") * 16 + b"b" * (length - 1048576))))
    return random_calls.long_content(pick)


def content(pick):
    return random_calls.with_entries(pick, data(pick)) if pick.random() > 0.0002 else long_content(pick)


def front(r, length):
    """The recording before the rest was appended: its data up to a length, and the entries up to there."""
    whole = [r.numbers[i:i + 4] for i in range(0, len(r.numbers), 4)]
    count = next((k for k, e in enumerate(whole) if e[0] > length), len(whole))
    return recording(r.data[:length], r.numbers[:4 * count], r.text)


# ── Indexes and places

def other_data(pick, d):
    """Data that is nearly this."""
    at = int(pick.random() * (len(d) + 1))
    return pick.choice((d + b"\n", d[:-1], b"\n" + d, d[:at] + b"\n" + d[at:], d[:at] + b"a" + d[at:], d[:at] + d[at + 1:], d[:at], data(pick)))


def nearly(pick, index, d):
    """Mostly another index: a number wrong, one too few or too many, not in order, the first not 0, of other data, none, or any numbers. Some are the same."""
    index, at = list(index), int(pick.random() * len(index))
    way = int(pick.random() * 9)
    if way == 0:
        index[at] = pick.choice((index[at] + 1, max(index[at] - 1, 0), index[at - 1], 0, len(d), len(d) + 1, LARGEST, index[at] ^ 1 << int(pick.random() * 32)))
    elif way == 1:
        del index[pick.choice((0, -1, -1, at))]
    elif way == 2:
        index.append(pick.choice((0, index[-1], index[-1] + 1, len(d), len(d) + 1, LARGEST)))
    elif way == 3:
        index.insert(at, pick.choice((0, index[at], index[at] + 1, max(index[at] - 1, 0), LARGEST)))
    elif way == 4:
        other = pick.choice((at - 1, int(pick.random() * len(index))))
        index[at], index[other] = index[other], index[at]
    elif way == 5:
        index[0] = pick.choice((1, 1, 2, len(d), LARGEST))
    elif way == 6:
        index = line_starts(other_data(pick, d))
    elif way == 7:
        index = pick.choice(([], index[::-1], index[1:], [n - 1 for n in index[1:]], [n + 1 for n in index]))
    else:
        index = pick.choices((0, 1, 2, len(d), LARGEST, *index), k=int(pick.random() * 6))
    return tuple(index)


def size(pick, right, edges):
    """A number that C takes as a size_t: mostly one of the edges or near the right one; a few are beyond 32 bits, some of these with it in the lower half."""
    way = pick.random()
    if way < 0.5:
        return max(pick.choice(edges), 0)
    if way < 0.93:
        return max(right + pick.choice((-1, 0, 0, 0, 0, 0, 0, 1)), 0)
    return pick.choice((LARGEST, LARGEST + 1, LARGEST + 2, 2 ** 63, 2 ** 63 - 1, 2 ** 64 - 1, 2 ** 64 - 2, 2 ** 32 + right, 2 ** 63 + right, 2 ** 33 + right))


def asking(pick, name):
    """A recording, an index that mostly is its own, and a line or an offset."""
    r = content(pick)
    right = line_starts(r.data)
    index = right if pick.random() < 0.7 else nearly(pick, right, r.data)
    count, length, start = len(right), len(r.data), pick.choice(right)
    if name == "line_at":
        return r, index, size(pick, int(pick.random() * count), (0, count - 2, count - 1, count - 1, count, count, count + 1, length))
    return r, index, size(pick, int(pick.random() * (length + 1)), (0, start, start, start - 1, start - 1, start + 1, start - 2, length, length, length + 1))


def room(pick, needed):
    """The length of a list: exactly enough, longer, too short by one or more, or none."""
    return max(needed + pick.choice((0, 0, 0, 0, 1, 2, 5, 9, -1, -1, -1, -2, -needed)), 0)


def building(pick, former):
    """A recording, and a list of about the right length: it holds what `former` gives for a length, or the index already, or nearly."""
    r = content(pick)
    right = line_starts(r.data)
    length = room(pick, len(right))
    way = pick.random()
    return (r,), former(length) if way < 0.8 else overlaid(former(length), right if way < 0.9 else nearly(pick, right, r.data))


def overlaid(held, numbers):
    """A list that holds these numbers from its first place on, as many as it has places for."""
    return (tuple(numbers) + held[len(numbers):])[:len(held)]


def extending(pick, former):
    """A recording, an earlier length, how many numbers are used, and a list: they fit, or nearly. Behind the used numbers it has any, or the index goes on."""
    r = content(pick)
    d, whole = r.data, line_starts(r.data)
    start = pick.choice(whole)
    earlier = min(max(pick.choice((0, start, start, start - 1, start + 1, len(d), len(d) - 1, *[int(pick.random() * (len(d) + 1))] * 4)), 0), len(d))
    right = line_starts(d[:earlier])
    held, used, length = right, len(right), max(room(pick, len(whole)), pick.choice((0, len(right))))
    way = pick.random()
    if way < 0.12:
        held = nearly(pick, right, d[:earlier])
        used = len(held) if pick.random() < 0.7 else used
    elif way < 0.2:
        used = size(pick, used, (0, 0, used - 1, used + 1, length, length + 1, length + 1, len(whole)))
    elif way < 0.3:
        earlier = size(pick, earlier, (len(d) + 1, len(d) + 1, len(d) + 2, earlier - 1, earlier + 1, start, start - 1, len(d)))
    behind = former(length) if pick.random() < 0.6 else overlaid(former(length), whole)
    return (r, earlier, used), overlaid(behind, held)


# What is lent of an index that is written, and what the two questions take.
WRITTEN = {"build_line_index": building, "extend_line_index": extending}
ASKED = {name: asking for name in QUESTIONS}


def steps(pick):
    """Recordings that grow by appending, two to four of them, of which the last is whole; and the length of a list."""
    r = content(pick)
    starts = line_starts(r.data)
    cuts = [pick.choice((0, start, max(start - 1, 0), int(pick.random() * (len(r.data) + 1)))) for start in pick.choices(starts, k=1 + int(pick.random() * 3))]
    return [front(r, length) for length in sorted(cuts)] + [r], room(pick, len(starts))


# ── Laws

UNWRITTEN = 0xA5A5A5A5


def starts_by_lengths(d):
    """The index another way: each line begins where the one before it, with its 0A, ends."""
    starts = [0]
    for line in d.split(b"\n")[:-1]:
        starts.append(starts[-1] + len(line) + 1)
    return tuple(starts)


def fault_of(r):
    """The refusal of the recording itself, or 0."""
    refusal = call("replay", r, room=(len(r.data), len(r.numbers), 2 ** 17))[0][0]
    return refusal if refusal <= 6 else 0


def built(r, held):
    """The answer of building, and the list after it."""
    numbers, (*others, index) = call("build_line_index", r, room=(0, 0, 0, held))
    return numbers, index, others == [b"", (), b""]


def laws(r):
    """The names of the laws that do not hold of a recording without fault."""
    d, pieces = r.data, r.data.split(b"\n")
    numbers, held, alone = built(r, len(pieces) + 3)
    right = held[:len(pieces)]
    lines = [call("line_at", r, right, n)[0] for n in range(len(pieces))]
    places = [call("place_of", r, right, offset)[0] for offset in range(len(d) + 1)]
    told = {
        "as many lines as 0A and one": numbers == (0, 0, 0, 0, d.count(b"\n") + 1) and alone,
        "0 first, then rising, each behind a 0A": right[0] == 0 and all(a < b and d[b - 1] == 0x0A for a, b in zip(right, right[1:])),
        "all beyond stays": held[len(pieces):] == (UNWRITTEN,) * 3,
        "a list exactly full": built(r, len(pieces)) == (numbers, right, True),
        "one too short": built(r, len(pieces) - 1) == ((36, 0, 0, 0, 0), (UNWRITTEN,) * (len(pieces) - 1), True),
        "every line and every offset is there": all(refusal == 0 for refusal, _, _ in lines + places),
        "the lines joined by 0A are the data": [d[first:end] for _, first, end in lines] == pieces,
        "no line follows on the last": [call("line_at", r, right, n)[0] for n in (len(pieces), len(pieces) + 1, 2 ** 32, 2 ** 63)] == [(37, 0, 0)] * 4,
        "no offset follows on the end": [call("place_of", r, right, n)[0] for n in (len(d) + 1, len(d) + 2, 2 ** 32, 2 ** 63)] == [(37, 0, 0)] * 4,
        "first byte and column are the offset": all(lines[line][1] + column == offset <= lines[line][2] for offset, (_, line, column) in enumerate(places)),
        "exactly one line has an offset": all(sum(first <= offset <= end for _, first, end in lines) == 1 for offset in range(len(d) + 1)),
        "a line's ends have its places": all(places[first] == (0, n, 0) and places[end] == (0, n, end - first) for n, (_, first, end) in enumerate(lines)),
    }
    return [name for name, holds in told.items() if not holds]


def laws_broken(count=3000):
    """The laws that do not hold of random recordings, each with the first of them. Many have to have several lines and many bytes."""
    pick, wrong, many, blocks = random.Random(11), {}, 0, 0
    for _ in range(count):
        r = random_calls.with_entries(pick, data(pick))
        if fault_of(r) or len(r.data) > 300:
            continue
        for name in laws(r):
            wrong.setdefault(name, (name, r))
        many += b"\n" in r.data[:-1]
        blocks += len(r.data) > 32
    return list(wrong.values()) + [f"too few: {many}, {blocks}"] * (min(many, blocks) < count // 10)


def extended(r, earlier, length):
    """Whether an index of the earlier data, extended, is what building over all the data leaves in the same list; or stays, where that is refused."""
    before, held, _ = built(front(r, earlier), length)
    if before[0]:
        return True
    numbers, (*others, after) = call("extend_line_index", r, earlier, before[4], room=(0, 0, 0, held))
    at_once, whole, right = *built(r, length)[:2], starts_by_lengths(r.data)
    if length < len(right):
        return numbers == at_once == (36, 0, 0, 0, 0) and after == held
    return (numbers, after) == (at_once, whole) == ((0, 0, 0, 0, len(right)), right + (UNWRITTEN,) * (length - len(right))) and others == [b"", (), b""]


def extensions_unlike_building(count=1000):
    """The random recordings of which extending is not building, each tried by every earlier length in a list exactly full, longer, and too short by one."""
    pick, wrong = random.Random(12), []
    for _ in range(count):
        r = random_calls.with_entries(pick, data(pick)[:80])
        if fault_of(r) == 0:
            needed = r.data.count(b"\n") + 1
            tried = [(r, earlier, length) for earlier in range(len(r.data) + 1) for length in (needed, needed + 2, needed - 1)]
            wrong += [one for one in tried if not extended(*one)]
    return wrong


def steps_unlike_building(count=5000):
    """The random recordings of which the index, built on a front and extended in steps, is not that of building at once."""
    pick, wrong, done = random.Random(13), [], 0
    for _ in range(count):
        recordings, length = steps(pick)
        numbers, held, _ = built(recordings[0], length)
        for former, r in zip(recordings, recordings[1:]):
            if numbers[0] == 0:
                numbers, (*_, held) = call("extend_line_index", r, len(former.data), numbers[4], room=(0, 0, 0, held))
        at_once, whole, _ = built(recordings[-1], length)
        if numbers[0] == 0:
            done += 1
            if (numbers, held) != (at_once, whole):
                wrong.append((recordings, length))
        elif at_once[0] == 0:
            wrong.append((recordings, length))
    return wrong + [f"too few: {done}"] * (done < count // 3)


def index_fault(r, earlier, used, held):
    """The refusal that extending must give, or 0: first the recording's own, then 36."""
    d, right = r.data, starts_by_lengths(r.data)
    fits = used <= len(held) and earlier <= len(d) and list(held[:used]) == list(starts_by_lengths(d[:earlier])) and len(right) <= len(held)
    return fault_of(r) or (0 if fits else 36)


def refusals_unlike(count=20_000):
    """The random calls that are refused otherwise than they must be, or answer or leave something else. Each refusal has to come up often."""
    pick, wrong, seen = random.Random(14), [], {}
    for k in range(count):
        name = (*WRITTEN, *ASKED)[k % 4]
        if name in WRITTEN:
            inputs, held = WRITTEN[name](pick, lambda length: tuple(range(7, 7 + length)))
            right = starts_by_lengths(inputs[0].data)
            refusal = index_fault(*inputs, held) if name == "extend_line_index" else fault_of(inputs[0]) or 36 * (len(held) < len(right))
            expected = ((refusal, 0, 0, 0, 0), (b"", (), b"", held)) if refusal else ((0, 0, 0, 0, len(right)), (b"", (), b"", right + held[len(right):]))
            right_answer = call(name, *inputs, room=(0, 0, 0, held)) == expected
        else:
            r, index, asked = inputs = ASKED[name](pick, name)
            there = asked < len(r.data.split(b"\n")) if name == "line_at" else asked < len(r.data) + 1
            refusal = fault_of(r) or 36 * (index != starts_by_lengths(r.data)) or 37 * (not there)
            numbers, buffers = call(name, *inputs)
            right_answer = buffers == () and (numbers == (refusal, 0, 0) if refusal else numbers[0] == 0)
        if not right_answer:
            wrong.append((name, inputs))
        seen[name, refusal] = seen.get((name, refusal), 0) + 1
    needed = [(name, refusal) for name in (*WRITTEN, *ASKED) for refusal in (0, 2, 3, 4, 5, 6, 36)] + [(name, 37) for name in ASKED]
    return wrong + [f"too few: {key}" for key in needed if seen.get(key, 0) < count // 2000]
