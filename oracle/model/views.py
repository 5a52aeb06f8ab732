"""Document 02, Q-6: random recordings with something under a label; two that are alike in the request's sense; contents with prices that the floor must not find; and laws over the two readers."""
import random

from ruszvedok_model import POP, PUSH, RAW, Entry, balanced, call, chars, coloured, entries, open_after, recording, text_width, well_formed, width_of

# Characters by their width, of one to four bytes each, faces and trucks among them; ill-formed ones have width 1. Those of width 0 have a tab.
OF_WIDTH = [
    [b"\t", b"\0", b"\x7F", "\x85".encode(), "\u0301".encode(), "\u200B".encode()],
    [b"1", b"9", b"*", "é".encode(), "─".encode(), "\U00010000".encode(), "\U0001F5FF".encode(), b"\xFF", b"\x9C", b"\xE6\x9C", b"\xF0\x9F\x98"],
    ["木".encode(), "\u1100".encode(), "\U00020000".encode(), "\U0001F600".encode(), "\U0001F6C5".encode()],
]
# What data is made of: these, newlines, words, and parts of sequences that may meet and make a whole one.
PIECES = [c for same in OF_WIDTH for c in same] + [b"\n"] * 6 + [b"a", b"b c", b"12.50", b"\xE6", b"\x9C\xA8", b"\xA8", b"\xC3", b"\xA9", b"\xCC", b"\x81", b"\xF0\x9F", b"\x98\x80"]
# Bytes that lead, continue or are no part of a sequence: where a character begins among them is seen from its first byte only.
HARD = b"a1\n\x80\x81\x98\x9C\x9F\xA8\xBF\xC3\xCC\xE0\xE6\xED\xF0\xF4\xFF" + b"\x80\x9C\xA8" * 4
LABELS = [b"x", b"x", b"x", b"x", b"y", b"y", b"xy", b"", "木".encode(), b"x\0"]
RAWS = [b"R", b"\xFF", b"\x1B[1m", b"x", b"*\n", b"\x9C" * 9]
ILL_LABELS = [b"", b"\xFF", b"x\xE6\x9C", b"\xE6", b"x\x80", b"\xED\xA0\x80", b"\xF4\x90\x80\x80"]


def data(pick, most=10):
    if pick.random() < 0.04:
        most *= 12
    if pick.random() < 0.15:
        return bytes(pick.choices(HARD, k=int(pick.random() * (3 * most + 1))))
    return b"".join(pick.choices(PIECES, k=int(pick.random() * (most + 1))))


def random_entries(pick, length, most=9):
    """Entries at any of the places, balanced: what is still open at the last of them is closed between it and the data's end."""
    result, labels = [], ()
    for position in sorted(pick.choices(range(length + 1), k=int(pick.random() * most))):
        kind = pick.choice((PUSH, PUSH, POP, POP, RAW, RAW))
        if kind == POP and not labels:
            kind = PUSH
        result.append(Entry(position, kind, pick.choice(LABELS) if kind == PUSH else pick.choice(RAWS) if kind == RAW else b""))
        labels = open_after(labels, result[-1])
    last = result[-1].position if result else 0
    return result + [Entry(position, POP, b"") for position in sorted(pick.choices((last, length, length), k=len(labels)))]


def laid_out(pick, data, parts):
    """A recording of these entries: their texts in order, with some unused before them, or a part that is there already."""
    numbers, text = [], b""
    for e in parts:
        start = 0 if e.kind == POP else text.find(e.text) if pick.random() < 0.2 else -1
        if start < 0:
            text += b"" if pick.random() < 0.7 else b"?\xFF"
            start = len(text)
            text += e.text
        numbers += (e.position, e.kind, start, len(e.text))
    return recording(data, numbers, text)


def unbalanced(pick, parts):
    """The entries without one of them, or with a pop or a push more; some are still balanced."""
    parts, at = list(parts), int(pick.random() * (len(parts) + 1))
    position = parts[at - 1].position if at else 0
    return pick.choice((parts[:at] + parts[at + 1:], parts[:at] + [Entry(position, POP, b"")] + parts[at:], parts[:at] + [Entry(position, PUSH, b"x")] + parts[at:]))


def content(pick, most=10):
    """Balanced, but for a few."""
    made = data(pick, most)
    parts = random_entries(pick, len(made))
    return laid_out(pick, made, unbalanced(pick, parts) if pick.random() < 0.06 else parts)


def label(pick):
    """One that is mostly there; a few are absent, empty or ill-formed."""
    way = pick.random()
    return b"x" if way < 0.7 else pick.choice((b"y", b"y", b"xy", "木".encode(), b"z", b"x" * 40)) if way < 0.94 else pick.choice(ILL_LABELS)


# ── Two recordings that are alike

def known_to_floor(r, of):
    """What two recordings have in common if they differ only under the label: for each character its bytes, or its width if it is replaced; the kinds and labels of the entries before it and inside
    of it, these at their bytes if it is not replaced; those at the data's end; and of a raw sequence, if it is not under the label, its bytes."""
    under, left, labels, at, known = [of in labels for _, labels in coloured(r)], entries(r)[::-1], (), 0, []

    def taken(end, start=None):
        """The entries before that place, each at its distance from `start` if there is one."""
        nonlocal labels
        result = []
        while left and left[-1].position < end:
            e = left.pop()
            labels = open_after(labels, e)
            result.append((None if start is None else e.position - start, e.kind, None if e.kind == RAW and of in labels else e.text))
        return result

    for c in chars(r.data):
        end = at + c.length
        replaced = any(under[at:end]) and r.data[at:end] != b"\n"
        known.append((width_of(c) if replaced else r.data[at:end], taken(at + 1), taken(end, None if replaced else at)))
        at = end
    return known + taken(at + 1)


def alike(one, other, of):
    return known_to_floor(one, of) == known_to_floor(other, of)


def changed(pick, r, of):
    """A recording that may be alike: other characters for those that are replaced, of the same width, with the entries inside at any of their bytes; other raw sequences under the label; other places
    of all texts."""
    under, left, labels, at, made, parts = [of in labels for _, labels in coloured(r)], entries(r)[::-1], (), 0, b"", []

    def take(end, place):
        nonlocal labels
        while left and left[-1].position < end:
            e = left.pop()
            labels = open_after(labels, e)
            parts.append(Entry(place(e.position), e.kind, pick.choice(RAWS) * pick.choice((1, 2)) if e.kind == RAW and of in labels else e.text))

    for c in chars(r.data):
        start, end = len(made), at + c.length
        take(at + 1, lambda position: start)
        if any(under[at:end]) and r.data[at:end] != b"\n" and pick.random() < 0.8:
            inside = sum(at < e.position < end for e in left)
            made += pick.choice([other for other in OF_WIDTH[width_of(c)] if len(other) > 1 or not inside])
            places = sorted(pick.choices(range(start + 1, len(made)), k=inside)) if inside else []
            take(end, lambda position: places.pop(0))
        else:
            made += r.data[at:end]
            take(end, lambda position: start + position - at)
        at = end
    take(at + 1, lambda position: len(made))
    return laid_out(pick, made, parts)


def long_twins(pick):
    """Two that are alike, and of which the texts that the floor is left are together at the limit or about it, since their parts overlap; the raw sequences under the label are of other lengths."""
    half, less = pick.choice((32767, 32768, 32769)), pick.choice((0, 1))

    def made(data, under):
        end = len(data)
        return recording(data, (0, RAW, 1, half, 0, PUSH, 0, 1, 0, RAW, 1, under, end, POP, 0, 0, end, RAW, 1, half - less), b"x" + b"R" * half)

    return made(b"1", 1 + pick.randrange(half)), made("é".encode(), 1 + pick.randrange(half)), b"x"


def twins(pick, most=10):
    """Two recordings that are alike, and their label. Two that have become other characters, since ill-formed bytes met, or of which a byte inside a character is no longer under the label, are none."""
    if pick.random() < 0.001:
        return long_twins(pick)
    while True:
        one, of = content(pick, most), label(pick)
        for _ in range(4):
            other = changed(pick, one, of)
            if alike(one, other, of):
                return one, other, of


# Room for any answer here.
AMPLE = (4096, 256, 65536)


def rooms(pick, needed):
    """Lengths of the three buffers: enough, exact, or one of them short."""
    way, short = pick.random(), pick.choice((0, 1, 2))
    return [n + int(pick.random() * 6) if way < 0.4 else max(n - 1, 0) if way > 0.65 and k == short else n for k, n in enumerate(needed)]


def held(pick, lengths):
    """Buffers of these lengths with something in every place."""
    return pick.randbytes(lengths[0]), tuple(pick.choices(range(2 ** 32), k=lengths[1])), pick.randbytes(lengths[2])


def twins_told_apart(count=20_000):
    """The twins of which the floor's answers, or what is left in buffers of the same lengths and former contents, differ. Enough of them have to be other than each other, be done and be refused by each
    number that there can be; otherwise nothing is shown."""
    pick, wrong, seen, other_data, other_length = random.Random(7), [], set(), 0, 0
    for _ in range(count):
        one, other, of = twins(pick)
        needed = call("write_for_floor", one, of, room=AMPLE)[0][1:4]
        lent = held(pick, rooms(pick, needed))
        answers = [call("write_for_floor", r, of, room=lent) for r in (one, other)]
        if answers[0] != answers[1]:
            wrong.append((one, other, of))
        seen.add(answers[0][0][0])
        other_data += one.data != other.data
        other_length += len(one.data) != len(other.data)
    return wrong + [f"too few: {seen}, {other_data}, {other_length}"] * (seen != {0, 9, 21, 22, 23, 34, 35} or min(other_data, other_length) < count // 10)


def alike_and_told_apart(count=60_000):
    """The small recordings that are alike one before and leave something else, whatever way they are made. Many have to meet one that they are alike and differ from."""
    pick, met, wrong, many = random.Random(8), {}, [], 0
    few = [b"1", b"2", "é".encode(), b"\n", "木".encode(), "\U00020000".encode(), b"\xE6\x9C"]
    for _ in range(count):
        made = b"".join(pick.choices(few, k=pick.choice((1, 1, 2))))
        r = laid_out(pick, made, random_entries(pick, len(made), 5))
        answer = call("write_for_floor", r, b"x", room=AMPLE)
        one, former = met.setdefault(repr(known_to_floor(r, b"x")), (r, answer))
        many += one.data != r.data
        if former != answer:
            wrong.append((one, r))
    return wrong + [f"too few: {many}"] * (many < count // 40)


# ── Prices: bytes that are under the label and nowhere else

# Under the label: digits, characters of each width and ill-formed bytes; what is not under it has none of their bytes.
SECRETS = [b"0", b"1", b"23.50", b"45678", b"9", "円".encode(), "\u0302".encode(), "\U0001F602".encode(), b"\xFE", b"\xE5\x86", b"\x86", b"\x82\x82", b"\xE5"]
SECRET_BYTES = frozenset(b"".join(SECRETS))
OPEN = [b"a", b"oak ", b"bc", b"\n", b"\t", "木".encode(), "é".encode(), b"\xFF", b"\xE6", b"\xC3", b"\xA8", b"*"]


def priced(pick):
    """A content whose bytes under the label `price` are of SECRETS, 0A apart, and no others but the rest of characters that begin or end under it."""
    made, parts, labels = b"", [], ()

    def add(kind, text=b""):
        nonlocal labels
        parts.append(Entry(len(made), kind, text))
        labels = open_after(labels, parts[-1])

    def turn():
        """One label more or less, mostly the one that hides."""
        if labels and pick.random() < 0.5:
            add(POP)
        else:
            add(PUSH, pick.choice((b"price", b"price", b"grade", b"prices")))

    for _ in range(int(pick.random() * 24)):
        hidden, way = b"price" in labels, pick.random()
        if way < 0.4:
            made += pick.choice(SECRETS + [b"\n"] if hidden else OPEN)
        elif way < 0.6:
            add(RAW, b"".join(pick.choices(SECRETS if hidden else OPEN, k=2)))
        elif way < 0.7:
            # A character with an entry inside, and perhaps the label's end or beginning there.
            c = pick.choice([s for s in SECRETS if len(s) > 1 and s[0] > 0xC0 and well_formed(s)])
            cut = 1 + int(pick.random() * (len(c) - 1))
            made += c[:cut]
            add(POP) if hidden and pick.random() < 0.5 else add(PUSH, b"price")
            made += c[cut:]
        else:
            turn()
    while labels:
        add(POP)
    return laid_out(pick, made, parts)


def prices_found(lent):
    """Whether one of the secret bytes stands in data or text, or two beside each other among the entry numbers, of which a single one may be a place or a length."""
    numbers, texts = b"".join(n.to_bytes(4, "little") for n in lent[1]), lent[0] + lent[2]
    return not SECRET_BYTES.isdisjoint(texts) or any(a in SECRET_BYTES and b in SECRET_BYTES for a, b in zip(numbers, numbers[1:]))


def without_secrets(length):
    """What buffers hold before a call: no secret byte."""
    return bytes(0x60 + i % 16 for i in range(length))


def contents_with_prices_found(count=20_000):
    """The priced contents of which the floor is left a secret byte. The office has to be left one in most."""
    pick, wrong, office = random.Random(9), [], 0
    for _ in range(count):
        r = priced(pick)
        lent = without_secrets(300), (0x60616263,) * 200, without_secrets(200)
        if prices_found(call("write_for_floor", r, b"price", room=lent)[1]):
            wrong.append(r)
        office += prices_found(call("write_for_office", r, b"price", room=lent)[1])
    return wrong + ["the office has too few"] * (office < count // 2)


# ── Laws of the two readers

def left(name, r, of=None):
    """The recording that a call leaves in ample buffers, or None if it is refused."""
    numbers, (made, entry_numbers, text, _) = call(name, r, *[of] * (of is not None), room=AMPLE)
    return None if numbers[0] else recording(made[:numbers[1]], entry_numbers[:numbers[2]], text[:numbers[3]])


def newlines(r):
    return [(byte, labels) for byte, labels in coloured(r) if byte == 0x0A]


def laws(r, of):
    """The names of the laws that do not hold of a balanced content and a label."""
    office, floor, replayed = left("write_for_office", r, of), left("write_for_floor", r, of), left("replay", r)
    told = {
        "the office has what replay leaves": office == replayed,
        "under the label stand * and 0A only": all(byte in b"*\n" for byte, labels in coloured(floor) if of in labels),
        "every 0A stays, under its labels": newlines(floor) == newlines(r),
        "no raw sequence stands under the label": all(of not in labels for labels in raws(floor)),
        "pushes and pops stay, in order": [e[1:] for e in entries(floor) if e.kind != RAW] == [e[1:] for e in entries(r) if e.kind != RAW],
        "where nothing has the label, the floor has what replay leaves": of in [e.text for e in entries(r) if e.kind == PUSH] or floor == replayed,
        "it is balanced": balanced(floor),
        "of well-formed data the width stays": not well_formed(r.data) or text_width(floor.data) == text_width(r.data),
        "the floor's own copy is left as it is": left("write_for_floor", floor, of) == floor,
        "it is no longer": all(len(a) <= len(b) for a, b in zip(floor, replayed)),
    }
    return [name for name, holds in told.items() if not holds]


def raws(r):
    """The labels open at each raw sequence."""
    labels, result = (), []
    for e in entries(r):
        labels = open_after(labels, e)
        if e.kind == RAW:
            result.append(labels)
    return result


def laws_broken(count=20_000):
    """The laws that do not hold of random contents, each with the first of them. Many contents have to have stars and a raw sequence less."""
    pick, wrong, stars, dropped = random.Random(10), {}, 0, 0
    for _ in range(count):
        r, of = content(pick), label(pick)
        if not balanced(r) or of in ILL_LABELS:
            continue
        for name in laws(r, of):
            wrong.setdefault(name, (name, r, of))
        floor = left("write_for_floor", r, of)
        stars += floor.data != r.data
        dropped += len(floor.numbers) < len(r.numbers)
    return list(wrong.values()) + [f"too few: {stars}, {dropped}"] * (min(stars, dropped) < count // 10)
