"""Document 02, Q-8: each label text stored a single time. Cases by hand; and laws over random calls, beside the rule before it, by which every entry's text was copied."""
import random
from contextlib import contextmanager

import random_calls
from lists import result_of
from ruszvedok_model import CALLS, POP, PUSH, RAW, Recording, Result, adding_call, call, entries, entry_at_end, recording, refuse_if, well_formed

X = (0, PUSH, b"x")


def laid(data, parts, text=None):
    """A recording of entries given by place, kind and text. With a text, each part is where it is found there first; without one they lie one after another, none shared."""
    numbers, made = [], b""
    for position, kind, part in parts:
        start = 0 if kind == POP else len(made) if text is None else text.index(part)
        numbers += (position, kind, start, len(part))
        made += part
    return recording(data, numbers, made if text is None else text)


def quads(*starts):
    """Position, kind, start and length of some entries."""
    return tuple(n for quad in starts for n in quad)


LABELLED = laid(b"spruce", [(0, PUSH, b"x"), (6, POP, b"")])
DOTS = laid(b"..", [(0, PUSH, b"x"), (2, POP, b"")])
QUOTE = laid(b"> ", [(0, PUSH, b"q"), (2, POP, b"")])
# A result's entries and text.
RESULTS = [
    ("one label of content and ellipsis", ("write_truncated_end", LABELLED, DOTS, 4), quads((0, 0, 0, 1), (2, 1, 0, 0), (2, 0, 0, 1), (4, 1, 0, 0)), b"x"),
    ("the ellipsis comes first", ("write_truncated_start", LABELLED, DOTS, 4), quads((0, 0, 0, 1), (2, 1, 0, 0), (2, 0, 0, 1), (4, 1, 0, 0)), b"x"),
    ("a fill on both sides", ("write_padded_centered", laid(b"a", [(0, PUSH, b"y")]), laid(b".", [(0, PUSH, b"x"), (1, RAW, b"R")]), 3),
     quads((0, 0, 0, 1), (1, 2, 1, 1), (1, 0, 2, 1), (2, 0, 0, 1), (3, 2, 3, 1)), b"xRyR"),
    ("a prefix before each line", ("write_indented", recording(b"a\nb\n\nc"), QUOTE),
     quads((0, 0, 0, 1), (2, 1, 0, 0), (4, 0, 0, 1), (6, 1, 0, 0), (9, 0, 0, 1), (11, 1, 0, 0)), b"q"),
    ("an empty label takes the part of the first empty one", ("replay", laid(b"", [(0, PUSH, b"x"), (0, PUSH, b""), (0, PUSH, b"y"), (0, PUSH, b"")])),
     quads((0, 0, 0, 1), (0, 0, 1, 0), (0, 0, 1, 1), (0, 0, 1, 0)), b"xy"),
    ("a raw sequence before and behind a label that is equal", ("replay", laid(b"", [(0, RAW, b"x"), X, (0, RAW, b"x"), X, (0, RAW, b"x")])),
     quads((0, 2, 0, 1), (0, 0, 1, 1), (0, 2, 2, 1), (0, 0, 1, 1), (0, 2, 3, 1)), b"xxxx"),
    ("parts that overlap, and a part inside another", ("replay", laid(b"", [(0, PUSH, b"ab"), (0, PUSH, b"ba"), (0, PUSH, b"a"), (0, PUSH, b"ab")], b"aba")),
     quads((0, 0, 0, 2), (0, 0, 2, 2), (0, 0, 4, 1), (0, 0, 0, 2)), b"abbaa"),
    ("equal parts that are stored twice", ("write_wrapped", laid(b"ab", [(0, PUSH, b"x"), (1, PUSH, b"x")]), 1, False), quads((0, 0, 0, 1), (1, 0, 0, 1)), b"x"),
    ("labels that differ in a byte, or in length", ("replay", laid(b"", [(0, PUSH, b"xy"), (0, PUSH, b"xz"), (0, PUSH, b"zy"), (0, PUSH, b"xyz"), (0, PUSH, b"xy")])),
     quads((0, 0, 0, 2), (0, 0, 2, 2), (0, 0, 4, 2), (0, 0, 6, 3), (0, 0, 0, 2)), b"xyxzzyxyz"),
    ("what the floor is left", ("write_for_floor", laid(b"12", [(0, PUSH, b"x"), (0, RAW, b"R"), (1, PUSH, b"x"), (2, POP, b""), (2, POP, b""), (2, RAW, b"x")]), b"x"),
     quads((0, 0, 0, 1), (1, 0, 0, 1), (2, 1, 0, 0), (2, 1, 0, 0), (2, 2, 1, 1)), b"xx"),
]
# A push onto a content: the start that it takes, and the text then.
PUSHES = [
    ("the first of two parts", recording(b"a", (0, 0, 0, 1, 0, 0, 1, 1), b"xx"), b"x", 0, b"xx"),
    ("the first in entry order", recording(b"a", (0, 0, 1, 1, 0, 0, 0, 1), b"xx"), b"x", 1, b"xx"),
    ("of parts that overlap", recording(b"a", (0, 0, 1, 2, 0, 0, 0, 2), b"xxx"), b"xx", 1, b"xxx"),
    ("a raw sequence is no push", recording(b"a", (0, 2, 0, 1), b"x"), b"x", 1, b"xx"),
    ("text that no entry has is none", recording(b"a", (), b"x"), b"x", 1, b"xx"),
    ("a part that begins so", recording(b"a", (0, 0, 0, 2), b"xy"), b"x", 2, b"xyx"),
    ("an empty one, where the first is", recording(b"a", (0, 0, 1, 0, 0, 0, 0, 0), b"xy"), b"", 1, b"xy"),
    ("an empty one, where none is", recording(b"a", (0, 0, 0, 1, 1, 1, 0, 0), b"xy"), b"", 2, b"xy"),
    ("the text is full", recording(b"", (0, 0, 65535, 1), b"y" * 65535 + b"x"), b"x", 65535, b"y" * 65535 + b"x"),
]
# The limit and the buffer of the text: what is stored counts. `n` bytes of a label three times and `m` of a raw sequence.
LIMITS = [("the limit", 65535, 1, 65536, 0), ("one over it", 65535, 2, 65536, 9), ("the limit by the label alone", 65536, 0, 65536, 0), ("a buffer one short", 65535, 1, 65535, 23),
          ("9 before 23", 65535, 2, 65535, 9), ("a short one", 3, 2, 5, 0), ("one short of a short one", 3, 2, 4, 23)]


def cases():
    """The names of the cases by hand that do not come out so."""
    wrong = []
    for name, inputs, numbers, text in RESULTS:
        for room, refusal in ((len(text), 0), (len(text) - 1, 23)):
            answer, buffers = call(*inputs, room=(32, len(numbers), room, 9))
            if answer[0] != refusal or refusal == 0 and (answer[2:4], buffers[1:3]) != ((len(numbers), len(text)), (numbers, text)):
                wrong.append(name)
    for name, r, label, start, text in PUSHES:
        places = len(r.numbers) + 4, len(text)
        answer, buffers = call("push_label", tuple(map(len, r)), label, room=(r.data, r.numbers + (0,) * 4, r.text + b"?" * (len(text) - len(r.text))))
        if (answer, buffers[:3]) != ((0, len(r.data), *places, 0), (r.data, r.numbers + (len(r.data), 0, start, len(label)), text)):
            wrong.append(f"a push, {name}")
    for name, n, m, room, refusal in LIMITS:
        r = recording(b"", (0, 0, 0, n) * 3 + (0, 2, 0, m) * (m > 0), b"x" * max(n, m))
        if call("replay", r, room=(0, 16, room))[0][0] != refusal:
            wrong.append(name)
    return wrong


# ── The rule before: each entry's text copied, one after another

def former_parts(out):
    starts, length = [], 0
    for e in out.entries:
        starts.append(0 if e.kind == POP else length)
        length += len(e.text)
    return starts, [e.text for e in out.entries]


@contextmanager
def former_rule():
    now = Result.parts, CALLS["push_label"]
    Result.parts, CALLS["push_label"] = former_parts, adding_call(lambda added: refuse_if(not well_formed(added), 6), entry_at_end(PUSH))
    try:
        yield
    finally:
        Result.parts, CALLS["push_label"] = now


def plain_sum(r):
    return sum(len(e.text) for e in entries(r))


def stored(r):
    """How long the text of a result has to be: each raw sequence, and each label once."""
    return sum(len(e.text) for e in entries(r) if e.kind == RAW) + sum(map(len, {e.text for e in entries(r) if e.kind == PUSH}))


def replayed(r):
    return result_of(*call("replay", r, room=(len(r.data), len(r.numbers), plain_sum(r))))


def shuffled(pick, r):
    """The same entries in another order, at the same places."""
    whats = [r.numbers[i + 1:i + 4] for i in range(0, len(r.numbers), 4)]
    pick.shuffle(whats)
    return recording(r.data, sum(((place, *what) for place, what in zip(r.numbers[::4], whats)), ()), r.text)


def consecutive(r):
    """Whether the parts are those of a result: going through the entries, each either has the part of an earlier push with its text, which only a push may, or lies behind all before it."""
    end, first = 0, {}
    for (_, kind, text), start in zip(entries(r), r.numbers[2::4]):
        if kind == PUSH and text in first:
            if start != first[text]:
                return False
        elif kind != POP:
            if start != end:
                return False
            end += len(text)
            if kind == PUSH:
                first[text] = start
    return end == len(r.text)


# Which refusals may take the place of one that was given by the rule before.
MAY_BECOME = {9: {0, 9, 21, 22, 23, 24}, 23: {0, 23, 24}}


def rooms(pick, answer, former):
    """Lengths of the lent buffers: the text's about what is stored, and about the plain sum, which was needed before."""
    wanted = answer if answer[0] == 0 else former
    text = pick.choice((answer[3], answer[3], former[3])) + pick.choice((-1, 0, 0, 0, 1))
    return [max(n - (pick.random() < 0.05), 0) for n in (wanted[1], wanted[2], max(text, 0), 3 * wanted[4])]


def ample(inputs):
    """Room for any result, of short inputs and of long ones."""
    return (16_384, 1_024, 4_096, 2_048) if all(len(x) < 200 for r in inputs if isinstance(r, Recording) for x in r) else (1_048_576, 16_384, 65_536, 3_000)


def laws_broken(count=20_000):
    """The laws that do not hold of random calls, each with the first of them. Many results have to have a shared part, and some calls to be refused no longer."""
    pick, wrong, shared, no_longer = random.Random(11), {}, 0, {9: 0, 23: 0}
    names = [*random_calls.LAYOUT, *random_calls.WITH_CONTENT]
    for k in range(count):
        name = names[k % len(names)]
        inputs = random_calls.inputs(pick, name) if pick.random() < 0.994 else limit_inputs(pick, name)
        answer = call(name, *inputs, room=ample(inputs))[0]
        with former_rule():
            former = call(name, *inputs, room=ample(inputs))[0]
        room = ample(inputs) if pick.random() < 0.3 else rooms(pick, answer, former)
        answer, buffers = call(name, *inputs, room=room)
        with former_rule():
            former, former_buffers = call(name, *inputs, room=room)
        told = {"no refusal is new": answer[0] in MAY_BECOME.get(former[0], {former[0]})}
        if former[0] != answer[0] and former[0] in no_longer:
            no_longer[former[0]] += 1
        if answer[0] == 0:
            r = result_of(answer, buffers)
            told |= {
                "parts are one behind another, but for those of a label that is there": consecutive(r),
                "equal labels have one start": all(len({start for e, start in zip(entries(r), r.numbers[2::4]) if (e.kind, e.text) == (PUSH, label)}) == 1
                                                   for label in {e.text for e in entries(r) if e.kind == PUSH}),
                "the text is as long as the raw sequences and each label once": len(r.text) == stored(r) <= plain_sum(r),
                "whatever the order of the entries": len(replayed(shuffled(pick, r)).text) == len(r.text),
                "replaying leaves it as it is": replayed(r) == r,
                "what lies behind stays": all(b[n:] == type(b)((b"\xA5" if isinstance(b, bytes) else (0xA5A5A5A5,)) * (len(b) - n)) for b, n in zip(buffers, answer[1:4])),
            }
            shared += len(r.text) < plain_sum(r)
            if former[0] == 0:
                before = result_of(former, former_buffers)
                told |= {"data and number stay": (r.data, answer[4], buffers[3]) == (before.data, former[4], former_buffers[3]), "and each entry's text": entries(r) == entries(before)}
        for law in (law for law, holds in told.items() if not holds):
            wrong.setdefault(law, (law, name, inputs, room))
    return list(wrong.values()) + [f"too few: {shared}, {no_longer}"] * (shared < count // 5 or min(no_longer.values()) < count // 1000)


def limit_inputs(pick, name):
    """A content whose text is about the limit if each label is stored once; a label that is not there, and no prefix, for the calls that ask for that."""
    r = random_calls.long_labels(pick)
    if name in random_calls.VIEWS:
        return r, b"y"
    return (r, recording(b"")) if name == "write_unindented" else (r, *random_calls.LAYOUT[name](pick, r))


def pushes_unlike(count=20_000):
    """The random pushes that do not add one entry with the label, at the first equal one's part where there is one, and the text behind it where there is none; or that are newly refused."""
    pick, wrong, found = random.Random(12), [], 0
    for _ in range(count):
        r, label = random_calls.adding(pick, "push_label")
        used = tuple(map(len, r))
        room = tuple(part + type(part)([0xA5] * more) for part, more in zip(r, (0, pick.choice((3, 4, 4, 9)), pick.choice((0, len(label), len(label), 20)))))
        (refusal, *lengths, _), buffers = call("push_label", used, label, room=room)
        with former_rule():
            former = call("push_label", used, label, room=room)[0][0]
        right = refusal in MAY_BECOME.get(former, {former})
        if refusal == 0:
            after = recording(*(b[:n] for b, n in zip(buffers, lengths)))
            same = [i for i, e in enumerate(entries(r)) if (e.kind, e.text) == (PUSH, label)]
            found += bool(same)
            start = r.numbers[4 * same[0] + 2] if same else len(r.text)
            right = right and after == recording(r.data, r.numbers + (len(r.data), PUSH, start, len(label)), r.text + (b"" if same else label))
            right = right and (stored(after) > 65536 or replayed(after).text == replayed(r).text + (b"" if same else label))
        if not right:
            wrong.append((r, label, room))
    return wrong + [f"too few: {found}"] * (found < count // 4)


def built_unlike_replayed(count=5_000):
    """The recordings made by the adding calls alone that replaying does not leave as they are: they are laid out as a result is."""
    pick, wrong = random.Random(13), []
    for _ in range(count):
        used, room = (0, 0, 0), (bytes(200), (0,) * 200, bytes(400))
        for _ in range(int(pick.random() * 16)):
            name = pick.choice(("write", "push_label", "push_label", "push_label", "pop_label", "raw"))
            added = () if name == "pop_label" else (pick.choice(random_calls.LABELS if name == "push_label" else random_calls.RAWS),)
            numbers, buffers = call(name, used, *added, room=room)
            if numbers[0] == 0:
                used, room = numbers[1:4], buffers[:3]
        r = recording(*(b[:n] for b, n in zip(room, used)))
        if replayed(r) != r or not consecutive(r):
            wrong.append(r)
    return wrong
