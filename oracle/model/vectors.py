"""Reads a line of the program `vectors` and works out by the model what it should expect.

A line is a call's name and its fields `key=value`, with `!` before it if its expectation is wrong on purpose. A value is a number, or a list: parts with `+` between them, each a text in quotes
or numbers, `*N` behind one that comes N times. `N:list` is a buffer of N places, which holds A5 beyond the list.
"""
import re
from functools import lru_cache

import ruszvedok_model as model

NAMES = ("text_width well_formed truncate_end_pos truncate_start_pos zero_width_len replay write_truncated_start write_truncated_end write_padded_start write_padded_end "
         "write_padded_centered write_indented wrap_bytes write_wrapped write_replaced elide_start elide_end complete_newline write push_label pop_label raw "
         "char_width read_char trim_start_zero_width_chars write_tabs_expanded write_unindented write_for_office write_for_floor "
         "build_line_index extend_line_index line_at place_of write_truncated_cells").split()
KEYS = ("data entries text second second_entries second_text records new added used width break code answer out out_entries out_text lines characters "
        "label index at").split()
# How many numbers a line or a cell has in the list that is lent, where these are not three.
NUMBERS_OF = {"build_line_index": 1, "extend_line_index": 1, "write_truncated_cells": 2}
WORDS = {"push": 0, "pop": 1, "raw": 2}
ESCAPES = {"n": 0x0A, "t": 0x09}
FIELD = re.compile(r'(?:[^ "]|"[^"]*")+')
PART = re.compile(r'("[^"]*"|[^"+*]*)(?:\*(\d+))?(?:\+|$)')
CHARACTER = re.compile(rb'\\x([0-9a-f]{2})|\\(.)|(.)', re.DOTALL)


def number(word):
    return WORDS[word] if word in WORDS else int(word, 0)


def text_members(quoted):
    """The bytes between the quotes; a character that is no ASCII stands for its bytes."""
    result = []
    for digits, letter, plain in CHARACTER.findall(quoted[1:-1].encode()):
        result.append(int(digits, 16) if digits else ESCAPES.get(letter.decode(), letter[0]) if letter else plain[0])
    return result


def members(value):
    """The members of a list."""
    result, at = [], 0
    while at < len(value):
        m = PART.match(value, at)
        part, times = m.group(1), int(m.group(2) or 1)
        result += (text_members(part) if part.startswith('"') else [number(w) for w in re.split("[,;]", part) if w]) * times
        at = m.end()
    return result


def buffer(value, unwritten):
    """The members of a list, or of a buffer, which holds `unwritten` beyond them."""
    length, colon, rest = ("", "", value) if value.startswith('"') else value.partition(":")
    if not colon:
        return members(value)
    held = members(rest)
    return held + [unwritten] * (int(length) - len(held))


# ── Lists as they are written: the other way round

def in_runs(units, longest, least):
    """Parts of a list, each with how often it comes: a block of up to `longest` members counts as repeated where the repeats have at least `least` members."""
    result, at, plain = [], 0, 0
    while at < len(units):
        for size in range(1, longest + 1):
            end = at + size
            while end + size <= len(units) and units[end:end + size] == units[at:at + size]:
                end += size
            if end - at >= max(least, 2 * size):
                result += [(units[plain:at], 1)] * (plain < at) + [(units[at:at + size], (end - at) // size)]
                at = plain = end
                break
        else:
            at += 1
    return result + [(units[plain:], 1)] * (plain < at)


def is_shown(c):
    """Which characters of more than one byte stand for themselves: Latin letters, and those of two columns but for the wide space."""
    return c.ok and c.length > 1 and (0xC0 <= c.code <= 0x24F or model.width_of(c) == 2 and c.code != 0x3000)


def quoted(data):
    names, result, at = {value: f"\\{letter}" for letter, value in ESCAPES.items()} | {0x5C: "\\\\"}, "", 0
    for c in model.chars(data):
        part = data[at:at + c.length]
        whole = is_shown(c) or c.length == 1 and 0x20 <= part[0] < 0x7F and part not in (b'"', b"\\")
        result += part.decode() if whole else "".join(names.get(b, f"\\x{b:02x}") for b in part)
        at += c.length
    return f'"{result}"'


def bytes_list(data):
    return "+".join(quoted(part) + f"*{times}" * (times > 1) for part, times in in_runs(data, 16, 12))


def numbers_list(numbers, of_row, kinds):
    """Numbers in rows, with words for the kinds of entries."""
    words = {value: word for word, value in WORDS.items()} if kinds else {}
    rows = [numbers[i:i + of_row] for i in range(0, len(numbers), of_row)]
    shown = [",".join(words.get(n, str(n)) if k == 1 else str(n) for k, n in enumerate(row)) for row in rows]
    return "+".join(";".join(part) + f"*{times}" * (times > 1) for part, times in in_runs(shown, 32, 3))


def buffer_list(members, unwritten, written):
    """A lent buffer: its length, and what it holds up to the last place that was written."""
    end = len(members)
    while end > 0 and members[end - 1] == unwritten:
        end -= 1
    return f"{len(members)}:{written(members[:end])}"


class Line:
    """A line: the call, its inputs, the buffers lent, and what is expected."""

    def __init__(self, line):
        self.right = not line.startswith("!")
        self.name, *fields = FIELD.findall(line.lstrip("!"))
        self.fields = dict(f.split("=", 1) for f in fields)
        if self.name not in NAMES or not all(key in KEYS for key in self.fields):
            raise ValueError(f"no such call or field: {line[:80]}")

    def bytes(self, key):
        return bytes(buffer(self.fields.get(key, ""), 0xA5))

    def numbers(self, key):
        return tuple(buffer(self.fields.get(key, ""), 0xA5A5A5A5))

    def number(self, key):
        return number(self.fields.get(key, "0"))

    def buffers(self, data, entries, text, lines="lines"):
        return self.bytes(data), self.numbers(entries), self.bytes(text), self.numbers(lines)

    def content(self):
        return model.recording(*self.buffers("data", "entries", "text")[:3])

    def second(self):
        return model.recording(*self.buffers("second", "second_entries", "second_text")[:3])

    def inputs(self):
        data, width, name = self.bytes("data"), self.number("width"), self.name
        if name in ("truncate_end_pos", "truncate_start_pos"):
            return data, width
        if name in model.TEXT_CALLS or name == "complete_newline":
            return data,
        if name.startswith("elide"):
            return data, self.bytes("second"), width
        if name == "wrap_bytes":
            return data, width, self.number("break") == 1
        if name == "write_wrapped":
            return self.content(), width, self.number("break") == 1
        if name == "write_tabs_expanded":
            return self.content(), width
        if name == "write_replaced":
            return self.content(), self.numbers("records"), self.bytes("new")
        if name == "replay":
            return self.content(),
        if name in ("write_for_office", "write_for_floor"):
            return self.content(), self.bytes("label")
        if name == "build_line_index":
            return self.content(),
        if name == "extend_line_index":
            return self.content(), self.number("at"), self.number("used")
        if name in model.QUESTIONS:
            return self.content(), self.numbers("index"), self.number("at")
        if name == "write_truncated_cells":
            return data, self.numbers("index"), self.bytes("second"), width
        if name == "write_tally":
            return data, self.numbers("index")
        if name in ("write_indented", "write_unindented"):
            return self.content(), self.second()
        if name.startswith(("write_truncated", "write_padded")):
            return self.content(), self.second(), width
        return (self.numbers("used"), self.bytes("added"))[:1 if name == "pop_label" else 2]

    def given(self):
        """The answer and the buffers that the line expects."""
        answer = self.numbers("answer")
        return answer + (0,) * (5 - len(answer)), self.buffers("out", "out_entries", "out_text")

    def expected(self):
        """The answer and the buffers, by the model."""
        if self.name == "char_width":
            return (model.char_width(self.number("code")), 0, 0, 0, 0), self.given()[1]
        if self.name == "trim_start_zero_width_chars":
            rest = model.trimmed(self.bytes("data"))
            return (len(rest), 0, 0, 0, 0), (rest,) + self.given()[1][1:]
        if self.name in ("write", "push_label", "pop_label", "raw"):
            return model.call(self.name, *self.inputs(), room=self.buffers("data", "entries", "text"))
        if self.name in model.QUESTIONS:
            return model.call(self.name, *self.inputs())[0] + (0, 0), self.given()[1]
        if self.name in ("build_line_index", "extend_line_index"):
            return model.call(self.name, *self.inputs(), room=(0, 0, 0, self.index_before()))
        numbers, after = model.call(self.name, *self.inputs(), room=tuple(map(len, self.given()[1])))
        return numbers, after or self.given()[1]

    def index_before(self):
        """The list that a line index is written in, before the call: as long as afterwards."""
        held, length = self.numbers("index"), len(self.numbers("lines"))
        if len(held) > length:
            raise ValueError(f"more numbers than places: {self.fields['index'][:80]}")
        return held + (0xA5A5A5A5,) * (length - len(held))

    def filled_in(self):
        """The line with what the model expects, in place of what it has; a call that adds lends its content's buffers."""
        (answer, (data, entries, text, lines)), of_line = self.expected(), NUMBERS_OF.get(self.name, 3)
        while len(answer) > 1 and answer[-1] == 0:
            answer = answer[:-1]
        expected = {
            "answer": ",".join(map(str, answer)),
            "out": buffer_list(data, 0xA5, bytes_list),
            "out_entries": buffer_list(entries, 0xA5A5A5A5, lambda n: numbers_list(n, 4, True)),
            "out_text": buffer_list(text, 0xA5, bytes_list),
            "lines": buffer_list(lines, 0xA5A5A5A5, lambda n: numbers_list(n, of_line, False)),
        }
        fields = {key: value for key, value in self.fields.items() if key not in expected} | {key: value for key, value in expected.items() if value != "0:"}
        return " ".join([self.name, *(f"{key}={value}" for key, value in fields.items())])

    def agrees(self):
        if self.name == "read_char":
            return self.numbers("characters") == tuple(n for c in model.chars(self.bytes("data")) for n in (c.code, c.length, int(c.ok), model.width_of(c)))
        return self.expected() == self.given()


@lru_cache(maxsize=1)
def check(text):
    """The rows that the program prints, and the lines where the model says otherwise than the file."""
    lines = [(number, Line(line)) for number, line in enumerate(text.split("\n"), 1) if line and not line.startswith("#")]
    names = NAMES + ["wrong"]
    total, agreed, differing = dict.fromkeys(names, 0), dict.fromkeys(names, 0), []
    for number, line in lines:
        row = line.name if line.right else "wrong"
        total[row] += 1
        if line.agrees() == line.right:
            agreed[row] += 1
        else:
            differing.append(number)
    return "".join(f"line {n} differs\n" for n in differing) + "".join(f"{name} {total[name]} {agreed[name]}\n" for name in total), differing
