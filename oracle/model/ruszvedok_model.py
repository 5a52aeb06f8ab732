"""Document 01 in Python, with what document 02 changed in it and added to it: what each call answers and leaves, worked out in the documents' order and words.

It is written from the documents alone and shares nothing with the code that is proved. README.md says how it is used; in short:

    numbers, buffers = call("write_truncated_end", recording(b"spruce"), recording(b".."), 4, room=(8, 0, 0))

`numbers` are the five of the answer: refusal or 0, lengths of data, entry numbers and text, and the call's number (a width or a count of lines).
`buffers` are the lent buffers as the call leaves them.
"""
from functools import lru_cache
from typing import NamedTuple

# ── The recording

DATA_LIMIT, NUMBER_LIMIT, TEXT_LIMIT = 1_048_576, 16_384, 65_536
PUSH, POP, RAW = 0, 1, 2


class Recording(NamedTuple):
    """Data, entry numbers (four an entry: position, kind, start and length of its part of the text) and text, as they are lent: not yet checked."""
    data: bytes
    numbers: tuple
    text: bytes


def recording(data, numbers=(), text=b""):
    return Recording(bytes(data), tuple(numbers), bytes(text))


class Entry(NamedTuple):
    position: int
    kind: int
    text: bytes


def entries(r):
    """The entries of a recording, each with its part of the text."""
    quads = [r.numbers[i:i + 4] for i in range(0, len(r.numbers), 4)]
    return [Entry(p, k, r.text[start:start + length]) for p, k, start, length in quads]


def balanced(r):
    """No pop finds the stack of pushed labels empty, and the stack ends empty."""
    open_labels = 0
    for e in entries(r):
        open_labels += {PUSH: 1, POP: -1, RAW: 0}[e.kind]
        if open_labels < 0:
            return False
    return open_labels == 0


def open_after(labels, e):
    """The labels open behind an entry, outermost first: a push opens its label, a pop closes the last one still open."""
    return labels + (e.text,) if e.kind == PUSH else labels[:-1] if e.kind == POP else labels


def coloured(r):
    """Each data byte with the labels open at it, outermost first."""
    left, labels, result = entries(r), (), []
    for offset, byte in enumerate(r.data):
        while left and left[0].position <= offset:
            labels = open_after(labels, left.pop(0))
        result.append((byte, labels))
    return result


def stripped(r):
    return recording(r.data)


# ── Characters and widths

# Unicode Standard, table 3-7: the bytes of a well-formed sequence, first and last of each.
TAIL = (0x80, 0xBF)
TABLE_3_7 = [
    ((0x00, 0x7F),),
    ((0xC2, 0xDF), TAIL),
    ((0xE0, 0xE0), (0xA0, 0xBF), TAIL),
    ((0xE1, 0xEC), TAIL, TAIL),
    ((0xED, 0xED), (0x80, 0x9F), TAIL),
    ((0xEE, 0xEF), TAIL, TAIL),
    ((0xF0, 0xF0), (0x90, 0xBF), TAIL, TAIL),
    ((0xF1, 0xF3), TAIL, TAIL, TAIL),
    ((0xF4, 0xF4), (0x80, 0x8F), TAIL, TAIL),
]
ROW_OF = [next((row for row in TABLE_3_7 if row[0][0] <= lead <= row[0][1]), ()) for lead in range(256)]

ZERO = [(0x0000, 0x001F), (0x007F, 0x009F), (0x0300, 0x036F), (0x200B, 0x200F), (0x20D0, 0x20F0), (0xFE00, 0xFE0F), (0xFE20, 0xFE2F)]
TWO = [(0x1100, 0x115F), (0x2E80, 0x303E), (0x3041, 0x33FF), (0x3400, 0x4DBF), (0x4E00, 0xA4CF), (0xAC00, 0xD7A3), (0xF900, 0xFAFF), (0xFE30, 0xFE6F),
       (0xFF00, 0xFF60), (0xFFE0, 0xFFE6), (0x20000, 0x2FFFD), (0x30000, 0x3FFFD)]
# Faces and trucks (document 02, Q-5): of width 2 as well.
PICTURES = [(0x1F600, 0x1F64F), (0x1F680, 0x1F6C5)]
TWO += PICTURES
ILL_FORMED = 0xFFFD


@lru_cache(maxsize=None)
def char_width(code):
    def within(ranges):
        return any(first <= code <= last for first, last in ranges)
    return 0 if within(ZERO) else 2 if within(TWO) else 1


class Char(NamedTuple):
    code: int
    length: int
    ok: bool


@lru_cache(maxsize=None)
def first_char(window):
    """The first character of at most four bytes: a well-formed sequence, or a maximal ill-formed subpart, which is one U+FFFD."""
    row = ROW_OF[window[0]]
    n = 0
    while n < min(len(row), len(window)) and row[n][0] <= window[n] <= row[n][1]:
        n += 1
    if n == len(row) > 0:
        return Char(ord(window[:n].decode("utf-8")), n, True)
    return Char(ILL_FORMED, max(n, 1), False)


def chars(text):
    """The characters of a text, in order."""
    at, result = 0, []
    while at < len(text):
        c = first_char(text[at:at + 4])
        result.append(c)
        at += c.length
    return result


def width_of(c):
    return char_width(c.code)


def text_width(text):
    return sum(map(width_of, chars(text)))


def well_formed(text):
    return all(c.ok for c in chars(text))


def kept(characters, room):
    """Whole characters while the sum of their widths stays within the room: how many bytes, and how wide."""
    length = width = 0
    for c in characters:
        if width + width_of(c) > room:
            break
        length, width = length + c.length, width + width_of(c)
    return length, width


def truncate_end_pos(text, room):
    """Where the kept beginning ends, and its width."""
    return kept(chars(text), room)


def truncate_start_pos(text, room):
    """Where the kept ending starts, from the last character back, and its width."""
    length, width = kept(reversed(chars(text)), room)
    return len(text) - length, width


def zero_width_len(text):
    """How many bytes the leading zero-width characters are."""
    return kept(chars(text), 0)[0]


def trimmed(text):
    return text[zero_width_len(text):]


# ── What is written

class Result:
    """Data and entries in the order in which they were written. The data is a list of strings with how often each comes, since a refused result may be too large to make."""

    def __init__(self):
        self.strings, self.length, self.entries = [], 0, []

    def write(self, data, times=1):
        self.strings.append((data, times))
        self.length += len(data) * times

    def entry(self, e):
        """An entry comes at the current end."""
        self.entries.append(Entry(self.length, e.kind, e.text))

    def data(self):
        return b"".join(data * times for data, times in self.strings)

    def parts(self):
        """The start of each entry's part, and the texts that are stored, in order, one after another from 0; a pop has 0. A raw sequence has a part of its own.
        Equal texts of push entries share one, placed at the first push that has it (document 02, Q-8)."""
        starts, stored, length, first = [], [], 0, {}
        for e in self.entries:
            if e.kind == POP:
                starts.append(0)
            elif e.kind == PUSH and e.text in first:
                starts.append(first[e.text])
            else:
                if e.kind == PUSH:
                    first[e.text] = length
                starts.append(length)
                stored.append(e.text)
                length += len(e.text)
        return starts, stored


class Copy:
    """Writes a recording into a result, from its first byte on: bytes are kept or dropped, entries always stay, in order."""

    def __init__(self, r, out):
        self.bytes, self.left, self.at, self.out = r.data, entries(r)[::-1], 0, out

    def write_entries(self):
        """The entries up to this offset."""
        while self.left and self.left[-1].position <= self.at:
            self.out.entry(self.left.pop())

    def keep(self, end, times=1):
        """Piece by piece: the bytes up to `end`, with the entries before each of them."""
        while self.at < end:
            self.write_entries()
            stop = min([end] + [e.position for e in self.left[-1:]])
            self.out.write(self.bytes[self.at:stop], times)
            self.at = stop

    def drop(self, end):
        """The bytes up to `end` go, their entries stay."""
        while self.at < end:
            self.write_entries()
            self.at = min([end] + [e.position for e in self.left[-1:]])

    def add(self, data, times=1):
        """Added bytes come after the entries at this offset, whose byte gives their labels."""
        self.write_entries()
        self.out.write(data, times)

    def finish(self, times=1):
        """The rest."""
        self.keep(len(self.bytes), times)
        self.write_entries()


def write_part(r, out, start, end):
    """The bytes from start to end, and every entry."""
    copy = Copy(r, out)
    copy.drop(start)
    copy.keep(end)
    copy.drop(len(r.data))
    copy.write_entries()


# ── Module 1: replay (the four adding calls stand below, with their buffers)

def replay(content, out):
    Copy(content, out).finish()
    return 0


# ── Module 2: cutting

def write_truncated_start(content, ellipsis, max_width, out):
    if text_width(content.data) <= max_width:
        write_ending(content, 0, out)
        return text_width(content.data)
    ellipsis_start, ellipsis_width = truncate_start_pos(ellipsis.data, max_width)
    content_start, content_width = truncate_start_pos(content.data, max(max_width - text_width(ellipsis.data), 0))
    write_ending(ellipsis, ellipsis_start, out)
    write_ending(content, content_start, out)
    return ellipsis_width + content_width


def write_ending(r, start, out):
    """What is written loses its leading zero-width characters."""
    write_part(r, out, start + zero_width_len(r.data[start:]), len(r.data))


def write_truncated_end(content, ellipsis, max_width, out):
    if text_width(content.data) <= max_width:
        write_part(content, out, 0, len(content.data))
        return text_width(content.data)
    content_end, content_width = truncate_end_pos(content.data, max(max_width - text_width(ellipsis.data), 0))
    ellipsis_end, ellipsis_width = truncate_end_pos(ellipsis.data, max_width)
    write_part(content, out, 0, content_end)
    write_part(ellipsis, out, 0, ellipsis_end)
    return content_width + ellipsis_width


# ── Module 3: padding and indenting

def fill_count(content, min_width):
    return max(min_width - text_width(content.data), 0)


def write_fill(fill, count, out):
    """Each piece of the fill is written `count` times before the next; at count 0 the fill's entries are not written."""
    if count > 0:
        Copy(fill, out).finish(count)


def write_padded(content, fill, left, right, out):
    write_fill(fill, left, out)
    Copy(content, out).finish()
    write_fill(fill, right, out)
    return 0


def write_padded_start(content, fill, min_width, out):
    return write_padded(content, fill, fill_count(content, min_width), 0, out)


def write_padded_end(content, fill, min_width, out):
    return write_padded(content, fill, 0, fill_count(content, min_width), out)


def write_padded_centered(content, fill, min_width, out):
    count = fill_count(content, min_width)
    return write_padded(content, fill, count // 2, count - count // 2, out)


def write_indented(content, prefix, out):
    copy, start = Copy(content, out), 0
    for line in lines_with_newlines(content.data):
        if line != b"\n":
            copy.add(b"")
            Copy(prefix, out).finish()
        start += len(line)
        copy.keep(start)
    copy.finish()
    return 0


def lines_with_newlines(data):
    """The lines of a text, each with the 0A that ends it."""
    parts = data.split(b"\n")
    return [p + b"\n" for p in parts[:-1]] + [p for p in parts[-1:] if p]


# ── Module 4: wrapping

class Word(NamedTuple):
    start: int
    end: int
    width: int
    whitespace: int


def words_of(data, start, end):
    """A word runs to the next 20; the run of 20s after it is its whitespace. Leading spaces make an empty first word; a line without bytes has no words."""
    words = []
    while start < end:
        word_end = start
        while word_end < end and data[word_end] != 0x20:
            word_end += 1
        next_word = word_end
        while next_word < end and data[next_word] == 0x20:
            next_word += 1
        words.append(Word(start, word_end, text_width(data[start:word_end]), next_word - word_end))
        start = next_word
    return words


def first_head(text, width):
    """The longest head within the width; if that is nothing, one character with the zero-width characters after it."""
    end, _ = kept(chars(text), width)
    if end == 0:
        end = first_char(text[:4]).length
        end += zero_width_len(text[end:])
    return end


def broken(data, word, width):
    """A wider word is cut into heads; the last one keeps the whitespace."""
    if word.width <= width:
        return [word]
    heads, start = [], word.start
    while start < word.end:
        end = start + first_head(data[start:word.end], width)
        heads.append(Word(start, end, text_width(data[start:end]), word.whitespace if end == word.end else 0))
        start = end
    return heads


def first_fit(words, width):
    """A word that is not first in its line, with run + its width > width, starts a new line with run 0. Then run grows by its width and its whitespace."""
    lines, run = [], 0
    for word in words:
        if not lines or run + word.width > width:
            lines.append((word.start, word.end))
            run = 0
        lines[-1] = (lines[-1][0], word.end)
        run += word.width + word.whitespace
    return lines


def wrapped_lines(data, width, break_words):
    """First byte and end of each line."""
    lines, start = [], 0
    for line in data.split(b"\n"):
        end = start + len(line)
        words = words_of(data, start, end)
        if break_words and width > 0:
            words = [head for word in words for head in broken(data, word, width)]
        lines += first_fit(words, width) or [(start, start)]
        start = end + 1
    return lines


def listed_lines(data, width, break_words):
    """The numbers of each line in the line list (document 02, Q-1): first byte, end, and the display width of the bytes between them."""
    return [(start, end, text_width(data[start:end])) for start, end in wrapped_lines(data, width, break_words)]


def write_wrapped(content, width, break_words, out):
    """Joins the lines by 0A; an added 0A carries the labels of the content byte at the finished line's end offset. Empty data writes no byte."""
    lines, copy = wrapped_lines(content.data, width, break_words), Copy(content, out)
    for k, (start, end) in enumerate(lines):
        if k > 0:
            copy.add(b"\n")
        copy.drop(start)
        copy.keep(end)
    copy.drop(len(content.data))
    copy.finish()
    return len(lines)


# ── Module 5: replacing

class Record(NamedTuple):
    start: int
    end: int
    first: int
    last: int


def records_of(numbers):
    """Four numbers a record; a rest of fewer is not looked at."""
    return [Record(*numbers[i:i + 4]) for i in range(0, len(numbers) - 3, 4)]


def write_replaced(content, records, new, out):
    copy = Copy(content, out)
    for r in records:
        copy.keep(r.start)
        copy.add(new[r.first:r.last])
        copy.drop(r.end)
    copy.finish()
    return 0


# ── Module 6: plain text

def complete_newline(text):
    return text + b"\n" if text and not text.endswith(b"\n") else text


def dropped(characters, least):
    """Characters leave until at least so much width has left: how many bytes, and how wide."""
    length = width = 0
    for c in characters:
        if width >= least:
            break
        length, width = length + c.length, width + width_of(c)
    return length, width


def elide_start(text, ellipsis, max_width):
    start, width = truncate_start_pos(text, max_width)
    if text_width(text) <= max_width:
        return text, width
    if text_width(ellipsis) > max_width:
        start, width = truncate_start_pos(ellipsis, max_width)
        return trimmed(ellipsis[start:]), width
    text = text[start:]
    gone, gone_width = dropped(chars(text), width + text_width(ellipsis) - max_width)
    return ellipsis + trimmed(text[gone:]), text_width(ellipsis) + width - gone_width


def elide_end(text, ellipsis, max_width):
    end, width = truncate_end_pos(text, max_width)
    if text_width(text) <= max_width:
        return text, width
    if text_width(ellipsis) > max_width:
        end, width = truncate_end_pos(ellipsis, max_width)
        return ellipsis[:end], width
    text = text[:end]
    gone, gone_width = dropped(reversed(chars(text)), width + text_width(ellipsis) - max_width)
    return text[:len(text) - gone] + ellipsis, text_width(ellipsis) + width - gone_width


# ── Module 7: wraplist

HEADING = b"width break bytes"
SHEET_LIMIT, VALUE_LIMIT = 65_536, 4_000


def decimal(field):
    """0 to 4294967295 without leading zeros, or None."""
    if field and all(b in b"0123456789" for b in field) and (field == b"0" or field[:1] != b"0") and int(field) < 2 ** 32:
        return int(field)
    return None


def value_bytes(field):
    """Hexadecimal in lower case, two digits a byte; `-` if none; or None."""
    if field == b"-":
        return b""
    if field and len(field) % 2 == 0 and len(field) <= 2 * VALUE_LIMIT and all(b in b"0123456789abcdef" for b in field):
        return bytes.fromhex(field.decode("ascii"))
    return None


def value_line(line):
    """The lines that a value line asks for, three numbers each, or None if it is bad."""
    fields = line.split(b" ")
    if len(fields) != 3 or fields[1] not in (b"0", b"1"):
        return None
    width, data = decimal(fields[0]), value_bytes(fields[2])
    if width is None or data is None:
        return None
    return listed_lines(data, width, fields[1] == b"1")


def wraplist(sheet):
    """The output for a sheet; document 02, Q-1, added the last column, which bad lines do not have."""
    out = ["row line start end width"]
    heading, newline, values = sheet.partition(b"\n")
    if len(sheet) > SHEET_LIMIT or heading != HEADING or newline == b"":
        return "\n".join(out + ["0 ! 0 0", ""]).encode()
    *whole, rest = values.split(b"\n")
    answers = [value_line(line) for line in whole] + ([None] if rest else [])      # a last line without 0A is a bad one
    for row, lines in enumerate(answers):
        if lines is None:
            out.append(f"{row} ! 0 0")
        else:
            out += [f"{row} {k} {start} {end} {width}" for k, (start, end, width) in enumerate(lines)]
    return "\n".join(out + [""]).encode()


# ── Document 02, Q-2: tab stops

MOST_STOP = 64


def spaces_to_stop(column, stop):
    """At column c the stop less the remainder of c by it, so at least one."""
    return stop - column % stop


def write_tabs_expanded(content, stop, out):
    """Each byte 09 gives way to spaces up to the next stop, under its labels. The column is the width since the last 0A, and the spaces count."""
    copy, at, column = Copy(content, out), 0, 0
    for c in chars(content.data):
        if c.code == 0x09:
            spaces = spaces_to_stop(column, stop)
            copy.keep(at)
            copy.add(b" ", spaces)
            copy.drop(at + 1)
            column += spaces
        else:
            column = 0 if c.code == 0x0A else column + width_of(c)
        at += c.length
    copy.finish()
    return 0


# ── Document 02, Q-3: taking the indent off

def write_unindented(content, prefix, out):
    """The reverse of indenting: of every line that is not empty the prefix's bytes are taken out, and entries stay at the place that is left. The prefix's entries play no part."""
    copy, start = Copy(content, out), 0
    for line in lines_with_newlines(content.data):
        if line != b"\n":
            copy.drop(start + len(prefix.data))
        start += len(line)
        copy.keep(start)
    copy.finish()
    return 0


# ── Document 02, Q-6: prices for the office only

def write_for_office(content, label, out):
    """The office reader gets what `replay` leaves."""
    return replay(content, out)


def write_for_floor(content, label, out):
    """For each character with any byte under the label as many `*` as its width, under the labels of its first byte; 0A stays. An entry inside a character so replaced comes after its `*`s."""
    under = [label in labels for _, labels in coloured(content)]
    copy, at = Copy(without_raws_under(content, label), out), 0
    for c in chars(content.data):
        if any(under[at:at + c.length]) and c.code != 0x0A:
            copy.add(b"*", width_of(c))
            copy.drop(at + c.length)
        else:
            copy.keep(at + c.length)
        at += c.length
    copy.finish()
    return 0


def without_raws_under(r, label):
    """The recording without the raw sequences placed under the label: those where it is among the labels open where the entry stands, entry by entry."""
    labels, numbers = (), []
    for i, e in enumerate(entries(r)):
        labels = open_after(labels, e)
        if e.kind != RAW or label not in labels:
            numbers += r.numbers[4 * i:4 * i + 4]
    return recording(r.data, numbers, r.text)


# ── Document 02, Q-7: a line index beside the data

def line_starts(data):
    """The index: 0, and the place after each 0A."""
    return (0, *(place + 1 for place, byte in enumerate(data) if byte == 0x0A))


def line_at(data, n):
    """The first byte and the end of line n, counted from 0: the place of its 0A, or the data's end."""
    first = line_starts(data)[n]
    newline = data.find(b"\n", first)
    return first, len(data) if newline < 0 else newline


def place_of(data, offset):
    """The line and the byte column of an offset. A 0A belongs to the line that it ends, so the lines before are those whose 0A comes before the offset."""
    *lines_before, line = data[:offset].split(b"\n")
    return len(lines_before), len(line)


# ── Document 02, Q-9: a whole page of cells in one call

MOST_CELLS = 64


def cells_of(data, ends):
    """The parts between neighbouring ends; the first begins at 0."""
    return [data[start:end] for start, end in zip((0, *ends), ends)]


def write_truncated_cells(cells, ellipsis, max_width, out):
    """Each cell is cut at its end by itself, one after another, and what is left of them is joined: each one's end in that, and its width."""
    listed = []
    for cell in cells:
        width = write_truncated_end(recording(cell), recording(ellipsis), max_width, out)
        listed.append((out.length, width))
    return listed


# ── Document 02, Q-10: the edger's tally sheet

MOST_COLUMNS, WIDEST_COLUMN, MOST_TALLY_LINES, MOST_BOARDS = 12, 80, 4_096, 65_535
# Alignment 0, start: the spaces come after. 1, end. 2, centre.
ALIGNED = (write_padded_end, write_padded_start, write_padded_centered)
CONTROLS = [(0x0000, 0x001F), (0x007F, 0x009F)]
BOARDS = b"boards"


def columns_of(numbers):
    """Width and alignment of each column; a rest of one number is not looked at."""
    return list(zip(numbers[::2], numbers[1::2]))


def tally_lines(data):
    """The cells of each line. A line ends with 0A, which the last may lack; no data is one empty line, and that has one empty cell."""
    *ended, last = data.split(b"\n")
    lines = ended if ended and not last else ended + [last]
    return [line.split(b",") for line in lines]


def boards_place(names):
    """Which cell of each line holds the boards: that of the first column called so, byte for byte; none without one."""
    return names.index(BOARDS) if BOARDS in names else None


def is_boards(cell):
    """A decimal whole number up to 65,535 without leading zeros."""
    return 1 <= len(cell) <= 5 and all(0x30 <= b <= 0x39 for b in cell) and (cell == b"0" or cell[0] != 0x30) and int(cell) <= MOST_BOARDS


def is_printable(cell):
    """Neither ill-formed nor with a control character."""
    return all(c.ok and not any(first <= c.code <= last for first, last in CONTROLS) for c in chars(cell))


def write_cell(cell, width, alignment, out):
    """Cut at its end with the ellipsis `~`, then padded with spaces."""
    cut = Result()
    write_truncated_end(recording(cell), recording(b"~"), width, cut)
    ALIGNED[alignment](recording(cut.data()), recording(b" "), width, out)


def write_tally(lines, columns, out):
    """A row for each line, that of the names too; last the number of value lines and the sum of their boards."""
    for line in lines:
        for k, (cell, (width, alignment)) in enumerate(zip(line, columns)):
            out.write(b" " * (k > 0))
            write_cell(cell, width, alignment, out)
        out.write(b"\n")
    names, *values = lines
    place = boards_place(names)
    boards = 0 if place is None else sum(int(line[place]) for line in values)
    out.write(b"%d %d\n" % (len(values), boards))
    return 0


# ── Refusals

class Refused(Exception):
    def __init__(self, number):
        self.number = number


def refuse_if(condition, number):
    if condition:
        raise Refused(number)


def check_recording(r):
    """1, 2, 5 for length, then entry by entry 3, 4, 5, 6."""
    refuse_if(len(r.data) > DATA_LIMIT, 1)
    refuse_if(len(r.numbers) % 4 != 0 or len(r.numbers) > NUMBER_LIMIT, 2)
    refuse_if(len(r.text) > TEXT_LIMIT, 5)
    previous = 0
    for i in range(0, len(r.numbers), 4):
        position, kind, start, length = r.numbers[i:i + 4]
        refuse_if(kind > 2 or kind == POP and (start, length) != (0, 0) or kind == RAW and length == 0, 3)
        refuse_if(position < previous or position > len(r.data), 4)
        refuse_if(start + length > len(r.text), 5)
        refuse_if(kind == PUSH and not well_formed(r.text[start:start + length]), 6)
        previous = position


def check_records(records, data_length, new_length):
    previous = 0
    for r in records:
        refuse_if(r.start > r.end or r.end > data_length or r.start < previous or r.first > r.last or r.last > new_length, 8)
        previous = r.end


def check_lengths(data, numbers, text):
    """The result against the limits of a recording."""
    refuse_if(data > DATA_LIMIT or numbers > NUMBER_LIMIT or text > TEXT_LIMIT, 9)


def check_plain(*texts):
    for t in texts:
        refuse_if(len(t) > DATA_LIMIT, 1)
    refuse_if(not all(map(well_formed, texts)), 7)


def check_ends(ends, data_length):
    """Over 64 cells, part ends that fall, or a last end, 0 without cells, that is not the data's length."""
    falls = any(end < former for former, end in zip(ends, ends[1:]))
    refuse_if(len(ends) > MOST_CELLS or falls or (0, *ends)[-1] != data_length, 38)


def check_columns(numbers):
    """A number of columns, a width or an alignment that there is not; an odd count of numbers is no number of columns."""
    refuse_if(len(numbers) % 2 != 0 or not 1 <= len(numbers) // 2 <= MOST_COLUMNS, 39)
    for width, alignment in columns_of(numbers):
        refuse_if(not 1 <= width <= WIDEST_COLUMN or not 0 <= alignment < len(ALIGNED), 39)


def check_tally(lines, count):
    """39 for too many lines; then line by line 41 for the number of cells, 40 cell by cell, and in a value line 41 for the boards."""
    refuse_if(len(lines) > MOST_TALLY_LINES, 39)
    place = boards_place(lines[0])
    for k, line in enumerate(lines):
        refuse_if(len(line) != count, 41)
        for cell in line:
            refuse_if(not is_printable(cell), 40)
        refuse_if(k > 0 and place is not None and not is_boards(line[place]), 41)


# ── The calls: refusals in their order, then the answer and the buffers

def overwrite(buffer, new):
    """The buffer with the new members at its first places."""
    return type(buffer)(new) + buffer[len(new):]


def settle(out, number, lines, buffers):
    """9, then 21 to 24, then the answer and what the buffers hold. The line list takes three numbers a line, a list of cells two each. A result's text is what is stored: of equal
    labels one."""
    data, numbers, text, line_list = buffers
    starts, stored = out.parts()
    text_length = sum(map(len, stored))
    check_lengths(out.length, 4 * len(out.entries), text_length)
    line_numbers = [n for line in lines for n in line]
    refuse_if(out.length > len(data), 21)
    refuse_if(4 * len(out.entries) > len(numbers), 22)
    refuse_if(text_length > len(text), 23)
    refuse_if(len(line_numbers) > len(line_list), 24)
    entry_numbers = [n for e, start in zip(out.entries, starts) for n in (e.position, e.kind, start, len(e.text))]
    after = (overwrite(data, out.data()), overwrite(numbers, entry_numbers), overwrite(text, b"".join(stored)), overwrite(line_list, line_numbers))
    return (0, out.length, len(entry_numbers), text_length, number), after


def layout_call(write):
    """A call on a content and what else it reads."""
    def run(content, *rest, buffers):
        for r in (content,) + rest:
            if isinstance(r, Recording):
                check_recording(r)
        out = Result()
        return settle(out, write(content, *rest, out), [], buffers)
    return run


def wrap_call(content, width, break_words, buffers):
    check_recording(content)
    out = Result()
    return settle(out, write_wrapped(content, width, break_words, out), listed_lines(content.data, width, break_words), buffers)


def wrap_bytes_call(data, width, break_words, buffers):
    refuse_if(len(data) > DATA_LIMIT, 1)
    lines = listed_lines(data, width, break_words)
    return settle(Result(), len(lines), lines, buffers)


def replace_call(content, numbers, new, buffers):
    check_recording(content)
    records, out = records_of(numbers), Result()
    check_records(records, len(content.data), len(new))
    return settle(out, write_replaced(content, records, new, out), [], buffers)


def tabs_call(content, stop, buffers):
    """31 comes after the content's checks and before 9."""
    check_recording(content)
    refuse_if(not 1 <= stop <= MOST_STOP, 31)
    out = Result()
    return settle(out, write_tabs_expanded(content, stop, out), [], buffers)


def unindent_call(content, prefix, buffers):
    """32, the prefix has a 0A, and 33, a line that is not empty does not begin with it, come in this order after the checks of both recordings and before 9."""
    check_recording(content)
    check_recording(prefix)
    refuse_if(b"\n" in prefix.data, 32)
    refuse_if(any(line and not line.startswith(prefix.data) for line in content.data.split(b"\n")), 33)
    out = Result()
    return settle(out, write_unindented(content, prefix, out), [], buffers)


def view_call(write):
    """34, the label is empty or ill-formed, and 35, the content is unbalanced, follow the content's checks in this order, for both readers, and come before 9."""
    def run(content, label, buffers):
        check_recording(content)
        refuse_if(label == b"" or not well_formed(label), 34)
        refuse_if(not balanced(content), 35)
        out = Result()
        return settle(out, write(content, label, out), [], buffers)
    return run


def build_index_call(content, buffers):
    """36, the list is too short, follows the recording's checks. The index comes from the list's first place on, and its count is the number."""
    check_recording(content)
    *others, index = buffers
    starts = line_starts(content.data)
    refuse_if(len(index) < len(starts), 36)
    return (0, 0, 0, 0, len(starts)), (*others, overwrite(index, starts))


def extend_index_call(content, earlier, used, buffers):
    """36 also where the first `used` numbers are not the index of the earlier data, whose length must not pass the data's. Otherwise it equals building."""
    check_recording(content)
    *_, index = buffers
    refuse_if(used > len(index) or earlier > len(content.data), 36)
    refuse_if(index[:used] != line_starts(content.data[:earlier]), 36)
    return build_index_call(content, buffers)


def question(answer, is_there):
    """A question to an index: 36, it is not that of the data, after the recording's checks; 37, the line or offset is not there, last."""
    def run(content, index, asked):
        check_recording(content)
        refuse_if(index != line_starts(content.data), 36)
        refuse_if(not is_there(content.data, asked), 37)
        return answer(content.data, asked)
    return run


def cells_call(data, ends, ellipsis, max_width, buffers):
    """38 follows the checks of content and ellipsis, which have no entries. The list takes two numbers a cell, and the number is the count of cells."""
    for text in (data, ellipsis):
        refuse_if(len(text) > DATA_LIMIT, 1)
    check_ends(ends, len(data))
    out = Result()
    listed = write_truncated_cells(cells_of(data, ends), ellipsis, max_width, out)
    return settle(out, len(listed), listed, buffers)


def tally_call(data, numbers, buffers):
    """1 on the input comes first, then 39 to 41; 9 and 21 on the sheet follow."""
    refuse_if(len(data) > DATA_LIMIT, 1)
    check_columns(numbers)
    lines, columns = tally_lines(data), columns_of(numbers)
    check_tally(lines, len(columns))
    out = Result()
    return settle(out, write_tally(lines, columns, out), [], buffers)


def plain_call(work):
    def run(*inputs, buffers):
        check_plain(*[t for t in inputs if isinstance(t, bytes)])
        text, width = work(*inputs)
        out = Result()
        out.write(text)
        return settle(out, width, [], buffers)
    return run


def adding_call(own_check, parts):
    """A call that adds at the ends: `used` says how much of each buffer is the content, and `added` is what comes."""
    def run(used, added=b"", *, buffers):
        refuse_if(any(n > len(b) for n, b in zip(used, buffers)), 10)
        content = Recording(*(b[:n] for n, b in zip(used, buffers)))
        check_recording(content)
        own_check(added)
        new = parts(added, content)
        lengths = [n + len(p) for n, p in zip(used, new)]
        check_lengths(*lengths)
        for length, buffer, number in zip(lengths, buffers, (21, 22, 23)):
            refuse_if(length > len(buffer), number)
        after = tuple(b[:n] + type(b)(p) + b[n + len(p):] for p, n, b in zip(new, used, buffers))
        return (0, *lengths, 0), after + buffers[3:]
    return run


def entry_at_end(kind):
    """One entry at the current end, its text at the text's end; a pop has 0 and 0."""
    return lambda added, content: (b"", (len(content.data), kind, 0 if kind == POP else len(content.text), len(added)), added)


def push_at_end(label, content):
    """A push takes the part of the content's first push with equal text, and then no text is added (document 02, Q-8)."""
    for e, start in zip(entries(content), content.numbers[2::4]):
        if e.kind == PUSH and e.text == label:
            return b"", (len(content.data), PUSH, start, len(label)), b""
    return entry_at_end(PUSH)(label, content)


CALLS = {
    "replay": layout_call(replay),
    "write_truncated_start": layout_call(write_truncated_start),
    "write_truncated_end": layout_call(write_truncated_end),
    "write_padded_start": layout_call(write_padded_start),
    "write_padded_end": layout_call(write_padded_end),
    "write_padded_centered": layout_call(write_padded_centered),
    "write_indented": layout_call(write_indented),
    "wrap_bytes": wrap_bytes_call,
    "write_wrapped": wrap_call,
    "write_replaced": replace_call,
    "write_tabs_expanded": tabs_call,
    "write_unindented": unindent_call,
    "write_for_office": view_call(write_for_office),
    "write_for_floor": view_call(write_for_floor),
    "build_line_index": build_index_call,
    "extend_line_index": extend_index_call,
    "write_truncated_cells": cells_call,
    "write_tally": tally_call,
    "elide_start": plain_call(elide_start),
    "elide_end": plain_call(elide_end),
    "complete_newline": plain_call(lambda text: (complete_newline(text), 0)),
    "write": adding_call(lambda added: None, lambda added, *used: (added, (), b"")),
    "push_label": adding_call(lambda added: refuse_if(not well_formed(added), 6), push_at_end),
    "pop_label": adding_call(lambda added: None, entry_at_end(POP)),
    "raw": adding_call(lambda added: refuse_if(len(added) == 0, 3), entry_at_end(RAW)),
}

# The calls on a text, which have no refusal and lend nothing: their one or two results.
TEXT_CALLS = {
    "text_width": lambda text: (text_width(text),),
    "well_formed": lambda text: (int(well_formed(text)),),
    "truncate_end_pos": truncate_end_pos,
    "truncate_start_pos": truncate_start_pos,
    "zero_width_len": lambda text: (zero_width_len(text),),
}

# The questions to a line index, which lend nothing to write: two numbers behind the refusal or 0.
QUESTIONS = {
    "line_at": question(line_at, lambda data, n: n <= data.count(b"\n")),
    "place_of": question(place_of, lambda data, offset: offset <= len(data)),
}


def lent(buffer, unwritten):
    """A buffer given by its length holds `unwritten` in every place."""
    if isinstance(buffer, int):
        return type(unwritten)(unwritten * buffer)
    return bytes(buffer) if isinstance(unwritten, bytes) else tuple(buffer)


def call(name, *inputs, room=()):
    """The five numbers of the answer, and the lent buffers after: data, entry numbers, text, line list.

    `room` gives the buffers before, in the same order, each by its length (then every byte is A5) or by its members; those left out have no places.
    A recording is `recording(data, numbers, text)`. The adding calls take how much of the three buffers is used, and the bytes to add.
    A line index that is written is the last buffer, and so is a list of cells; a tally sheet is the first; for a question, whose answer has three numbers, the index is an input.
    """
    if name in TEXT_CALLS:
        results = tuple(TEXT_CALLS[name](*inputs))
        return results + (0,) * (5 - len(results)), ()
    if name in QUESTIONS:
        try:
            return (0, *QUESTIONS[name](*inputs)), ()
        except Refused as r:
            return (r.number, 0, 0), ()
    room = tuple(room) + (0,) * (4 - len(room))
    buffers = tuple(lent(b, unwritten) for b, unwritten in zip(room, (b"\xA5", (0xA5A5A5A5,), b"\xA5", (0xA5A5A5A5,))))
    try:
        return CALLS[name](*inputs, buffers=buffers)
    except Refused as r:
        return (r.number, 0, 0, 0, 0), buffers
