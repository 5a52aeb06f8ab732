"""Lists of layout calls (document 01, "Plain steps"): what a list leaves, and the same read on a list of coloured bytes.

A call of a list is its name and what it takes after the content, such as `("write_truncated_end", recording(b".."), 4)`.
"""
from ruszvedok_model import (Recording, call, coloured, fill_count, lines_with_newlines, records_of, recording, stripped, text_width, truncate_end_pos, truncate_start_pos,
                             wrapped_lines, zero_width_len)


def result_of(numbers, buffers):
    """The recording that a call left in its buffers."""
    return Recording(buffers[0][:numbers[1]], buffers[1][:numbers[2]], buffers[2][:numbers[3]])


def run_list(first, calls, room):
    """A call's content is the result of the last call not refused, or the first content. The last content, and each call's refusal or 0."""
    content, refusals = first, []
    for name, *inputs in calls:
        numbers, buffers = call(name, content, *inputs, room=room)
        refusals.append(numbers[0])
        if numbers[0] == 0:
            content = result_of(numbers, buffers)
    return content, refusals


def without_colour(c):
    """A call with its second recording stripped."""
    return tuple(stripped(x) if isinstance(x, Recording) else x for x in c)


def data_of(state):
    return bytes(byte for byte, _ in state)


def ending(state, room):
    """The kept stretch of the start cutter."""
    start, _ = truncate_start_pos(data_of(state), room)
    return state[start + zero_width_len(data_of(state)[start:]):]


def beginning(state, room):
    return state[:truncate_end_pos(data_of(state), room)[0]]


def plain_truncate(name, state, ellipsis, max_width):
    kept = ending if name == "write_truncated_start" else beginning
    if text_width(data_of(state)) <= max_width:
        return kept(state, max_width)
    content = kept(state, max(max_width - text_width(data_of(ellipsis)), 0))
    dots = kept(ellipsis, max_width)
    return dots + content if kept is ending else content + dots


def plain_pad(name, state, fill, min_width):
    count = fill_count(recording(data_of(state)), min_width)
    left = {"write_padded_start": count, "write_padded_end": 0, "write_padded_centered": count // 2}[name]
    return fill * left + state + fill * (count - left)


def plain_indent(state, prefix):
    """A prefix byte has the labels of its line's first byte, then its own."""
    result, start = [], 0
    for line in lines_with_newlines(data_of(state)):
        if line != b"\n":
            result += [(byte, state[start][1] + labels) for byte, labels in prefix]
        result += state[start:start + len(line)]
        start += len(line)
    return result


def labels_at(state, offset):
    return state[offset][1] if offset < len(state) else ()


def plain_wrap(state, width, breaks):
    """An added 0A has the labels of the byte at the finished line's end offset."""
    lines = wrapped_lines(data_of(state), width, breaks)
    result = state[lines[0][0]:lines[0][1]]
    for (_, end), (start, stop) in zip(lines, lines[1:]):
        result = result + [(0x0A, labels_at(state, end))] + state[start:stop]
    return result


def plain_replace(state, numbers, new):
    result, at = [], 0
    for r in records_of(numbers):
        result += state[at:r.start] + [(byte, labels_at(state, r.start)) for byte in new[r.first:r.last]]
        at = r.end
    return result + state[at:]


def plain_tabs(state, stop):
    """Each 09 gone, and in its stead as many 20s, with its labels, as the bytes left of it since the last 0A are short of the next stop (document 02, Q-2)."""
    result = []
    for byte, labels in state:
        line = data_of(result).rpartition(b"\n")[2]
        result += [(0x20, labels)] * (stop - text_width(line) % stop) if byte == 0x09 else [(byte, labels)]
    return result


def plain_unindent(state, prefix):
    """Of each line the first bytes gone, as many as the prefix has; its 0A is none of them (document 02, Q-3)."""
    result, place = [], 0
    for byte, labels in state:
        if byte == 0x0A or place >= len(prefix):
            result.append((byte, labels))
        place = 0 if byte == 0x0A else place + 1
    return result


def plain_step(state, name, *inputs):
    """One call not refused, on a list of coloured bytes; a second recording comes as coloured bytes."""
    inputs = [coloured(x) if isinstance(x, Recording) else x for x in inputs]
    if name.startswith("write_truncated"):
        return plain_truncate(name, state, *inputs)
    if name.startswith("write_padded"):
        return plain_pad(name, state, *inputs)
    rest = {"write_indented": plain_indent, "write_wrapped": plain_wrap, "write_replaced": plain_replace, "write_tabs_expanded": plain_tabs, "write_unindented": plain_unindent}
    return rest[name](state, *inputs)


def plain_steps(first, calls, refusals):
    """A refused call leaves the state as it is."""
    state = coloured(first)
    for c, refusal in zip(calls, refusals):
        if refusal == 0:
            state = plain_step(state, *c)
    return state


def commutes(first, calls, room):
    """Demand 3 of one list: the steps give the coloured bytes of the result, and stripping first or last gives the same data, with no call refused the second time."""
    last, refusals = run_list(first, calls, room)
    again = [without_colour(c) for c, refusal in zip(calls, refusals) if refusal == 0]
    plain, second_refusals = run_list(stripped(first), again, room)
    return coloured(last) == plain_steps(first, calls, refusals) and plain.data == last.data and not any(second_refusals)
