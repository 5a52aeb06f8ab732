"""Reads the trace of `copies.c`, prints a row for each truncating call, and fails if a count is not what `README.md` says."""
import sys
from collections import Counter


def parts(lines, mark):
    """What is printed after each traced part, with the number of times that the part made each access."""
    inside, seen = False, Counter()
    for line in lines:
        word, *words = line.split()
        if word in ("called", "measured"):
            yield words, seen
            seen = Counter()
        elif word in ("L", "S", "M") and words[0] == mark:
            inside = not inside
        elif inside:
            seen[word, words[0]] += 1


def place(access):
    """The addresses of an access or a buffer."""
    first, size = access.split(",")
    return range(int(first, 16), int(first, 16) + int(size))


def each_byte(seen, ways):
    """How often each byte was accessed in one of these ways: L is a load, S a store, M both."""
    times = Counter()
    for (way, access), n in seen.items():
        if way in ways:
            for byte in place(access):
                times[byte] += n
    return times


def main():
    at = next(line for line in sys.stdin if line.startswith("at ")).split()
    content, *buffers = map(place, at[2:])
    traced = parts(sys.stdin, at[1])
    elsewhere, failed = {}, False
    print("| call | content | entries | data, entries, text stored | elsewhere by measuring, by the rest, places | passes measuring, copying |")
    print("|---|---|---|---|---|---|")
    for (call, calling), (kept, measuring) in zip(traced, traced):
        name, (size, count, *left), (first, end) = call[0], map(int, call[1:]), map(int, kept)
        stored, loaded, measured = each_byte(calling, "SM"), each_byte(calling, "LM"), each_byte(measuring, "LM")
        wrong = []
        for buffer, length in zip(buffers, left):
            if [stored.pop(byte, 0) for byte in buffer] != [1] * length + [0] * (len(buffer) - length):
                wrong.append("a place of a lent buffer is not stored once, or one beyond the result is")
        by_measuring = sum(each_byte(measuring, "SM").values())
        rest = sum(stored.values()) - by_measuring, len(stored)
        if elsewhere.setdefault((name, count), rest) != rest:
            wrong.append("what is stored elsewhere depends on the content's length")
        copied = [loaded[byte] - measured[byte] for byte in content[:size]]
        if copied != [int(first <= i < end) for i in range(size)]:
            wrong.append("a kept byte is not read once beside measuring, or another one is")
        passes = sum(measured[byte] for byte in content) / size, sum(copied) / size
        numbers = ", ".join(map(str, left)), f"{by_measuring}, {rest[0]}, {rest[1]}", f"{passes[0]:.2f}, {passes[1]:.2f}"
        print(f"| `{name.replace(',', '`, ')} | {size} | {count} | {' | '.join(numbers)} |")
        for what in wrong:
            print(f"copies: {what}")
        failed = failed or wrong != []
    sys.exit(failed)


main()
