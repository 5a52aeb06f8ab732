"""How the programs print lists."""


def spaced(numbers):
    """A space before each number."""
    return b"".join(b" %d" % n for n in numbers)


def hexed(data):
    """A space and two digits for each byte."""
    return b"".join(b" %02x" % b for b in data)
