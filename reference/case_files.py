"""Reads case files. Nothing here knows how they were made."""


def sheet_cases(data):
    """Hands out (number, sheet, listing). The cuts are by lengths alone."""
    at = 0
    while at < len(data):
        number, at = number_line(data, at, b"X")
        length, at = number_line(data, at, b"I")
        sheet, at = data[at:at + length], at + length
        length, at = number_line(data, at, b"O")
        listing, at = data[at:at + length], at + length
        if data[at:at + 2] != b"E\n":
            raise ValueError(f"case {number} has no end")
        at += 2
        yield number, sheet, listing


def number_line(data, at, letter):
    if data[at:at + 1] != letter or data[at + 11:at + 12] != b"\n":
        raise ValueError(f"no line {letter} at byte {at}")
    return int(data[at + 1:at + 11]), at + 12


def line_cases(data):
    """Hands out (number, sheet, lines behind it), a line as its letter and its numbers."""
    for line in data.splitlines(keepends=True):
        letter = line[:1]
        if letter == b"X":
            number, sheet, rest = int(line[1:]), b"", []
        elif letter == b"E":
            yield number, sheet, rest
        elif letter in b"CTMD":
            sheet += line
        else:
            rest.append(numbers_of(line))


def numbers_of(line):
    fields = range(1, len(line) - 1, 10)
    return line[:1].decode(), [int(line[at:at + 10]) for at in fields]
