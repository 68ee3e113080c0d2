"""The sheet reader: bytes into rows, or the first fault."""

# How many number fields a line has, by its letter.
FIELDS = {"C": 5, "T": 3, "M": 2, "D": 1}
COLUMNS = 10
NAME_COLUMNS = 13  # a space, then the name right-justified in 12
DIGITS = b"0123456789"


class Fault(Exception):
    """Number, line and column; the last two count from 1."""

    def __init__(self, number, line, column):
        super().__init__(number, line, column)
        self.number = number
        self.line = line
        self.column = column


def rows(sheet):
    """Hands out (line, row) one by one, so that a plan sees each row before the next is read."""
    line = 0
    at = 0
    while at < len(sheet):
        line += 1
        text, ended = line_at(sheet, at)
        yield line, row_of(text, ended, line)
        at += len(text) + 1


def line_at(sheet, at):
    """What lies before the next line feed, and whether there is one."""
    end = sheet.find(b"\n", at)
    if end < 0:
        return sheet[at:], False
    return sheet[at:end], True


def row_of(text, ended, line):
    """A row is its letter, its numbers and, for a task, its name."""
    letter = text[:1].decode("latin-1")
    if letter not in FIELDS:
        raise Fault(1, line, 1)
    if not ended or len(text) != length_of(letter):
        raise Fault(2, line, 1)
    numbers = [number_at(text, 1 + COLUMNS * k, line) for k in range(FIELDS[letter])]
    row = (letter, *numbers)
    if letter == "T":
        row += (name_at(text, 1 + COLUMNS * FIELDS[letter], line),)
    if letter == "C" and numbers[0] not in (1, 2):
        raise Fault(5, line, 1)
    return row


def length_of(letter):
    return 1 + COLUMNS * FIELDS[letter] + (NAME_COLUMNS if letter == "T" else 0)


def number_at(text, at, line):
    """Spaces, then digits without a leading zero, up to the field's last column."""
    digits = text[at:at + COLUMNS].lstrip(b" ")
    well_formed = (
        len(digits) > 0
        and all(byte in DIGITS for byte in digits)
        and (digits == b"0" or digits[0] != ord("0"))
    )
    if not well_formed:
        raise Fault(3, line, at + 1)
    return int(digits)


def name_at(text, at, line):
    field = text[at:at + NAME_COLUMNS]
    name = field.lstrip(b" ")
    well_formed = (
        field[:1] == b" "
        and len(name) > 0
        and all(33 <= byte <= 126 for byte in name)
    )
    if not well_formed:
        raise Fault(3, line, at + 1)
    return name
