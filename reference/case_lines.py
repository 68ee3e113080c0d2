"""Lines of case files: a letter, then numbers in 10 columns, as in a sheet."""


def numbers_line(letter, *numbers):
    return letter + b"".join(b"%10d" % number for number in numbers) + b"\n"


def answer_line(letter, number, row):
    """Row 0 stands also where no row is named."""
    return numbers_line(letter, number, row or 0)


def date_lines(table):
    return b"".join(numbers_line(b"A", *date) for date in table)


def case(number, text):
    return numbers_line(b"X", number) + text + b"E\n"
