"""Rows as a sheet's lines, the other way round from the reader.

A row is a tuple: ("C", make, places, banks, latency, period),
("T", place, cycles, earliest, name), ("M", bank, count) or ("D", row).
"""


def line(row):
    letter, *fields = row
    name = b" %12s" % fields.pop() if letter == "T" else b""
    return letter.encode() + b"".join(b"%10d" % field for field in fields) + name + b"\n"


def sheet_of(rows):
    return b"".join(line(row) for row in rows)


def with_period(rows, period):
    """The same rows, with another period in the head."""
    return [rows[0][:5] + (period,)] + rows[1:]
