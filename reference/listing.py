"""The lines that an answer is printed as."""


def granted(count, dates, names):
    lines = [b"G%10d\n" % count]
    for row, ((release, response), name) in enumerate(zip(dates, names)):
        finish = release + response
        lines.append(b"R%10d%10d%10d%10d %12s\n" % (row, release, response, finish, name))
    return b"".join(lines)


def late(row, finish):
    return b"L%10d%16d\n" % (row, finish)


def fault(number, line, column):
    """Line and column are 0 for what stands in no line of the sheet."""
    return b"F%10d%10d%10d\n" % (number, line, column)
