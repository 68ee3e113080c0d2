"""Plans that are worked by hand, as rows."""


def scan_and_steam(period, earliest_of_steam=0):
    """A ring over 2 places, one bank, latency 1."""
    return [
        ("C", 1, 2, 1, 1, period),
        ("T", 0, 5, 0, b"scan"),
        ("M", 0, 3),
        ("T", 1, 4, earliest_of_steam, b"steam"),
        ("M", 0, 2),
    ]


def sample():
    """Scan, steam, and a filter behind scan."""
    return scan_and_steam(20) + [("T", 0, 2, 0, b"filter"), ("M", 0, 1)]


def three_rounds():
    """Three tasks that take three rounds: a release rises too far and comes back."""
    return [
        ("C", 1, 2, 2, 10, 2000),
        ("T", 0, 10, 0, b"short"),
        ("M", 1, 1),
        ("T", 1, 52, 0, b"long"),
        ("M", 0, 30),
        ("M", 1, 15),
        ("T", 0, 4, 0, b"last"),
        ("M", 0, 5),
        ("M", 1, 18),
        ("D", 1),
    ]


def six_tasks():
    """Tasks 1 to 6 stand in the rows 1, 2, 4, 5, 6, 3. Their dates were published elsewhere."""
    return [
        ("C", 1, 3, 3, 10, 2500),
        ("T", 0, 5, 0, b"task1"),
        ("M", 0, 32),
        ("M", 1, 10),
        ("T", 0, 8, 0, b"task2"),
        ("M", 0, 30),
        ("D", 0),
        ("T", 1, 5, 0, b"task4"),
        ("M", 0, 50),
        ("M", 1, 2),
        ("D", 0),
        ("T", 2, 8, 0, b"task5"),
        ("M", 2, 30),
        ("T", 2, 20, 0, b"task6"),
        ("M", 0, 50),
        ("M", 2, 8),
        ("D", 3),
        ("T", 0, 20, 0, b"task3"),
        ("M", 0, 18),
        ("D", 1),
        ("D", 2),
        ("D", 4),
    ]
