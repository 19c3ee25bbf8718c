"""Every number of six digits, and which of them are dates by Python's own calendar. Adds no case to the list: the program of crates/date_cases judges one
flow with each of them for its date, and prints it with its answer where that is another than for the one before."""

from datetime import date

from common import plain

# "years are 2000 to 2099", 02, ask 4.
FIRST_YEAR = 2000


def exists(day, month, year):
    try:
        date(FIRST_YEAR + year, month, day)
        return True
    except ValueError:
        return False


def answers():
    """The lines expected: by year, then month, then day, where the answer is another than for the date before."""
    lines, before, dates = [], None, 0
    for year in range(100):
        for month in range(100):
            for day in range(100):
                answer = "ACCEPTED" if exists(day, month, year) else "REFUSED 17 1 14"
                dates += answer == "ACCEPTED"
                if answer != before:
                    lines.append("%02d%02d%02d %s" % (day, month, year, answer))
                before = answer
    assert dates == (date(FIRST_YEAR + 100, 1, 1) - date(FIRST_YEAR, 1, 1)).days
    return lines


FLOW = bytes(plain())
