"""Two flows that most cases start from, the columns that the judgement reads, and three tax codes."""

from flow import delega, flow


def plain(**more):
    """The flow of 01's printed whole case. Records: 1 F4, 2 10, 3 20, 4 40-05 (10000, 0), 5 40-05 (0, 2500),
    6 40-06 P 7500, 7 50-01, 8 EF."""
    return flow(delega(regioni=[(10000, 0), (0, 2500)]), **more)


# Every kind of record once, 10, 20 and 50-01 twice.
FULL = ["F4", "10", "20", "40-01", "40-02", "40-03", "40-04", "40-05", "40-06", "40-07", "40-08", "50-01", "50-02",
        "50-03", "10", "20", "40-17", "40-18", "50-01", "EF"]


def full():
    """The records of FULL. Final balances 86000 and 60000, tail sum 146000."""
    return flow(delega(erario=[(10000, 2000)], inps=[(20000, 3000)], regioni=[(30000, 4000)], imu=[(40000, 5000)], after=2),
                delega(ident=[(60000, 0)]))


# Tax codes, in the sixteen columns of record 10: the two of 02, ask 2, of which one passes, and a firm's that passes (codes.py has it worked out).
PERSON, WRONG_CODE, FIRM = "RSSMRA85T10A562S", "RSSMRA85T10A562T", "03417520545     "

# The columns read, from docs/COLUMNS.md, by kind of record.
READ = {
    "F4": [(2, 3), (14, 19), (20, 39)],
    "EF": [(2, 3), (20, 39), (46, 52), (53, 67), (83, 89)],
    "10": [(2, 3), (4, 10), (11, 26)],
    "20": [(2, 3), (4, 10)],
    "40-01": [(2, 3), (4, 10), (11, 12), (27, 41), (42, 56)],
    "40-02": [(2, 3), (4, 10), (11, 12), (13, 27), (28, 42), (43, 43), (44, 58)],
    "40-03": [(2, 3), (4, 10), (11, 12), (52, 66), (67, 81)],
    "40-04": [(2, 3), (4, 10), (11, 12), (13, 27), (28, 42), (43, 43), (44, 58)],
    "40-05": [(2, 3), (4, 10), (11, 12), (29, 43), (44, 58)],
    "40-06": [(2, 3), (4, 10), (11, 12), (15, 29), (30, 44), (45, 45), (46, 60)],
    "40-07": [(2, 3), (4, 10), (11, 12), (31, 45), (46, 60)],
    "40-08": [(2, 3), (4, 10), (11, 12), (17, 31), (32, 46), (47, 47), (48, 62)],
    "40-17": [(2, 3), (4, 10), (11, 12), (41, 55), (56, 70)],
    "40-18": [(2, 3), (4, 10), (11, 12), (43, 43), (44, 58)],
    "50-01": [(2, 3), (4, 10), (11, 12), (36, 50)],
    "50-02": [(2, 3), (4, 10), (11, 12)],
    "50-03": [(2, 3), (4, 10), (11, 12)],
}


def fill_unread(built, character):
    """Writes one character into every column of a `full` flow that the judgement does not read."""
    for number, kind in enumerate(FULL, 1):
        read = {p for first, last in READ[kind] for p in range(first, last + 1)}
        for position in range(1, 121):
            if position not in read:
                built.put(number, position, character)
    return built
