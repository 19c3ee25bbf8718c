"""Writes the run cases of the other calls: corrections, the calls that read, flows written from sheets, flows judged by portions, flows that are rebalanced, deleghe that are dropped, and series of
calls with sums kept beside the flow. Run from anywhere: python3 cases/make_calls.py"""

import re
import sys
from pathlib import Path

sys.dont_write_bytecode = True

import corrections      # adds its cases to the list
import sheets, sheet_faults, samples        # these too
import keepings, keeping_faults     # and these
import clerks       # and this one, to three lists, behind those that are there
import correction
import droppings
import keeping
import portions
import readings
import rebalancings
import sheet

ROOT = Path(__file__).resolve().parent.parent


def written(crate, calls, more=()):
    """The data and the expected output of a crate, from name, numbers, the parts that follow the header, expected lines and reason. `more` as below."""
    assert all(len(set(map(len, parts))) == 1 for _, _, parts, _, _ in calls), crate
    framed(crate, "calls", calls, more)


def header(name, numbers, length):
    """The 152 bytes before the LF of a case's line, or of a step's."""
    assert len(numbers) == 5 and all(0 <= n < 2 ** 64 for n in numbers), name
    return b"%-40s %020d %020d %020d %020d %020d %06d" % (name.encode(), *numbers, length)


def digits(numbers):
    """Numbers of a list, each in 20 digits with a space behind it."""
    return b"".join(b"%020d " % n for n in numbers)


def series(before, steps):
    """The parts of a series: the flow, then for each step its line, the bytes expected, the record it is lent and its list."""
    parts = [before]
    for word, numbers, after, lent, listed in steps:
        parts += [header(word, numbers, len(after)), after, digits((0,) * 11 if lent is None else (1, *lent)), digits(listed)]
    return parts


def framed(crate, file, calls, more=()):
    """The same where the parts may be of several lengths: the header has that of the first. `more` lines follow in the expected output."""
    names = [name for name, *_ in calls]
    assert len(set(names)) == len(names), sorted(n for n in names if names.count(n) > 1)
    assert all(re.fullmatch(r"[a-z0-9]+(-[a-z0-9]+)*", n) and len(n) <= 40 for n in names), names
    data, stdout = bytearray(), []
    for name, numbers, parts, lines, why in calls:
        assert why, name
        data += b"".join(part + b"\n" for part in (header(name, numbers, len(parts[0])), *parts))
        stdout += [name, *lines]
    folder = ROOT / "crates" / crate
    (folder / "data").mkdir(parents=True, exist_ok=True)
    (folder / "data" / file).write_bytes(data)
    (folder / "stdout").write_text("".join(line + "\n" for line in [*stdout, *more]), encoding="ascii", newline="\n")
    refused = sum(line.startswith("REFUSED") for *_, lines, _ in calls for line in lines)
    print("%s: %d calls%s; data/%s %d bytes" % (crate, len(calls), ", %d refused" % refused if refused else "", file, len(data)))


def answers(file):
    """The lines expected for a crate's data/vectors."""
    return (ROOT / "cases" / file).read_text(encoding="ascii").splitlines()


written("correct_cases", [(name, numbers, (before, after), lines, why) for name, numbers, before, after, lines, why in correction.CALLS])
written("reading_cases", [(name, numbers, (flow,), lines, why) for name, numbers, flow, lines, why in readings.CALLS], answers("delega_vectors.answers"))
framed("write_cases", "sheets", [(name, (length, 0, 0, 0, 0), (data, after), lines, why) for name, length, data, after, lines, why in sheet.CASES],
       answers("sheet_vectors.answers"))
framed("portion_cases", "calls", [(name, numbers, (flow, b" ".join(b"%020d" % n for n in state)), lines, why) for name, numbers, flow, state, lines, why in portions.CALLS],
       answers("portion_vectors.answers"))
written("mend_cases", [(name, (length, 0, 0, 0, 0), (before, after), lines, why) for name, length, before, after, lines, why in rebalancings.CALLS],
        answers("rebalance_vectors.answers"))
framed("drop_cases", "calls", [(name, (len(numbers), 0, 0, 0, 0), (before, after, digits(numbers)), lines, why)
                               for name, numbers, before, after, lines, why in droppings.CALLS], answers("drop_vectors.answers"))
framed("kept_cases", "calls", [(name, (len(steps), 0, 0, 0, 0), series(before, steps), lines, why) for name, before, steps, lines, why in keeping.CALLS],
       answers("kept_vectors.answers"))
