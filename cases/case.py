"""The list of cases, and the words of an expectation."""

from flow import SECTIONS

CASES = []          # (name, expected lines, bytes, why)


def add(cases, name, expected, built, why):
    """Adds a case; an acceptance is held against what the case was built of."""
    if hasattr(expected, "compare"):
        expected.compare(name, built)
        expected = expected.printed
    cases.append((name, expected, bytes(built), why))


def case(name, expected, built, why):
    """`why` names the sentence of document 01, or the decision in docs/DECISIONS.md, that decides."""
    add(CASES, name, expected, built, why)


def no(number, record, position):
    """The line of a refusal."""
    return ["REFUSED %d %d %d" % (number, record, position)]


def rows(sums):
    """The five section rows: the line's subtype, debit sum, credit sum."""
    return ["%s %d %d" % (line, debit, credit) for (line, *_), (debit, credit) in zip(SECTIONS.values(), sums)]


class Accepted:
    """The six lines of an accepted flow, from numbers written in the case, in the order in which they are printed: deleghe, records, sum of final balances,
    line records; then the sums of the sections."""

    def __init__(self, deleghe, records, total, lines, erario=(0, 0), inps=(0, 0), regioni=(0, 0), imu=(0, 0), ident=(0, 0)):
        sums = (erario, inps, regioni, imu, ident)
        self.numbers = (deleghe, records, total, lines, sums)
        self.printed = ["ACCEPTED %d %d %d %d" % (deleghe, records, total, lines), *rows(sums)]

    def compare(self, name, built):
        """Guards against a slip of the pen: the numbers in the case are those the builder was told to build."""
        deleghe, records, sums = built.sums
        told = (deleghe, records, sums["total"], sums["lines"], tuple(tuple(sums[s]) for s in SECTIONS))
        assert self.numbers == told, (name, self.numbers, told)


yes = Accepted


class OneDelega:
    """The six lines of one delega, from numbers written in the case, in the order in which they are printed: its number, final balance, line records, the
    set of its sections as one number, how many they are; then its own sums of the sections."""

    def __init__(self, number, balance, lines, used, size, erario=(0, 0), inps=(0, 0), regioni=(0, 0), imu=(0, 0), ident=(0, 0)):
        sums = (erario, inps, regioni, imu, ident)
        self.number, self.numbers = number, (balance, lines, used, size, sums)
        self.printed = ["DELEGA %d %d %d %d %d" % (number, balance, lines, used, size), *rows(sums)]

    def compare(self, name, built):
        """Guards against a slip of the pen, as above."""
        given = [built.deleghe[self.number - 1]["lines"][s] for s in SECTIONS]
        sums = tuple((sum(x[0] for x in lines), sum(x[1] for x in lines)) for lines in given)
        told = (sum(debit - credit for debit, credit in sums), sum(len(lines) for lines in given),
                sum(value for value, lines in zip((1, 2, 4, 8, 16), given) if lines), sum(1 for lines in given if lines), sums)
        assert self.numbers == told, (name, self.numbers, told)


one = OneDelega
