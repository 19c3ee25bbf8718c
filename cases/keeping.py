"""The list of series with the ten sums kept beside the flow, and the calls of a series: each is lent the flow and the record as the one before it left them."""

from case import Accepted, no
from correction import SECTION_OF
from flow import SECTIONS
from rebalancings import compare

CALLS = []          # (name, bytes of the flow, steps, expected lines, why). A step is its word, its five numbers, the bytes expected, the record given or None, the list

OTHER = no(29, 0, 0)            # the record is another than the sums of the lines
MOST_STEPS, MOST_CHANGED, MOST_NUMBERS = 40, 5000, 600


def ten(erario=(0, 0), inps=(0, 0), regioni=(0, 0), imu=(0, 0), ident=(0, 0)):
    """A record: debit and credit of each section."""
    return (*erario, *inps, *regioni, *imu, *ident)


def record_of(answer):
    """The record that stands for an accepted flow, from the sums written in its answer; after a refusal ten zeros."""
    return ten(*answer.numbers[4]) if isinstance(answer, Accepted) else ten()


def printed(record):
    return "SUMS " + " ".join(map(str, record))


def added(built):
    """The amounts of the lines, added up as they stand in the records."""
    columns = {line.encode("ascii"): (debit, credit) for line, _, debit, credit, *_ in SECTIONS.values()}
    sums = {line: [0, 0] for line in columns}
    for r in built.records:
        line = bytes(r[10:12])
        if r[1:3] == b"40" and line in columns:
            for side, start in enumerate(columns[line]):
                sums[line][side] += int(r[start - 1:start + 14])
    return ten(*sums.values())


class Series:
    """A flow, the answer of the call that makes the record from it, and calls that follow. Each takes its own arguments, then its answer: `yes(..)` is that of the
    flow afterwards, and its sums are the record handed back; `no(..)` leaves the flow and the record as they came. `lent` is a record for this call; without it the call is
    lent the one that was handed back last. `after` is the flow afterwards, where it is not the one that the builder makes anew of the flow before."""

    def __init__(self, name, built, answer, why):
        if isinstance(answer, Accepted):
            answer.compare(name, built)
        self.name, self.built, self.record = name, built, record_of(answer)
        self.steps, self.lines = [], [printed(self.record)] if isinstance(answer, Accepted) else [*answer]
        CALLS.append((name, bytes(built), self.steps, self.lines, why))

    def correct(self, line, amounts, answer, lent=None, after=None):
        """`line` is delega, subtype and place."""
        number, subtype, place = line
        if isinstance(answer, Accepted):
            after = after or self.built.anew(number, SECTION_OF[subtype], place, *amounts)
        return self.step("correct", (*line, *amounts), (), ["MADE"], after, answer, lent)

    def rebalance(self, length, answer, lent=None, changed=(), after=None):
        """`length` is that of the list, and `changed` has record and start of each field listed. Without `after` the flow is right before it."""
        if isinstance(answer, Accepted):
            after = after or self.built
            compare(self.name, self.built, after, changed)
        assert 2 * len(changed) <= length <= MOST_CHANGED, self.name
        done = ["REBALANCED %d" % len(changed), *["CHANGED %d %d" % place for place in changed]]
        return self.step("rebalance", (length, 0, 0, 0, 0), (), done, after, answer, lent)

    def drop(self, numbers, answer, lent=None, after=None):
        assert len(numbers) <= MOST_NUMBERS, self.name
        done = []
        if isinstance(answer, Accepted):
            after, done = after or self.built.without(numbers), ["DROPPED %d" % (120 * answer.numbers[1])]
        return self.step("drop", (len(numbers), 0, 0, 0, 0), tuple(numbers), done, after, answer, lent)

    def step(self, word, numbers, listed, done, after, answer, given):
        """One call. `done` are the lines that tell its success, and `after` is the flow behind that."""
        self.record = self.record if given is None else given
        self.guard(answer, after)
        before = bytes(self.built)
        if isinstance(answer, Accepted):
            self.built, self.record = after, record_of(answer)
            self.lines += [*done, printed(self.record), "SAME", *answer.printed]
        else:
            self.lines += [*answer, printed(self.record), "SAME"]
        self.steps.append((word, numbers, bytes(self.built).ljust(len(before)), given, listed))
        assert len(self.steps) <= MOST_STEPS, self.name
        return self

    def guard(self, answer, after):
        """Guards against a slip of the pen: the record lent is another than the sums of the lines where that is refused, and these sums wherever the call looks further:
        where it succeeds, and where it gives a refusal that is tried behind 29. Those have no place, and of the judgement's own 1 and 2 alone have none."""
        if answer == OTHER:
            assert self.record != added(self.built), (self.name, self.record)
        elif isinstance(answer, Accepted):
            answer.compare(self.name, after)
            assert (self.record, record_of(answer)) == (added(self.built), added(after)), (self.name, self.record)
        elif answer[0].endswith(" 0 0") and answer not in (no(1, 0, 0), no(2, 0, 0)):
            assert self.record == added(self.built), (self.name, self.record)
