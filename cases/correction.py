"""The list of corrections, and flows that can be built anew with another amount."""

from copy import copy, deepcopy

from common import fill_unread
from flow import SECTIONS, delega, flow

CALLS = []          # (name, call, bytes before, bytes expected, expected lines, why)

SECTION_OF = {int(line): name for name, (line, *_) in SECTIONS.items()}


class Told:
    """A flow as the builder is told it: a description of each delega. `fill` is written into every column that is not read,
    where the records are those of `common.FULL`."""

    def __init__(self, *deleghe, fill=None):
        self.plain, self.fill = flow(*[delega(**d) for d in deleghe]), fill

    def built(self):
        return fill_unread(deepcopy(self.plain), self.fill) if self.fill else self.plain

    def anew(self, *line_and_amounts):
        """The same flow, told with other amounts of one line."""
        other = copy(self)
        other.plain = self.plain.anew(*line_and_amounts)
        return other


def made(name, told, line, amounts, answer, why):
    """A correction that is made. `line` is delega, subtype and place; `answer` is that of the flow afterwards, in numbers written
    in the case. The bytes expected are those of the flow built anew. Gives that flow as it is told."""
    number, subtype, place = line
    after = told.anew(number, SECTION_OF[subtype], place, *amounts)
    answer.compare(name, after.built())
    CALLS.append((name, (*line, *amounts), bytes(told.built()), bytes(after.built()), ["MADE", "SAME", *answer.printed], why))
    return after


def refused(name, flow_or_told, line, amounts, answer, why):
    """A correction that is refused: the bytes stay. `why` names the sentence of document 01, or the decision, that decides."""
    data = bytes(flow_or_told.built() if isinstance(flow_or_told, Told) else flow_or_told)
    CALLS.append((name, (*line, *amounts), data, data, [*answer, "SAME"], why))
