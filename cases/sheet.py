"""Builds working sheets from the descriptions that flow.py builds flows from.

    sheet(delega(regioni=[(10000, 0), (0, 2500)]))

A sheet is a list of parts: records, each with its slot ("F4", "10", "20", "erario" .. "ident", "50-01", "EF"), and counts. Its records are
those that flow.py makes, without the balance records; what the writer fills holds what was keyed there, spaces unless the case says
otherwise. The builder judges nothing and writes no flow. Parts are named by slot, delega and place, all counted from 1.
"""

from flow import SECTIONS, flow, write

# What the writer fills, by slot: {first position: width}. Every other column is carried as it is keyed.
FILLED = {
    "F4": {}, "10": {4: 7}, "20": {4: 7}, **{name: {4: 7} for name in SECTIONS}, "50-01": {4: 7, 36: 15},
    "EF": {20: 20, 46: 7, 53: 15, 83: 7},
}


class Part:
    """A record in its slot, or a count (slot "deleghe" or "count-erario" .. "count-ident")."""

    def __init__(self, slot, delega, place, data):
        self.slot, self.delega, self.place, self.data = slot, delega, place, bytearray(data)


class Sheet:
    def __init__(self, parts, built):
        self.parts = parts
        self.flow = built           # the flow that flow.py builds of the same description
        self.rest = b""

    def at(self, slot, delega=1, place=1):
        if slot in ("F4", "EF", "deleghe"):
            delega = 0
        found = [p for p in self.parts if (p.slot, p.delega, p.place) == (slot, delega, place)]
        assert len(found) == 1, (slot, delega, place)
        return found[0]

    def put(self, slot, position, text, delega=1, place=1):
        """Writes text into a record."""
        write(self.at(slot, delega, place).data, position, text)
        return self

    def count(self, slot, text, delega=1):
        """Another text for a count: of "deleghe", or of a section."""
        part = self.at(slot if slot == "deleghe" else "count-" + slot, delega)
        part.data = bytearray(text if isinstance(text, bytes) else text.encode("ascii"))
        return self

    def record(self, slot, data, delega=1, place=1):
        """Another record in a slot."""
        assert len(data) == 120
        self.at(slot, delega, place).data = bytearray(data)
        return self

    def exchange(self, one, other):
        """Two records change places. Each is slot, delega, place."""
        a, b = self.at(*one), self.at(*other)
        a.data, b.data = b.data, a.data
        return self

    def key(self, text):
        """What is keyed where the writer fills: a text that is repeated over every such column."""
        for part in self.parts:
            for position, width in FILLED.get(part.slot, {}).items():
                data = text if isinstance(text, bytes) else text.encode("ascii")
                write(part.data, position, (data * width)[:width])
        return self

    def key_right(self):
        """What is keyed where the writer fills is what the writer will fill in."""
        for part, r in zip(self.records(), self.kept()):
            for position, width in FILLED[part.slot].items():
                write(part.data, position, bytes(r[position - 1:position - 1 + width]))
        return self

    def fill(self, character):
        """One character in every column that is neither filled nor read: the flow's records, balance records apart, get it too."""
        for part, r in zip(self.records(), self.kept()):
            for position in range(1, 121):
                if not any(a <= position <= b for a, b in READ[part.slot]):
                    write(part.data, position, character)
                    write(r, position, character)
        return self

    def records(self):
        return [p for p in self.parts if p.slot in FILLED]

    def kept(self):
        """The flow's records without the balance records."""
        return [r for r in self.flow.records if not is_balance(r)]

    def cut(self, length):
        """The bytes of the sheet up to a length; below zero: without so many at the end."""
        return bytes(self)[:length]

    def add(self, data):
        """Bytes behind the sheet."""
        self.rest += data
        return self

    def upto(self, slot, delega=1, place=1):
        """How many bytes stand before a part."""
        end = self.parts.index(self.at(slot, delega, place))
        return sum(len(p.data) for p in self.parts[:end])

    def __bytes__(self):
        return b"".join(bytes(p.data) for p in self.parts) + self.rest


def is_balance(r):
    return r[1:3] == b"40" and bytes(r[10:12]).decode("ascii") in [balance for _, balance, *_ in SECTIONS.values()]


# The columns read or filled, by slot.
READ = {
    "F4": [(2, 3), (14, 19), (20, 39)], "10": [(2, 26)], "20": [(2, 10)], "50-01": [(2, 12), (36, 50)],
    "EF": [(2, 3), (20, 39), (46, 67), (83, 89)],
    **{name: [(2, 12), (at_debit, at_credit + 14)] for name, (_, _, at_debit, at_credit, *_) in SECTIONS.items()},
}


def sheet(*deleghe, **more):
    """F4, the count of deleghe, the deleghe, EF. `more` as for flow."""
    built = flow(*deleghe, **more)
    kept = iter([bytes(r) for r in built.records if not is_balance(r)])
    parts = [Part("F4", 0, 1, next(kept)), Part("deleghe", 0, 1, b"%03d" % len(deleghe))]
    for number, d in enumerate(deleghe, 1):
        assert d["after"] == 0 and d["order"] == list(SECTIONS), "a sheet has no 50-02 and no 50-03, and its sections stand in 01's order"
        parts += [Part("10", number, 1, next(kept)), Part("20", number, 1, next(kept))]
        for name in SECTIONS:
            lines = len(d["lines"][name])
            parts.append(Part("count-" + name, number, 1, b"%02d" % lines))
            parts += [Part(name, number, place, next(kept)) for place in range(1, lines + 1)]
        parts.append(Part("50-01", number, 1, next(kept)))
    parts.append(Part("EF", 0, 1, next(kept)))
    assert next(kept, None) is None
    return Sheet(parts, built).key(" ")


# --- The list of cases ------------------------------------------------------------------------------------------------
CASES = []          # (name, length of the room, sheet's bytes, bytes expected in the room, expected lines, why)

MOST_ROOM, MOST_SHEET = 66000, 70000


def room(length):
    """What a room holds before the call."""
    return bytes(33 + i % 90 for i in range(length))


def add(name, data, before, after, lines, why):
    assert len(before) == len(after) <= MOST_ROOM and len(data) <= MOST_SHEET, name
    CASES.append((name, len(before), data, after, [*lines[:1], "SAME", *lines[1:]], why))


def written(name, keyed, answer, why, more=0):
    """A flow is written: the one that flow.py builds. `answer` is that of the judging program, in numbers written in the case; the room
    has `more` bytes than the flow, and they stay."""
    answer.compare(name, keyed.flow)
    made = bytes(keyed.flow)
    before = room(len(made) + more)
    add(name, bytes(keyed), before, made + before[len(made):], ["WRITTEN %d" % len(made), *answer.printed], why)


def refused(name, keyed, answer, why, length=None):
    """Nothing is written: the room stays. Its length is that of the flow that flow.py builds of the description, or is given."""
    if length is None:
        length = len(bytes(keyed.flow))
    add(name, bytes(keyed), room(length), room(length), answer, why)
