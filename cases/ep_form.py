"""Builds records M and V of the form F24 EP, 1,900 characters each, at the columns of 001, Allegato B; and the list of cases.

Records stand one behind the other:

    form(m("123,45"), v([row("F", 12000), row("R", 345)]))

The builder puts each text in its columns and adds the debits of a V up for its balances. It judges nothing. M's total is the text that the case has: no
text is made of a number here. A case then changes bytes with `put`. Records and positions count from 1, as in 001.
"""

from case import add

LENGTH = 1900       # 001, 2.1: "lunghezza fissa di 1.900 caratteri"

# By name: first position, width, the number of the field in 001 (campo). What is missing is filler, and holds spaces.
M_FIELDS = {
    "type": (1, 1, 1), "tax_code": (2, 11, 2), "number": (18, 8, 4), "user": (26, 3, 5), "user_model": (54, 20, 7), "currency": (91, 1, 10),
    "name": (518, 55, 12), "capacity": (573, 2, 13), "on_behalf_of": (575, 16, 14),
    "holder": (1768, 2, 17), "holder_code": (1770, 11, 18), "country": (1781, 2, 19), "iban_check": (1783, 2, 20), "cin": (1785, 1, 21), "abi": (1786, 5, 22),
    "cab": (1791, 5, 23), "account": (1796, 12, 24), "mail": (1809, 60, 26), "euro": (1869, 4, 27), "total": (1873, 15, 28), "paid": (1888, 10, 29),
    "control": (1898, 3, 30),       # and 31
}
# 001 prints V's three control characters at 1893 (216, 217) and no field behind them, where the record has 1,900 characters. Here they end the record as they
# do in A, M and Z; cases of their own have them at 1893.
V_FIELDS = {
    "type": (1, 1, 1), "tax_code": (2, 11, 2), "number": (13, 8, 3), "user": (21, 3, 4), "user_model": (49, 20, 6), "model": (85, 1, 8),
    "office": (86, 3, 9), "act": (89, 11, 10),
    "section_debit": (1738, 15, 208), "section_credit": (1753, 15, 209), "section_sign": (1768, 1, 210), "section_balance": (1769, 15, 211),
    "balance": (1788, 15, 213), "paid": (1803, 8, 214), "control": (1898, 3, 216),      # and 217
}
# Row k starts at 100 + 56(k - 1). In it: first position, width, the number of the field in 001 for row 1; in row k it is 7(k - 1) more.
ROWS = 28
ROW_FIELDS = {
    "type": (1, 1, 11), "code": (2, 6, 12), "place": (8, 5, 13), "ident": (13, 17, 14), "a": (30, 6, 15), "b": (36, 6, 16), "debit": (42, 15, 17),
}

# What a plain record carries beside its amounts; the samples bring their own. 001, 2.4: text is filled up with spaces behind, a number with zeros in front.
CONTROL = b"A\r\n"
PLAIN_M = {
    "type": "M", "tax_code": "80007340542", "number": "00000001", "currency": "E", "name": "CONSORZIO DI BONIFICA VAL NERINA", "holder": "14",
    "holder_code": "80007340542", "country": "IT", "iban_check": "95", "cin": "M", "abi": "01000", "cab": "03245", "account": "440300000147",
    "mail": "ragioneria@bonifica-valnerina.example", "euro": "EURO", "paid": "16-06-2025", "control": CONTROL,
}
PLAIN_V = {
    "type": "V", "tax_code": "80007340542", "number": "00000001", "model": "7", "act": "0" * 11, "section_credit": "0" * 15, "section_sign": "P",
    "paid": "16062025", "control": CONTROL,
}


def start_of(k):
    """Where row k starts."""
    return 100 + 56 * (k - 1)


def data_of(text):
    return bytes(text) if isinstance(text, (bytes, bytearray)) else text.encode("ascii")


def amount(n):
    """Fifteen digits; a sum that needs more is cut to its last fifteen, and the case says what follows. A text is taken as it is."""
    return "%015d" % (n % 10 ** 15) if isinstance(n, int) else n


class Record:
    """1,900 bytes, and what the builder was told: the type, and for a V the sum of the debits of its used rows."""

    def __init__(self, kind, fields, told):
        self.kind, self.told, self.data = kind, told, bytearray(b" " * LENGTH)
        for (first, width, _), text in fields:
            text = data_of(text)
            assert len(text) <= width, (first, text)
            self.put(first, text)

    def put(self, position, text):
        text = data_of(text)
        assert 1 <= position and position - 1 + len(text) <= LENGTH, position
        self.data[position - 1:position - 1 + len(text)] = text
        return self


def m(total, **fields):
    """A record M with this text as its total, filled up with spaces behind to fifteen characters."""
    assert len(data_of(total)) <= 15, total
    return Record("M", [(M_FIELDS[name], text) for name, text in {**PLAIN_M, "total": total, **fields}.items()], 0)


def row(kind, debit, code="", place="", ident="", a="", b=""):
    """A row; its type is a character or a byte, its debit a number or a text."""
    return {"type": kind, "code": code, "place": place, "ident": ident, "a": a, "b": b, "debit": debit}


UNUSED = row(" ", 0)


def v(rows, balance=None, **fields):
    """A record V. `rows` are its first rows, or {number: row}; the others are unused. Its balances are the sum of the debits, unless the case says otherwise:
    `balance` is the final one."""
    rows = rows if isinstance(rows, dict) else dict(enumerate(rows, 1))
    assert all(1 <= k <= ROWS for k in rows)
    used = [r["debit"] for r in rows.values() if data_of(r["type"]) != b" "]
    told = sum(debit for debit in used if isinstance(debit, int))
    fields = {**PLAIN_V, "section_debit": amount(told), "section_balance": amount(told), "balance": amount(told if balance is None else balance), **fields}
    placed = [(V_FIELDS[name], text) for name, text in fields.items()]
    for k in range(1, ROWS + 1):
        for name, text in rows.get(k, UNUSED).items():
            first, width, campo = ROW_FIELDS[name]
            text = amount(text) if name == "debit" else text
            placed.append(((start_of(k) + first - 1, width, campo + 7 * (k - 1)), text))
    return Record("V", placed, told)


def paid(*debits):
    """A record V with these debits in its first rows, all of type F."""
    return v([row("F", debit) for debit in debits])


def other(kind, like=None):
    """A record of another type: the bytes of a record, a plain M where none is given, with this character or byte in the place of the type."""
    record = like or m("0,00")
    return Record("?", [((1, LENGTH, 0), record.data)], 0).put(1, kind)


class Form:
    """Records one behind the other."""

    def __init__(self, records):
        self.records, self.rest = list(records), b""

    def put(self, number, position, text):
        """Writes text into a record."""
        self.records[number - 1].put(position, text)
        return self

    def add(self, data):
        """Bytes behind the last record."""
        self.rest += data
        return self

    def __bytes__(self):
        return b"".join(bytes(r.data) for r in self.records) + self.rest


def form(*records):
    return Form(records)


CASES = []          # (name, expected lines, bytes, why)


def case(name, expected, built, why):
    """`why` names the sentence of document 02 or 001 that decides."""
    add(CASES, name, expected, built, why)


class Accepted:
    """The line of an accepted form, from numbers written in the case: records M, and the sum of their totals in cents."""

    def __init__(self, count, total):
        self.numbers = count, total
        self.printed = ["ACCEPTED %d %d" % (count, total)]

    def compare(self, name, built):
        """Guards against a slip of the pen: the numbers in the case are those the builder was told to build."""
        told = sum(r.kind == "M" for r in built.records), sum(r.told for r in built.records)
        assert self.numbers == told, (name, self.numbers, told)


yes = Accepted
