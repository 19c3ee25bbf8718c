"""Builds sound flows, record by record, at the columns of docs/COLUMNS.md.

A flow is described by its deleghe, a delega by its lines:

    flow(delega(regioni=[(10000, 0), (0, 2500)]))

The builder numbers the deleghe, and counts and adds up the lines it is given; it judges nothing. A case then changes bytes with `put`, or drops,
inserts and cuts records. Records and positions count from 1, as in 000.
"""

# Section: line subtype, balance subtype, debit, credit, total debit, total credit, sign, balance.
# Section 17 stores no totals.
SECTIONS = {
    "erario": ("01", "02", 27, 42, 13, 28, 43, 44),
    "inps": ("03", "04", 52, 67, 13, 28, 43, 44),
    "regioni": ("05", "06", 29, 44, 15, 30, 45, 46),
    "imu": ("07", "08", 31, 46, 17, 32, 47, 48),
    "ident": ("17", "18", 41, 56, None, None, 43, 44),
}

# What a plain line carries beside its amounts: {position: text}. "##" is the line's place in its section.
PLAIN_LINE = {
    "erario": {13: "##", 15: "1001", 19: "00052025", 60: "00000000000"},
    "inps": {13: "##", 15: "5800", 19: "DM10", 23: "5801234567", 40: "052025", 46: "000000"},
    "regioni": {13: "19", 15: "##", 17: "3801", 21: "00052024"},
    "imu": {13: "G478", 17: "##", 19: "3918", 23: "00002025", 61: "0010", 65: "001", 68: "0" * 15},
    "ident": {13: "##", 15: "F", 16: "TK325T000123000AB", 33: "1501", 37: "2025", 71: "TK3", 74: "0" * 11},
}

# A plain taxpayer and the bank; the samples bring their own.
PLAIN_PAYER = {
    "tax_code": "RSSMRA80A01H501U", "name": "ROSSI", "name2": "MARIO", "sex": "M",
    "born_in": "ROMA", "born_province": "RM", "born": "19800101",
    "town": "PERUGIA", "province": "PG", "street": "VIA DEI FRANTOI 12",
    "cab": "03000", "account": "000000123456", "cin": "G", "iban_check": "06",
    "zip": "06121", "client": "00012345",
}
PLAIN_HEAD = {"sender": "A7K2P", "sender_tax_code": "RSSMRA80A01H501U", "bank": "09990", "paid": "20250616"}

DATE = "100625"
NAME = "F24-20250610-001    "


def record(kind, fields):
    """120 characters: the type at 2-3, then each {position: text}."""
    r = bytearray(b" " * 120)
    for position, text in {2: kind, **fields}.items():
        write(r, position, text)
    return r


def write(r, position, text):
    data = text if isinstance(text, bytes) else text.encode("ascii")
    assert 1 <= position and position - 1 + len(data) <= 120
    r[position - 1:position - 1 + len(data)] = data


def amount(n):
    """Fifteen digits; a sum that needs more is cut to its last fifteen, and the case says what follows."""
    return "%015d" % (n % 10 ** 15)


def delega(erario=(), inps=(), regioni=(), imu=(), ident=(), after=0, payer=None, order=None, protocol=None, credits=None):
    """A payment order. A line is (debit, credit) or (debit, credit, {position: text}). `after` is how many of 50-02 and
    50-03 follow 50-01. `order` names the sections in another order than 01's table, a name as often as wanted. No check reads
    record 10's 107-113, `protocol`, and 50-01's 79-93, `credits`: they are the delega's number and credits where none are given."""
    lines = {"erario": erario, "inps": inps, "regioni": regioni, "imu": imu, "ident": ident}
    return {"lines": lines, "order": order or list(SECTIONS), "after": after, "payer": {**PLAIN_PAYER, **(payer or {})}, "protocol": protocol, "credits": credits}


def full_name(p):
    """A firm's name runs on from the first field into the second."""
    return p["name"] + (" " if p["sex"].strip() else "") + p["name2"]


def delega_records(number, d, head):
    n, p = "%07d" % number, d["payer"]
    out = [
        record("10", {4: n, 11: p["tax_code"], 27: p["name"], 51: p["name2"], 71: p["sex"], 72: p["born_in"],
                      97: p["born_province"], 99: p["born"], 107: d["protocol"] or n}),
        record("20", {4: n, 11: p["town"], 36: p["province"], 38: p["street"], 73: head["paid"], 81: "0"}),
    ]
    all_debit = all_credit = 0
    for name in d["order"]:
        lines = d["lines"][name]
        if not lines:
            continue
        line, balance, at_debit, at_credit, at_total_debit, at_total_credit, at_sign, at_balance = SECTIONS[name]
        for place, (debit, credit, *own) in enumerate(lines, 1):
            fields = own[0] if own else PLAIN_LINE[name]
            fields = {k: v.replace("##", "%02d" % place) for k, v in fields.items()}
            out.append(record("40", {4: n, 11: line, **fields, at_debit: amount(debit), at_credit: amount(credit)}))
        debit, credit = sum(x[0] for x in lines), sum(x[1] for x in lines)
        fields = {4: n, 11: balance, at_sign: "N" if debit < credit else "P", at_balance: amount(abs(debit - credit))}
        if at_total_debit:
            fields.update({at_total_debit: amount(debit), at_total_credit: amount(credit)})
        out.append(record("40", fields))
        all_debit, all_credit = all_debit + debit, all_credit + credit
    final = all_debit - all_credit
    out.append(record("50", {4: n, 11: "01", 13: head["bank"], 18: p["cab"], 23: p["account"], 35: p["cin"],
                             36: amount(abs(final)), 51: "0", 54: p["tax_code"], 70: "2", 71: head["paid"],
                             79: amount(all_credit if d["credits"] is None else d["credits"]), 96: "3", 97: "IT", 99: p["iban_check"]}))
    if d["after"] >= 1:
        out.append(record("50", {4: n, 11: "02", 13: head["sender_tax_code"], 33: head["bank"], 38: p["cab"], 43: p["client"],
                                 63: "2" if d["after"] >= 2 else "1", 64: full_name(p) if d["after"] >= 2 else ""}))
    if d["after"] >= 2:
        out.append(record("50", {4: n, 11: "03", 13: p["zip"], 18: p["town"], 43: p["province"], 45: p["street"]}))
    return out, all_debit, all_credit


class Flow:
    def __init__(self, records, sums=None, deleghe=(), ends=None):
        self.records = records
        self.sums = sums            # what the builder was told to build: see `flow`
        self.deleghe = deleghe      # each as `delega` describes it, with the protocol number and the credits that stand in its records
        self.ends = ends            # date, name and head, as `flow` takes them
        self.tail = b""

    def told(self, deleghe):
        """The flow that is built of other descriptions. It is asked of a flow as it was built, not of one with changed bytes."""
        assert bytes(self) == bytes(flow(*self.deleghe, **self.ends))
        return flow(*deleghe, **self.ends)

    def anew(self, number, section, place, debit, credit):
        """The flow built anew with other amounts of one line. No call writes the credits in 50-01: they stay as they were."""
        d = self.deleghe[number - 1]
        lines = list(d["lines"][section])
        lines[place - 1] = (debit, credit, *lines[place - 1][2:])
        d = {**d, "lines": {**d["lines"], section: lines}}
        return self.told([*self.deleghe[:number - 1], d, *self.deleghe[number:]])

    def without(self, numbers):
        """The flow built anew without some deleghe, by their numbers. No call writes the protocol numbers: they stay as they were."""
        return self.told([d for number, d in enumerate(self.deleghe, 1) if number not in numbers])

    def put(self, number, position, text):
        """Writes text into a record."""
        write(self.records[number - 1], position, text)
        return self

    def drop(self, number, count=1):
        del self.records[number - 1:number - 1 + count]
        return self

    def insert(self, number, *records):
        """The first of the new records gets this number."""
        self.records[number - 1:number - 1] = list(records)
        return self

    def keep(self, count):
        """Keeps the first records."""
        del self.records[count:]
        return self

    def add(self, *records):
        self.records.extend(records)
        return self

    def bytes_after(self, data):
        """Bytes behind the last record."""
        self.tail = data
        return self

    def __bytes__(self):
        return b"".join(bytes(r) for r in self.records) + self.tail


def flow(*deleghe, date=DATE, name=NAME, head=None):
    """F4, the deleghe, EF."""
    given = {"date": date, "name": name, "head": head}
    head = {**PLAIN_HEAD, **(head or {})}
    ends = {4: head["sender"], 9: head["bank"], 14: date, 20: name, 114: "E"}
    records = [record("F4", {**ends, 105: "2$" + head["bank"]})]
    sums = {"total": 0, "lines": 0, **{s: [0, 0] for s in SECTIONS}}
    filled = []
    for number, d in enumerate(deleghe, 1):
        rs, debit, credit = delega_records(number, d, head)
        records += rs
        filled.append({**d, "protocol": d["protocol"] or "%07d" % number, "credits": credit if d["credits"] is None else d["credits"]})
        sums["total"] += debit - credit
        for s, lines in d["lines"].items():
            times = d["order"].count(s)
            sums["lines"] += times * len(lines)
            sums[s][0] += times * sum(x[0] for x in lines)
            sums[s][1] += times * sum(x[1] for x in lines)
    records.append(record("EF", {**ends, 46: "%07d" % len(deleghe), 53: amount(sums["total"]), 68: "0" * 15,
                                 83: "%07d" % (len(records) + 1)}))
    return Flow(records, (len(deleghe), len(records), sums), filled, given)
