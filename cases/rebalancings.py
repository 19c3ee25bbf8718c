"""Rebalancing a bad flow: what is mended and listed, lists of every length, what still stops it, 23 and 27, and what is never written."""

from copy import deepcopy

from case import no, yes
from common import FIRM, WRONG_CODE, fill_unread, full, plain
from flow import SECTIONS, delega, flow
from samples import SAMPLES, regional_tax

CALLS = []          # (name, length of the list, bytes before, bytes expected, expected lines, why)

MOST = 999999999999999          # fifteen nines
ENOUGH = 4368                   # numbers of a list that is long enough for every flow: four fields for each of 546 records
LONGEST = 5000                  # the longest list that the program lends


def hurt(sound, *damage):
    """A copy of a flow with texts put into it: (record, position, text)."""
    hurt = deepcopy(sound)
    for place in damage:
        hurt.put(*place)
    return hurt


def stored(r):
    """Where the fields of a record are that are worked out from the lines: {start: width}."""
    kind = bytes(r[1:3]), bytes(r[10:12])
    if kind[0] == b"EF":
        return {46: 7, 53: 15, 83: 7}
    if kind == (b"50", b"01"):
        return {36: 15}
    for _, balance, _, _, at_total_debit, at_total_credit, at_sign, at_balance in SECTIONS.values():
        if kind == (b"40", balance.encode("ascii")):
            fields = {at_total_debit: 15, at_total_credit: 15} if at_total_debit else {}
            return {**fields, at_sign: 1, at_balance: 15}
    return {}


def compare(name, before, after, changed):
    """Guards against a slip of the pen: the fields in the case are those of other bytes, in the order of the flow, and no other byte differs."""
    seen = []
    assert len(before.records) == len(after.records), name
    for number, (old, new) in enumerate(zip(before.records, after.records), 1):
        rest = bytearray(old)
        for start, width in stored(new).items():
            part = slice(start - 1, start - 1 + width)
            if old[part] != new[part]:
                seen.append((number, start))
            rest[part] = new[part]
        assert rest == new, (name, number)
    assert list(changed) == seen, (name, changed, seen)


def mended(name, before, after, changed, answer, why, length=None):
    """A flow that is rebalanced: `before` becomes `after`, which the builder makes of a description; `changed` has record and start of each field listed, and
    `answer` is that of the flow afterwards, in numbers written in the case. The list has three numbers more than are needed, or is of a length that is given."""
    answer.compare(name, after)
    compare(name, before, after, changed)
    length = 2 * len(changed) + 3 if length is None else length
    assert 2 * len(changed) <= length <= LONGEST, name
    listed = ["CHANGED %d %d" % place for place in changed]
    CALLS.append((name, length, bytes(before), bytes(after), ["REBALANCED %d" % len(changed), *listed, "KEPT", "SAME", *answer.printed], why))


def damaged(name, sound, damage, answer, why, length=None):
    """The same where whole fields of the sound flow are damaged, given in the order of the flow: these are the fields listed."""
    mended(name, hurt(sound, *damage), sound, [(record, start) for record, start, _ in damage], answer, why, length)


def untouched(name, sound, answer, why, length=0):
    """An accepted flow: nothing changes, and nothing is listed."""
    mended(name, sound, sound, [], answer, why, length)


def refused(name, built, answer, why, length=7):
    """Nothing is written: the flow and the list stay. The list is too short for most of what is damaged, and that is found last."""
    assert length <= LONGEST, name
    CALLS.append((name, length, bytes(built), bytes(built), [*answer, "KEPT", "SAME"], why))


# The flow of every kind of record, of common.py: F4, then 2 10, 3 20, 4 40-01, 5 40-02, 6 40-03, 7 40-04, 8 40-05, 9 40-06, 10 40-07, 11 40-08, 12 50-01,
# 13 50-02, 14 50-03, 15 10, 16 20, 17 40-17, 18 40-18, 19 50-01, 20 EF. Its stored fields: name, record, start, what stands there, and other digits.
ITS_LINES = {"erario": [(10000, 2000)], "inps": [(20000, 3000)], "regioni": [(30000, 4000)], "imu": [(40000, 5000)]}       # of its first delega
EVERY = yes(2, 20, 146000, 5, erario=(10000, 2000), inps=(20000, 3000), regioni=(30000, 4000), imu=(40000, 5000), ident=(60000, 0))
NUMBERS = (
    ("40-02-total-debit", 5, 13, "000000000010000", "000000000010001"),
    ("40-02-total-credit", 5, 28, "000000000002000", "000000000020000"),
    ("40-02-balance", 5, 44, "000000000008000", "000000000012000"),
    ("40-04-total-debit", 7, 13, "000000000020000", "000000000019999"),
    ("40-04-total-credit", 7, 28, "000000000003000", "000000000000000"),
    ("40-04-balance", 7, 44, "000000000017000", "000000000071000"),
    ("40-06-total-debit", 9, 15, "000000000030000", "000000000000000"),
    ("40-06-total-credit", 9, 30, "000000000004000", "000000000004001"),
    ("40-06-balance", 9, 46, "000000000026000", "000000000034000"),
    ("40-08-total-debit", 11, 17, "000000000040000", "100000000040000"),
    ("40-08-total-credit", 11, 32, "000000000005000", "999999999999999"),
    ("40-08-balance", 11, 48, "000000000035000", "000000000045000"),
    ("50-01-final-balance", 12, 36, "000000000086000", "000000000146000"),
    ("40-18-balance", 18, 44, "000000000060000", "000000000006000"),
    ("last-50-01-final-balance", 19, 36, "000000000060000", "000000000000000"),
    ("tail-deleghe", 20, 46, "0000002", "0000001"),
    ("tail-sum", 20, 53, "000000000146000", "000000000086000"),
    ("tail-records", 20, 83, "0000020", "0000021"),
)
SIGNS = (("40-02-sign", 5, 43), ("40-04-sign", 7, 43), ("40-06-sign", 9, 45), ("40-08-sign", 11, 47), ("40-18-sign", 18, 43))

# --- Mended: every stored field by itself -----------------------------------------------------------------------------
DIGITS = "02, ask 6: faults 10, 11, 13, 15 and 18 to 20 don't stop it; the field is written anew from the lines, and listed with record and start"
SEVEN = "02, ask 6: nor does 7 in those fields; 01: blank is not zero, so that the bytes differ"
TWELVE = "02, ask 6: nor does 12: the sign is a field of its own, and the balance beside it stays as it was"
for name, record, start, right, wrong in NUMBERS:
    assert len(right) == len(wrong) and bytes(full().records[record - 1][start - 1:start - 1 + len(right)]) == right.encode("ascii"), name
    damaged("digits-" + name, full(), [(record, start, wrong)], EVERY, DIGITS)
    damaged("blank-" + name, full(), [(record, start, " " * len(right))], EVERY, SEVEN)
    damaged("letter-" + name, full(), [(record, start, right[:-1] + "O")], EVERY, SEVEN)
for name, record, start in SIGNS:
    damaged("other-" + name, full(), [(record, start, "N")], EVERY, TWELVE)
    damaged("no-" + name, full(), [(record, start, " ")], EVERY, TWELVE + "; 01, 12: sign wrong or no sign")
    damaged("small-" + name, full(), [(record, start, "p")], EVERY, TWELVE + "; 01, Sections: the sign is N or P, and a small letter is neither")

SAME_VALUE = "02, ask 6: a field is listed exactly when its bytes differ, also where a reader would see the same number"
mended("leading-blanks-of-a-total", full().put(9, 15, "          30000"), full(), [(9, 15)], EVERY, SAME_VALUE)
mended("one-leading-blank-of-the-tail", full().put(20, 83, " "), full(), [(20, 83)], EVERY, SAME_VALUE)
mended("one-character-in-the-middle", full().put(12, 43, "."), full(), [(12, 36)], EVERY, "02, ask 6: the field's start is listed, not the character's own position")
mended("a-dot-and-a-comma", full().put(11, 48, "0000000" + "0.350,00"), full(), [(11, 48)], EVERY, SEVEN)
mended("a-minus", full().put(9, 46, "-00000000026000"), full(), [(9, 46)], EVERY, SEVEN)
mended("a-sign-of-a-digit", full().put(7, 43, "0"), full(), [(7, 43)], EVERY, TWELVE)

# --- Mended: many at once, and all, in the order of the flow ----------------------------------------------------------
ORDER = "02, ask 6: lists each field changed, with record and start, in the order of the flow"


def every(how, which=lambda name: True):
    """Each stored field of the full flow damaged in one way, in the order of the flow."""
    fields = [(record, start, {"digits": wrong, "blank": " " * len(right), "letter": "X" * len(right)}[how]) for name, record, start, right, wrong in NUMBERS if which(name)]
    fields += [(record, start, {"digits": "N", "blank": " ", "letter": "X"}[how]) for name, record, start in SIGNS if which(name)]
    return sorted(fields)


for how in ("digits", "blank", "letter"):
    damaged("all-fields-" + how, full(), every(how), EVERY, ORDER + ": 23 fields", length=46)
ALL = [(5, 13), (5, 28), (5, 43), (5, 44), (7, 13), (7, 28), (7, 43), (7, 44), (9, 15), (9, 30), (9, 45), (9, 46), (11, 17), (11, 32), (11, 47), (11, 48), (12, 36),
       (18, 43), (18, 44), (19, 36), (20, 46), (20, 53), (20, 83)]
mended("all-fields-written-out", hurt(full(), *every("digits")), full(), ALL, EVERY, ORDER + ": by record, and in a record by position", length=ENOUGH)
damaged("all-total-debits", full(), every("digits", lambda name: name.endswith("total-debit")), EVERY, ORDER)
damaged("all-total-credits", full(), every("letter", lambda name: name.endswith("total-credit")), EVERY, ORDER)
damaged("all-totals-blank", full(), every("blank", lambda name: "total" in name), EVERY, ORDER)
damaged("all-signs", full(), every("digits", lambda name: name.endswith("sign")), EVERY, ORDER)
damaged("all-section-balances", full(), every("blank", lambda name: name.startswith("40") and name.endswith("balance")), EVERY, ORDER)
damaged("both-final-balances", full(), every("digits", lambda name: name.endswith("final-balance")), EVERY, ORDER)
for how in ("digits", "blank", "letter"):
    damaged("tail-in-the-order-of-bytes-" + how, full(), every(how, lambda name: name.startswith("tail")), EVERY,
            ORDER + ": in EF 46, 53, 83, although 18, 19, 20 stand at 46, 83, 53")
mended("tail-sum-and-records", full().put(20, 83, "0000002").put(20, 53, "0" * 15), full(), [(20, 53), (20, 83)], EVERY, ORDER)
mended("tail-deleghe-and-records", full().put(20, 83, "0000002").put(20, 46, "0000020"), full(), [(20, 46), (20, 83)], EVERY, ORDER)
mended("totals-exchanged", full().put(9, 15, "000000000004000" + "000000000030000"), full(), [(9, 15), (9, 30)], EVERY, ORDER)
mended("sign-and-balance", full().put(18, 43, " " * 16), full(), [(18, 43), (18, 44)], EVERY, "01: 40-18 has sign 43 and balance 44-58, and no totals")
mended("first-and-last-field", full().put(5, 13, "1").put(20, 89, "1"), full(), [(5, 13), (20, 83)], EVERY, ORDER)
mended("stored-values-that-fit-one-another", full().put(9, 15, "000000000040000").put(9, 46, "000000000036000").put(12, 36, "000000000096000").put(20, 53, "000000000156000"),
       full(), [(9, 15), (9, 46), (12, 36), (20, 53)], EVERY, "01, Errors that would look right: comparing the tail with itself, and never with the lines")

# --- Mended: signs ----------------------------------------------------------------------------------------------------
SIGN = "01, Sections: N when debits are below credits, P in all other cases, zero included"
# 1 F4, 2 10, 3 20, 4 40-01, 5 40-02 N 1, 6 40-03, 7 40-04 N 2, 8 40-05, 9 40-06 N 3, 10 40-07, 11 40-08 P 999, 12 50-01 993, 13 EF.
LESS = yes(1, 13, 993, 4, erario=(1, 2), inps=(1, 3), regioni=(1, 4), imu=(1000, 1))


def less():
    return flow(delega(erario=[(1, 2)], inps=[(1, 3)], regioni=[(1, 4)], imu=[(1000, 1)]))


for word, sign in (("p", "P"), ("no-sign", " "), ("letter", "X")):
    damaged("n-stored-as-" + word, less(), [(5, 43, sign), (7, 43, sign), (9, 45, sign)], LESS, SIGN)
damaged("n-in-imu-stored-as-p", flow(delega(erario=[(1000, 0)], imu=[(1, 5)])), [(7, 47, "P")], yes(1, 9, 996, 2, erario=(1000, 0), imu=(1, 5)), SIGN)
damaged("balance-stored-with-its-sign", less(), [(5, 44, "00000000000000-"), (9, 46, "-00000000000003")], LESS, "01: the balance is the difference without sign")
ZERO = "01, Errors that would look right: writing N for a zero balance"
NOTHING = yes(1, 8, 0, 2, regioni=(2500, 2500))
for word, sign in (("n", "N"), ("no-sign", " "), ("zero", "0")):
    damaged("zero-stored-as-" + word, flow(delega(regioni=[(2500, 0), (0, 2500)])), [(6, 45, sign)], NOTHING, ZERO)
untouched("zero-stored-as-p", flow(delega(regioni=[(2500, 0), (0, 2500)])), NOTHING, ZERO)
damaged("all-but-the-sign-of-zero", flow(delega(regioni=[(2500, 0), (0, 2500)])), [(6, 15, " " * 15), (6, 30, " " * 15), (6, 46, " " * 15), (7, 36, " " * 15), (8, 53, " " * 15)],
        NOTHING, "01: zero is allowed for a final balance; it is stored as fifteen zeros, and blank is not zero")

# --- Mended: lines that were changed after balancing ------------------------------------------------------------------
STORY = "02, ask 6: a Regioni line was raised after balancing, and the balance below left as it was: its lines are good and its totals aren't"
RAISED = yes(1, 8, 9500, 2, regioni=(12000, 2500))
mended("sample-raised-line", SAMPLES["raised-line.f24"], regional_tax(debit=12000), [(6, 15), (6, 46), (7, 36), (8, 53)], RAISED, STORY)
untouched("sample-raised-line-again", regional_tax(debit=12000), RAISED, "02, ask 6: an accepted flow comes back untouched, so a second rebalancing lists nothing")
mended("sample-wrong-balance", SAMPLES["wrong-balance.f24"], SAMPLES["regioni.f24"], [(6, 46)], yes(1, 8, 7500, 2, regioni=(10000, 2500)), DIGITS)
refused("sample-wrong-code", SAMPLES["wrong-code.f24"], no(26, 2, 11), "02, ask 6: the first remaining fault of 01's checks")
LINES = "02, ask 6: rewrites every total, sign, balance, final balance and tail value from the lines"
# Records: 1 F4, 2 10, 3 20, 4 40-01, 5 40-02, 6 40-05, 7 40-05, 8 40-06, 9 50-01, 10 EF. Regioni P 7500, final balance 27500.
BESIDE = {"erario": [(20000, 0)], "regioni": [(10000, 0), (0, 2500)]}
for word, place, text, lines, changed, answer in (
        ("lowered-to-n", (6, 29), "000000000001000", [(1000, 0), (0, 2500)], [(8, 15), (8, 45), (8, 46), (9, 36), (10, 53)],
         yes(1, 10, 18500, 3, erario=(20000, 0), regioni=(1000, 2500))),
        ("lowered-by-a-cent", (6, 29), "000000000009999", [(9999, 0), (0, 2500)], [(8, 15), (8, 46), (9, 36), (10, 53)],
         yes(1, 10, 27499, 3, erario=(20000, 0), regioni=(9999, 2500))),
        ("second-line-raised", (7, 29), "000000000000001", [(10000, 0), (1, 2500)], [(8, 15), (8, 46), (9, 36), (10, 53)],
         yes(1, 10, 27501, 3, erario=(20000, 0), regioni=(10001, 2500))),
        ("to-the-balance-of-the-other-sign", (6, 29), "000000000005000" + "000000000010000", [(5000, 10000), (0, 2500)], [(8, 15), (8, 30), (8, 45), (9, 36), (10, 53)],
         yes(1, 10, 12500, 3, erario=(20000, 0), regioni=(5000, 12500)))):
    after = flow(delega(**{**BESIDE, "regioni": lines}))
    after.records[8][78:93] = b"000000000002500"        # 50-01's 79-93, which the builder fills with the credits, stays as it was before
    mended(word, flow(delega(**BESIDE)).put(*place, text), after, changed, answer, LINES)
mended("debit-and-credit-raised-alike", plain().put(5, 29, "000000000000700" + "000000000003200"),
       hurt(flow(delega(regioni=[(10000, 0), (700, 3200)])), (7, 79, "000000000002500")), [(6, 15), (6, 30)], yes(1, 8, 7500, 2, regioni=(10700, 3200)),
       "02, ask 6: a field is listed exactly when its bytes differ: the balance, the final balance and the sum are the same")
mended("element-raised", full().put(17, 41, "000000000060001"), flow(delega(**ITS_LINES, after=2), delega(ident=[(60001, 0)])), [(18, 44), (19, 36), (20, 53)],
       yes(2, 20, 146001, 5, erario=(10000, 2000), inps=(20000, 3000), regioni=(30000, 4000), imu=(40000, 5000), ident=(60001, 0)), LINES + "; 01: 40-18 has no totals")
mended("a-line-lost", plain().drop(5), hurt(flow(delega(regioni=[(10000, 0)])), (6, 79, "000000000002500")), [(5, 30), (5, 46), (6, 36), (7, 53), (7, 83)],
       yes(1, 7, 10000, 1, regioni=(10000, 0)), LINES + ": as they stand, and a record that was lost is not missed")
mended("a-delega-lost", full().drop(15, 5), flow(delega(**ITS_LINES, after=2)), [(15, 46), (15, 53), (15, 83)],
       yes(1, 15, 86000, 4, erario=(10000, 2000), inps=(20000, 3000), regioni=(30000, 4000), imu=(40000, 5000)), LINES + ": of the deleghe that are there")
mended("a-receipt-lost", full().drop(13, 2), flow(delega(**ITS_LINES), delega(ident=[(60000, 0)])), [(18, 83)],
       yes(2, 18, 146000, 5, erario=(10000, 2000), inps=(20000, 3000), regioni=(30000, 4000), imu=(40000, 5000), ident=(60000, 0)),
       "01: EF's number of records is EF's own record number")

# --- Mended: several deleghe, with 50-02 and 50-03 --------------------------------------------------------------------
# 1 F4; 2 10, 3 20, 4 40-05, 5 40-06, 6 50-01; 7 10, 8 20, 9 40-05, 10 40-06, 11 50-01, 12 50-02; 13 10, 14 20, 15 40-05, 16 40-05, 17 40-06, 18 50-01, 19 50-02,
# 20 50-03; 21 EF. Final balances 50, 150 and 402.
THREE = yes(3, 21, 602, 4, regioni=(703, 101))
OWN = "01, Delega: sums start at zero for every delega"


def three():
    return flow(delega(regioni=[(100, 50)]), delega(regioni=[(200, 50)], after=1), delega(regioni=[(400, 0), (3, 1)], after=2))


damaged("first-of-three", three(), [(5, 15, " " * 15), (5, 46, " " * 15), (6, 36, " " * 15)], THREE, OWN)
damaged("second-of-three", three(), [(10, 15, "000000000000300"), (10, 30, "000000000000100"), (10, 46, "000000000000200"), (11, 36, "000000000000200")], THREE,
        OWN + ": here they had gone on from the first")
damaged("last-of-three", three(), [(17, 45, "N"), (18, 36, "000000000000602")], THREE, OWN + ": the final balance is not the sum of all")
damaged("all-of-three", three(), [(5, 45, "N"), (6, 36, "000000000000602"), (10, 45, "N"), (11, 36, "000000000000602"), (17, 45, "N"), (18, 36, "000000000000602"),
                                  (21, 46, "0000001"), (21, 53, "000000000000402"), (21, 83, "0000022")], THREE, OWN)
damaged("deleghe-counted-with-receipts", three(), [(21, 46, "0000005")], THREE, "01: EF has the number of deleghe; 50-02 and 50-03 are none")
damaged("section-17-between", flow(delega(erario=[(1, 0)]), delega(ident=[(2, 0), (3, 0)], after=2), delega(erario=[(4, 0)])),
        [(5, 13, "000000000000005"), (11, 43, "N"), (11, 44, "000000000000006"), (12, 36, "000000000000006"), (18, 13, "000000000000005"), (19, 36, "000000000000010")],
        yes(3, 20, 10, 4, erario=(5, 0), ident=(5, 0)), OWN)
TWELVE_PAYMENTS = flow(*[delega(erario=[(n, 0)], after=n % 3) for n in range(1, 13)])
damaged("twelve-deleghe", TWELVE_PAYMENTS, [(74, 46, "0000010"), (74, 53, "000000000000055"), (74, 83, "0000064")], yes(12, 74, 78, 12, erario=(78, 0)),
        "01: EF has the number of deleghe, of records with head and tail, and the sum of all final balances")

# --- Mended: the largest ----------------------------------------------------------------------------------------------
NINES = "01: amounts have fifteen digits; 999,999,999,999,999 is the largest, and no value has more digits than its field"
for section in SECTIONS:
    _, _, _, _, at_total_debit, _, _, at_balance = SECTIONS[section]
    fields = [(6, at_total_debit, "9" * 14 + "8")] if at_total_debit else []
    damaged("fifteen-nines-" + section, flow(delega(**{section: [(999999999999998, 0), (1, 0)]})),
            [*fields, (6, at_balance, "0" * 15), (7, 36, "9" * 14 + "O"), (8, 53, " " * 15)], yes(1, 8, MOST, 2, **{section: (MOST, 0)}), NINES)
damaged("fifteen-nines-on-both-sides", flow(delega(imu=[(MOST, MOST)])), [(5, 17, "0" * 15), (5, 32, "0" * 15), (5, 47, "N"), (5, 48, "9" * 15)], yes(1, 7, 0, 1, imu=(MOST, MOST)), NINES)
damaged("fifteen-nines-n", flow(delega(erario=[(MOST, 0)], imu=[(0, MOST)])), [(7, 47, "P"), (7, 48, "0" * 15), (8, 36, "9" * 15)],
        yes(1, 9, 0, 2, erario=(MOST, 0), imu=(0, MOST)), NINES)
damaged("fifteen-nines-in-the-tail", flow(delega(erario=[(999999999999998, 0)]), delega(ident=[(1, 0)])), [(12, 53, "9" * 14 + "8")],
        yes(2, 12, MOST, 2, erario=(999999999999998, 0), ident=(1, 0)), NINES)
damaged("sums-of-sixteen-digits-are-not-stored", flow(delega(erario=[(MOST, MOST)]), delega(erario=[(MOST, MOST)])), [(5, 43, "N"), (10, 43, "N")],
        yes(2, 12, 0, 2, erario=(1999999999999998, 1999999999999998)), "Decision: a flow's section sums may need more than fifteen digits; no record stores them")

# The flow with the most stored fields: 49 deleghe of four sections with eleven records and 17 fields each, one of Regioni with five of each, and the tail's three.
BIG = flow(*[delega(erario=[(4, 1)], inps=[(3, 1)], regioni=[(2, 1)], imu=[(1, 1)])] * 49, delega(regioni=[(7, 2)]))
BIG_ANSWER = yes(50, 546, 299, 197, erario=(196, 49), inps=(147, 49), regioni=(105, 51), imu=(49, 49))
BIG_DAMAGE = [(number, start, "-" * width) for number, r in enumerate(BIG.records, 1) for start, width in stored(r).items()]
assert len(BIG_DAMAGE) == 49 * 17 + 5 + 3 == 841
WHOLE = "01: at most 546 records, that is 65,520 bytes; "
damaged("most-fields-of-546-records", BIG, BIG_DAMAGE, BIG_ANSWER, WHOLE + "841 fields in a list of just that room", length=1682)
refused("most-fields-and-room-for-one-fewer", hurt(BIG, *BIG_DAMAGE), no(27, 0, 0), WHOLE + "02, ask 6: 27 when the lent list is too short", length=1681)
untouched("accepted-of-546-records", BIG, BIG_ANSWER, WHOLE + "02, ask 6: an accepted flow comes back untouched with an empty list")
LONG = flow(*[delega(ident=[(10000, 0)] * 28)] * 17)
damaged("last-fields-of-546-records", LONG, [(544, 43, "N"), (544, 44, "000000000270000"), (545, 36, "000000000270000"), (546, 46, "0000016"), (546, 53, "000000004750000"), (546, 83, "0000545")],
        yes(17, 546, 4760000, 476, ident=(4760000, 0)), WHOLE + "28 lines in each section", length=ENOUGH)

# --- Untouched: accepted flows, with a list of no room ----------------------------------------------------------------
COMES_BACK = "02, ask 6: an accepted flow comes back untouched with an empty list; it succeeds with a list of no room"
PLAIN = yes(1, 8, 7500, 2, regioni=(10000, 2500))
untouched("accepted-plain", plain(), PLAIN, COMES_BACK)
untouched("accepted-every-record", full(), EVERY, COMES_BACK)
untouched("accepted-one-number", full(), EVERY, COMES_BACK + "; one number is no pair, and stays", length=1)
untouched("accepted-long-list", full(), EVERY, COMES_BACK + "; every number of a longer one stays", length=LONGEST)
untouched("accepted-signs-n", less(), LESS, COMES_BACK)
untouched("accepted-three", three(), THREE, COMES_BACK)
untouched("accepted-sample-all-sections", SAMPLES["all-sections.f24"],
          yes(2, 27, 1991543, 11, erario=(518316, 120050), inps=(656675, 0), regioni=(239302, 1500), imu=(163400, 0), ident=(535400, 0)), COMES_BACK)
untouched("accepted-unread-tildes", fill_unread(full(), "~"), EVERY, COMES_BACK)
untouched("accepted-fifteen-nines", flow(delega(regioni=[(MOST, 0)])), yes(1, 7, MOST, 1, regioni=(MOST, 0)), COMES_BACK)

# --- What is never written --------------------------------------------------------------------------------------------
NEVER = "02, ask 6: after it every other byte is the same; 01: fillers and other fields are not read"
for word, character in (("letters", "X"), ("blanks", " "), ("nines", "9")):
    damaged("all-else-%s" % word, fill_unread(full(), character), every("letter"), EVERY, NEVER, length=46)
damaged("50-01-other-amount-stays", full().put(12, 79, "NO AMOUNT AT AL").put(19, 79, "X" * 15), [(12, 36, "X" * 15), (19, 36, "X" * 15)], EVERY, NEVER + ": 50-01's 79-93")
damaged("50-01-credits-stay", full().put(12, 79, "0" * 15), [(12, 36, "0" * 15)], EVERY, NEVER + ": 50-01's 79-93 are not worked out from the credits")
damaged("tail-other-sum-stays", full().put(20, 68, "NEGATIVE AMOUNT"), [(20, 46, "X" * 7), (20, 53, "X" * 15), (20, 83, "X" * 7)], EVERY, NEVER + ": EF's 68-82, between its sum and its records")
damaged("tail-date-stays", full().put(20, 14, "NODATE"), [(20, 46, "0000000")], EVERY, NEVER + ": EF's own date")
damaged("40-18-totals-stay", full().put(18, 13, "T" * 30), [(18, 43, " "), (18, 44, "B" * 15)], EVERY, NEVER + ": 40-18's 13-42, for it has no totals")
damaged("40-18-totals-of-digits-stay", full().put(18, 13, "000000000060001" + "000000000000001"), [(18, 44, "000000000060001")], EVERY, NEVER + ": 40-18's 13-42, for it has no totals")
damaged("between-the-fields-stays", full().put(5, 59, "X" * 62).put(7, 59, "X" * 62).put(9, 13, "XX").put(9, 61, "X" * 60).put(11, 13, "XXXX").put(11, 63, "X" * 58).put(18, 59, "X" * 62),
        [(5, 44, " " * 15), (7, 44, " " * 15), (9, 15, " " * 15), (9, 46, " " * 15), (11, 17, " " * 15), (11, 48, " " * 15), (18, 44, " " * 15)], EVERY, NEVER + ": up to the very next character")
damaged("tax-code-of-a-firm-stays", flow(delega(regioni=[(10000, 0), (0, 2500)], payer={"tax_code": FIRM})), [(6, 15, "X" * 15)], PLAIN, NEVER)
damaged("a-blank-name-stays", plain(name=" " * 20), [(8, 53, "X" * 15)], PLAIN, NEVER)

# --- 27: the length of the list ---------------------------------------------------------------------------------------
SHORT = "02, ask 6: 27 when the lent list is too short; nothing is written"
ROOM = "02, ask 6: a list of length L has room for L / 2 fields; the numbers behind those listed stay"
ONE, TAIL, FOUR = [(6, 46, "000000000012500")], [(8, 46, "0000000"), (8, 53, "0" * 15), (8, 83, "0000000")], [(6, 15, " " * 15), (6, 30, " " * 15), (6, 45, " "), (6, 46, " " * 15)]
for word, damage, short, enough in (("one-field", ONE, (0, 1), (2, 3, 4)), ("three-fields", TAIL, (0, 1, 4, 5), (6, 7, 8, ENOUGH)), ("four-fields", FOUR, (2, 6, 7), (8, LONGEST))):
    for length in short:
        refused("27-%s-in-%d" % (word, length), hurt(plain(), *damage), no(27, 0, 0), SHORT, length)
    for length in enough:
        damaged("%s-in-%d" % (word, length), plain(), damage, PLAIN, ROOM, length)
refused("27-all-fields-in-44", hurt(full(), *every("digits")), no(27, 0, 0), SHORT + ": 23 fields, and room for 22", 44)
refused("27-all-fields-in-45", hurt(full(), *every("blank")), no(27, 0, 0), SHORT + ": 23 fields, and the odd number is no room", 45)
refused("27-a-sign-alone-in-1", full().put(18, 43, "N"), no(27, 0, 0), SHORT + "; a sign is a field of its own", 1)
refused("27-raised-line-in-6", SAMPLES["raised-line.f24"], no(27, 0, 0), SHORT + ": four fields, and room for three", 6)

# --- 23, and 27 after it ----------------------------------------------------------------------------------------------
FITS = "02, ask 6: then 23: a stored total, balance or sum has more digits than its field"
TOO_MUCH = {"erario": flow(delega(erario=[(MOST, 0), (1, 2)])), "inps": flow(delega(inps=[(MOST, 0), (1, 2)])), "regioni": flow(delega(regioni=[(MOST, 0), (1, 2)])),
            "imu": flow(delega(imu=[(MOST, 0), (1, 2)])), "ident": flow(delega(ident=[(MOST, 0), (1, 0)]))}
for section, built in TOO_MUCH.items():
    what = ": a balance of sixteen digits" if section == "ident" else ": a total debit of sixteen, though the balance would fit"
    refused("23-debits-" + section, built, no(23, 0, 0), FITS + what, ENOUGH)
refused("23-total-credit", flow(delega(erario=[(MOST, 0)], inps=[(1, 0)], imu=[(1, MOST), (0, 1)])), no(23, 0, 0),
        FITS + ": a total credit, though the balance, N 999999999999999, and the final balance, 1, would fit", ENOUGH)
refused("23-final-balance", flow(delega(erario=[(MOST, 0)], inps=[(1, 0)])), no(23, 0, 0), FITS + ": a final balance, though every section fits", ENOUGH)
refused("23-tail-sum", flow(delega(erario=[(MOST, 0)]), delega(ident=[(1, 0)])), no(23, 0, 0), FITS + ": the tail's sum, though every delega fits", ENOUGH)
refused("23-in-the-second-of-three", flow(delega(erario=[(1, 0)]), delega(imu=[(MOST, MOST), (1, 1)]), delega(erario=[(1, 0)])), no(23, 0, 0), FITS + ": any delega", ENOUGH)
refused("23-damaged-before-and-behind", hurt(flow(delega(erario=[(1, 0)]), delega(imu=[(MOST, 0), (1, 1)]), delega(erario=[(1, 0)])), (5, 13, "X"), (11, 17, "X"), (16, 13, "X"), (18, 46, "X")),
        no(23, 0, 0), FITS, ENOUGH)
TWENTY_THREE = flow(delega(regioni=[(MOST, 0), (1, 0)]))
for length in (0, 1, 4):
    refused("23-before-27-in-%d" % length, hurt(TWENTY_THREE, (6, 45, "N")), no(23, 0, 0), "02, ask 6: 23, then 27: the list is too short as well", length)
refused("27-not-before-23-all-damaged", hurt(TWENTY_THREE, (6, 15, "X" * 46), (7, 36, "X" * 15), (8, 46, "X" * 22), (8, 83, "X" * 7)), no(23, 0, 0), "02, ask 6: 23, then 27", 0)

# --- What still stops it: with damaged totals before it and behind it -------------------------------------------------
STILL = "02, ask 6: the first remaining fault of 01's checks; nothing is written"


def bad():
    """The flow of every kind of record with each of its 23 stored fields damaged, by letters and by digits."""
    return hurt(full(), *every("digits"), (5, 13, "X"), (7, 28, " "), (9, 46, "-"), (11, 17, " "), (12, 36, "X" * 15), (18, 44, " "), (20, 46, "X"), (20, 83, "X"))


# 1 and 2
refused("1-of-65521-bytes", hurt(LONG, (32, 44, "X"), (546, 53, "X")).bytes_after(b" "), no(1, 0, 0), STILL + ": more than 65,520 bytes")
refused("2-of-no-bytes", b"", no(2, 0, 0), STILL + ": no bytes")
refused("2-of-119-bytes", bytes(bad())[:119], no(2, 0, 0), STILL + ": not a multiple of 120")
refused("2-of-one-byte-too-many", bad().bytes_after(b"\n"), no(2, 0, 0), STILL + ": not a multiple of 120")
# 3, in rewritten fields too
THREE_TOO = STILL + ": 3 in a rewritten field too, for it covers all 120 bytes"
for word, record, position in (("total-debit", 5, 13), ("end-of-a-total-credit", 7, 42), ("sign", 9, 45), ("balance", 11, 55), ("final-balance", 12, 50), ("40-18-sign", 18, 43),
                               ("tail-deleghe", 20, 46), ("tail-sum", 20, 67), ("tail-records", 20, 89)):
    refused("3-in-" + word, bad().put(record, position, b"\xe8"), no(3, record, position), THREE_TOO)
refused("3-in-a-sound-flow-but-for-a-total", full().put(9, 20, b"\x1f"), no(3, 9, 20), THREE_TOO, ENOUGH)
refused("3-first-of-two", bad().put(9, 60, b"\x7f").put(9, 30, b"\x80"), no(3, 9, 30), STILL + ": the first such byte of the record")
refused("3-in-40-18-where-totals-would-be", bad().put(18, 20, b"\t"), no(3, 18, 20), STILL + ": fillers included")
refused("3-in-a-filler-of-the-tail", bad().put(20, 120, b"\n"), no(3, 20, 120), STILL)
refused("3-before-4", bad().put(9, 2, "99").put(9, 90, b"\xff"), no(3, 9, 90), "01: within a record the checks in the order of their numbers")
# 4, 5, 6
refused("4-no-20", bad().drop(16), no(4, 16, 2), STILL)
refused("4-no-balance", bad().drop(9), no(4, 9, 11), STILL)
refused("4-another-balance", bad().put(9, 11, "08"), no(4, 9, 11), STILL)
refused("4-a-section-twice", bad().insert(6, *deepcopy(full().records[3:5])), no(4, 6, 11), STILL)
refused("4-elements-beside-others", bad().insert(12, deepcopy(full().records[16])), no(4, 12, 2), STILL)
refused("4-behind-the-tail", bad().add(bytearray(b" " * 120)), no(4, 21, 2), STILL)
refused("4-no-delega", bad().drop(2, 18), no(4, 2, 2), STILL + ": the tail would be right without any")
refused("4-before-7", bad().put(9, 11, "08").put(9, 4, "X"), no(4, 9, 11), "01: within a record the checks in the order of their numbers")
refused("5-no-tail", bad().keep(19), no(5, 20, 0), STILL + ": 5 after all records have passed")
refused("5-within-a-section", bad().keep(8), no(5, 9, 0), STILL)
refused("5-a-head-alone", bad().keep(1), no(5, 2, 0), STILL)
FIVE = flow(delega(erario=[(9, 1)], regioni=[(1, 0)] * 5, imu=[(2, 0)]))
refused("6-a-fifth-line", hurt(FIVE, (5, 13, "X"), (11, 15, "X"), (13, 17, "X"), (15, 46, "X")), no(6, 10, 11), STILL)
refused("6-a-29th-element", hurt(flow(delega(erario=[(9, 1)]), delega(ident=[(1, 0)] * 29)), (5, 13, "X"), (38, 44, "X"), (40, 46, "X")), no(6, 37, 11), STILL)
# 7 in fields that are kept
KEPT_FIELDS = STILL + ": 7 in a field that is not rewritten; ask 5: at the first non-digit's own position"
refused("7-date", bad().put(1, 14, "1O0625"), no(7, 1, 15), KEPT_FIELDS)
for record, kind in ((2, "10"), (3, "20"), (4, "40-01"), (5, "40-02"), (7, "40-04"), (9, "40-06"), (11, "40-08"), (12, "50-01"), (13, "50-02"), (14, "50-03"), (15, "second-10"), (18, "40-18")):
    refused("7-number-of-" + kind, bad().put(record, 4, "00000 1"), no(7, record, 9), KEPT_FIELDS)
for record, kind, debit, credit in ((4, "40-01", 27, 42), (6, "40-03", 52, 67), (8, "40-05", 29, 44), (10, "40-07", 31, 46), (17, "40-17", 41, 56)):
    refused("7-debit-of-" + kind, bad().put(record, debit, "00000000001000 "), no(7, record, debit + 14), KEPT_FIELDS)
    refused("7-credit-of-" + kind, bad().put(record, credit, "-"), no(7, record, credit), KEPT_FIELDS)
refused("7-debit-before-credit", bad().put(8, 29, "X" * 30), no(7, 8, 29), KEPT_FIELDS)
refused("7-before-8", bad().put(8, 4, "0000009").put(8, 58, "X"), no(7, 8, 58), "Decision: all numeric fields of a record are tested before any is compared")
# 8
for record, kind in ((2, "10"), (3, "20"), (8, "40-05"), (9, "40-06"), (12, "50-01"), (13, "50-02"), (14, "50-03")):
    refused("8-in-" + kind, bad().put(record, 4, "0000002"), no(8, record, 4), STILL)
refused("8-in-the-second-10", bad().put(15, 4, "0000003"), no(8, 15, 4), STILL)
refused("8-in-40-18", bad().put(18, 4, "0000001"), no(8, 18, 4), STILL)
refused("8-before-9", bad().put(8, 4, "0000002").put(8, 29, "0" * 30), no(8, 8, 4), "01: within a record the checks in the order of their numbers")
# 9
for record, kind, debit in ((4, "40-01", 27), (6, "40-03", 52), (8, "40-05", 29), (10, "40-07", 31), (17, "40-17", 41)):
    refused("9-nothing-in-" + kind, bad().put(record, debit, "0" * 30), no(9, record, debit), STILL)
refused("9-credit-in-40-17", bad().put(17, 56, "000000000000001"), no(9, 17, 56), STILL)
# 14
LOSS = STILL + ": the lines decide, whatever is stored"
refused("14-by-a-cent", bad().put(4, 42, "000000000088001"), no(14, 12, 2), LOSS)
ZERO_LEFT = flow(delega(**{**ITS_LINES, "erario": [(10000, 88000)]}, after=2), delega(ident=[(60000, 0)]))
mended("14-not-at-zero", full().put(4, 42, "000000000088000"), hurt(ZERO_LEFT, (12, 79, "000000000014000")), [(5, 28), (5, 43), (5, 44), (12, 36), (20, 53)],
       yes(2, 20, 60000, 5, erario=(10000, 88000), inps=(20000, 3000), regioni=(30000, 4000), imu=(40000, 5000), ident=(60000, 0)), "01, Delega: zero is allowed")
refused("14-a-credit-raised-after-balancing", plain().put(5, 44, "000000000010001"), no(14, 7, 2), LOSS, ENOUGH)
refused("14-before-23", flow(delega(erario=[(MOST, 0)], regioni=[(0, MOST), (0, 1)])), no(14, 9, 2), "02, ask 6: the first remaining fault, then 23")
refused("14-no-other-delega-makes-up", hurt(flow(delega(erario=[(9, 0)]), delega(imu=[(1, 2)]), delega(erario=[(9, 0)])), (5, 43, "X"), (10, 47, "P"), (17, 46, "X")), no(14, 11, 2), LOSS)
refused("8-before-14", bad().put(4, 42, "000000000088001").put(12, 4, "0000002"), no(8, 12, 4), "01: within a record the checks in the order of their numbers")
# 16 and 17
refused("16-slash", bad().put(1, 20, "F24/"), no(16, 1, 20), STILL)
refused("16-colon", bad().put(1, 39, ":").put(20, 39, ":"), no(16, 1, 20), STILL)
refused("16-the-tail-has-another", bad().put(20, 39, "X"), no(16, 20, 20), STILL + ": the tail's name is not worked out")
refused("16-the-tail-has-none", full().put(20, 20, " " * 20).put(20, 46, "0000009"), no(16, 20, 20), STILL + ": the tail's name is not worked out", ENOUGH)
refused("17-no-such-day", bad().put(1, 14, "310215"), no(17, 1, 14), STILL)
refused("16-before-17", bad().put(1, 14, "310215").put(1, 20, ":"), no(16, 1, 20), "01: within a record the checks in the order of their numbers")
# 26
refused("26-in-the-first-delega", bad().put(2, 11, WRONG_CODE), no(26, 2, 11), STILL)
refused("26-in-the-second-delega", bad().put(15, 11, WRONG_CODE), no(26, 15, 11), STILL)
refused("8-before-26", bad().put(15, 11, WRONG_CODE).put(15, 4, "0000001"), no(8, 15, 4), "02, ask 2: 26 after 8 in the same record")
# by record, not by number; 5 and every fault before 23 and 27
FIRST = "01: the first by record, not the first by number over the whole flow"
refused("17-before-a-later-3", bad().put(1, 14, "310215").put(9, 15, b"\xe8"), no(17, 1, 14), FIRST)
refused("26-before-a-later-8", bad().put(2, 11, WRONG_CODE).put(3, 4, "0000009"), no(26, 2, 11), FIRST)
refused("9-before-a-later-4", bad().put(6, 52, "0" * 30).put(9, 11, "08"), no(9, 6, 52), FIRST)
refused("16-of-the-tail-before-23", hurt(TWENTY_THREE, (8, 39, "X")), no(16, 8, 20), "02, ask 6: the first remaining fault, then 23", ENOUGH)
refused("5-before-23", deepcopy(TWENTY_THREE).keep(7), no(5, 8, 0), "02, ask 6: the first remaining fault, then 23", ENOUGH)
for length in (0, 1):
    refused("5-before-27-in-%d" % length, bad().keep(19), no(5, 20, 0), "02, ask 6: the first remaining fault, and 27 last", length)
    refused("16-before-27-in-%d" % length, bad().put(20, 20, "X"), no(16, 20, 20), "02, ask 6: the first remaining fault, and 27 last", length)
