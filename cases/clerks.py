"""Two clerks, two lines: pairs of corrections of different lines of one flow, one after the other, in both orders. The plain corrections, what is then reported of another
delega, and the record of sums kept beside the flow."""

from case import no, one, yes
from correction import SECTION_OF, Told, made, refused
from corrections import ALL, BESIDE, EVERY, IDENT, MOST, OVER, PLAIN, THREE
from keeping import OTHER, Series, ten
from readings import DELEGA, call

# A clerk is a line and its new amounts: ((delega, subtype, place), (debit, credit)).


def end_of(told, *clerks):
    """The flow that is told with the amounts of all of them, the last one's where they have one line."""
    for (number, subtype, place), amounts in clerks:
        told = told.anew(number, SECTION_OF[subtype], place, *amounts)
    return told


def different(name, told, a, b):
    """The end of a pair: two lines, and whichever is told first, one flow. Gives it."""
    assert a[0] != b[0], name
    end = bytes(end_of(told, a, b).built())
    assert end == bytes(end_of(told, b, a).built()), name
    return end


def pair(name, told, a, b, after_a, after_b, end, why):
    """Four calls, none of them refused: A, B on what A left; B, A on what B left. The answers are those of the flow after each, and `end` that of both ends."""
    bytes_expected = different(name, told, a, b)
    for first, second, order, after in ((a, b, "a-then-b", after_a), (b, a, "b-then-a", after_b)):
        left = made("clerks-%s-%s" % (name, order[0]), told, *first, after, why)
        left = made("clerks-%s-%s" % (name, order), left, *second, end, why)
        assert bytes(left.built()) == bytes_expected, name


def one_order(name, told, a, b, refusal, after_a, end, why):
    """Three calls, which are B, A and B again: B is refused on the flow, A is made on it, and B on what A left. The end is that of A and then B."""
    refused("clerks-%s-b" % name, told, *b, refusal, why)
    left = made("clerks-%s-a" % name, told, *a, after_a, why)
    left = made("clerks-%s-a-then-b" % name, left, *b, end, why)
    assert bytes(left.built()) == different(name, told, a, b), name


def neither(name, told, a, b, after_a, after_b, refusal, why):
    """Four calls: each is made on the flow, and refused on what the other one left."""
    different(name, told, a, b)
    for first, second, order, after in ((a, b, "a-then-b", after_a), (b, a, "b-then-a", after_b)):
        left = made("clerks-%s-%s" % (name, order[0]), told, *first, after, why)
        refused("clerks-%s-%s" % (name, order), left, *second, refusal, why)


def every(total, **others):
    """The answer of the flow of every kind of record, with other sums of some sections."""
    return yes(2, 20, total, 5, **{**dict(erario=(10000, 2000), inps=(20000, 3000), regioni=(30000, 4000), imu=(40000, 5000), ident=(60000, 0)), **others})


# --- Both made in either order: where the lines are ---------------------------------------------------------------------
AGREE = "02, ask 13: if both corrections are made in either order, and none is refused in either, the two ends agree byte for byte"
# Of 10000 and 2500: 12000 - 2500, 10000 - 3000, 12000 - 3000.
SECTION = (PLAIN, ((1, 5, 1), (12000, 0)), ((1, 5, 2), (0, 3000)),
           yes(1, 8, 9500, 2, regioni=(12000, 2500)), yes(1, 8, 7000, 2, regioni=(10000, 3000)), yes(1, 8, 9000, 2, regioni=(12000, 3000)))
pair("one-section", *SECTION, AGREE + ": neighbours in one section, which share all that is stored")
# Of 28 * 1000: 4000 more, 999 less.
pair("place-alone", IDENT, ((1, 17, 1), (5000, 0)), ((1, 17, 28), (1, 0)),
     yes(1, 34, 32000, 28, ident=(32000, 0)), yes(1, 34, 27001, 28, ident=(27001, 0)), yes(1, 34, 31001, 28, ident=(31001, 0)),
     AGREE + ": names that differ in the place alone, in a section without totals")
# Of 146000: 8000 becomes 14000, and 35000 becomes -5000.
pair("subtype-alone", ALL, ((1, 1, 1), (15000, 1000)), ((1, 7, 1), (0, 5000)),
     every(152000, erario=(15000, 1000)), every(106000, imu=(0, 5000)), every(112000, erario=(15000, 1000), imu=(0, 5000)),
     AGREE + ": two sections of one delega, names that differ in the subtype alone")
# Of 50, 150 and 402: 50 becomes 0, 150 becomes 1150.
pair("delega-alone", THREE, ((1, 5, 1), (50, 50)), ((2, 5, 1), (1200, 50)),
     yes(3, 21, 552, 4, regioni=(653, 101)), yes(3, 21, 1602, 4, regioni=(1703, 101)), yes(3, 21, 1552, 4, regioni=(1653, 101)),
     AGREE + ": two deleghe, which share the sum in EF; names that differ in the delega alone")
# Six lines of (1000, 100), of which two become (1, 0). After either the sums are 5001 and 500.
pair("lines-alike", Told(dict(erario=[(1000, 100)] * 6)), ((1, 1, 3), (1, 0)), ((1, 1, 4), (1, 0)),
     yes(1, 12, 4501, 6, erario=(5001, 500)), yes(1, 12, 4501, 6, erario=(5001, 500)), yes(1, 12, 3602, 6, erario=(4002, 400)),
     AGREE + ": neighbours with the same amounts before and the same afterwards")
# 476 lines of 10000: 9999 less, 1 more.
pair("546-records", Told(*[dict(ident=[(10000, 0)] * 28)] * 17), ((1, 17, 1), (1, 0)), ((17, 17, 28), (10001, 0)),
     yes(17, 546, 4750001, 476, ident=(4750001, 0)), yes(17, 546, 4760001, 476, ident=(4760001, 0)), yes(17, 546, 4750002, 476, ident=(4750002, 0)),
     AGREE + ": the first and the last line of 546 records")
UNREAD = AGREE + "; 01, What a correction may touch: nothing else, fillers and unread fields included"
# Of 146000: 17000 becomes 1, 26000 becomes 0.
pair("filled-two-sections", Told(*EVERY, fill="~"), ((1, 3, 1), (1, 0)), ((1, 5, 1), (4000, 4000)),
     every(129001, inps=(1, 0)), every(120000, regioni=(4000, 4000)), every(103001, inps=(1, 0), regioni=(4000, 4000)), UNREAD)
# Of 146000: 35000 becomes -1, 60000 becomes 7.
DELEGHE = (((1, 7, 1), (0, 1)), ((2, 17, 1), (7, 0)), every(110999, imu=(0, 1)), every(86007, ident=(7, 0)), every(51006, imu=(0, 1), ident=(7, 0)))
pair("filled-two-deleghe", Told(*EVERY, fill="9"), *DELEGHE, UNREAD + "; the last line of a delega and the first of the next")

# --- Both made in either order: what is stored between and in the end ----------------------------------------------------
SIGN = AGREE + "; 01, Sections: N when debits are below credits, P in all other cases, zero included"
# Erario 20000 beside Regioni of 10000 and 2500: N 1500 after A, P 9500 after B, P 500.
pair("n-between", BESIDE, ((1, 5, 1), (1000, 0)), ((1, 5, 2), (0, 500)),
     yes(1, 10, 18500, 3, erario=(20000, 0), regioni=(1000, 2500)), yes(1, 10, 29500, 3, erario=(20000, 0), regioni=(10000, 500)),
     yes(1, 10, 20500, 3, erario=(20000, 0), regioni=(1000, 500)), SIGN)
# Erario 20000 beside Regioni of 1000 and 2500, which is N 1500: zero after either, P 1500.
pair("zero-between", Told(dict(erario=[(20000, 0)], regioni=[(1000, 0), (0, 2500)])), ((1, 5, 1), (2500, 0)), ((1, 5, 2), (0, 1000)),
     yes(1, 10, 20000, 3, erario=(20000, 0), regioni=(2500, 2500)), yes(1, 10, 20000, 3, erario=(20000, 0), regioni=(1000, 1000)),
     yes(1, 10, 21500, 3, erario=(20000, 0), regioni=(2500, 1000)), SIGN)
# N 2000 after A, P 9500 after B, zero.
pair("zero-at-the-end", BESIDE, ((1, 5, 1), (500, 0)), ((1, 5, 2), (0, 500)),
     yes(1, 10, 18000, 3, erario=(20000, 0), regioni=(500, 2500)), yes(1, 10, 29500, 3, erario=(20000, 0), regioni=(10000, 500)),
     yes(1, 10, 20000, 3, erario=(20000, 0), regioni=(500, 500)), SIGN)
EDGE = AGREE + ": the very last that is not refused"
HALF = ((1, 5, 1), (5000, 0))
pair("delega-zero", PLAIN, HALF, ((1, 5, 2), (0, 5000)),
     yes(1, 8, 2500, 2, regioni=(5000, 2500)), yes(1, 8, 5000, 2, regioni=(10000, 5000)), yes(1, 8, 0, 2, regioni=(5000, 5000)),
     EDGE + "; 01, Delega: zero is allowed")
SMALL, LARGE = Told(dict(regioni=[(1, 0), (2, 0)])), ((1, 5, 1), (999999999999000, 0))
LARGE_MADE = yes(1, 8, 999999999999002, 2, regioni=(999999999999002, 0))
pair("nines-in-a-section", SMALL, LARGE, ((1, 5, 2), (999, 0)), LARGE_MADE, yes(1, 8, 1000, 2, regioni=(1000, 0)), yes(1, 8, MOST, 2, regioni=(MOST, 0)),
     EDGE + "; 01: 999,999,999,999,999 is the largest")
# Erario fifteen nines beside Regioni credits of 1 and 2: their total and their balance, N, are fifteen nines in the end, and the delega is 0.
pair("nines-in-a-credit", Told(dict(erario=[(MOST, 0)], regioni=[(0, 1), (0, 2)])), ((1, 5, 1), (0, 999999999999000)), ((1, 5, 2), (0, 999)),
     yes(1, 10, 997, 3, erario=(MOST, 0), regioni=(0, 999999999999002)), yes(1, 10, 999999999998999, 3, erario=(MOST, 0), regioni=(0, 1000)),
     yes(1, 10, 0, 3, erario=(MOST, 0), regioni=(0, MOST)), EDGE + "; 01: 999,999,999,999,999 is the largest, and zero is allowed")
APART, SIX = Told(dict(erario=[(1, 0)]), dict(imu=[(2, 0)])), ((1, 1, 1), (600000000000000, 0))
SIX_MADE = yes(2, 12, 600000000000002, 2, erario=(600000000000000, 0), imu=(2, 0))
pair("nines-in-the-tail", APART, SIX, ((2, 7, 1), (399999999999999, 0)), SIX_MADE, yes(2, 12, 400000000000000, 2, erario=(1, 0), imu=(399999999999999, 0)),
     yes(2, 12, MOST, 2, erario=(600000000000000, 0), imu=(399999999999999, 0)), EDGE + "; 01: 999,999,999,999,999 is the largest")
# Of 100 and 10: a cent more, a cent less.
pair("sums-as-before", Told(dict(imu=[(60, 0), (40, 10)])), ((1, 7, 1), (61, 0)), ((1, 7, 2), (39, 10)),
     yes(1, 8, 91, 2, imu=(101, 10)), yes(1, 8, 89, 2, imu=(99, 10)), yes(1, 8, 90, 2, imu=(100, 10)), AGREE + ": all that is stored goes back to what it was")
pair("same-amounts", THREE, ((3, 5, 1), (401, 0)), ((3, 5, 2), (3, 1)),
     yes(3, 21, 603, 4, regioni=(704, 101)), yes(3, 21, 602, 4, regioni=(703, 101)), yes(3, 21, 603, 4, regioni=(704, 101)),
     AGREE + "; 01: new amounts equal to the old leave every byte equal, here those of B")

# --- One order is refused where the other isn't --------------------------------------------------------------------------
EITHER = "02, ask 13: one order may be refused where the other isn't"
# 10000 - 12000 is negative; 20000 - 2500, then 20000 - 12000.
NEGATIVE = (PLAIN, ((1, 5, 1), (20000, 0)), ((1, 5, 2), (0, 12000)), no(14, 0, 0), yes(1, 8, 17500, 2, regioni=(20000, 2500)), yes(1, 8, 8000, 2, regioni=(20000, 12000)))
one_order("14", *NEGATIVE, EITHER + "; 01, refusal 14: delega negative")
TOO_LARGE = EITHER + "; 01, refusal 23: a new stored total, balance or sum has more digits than its field; here %s"
# First total debit 10^15, total credit 15, balance 999999999999985. In the end fifteen nines, 15 and 999999999999984.
one_order("23-total-debit", Told(dict(regioni=[(MOST, 5), (0, 1)])), ((1, 5, 1), (999999999999998, 5)), ((1, 5, 2), (1, 10)), no(23, 0, 0),
          yes(1, 8, 999999999999992, 2, regioni=(999999999999998, 6)), yes(1, 8, 999999999999984, 2, regioni=(MOST, 15)), TOO_LARGE % "a total debit alone")
# First total credit 10^15, total debit 6, balance N 999999999999994, final balance 5. In the end fifteen nines, 6, N 999999999999993 and 6.
one_order("23-total-credit", Told(dict(erario=[(MOST, 0)], imu=[(5, MOST), (1, 0)])), ((1, 7, 1), (5, 999999999999998)), ((1, 7, 2), (1, 1)), no(23, 0, 0),
          yes(1, 10, 7, 3, erario=(MOST, 0), imu=(6, 999999999999998)), yes(1, 10, 6, 3, erario=(MOST, 0), imu=(6, MOST)), TOO_LARGE % "a total credit alone")
one_order("23-balance-of-17", Told(dict(ident=[(999999999999998, 0), (1, 0)])), ((1, 17, 1), (999999999999997, 0)), ((1, 17, 2), (2, 0)), no(23, 0, 0),
          yes(1, 8, 999999999999998, 2, ident=(999999999999998, 0)), yes(1, 8, MOST, 2, ident=(MOST, 0)),
          TOO_LARGE % "the balance of section 17, which has no totals, and with it the final balance and EF's sum")
one_order("23-final-balance", Told(dict(erario=[(MOST, 0)], inps=[(1, 1)])), ((1, 1, 1), (999999999999998, 0)), ((1, 3, 1), (1, 0)), no(23, 0, 0),
          yes(1, 9, 999999999999998, 2, erario=(999999999999998, 0), inps=(1, 1)), yes(1, 9, MOST, 2, erario=(999999999999998, 0), inps=(1, 0)),
          TOO_LARGE % "a final balance, and with it EF's sum")
one_order("23-tail-sum", Told(dict(erario=[(MOST, 0)]), dict(imu=[(1, 1)])), ((1, 1, 1), (999999999999998, 0)), ((2, 7, 1), (1, 0)), no(23, 0, 0),
          yes(2, 12, 999999999999998, 2, erario=(999999999999998, 0), imu=(1, 1)), yes(2, 12, MOST, 2, erario=(999999999999998, 0), imu=(1, 0)),
          TOO_LARGE % "EF's sum alone, so that the other delega's clerk makes room")

# --- Each is made by itself, and refused behind the other ----------------------------------------------------------------
TOGETHER = "02, ask 13: none is refused in either, which is not so here: each by itself is made, and the two together are "
neither("14-together", PLAIN, HALF, ((1, 5, 2), (0, 5001)), yes(1, 8, 2500, 2, regioni=(5000, 2500)), yes(1, 8, 4999, 2, regioni=(10000, 5001)),
        no(14, 0, 0), TOGETHER + "negative by a cent, 5000 - 5001")
neither("23-together", SMALL, LARGE, ((1, 5, 2), (1000, 0)), LARGE_MADE, yes(1, 8, 1001, 2, regioni=(1001, 0)), no(23, 0, 0), TOGETHER + "too large by a cent for a total")
neither("23-together-in-the-tail", APART, SIX, ((2, 7, 1), (400000000000000, 0)), SIX_MADE,
        yes(2, 12, 400000000000001, 2, erario=(1, 0), imu=(400000000000000, 0)), no(23, 0, 0), TOGETHER + "too large by a cent for EF's sum, in two deleghe")
# Together a total credit of 10^15 against debits of fifteen nines.
neither("14-before-23-together", Told(dict(erario=[(MOST, 0)], regioni=[(0, 1), (1, 0)])), ((1, 5, 1), (0, MOST)), ((1, 5, 2), (0, 1)),
        yes(1, 10, 1, 3, erario=(MOST, 0), regioni=(1, MOST)), yes(1, 10, 999999999999997, 3, erario=(MOST, 0), regioni=(0, 2)),
        no(14, 0, 0), TOGETHER + "both negative and too large; 01: a correction tries 14 before 23")

# --- One is refused in both orders, and leaves the other one's correction ------------------------------------------------
LEAVES = "02, ask 13: none is refused in either, which is not so here; 01: every refusal leaves lent memory as it came"
for refusal, line, amounts in ((21, (1, 5, 3), (1, 0)), (22, (1, 5, 2), (0, OVER)), (9, (1, 5, 2), (0, 0))):
    refused("clerks-%d-in-both-b" % refusal, PLAIN, line, amounts, no(refusal, 0, 0), LEAVES)
    left = made("clerks-%d-in-both-a" % refusal, PLAIN, (1, 5, 1), (12000, 0), yes(1, 8, 9500, 2, regioni=(12000, 2500)), LEAVES)
    refused("clerks-%d-in-both-a-then-b" % refusal, left, line, amounts, no(refusal, 0, 0), LEAVES)

# --- As control: the same line twice -------------------------------------------------------------------------------------
LAST_STANDS = "02, ask 13: different lines, which is not so here: of one line the last amounts stand, and the two ends differ"
TWELVE, THIRTEEN = (12000, 0, yes(1, 8, 9500, 2, regioni=(12000, 2500))), (13000, 0, yes(1, 8, 10500, 2, regioni=(13000, 2500)))
ends = []
for first, second, order in ((TWELVE, THIRTEEN, "a-then-b"), (THIRTEEN, TWELVE, "b-then-a")):
    left = made("clerks-same-line-" + order[0], PLAIN, (1, 5, 1), first[:2], first[2], LAST_STANDS)
    ends.append(bytes(made("clerks-same-line-" + order, left, (1, 5, 1), second[:2], second[2], LAST_STANDS).built()))
assert ends[0] != ends[1] and ends == [bytes(end_of(PLAIN, ((1, 5, 1), clerk[:2])).built()) for clerk in (THIRTEEN, TWELVE)]

# --- What is reported of another delega ----------------------------------------------------------------------------------
REPORTED = "02, ask 13: a correction in one delega leaves the sums reported for every other delega the same"


def reported(name, told, clerk, answers, own):
    """Each delega of `answers` before the correction and after it: the same answer. `own` are those of the delega that is corrected, before and after: two answers."""
    assert {answer.number for answer in answers} | {clerk[0][0]} == set(range(1, len(told.plain.deleghe) + 1)), name
    assert all(answer.number != clerk[0][0] == mine.number for answer in answers for mine in own), name
    for word, flow, mine in zip(("before", "after"), (told, end_of(told, clerk)), own):
        for answer in (*answers, mine):
            call("clerks-%s-delega-%d-%s" % (name, answer.number, word), DELEGA, [answer.number], flow.built(), answer,
                 REPORTED if answer is not mine else "02, ask 13: every other delega; as control that of the correction itself")


reported("three", THREE, ((2, 5, 1), (1200, 50)), (one(1, 50, 1, 4, 1, regioni=(100, 50)), one(3, 402, 2, 4, 1, regioni=(403, 1))),
         (one(2, 150, 1, 4, 1, regioni=(200, 50)), one(2, 1150, 1, 4, 1, regioni=(1200, 50))))
reported("before-17", ALL, ((1, 5, 1), (5000, 4000)), (one(2, 60000, 1, 16, 1, ident=(60000, 0)),),
         (one(1, 86000, 4, 15, 4, erario=(10000, 2000), inps=(20000, 3000), regioni=(30000, 4000), imu=(40000, 5000)),
          one(1, 61000, 4, 15, 4, erario=(10000, 2000), inps=(20000, 3000), regioni=(5000, 4000), imu=(40000, 5000))))
reported("alike", Told(*[dict(imu=[(100, 50), (7, 0)])] * 2), ((2, 7, 2), (0, 9)), (one(1, 57, 2, 8, 1, imu=(107, 50)),),
         (one(2, 57, 2, 8, 1, imu=(107, 50)), one(2, 41, 2, 8, 1, imu=(100, 59))))

# --- With the sums kept beside the flow ----------------------------------------------------------------------------------
KEPT = AGREE + "; 02, ask 10: the kept sums equal those of the lines, so that one record stands in both ends"


def kept_pair(name, told, answer, a, b, after_a, after_b, end, why):
    """The four calls of a pair as two series with the record, and the record that is made from the end."""
    both = [Series("clerks-%s-%s" % (name, order), told.built(), answer, why).correct(*first, after).correct(*second, end)
            for first, second, order, after in ((a, b, "a-then-b", after_a), (b, a, "b-then-a", after_b))]
    both.append(Series("clerks-%s-end" % name, end_of(told, a, b).built(), end, why))
    assert {(bytes(series.built), series.record) for series in both} == {(different(name, told, a, b), both[0].record)}, name


PLAIN_MADE = yes(1, 8, 7500, 2, regioni=(10000, 2500))
kept_pair("one-section", PLAIN, PLAIN_MADE, *SECTION[1:], KEPT)
kept_pair("two-deleghe", ALL, every(146000), *DELEGHE, KEPT)
FIRST_REFUSED = EITHER + "; 02, ask 10: after any series of these, refused ones included, the kept sums equal those of the lines"
_, A, B, REFUSAL, AFTER_A, END = NEGATIVE
ab = Series("clerks-14-a-then-b", PLAIN.built(), PLAIN_MADE, FIRST_REFUSED).correct(*A, AFTER_A).correct(*B, END)
bab = Series("clerks-14-b-then-a-then-b", PLAIN.built(), PLAIN_MADE, FIRST_REFUSED).correct(*B, REFUSAL).correct(*A, AFTER_A).correct(*B, END)
assert (bytes(ab.built), ab.record) == (bytes(bab.built), bab.record)
# B has the record of before A's correction; then the one that A's handed back.
(Series("clerks-record-of-before", PLAIN.built(), PLAIN_MADE, "02, ask 10: 29 for a call with sums that don't match the flow; ask 13: one after the other")
    .correct(*SECTION[1], SECTION[3])
    .correct(*SECTION[2], OTHER, ten(regioni=(10000, 2500)))
    .correct(*SECTION[2], SECTION[5], ten(regioni=(12000, 2500))))
