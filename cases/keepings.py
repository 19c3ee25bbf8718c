"""Sums kept beside the flow: the record made from it, what each call hands back, records that do not stand for the flow, 29 before every other refusal of a call,
and series of calls. Refusals of the judgement are in keeping_faults.py."""

from case import Accepted, no, yes
from common import fill_unread, full, plain
from droppings import E, FIVE, I, M, MANY, R, THREE, X, marked
from flow import delega, flow
from keeping import OTHER, Series, record_of, ten
from rebalancings import ALL as FIELDS, TOO_MUCH, every as damage, hurt, less
from samples import SAMPLES, regional_tax

MOST = 999999999999999          # fifteen nines
OVER = 1000000000000000         # the least amount of sixteen digits
LAST = 18446744073709551615     # the largest number of 64 bits

# 01's printed whole case.
PLAIN = yes(1, 8, 7500, 2, regioni=(10000, 2500))
# The flow of every kind of record, of common.py, and its record. Final balances 86000 and 60000; without the second delega it has 15 records.
FOUR = {"erario": (10000, 2000), "inps": (20000, 3000), "regioni": (30000, 4000), "imu": (40000, 5000)}
SUMS = (10000, 2000, 20000, 3000, 30000, 4000, 40000, 5000, 60000, 0)


def every(total, **others):
    """Its answer, with other sums of some sections."""
    return yes(2, 20, total, 5, **{**FOUR, "ident": (60000, 0), **others})


def first(total, **others):
    """That of its first delega alone."""
    return yes(1, 15, total, 4, **{**FOUR, **others})


EVERY, SECTION_17 = every(146000), yes(1, 7, 60000, 1, ident=(60000, 0))
assert record_of(EVERY) == SUMS
# Three deleghe of Regioni lines, of droppings.py: final balances 50, 150 and 402.
THREE_ANSWER = yes(3, 21, 602, 4, regioni=(703, 101))
# A section in each of five deleghe, of droppings.py: E, I, R, M and X are their sums.
FIVE_ANSWER = yes(5, 33, 14000, 5, erario=(1000, 100), inps=(2000, 200), regioni=(3000, 300), imu=(4000, 400), ident=(5000, 0))

# --- The record is made ------------------------------------------------------------------------------------------------
MADE = "02, ask 10: the ten section sums of the flow in a small record beside it, made when the flow is accepted"
Series("made-plain", plain(), PLAIN, MADE)
for section in FOUR:
    Series("made-" + section, flow(delega(**{section: [(700, 30), (5, 0)]})), yes(1, 8, 675, 2, **{section: (705, 30)}), MADE)
Series("made-ident", flow(delega(ident=[(700, 0), (5, 0)])), yes(1, 8, 705, 2, ident=(705, 0)), MADE)
Series("made-every-section", full(), EVERY, MADE)
Series("made-three-deleghe", flow(*THREE), THREE_ANSWER, MADE + ": over all its deleghe")
Series("made-a-section-in-each-of-five", flow(*FIVE), FIVE_ANSWER, MADE)
Series("made-546-records", flow(*MANY), yes(108, 546, 5886, 108, erario=(5886, 0)), MADE + "; 01: at most 546 records")
Series("made-signs-n", less(), yes(1, 13, 993, 4, erario=(1, 2), inps=(1, 3), regioni=(1, 4), imu=(1000, 1)), MADE + ": sums, not balances")
Series("made-balance-zero", flow(delega(imu=[(2500, 2500)])), yes(1, 7, 0, 1, imu=(2500, 2500)), MADE + ": sums, not balances")
Series("made-unread-nines", fill_unread(full(), "9"), EVERY, MADE + "; 01: fillers and other fields are not read")
Series("made-sample-all-sections", SAMPLES["all-sections.f24"],
       yes(2, 27, 1991543, 11, erario=(518316, 120050), inps=(656675, 0), regioni=(239302, 1500), imu=(163400, 0), ident=(535400, 0)), MADE)

# --- Corrections hand it back ------------------------------------------------------------------------------------------
BACK = "02, ask 10: handed back by each correction; the kept sums equal those of the lines"
SAME = "01: new amounts equal to the old leave every byte equal; 02, ask 10: the record is handed back"
for section, line, amounts, old, answer in (
        ("erario", (1, 1, 1), (15000, 1000), (10000, 2000), every(152000, erario=(15000, 1000))),
        ("inps", (1, 3, 1), (1, 0), (20000, 3000), every(129001, inps=(1, 0))),
        ("regioni", (1, 5, 1), (4000, 4000), (30000, 4000), every(120000, regioni=(4000, 4000))),
        ("imu", (1, 7, 1), (0, 5000), (40000, 5000), every(106000, imu=(0, 5000))),
        ("ident", (2, 17, 1), (7, 0), (60000, 0), every(86007, ident=(7, 0)))):
    Series("correct-%s-and-back" % section, full(), EVERY, BACK).correct(line, amounts, answer).correct(line, old, EVERY)
    Series("correct-%s-same-amounts" % section, full(), EVERY, SAME).correct(line, old, EVERY)
Series("correct-same-amounts-twice", plain(), PLAIN, SAME).correct((1, 5, 2), (0, 2500), PLAIN).correct((1, 5, 1), (10000, 0), PLAIN)
Series("correct-by-new-less-old", plain(), PLAIN, BACK + ": they change by new less old").correct((1, 5, 1), (10100, 0), yes(1, 8, 7600, 2, regioni=(10100, 2500)))
Series("correct-last-line-of-last-delega", flow(*THREE), THREE_ANSWER, BACK).correct((3, 5, 2), (0, 400), yes(3, 21, 200, 4, regioni=(700, 500)))
(Series("correct-a-sum-to-zero-and-from-zero", plain(), PLAIN, BACK)
    .correct((1, 5, 2), (1, 0), yes(1, 8, 10001, 2, regioni=(10001, 0)))
    .correct((1, 5, 2), (0, 1), yes(1, 8, 9999, 2, regioni=(10000, 1))))
Series("correct-to-the-largest", plain(), PLAIN, BACK).correct((1, 5, 1), (MOST, 0), yes(1, 8, 999999999997499, 2, regioni=(MOST, 2500)))
# Erario 20000 beside Regioni P 7500: the Regioni debit becomes a credit.
BESIDE = flow(delega(erario=[(20000, 0)], regioni=[(10000, 0), (0, 2500)]))
Series("correct-debit-becomes-credit", BESIDE, yes(1, 10, 27500, 3, erario=(20000, 0), regioni=(10000, 2500)), BACK).correct(
    (1, 5, 1), (0, 10000), yes(1, 10, 7500, 3, erario=(20000, 0), regioni=(0, 12500)))
ELSE = "; every other byte is the plain call's: fillers and unread fields stay"
Series("correct-unread-tildes", fill_unread(full(), "~"), EVERY, BACK + ELSE).correct(
    (1, 1, 1), (15000, 1000), every(152000, erario=(15000, 1000)), after=fill_unread(full().anew(1, "erario", 1, 15000, 1000), "~"))

# --- Sums of more than fifteen digits ----------------------------------------------------------------------------------
WHOLE = "Decision: a flow's section sums may need more than fifteen digits and are reported whole; 02, ask 10: so they are kept"
BOTH_SIDES, SIXTEEN = flow(*[delega(erario=[(MOST, MOST)])] * 3), yes(3, 17, 0, 3, erario=(2999999999999997, 2999999999999997))
(Series("sixteen-digits-down", BOTH_SIDES, SIXTEEN, WHOLE)
    .correct((2, 1, 1), (1, 1), yes(3, 17, 0, 3, erario=(1999999999999999, 1999999999999999)))
    .correct((1, 1, 1), (5, 4), yes(3, 17, 1, 3, erario=(1000000000000005, 1000000000000004)))
    .correct((3, 1, 1), (MOST, 0), no(23, 0, 0))
    .correct((3, 1, 1), (7, 0), yes(3, 17, 8, 3, erario=(13, 5))))
Series("sixteen-digits-up", flow(delega(imu=[(1, 1)]), delega(imu=[(MOST, MOST)])), yes(2, 12, 0, 2, imu=(OVER, OVER)), WHOLE).correct(
    (1, 7, 1), (MOST, MOST), yes(2, 12, 0, 2, imu=(1999999999999998, 1999999999999998)))
Series("sixteen-digits-rebalanced", hurt(BOTH_SIDES, (5, 43, "N"), (15, 44, "9" * 15)), no(12, 5, 43), WHOLE).rebalance(
    4, SIXTEEN, ten(erario=(2999999999999997, 2999999999999997)), [(5, 43), (15, 44)], BOTH_SIDES)
(Series("sixteen-digits-dropped", BOTH_SIDES, SIXTEEN, WHOLE)
    .drop([2], yes(2, 12, 0, 2, erario=(1999999999999998, 1999999999999998)))
    .drop([1], yes(1, 7, 0, 1, erario=(MOST, MOST))))
for word, side in (("cut-to-fifteen", 999999999999997), ("one-more", 2999999999999998), ("one-less", 2999999999999996)):
    (Series("29-sixteen-digits-" + word, BOTH_SIDES, SIXTEEN, WHOLE + "; nothing is reduced")
        .correct((1, 1, 1), (1, 1), OTHER, ten(erario=(side, side))).drop([1], OTHER).rebalance(0, OTHER))
MANY_LARGE = flow(*[delega(erario=[(MOST, MOST)])] * 108)
Series("eighteen-digits", MANY_LARGE, yes(108, 542, 0, 108, erario=(107999999999999892, 107999999999999892)), WHOLE).correct(
    (108, 1, 1), (1, 1), yes(108, 542, 0, 108, erario=(106999999999999894, 106999999999999894)))

# --- Rebalancings hand it back -----------------------------------------------------------------------------------------
MENDED = "02, ask 10: handed back by each rebalancing; the kept sums equal those of the lines"
STAND = "Decision: for rebalancing the record is compared with the sums of the flow's lines as they stand, not with what is stored"
Series("rebalance-accepted", plain(), PLAIN, MENDED + "; 02, ask 6: an accepted flow comes back untouched").rebalance(0, PLAIN).rebalance(9, PLAIN)
Series("rebalance-accepted-every-section", full(), EVERY, MENDED).rebalance(0, EVERY).rebalance(5000, EVERY)
Series("rebalance-all-fields", hurt(full(), *damage("digits")), no(10, 5, 13), MENDED).rebalance(46, EVERY, SUMS, FIELDS, full())
Series("rebalance-all-fields-blank", hurt(full(), *damage("blank")), no(7, 5, 13), MENDED).rebalance(46, EVERY, SUMS, FIELDS, full())
Series("rebalance-unread-letters", fill_unread(hurt(full(), *damage("letter")), "X"), no(7, 5, 13), MENDED + ELSE).rebalance(
    46, EVERY, SUMS, FIELDS, fill_unread(full(), "X"))
# One amount of one line is raised by a cent after balancing. What is stored fits the record that was made before; the lines do not.
for section, number, place, amounts, text, own, changed, total in (
        ("erario-debit", 1, (4, 27), (10001, 2000), "000000000010001", no(10, 5, 13), [(5, 13), (5, 44), (12, 36), (20, 53)], 146001),
        ("erario-credit", 1, (4, 42), (10000, 2001), "000000000002001", no(11, 5, 28), [(5, 28), (5, 44), (12, 36), (20, 53)], 145999),
        ("inps-debit", 1, (6, 52), (20001, 3000), "000000000020001", no(10, 7, 13), [(7, 13), (7, 44), (12, 36), (20, 53)], 146001),
        ("inps-credit", 1, (6, 67), (20000, 3001), "000000000003001", no(11, 7, 28), [(7, 28), (7, 44), (12, 36), (20, 53)], 145999),
        ("regioni-debit", 1, (8, 29), (30001, 4000), "000000000030001", no(10, 9, 15), [(9, 15), (9, 46), (12, 36), (20, 53)], 146001),
        ("regioni-credit", 1, (8, 44), (30000, 4001), "000000000004001", no(11, 9, 30), [(9, 30), (9, 46), (12, 36), (20, 53)], 145999),
        ("imu-debit", 1, (10, 31), (40001, 5000), "000000000040001", no(10, 11, 17), [(11, 17), (11, 48), (12, 36), (20, 53)], 146001),
        ("imu-credit", 1, (10, 46), (40000, 5001), "000000000005001", no(11, 11, 32), [(11, 32), (11, 48), (12, 36), (20, 53)], 145999),
        ("ident-debit", 2, (17, 41), (60001, 0), "000000000060001", no(13, 18, 44), [(18, 44), (19, 36), (20, 53)], 146001)):
    name = section.split("-")[0]
    raised = every(total, **{name: amounts})
    (Series("rebalance-raised-" + section, full().put(*place, text), own, STAND)
        .rebalance(8, OTHER, SUMS).rebalance(8, OTHER)
        .rebalance(8, raised, record_of(raised), changed, full().anew(number, name, 1, *amounts))
        .rebalance(0, raised))
RAISED = yes(1, 8, 9500, 2, regioni=(12000, 2500))
(Series("rebalance-sample-raised-line", SAMPLES["raised-line.f24"], no(10, 6, 15), STAND)
    .rebalance(8, OTHER, ten(regioni=(10000, 2500)))
    .rebalance(8, RAISED, ten(regioni=(12000, 2500)), [(6, 15), (6, 46), (7, 36), (8, 53)], regional_tax(debit=12000))
    .correct((1, 5, 1), (10000, 0), PLAIN))
TOTALS = full().put(9, 15, "000000000040000").put(9, 46, "000000000036000").put(12, 36, "000000000096000").put(20, 53, "000000000156000")
(Series("rebalance-stored-values-that-fit", TOTALS, no(10, 9, 15), STAND)
    .rebalance(8, OTHER, (10000, 2000, 20000, 3000, 40000, 4000, 40000, 5000, 60000, 0))
    .rebalance(8, EVERY, SUMS, [(9, 15), (9, 46), (12, 36), (20, 53)], full()))
(Series("rebalance-totals-exchanged", full().put(9, 15, "000000000004000" + "000000000030000"), no(10, 9, 15), STAND)
    .rebalance(4, OTHER, (10000, 2000, 20000, 3000, 4000, 30000, 40000, 5000, 60000, 0))
    .rebalance(4, EVERY, SUMS, [(9, 15), (9, 30)], full()))
(Series("rebalance-a-line-lost", plain().drop(5), no(11, 5, 30), STAND)
    .rebalance(10, OTHER, ten(regioni=(10000, 2500)))
    .rebalance(10, yes(1, 7, 10000, 1, regioni=(10000, 0)), ten(regioni=(10000, 0)), [(5, 30), (5, 46), (6, 36), (7, 53), (7, 83)], flow(delega(regioni=[(10000, 0)], credits=2500))))
(Series("rebalance-a-delega-lost", full().drop(15, 5), no(18, 15, 46), STAND)
    .rebalance(6, OTHER, SUMS)
    .rebalance(6, first(86000), ten(**FOUR), [(15, 46), (15, 53), (15, 83)], full().without([2]))
    .correct((1, 7, 1), (40001, 5000), first(86001, imu=(40001, 5000))))

# --- Droppings hand it back: the sums of what is left ------------------------------------------------------------------
LEFT = "02, ask 10: handed back by each dropping; the kept sums equal those of the lines that are left"
Series("drop-four-sections", full(), EVERY, LEFT).drop([1], SECTION_17)
Series("drop-section-17", full(), EVERY, LEFT).drop([2], first(86000))
Series("drop-unread-letters", marked(full(), "HABT"), EVERY, LEFT + ELSE).drop([1], SECTION_17, after=marked(full().without([1]), "HBT"))
Series("drop-first-of-three", flow(*THREE), THREE_ANSWER, LEFT).drop([1], yes(2, 16, 552, 3, regioni=(603, 51)))
Series("drop-middle-of-three", flow(*THREE), THREE_ANSWER, LEFT).drop([2], yes(2, 15, 452, 3, regioni=(503, 51)))
Series("drop-last-of-three", flow(*THREE), THREE_ANSWER, LEFT).drop([3], yes(2, 13, 200, 2, regioni=(300, 100)))
Series("drop-two-of-three", flow(*THREE), THREE_ANSWER, LEFT).drop([3, 1], yes(1, 8, 150, 1, regioni=(200, 50)))
for number, records, total, others in ((1, 28, 13100, (I, R, M, X)), (2, 27, 12200, (E, R, M, X)), (3, 26, 11300, (E, I, M, X)), (4, 27, 10400, (E, I, R, X)), (5, 26, 9000, (E, I, R, M))):
    Series("drop-%d-of-five" % number, flow(*FIVE), FIVE_ANSWER, LEFT + ": those of one section become zero").drop(
        [number], yes(4, records, total, 4, **{section: sums for other in others for section, sums in other.items()}))
NOTHING = "02, ask 8: an empty list changes nothing; ask 10: the record is handed back"
Series("drop-none-of-three", flow(*THREE), THREE_ANSWER, NOTHING).drop([], THREE_ANSWER).drop([], THREE_ANSWER)
Series("drop-none-of-one", plain(), PLAIN, NOTHING).drop([], PLAIN)
(Series("drop-two-of-each-three-of-108", flow(*MANY), yes(108, 546, 5886, 108, erario=(5886, 0)), LEFT)
    .drop([n for n in range(108, 0, -1) if n % 3], yes(36, 183, 1998, 36, erario=(1998, 0)))
    .correct((36, 1, 1), (1, 0), yes(36, 183, 1891, 36, erario=(1891, 0))))

# --- 29: each of the ten sums off by one -------------------------------------------------------------------------------
# The call with the wrong record, and once more with that record as it is handed back; then with the right one. What is asked for has to do with Regioni alone in a
# correction and with one total in a rebalancing, and the delega that is dropped has section 17 alone.
STANDS = "02, ask 10: the record stands only for a flow whose lines have those ten sums; a call with sums that don't match the flow changes nothing; 29 for such a call"
RAISED_REGIONI = every(147000, regioni=(31000, 4000))
ONE_TOTAL = full().put(9, 15, "000000000030001")
for place, (name, up, down) in enumerate((
        ("erario-debit", 10001, 9999), ("erario-credit", 2001, 1999), ("inps-debit", 20001, 19999), ("inps-credit", 3001, 2999), ("regioni-debit", 30001, 29999),
        ("regioni-credit", 4001, 3999), ("imu-debit", 40001, 39999), ("imu-credit", 5001, 4999), ("ident-debit", 60001, 59999), ("ident-credit", 1, LAST))):
    for word, number in (("up", up), ("down", down)):
        wrong, which = (*SUMS[:place], number, *SUMS[place + 1:]), name + "-" + word
        (Series("29-correct-" + which, full(), EVERY, STANDS)
            .correct((1, 5, 1), (31000, 4000), OTHER, wrong).correct((1, 5, 1), (31000, 4000), OTHER).correct((1, 5, 1), (31000, 4000), RAISED_REGIONI, SUMS))
        Series("29-rebalance-" + which, ONE_TOTAL, no(10, 9, 15), STANDS).rebalance(2, OTHER, wrong).rebalance(2, OTHER).rebalance(2, EVERY, SUMS, [(9, 15)], full())
        Series("29-drop-" + which, full(), EVERY, STANDS).drop([2], OTHER, wrong).drop([2], OTHER).drop([2], first(86000), SUMS)

# --- 29: records of all sorts ------------------------------------------------------------------------------------------
# Each is lent to the three calls; then a correction and a dropping are made with the right one.
for name, record in (
        ("zeros", (0,) * 10), ("ones", (1,) * 10), ("largest-numbers", (LAST,) * 10),
        ("exchanged-in-erario", (2000, 10000, 20000, 3000, 30000, 4000, 40000, 5000, 60000, 0)), ("exchanged-in-inps", (10000, 2000, 3000, 20000, 30000, 4000, 40000, 5000, 60000, 0)),
        ("exchanged-in-regioni", (10000, 2000, 20000, 3000, 4000, 30000, 40000, 5000, 60000, 0)), ("exchanged-in-imu", (10000, 2000, 20000, 3000, 30000, 4000, 5000, 40000, 60000, 0)),
        ("exchanged-in-17", (10000, 2000, 20000, 3000, 30000, 4000, 40000, 5000, 0, 60000)), ("exchanged-in-all", (2000, 10000, 3000, 20000, 4000, 30000, 5000, 40000, 0, 60000)),
        ("erario-and-inps-exchanged", (20000, 3000, 10000, 2000, 30000, 4000, 40000, 5000, 60000, 0)),
        ("inps-and-regioni-exchanged", (10000, 2000, 30000, 4000, 20000, 3000, 40000, 5000, 60000, 0)),
        ("regioni-and-imu-exchanged", (10000, 2000, 20000, 3000, 40000, 5000, 30000, 4000, 60000, 0)),
        ("imu-and-17-exchanged", (10000, 2000, 20000, 3000, 30000, 4000, 60000, 0, 40000, 5000)),
        ("erario-and-17-exchanged", (60000, 0, 20000, 3000, 30000, 4000, 40000, 5000, 10000, 2000)),
        ("sections-backwards", (60000, 0, 40000, 5000, 30000, 4000, 20000, 3000, 10000, 2000)), ("debits-before-credits", (10000, 20000, 30000, 40000, 60000, 2000, 3000, 4000, 5000, 0)),
        ("one-place-on", (0, 10000, 2000, 20000, 3000, 30000, 4000, 40000, 5000, 60000)), ("one-place-back", (2000, 20000, 3000, 30000, 4000, 40000, 5000, 60000, 0, 10000)),
        ("answer-of-the-judge-from-0", (2, 20, 146000, 5, 10000, 2000, 20000, 3000, 30000, 4000)),
        ("answer-of-the-judge-from-3", (5, 10000, 2000, 20000, 3000, 30000, 4000, 40000, 5000, 60000)),
        ("first-delega-alone", (10000, 2000, 20000, 3000, 30000, 4000, 40000, 5000, 0, 0)), ("second-delega-alone", (0, 0, 0, 0, 0, 0, 0, 0, 60000, 0)),
        ("doubled", (20000, 4000, 40000, 6000, 60000, 8000, 80000, 10000, 120000, 0)), ("in-whole-euros", (100, 20, 200, 30, 300, 40, 400, 50, 600, 0)),
        ("balances-for-debits", (8000, 0, 17000, 0, 26000, 0, 35000, 0, 60000, 0)), ("the-same-balances", (10001, 2001, 20000, 3000, 30000, 4000, 40000, 5000, 60000, 0)),
        ("the-same-sum-of-debits", (10001, 2000, 19999, 3000, 30000, 4000, 40000, 5000, 60000, 0)),
        ("the-same-sum-of-credits", (10000, 2000, 20000, 3000, 30000, 4001, 40000, 4999, 60000, 0)),
        ("10-to-the-15-more", (1000000000010000, 2000, 20000, 3000, 30000, 4000, 40000, 5000, 60000, 0)),
        ("2-to-the-32-more", (10000, 2000, 20000, 3000, 4294997296, 4000, 40000, 5000, 60000, 0)),
        ("2-to-the-63-more", (10000, 2000, 20000, 3000, 30000, 4000, 40000, 5000, 9223372036854835808, 0)),
        ("2-to-the-64-less", (18446744073709541616, 2000, 20000, 3000, 30000, 4000, 40000, 5000, 60000, 0)),
        ("of-another-flow", (0, 0, 0, 0, 10000, 2500, 0, 0, 0, 0)), ("as-the-correction-would-leave-it", (10000, 2000, 20000, 3000, 31000, 4000, 40000, 5000, 60000, 0))):
    (Series("29-" + name, full(), EVERY, STANDS)
        .correct((1, 5, 1), (31000, 4000), OTHER, record).rebalance(7, OTHER).drop([1], OTHER)
        .correct((1, 5, 1), (31000, 4000), RAISED_REGIONI, SUMS).drop([2], first(87000, regioni=(31000, 4000))))
Series("29-as-the-dropping-would-leave-it", full(), EVERY, STANDS).drop([2], OTHER, ten(**FOUR)).drop([2], first(86000), SUMS).drop([], first(86000))
(Series("29-in-place-of-zeros", plain(), PLAIN, STANDS + ": sections that the flow has not are zero")
    .correct((1, 5, 1), (1, 0), OTHER, ten(erario=(0, 1), regioni=(10000, 2500)))
    .drop([], OTHER, ten(regioni=(10000, 2500), imu=(5, 5)))
    .rebalance(0, OTHER, ten(regioni=(10000, 2500), ident=(0, LAST)))
    .drop([], PLAIN, ten(regioni=(10000, 2500))))

# --- 29 before the call's own refusals ---------------------------------------------------------------------------------
AHEAD = "02, ask 10: 29 before all others; Decision: every refusal hands the record back as it came, and 29 comes also where nothing would change: "


def ahead(name, built, made, record, refusal, why, call, *arguments):
    """One call four times: with the right record it gets its own refusal; with another record 29, twice, for it is handed back; with the right one its own refusal again.
    The other record has one cent more in the last sum, the credit of section 17, which is zero in every flow."""
    series = Series(name, built, made, AHEAD + why)
    given = None if isinstance(made, Accepted) else record
    for answer, lent in ((refusal, given), (OTHER, (*record[:9], 1)), (OTHER, None), (refusal, record)):
        getattr(series, call)(*arguments, answer, lent)


NO_LINE = "21, no such delega, section or line"
for word, line in (("delega-0", (0, 5, 1)), ("delega-above-the-count", (2, 5, 1)), ("absent-section", (1, 1, 1)), ("balance-subtype", (1, 6, 1)), ("subtype-0", (1, 0, 1)),
                   ("place-0", (1, 5, 0)), ("place-beyond", (1, 5, 3)), ("numbers-of-64-bits", (LAST, LAST, LAST))):
    ahead("ahead-of-21-" + word, plain(), PLAIN, record_of(PLAIN), no(21, 0, 0), NO_LINE, "correct", line, (1, 0))
for word, amounts in (("debit", (OVER, 0)), ("credit", (1, OVER)), ("of-64-bits", (LAST, LAST))):
    ahead("ahead-of-22-" + word, plain(), PLAIN, record_of(PLAIN), no(22, 0, 0), "22, more digits than the field", "correct", (1, 5, 1), amounts)
for number, subtype, amounts in ((1, 1, (0, 0)), (1, 3, (0, 0)), (1, 5, (0, 0)), (1, 7, (0, 0)), (2, 17, (0, 0)), (2, 17, (60000, 1))):
    ahead("ahead-of-9-in-40-%02d%s" % (subtype, "-credit" if any(amounts) else ""), full(), EVERY, SUMS, no(9, 0, 0), "9, the line rule, also of the same debit",
          "correct", (number, subtype, 1), amounts)
ahead("ahead-of-14-by-a-credit", plain(), PLAIN, record_of(PLAIN), no(14, 0, 0), "14, negative", "correct", (1, 5, 2), (0, 10001))
ahead("ahead-of-14-by-a-debit", plain(), PLAIN, record_of(PLAIN), no(14, 0, 0), "14, negative", "correct", (1, 5, 1), (2499, 0))
STORED = "23, a stored total, balance or sum of sixteen digits"
ahead("ahead-of-23-total-debit", flow(delega(regioni=[(MOST, 0), (0, 1)])), yes(1, 8, 999999999999998, 2, regioni=(MOST, 1)), ten(regioni=(MOST, 1)), no(23, 0, 0), STORED,
      "correct", (1, 5, 2), (1, 0))
ahead("ahead-of-23-balance-in-17", flow(delega(ident=[(999999999999998, 0), (1, 0)])), yes(1, 8, MOST, 2, ident=(MOST, 0)), ten(ident=(MOST, 0)), no(23, 0, 0), STORED,
      "correct", (1, 17, 2), (2, 0))
ahead("ahead-of-23-final-balance", flow(delega(erario=[(MOST, 0)], inps=[(1, 1)])), yes(1, 9, MOST, 2, erario=(MOST, 0), inps=(1, 1)), ten(erario=(MOST, 0), inps=(1, 1)), no(23, 0, 0),
      STORED, "correct", (1, 3, 1), (1, 0))
ahead("ahead-of-23-tail-sum", flow(delega(erario=[(MOST, 0)]), delega(imu=[(1, 1)])), yes(2, 12, MOST, 2, erario=(MOST, 0), imu=(1, 1)), ten(erario=(MOST, 0), imu=(1, 1)), no(23, 0, 0),
      STORED, "correct", (2, 7, 1), (1, 0))
ahead("ahead-of-the-same-amounts", plain(), PLAIN, record_of(PLAIN), PLAIN, "also for the same amounts", "correct", (1, 5, 1), (10000, 0))

# Dropping: 21, 28, and the empty list
for word, numbers in (("0", [0]), ("a-fourth", [4]), ("named-twice", [2, 2]), ("all-and-0", [1, 2, 3, 0]), ("of-64-bits", [LAST]), ("in-a-list-of-600", [1, 2, 3] * 200)):
    ahead("ahead-of-21-" + word, flow(*THREE), THREE_ANSWER, record_of(THREE_ANSWER), no(21, 0, 0), "21 for a number not in the flow or named twice", "drop", numbers)
for word, built, made, numbers in (("one-of-one", plain(), PLAIN, [1]), ("all-of-three", flow(*THREE), THREE_ANSWER, [3, 1, 2]), ("both-of-every-section", full(), EVERY, [1, 2])):
    ahead("ahead-of-28-" + word, built, made, record_of(made), no(28, 0, 0), "28 when none would be left", "drop", numbers)
ahead("ahead-of-the-empty-list", flow(*THREE), THREE_ANSWER, record_of(THREE_ANSWER), THREE_ANSWER, "also for an empty list of numbers", "drop", [])
ahead("ahead-of-the-empty-list-of-one", plain(), PLAIN, record_of(PLAIN), PLAIN, "also for an empty list of numbers", "drop", [])

# Rebalancing: 23 and 27, and a flow that is right. The lines of a flow that is refused 23 have sums of sixteen digits, which are whole in the record.
DIGITS = "23, more digits than the field; the sums of the lines are not cut"
for section, at_total in (("erario", 13), ("inps", 13), ("regioni", 15), ("imu", 17)):
    ahead("ahead-of-23-debits-of-" + section, TOO_MUCH[section], no(10, 6, at_total), ten(**{section: (OVER, 2)}), no(23, 0, 0), DIGITS, "rebalance", 4368)
ahead("ahead-of-23-debits-of-ident", TOO_MUCH["ident"], no(13, 6, 44), ten(ident=(OVER, 0)), no(23, 0, 0), DIGITS, "rebalance", 4368)
ahead("ahead-of-23-sum-of-final-balances", flow(delega(erario=[(MOST, 0)]), delega(ident=[(1, 0)])), no(20, 12, 53), ten(erario=(MOST, 0), ident=(1, 0)), no(23, 0, 0), DIGITS,
      "rebalance", 4368)
ahead("ahead-of-23-and-27", TOO_MUCH["regioni"], no(10, 6, 15), ten(regioni=(OVER, 2)), no(23, 0, 0), "23, then 27", "rebalance", 0)
for word, debits in (("cut-to-fifteen-digits", 0), ("as-the-largest-amount", MOST)):
    (Series("29-not-23-sum-" + word, TOO_MUCH["regioni"], no(10, 6, 15), AHEAD + DIGITS)
        .rebalance(4368, OTHER, ten(regioni=(debits, 2))).rebalance(4368, no(23, 0, 0), ten(regioni=(OVER, 2))))
TAIL = hurt(plain(), (8, 46, "0000000"), (8, 53, "0" * 15), (8, 83, "0000000"))
for length in (0, 1, 4, 5):
    ahead("ahead-of-27-in-%d" % length, TAIL, no(18, 8, 46), record_of(PLAIN), no(27, 0, 0), "27 when the lent list is too short", "rebalance", length)
ahead("ahead-of-an-accepted-flow", plain(), PLAIN, record_of(PLAIN), PLAIN, "also where a rebalancing would change nothing", "rebalance", 0)
(Series("all-wrong-at-once", full(), EVERY, AHEAD + "they may be several")
    .correct((0, 99, 0), (LAST, LAST), OTHER, (LAST,) * 10).drop([0, 0, 3], OTHER)
    .correct((0, 99, 0), (LAST, LAST), no(21, 0, 0), SUMS).drop([0, 0, 3], no(21, 0, 0)))

# --- Series ------------------------------------------------------------------------------------------------------------
AFTER = "02, ask 10: after any series of these from an accepted flow, refused ones included, the kept sums equal those of the lines"
(Series("series-one-of-each", full(), EVERY, AFTER)
    .correct((1, 5, 1), (31000, 4000), RAISED_REGIONI)
    .rebalance(0, RAISED_REGIONI)
    .drop([2], first(87000, regioni=(31000, 4000)))
    .correct((1, 1, 1), (1, 0), first(79001, erario=(1, 0), regioni=(31000, 4000)))
    .drop([], first(79001, erario=(1, 0), regioni=(31000, 4000)))
    .rebalance(5000, first(79001, erario=(1, 0), regioni=(31000, 4000))))
(Series("series-every-section-in-turn", full(), EVERY, AFTER)
    .correct((1, 1, 1), (11000, 2000), every(147000, erario=(11000, 2000)))
    .correct((1, 3, 1), (20000, 2900), every(147100, erario=(11000, 2000), inps=(20000, 2900)))
    .correct((1, 5, 1), (30010, 4000), every(147110, erario=(11000, 2000), inps=(20000, 2900), regioni=(30010, 4000)))
    .correct((1, 7, 1), (40000, 4999), every(147111, erario=(11000, 2000), inps=(20000, 2900), regioni=(30010, 4000), imu=(40000, 4999)))
    .correct((2, 17, 1), (52889, 0), every(140000, erario=(11000, 2000), inps=(20000, 2900), regioni=(30010, 4000), imu=(40000, 4999), ident=(52889, 0))))
# The deleghe of THREE have lines (100, 50); (200, 50); (400, 0) and (3, 1). The third is the second once the first is dropped.
(Series("series-refused-ones-between", flow(*THREE), THREE_ANSWER, AFTER)
    .correct((4, 5, 1), (1, 0), no(21, 0, 0))
    .correct((3, 5, 1), (401, 0), yes(3, 21, 603, 4, regioni=(704, 101)))
    .correct((1, 5, 1), (OVER, 0), no(22, 0, 0))
    .correct((1, 5, 1), (0, 0), no(9, 0, 0))
    .drop([2, 2], no(21, 0, 0))
    .drop([1], yes(2, 16, 553, 3, regioni=(604, 51)))
    .drop([1, 2], no(28, 0, 0))
    .correct((2, 5, 1), (0, 999), no(14, 0, 0))
    .rebalance(0, yes(2, 16, 553, 3, regioni=(604, 51)))
    .correct((2, 5, 2), (0, 400), yes(2, 16, 151, 3, regioni=(601, 450)))
    .drop([3], no(21, 0, 0))
    .drop([2], yes(1, 8, 150, 1, regioni=(200, 50)))
    .drop([1], no(28, 0, 0))
    .correct((1, 5, 1), (200, 50), yes(1, 8, 150, 1, regioni=(200, 50))))
(Series("series-dropped-one-by-one", flow(*FIVE), FIVE_ANSWER, AFTER)
    .drop([3], yes(4, 26, 11300, 4, **E, **I, **M, **X))
    .drop([1], yes(3, 21, 10400, 3, **I, **M, **X))
    .drop([3], yes(2, 14, 5400, 2, **I, **M))
    .correct((2, 7, 1), (4000, 4000), yes(2, 14, 1800, 2, **I, imu=(4000, 4000)))
    .drop([1], yes(1, 8, 0, 1, imu=(4000, 4000))))
(Series("series-dropped-together", flow(*FIVE), FIVE_ANSWER, AFTER)
    .drop([5, 1, 3], yes(2, 14, 5400, 2, **I, **M))
    .correct((1, 3, 1), (1, 0), yes(2, 14, 3601, 2, inps=(1, 0), **M)))
cents = Series("series-of-forty-corrections", plain(), PLAIN, AFTER)
for k in range(1, 41):
    cents.correct((1, 5, 1), (10000 + k, 0), yes(1, 8, 7500 + k, 2, regioni=(10000 + k, 2500)))
turns = Series("series-corrected-and-refused-in-turn", plain(), PLAIN, AFTER)
for k in range(1, 11):
    turns.correct((1, 5, 2), (0, 2500 - k), yes(1, 8, 7500 + k, 2, regioni=(10000, 2500 - k))).correct((1, 5, 3), (1, 0), no(21, 0, 0)).drop([1], no(28, 0, 0))
(Series("series-from-a-bad-flow", hurt(flow(*THREE), (10, 15, "X"), (21, 53, " ")), no(7, 10, 15), AFTER + "; after a rebalancing it is accepted")
    .rebalance(4, OTHER)
    .rebalance(0, no(27, 0, 0), ten(regioni=(703, 101)))
    .rebalance(4, THREE_ANSWER, None, [(10, 15), (21, 53)], flow(*THREE))
    .correct((2, 5, 1), (1200, 50), yes(3, 21, 1602, 4, regioni=(1703, 101)))
    .drop([1, 3], yes(1, 8, 1150, 1, regioni=(1200, 50))))
SAMPLE = yes(3, 25, 1169978, 7, erario=(482316, 120050), inps=(615400, 0), regioni=(30412, 1500), imu=(163400, 0))
(Series("series-sample-three-deleghe", SAMPLES["three-deleghe.f24"], SAMPLE, AFTER)
    .correct((2, 5, 1), (31412, 0), yes(3, 25, 1170978, 7, erario=(482316, 120050), inps=(615400, 0), regioni=(31412, 1500), imu=(163400, 0)))
    .drop([2], yes(2, 18, 1141066, 5, erario=(482316, 120050), inps=(615400, 0), imu=(163400, 0))))

# --- A record that no longer stands for the flow -----------------------------------------------------------------------
STALE = "02, ask 10: the record stands only for a flow whose lines have those ten sums: one that was handed back before a later call does not"
NOW = yes(1, 8, 10500, 2, regioni=(13000, 2500))
(Series("stale-after-a-correction", plain(), PLAIN, STALE)
    .correct((1, 5, 1), (12000, 0), RAISED)
    .correct((1, 5, 1), (13000, 0), OTHER, ten(regioni=(10000, 2500))).drop([], OTHER).rebalance(0, OTHER)
    .correct((1, 5, 1), (13000, 0), NOW, ten(regioni=(12000, 2500))).drop([], NOW))
(Series("stale-sample-regioni", regional_tax(debit=12000), RAISED, STALE + ": here after a correction that took none, of samples/regioni.f24")
    .correct((1, 5, 1), (13000, 0), OTHER, ten(regioni=(10000, 2500)))
    .correct((1, 5, 1), (13000, 0), NOW, ten(regioni=(12000, 2500))))
(Series("stale-after-a-dropping", full(), EVERY, STALE)
    .drop([2], first(86000))
    .drop([], OTHER, SUMS).correct((1, 1, 1), (1, 0), OTHER).rebalance(0, OTHER)
    .correct((1, 1, 1), (10000, 0), first(88000, erario=(10000, 0)), ten(**FOUR)).rebalance(0, first(88000, erario=(10000, 0))))
(Series("stale-by-one-call", plain(), PLAIN, STALE)
    .correct((1, 5, 1), (10001, 0), yes(1, 8, 7501, 2, regioni=(10001, 2500)))
    .correct((1, 5, 1), (10002, 0), yes(1, 8, 7502, 2, regioni=(10002, 2500)))
    .correct((1, 5, 1), (10003, 0), OTHER, ten(regioni=(10001, 2500)))
    .correct((1, 5, 1), (10003, 0), yes(1, 8, 7503, 2, regioni=(10003, 2500)), ten(regioni=(10002, 2500))))
(Series("stale-then-right-again", plain(), PLAIN, STALE + ", until the lines have them again")
    .correct((1, 5, 1), (10001, 0), yes(1, 8, 7501, 2, regioni=(10001, 2500)))
    .correct((1, 5, 1), (10000, 0), OTHER, ten(regioni=(10000, 2500)))
    .correct((1, 5, 1), (10000, 0), PLAIN, ten(regioni=(10001, 2500)))
    .drop([], PLAIN, ten(regioni=(10000, 2500))))
(Series("stale-of-another-flow", plain(), PLAIN, STALE + ", nor does one of another flow")
    .correct((1, 5, 1), (1, 0), OTHER, SUMS).drop([1], OTHER)
    .correct((1, 5, 2), (0, 2501), yes(1, 8, 7499, 2, regioni=(10000, 2501)), ten(regioni=(10000, 2500)))
    .correct((1, 5, 2), (0, 2500), PLAIN))
(Series("stale-between-two-made", full(), EVERY, STALE)
    .correct((1, 1, 1), (10000, 1000), every(147000, erario=(10000, 1000)))
    .drop([1], OTHER, SUMS)
    .drop([1], SECTION_17, (10000, 1000, 20000, 3000, 30000, 4000, 40000, 5000, 60000, 0)).drop([], SECTION_17))
MOVED = "02, ask 10: the record stands for a flow whose lines have those ten sums, whichever lines these are"
(Series("moved-between-two-lines", flow(delega(imu=[(60, 0), (40, 10)]), delega(imu=[(5, 0)])), yes(2, 13, 95, 3, imu=(105, 10)), MOVED)
    .correct((1, 7, 1), (61, 0), yes(2, 13, 96, 3, imu=(106, 10)))
    .correct((1, 7, 2), (39, 10), yes(2, 13, 95, 3, imu=(105, 10)))
    .correct((2, 7, 1), (6, 0), yes(2, 13, 96, 3, imu=(106, 10)), ten(imu=(105, 10))))
