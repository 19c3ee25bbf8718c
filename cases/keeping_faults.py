"""Sums kept beside the flow: the judgement's refusals. No record is made then, and every call gives that refusal before 29, whatever record it is lent; for a rebalancing
they are those that no rewriting mends, and the others do not come before 29."""

from case import no, yes
from common import WRONG_CODE, full, plain
from droppings import FAULTS, TOO_LONG, pair
from keeping import OTHER, Series, ten
from keepings import EVERY, SUMS
from rebalancings import FIVE as FIFTH_LINE, bad, hurt
from samples import SAMPLES

# The flow of droppings.py with a fault: 1 F4; 2 10, 3 20, 4 40-05, 5 40-06, 6 50-01 of 7500; 7 10, 8 20, 9 40-01, 10 40-02, 11 50-01 of 500; 12 EF. Its lines are
# (10000, 2500) in Regioni and (600, 100) in Erario, but for the faults 6, 9 and 14; with fault 7 they have no sum, and 2 has a byte behind them.
SOUND = yes(2, 12, 8000, 2, erario=(600, 100), regioni=(10000, 2500))
RIGHT = (600, 100, 0, 0, 10000, 2500, 0, 0, 0, 0)
LINES = {6: (7, 0, 0, 0, 10000, 2500, 0, 0, 0, 0), 9: (0, 0, 0, 0, 10000, 2500, 0, 0, 0, 0), 14: (600, 601, 0, 0, 10000, 2500, 0, 0, 0, 0)}
WRONG = (600, 100, 0, 0, 10000, 2500, 0, 0, 1, 0)
# The faults that a rebalancing mends, and the field that it lists then.
FIELD = {10: (10, 13), 11: (10, 28), 12: (10, 43), 13: (10, 44), 15: (11, 36), 18: (12, 46), 19: (12, 83), 20: (12, 53)}

JUDGED = "02, ask 10: made when the flow is accepted; 29 after the judgement's own refusals; Decision: every refusal hands the record back as it came"
LENIENT = "Decision: 29 after the judgement's own refusals, for rebalancing after the lenient ones: 1 to 6, 7 of fields that are not rewritten, 8, 9, 14, 16, 17 and 26"
MENDS = "Decision: for rebalancing 29 comes after the lenient refusals alone: faults 10 to 13, 15 and 18 to 20, and 7 in a rewritten field, do not come before it"
for number, built, answer in FAULTS:
    own, right = no(*answer), LINES.get(number, RIGHT)
    (Series("own-%d" % number, built, own, JUDGED)
        .correct((1, 5, 1), (10001, 0), own)
        .correct((1, 5, 1), (10001, 0), own, right).drop([2], own)
        .drop([], own, WRONG).correct((0, 5, 1), (0, 0), own).drop([3], own))
    if number in FIELD:
        (Series("own-%d-not-of-a-rebalancing" % number, built, own, MENDS)
            .rebalance(2, OTHER).rebalance(2, OTHER, WRONG).rebalance(0, no(27, 0, 0), RIGHT).rebalance(2, SOUND, None, [FIELD[number]], pair()))
    else:
        Series("own-%d-of-a-rebalancing" % number, built, own, LENIENT).rebalance(2, own).rebalance(2, own, right).rebalance(0, own, WRONG)
Series("own-1", TOO_LONG, no(1, 0, 0), JUDGED).correct((1, 1, 1), (1, 0), no(1, 0, 0)).rebalance(0, no(1, 0, 0), ten(erario=(5886, 0))).drop([108], no(1, 0, 0))
for word, data in (("no-bytes", b""), ("119-bytes", bytes(plain())[:119])):
    (Series("own-2-of-" + word, data, no(2, 0, 0), JUDGED)
        .correct((1, 5, 1), (1, 0), no(2, 0, 0)).rebalance(0, no(2, 0, 0)).drop([], no(2, 0, 0))
        .correct((0, 0, 0), (0, 0), no(2, 0, 0), WRONG).rebalance(5000, no(2, 0, 0)).drop([1], no(2, 0, 0)))
(Series("own-5-a-head-alone", plain().keep(1), no(5, 2, 0), JUDGED + "; a head has no lines, and ten zeros are their sums")
    .correct((1, 5, 1), (1, 0), no(5, 2, 0)).rebalance(0, no(5, 2, 0)).drop([], no(5, 2, 0)))
(Series("own-13-sample-wrong-balance", SAMPLES["wrong-balance.f24"], no(13, 6, 46), JUDGED)
    .correct((1, 5, 1), (10001, 0), no(13, 6, 46), ten(regioni=(10000, 2500))).drop([], no(13, 6, 46))
    .rebalance(2, yes(1, 8, 7500, 2, regioni=(10000, 2500)), None, [(6, 46)], SAMPLES["regioni.f24"]))
(Series("own-26-sample-wrong-code", SAMPLES["wrong-code.f24"], no(26, 2, 11), JUDGED)
    .correct((1, 5, 1), (10001, 0), no(26, 2, 11), ten(regioni=(10000, 2500))).rebalance(4368, no(26, 2, 11)).drop([1], no(26, 2, 11)))

# --- Lenient refusals before 29, among damaged fields -------------------------------------------------------------------
# Records of the flow as in rebalancings.py: 1 F4, 4 40-01, 8 40-05, 9 40-06, 12 50-01, 15 the second 10, 17 40-17, 18 40-18, 20 EF. Every stored field of it is wrong, the
# first at 5 13, where the judgement stops.


def lenient(word, built, answer, made=no(7, 5, 13), right=SUMS):
    """`answer` is what a rebalancing gives with every record: ten zeros, the right one and another; `made` is the judgement's, which the other calls give."""
    (Series("lenient-" + word, built, made, LENIENT)
        .rebalance(46, answer).rebalance(46, answer, right).rebalance(0, answer, (*right[:9], right[9] + 1))
        .correct((1, 1, 1), (1, 0), made, right).drop([1], made))


lenient("2-one-byte-too-many", bad().bytes_after(b"\n"), no(2, 0, 0), made=no(2, 0, 0))
lenient("3-in-a-total", bad().put(9, 15, b"\xe8"), no(3, 9, 15))
lenient("3-in-a-sign", bad().put(18, 43, b"\n"), no(3, 18, 43))
lenient("3-in-a-filler-of-the-tail", bad().put(20, 120, b"\x7f"), no(3, 20, 120))
lenient("4-another-balance", bad().put(9, 11, "08"), no(4, 9, 11))
lenient("4-behind-the-tail", bad().add(bytearray(b" " * 120)), no(4, 21, 2))
lenient("5-no-tail", bad().keep(19), no(5, 20, 0))
lenient("6-a-fifth-line", hurt(FIFTH_LINE, (5, 13, "X"), (11, 15, "X"), (15, 46, "X")), no(6, 10, 11), right=ten(erario=(9, 1), regioni=(5, 0), imu=(2, 0)))
lenient("7-in-a-delega-number", bad().put(18, 4, "00000 2"), no(7, 18, 9))
lenient("7-in-a-debit", bad().put(8, 29, "00000000003000 "), no(7, 8, 43))
lenient("8-in-the-second-10", bad().put(15, 4, "0000003"), no(8, 15, 4))
lenient("9-nothing-in-40-05", bad().put(8, 29, "0" * 30), no(9, 8, 29), right=(10000, 2000, 20000, 3000, 0, 0, 40000, 5000, 60000, 0))
lenient("9-a-credit-in-40-17", bad().put(17, 56, "000000000000001"), no(9, 17, 56), right=(10000, 2000, 20000, 3000, 30000, 4000, 40000, 5000, 60000, 1))
lenient("14-by-a-cent", bad().put(4, 42, "000000000088001"), no(14, 12, 2), right=(10000, 88001, 20000, 3000, 30000, 4000, 40000, 5000, 60000, 0))
lenient("16-of-the-head", bad().put(1, 20, "F24/"), no(16, 1, 20), made=no(16, 1, 20))
lenient("16-of-the-tail", bad().put(20, 39, "X"), no(16, 20, 20))
lenient("17-no-such-day", bad().put(1, 14, "310215"), no(17, 1, 14), made=no(17, 1, 14))
lenient("26-of-the-second-delega", bad().put(15, 11, WRONG_CODE), no(26, 15, 11))

# --- Faults that a rebalancing mends do not come before 29: each kind of field of the flow of every kind of record -------
for word, record, start, text, made in (
        ("total-debit", 5, 13, "000000000010001", no(10, 5, 13)), ("total-credit", 7, 28, " " * 15, no(7, 7, 28)), ("sign", 9, 45, "N", no(12, 9, 45)), ("no-sign", 11, 47, " ", no(12, 11, 47)),
        ("balance", 11, 48, "000000000035001", no(13, 11, 48)), ("balance-of-17", 18, 44, "X" * 15, no(7, 18, 44)), ("final-balance", 12, 36, "00000000008600O", no(7, 12, 50)),
        ("deleghe", 20, 46, "000000 ", no(7, 20, 52)), ("sum", 20, 53, "000000000000000", no(20, 20, 53)), ("records", 20, 83, "0000002", no(19, 20, 83))):
    (Series("29-before-a-mended-" + word, full().put(record, start, text), made, MENDS)
        .rebalance(2, OTHER).rebalance(1, OTHER, (*SUMS[:9], 1)).rebalance(1, no(27, 0, 0), SUMS).rebalance(2, EVERY, None, [(record, start)], full()))
