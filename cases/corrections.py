"""Corrections of one line: those that are made, 21, 22, 9, 14 and 23, and their order."""

from case import no, yes
from common import FIRM, PERSON, WRONG_CODE, full, plain
from correction import Told, made, refused
from flow import delega, flow

MOST = 999999999999999          # fifteen nines
OVER = 1000000000000000         # the least amount of sixteen digits
LAST = 18446744073709551615     # the largest number of 64 bits

# 01's printed whole case. Regioni debit 10000, credit 2500, P 7500.
PLAIN = Told(dict(regioni=[(10000, 0), (0, 2500)]))
# Every kind of record. Final balances 86000 and 60000.
EVERY = [dict(erario=[(10000, 2000)], inps=[(20000, 3000)], regioni=[(30000, 4000)], imu=[(40000, 5000)], after=2),
         dict(ident=[(60000, 0)])]
ALL = Told(*EVERY)
# Erario 20000 beside Regioni P 7500. Records 10.
BESIDE = Told(dict(erario=[(20000, 0)], regioni=[(10000, 0), (0, 2500)]))
# 01's example with a final balance of 0: Regioni N 7500, Erario debit 7500.
BARE = Told(dict(erario=[(7500, 0)], regioni=[(2500, 0), (0, 10000)]))

# --- Made: each section, its first and its last line ------------------------------------------------------------------
EACH = "01, What a correction may touch: the line, its section's balance record, the final balance, the sum in EF"
FIRST = {"erario": yes(1, 12, 9450, 6, erario=(10000, 550)), "inps": yes(1, 10, 7650, 4, inps=(8000, 350)),
         "regioni": yes(1, 10, 7650, 4, regioni=(8000, 350)), "imu": yes(1, 10, 7650, 4, imu=(8000, 350))}
FINAL = {"erario": yes(1, 12, 4501, 6, erario=(5001, 500)), "inps": yes(1, 10, 2701, 4, inps=(3001, 300)),
         "regioni": yes(1, 10, 2701, 4, regioni=(3001, 300)), "imu": yes(1, 10, 2701, 4, imu=(3001, 300))}
for section, subtype, most in (("erario", 1, 6), ("inps", 3, 4), ("regioni", 5, 4), ("imu", 7, 4)):
    lines = Told({section: [(1000, 100)] * most})
    made("first-line-" + section, lines, (1, subtype, 1), (5000, 50), FIRST[section], EACH)
    made("last-line-" + section, lines, (1, subtype, most), (1, 0), FINAL[section], EACH)
IDENT = Told(dict(ident=[(1000, 0)] * 28))
made("first-line-ident", IDENT, (1, 17, 1), (5000, 0), yes(1, 34, 32000, 28, ident=(32000, 0)), EACH)
made("last-line-ident", IDENT, (1, 17, 28), (1, 0), yes(1, 34, 27001, 28, ident=(27001, 0)), EACH)

# --- Made: the other sections and deleghe stay, and so do fillers and unread fields -----------------------------------
UNREAD = "01, What a correction may touch: nothing else, fillers and unread fields included"
for word, fill in (("tilde", "~"), ("nine", "9")):
    filled = Told(*EVERY, fill=fill)
    made("filled-%s-erario" % word, filled, (1, 1, 1), (15000, 1000), yes(
        2, 20, 152000, 5, erario=(15000, 1000), inps=(20000, 3000), regioni=(30000, 4000), imu=(40000, 5000), ident=(60000, 0)), UNREAD)
    made("filled-%s-inps" % word, filled, (1, 3, 1), (1, 0), yes(
        2, 20, 129001, 5, erario=(10000, 2000), inps=(1, 0), regioni=(30000, 4000), imu=(40000, 5000), ident=(60000, 0)), UNREAD)
    made("filled-%s-regioni" % word, filled, (1, 5, 1), (4000, 4000), yes(
        2, 20, 120000, 5, erario=(10000, 2000), inps=(20000, 3000), regioni=(4000, 4000), imu=(40000, 5000), ident=(60000, 0)), UNREAD)
    made("filled-%s-imu" % word, filled, (1, 7, 1), (0, 5000), yes(
        2, 20, 106000, 5, erario=(10000, 2000), inps=(20000, 3000), regioni=(30000, 4000), imu=(0, 5000), ident=(60000, 0)), UNREAD)
    made("filled-%s-ident" % word, filled, (2, 17, 1), (7, 0), yes(
        2, 20, 86007, 5, erario=(10000, 2000), inps=(20000, 3000), regioni=(30000, 4000), imu=(40000, 5000), ident=(7, 0)), UNREAD)
made("credits-of-50-01-stay", PLAIN, (1, 5, 2), (0, 3000), yes(1, 8, 7000, 2, regioni=(10000, 3000)),
     "Decision: 50-01's 79-93 is not written, although the builder puts the delega's credits there")

# --- Made: the tax code stays -----------------------------------------------------------------------------------------
CODE = "01, What a correction may touch: nothing else; 02, ask 2: demand 3 reads the amended list, and a code that passes is no fault"
for word, code in (("printed-in-02", PERSON), ("of-a-firm", FIRM), ("of-letters", "RSSMRAURTMLARSNL"), ("of-zeros", "00000000000     ")):
    made("code-%s-stays" % word, Told(dict(regioni=[(10000, 0), (0, 2500)], payer={"tax_code": code})), (1, 5, 1), (20000, 0),
         yes(1, 8, 17500, 2, regioni=(20000, 2500)), CODE)
BOTH = Told(dict(regioni=[(100, 50)], payer={"tax_code": PERSON}), dict(imu=[(7, 0)], payer={"tax_code": FIRM}))
made("codes-of-two-deleghe-stay", BOTH, (2, 7, 1), (8, 1), yes(2, 12, 57, 2, regioni=(100, 50), imu=(8, 1)), CODE)
made("codes-of-two-deleghe-same-amounts", BOTH, (1, 5, 1), (100, 50), yes(2, 12, 57, 2, regioni=(100, 50), imu=(7, 0)), "01: new amounts equal to the old leave every byte equal")

# --- Made: signs and balances -----------------------------------------------------------------------------------------
SIGN = "01, Sections: N when debits are below credits, P in all other cases, zero included"
turned = made("p-to-n", BESIDE, (1, 5, 1), (1000, 0), yes(1, 10, 18500, 3, erario=(20000, 0), regioni=(1000, 2500)), SIGN)
made("p-to-n-and-back", turned, (1, 5, 1), (10000, 0), yes(1, 10, 27500, 3, erario=(20000, 0), regioni=(10000, 2500)), SIGN)
made("n-by-one", BESIDE, (1, 5, 1), (2499, 0), yes(1, 10, 19999, 3, erario=(20000, 0), regioni=(2499, 2500)), SIGN)
made("p-to-n-by-the-credit", BESIDE, (1, 5, 2), (0, 10001), yes(1, 10, 19999, 3, erario=(20000, 0), regioni=(10000, 10001)), SIGN)
made("n-stays-n", turned, (1, 5, 1), (1, 0), yes(1, 10, 17501, 3, erario=(20000, 0), regioni=(1, 2500)), SIGN)
made("p-stays-p", BESIDE, (1, 5, 1), (2501, 0), yes(1, 10, 20001, 3, erario=(20000, 0), regioni=(2501, 2500)), SIGN)
ZERO = "01, Errors that would look right: writing N for a zero balance"
even = made("p-to-zero", BESIDE, (1, 5, 1), (2500, 0), yes(1, 10, 20000, 3, erario=(20000, 0), regioni=(2500, 2500)), ZERO)
made("n-to-zero", turned, (1, 5, 2), (0, 1000), yes(1, 10, 20000, 3, erario=(20000, 0), regioni=(1000, 1000)), ZERO)
made("zero-to-p", even, (1, 5, 2), (0, 2499), yes(1, 10, 20001, 3, erario=(20000, 0), regioni=(2500, 2499)), ZERO)
made("zero-to-n", even, (1, 5, 2), (0, 2501), yes(1, 10, 19999, 3, erario=(20000, 0), regioni=(2500, 2501)), ZERO)
made("final-balance-zero", PLAIN, (1, 5, 2), (0, 10000), yes(1, 8, 0, 2, regioni=(10000, 10000)),
     "01, Delega: zero is allowed; so is a tail sum of zero")
made("debit-becomes-credit", BESIDE, (1, 5, 1), (0, 10000), yes(1, 10, 7500, 3, erario=(20000, 0), regioni=(0, 12500)), SIGN)
made("credit-becomes-debit", PLAIN, (1, 5, 2), (2500, 0), yes(1, 8, 12500, 2, regioni=(12500, 0)), SIGN)
made("both-amounts", PLAIN, (1, 5, 1), (9000, 500), yes(1, 8, 6000, 2, regioni=(9000, 3000)), "01, Lines: both above zero is allowed")
made("by-new-less-old", PLAIN, (1, 5, 1), (10100, 0), yes(1, 8, 7600, 2, regioni=(10100, 2500)),
     "01, Errors that would look right: changing a section's balance by the new amount instead of by new less old")
made("final-balance-down-to-zero", Told(dict(erario=[(7501, 0)], regioni=[(2500, 0), (0, 10000)])), (1, 1, 1), (7500, 0),
     yes(1, 10, 0, 3, erario=(7500, 0), regioni=(2500, 10000)), "01, Examples: Regioni N 7500 with Erario debit 7500, final balance 0")

# --- Made: several deleghe, and one correction after another ----------------------------------------------------------
# Final balances 50, 150 and 402; debits 703, credits 101; records 21, of which four are lines.
THREE = Told(dict(regioni=[(100, 50)]), dict(regioni=[(200, 50)], after=1), dict(regioni=[(400, 0), (3, 1)], after=2))
OWN = "01, What a correction may touch: the final balance of that delega"
made("first-of-three", THREE, (1, 5, 1), (50, 50), yes(3, 21, 552, 4, regioni=(653, 101)), OWN)
made("second-of-three", THREE, (2, 5, 1), (1200, 50), yes(3, 21, 1602, 4, regioni=(1703, 101)), OWN)
made("last-line-of-last-delega", THREE, (3, 5, 2), (0, 400), yes(3, 21, 200, 4, regioni=(700, 500)),
     "01: a line is named by delega number, line subtype and its place in the section")
AGAIN = "01, Promises: a correction holds from any accepted flow, so for the tenth call too"
again = made("again-1", THREE, (3, 5, 1), (401, 0), yes(3, 21, 603, 4, regioni=(704, 101)), AGAIN)
again = made("again-2", again, (3, 5, 2), (4, 1), yes(3, 21, 604, 4, regioni=(705, 101)), AGAIN)
again = made("again-3", again, (1, 5, 1), (1, 1), yes(3, 21, 554, 4, regioni=(606, 52)), AGAIN)
tenth = PLAIN
for k in range(1, 11):
    tenth = made("cent-by-cent-%d" % k, tenth, (1, 5, 1), (10000 + k, 0), yes(1, 8, 7500 + k, 2, regioni=(10000 + k, 2500)), AGAIN)
there = made("there", ALL, (1, 7, 1), (0, 1), yes(
    2, 20, 110999, 5, erario=(10000, 2000), inps=(20000, 3000), regioni=(30000, 4000), imu=(0, 1), ident=(60000, 0)),
    "01, What a correction may touch")
made("and-back-again", there, (1, 7, 1), (40000, 5000), yes(
    2, 20, 146000, 5, erario=(10000, 2000), inps=(20000, 3000), regioni=(30000, 4000), imu=(40000, 5000), ident=(60000, 0)),
    "01, What a correction may touch: the old amounts give the old bytes")
made("delega-108", Told(*[dict(erario=[(5, 1)])] * 108), (108, 1, 1), (7, 1), yes(108, 542, 434, 108, erario=(542, 108)),
     "01, Numbers: a delega number of three digits")
made("last-of-546-records", Told(*[dict(ident=[(10000, 0)] * 28)] * 17), (17, 17, 28), (10001, 0),
     yes(17, 546, 4760001, 476, ident=(4760001, 0)),
     "01: at most 546 records, that is 65,520 bytes")

# --- Made: the same amounts -------------------------------------------------------------------------------------------
SAME = "01: new amounts equal to the old leave every byte equal"
made("same-plain-first", PLAIN, (1, 5, 1), (10000, 0), yes(1, 8, 7500, 2, regioni=(10000, 2500)), SAME)
made("same-plain-second", PLAIN, (1, 5, 2), (0, 2500), yes(1, 8, 7500, 2, regioni=(10000, 2500)), SAME)
UNCHANGED = yes(2, 20, 146000, 5, erario=(10000, 2000), inps=(20000, 3000), regioni=(30000, 4000), imu=(40000, 5000), ident=(60000, 0))
for number, subtype, debit, credit in ((1, 1, 10000, 2000), (1, 3, 20000, 3000), (1, 5, 30000, 4000), (1, 7, 40000, 5000),
                                       (2, 17, 60000, 0)):
    made("same-40-%02d" % subtype, ALL, (number, subtype, 1), (debit, credit), UNCHANGED, SAME)
made("same-in-n", turned, (1, 5, 2), (0, 2500), yes(1, 10, 18500, 3, erario=(20000, 0), regioni=(1000, 2500)), SAME)

# --- Made: the largest amounts ----------------------------------------------------------------------------------------
FIFTEEN = "01: amounts have fifteen digits; 999,999,999,999,999 is the largest"
for section, subtype in (("erario", 1), ("inps", 3), ("regioni", 5), ("imu", 7), ("ident", 17)):
    made("largest-debit-" + section, Told({section: [(1, 0)]}), (1, subtype, 1), (MOST, 0),
         yes(1, 7, MOST, 1, **{section: (MOST, 0)}), FIFTEEN)
for section, subtype in (("erario", 1), ("inps", 3), ("regioni", 5), ("imu", 7)):
    made("largest-both-" + section, Told({section: [(1, 0)]}), (1, subtype, 1), (MOST, MOST),
         yes(1, 7, 0, 1, **{section: (MOST, MOST)}), FIFTEEN)
made("largest-credit", Told(dict(erario=[(MOST, 0)], imu=[(0, 1)])), (1, 7, 1), (0, MOST),
     yes(1, 9, 0, 2, erario=(MOST, 0), imu=(0, MOST)), FIFTEEN)
made("largest-and-back-to-one", Told(dict(imu=[(MOST, 0)])), (1, 7, 1), (1, 0), yes(1, 7, 1, 1, imu=(1, 0)), FIFTEEN)
made("largest-total-debit", Told(dict(regioni=[(999999999999998, 0), (0, 1)])), (1, 5, 2), (1, 0),
     yes(1, 8, MOST, 2, regioni=(MOST, 0)), FIFTEEN)
made("largest-tail-sum", Told(dict(erario=[(999999999999998, 0)]), dict(imu=[(1, 1)])), (2, 7, 1), (1, 0),
     yes(2, 12, MOST, 2, erario=(999999999999998, 0), imu=(1, 0)), FIFTEEN)
made("sums-of-sixteen-digits", Told(dict(erario=[(MOST, MOST)]), dict(erario=[(1, 1)])), (2, 1, 1), (MOST, MOST),
     yes(2, 12, 0, 2, erario=(1999999999999998, 1999999999999998)),
     "Decision: a flow's section sums may need more than fifteen digits; no record stores them")
made("delega-sums-of-sixteen-digits", Told(dict(erario=[(MOST, MOST)], inps=[(MOST, MOST)], imu=[(1, 0)])), (1, 7, 1), (2, 0),
     yes(1, 11, 2, 3, erario=(MOST, MOST), inps=(MOST, MOST), imu=(2, 0)),
     "01, refusal 23: of the stored values alone; a delega's debits and credits are stored nowhere")

# --- 21 ---------------------------------------------------------------------------------------------------------------
NONE = "01, refusal 21: no such delega, section or line"
for name, told, line in (
        ("delega-0", PLAIN, (0, 5, 1)), ("delega-above-count", PLAIN, (2, 5, 1)), ("delega-above-count-of-two", ALL, (3, 17, 1)),
        ("delega-of-64-bits", PLAIN, (LAST, 5, 1)), ("delega-1-and-2-to-the-32", PLAIN, (4294967297, 5, 1)),
        ("absent-erario", PLAIN, (1, 1, 1)), ("absent-inps", PLAIN, (1, 3, 1)), ("absent-imu", PLAIN, (1, 7, 1)),
        ("absent-ident", PLAIN, (1, 17, 1)), ("section-of-the-next-delega", ALL, (1, 17, 1)),
        ("section-of-the-last-delega", ALL, (2, 7, 1)),
        ("place-0", PLAIN, (1, 5, 0)), ("place-beyond", PLAIN, (1, 5, 3)), ("place-beyond-the-most", PLAIN, (1, 5, 5)),
        ("place-of-64-bits", PLAIN, (1, 5, LAST)), ("place-1-and-2-to-the-32", PLAIN, (1, 5, 4294967297)),
        ("place-in-the-next-section", ALL, (1, 3, 2)), ("place-in-the-next-delega", THREE, (1, 5, 2)),
        ("subtype-0", PLAIN, (1, 0, 1)), ("subtype-9", PLAIN, (1, 9, 1)), ("subtype-99", PLAIN, (1, 99, 1)),
        ("subtype-5-and-2-to-the-8", PLAIN, (1, 261, 1)), ("subtype-5-and-2-to-the-32", PLAIN, (1, 4294967301, 1)),
        ("subtype-of-64-bits", PLAIN, (1, LAST, 1)), ("balance-subtype-2", ALL, (1, 2, 1)), ("balance-subtype-4", ALL, (1, 4, 1)),
        ("balance-subtype-6", PLAIN, (1, 6, 1)), ("balance-subtype-8", ALL, (1, 8, 1)), ("balance-subtype-18", ALL, (2, 18, 1))):
    refused("21-" + name, told, line, (1, 0), no(21, 0, 0), NONE)

# --- 22 ---------------------------------------------------------------------------------------------------------------
LONG = "01, refusal 22: above 999,999,999,999,999"
for word, amounts in (("debit", (OVER, 0)), ("credit", (1, OVER)), ("both", (OVER, OVER)), ("debit-of-64-bits", (LAST, 0)),
                      ("credit-of-64-bits", (1, LAST)), ("both-of-64-bits", (LAST, LAST))):
    refused("22-" + word, PLAIN, (1, 5, 1), amounts, no(22, 0, 0), LONG)
refused("22-ends-in-the-old-digits", PLAIN, (1, 5, 1), (1000000000010000, 0), no(22, 0, 0),
        "Decision: 22 goes by value; nothing is cut")
for number, subtype in ((1, 1), (1, 3), (1, 5), (1, 7), (2, 17)):
    refused("22-in-40-%02d" % subtype, ALL, (number, subtype, 1), (OVER, 0), no(22, 0, 0), LONG)

# --- 9 ----------------------------------------------------------------------------------------------------------------
RULE = "01: a correction's 9 carries record 0, position 0; Lines: not both zero, and no credit in section 17"
for number, subtype in ((1, 1), (1, 3), (1, 5), (1, 7), (2, 17)):
    refused("9-both-zero-40-%02d" % subtype, ALL, (number, subtype, 1), (0, 0), no(9, 0, 0), RULE)
refused("9-credit-1-in-17", ALL, (2, 17, 1), (60000, 1), no(9, 0, 0), RULE)
refused("9-credit-alone-in-17", ALL, (2, 17, 1), (0, 5), no(9, 0, 0), RULE)
refused("9-largest-credit-in-17", ALL, (2, 17, 1), (MOST, MOST), no(9, 0, 0), RULE)

# --- 14 ---------------------------------------------------------------------------------------------------------------
BELOW = "01: a correction's 14 carries record 0, position 0; Delega: negative is not allowed"
refused("14-erario-7499", BARE, (1, 1, 1), (7499, 0), no(14, 0, 0), BELOW)
refused("14-by-a-credit", PLAIN, (1, 5, 2), (0, 10001), no(14, 0, 0), BELOW)
refused("14-by-a-debit", PLAIN, (1, 5, 1), (2499, 0), no(14, 0, 0), BELOW)
refused("14-by-the-largest", PLAIN, (1, 5, 2), (0, MOST), no(14, 0, 0), BELOW)
refused("14-first-of-three", THREE, (1, 5, 1), (50, 51), no(14, 0, 0), "01, Delega: no other delega makes up for it")
refused("14-last-of-three", THREE, (3, 5, 1), (0, 3), no(14, 0, 0), "01, Delega: no other delega makes up for it")

# --- 23 ---------------------------------------------------------------------------------------------------------------
STORED = "01, refusal 23: a new stored total, balance or sum has more digits than its field"
refused("23-example", Told(dict(regioni=[(MOST, 0), (0, 1)])), (1, 5, 2), (1, 0), no(23, 0, 0),
        "01, Examples: Regioni lines (999999999999999, 0) and (0, 1): correcting the second to (1, 0) gives 23")
for section, subtype, other in (("erario", 1, "imu"), ("inps", 3, "imu"), ("regioni", 5, "imu"), ("imu", 7, "erario")):
    # Total debit 10^15, total credit 15, balance 999999999999985.
    refused("23-total-debit-" + section, Told({section: [(MOST, 5), (0, 1)]}), (1, subtype, 2), (1, 10), no(23, 0, 0), STORED)
    # Total credit 10^15, total debit 6, balance N 999999999999994; final balance 5.
    refused("23-total-credit-" + section, Told({section: [(5, MOST), (1, 0)], other: [(MOST, 0)]}), (1, subtype, 2), (1, 1),
            no(23, 0, 0), STORED)
refused("23-balance-in-17", Told(dict(ident=[(999999999999998, 0), (1, 0)])), (1, 17, 2), (2, 0), no(23, 0, 0), STORED)
refused("23-balance-in-17-of-28", Told(dict(ident=[(1, 0)] * 28)), (1, 17, 28), (999999999999973, 0), no(23, 0, 0), STORED)
refused("23-final-balance", Told(dict(erario=[(MOST, 0)], inps=[(1, 1)])), (1, 3, 1), (1, 0), no(23, 0, 0), STORED)
refused("23-tail-sum", Told(dict(erario=[(MOST, 0)]), dict(imu=[(1, 1)])), (2, 7, 1), (1, 0), no(23, 0, 0), STORED)
refused("23-tail-sum-first-delega", Told(dict(erario=[(1, 1)]), dict(imu=[(MOST, 0)])), (1, 1, 1), (1, 0), no(23, 0, 0), STORED)

# --- Their order: 21, 22, 9, 14, 23 -----------------------------------------------------------------------------------
ORDER = "01: a correction then tries 21, 22, 9, 14, 23 in this order"
refused("21-before-22", PLAIN, (2, 5, 1), (OVER, 0), no(21, 0, 0), ORDER)
refused("21-before-9", PLAIN, (1, 5, 3), (0, 0), no(21, 0, 0), ORDER)
refused("21-before-14", PLAIN, (1, 7, 1), (0, MOST), no(21, 0, 0), ORDER)
refused("22-before-9", ALL, (2, 17, 1), (100, OVER), no(22, 0, 0), ORDER)
refused("22-before-9-by-the-debit", ALL, (2, 17, 1), (OVER, 1), no(22, 0, 0), ORDER)
refused("22-before-14", PLAIN, (1, 5, 2), (0, OVER), no(22, 0, 0), ORDER)
refused("22-before-23", PLAIN, (1, 5, 1), (LAST, 0), no(22, 0, 0), ORDER)
refused("9-before-14", BARE, (1, 1, 1), (0, 0), no(9, 0, 0), ORDER)
refused("9-before-14-by-a-debit", PLAIN, (1, 5, 1), (0, 0), no(9, 0, 0), ORDER)
refused("9-before-23", Told(dict(ident=[(999999999999998, 0), (1, 0)])), (1, 17, 2), (2, 1), no(9, 0, 0), ORDER)
# Total credit 10^15 against debits of 999999999999999.
refused("14-before-23", Told(dict(erario=[(MOST, 0)], regioni=[(0, MOST), (1, 0)])), (1, 5, 2), (0, 1), no(14, 0, 0), ORDER)

# --- A flow's own refusal comes first ---------------------------------------------------------------------------------
JUDGED = "01: every call on a flow judges it first and gives that refusal if there is one"
wrong = plain().put(6, 46, "000000000012500")
refused("own-13-before-21", wrong, (0, 5, 1), (1, 0), no(13, 6, 46), JUDGED)
refused("own-13-before-22", wrong, (1, 5, 1), (OVER, 0), no(13, 6, 46), JUDGED)
refused("own-13-before-9", wrong, (1, 5, 1), (0, 0), no(13, 6, 46), JUDGED)
refused("own-13-before-14", wrong, (1, 5, 2), (0, 10001), no(13, 6, 46), JUDGED)
refused("own-13-where-all-else-is-right", wrong, (1, 5, 1), (10000, 0), no(13, 6, 46), JUDGED)
refused("own-10-that-the-line-would-mend", plain().put(4, 29, "000000000010001"), (1, 5, 1), (10000, 0), no(10, 6, 15), JUDGED)
refused("own-7-that-the-line-would-mend", plain().put(4, 29, "00000000010000 "), (1, 5, 1), (10000, 0), no(7, 4, 43), JUDGED)
refused("own-9-with-its-place", flow(delega(regioni=[(0, 0), (5, 0)])), (1, 5, 1), (5, 0), no(9, 4, 29), JUDGED)
refused("own-14-with-its-place", flow(delega(erario=[(7499, 0)], regioni=[(2500, 0), (0, 10000)])), (1, 1, 1), (7500, 0),
        no(14, 9, 2), JUDGED)
refused("own-20-with-its-place", plain().put(8, 53, "000000000007501"), (1, 5, 1), (10001, 0), no(20, 8, 53), JUDGED)
refused("own-17-no-such-day", plain(date="310215"), (1, 5, 1), (10001, 0), no(17, 1, 14), JUDGED + "; 02, ask 4: valid only if the day exists in that month")
OWN_CODE = JUDGED + "; 02, ask 2: 26 at the field's start"
mistyped = plain().put(2, 11, WRONG_CODE)
refused("own-26-where-all-else-is-right", mistyped, (1, 5, 1), (10001, 0), no(26, 2, 11), OWN_CODE)
refused("own-26-to-the-same-amounts", mistyped, (1, 5, 1), (10000, 0), no(26, 2, 11), OWN_CODE)
refused("own-26-before-21", mistyped, (0, 5, 1), (1, 0), no(26, 2, 11), OWN_CODE)
refused("own-26-before-21-no-such-line", mistyped, (1, 17, 1), (1, 0), no(26, 2, 11), OWN_CODE)
refused("own-26-before-22", mistyped, (1, 5, 1), (OVER, 0), no(26, 2, 11), OWN_CODE)
refused("own-26-before-9", mistyped, (1, 5, 1), (0, 0), no(26, 2, 11), OWN_CODE)
refused("own-26-before-14", mistyped, (1, 5, 2), (0, 10001), no(26, 2, 11), OWN_CODE)
refused("own-26-before-23", flow(delega(regioni=[(MOST, 0), (0, 1)])).put(2, 11, WRONG_CODE), (1, 5, 2), (1, 0), no(26, 2, 11), OWN_CODE)
refused("own-26-of-another-delega", full().put(15, 11, WRONG_CODE), (1, 5, 1), (1, 0), no(26, 15, 11), OWN_CODE)
refused("own-26-of-an-earlier-delega", full().put(2, 11, " " * 16), (2, 17, 1), (1, 0), no(26, 2, 11), OWN_CODE)
refused("own-26-lower-case", plain().put(2, 11, PERSON.lower()), (1, 5, 1), (10001, 0), no(26, 2, 11), OWN_CODE)
refused("own-26-of-a-firm", plain().put(2, 11, "03417520546     "), (1, 5, 1), (10001, 0), no(26, 2, 11), OWN_CODE)
refused("own-26-before-a-later-13", plain().put(2, 11, WRONG_CODE).put(6, 46, "000000000012500"), (1, 5, 1), (10001, 0), no(26, 2, 11), OWN_CODE)
refused("own-8-before-26", plain().put(2, 11, WRONG_CODE).put(2, 4, "0000002"), (1, 5, 1), (10001, 0), no(8, 2, 4), JUDGED + "; 02, ask 2: 26 after 8 in the same record")
refused("own-3-in-a-filler", plain().put(8, 120, b"\x7f"), (1, 5, 1), (1, 0), no(3, 8, 120), JUDGED)
refused("own-4-behind-the-tail", plain().add(bytearray(b" " * 120)), (1, 5, 1), (10001, 0), no(4, 9, 2), JUDGED)
refused("own-5-without-tail", plain().keep(7), (1, 5, 1), (10001, 0), no(5, 8, 0), JUDGED)
refused("own-2-of-no-bytes", b"", (1, 5, 1), (1, 0), no(2, 0, 0), JUDGED)
refused("own-2-of-119-bytes", bytes(plain())[:119], (1, 5, 1), (1, 0), no(2, 0, 0), JUDGED)
refused("own-1-of-65521-bytes", flow(*[delega(ident=[(10000, 0)] * 28)] * 17).bytes_after(b" "), (1, 17, 1), (1, 0),
        no(1, 0, 0), JUDGED)
