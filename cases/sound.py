"""Sound flows. Each answers its own sums."""

from case import case, yes
from common import fill_unread, full, plain
from flow import delega, flow

MOST = 999999999999999          # fifteen nines

case("printed-whole", yes(1, 8, 7500, 2, regioni=(10000, 2500)), plain(),
     "01, Examples: the answer printed whole; 02, ask 9: it becomes ACCEPTED 1 8 7500 2")
case("every-kind-of-record", yes(2, 20, 146000, 5, erario=(10000, 2000), inps=(20000, 3000), regioni=(30000, 4000),
                                 imu=(40000, 5000), ident=(60000, 0)), full(),
     "01, Order of the records: all five sections, 50-02 and 50-03")

# --- Which sections a delega has --------------------------------------------------------------------------------------
E, I, R, L = {"erario": [(1000, 100)]}, {"inps": [(2000, 200)]}, {"regioni": [(4000, 400)]}, {"imu": [(8000, 800)]}
for sections, records, total, lines in [
        ([E], 7, 900, 1), ([I], 7, 1800, 1), ([R], 7, 3600, 1), ([L], 7, 7200, 1),
        ([E, I], 9, 2700, 2), ([E, R], 9, 4500, 2), ([E, L], 9, 8100, 2), ([I, R], 9, 5400, 2), ([I, L], 9, 9000, 2), ([R, L], 9, 10800, 2),
        ([E, I, R], 11, 6300, 3), ([E, I, L], 11, 9900, 3), ([E, R, L], 11, 11700, 3), ([I, R, L], 11, 12600, 3),
        ([E, I, R, L], 13, 13500, 4)]:
    told = {name: x for s in sections for name, x in s.items()}
    case("sections-" + "-".join(told), yes(1, records, total, lines, **{name: x[0] for name, x in told.items()}),
         flow(delega(**told)), "01, Order: section 17 alone or any of the other four")
case("sections-ident", yes(1, 7, 900, 1, ident=(900, 0)), flow(delega(ident=[(900, 0)])),
     "01, Order: section 17 alone")

# --- Most lines -------------------------------------------------------------------------------------------------------
case("most-erario", yes(1, 12, 21, 6, erario=(21, 0)), flow(delega(erario=[(k, 0) for k in (1, 2, 3, 4, 5, 6)])),
     "01, table of sections: six Erario lines")
case("most-inps", yes(1, 10, 10, 4, inps=(10, 0)), flow(delega(inps=[(1, 0), (2, 0), (3, 0), (4, 0)])),
     "01, table of sections: four INPS lines")
case("most-regioni", yes(1, 10, 10, 4, regioni=(10, 0)), flow(delega(regioni=[(1, 0), (2, 0), (3, 0), (4, 0)])),
     "01, Examples: four Regioni lines pass")
case("most-imu", yes(1, 10, 10, 4, imu=(10, 0)), flow(delega(imu=[(1, 0), (2, 0), (3, 0), (4, 0)])),
     "01, table of sections: four IMU lines")
case("most-ident", yes(1, 34, 2800, 28, ident=(2800, 0)), flow(delega(ident=[(100, 0)] * 28)),
     "01, table of sections: 28 lines with identifying elements")
four_most = dict(erario=[(10, 1)] * 6, inps=[(20, 2)] * 4, regioni=[(30, 3)] * 4, imu=[(40, 4)] * 4)
case("most-in-all-four", yes(1, 27, 378, 18, erario=(60, 6), inps=(80, 8), regioni=(120, 12), imu=(160, 16)),
     flow(delega(**four_most)), "01, table of sections: most lines in each of the four")
case("most-twice", yes(2, 52, 756, 36, erario=(120, 12), inps=(160, 16), regioni=(240, 24), imu=(320, 32)),
     flow(delega(**four_most), delega(**four_most)), "01, Order: the lines are counted anew in each delega")
case("most-ident-twice", yes(2, 66, 5600, 56, ident=(5600, 0)), flow(delega(ident=[(100, 0)] * 28), delega(ident=[(100, 0)] * 28)),
     "01, Order: the lines are counted anew in each delega")

# --- 50-02 and 50-03 --------------------------------------------------------------------------------------------------
case("with-50-02", yes(1, 8, 5, 1, regioni=(5, 0)), flow(delega(regioni=[(5, 0)], after=1)),
     "01, Order: at most one 50-02")
case("with-50-02-and-50-03", yes(1, 9, 5, 1, regioni=(5, 0)), flow(delega(regioni=[(5, 0)], after=2)),
     "01, Order: after a 50-02 at most one 50-03")
case("with-50-02-then-delega", yes(2, 13, 12, 2, erario=(7, 0), regioni=(5, 0)),
     flow(delega(regioni=[(5, 0)], after=1), delega(erario=[(7, 0)])), "01, Order: a 10 after a 50-02")
case("with-50-03-then-delega", yes(2, 14, 12, 2, erario=(7, 0), regioni=(5, 0)),
     flow(delega(regioni=[(5, 0)], after=2), delega(erario=[(7, 0)])), "01, Order: a 10 after a 50-03")
case("flag-2-without-50-03", yes(1, 8, 5, 1, regioni=(5, 0)), flow(delega(regioni=[(5, 0)], after=1)).put(7, 63, "2"),
     "01: of 50-02 only type, number, subtype and characters are judged; 000 wants a 50-03 after flag 2")
case("flag-1-with-50-03", yes(1, 9, 5, 1, regioni=(5, 0)), flow(delega(regioni=[(5, 0)], after=2)).put(7, 63, "1"),
     "01: of 50-02 only type, number, subtype and characters are judged")

# --- Lines and balances -----------------------------------------------------------------------------------------------
case("both-amounts-erario", yes(1, 7, 4, 1, erario=(9, 5)), flow(delega(erario=[(9, 5)])),
     "01, Lines: both above zero is allowed")
case("both-amounts-inps", yes(1, 7, 4, 1, inps=(9, 5)), flow(delega(inps=[(9, 5)])),
     "01, Lines: both above zero is allowed")
case("both-amounts-regioni", yes(1, 7, 4, 1, regioni=(9, 5)), flow(delega(regioni=[(9, 5)])),
     "01, Errors that would look right: refusing a Regioni line with a debit and a credit")
case("both-amounts-imu", yes(1, 7, 4, 1, imu=(9, 5)), flow(delega(imu=[(9, 5)])), "01, Lines: both above zero is allowed")
case("zero-balance-erario", yes(1, 7, 0, 1, erario=(5, 5)), flow(delega(erario=[(5, 5)])), "01, Sections: P with zero")
case("zero-balance-inps", yes(1, 7, 0, 1, inps=(5, 5)), flow(delega(inps=[(5, 5)])), "01, Sections: P with zero")
case("zero-balance-regioni", yes(1, 7, 0, 1, regioni=(5, 5)), flow(delega(regioni=[(5, 5)])), "01, Sections: P with zero")
case("zero-balance-imu", yes(1, 7, 0, 1, imu=(5, 5)), flow(delega(imu=[(5, 5)])), "01, Sections: P with zero")
case("zero-by-two-lines", yes(1, 8, 0, 2, imu=(5, 5)), flow(delega(imu=[(5, 0), (0, 5)])), "01, Sections: P with zero")
case("regioni-n-final-zero", yes(1, 10, 0, 3, erario=(7500, 0), regioni=(2500, 10000)),
     flow(delega(erario=[(7500, 0)], regioni=[(2500, 0), (0, 10000)])),
     "01, Examples: Regioni N 7500 with Erario debit 7500 is accepted with final balance 0")
case("negative-erario", yes(1, 9, 1, 2, erario=(0, 9), imu=(10, 0)), flow(delega(erario=[(0, 9)], imu=[(10, 0)])),
     "01, Sections: N when debits are below credits")
case("negative-inps", yes(1, 9, 1, 2, inps=(0, 9), imu=(10, 0)), flow(delega(inps=[(0, 9)], imu=[(10, 0)])),
     "01, Sections: N when debits are below credits")
case("negative-regioni", yes(1, 9, 1, 2, regioni=(0, 9), imu=(10, 0)), flow(delega(regioni=[(0, 9)], imu=[(10, 0)])),
     "01, Sections: N when debits are below credits")
case("negative-imu", yes(1, 9, 1, 2, erario=(10, 0), imu=(0, 9)), flow(delega(erario=[(10, 0)], imu=[(0, 9)])),
     "01, Sections: N when debits are below credits")
case("negative-by-one", yes(1, 9, 0, 2, erario=(1, 0), regioni=(0, 1)), flow(delega(erario=[(1, 0)], regioni=[(0, 1)])),
     "01, Sections: sums (0, 1) give N 1")
case("all-final-zero", yes(2, 12, 0, 2, erario=(5, 5), imu=(8, 8)), flow(delega(erario=[(5, 5)]), delega(imu=[(8, 8)])),
     "01, Delega: zero is allowed; so is a tail sum of zero")
case("sums-start-at-zero", yes(3, 17, 600, 3, regioni=(700, 100)),
     flow(delega(regioni=[(100, 50)]), delega(regioni=[(200, 50)]), delega(regioni=[(400, 0)])),
     "01, Delega: sums start at zero for every delega")

# --- Great amounts ----------------------------------------------------------------------------------------------------
case("largest-amount-erario", yes(1, 7, MOST, 1, erario=(MOST, 0)), flow(delega(erario=[(MOST, 0)])), "01: fifteen digits")
case("largest-amount-inps", yes(1, 7, MOST, 1, inps=(MOST, 0)), flow(delega(inps=[(MOST, 0)])), "01: fifteen digits")
case("largest-amount-regioni", yes(1, 7, MOST, 1, regioni=(MOST, 0)), flow(delega(regioni=[(MOST, 0)])),
     "01: fifteen digits")
case("largest-amount-imu", yes(1, 7, MOST, 1, imu=(MOST, 0)), flow(delega(imu=[(MOST, 0)])), "01: fifteen digits")
case("largest-amount-ident", yes(1, 7, MOST, 1, ident=(MOST, 0)), flow(delega(ident=[(MOST, 0)])), "01: fifteen digits")
case("largest-negative", yes(1, 9, 0, 2, erario=(MOST, 0), imu=(0, MOST)), flow(delega(erario=[(MOST, 0)], imu=[(0, MOST)])),
     "01: fifteen digits, sign N")
case("largest-less-one", yes(1, 8, 999999999999998, 2, regioni=(MOST, 1)), flow(delega(regioni=[(MOST, 0), (0, 1)])),
     "01, Examples: the flow whose correction gives 23")
case("largest-tail-sum", yes(2, 12, MOST, 2, erario=(999999999999998, 0), imu=(1, 0)),
     flow(delega(erario=[(999999999999998, 0)]), delega(imu=[(1, 0)])), "01: the tail's sum in fifteen digits")
case("sums-of-sixteen-digits", yes(2, 12, 0, 2, erario=(1999999999999998, 1999999999999998)),
     flow(delega(erario=[(MOST, MOST)]), delega(erario=[(MOST, MOST)])),
     "Decision: a flow's section sums may need more than fifteen digits and are reported whole")
case("sums-over-in-all-four", yes(2, 24, 4, 8, erario=(1999999999999998, 1999999999999994), inps=(1999999999999998, 1999999999999998),
                                  regioni=(1999999999999998, 1999999999999998), imu=(1999999999999998, 1999999999999998)),
     flow(*[delega(erario=[(MOST, 999999999999997)], inps=[(MOST, MOST)], regioni=[(MOST, MOST)], imu=[(MOST, MOST)])] * 2),
     "Decision: a delega's debits and credits may pass fifteen digits while every stored field holds")

# --- Head and tail ----------------------------------------------------------------------------------------------------
for date in ("010100", "311299", "010126", "311226", "150600",
             "310116", "290216", "310316", "300416", "310516", "300616", "310716", "310816", "300916", "311016", "301116", "311216"):
    case("date-" + date, yes(1, 8, 7500, 2, regioni=(10000, 2500)), plain(date=date),
         "02, ask 4: valid if the day exists in that month; 2016 is a leap year")
for date in ("290200", "290204", "290208", "290220", "290296", "280215", "280201", "280299"):
    case("date-february-" + date, yes(1, 8, 7500, 2, regioni=(10000, 2500)), plain(date=date),
         "02, ask 4: years are 2000 to 2099, with a leap year each fourth, 2000 among them (Decision)")
for name, text in (("blank", " " * 20), ("full-width", "ABCDEFGHIJKLMNOPQRST"), ("lower", "torrefazione sassovivo"[:20]),
                   ("marks", ".0;9~!-_\"'()*+,<=>?@"), ("lead-blank", "                   Z")):
    case("name-" + name, yes(1, 8, 7500, 2, regioni=(10000, 2500)), plain(name=text),
         "01, Name: only / and : are shut out; a blank name is allowed")
OLD = yes(1, 8, 7500, 2, regioni=(10000, 2500))
case("ef-other-sender", OLD, plain().put(8, 4, "ZZZZZ"), "01 lists the checks: EF's sender is none of them")
case("ef-other-bank", OLD, plain().put(8, 9, "     "), "01 lists the checks: EF's receiver is none of them")
case("ef-other-date", OLD, plain().put(8, 14, "110625"), "Decision: EF's own date is not read")
case("ef-blank-date", OLD, plain().put(8, 14, "      "), "Decision: EF's own date is not read")
case("ef-bad-date", OLD, plain().put(8, 14, "991399"), "Decision: EF's own date is not read")
case("ef-other-currency", OLD, plain().put(8, 114, "I"), "01 lists the checks: EF's currency is none of them")
case("ef-negative-total", OLD, plain().put(8, 68, "000000000007500"), "Decision: EF 68-82 is not read")
case("ef-negative-total-blank", OLD, plain().put(8, 68, " " * 15), "Decision: EF 68-82 is not read")
case("50-01-credits-blank", OLD, plain().put(7, 79, " " * 15), "Decision: 50-01 79-93 is not read")
case("50-01-credits-wrong", OLD, plain().put(7, 79, "000000000009999"), "Decision: 50-01 79-93 is not read")
case("50-01-flag-n", OLD, plain().put(7, 51, "N"), "01: 50-01 has no sign in 000, so 51 is none")
case("f4-fixed-values-absent", OLD, plain().put(1, 105, " " * 16),
     "01 lists the checks: F4's fixed values are none of them")
case("protocol-zero", OLD, plain().put(2, 107, "0000000"), "01 lists the checks: protocol numbers are none of them")
case("line-place-repeated", OLD, plain().put(5, 15, "01"), "01: other fields are not read")
case("payment-date-impossible", OLD, plain().put(3, 73, "20259999"), "01: other fields are not read")
case("40-18-totals-place", yes(1, 7, 900, 1, ident=(900, 0)), flow(delega(ident=[(900, 0)])).put(5, 13, "9" * 30),
     "01: 40-18 has no totals; 13-42 is not read")
case("f4-slash-beside-name", OLD, plain().put(1, 40, "/:/:/:"),
     "01, Name: the name is 20-39, the sender's own field behind it is not")
EVERY = yes(2, 20, 146000, 5, erario=(10000, 2000), inps=(20000, 3000), regioni=(30000, 4000), imu=(40000, 5000), ident=(60000, 0))
for word, character in (("blank", " "), ("tilde", "~"), ("nine", "9"), ("slash", "/"), ("colon", ":"), ("letter-n", "N")):
    case("unread-all-" + word, EVERY, fill_unread(full(), character),
         "01: fillers and other fields are not read, save for the character check (32 and 126 pass)")

# --- The number of lines ----------------------------------------------------------------------------------------------
LINES = "02, ask 9: the first line gains the line count as a fourth number"
case("lines-6-3-2-1", yes(1, 21, 22, 12, erario=(12, 6), inps=(9, 3), regioni=(8, 2), imu=(5, 1)),
     flow(delega(erario=[(2, 1)] * 6, inps=[(3, 1)] * 3, regioni=[(4, 1)] * 2, imu=[(5, 1)])), LINES + ": of all sections together")
case("lines-1-2-3-4", yes(1, 19, 100, 10, erario=(10, 0), inps=(20, 0), regioni=(30, 0), imu=(40, 0)),
     flow(delega(erario=[(10, 0)], inps=[(10, 0)] * 2, regioni=[(10, 0)] * 3, imu=[(10, 0)] * 4)), LINES + ": of all sections together")
case("lines-and-as-many-balance-records", yes(3, 35, 45, 12, erario=(3, 0), inps=(6, 0), regioni=(12, 0), imu=(24, 0)),
     flow(*[delega(erario=[(1, 0)], inps=[(2, 0)], regioni=[(4, 0)], imu=[(8, 0)])] * 3), LINES + "; 01, Order: a balance record is no line, though both are 40")
case("lines-beside-50-02-and-50-03", yes(3, 21, 26, 4, regioni=(5, 0), imu=(8, 0), ident=(13, 0)),
     flow(delega(regioni=[(5, 0)], after=2), delega(ident=[(6, 0), (7, 0)], after=1), delega(imu=[(8, 0)])), LINES + "; 01, Order: a 50-02 and a 50-03 are no lines")
case("lines-6-28-5-2", yes(4, 60, 91, 41, erario=(6, 0), inps=(3, 0), regioni=(10, 0), imu=(16, 0), ident=(56, 0)),
     flow(delega(erario=[(1, 0)] * 6), delega(ident=[(2, 0)] * 28), delega(inps=[(3, 0)], imu=[(4, 0)] * 4), delega(regioni=[(5, 0)] * 2)),
     LINES + ": over all deleghe")
case("lines-2-5-28-6", yes(4, 60, 91, 41, erario=(6, 0), inps=(3, 0), regioni=(10, 0), imu=(16, 0), ident=(56, 0)),
     flow(delega(regioni=[(5, 0)] * 2), delega(inps=[(3, 0)], imu=[(4, 0)] * 4), delega(ident=[(2, 0)] * 28), delega(erario=[(1, 0)] * 6)),
     LINES + ": over all deleghe, whichever is the last")
case("lines-1-2-3-4-5-6", yes(6, 47, 91, 21, ident=(91, 0)), flow(*[delega(ident=[(k, 0)] * k) for k in (1, 2, 3, 4, 5, 6)]),
     LINES + ": over all deleghe, here of k lines of k cents each")
case("lines-of-no-balance", yes(2, 16, 0, 5, erario=(5, 5), inps=(6, 6), imu=(7, 7)),
     flow(delega(erario=[(5, 0), (0, 5)], imu=[(7, 7)]), delega(inps=[(6, 0), (0, 6)])), LINES + ", whatever they come to")
case("lines-393-records-546", yes(22, 546, 9438, 393, erario=(1260, 126), inps=(1680, 168), regioni=(2520, 252), imu=(3360, 336), ident=(1500, 0)),
     flow(*[delega(**four_most)] * 21, delega(ident=[(100, 0)] * 15)), LINES + ": 21 times 18 and 15, in 65,520 bytes")

# --- Many records -----------------------------------------------------------------------------------------------------
case("deleghe-108-records-546", yes(108, 546, 108, 108, erario=(107999999999999892, 107999999999999784)),
     flow(*[delega(erario=[(MOST, 999999999999998)])] * 106,
          *[delega(erario=[(MOST, 999999999999998)], after=2)] * 2),
     "01, Examples: 65,520 bytes are judged; 108 deleghe are the most they hold; section sums of eighteen digits")
case("deleghe-17-records-546", yes(17, 546, 4760000, 476, ident=(4760000, 0)), flow(*[delega(ident=[(10000, 0)] * 28)] * 17),
     "01, Examples: 65,520 bytes are judged; 17 times 28 lines are the most they hold")
case("deleghe-eleven", yes(11, 59, 5512, 11, erario=(1002, 0), inps=(1002, 0), regioni=(1002, 0), imu=(1002, 0), ident=(1504, 0)),
     flow(*[delega(erario=[(501, 0)]), delega(inps=[(501, 0)], after=1), delega(regioni=[(501, 0)]), delega(imu=[(501, 0)])] * 2,
          delega(ident=[(501, 0)]), delega(ident=[(501, 0)]), delega(ident=[(502, 0)])),
     "01, Numbers: each next one is one more, up to 0000011")
