"""Refusals 9 to 15: lines, sections, the final balance."""

from case import case, no
from common import full, plain
from flow import delega, flow

MOST = 999999999999999          # fifteen nines

# --- 9: the line rule -------------------------------------------------------------------------------------------------
for name, debit in (("erario", 27), ("inps", 52), ("regioni", 29), ("imu", 31), ("ident", 41)):
    case("line-0-0-" + name, no(9, 4, debit), flow(delega(**{name: [(0, 0)]})),
         "01, refusal 9: start of debit if both are zero")
    case("line-0-0-second-" + name, no(9, 5, debit), flow(delega(**{name: [(7, 0), (0, 0)]})),
         "01, refusal 9: every line obeys the rule")
case("line-0-5-ident", no(9, 4, 56), flow(delega(ident=[(0, 5)])), "01, Examples: line (0, 5) in 40-17 gives 9 at 56")
case("line-100-1-ident", no(9, 4, 56), flow(delega(ident=[(100, 1)])),
     "01, Lines: in section 17 the credit must be zero")
case("line-5-5-ident", no(9, 4, 56), flow(delega(ident=[(5, 5)])), "01, Lines: in section 17 the credit must be zero")
case("line-credit-last-ident", no(9, 31, 56), flow(delega(ident=[(5, 0)] * 27 + [(5, MOST)])),
     "01, Lines: in section 17 the credit must be zero")

# --- 10 to 13: balance records ----------------------------------------------------------------------------------------
# Lines (10000, 2000) and (3000, 500): records 4 and 5, balance record 6 with 13000, 2500, P, 10500.
FOUR = [("erario", 13, 28, 43, 44), ("inps", 13, 28, 43, 44), ("regioni", 15, 30, 45, 46), ("imu", 17, 32, 47, 48)]
for name, total_debit, total_credit, sign, balance in FOUR:
    def two():
        return flow(delega(**{name: [(10000, 2000), (3000, 500)]}))
    for word, text in (("one-more", "000000000013001"), ("last-line-only", "000000000003000"), ("zero", "000000000000000"),
                       ("far-off", "100000000013000")):
        case("total-debit-%s-%s" % (name, word), no(10, 6, total_debit), two().put(6, total_debit, text),
             "01, Sections: total debit")
    for word, text in (("one-less", "000000000002499"), ("first-line-only", "000000000002000"), ("far-off", "900000000002500")):
        case("total-credit-%s-%s" % (name, word), no(11, 6, total_credit), two().put(6, total_credit, text),
             "01, Sections: total credit")
    for word, text in (("n", "N"), ("blank", " "), ("lower", "p"), ("plus", "+"), ("zero", "0")):
        case("sign-%s-%s" % (name, word), no(12, 6, sign), two().put(6, sign, text),
             "01, refusal 12: sign wrong or no sign")
    for word, text in (("one-more", "000000000010501"), ("one-less", "000000000010499"), ("debits-only", "000000000013000"),
                       ("far-off", "100000000010500")):
        case("balance-%s-%s" % (name, word), no(13, 6, balance), two().put(6, balance, text),
             "01, Sections: the balance is the difference")
    case("sign-n-for-zero-" + name, no(12, 5, sign), flow(delega(**{name: [(5, 5)]})).put(5, sign, "N"),
         "01, Errors that would look right: writing N for a zero balance")
    case("totals-swapped-" + name, no(10, 6, total_debit), two().put(6, total_debit, "000000000002500" + "000000000013000"),
         "01: 10 before 11")
    # By the numbers of the checks: 10, 11, 12, 13.
    wrong = [(total_debit, "9" * 15), (total_credit, "9" * 15), (sign, "N"), (balance, "9" * 15)]
    for k, number in enumerate((10, 11, 12)):
        built = two()
        for position, text in wrong[k:]:
            built.put(6, position, text)
        case("%d-and-later-%s" % (number, name), no(number, 6, wrong[k][0]), built,
             "01: within a record in the order of the numbers")
    # A sum of sixteen digits fits no field.
    case("sixteen-digits-debit-" + name, no(10, 6, total_debit), flow(delega(**{name: [(MOST, 0), (1, 0)]})),
         "Decision: a total of 10^15 cannot equal its field, which holds zeros here")
    case("sixteen-digits-debit-nines-" + name, no(10, 6, total_debit),
         flow(delega(**{name: [(MOST, 0), (1, 0)]})).put(6, total_debit, "9" * 15),
         "Decision: a total of 10^15 cannot equal its field")
    case("sixteen-digits-credit-" + name, no(11, 6, total_credit), flow(delega(**{name: [(MOST, MOST), (0, 1)]})),
         "Decision: a total of 10^15 cannot equal its field, which holds zeros here")

# Section 17: sign 43 and balance 44 of record 6; no totals. Lines 10000 and 3000.
ident = lambda: flow(delega(ident=[(10000, 0), (3000, 0)]))
for word, text in (("n", "N"), ("blank", " "), ("lower", "p"), ("plus", "+"), ("zero", "0")):
    case("sign-ident-" + word, no(12, 6, 43), ident().put(6, 43, text), "01, refusal 12: sign wrong or no sign")
for word, text in (("one-more", "000000000013001"), ("one-less", "000000000012999"), ("last-line-only", "000000000003000"),
                   ("far-off", "100000000013000")):
    case("balance-ident-" + word, no(13, 6, 44), ident().put(6, 44, text), "01, refusal 13 in 40-18")
case("12-and-13-ident", no(12, 6, 43), ident().put(6, 43, "N" + "9" * 15), "01: 12 before 13")
case("sixteen-digits-ident", no(13, 6, 44), flow(delega(ident=[(MOST, 0), (1, 0)])),
     "Decision: a balance of 10^15 cannot equal its field")
case("seventeen-digits-ident", no(13, 32, 44), flow(delega(ident=[(MOST, 0)] * 28)),
     "Decision: 28 times the largest amount; nothing is cut")

# A section with debits below credits: N. (built flow, record of the balance, sign, balance)
NEGATIVE = [("erario", dict(erario=[(2500, 0), (0, 10000)], imu=[(9000, 0)]), 6, 43, 44),
            ("inps", dict(inps=[(2500, 0), (0, 10000)], imu=[(9000, 0)]), 6, 43, 44),
            ("regioni", dict(erario=[(9000, 0)], regioni=[(2500, 0), (0, 10000)]), 8, 45, 46),
            ("imu", dict(erario=[(9000, 0)], imu=[(2500, 0), (0, 10000)]), 8, 47, 48)]
for name, lines, at, sign, balance in NEGATIVE:
    case("negative-sign-p-" + name, no(12, at, sign), flow(delega(**lines)).put(at, sign, "P"),
         "01, Sections: N when debits are below credits")
    case("negative-sign-minus-" + name, no(12, at, sign), flow(delega(**lines)).put(at, sign, "-"),
         "01, Sections: N when debits are below credits")
    case("negative-balance-%s" % name, no(13, at, balance), flow(delega(**lines)).put(at, balance, "999999999992500"),
         "01, Errors that would look right: the signed difference, here as a complement")
case("negative-by-one-sign-p", no(12, 5, 43), flow(delega(erario=[(0, 1)], imu=[(2, 0)])).put(5, 43, "P"),
     "01, Sections: sums (0, 1) give N 1")

# --- 14: negative delega ----------------------------------------------------------------------------------------------
short = lambda: flow(delega(erario=[(7499, 0)], regioni=[(2500, 0), (0, 10000)]))
case("delega-negative", no(14, 9, 2), short(), "01, Examples: with Erario debit 7499 and all signs right it gives 14")
for word, text in (("zero", "000000000000000"), ("nines", "999999999999999"), ("debits", "000000000009999")):
    case("delega-negative-stored-" + word, no(14, 9, 2), short().put(9, 36, text),
         "Decision: 14 before 15, whatever is stored")
for name in ("erario", "inps", "regioni", "imu"):
    case("delega-negative-only-" + name, no(14, 6, 2), flow(delega(**{name: [(0, 5)]})),
         "01, Delega: negative is not allowed")
case("delega-negative-second", no(14, 11, 2), flow(delega(erario=[(100, 0)]), delega(erario=[(1, 2)])),
     "01, Delega: sums start at zero; the first delega does not cover the second")
case("delega-negative-first", no(14, 6, 2), flow(delega(erario=[(1, 2)]), delega(erario=[(100, 0)])),
     "01, Delega: nor the second the first")
case("delega-negative-7-first", no(7, 9, 36), short().put(9, 36, "-00000000000001"), "01: 7 before 14")
case("delega-negative-8-first", no(8, 9, 4), short().put(9, 4, "0000002"), "01: 8 before 14")
case("delega-negative-3-first", no(3, 9, 120), short().put(9, 120, b"\x7f"), "01: 3 before 14")
case("delega-negative-by-four-nines", no(14, 12, 2),
     flow(delega(erario=[(0, MOST)], inps=[(0, MOST)], regioni=[(0, MOST)], imu=[(0, MOST)])), "01, Delega: credits of sixteen digits")

# --- 15: final balance ------------------------------------------------------------------------------------------------
for word, text in (("one-more", "000000000007501"), ("one-less", "000000000007499"), ("zero", "000000000000000"),
                   ("debits", "000000000010000"), ("far-off", "100000000007500")):
    case("final-" + word, no(15, 7, 36), plain().put(7, 36, text), "01, Delega: all its debits less all its credits")
case("final-in-second", no(15, 19, 36), full().put(19, 36, "000000000146000"),
     "01, Delega: sums start at zero for every delega")
case("final-signs-left-out", no(15, 9, 36),
     flow(delega(erario=[(9000, 0)], regioni=[(2500, 0), (0, 10000)])).put(9, 36, "000000000016500"),
     "01, Delega: the N section is taken off")
case("final-last-section-only", no(15, 12, 36), full().put(12, 36, "000000000035000"), "01, Delega: all its debits")
case("final-zero-stored-one", no(15, 6, 36), flow(delega(erario=[(5, 5)])).put(6, 36, "000000000000001"),
     "01, Delega: zero is allowed, and is zero")
case("final-sixteen-digits", no(15, 8, 36), flow(delega(erario=[(MOST, 0)], inps=[(1, 0)])),
     "Decision: a final balance of 10^15 cannot equal its field, which holds zeros here")
case("final-sixteen-digits-nines", no(15, 8, 36), flow(delega(erario=[(MOST, 0)], inps=[(1, 0)])).put(8, 36, "9" * 15),
     "Decision: a final balance of 10^15 cannot equal its field")
case("final-four-nines", no(15, 12, 36), flow(delega(erario=[(MOST, 0)], inps=[(MOST, 0)], regioni=[(MOST, 0)], imu=[(MOST, 0)])),
     "Decision: nothing is reduced modulo 10^15")
case("totals-run-on", no(10, 10, 15), flow(delega(regioni=[(100, 0)]), delega(regioni=[(50, 0)])).put(10, 15, "000000000000150"),
     "01, Delega: sums start at zero for every delega")

# --- Stored values that agree with one another and not with the lines -------------------------------------------------
AGREE = "01, Errors that would look right: comparing the stored values with themselves and never with the lines"
case("agree-all-but-line", no(10, 6, 15), plain().put(4, 29, "000000000010001"), AGREE)
case("agree-from-balance-on", no(13, 6, 46),
     plain().put(6, 46, "000000000007600").put(7, 36, "000000000007600").put(8, 53, "000000000007600"),
     AGREE)
case("agree-final-and-tail", no(15, 7, 36), plain().put(7, 36, "000000000007600").put(8, 53, "000000000007600"), AGREE)
case("agree-totals-and-balance", no(10, 6, 15), plain().put(6, 15, "000000000010100").put(6, 46, "000000000007600")
     .put(7, 36, "000000000007600").put(8, 53, "000000000007600"), AGREE)
case("agree-credit-line", no(11, 6, 30), plain().put(5, 44, "000000000002501"), AGREE)
case("line-changed-tail-left", no(20, 8, 53), plain().put(4, 29, "000000000010100").put(6, 15, "000000000010100")
     .put(6, 46, "000000000007600").put(7, 36, "000000000007600"), AGREE)
case("line-changed-final-left", no(15, 7, 36), plain().put(4, 29, "000000000010100").put(6, 15, "000000000010100")
     .put(6, 46, "000000000007600"), AGREE)
case("balance-by-the-new-amount", no(13, 6, 46), plain().put(4, 29, "000000000010100").put(6, 15, "000000000010100")
     .put(6, 46, "000000000017600").put(7, 36, "000000000007600").put(8, 53, "000000000007600"),
     "01, Errors that would look right: changing the balance by the new amount instead of by new less old")
