"""The form F24 EP: accepted records, 30 to 33, the text of M's total, rows used and unused, what is not read, and the order of the checks."""

from case import no
from ep_form import CONTROL, LENGTH, M_FIELDS, ROW_FIELDS, ROWS, UNUSED, V_FIELDS, case, form, m, other, paid, row, start_of, v, yes

MOST = 999999999999999          # fifteen nines: the largest debit

# --- Accepted ---------------------------------------------------------------------------------------------------------
RUN = "02, ask 11: each M followed by one or more V"
ANSWER = "02, ask 11: acceptance answers the count of M and the sum of their totals"
case("one-m-one-v", yes(1, 12345), form(m("123,45"), paid(12000, 345)), RUN)
case("one-m-two-v", yes(1, 100), form(m("1,00"), paid(40), paid(60)), RUN)
case("two-m", yes(2, 12), form(m("0,05"), paid(5), m("0,07"), paid(7)), ANSWER)
case("two-m-two-v-each", yes(2, 10000), form(m("30,00"), paid(1000), paid(2000), m("70,00"), paid(3000), paid(4000)), ANSWER)
case("one-v-then-two", yes(2, 60), form(m("0,10"), paid(10), m("0,50"), paid(20), paid(30)), ANSWER)
case("largest-total-twice", yes(2, 199999999999998), form(m("999999999999,99"), paid(99999999999999), m("999999999999,99"), paid(99999999999999)),
     "02, ask 11: the sum of their totals; it may be longer than any of them")

# --- Rows -------------------------------------------------------------------------------------------------------------
ROW = "02, ask 11: row k starts at 100 + 56(k - 1), its debit is its last fifteen characters"
NUMBER = "02, ask 11: the number of rows is the one 001 prints: Riga 1 to Riga 28"
BLANK = "02, ask 11: a row with a blank type is unused, and its debit isn't read"
USED = "Decision: a row is unused when its type is the byte 32; any other byte is a type"
# 28 V's, and in each of them one row, the first to the last in turn; a row that is looked for elsewhere gives 32 or 33 at its V. 1 + 2 + .. + 28 is 406.
case("each-row-alone", yes(1, 40600), form(m("406,00"), *[v({k: row("F", 100 * k)}) for k in range(1, ROWS + 1)]), ROW)
case("first-row-alone", yes(1, 12), form(m("0,12"), v({1: row("F", 12)})), ROW)
case("last-row-alone", yes(1, 12), form(m("0,12"), v({28: row("F", 12)})), ROW)
case("all-28-rows", yes(1, 406), form(m("4,06"), v([row("F", k) for k in range(1, 29)])), NUMBER)
case("all-28-rows-large", yes(1, 28000000000028), form(m("280000000000,28"), v([row("R", 1000000000001)] * 28)), NUMBER)
case("first-and-last-row", yes(1, 30), form(m("0,30"), v({1: row("F", 10), 28: row("N", 20)})), NUMBER)
case("every-other-row", yes(1, 196), form(m("1,96"), v({k: row("S", k) for k in range(1, 29, 2)})), BLANK)
case("all-rows-unused", yes(1, 0), form(m("0,00"), v([])), "02, ask 11: the sum of no rows is 0, and 0,00 is its text; 001 wants above zero, 02 decides")
case("all-rows-unused-then-used", yes(1, 5), form(m("0,05"), v([]), paid(5)), BLANK)
case("a-used-row-of-zero", yes(1, 0), form(m("0,00"), paid(0)), "02, ask 11: fifteen digits are all that a debit must be")
RUBBISH = ["999999999999999", "000000000000001", " " * 15, "ABCDEFGHIJKLMNO", b"\0" * 15, b"\xff" * 15, "            -12"]
# Seven V's of 24 used rows: in each of them four rows are unused, and among the seven every row is, with one of these texts in its debit.
case("rubbish-in-each-unused-row", yes(1, 168), form(m("1,68"), *[v([row(" ", RUBBISH[k % 7]) if k % 7 == n else row("F", 1) for k in range(28)]) for n in range(7)]), BLANK)
case("rubbish-in-every-unused-row", yes(1, 0), form(m("0,00"), v([row(" ", "NOT A NUMBER..X")] * 28)), BLANK)
case("digits-in-every-unused-row", yes(1, 0), form(m("0,00"), v([row(" ", "000000000000001")] * 28)), BLANK)
case("an-unused-row-with-all-else-filled", yes(1, 7), form(m("0,07"), v([row(" ", "000000000000500", "100E", "I921", "5801234567", "0005", "2025"), row("F", 7)])), BLANK)
case("unused-debit-counted-in-the-balance", no(33, 2, 0), form(m("5,07"), v([row(" ", "000000000000500"), row("F", 7)], balance=507)), BLANK)
# Nine V's of 28 rows and one of three: 255 rows of one cent, one with each byte but 32 as its type.
TYPES = [bytes([byte]) for byte in range(256) if byte != 32]
case("every-type-but-blank-is-used", yes(1, 255), form(m("2,55"), *[v([row(kind, 1) for kind in TYPES[n:n + 28]]) for n in range(0, 255, 28)]), USED)
for byte in (0, 33, 255):
    case("a-type-of-byte-%d-needs-digits" % byte, no(32, 2, 0), form(m("0,05"), v([row("F", 5), row(bytes([byte]), " " * 15)])), USED)
case("every-type-of-001", yes(1, 45), form(m("0,45"), v([row(t, k) for k, t in enumerate("FIRSNQWGP", 1)])), "001, Specifiche di Compilazione del Record V: the types")
case("types-001-does-not-have", yes(1, 15), form(m("0,15"), v([row(t, k) for k, t in enumerate("AZf1-", 1)])), "Decision: row types are not judged")

# --- 32 ---------------------------------------------------------------------------------------------------------------
DIGITS = "02, ask 11: 32 digits of a used debit or the final balance, with the record's number and position 0"
STRAY = [b" ", b"/", b":", b",", b".", b"-", b"+", b"O", b"l", b"\0", b"\t", b"\n", b"\xb0", b"\xff", b"\xb9", b"e", b"'"]
for k in range(1, ROWS + 1):
    # the place in the debit goes from 1 to 15 and again from 1, the byte through the list
    case("non-digit-in-row-%d" % k, no(32, 2, 0), form(m("0,28"), v([row("F", 1)] * 28)).put(2, start_of(k) + 41 + (k - 1) % 15, STRAY[k % len(STRAY)]), DIGITS)
for place in (1, 2, 5, 8, 11, 14, 15):
    case("non-digit-in-balance-at-%d" % (1787 + place), no(32, 2, 0), form(m("0,05"), paid(5)).put(2, 1787 + place, STRAY[-place]), DIGITS)
for word, debit in (("blank", " " * 15), ("blanks-in-front", "              5"), ("blanks-behind", "5              "), ("a-comma", "0000000000,0005"), ("nul-bytes", b"\0" * 15),
                    ("a-sign", "-00000000000005")):
    case("debit-" + word, no(32, 2, 0), form(m("0,05"), v([row("F", debit)], balance=5)), DIGITS)
for word, text in (("blank", " " * 15), ("blanks-in-front", "              5"), ("the-text-of-m", "0,05           "), ("a-comma", "000000000000,05")):
    case("balance-" + word, no(32, 2, 0), form(m("0,05"), v([row("F", 5)], balance=text)), DIGITS)
case("balance-blank-and-all-rows-unused", no(32, 2, 0), form(m("0,00"), v([], balance=" " * 15)), DIGITS)
case("non-digit-in-a-second-v", no(32, 3, 0), form(m("0,10"), paid(5), paid(5)).put(3, 155, " "), DIGITS)
case("non-digit-in-the-v-of-a-second-m", no(32, 4, 0), form(m("0,05"), paid(5), m("0,05"), paid(5)).put(4, 141, "x"), DIGITS)
# The fifteen characters and no others: what stands right before a debit, and right behind it, is a reference, and the type of the next row.
case("non-digits-beside-a-debit", yes(1, 5), form(m("0,05"), paid(5)).put(2, 140, "X").put(2, 100, "X"), ROW)
case("non-digits-beside-the-last-debit", yes(1, 5), form(m("0,05"), v({28: row("F", 5)})).put(2, 1652, "X").put(2, 1668, "X"), ROW)
case("digits-behind-the-last-debit", yes(1, 5), form(m("0,05"), v({28: row("F", 5)})).put(2, 1668, "9" * 70), "02, ask 11, and 001, campo 207: behind row 28 is a filler, and no row 29")
case("a-29th-row-is-none", yes(1, 5), form(m("0,05"), paid(5)).put(2, 1668, b"F" + b" " * 55), "02, ask 11: the number of rows is the one 001 prints; at 1668 is a filler")
case("a-row-before-the-first-is-none", yes(1, 5), form(m("0,05"), paid(5)).put(2, 44, b"F" + b" " * 40), "02, ask 11: row k starts at 100 + 56(k - 1), k from 1")

# --- 33 in V ----------------------------------------------------------------------------------------------------------
ROWS_SUM = "02, ask 11: row sums must equal the final balance that 001 places in V"
DIGITS_16 = "02, ask 11: row sums must equal the final balance; a sum of sixteen digits is not reduced to fifteen"
case("balance-one-more", no(33, 2, 0), form(m("0,05"), v([row("F", 5)], balance=6)), ROWS_SUM)
case("balance-one-less", no(33, 2, 0), form(m("0,05"), v([row("F", 5)], balance=4)), ROWS_SUM)
case("balance-zero-for-five", no(33, 2, 0), form(m("0,05"), v([row("F", 5)], balance=0)), ROWS_SUM)
case("balance-five-for-no-rows", no(33, 2, 0), form(m("0,05"), v([], balance=5)), ROWS_SUM)
case("balance-of-the-first-row-alone", no(33, 2, 0), form(m("0,05"), v([row("F", 5), row("F", 1)], balance=5)), ROWS_SUM)
case("balance-without-row-28", no(33, 2, 0), form(m("0,28"), v([row("F", 1)] * 28, balance=27)), ROWS_SUM)
case("balance-off-in-a-second-v", no(33, 3, 0), form(m("0,10"), paid(5), v([row("F", 5)], balance=6)), ROWS_SUM)
case("balances-that-make-up-for-each-other", no(33, 2, 0), form(m("0,10"), v([row("F", 5)], balance=6), v([row("F", 5)], balance=4)), ROWS_SUM)
case("balance-of-two-fifteen-nines", no(33, 2, 0), form(m("0,00"), v([row("F", MOST)] * 2, balance=999999999999998)), DIGITS_16)
case("balance-of-28-fifteen-nines", no(33, 2, 0), form(m("0,00"), v([row("F", MOST)] * 28, balance=999999999999972)), DIGITS_16)
case("balance-of-fifteen-nines-and-one", no(33, 2, 0), form(m("0,00"), v([row("F", MOST), row("F", 1)], balance=0)), DIGITS_16)
# Where the final balance is: the section's two amounts, campo 208 and 211, are never read.
BALANCE = "001, campo 213: Saldo finale modello F24 EP, at 1788; the section's own amounts at 1738 and 1769 are not read"
case("balance-at-1738-and-1769-alone", no(33, 2, 0), form(m("0,05"), v([row("F", 5)], balance=0)), BALANCE)
case("balance-at-1788-alone", yes(1, 5), form(m("0,05"), v([row("F", 5)], section_debit="0" * 15, section_balance="0" * 15)), BALANCE)
case("balance-others-are-no-numbers", yes(1, 5), form(m("0,05"), v([row("F", 5)], section_debit=" " * 15, section_credit="X" * 15, section_sign="N", section_balance=b"\0" * 15)), BALANCE)
case("balance-between-digits", yes(1, 5), form(m("0,05"), paid(5)).put(2, 1784, "9999").put(2, 1803, "99999999"), BALANCE)
case("balance-between-letters", yes(1, 5), form(m("0,05"), paid(5)).put(2, 1784, "XXXX").put(2, 1803, "XXXXXXXX"), BALANCE)

# --- The text of M's total --------------------------------------------------------------------------------------------
TEXT = "02, ask 11: at least one digit, dots for thousands and a comma with two decimals, then spaces"
DOTS = "02, ask 11: the dots go only when the text would pass fifteen characters"
for text, cents, why in (
        ("0,00", 0, TEXT), ("0,05", 5, TEXT), ("1,00", 100, TEXT), ("12,30", 1230, TEXT), ("999,99", 99999, TEXT), ("1.000,00", 100000, TEXT), ("9.999,99", 999999, TEXT), ("999.999,99", 99999999, TEXT),
        ("1.234.567,89", 123456789, TEXT), ("99.999.999,99", 9999999999, TEXT),
        ("100.000.000,00", 10000000000, TEXT), ("120.034.005,06", 12003400506, TEXT), ("999.999.999,99", 99999999999, DOTS), ("1000000000,00", 100000000000, DOTS),
        ("9999999999,99", 999999999999, DOTS), ("100000000000,00", 10000000000000, DOTS), ("123456789012,34", 12345678901234, DOTS), ("999999999999,99", 99999999999999, DOTS)):
    case("text-" + text.replace(",", "-").replace(".", "-dot-"), yes(1, cents), form(m(text), paid(cents)), why)
# 1 + 10 + 99 + 9999 + 10000 + 100005 + 1000000 + 10000000 + 100000000 + 1000000000000; a text that is taken for wrong gives 33 at its M
case("ten-m-ten-texts", yes(10, 1000111120114), form(
    m("0,01"), paid(1), m("0,10"), paid(10), m("0,99"), paid(99), m("99,99"), paid(9999), m("100,00"), paid(10000), m("1.000,05"), paid(100005), m("10.000,00"), paid(1000000),
    m("100.000,00"), paid(10000000), m("1.000.000,00"), paid(100000000), m("10000000000,00"), paid(1000000000000)), TEXT)
case("text-of-three-v", yes(1, 100000000000), form(m("1000000000,00"), paid(99999999999), v([]), paid(1)), DOTS)

WRONG = "02, ask 11: any other text gives 33, under the M's number"
OTHER = "02, ask 11: it equals the sum over the V records that follow; this is the text of another number"
ZEROS = "Decision: the one text of a number has no leading zeros"


def wrong(name, cents, text, why=WRONG):
    case("wrong-" + name, no(33, 1, 0), form(m(text), paid(cents)), why)


wrong("00-05", 5, "00,05", ZEROS)
wrong("0-dot-000-05", 5, "0.000,05", ZEROS)
wrong("zeros-to-the-full-width", 5, "000000000000,05", ZEROS)
wrong("no-digit-before-the-comma", 5, ",05")
wrong("a-digit-alone", 5, "5")
wrong("one-decimal", 50, "0,5")
wrong("three-decimals", 5, "0,005")
wrong("three-decimals-same-value", 5, "0,050")
wrong("no-decimals", 500, "5")
wrong("comma-missing", 5, "005")
wrong("comma-is-a-dot", 5, "0.05")
wrong("two-commas", 5, "0,,05")
wrong("a-second-comma-behind", 5, "0,05,")
wrong("a-dot-in-front", 5, ".0,05")
wrong("a-plus-sign", 5, "+0,05")
wrong("a-minus-sign", 5, "-0,05")
wrong("a-minus-zero", 0, "-0,00")
wrong("a-blank-in-front", 5, " 0,05")
wrong("blanks-to-the-right-edge", 5, "           0,05")
wrong("a-blank-before-the-comma", 5, "0 ,05")
wrong("a-tab-behind", 5, "0,05\t")
wrong("a-line-end-behind", 5, "0,05\r\n")
wrong("nul-bytes-behind", 5, b"0,05" + b"\0" * 11)
wrong("zeros-behind", 5, "0,0500000000000")
wrong("a-letter-o", 5, "O,05")
wrong("a-digit-of-high-bytes", 5, b"\xb0,05")
wrong("blank", 5, "")
wrong("blank-for-zero", 0, "")
wrong("fifteen-digits", 5, "000000000000005")
wrong("0-for-zero", 0, "0")
for word, byte in (("letter", b"X"), ("zero", b"0"), ("comma", b","), ("tab", b"\t"), ("nul", b"\0"), ("byte-160", b"\xa0")):
    wrong("a-%s-at-the-fifteenth-place" % word, 5, b"0,05          " + byte)
wrong("1000-00", 100000, "1000,00", DOTS)
wrong("1-dot-0000-00", 1000000, "1.0000,00")
wrong("10-dot-00-00", 100000, "10.00,00")
wrong("a-dot-behind-1000", 100000, "1000.,00")
wrong("two-dots-together", 100000, "1..000,00")
wrong("a-zero-in-front", 100000, "01.000,00", ZEROS)
wrong("a-blank-for-the-dot", 100000, "1 000,00")
wrong("a-comma-for-the-dot", 100000, "1,000,00")
wrong("dot-and-comma-exchanged", 100000, "1,000.00")
wrong("a-dot-for-the-comma", 100000, "1.000.00")
wrong("a-dot-in-front-of-100", 10000, ".100,00")
wrong("first-dot-missing", 123456789, "1234.567,89", DOTS)
wrong("second-dot-missing", 123456789, "1.234567,89", DOTS)
wrong("no-dots-999999999-99", 99999999999, "999999999,99", DOTS)
wrong("999-dot-999-dot-999-99-and-a-zero", 99999999999, "999.999.999,990")
wrong("a-zero-and-999-dot-999-dot-999-99", 99999999999, "0999.999.999,99", ZEROS)
wrong("a-blank-and-999-dot-999-dot-999-99", 99999999999, " 999.999.999,99")
wrong("dots-in-1000000000-00-cut", 100000000000, "1.000.000.000,0", DOTS)
wrong("dots-in-1000000000-00-cut-in-front", 100000000000, ".000.000.000,00", DOTS)
wrong("1000-dot-000-dot-000-00", 100000000000, "1000.000.000,00", DOTS)
wrong("1-dot-000000000-00", 100000000000, "1.000000000,00", DOTS)
wrong("a-dot-for-the-comma-full-width", 99999999999999, "999999999999.99")
wrong("no-comma-full-width", 99999999999999, "99999999999999")
NONE = "Decision: above 999999999999,99 no text of fifteen characters is right"
wrong("fifteen-of-1000000000000-00", 100000000000000, "1000000000000,0", NONE)
wrong("last-fifteen-of-1000000000000-00", 100000000000000, "000000000000,00", NONE)
wrong("0-00-for-1000000000000-00", 100000000000000, "0,00", NONE)
wrong("the-largest-for-one-cent-more", 100000000000000, "999999999999,99", NONE)
wrong("fifteen-nines", MOST, "999999999999999", NONE)
wrong("fifteen-nines-without-the-first", MOST, "999999999999,99", NONE)
wrong("one-cent-more", 5, "0,06", OTHER)
wrong("one-cent-less", 5, "0,04", OTHER)
wrong("0-00-for-one-cent", 1, "0,00", OTHER)
wrong("euros-for-cents", 5, "5,00", OTHER)
wrong("cents-for-euros", 10000, "1,00", OTHER)
wrong("digits-exchanged", 152800, "1.582,00", OTHER)
wrong("last-digit-of-many", 12345678901234, "123456789012,35", OTHER)
MANY = "02, ask 11: it equals the sum over the V records that follow; a sum of more digits is not reduced"
case("sum-of-two-passes-the-largest-text", no(33, 1, 0), form(m("0,00"), paid(99999999999999), paid(1)), MANY)
case("sum-of-two-has-sixteen-digits", no(33, 1, 0), form(m("999999999999,98"), paid(MOST), paid(MOST)), MANY)
case("sum-of-two-is-the-largest-text", yes(1, 99999999999999), form(m("999999999999,99"), paid(99999999999998), paid(1)), MANY)
TOTAL = "001, campo 28: Saldo totale a debito, at 1873, fifteen characters"
case("text-between-digits", yes(1, 5), form(m("0,05", euro="EUR9", paid="9" * 10), paid(5)), TOTAL)
case("text-of-full-width-between-digits", yes(1, 99999999999999), form(m("999999999999,99", euro="9999", paid="99-99-9999"), paid(99999999999999)), TOTAL)
case("text-one-place-early", no(33, 1, 0), form(m("0,05"), paid(5)).put(1, 1872, "0,05 "), TOTAL)
case("text-one-place-late", no(33, 1, 0), form(m("0,05"), paid(5)).put(1, 1873, " 0,05"), TOTAL)
case("text-at-1738-and-1788-and-not-1873", no(33, 1, 0), form(m("0,00"), paid(5)).put(1, 1738, "0,05           ").put(1, 1788, "0,05           "), TOTAL)

# --- An M's own V -----------------------------------------------------------------------------------------------------
OWN = "02, ask 11: the sum over the V records that follow: its own, up to the next M"
case("own-sum-of-all-v-in-the-first", no(33, 1, 0), form(m("0,12"), paid(5), m("0,07"), paid(7)), OWN)
case("own-sum-of-all-v-in-the-second", no(33, 3, 0), form(m("0,05"), paid(5), m("0,12"), paid(7)), OWN)
case("own-sum-so-far-in-the-third", no(33, 5, 0), form(m("0,01"), paid(1), m("0,02"), paid(2), m("0,06"), paid(3)), OWN)
case("own-total-of-the-first-v-alone", no(33, 1, 0), form(m("0,05"), paid(5), paid(7)), OWN)
case("own-total-of-the-last-v-alone", no(33, 1, 0), form(m("0,07"), paid(5), paid(7)), OWN)
case("own-total-off-in-the-middle-of-three", no(33, 4, 0), form(m("0,03"), paid(1), paid(2), m("0,05"), paid(4), m("0,08"), paid(8)), OWN)
case("own-total-zero-after-a-large-one", yes(2, 99999999999999), form(m("999999999999,99"), paid(99999999999999), m("0,00"), v([])), OWN)

# --- 30 ---------------------------------------------------------------------------------------------------------------
FIRST = "02, ask 11: 30 length, none or too many records, at 0, 0; before everything else"
SOUND = bytes(form(m("0,05"), paid(5)))
for size in (0, 1, 15, 120, 950, 1899, 1901, 1902, 3799):
    case("length-%d" % size, no(30, 0, 0), (SOUND + SOUND)[:size], FIRST)
case("length-3800", yes(1, 5), form(m("0,05"), paid(5)), FIRST)
case("length-3801-a-line-end-behind", no(30, 0, 0), form(m("0,05"), paid(5)).add(b"\n"), FIRST)
case("length-3802-a-line-end-behind-each", no(30, 0, 0), SOUND[:1900] + b"\n" + SOUND[1900:] + b"\n", FIRST)
case("length-5699", no(30, 0, 0), (SOUND + SOUND)[:5699], FIRST)
case("length-1901-of-blanks", no(30, 0, 0), b" " * 1901, FIRST)
case("length-1899-of-nul-bytes", no(30, 0, 0), b"\0" * 1899, FIRST)
case("length-before-an-unknown-type", no(30, 0, 0), form(other("A"), paid(5)).add(b"M"), FIRST)
case("length-before-a-v-first", no(30, 0, 0), form(paid(5)).add(b"M"), FIRST)
case("length-before-digits", no(30, 0, 0), form(m("0,05"), paid(5)).put(2, 141, "x").add(b"V"), FIRST)
case("length-before-a-total", no(30, 0, 0), form(m("0,06"), paid(5)).add(b"V"), FIRST)
case("length-cut-in-the-last-v", no(30, 0, 0), (SOUND + SOUND)[:-3], FIRST)

# --- 31 ---------------------------------------------------------------------------------------------------------------
TYPE = "02, ask 11: its records M and V: any other type is 31, at its record and position 0"
HEAD = "02, ask 11: the head and any closing record are cut off before: where they are not, they are 31"
for word, byte in (("small-m", b"m"), ("small-v", b"v"), ("a", b"A"), ("z", b"Z"), ("l", b"L"), ("n", b"N"), ("u", b"U"), ("w", b"W"), ("digit", b"1"), ("blank", b" "), ("nul", b"\0"),
                   ("line-end", b"\n"), ("byte-205", b"\xcd"), ("byte-214", b"\xd6"), ("byte-255", b"\xff")):
    case("type-first-" + word, no(31, 1, 0), form(other(byte)), TYPE)
for word, byte in (("small-v", b"v"), ("nul", b"\0")):
    case("type-third-" + word, no(31, 3, 0), form(m("0,05"), paid(5), other(byte, paid(5))), TYPE)
case("type-between-two-v", no(31, 3, 0), form(m("0,05"), paid(5), other("X"), paid(7)), TYPE)
case("type-between-two-m", no(31, 3, 0), form(m("0,05"), paid(5), other("X"), m("0,07"), paid(7)), TYPE)
case("type-behind-an-m", no(31, 2, 0), form(m("0,05"), other("X"), paid(5)), TYPE)
case("type-first-of-two", no(31, 1, 0), form(other("X"), other("Y")), TYPE)
case("type-one-place-late", no(31, 1, 0), b" " + SOUND[:-1], "001, campo 1: Tipo record, at 1")
case("head-left-on", no(31, 1, 0), form(other("A"), m("0,05"), paid(5)), HEAD)
case("closing-record-left-on", no(31, 3, 0), form(m("0,05"), paid(5), other("Z")), HEAD)
V_FIRST = "02, ask 11: each M followed by one or more V; a V before any M is 31"
case("v-alone", no(31, 1, 0), form(paid(5)), V_FIRST)
case("v-first", no(31, 1, 0), form(paid(5), m("0,05"), paid(5)), V_FIRST)
case("v-first-of-two", no(31, 1, 0), form(paid(5), paid(5)), V_FIRST)
case("v-before-its-m", no(31, 1, 0), form(paid(5), m("0,05")), V_FIRST)
case("v-first-with-a-non-digit", no(31, 1, 0), form(paid(5)).put(1, 141, "x"), V_FIRST)
case("v-first-with-a-wrong-balance", no(31, 1, 0), form(v([row("F", 5)], balance=6), m("0,05"), paid(5)), V_FIRST)
WITHOUT = "02, ask 11: an M without a V gives 31 at the record after it"
case("m-alone", no(31, 2, 0), form(m("0,05")), WITHOUT)
case("m-alone-of-zero", no(31, 2, 0), form(m("0,00")), WITHOUT)
case("m-alone-with-no-text", no(31, 2, 0), form(m("")), WITHOUT)
case("m-at-the-end", no(31, 4, 0), form(m("0,05"), paid(5), m("0,05")), WITHOUT)
case("m-at-the-end-behind-two-v", no(31, 5, 0), form(m("0,12"), paid(5), paid(7), m("0,00")), WITHOUT)
case("m-twice-at-the-start", no(31, 2, 0), form(m("0,05"), m("0,05"), paid(5)), WITHOUT)
case("m-twice-in-the-middle", no(31, 4, 0), form(m("0,05"), paid(5), m("0,00"), m("0,07"), paid(7)), WITHOUT)
case("m-without-v-has-its-total-unjudged", no(31, 2, 0), form(m("NO TEXT"), m("0,05"), paid(5)), WITHOUT)
case("m-without-v-before-an-unknown-type", no(31, 4, 0), form(m("0,05"), paid(5), m("9,99"), other("X")), WITHOUT)
case("m-without-v-before-a-bad-v-further-on", no(31, 2, 0), form(m("0,05"), m("0,05"), v([row("F", " " * 15)])), WITHOUT)

# --- Several faults ---------------------------------------------------------------------------------------------------
AFTER = "02, ask 11: judged right after the last of them, under the M's number"
LATER = "02, ask 11: record by record; an M's total is judged after its V's own faults"
WITHIN = "02, ask 11: 32, then 33: in a V every 32 comes before 33"
case("total-and-own-v-digits", no(32, 2, 0), form(m("0,06"), paid(5)).put(2, 141, "x"), LATER)
case("total-and-own-v-balance", no(33, 2, 0), form(m("0,09"), v([row("F", 5)], balance=6)), LATER)
case("total-and-own-second-v-digits", no(32, 3, 0), form(m("0,06"), paid(5), paid(5)).put(3, 1788, "x"), LATER)
case("total-and-own-second-v-balance", no(33, 3, 0), form(m("0,06"), paid(5), v([row("F", 5)], balance=6)), LATER)
case("no-text-and-own-v-digits", no(32, 2, 0), form(m("NO TEXT"), v([row("F", "FIVE")])), LATER)
case("total-and-the-end", no(33, 1, 0), form(m("0,06"), paid(5)), AFTER)
case("total-and-an-unknown-type-behind", no(33, 1, 0), form(m("0,06"), paid(5), other("X")), AFTER)
case("total-of-v-on-both-sides-of-an-unknown", no(33, 1, 0), form(m("0,12"), paid(5), other("X"), paid(7)), AFTER)
case("total-and-the-next-v-digits", no(33, 1, 0), form(m("0,06"), paid(5), m("0,07"), paid(7)).put(4, 141, "x"), AFTER)
case("total-and-the-next-total", no(33, 1, 0), form(m("0,06"), paid(5), m("0,08"), paid(7)), AFTER)
case("total-and-the-next-m-without-v", no(33, 1, 0), form(m("0,06"), paid(5), m("0,07")), AFTER)
case("total-of-the-second-and-an-unknown-type", no(33, 3, 0), form(m("0,05"), paid(5), m("0,08"), paid(7), other("X")), AFTER)
case("a-total-larger-than-any-and-an-unknown", no(33, 1, 0), form(m("999999999999,99"), paid(MOST), other("X")), AFTER)
case("an-unknown-type-before-a-total", no(31, 3, 0), form(m("0,05"), paid(5), other("X"), m("0,08"), paid(7)), "02, ask 11: record by record")
case("an-unknown-type-before-everything", no(31, 1, 0), form(other("X"), m("0,06"), v([row("F", " " * 15)]), m("0,00")), "02, ask 11: record by record")
case("digits-in-row-28-and-a-wrong-balance", no(32, 2, 0), form(m("0,05"), v([row("F", 5)] * 27 + [row("F", "0000000000000x5")], balance=1)), WITHIN)
case("digits-of-the-balance-and-sixteen-digits", no(32, 2, 0), form(m("0,05"), v([row("F", MOST)] * 28, balance="99999999999997 ")), WITHIN)
case("digits-of-row-28-and-sixteen-digits", no(32, 2, 0), form(m("0,05"), v([row("F", MOST)] * 27 + [row("F", " " * 15)])), WITHIN)
case("digits-of-a-row-and-of-the-balance", no(32, 2, 0), form(m("0,05"), v([row("F", " " * 15)], balance=" " * 15)), WITHIN)
case("balance-before-digits-of-the-next-v", no(33, 2, 0), form(m("0,10"), v([row("F", 5)], balance=6), paid(5)).put(3, 141, "x"), "02, ask 11: record by record")
case("balance-before-an-unknown-type", no(33, 2, 0), form(m("0,05"), v([row("F", 5)], balance=6), other("X")), "02, ask 11: record by record")
case("digits-before-an-unknown-type", no(32, 2, 0), form(m("0,06"), paid(5), other("X")).put(2, 1802, " "), "02, ask 11: record by record")
case("digits-before-an-m-without-v", no(32, 2, 0), form(m("0,06"), paid(5), m("0,00")).put(2, 1802, " "), "02, ask 11: record by record")
case("three-faults-digits-balance-type", no(32, 2, 0), form(m("0,09"), v([row("F", "x" * 15)]), v([row("F", 5)], balance=6), other("X")), "02, ask 11: record by record")
case("three-faults-balance-digits-type", no(33, 2, 0), form(m("0,09"), v([row("F", 5)], balance=6), v([row("F", "x" * 15)]), other("X")), "02, ask 11: record by record")
case("three-faults-total-m-digits", no(33, 1, 0), form(m("0,09"), paid(5), m("0,00"), m("0,09"), v([row("F", "x" * 15)])), AFTER)
case("a-late-fault-in-the-last-v-of-two-m", no(32, 5, 0), form(m("0,05"), paid(5), m("0,08"), paid(7), v([row("F", 1)], balance="x" * 15)), LATER)

# --- What is not read -------------------------------------------------------------------------------------------------
UNREAD = "Decision: nothing else is read: names, dates, accounts, codes, section balances, control characters"


def blotted(built, byte):
    """Writes a byte into every column that is not read: of M all but the type and the total, of V all but the type, the final balance and each row's type and debit."""
    for record in built.records:
        read = {1} | set(range(1873, 1888) if record.kind == "M" else range(1788, 1803))
        if record.kind == "V":
            for k in range(1, ROWS + 1):
                read |= {start_of(k)} | set(range(start_of(k) + 41, start_of(k) + 56))
        for position in set(range(1, LENGTH + 1)) - read:
            record.put(position, byte)
    return built


for word, byte in (("blank", b" "), ("nul", b"\0"), ("byte-255", b"\xff"), ("nine", b"9"), ("m", b"M"), ("v", b"V")):
    case("unread-" + word, yes(1, 33), blotted(form(m("0,33"), v({1: row("F", 1), 2: UNUSED, 3: row("R", 25), 28: row("N", 7)})), byte), UNREAD)
case("unread-v-of-another-body", yes(1, 5), form(m("0,05"), v([row("F", 5)], tax_code="84002190555", number="00000999")), "001, campo 2 and 3 of V, want M's tax code and number; 02 has no check of them")
case("unread-dates", yes(1, 5), form(m("0,05", paid="31-02-2025"), v([row("F", 5)], paid="00000000")), UNREAD)
case("unread-no-control-characters", yes(1, 5), form(m("0,05", control="   "), v([row("F", 5)], control="   ")), UNREAD)
case("unread-numbers-of-m-that-fall", yes(2, 10), form(m("0,05", number="00000002"), paid(5), m("0,05", number="00000001"), paid(5)), UNREAD)

# --- As 001 fills it --------------------------------------------------------------------------------------------------
FILLED = "001, Specifiche di Compilazione del Record V: what the fields of a row hold, by its type"
F_ROW = row("F", 148231, "100E", a="0005", b="2025")
I_ROW = row("I", 61540, "DM10", "5800", "5801234567", "052025", "052025")
R_ROW = row("R", 20889, "380E", "19", a="0005", b="2025")
S_ROW = row("S", 1880, "384E", "I921", a="0005", b="2024")
N_ROW = row("N", 4127, "902025", "33600", "01234567800", "P")
Q_ROW = row("Q", 30000, "P101", "PG", a="052025", b="052025")
W_ROW = row("W", 1200, "FP01", "TN", a="052025", b="052025")
G_ROW = row("G", 15460, "3918", "I921", a="ANN001", b="2025")
P_ROW = row("P", 990, "C001", ident="01234", a="0005", b="2025")
case("filled-erario", yes(1, 148231), form(m("1.482,31"), v([F_ROW])), FILLED)
case("filled-inps", yes(1, 61540), form(m("615,40"), v([I_ROW])), FILLED)
case("filled-regioni", yes(1, 20889), form(m("208,89"), v([R_ROW])), FILLED)
case("filled-local-bodies", yes(1, 1880), form(m("18,80"), v([S_ROW])), FILLED)
case("filled-inail", yes(1, 4127), form(m("41,27"), v([N_ROW])), FILLED)
# 148231 + 61540 + 20889 + 1880 + 4127
case("filled-five-types", yes(1, 236667), form(m("2.366,67"), v([F_ROW, I_ROW, R_ROW, S_ROW, N_ROW])), FILLED)
# 236667 + 30000 + 1200 + 15460 + 990
case("filled-nine-types", yes(1, 284317), form(m("2.843,17"), v([F_ROW, I_ROW, R_ROW, S_ROW, N_ROW, Q_ROW, W_ROW, G_ROW, P_ROW])), FILLED)
case("filled-with-an-act", yes(1, 148231), form(m("1.482,31"), v([F_ROW], office="TK3", act="00041800031")), "001, campo 9 and 10 of V: the office and the act")
case("filled-on-behalf-of-another", yes(1, 148231), form(m("1.482,31", capacity="50", on_behalf_of="BNCLRA75D52G478N"), v([F_ROW])), "001, campo 13 and 14 of M: in whose name it is paid")
# 001 prints V's control characters at 1893 to 1895; the five characters behind them are then filled with spaces, or with whatever stands there.
for word, rest in (("spaces", b"     "), ("line-ends", b"\r\n\r\n\n")):
    case("filled-v-control-at-1893-then-" + word, yes(1, 236667), form(m("2.366,67"), v([F_ROW, I_ROW, R_ROW, S_ROW, N_ROW], control="").put(1893, CONTROL + rest)),
         "001, campo 216 and 217 of V: A, CR and LF at 1893, where the record has 1,900 characters; none of them is read")
case("filled-a-line-end-more", no(30, 0, 0), form(m("1.482,31"), v([F_ROW])).add(b"\r\n"), "02, ask 11: 30 length: CR and LF are in the record, and not behind it")
case("filled-a-wrong-total", no(33, 1, 0), form(m("1.482,13"), v([F_ROW])), OTHER)
case("filled-a-lost-row", no(33, 2, 0), form(m("2.366,67"), v([F_ROW, I_ROW, R_ROW, S_ROW], balance=236667)), ROWS_SUM)
case("filled-an-amount-with-a-comma", no(32, 2, 0), form(m("1.482,31"), v([row("F", "       1482,31 ", "100E", a="0005", b="2025")], balance=148231)), DIGITS)

# 001's columns, as the builder has them: each field begins where the one before it ends, or behind a filler, and row 28 ends before campo 207.
assert start_of(ROWS) + 56 == 1668 and sum(width for _, width, _ in ROW_FIELDS.values()) == 56
assert M_FIELDS["total"] == (1873, 15, 28) and V_FIELDS["balance"] == (1788, 15, 213)
