"""Flows written from sheets: what is written, and the refusals of the whole sheet: 24, 25 and 1, with their order."""

from case import no, yes
from common import FIRM, PERSON, WRONG_CODE
from flow import SECTIONS, delega
from sheet import MOST_ROOM, refused, sheet, written

MOST = 999999999999999          # fifteen nines
LINE = (("erario", 6), ("inps", 4), ("regioni", 4), ("imu", 4), ("ident", 28))      # the most lines of each section


def plain(**more):
    """01's printed whole case. Records to be written: 1 F4, 2 10, 3 20, 4 40-05 (10000, 0), 5 40-05 (0, 2500), 6 40-06 P 7500, 7 50-01,
    8 EF. Bytes of the sheet: F4 0-119, count 120-122, 10 123-242, 20 243-362, counts 363-366, 367-368 "02", lines 369-608, counts
    609-612, 50-01 613-732, EF 733-852."""
    return sheet(delega(regioni=[(10000, 0), (0, 2500)]), **more)


def every():
    """Every kind of record. Records to be written: 1 F4, 2 10, 3 20, 4 40-01, 5 40-02, 6 40-03, 7 40-04, 8 40-05, 9 40-06, 10 40-07,
    11 40-08, 12 50-01, 13 10, 14 20, 15 40-17, 16 40-18, 17 50-01, 18 EF. Final balances 86000 and 60000."""
    return sheet(delega(erario=[(10000, 2000)], inps=[(20000, 3000)], regioni=[(30000, 4000)], imu=[(40000, 5000)]),
                 delega(ident=[(60000, 0)]))


PLAIN = yes(1, 8, 7500, 2, regioni=(10000, 2500))
EVERY = yes(2, 18, 146000, 5, erario=(10000, 2000), inps=(20000, 3000), regioni=(30000, 4000), imu=(40000, 5000), ident=(60000, 0))

# --- Written: one section, several, several deleghe -------------------------------------------------------------------
FROM = "02: we want the flow written from the sheet"
written("plain", plain(), PLAIN, "01, Examples: the answer printed whole; " + FROM)
written("every-section", every(), EVERY, "02: the five sections in 01's order")
ONE = {"erario": yes(1, 7, 41, 1, erario=(42, 1)), "inps": yes(1, 7, 41, 1, inps=(42, 1)), "regioni": yes(1, 7, 41, 1, regioni=(42, 1)),
       "imu": yes(1, 7, 41, 1, imu=(42, 1)), "ident": yes(1, 7, 42, 1, ident=(42, 0))}
FULL = {"erario": yes(1, 12, 54, 6, erario=(60, 6)), "inps": yes(1, 10, 36, 4, inps=(40, 4)), "regioni": yes(1, 10, 36, 4, regioni=(40, 4)),
        "imu": yes(1, 10, 36, 4, imu=(40, 4)), "ident": yes(1, 34, 280, 28, ident=(280, 0))}
for name, most in LINE:
    credit = 0 if name == "ident" else 1
    written("one-line-" + name, sheet(delega(**{name: [(42, credit)]})), ONE[name], "02: each as a count in two digits and its line records")
    written("most-lines-" + name, sheet(delega(**{name: [(10, credit)] * most})), FULL[name], "01, Order: no more lines than rows on the paper form")
written("four-sections-full", sheet(delega(erario=[(10, 1)] * 6, inps=[(10, 1)] * 4, regioni=[(10, 1)] * 4, imu=[(10, 1)] * 4)),
        yes(1, 27, 162, 18, erario=(60, 6), inps=(40, 4), regioni=(40, 4), imu=(40, 4)), "01, Order: any of the other four")
NONE = "02: the writer makes the balance records; 01, Order: a section is one or more lines, so that a count of 00 is no section"
written("erario-and-imu", sheet(delega(erario=[(5, 0)], imu=[(6, 0)])), yes(1, 9, 11, 2, erario=(5, 0), imu=(6, 0)), NONE)
written("inps-and-regioni", sheet(delega(inps=[(5, 0)], regioni=[(6, 0), (7, 0)])), yes(1, 10, 18, 3, inps=(5, 0), regioni=(13, 0)), NONE)
written("erario-and-inps", sheet(delega(erario=[(5, 0), (1, 0)], inps=[(6, 0)])), yes(1, 10, 12, 3, erario=(6, 0), inps=(6, 0)), NONE)
written("regioni-and-imu", sheet(delega(regioni=[(5, 0)], imu=[(6, 0)])), yes(1, 9, 11, 2, regioni=(5, 0), imu=(6, 0)), NONE)
written("erario-inps-imu", sheet(delega(erario=[(5, 0)], inps=[(1, 1)], imu=[(6, 0)])),
        yes(1, 11, 11, 3, erario=(5, 0), inps=(1, 1), imu=(6, 0)), NONE)
written("two-deleghe", sheet(delega(erario=[(700, 0), (50, 20)], imu=[(0, 30)]), delega(regioni=[(8, 3)])),
        yes(2, 15, 705, 4, erario=(750, 20), regioni=(8, 3), imu=(0, 30)), "01, Delega: sums start at zero for every delega")
written("section-17-between", sheet(delega(erario=[(1, 0)]), delega(ident=[(2, 0), (3, 0)]), delega(erario=[(4, 0)])),
        yes(3, 18, 10, 4, erario=(5, 0), ident=(5, 0)), "01, Order: section 17 alone, or any of the other four, in each delega anew")
written("twelve-deleghe", sheet(*[delega(regioni=[(n, 0)]) for n in range(1, 13)]), yes(12, 62, 78, 12, regioni=(78, 0)),
        "02: it fills delega numbers, and those of two digits")

# --- Written: balances ------------------------------------------------------------------------------------------------
SIGN = "01, Sections: the balance is the difference without sign, N when debits are below credits, P in all other cases"
written("section-n", sheet(delega(erario=[(7501, 0)], regioni=[(2500, 0), (0, 10000)])), yes(1, 10, 1, 3, erario=(7501, 0), regioni=(2500, 10000)), SIGN)
written("section-n-by-one", sheet(delega(inps=[(3, 4)], imu=[(9, 0)])), yes(1, 9, 8, 2, inps=(3, 4), imu=(9, 0)), SIGN)
written("section-zero", sheet(delega(regioni=[(5, 5)], imu=[(1, 0)])), yes(1, 9, 1, 2, regioni=(5, 5), imu=(1, 0)),
        "01, Errors that would look right: writing N for a zero balance")
written("delega-zero", sheet(delega(erario=[(7500, 0)], regioni=[(2500, 0), (0, 10000)])), yes(1, 10, 0, 3, erario=(7500, 0), regioni=(2500, 10000)),
        "01, Delega: zero is allowed")
written("both-amounts", sheet(delega(erario=[(5, 4)], inps=[(5, 5)], regioni=[(5, 6)], imu=[(7, 1)])),
        yes(1, 13, 6, 4, erario=(5, 4), inps=(5, 5), regioni=(5, 6), imu=(7, 1)), "01, Lines: both above zero is allowed")
FIT = "01, Amounts: fifteen digits; 02: 23 is for what does not fit"
written("total-of-fifteen-nines", sheet(delega(erario=[(MOST - 5, 0), (5, 0)])), yes(1, 8, MOST, 2, erario=(MOST, 0)), FIT)
written("credit-of-fifteen-nines", sheet(delega(inps=[(MOST, MOST - 7), (0, 7)])), yes(1, 8, 0, 2, inps=(MOST, MOST)), FIT)
written("ident-of-fifteen-nines", sheet(delega(ident=[(1, 0), (MOST - 1, 0)])), yes(1, 8, MOST, 2, ident=(MOST, 0)), FIT)
written("final-of-fifteen-nines", sheet(delega(erario=[(MOST - 3, 0)], regioni=[(9, 0)], imu=[(0, 6)])),
        yes(1, 11, MOST, 3, erario=(MOST - 3, 0), regioni=(9, 0), imu=(0, 6)), FIT)
written("sum-of-fifteen-nines", sheet(delega(erario=[(MOST - 1, 0)]), delega(imu=[(1, 0)])), yes(2, 12, MOST, 2, erario=(MOST - 1, 0), imu=(1, 0)), FIT)
written("sections-beyond-fifteen-digits", sheet(*[delega(erario=[(MOST, MOST)])] * 3), yes(3, 17, 0, 3, erario=(3 * MOST, 3 * MOST)),
        "Decision: a flow's section sums may need more than fifteen digits; no field of the flow holds them")

# --- Written: the made balance records, every byte --------------------------------------------------------------------
made = every()
MADE = {
    5: " 40000000102" "000000000010000" "000000000002000" "P" "000000000008000" + " " * 62,
    7: " 40000000104" "000000000020000" "000000000003000" "P" "000000000017000" + " " * 62,
    9: " 40000000106" "  " "000000000030000" "000000000004000" "P" "000000000026000" + " " * 60,
    11: " 40000000108" "    " "000000000040000" "000000000005000" "P" "000000000035000" + " " * 58,
    16: " 40000000218" + " " * 30 + "P" "000000000060000" + " " * 62,
}
for number, text in MADE.items():
    assert len(text) == 120 and bytes(made.flow.records[number - 1]) == text.encode("ascii"), number
written("made-balance-records", made.fill("~"), EVERY,
        "02: columns that 01 doesn't name are spaces: all of them, position 1 too, and 13-42 of 40-18")
negative = sheet(delega(erario=[(100, 0)], imu=[(1, 100)]))
assert bytes(negative.flow.records[6]) == (" 40000000108" "    " "000000000000001" "000000000000100" "N" "000000000000099" + " " * 58).encode("ascii")
written("made-balance-record-n", negative, yes(1, 9, 1, 2, erario=(100, 0), imu=(1, 100)), SIGN)

# --- Written: what is filled, whatever was keyed there ----------------------------------------------------------------
TAKEN = "Decision: what stood in a filled column is not looked at; 02: with every filled field taken as right"
written("keyed-right", every().key_right(), EVERY, TAKEN)
for word, text in (("nines", "9"), ("zeros", "0"), ("letters", "Abc"), ("slashes", "/:"), ("control-bytes", bytes([0, 10, 13, 31, 127])),
                   ("high-bytes", bytes([128, 160, 200, 255])), ("signs", "+-., ")):
    written("keyed-" + word, every().key(text), EVERY, TAKEN)
NUMBERS = "02: it fills delega numbers, from 1, whatever number was keyed"
two = (delega(regioni=[(1, 0)]), delega(regioni=[(2, 0)]))
TWO = yes(2, 12, 3, 2, regioni=(3, 0))
for slot in ("10", "20", "regioni", "50-01"):
    written("keyed-number-%s" % slot, sheet(*two).key_right().put(slot, 4, "0000007", delega=2), TWO, NUMBERS)
exchanged = sheet(*two).key_right()
for slot in ("10", "20", "regioni", "50-01"):
    exchanged.put(slot, 4, "0000002", delega=1).put(slot, 4, "0000001", delega=2)
written("keyed-numbers-exchanged", exchanged, TWO, NUMBERS)
written("keyed-final-balance", plain().key_right().put("50-01", 36, "000000000007501"), PLAIN, "02: it fills final balances")
written("keyed-final-balance-blank", plain().key_right().put("50-01", 36, " " * 15), PLAIN, "Decision: what is filled never gives 7")
TAIL = "02: it fills the tail's name, counts and sum"
written("keyed-tail-name", plain().key_right().put("EF", 20, "ANOTHER NAME        "), PLAIN, TAIL)
written("keyed-tail-name-slash", plain().key_right().put("EF", 20, "A/B:C/D:E/F:G/H:I/J:"), PLAIN, "Decision: the tail's name never gives 16")
written("keyed-tail-deleghe", plain().key_right().put("EF", 46, "0000009"), PLAIN, TAIL)
written("keyed-tail-sum", plain().key_right().put("EF", 53, "000000000000001"), PLAIN, TAIL)
written("keyed-tail-records", plain().key_right().put("EF", 83, "000000X"), PLAIN, TAIL)
written("name-blank", plain(name=" " * 20), PLAIN, "Decision: the name may be blank; the tail's is the head's")
written("name-of-signs", plain(name="~}|{!\"#$%&'()*+,-.;<"), PLAIN, "02: it fills the tail's name")

# --- Written: what is not filled is carried ---------------------------------------------------------------------------
CARRIED = "02: what it writes carries the sheet's records in order, the filled columns apart"
for word, character in (("tilde", "~"), ("nine", "9"), ("slash", "/")):
    written("unread-" + word, every().fill(character), EVERY, CARRIED)
carried = every()
for slot, number, record, positions in (("10", 1, 2, (1,)), ("20", 1, 3, (1, 11)), ("50-01", 1, 12, (1, 35, 51)),
                                        ("50-01", 2, 17, (35, 51)), ("EF", 1, 18, (1, 19, 40, 45, 68, 82, 90))):
    for position in positions:
        carried.put(slot, position, "@", delega=number)
        carried.flow.put(record, position, "@")
written("beside-what-is-filled", carried, EVERY, CARRIED)

# --- Written: the tax code, as it is keyed ----------------------------------------------------------------------------
CODE = "02, ask 1: what it writes carries the sheet's records, the filled columns apart; 02, ask 2: a code that passes is no fault"
for word, code in (("printed-in-02", PERSON), ("of-a-firm", FIRM), ("of-letters", "RSSMRAURTMLARSNL"), ("of-zeros", "00000000000     "), ("last-a", "CHVXVR64E21Z131A"),
                   ("last-z", "YLMKRM77P41Z243Z"), ("month-f", "RSSMRA85F10A562R")):
    written("code-" + word, sheet(delega(regioni=[(10000, 0), (0, 2500)], payer={"tax_code": code})), PLAIN, CODE)
coded = (delega(regioni=[(1, 0)], payer={"tax_code": PERSON}), delega(regioni=[(2, 0)], payer={"tax_code": FIRM}))
written("code-of-two-deleghe", sheet(*coded), TWO, CODE)
written("code-beside-what-is-filled", sheet(*coded).key("9"), TWO, CODE + "; 4-10 is filled, 11-26 is not")
other = plain()
for slot, number, position in (("20", 3, 82), ("50-01", 7, 54)):
    other.put(slot, position, WRONG_CODE)
    other.flow.put(number, position, WRONG_CODE)
written("code-of-20-and-50-01-unread", other, PLAIN, "02, ask 2: the taxpayer's code; those in 20 (82-97) and 50-01 (54-69) are not read, and are carried")

# --- Written: the room ------------------------------------------------------------------------------------------------
PAST = "01: a call that succeeds leaves so the lent room past what it writes"
for more in (1, 119, 120, 1000):
    written("room-longer-by-%d" % more, plain(), PLAIN, PAST, more=more)
short = [delega(regioni=[(1, 0)])] * 107
WHOLE = yes(108, 546, 112, 112, erario=(5, 0), regioni=(107, 0))
written("whole-546-records", sheet(*short, delega(erario=[(1, 0)] * 5)), WHOLE, "01: at most 546 records, that is 65,520 bytes")

# --- 24: the sheet ends early, has bytes left, or a count isn't digits ------------------------------------------------
EARLY = "02: 24 when the sheet ends early"
assert len(bytes(plain())) == 853
for length in (0, 1, 119, 120, 121, 122, 123, 124, 242, 243, 362, 363, 364, 365, 367, 368, 369, 488, 489, 608, 609, 610, 611, 612, 613, 614,
               732, 733, 734, 852):
    refused("early-%03d" % length, plain().cut(length), no(24, 0, 0), EARLY, length=960)
refused("early-without-tail", every().cut(-120), no(24, 0, 0), EARLY, length=2160)
refused("early-by-one-byte", every().cut(-1), no(24, 0, 0), EARLY, length=2160)
LEFT = "02: 24 when it has bytes left"
for word, data in (("lf", b"\n"), ("space", b" "), ("record", b" " * 120), ("byte-0", b"\0"), ("tail", bytes(plain())[-120:]), ("digit", b"0")):
    refused("left-" + word, plain().add(data), no(24, 0, 0), LEFT)
lines = plain()
for part in lines.parts:
    part.data += b"\n"
refused("line-ends", lines, no(24, 0, 0), "Decision: no line ends stand in a sheet")
DIGITS = "02: 24 when a count isn't digits"
for word, text in (("space", " 01"), ("blank", "   "), ("slash", "00/"), ("colon", "00:"), ("letter", "0O1"), ("sign", "+01"), ("byte", b"\x0001"),
                   ("high", b"00\xb1"), ("last", "01 "), ("middle", "0 1")):
    refused("deleghe-" + word, plain().count("deleghe", text), no(24, 0, 0), DIGITS)
for name in SECTIONS:
    refused("count-of-%s-first" % name, plain().count(name, " 0"), no(24, 0, 0), DIGITS)
    refused("count-of-%s-second" % name, plain().count(name, "0 "), no(24, 0, 0), DIGITS)
for word, text in (("slash", "/2"), ("colon", "0:"), ("letter", "O2"), ("blank", "  "), ("byte", b"0\x02"), ("high", b"\xb02"), ("minus", "-2")):
    refused("count-" + word, plain().count("regioni", text), no(24, 0, 0), DIGITS)
refused("count-later-delega", every().count("ident", "l1", delega=2), no(24, 0, 0), DIGITS)
OFF = "02: 24, the sheet gone through by its own counts"
for text in ("000", "002", "010", "100", "999"):
    refused("deleghe-say-" + text, plain().count("deleghe", text), no(24, 0, 0), OFF)
for text in ("00", "01", "03", "20", "99"):
    refused("regioni-say-" + text, plain().count("regioni", text), no(24, 0, 0), OFF)
refused("ident-says-01", plain().count("ident", "01"), no(24, 0, 0), OFF)
refused("deleghe-say-two-of-three", sheet(*[delega(regioni=[(1, 0)])] * 3).count("deleghe", "002"), no(24, 0, 0), OFF)
for slot in ("F4", "10", "20", "50-01", "EF"):
    less = plain()
    less.parts.remove(less.at(slot))
    refused("without-" + slot.lower(), less, no(24, 0, 0), OFF)
    less = plain()
    less.parts.insert(less.parts.index(less.at(slot)), less.at(slot))
    refused("twice-" + slot.lower(), less, no(24, 0, 0), OFF)
receipt = bytearray(b" " * 120)
receipt[1:12] = b"50000000102"
refused("with-50-02", bytes(plain())[:733] + receipt + bytes(plain())[733:], no(24, 0, 0), "Decision: no 50-02 and no 50-03 in a sheet", length=960)

# --- 25: the room is too short ----------------------------------------------------------------------------------------
ROOM = "02: then 25 when the lent room is too short for the flow"
for length in (0, 1, 119, 120, 840, 853, 959):
    refused("room-of-%d" % length, plain(), no(25, 0, 0), ROOM, length=length)
refused("room-one-short-every", every(), no(25, 0, 0), ROOM, length=2159)
refused("room-of-the-sheet", every(), no(25, 0, 0), "Decision: the length is that of the flow, balance records included", length=len(bytes(every())))
refused("room-one-short-no-deleghe", sheet(), no(25, 0, 0), ROOM, length=239)
refused("room-one-short-no-lines", sheet(delega()), no(25, 0, 0), ROOM, length=599)

# --- 24 before 25 before 1 before the records -------------------------------------------------------------------------
ORDER = "02: 24, then 25, then 01's first fault, of which 1 comes before the records"
refused("24-before-25", plain().count("ident", "0x"), no(24, 0, 0), ORDER, length=0)
refused("24-before-25-early", plain().cut(120), no(24, 0, 0), ORDER, length=0)
refused("24-before-25-left", plain().add(b"\n"), no(24, 0, 0), ORDER, length=1)
refused("24-before-25-nothing", b"", no(24, 0, 0), ORDER, length=0)
refused("24-before-faults", plain().put("F4", 2, "f4").put("F4", 1, "\n").count("imu", "0 "), no(24, 0, 0), ORDER)
refused("24-in-the-last-count", every().put("F4", 14, "999999").put("20", 1, "\t").count("ident", "1 ", delega=2), no(24, 0, 0),
        "Decision: the whole sheet is gone through first")
refused("25-before-3", plain().put("F4", 1, "\n"), no(25, 0, 0), ORDER, length=959)
refused("25-before-4", plain().put("10", 2, "20"), no(25, 0, 0), ORDER, length=959)
refused("25-before-6", sheet(delega(regioni=[(1, 0)] * 5)), no(25, 0, 0), ORDER, length=1319)
refused("25-before-17", plain().put("F4", 14, "320125"), no(25, 0, 0), ORDER, length=0)
mistyped = plain().put("10", 11, WRONG_CODE)
refused("24-before-26", plain().put("10", 11, WRONG_CODE).count("ident", "0 "), no(24, 0, 0), ORDER)
refused("24-before-26-left", plain().put("10", 11, WRONG_CODE).add(b"\n"), no(24, 0, 0), ORDER)
refused("25-before-26", mistyped, no(25, 0, 0), ORDER, length=959)
refused("26-in-a-room-that-is-just-enough", mistyped, no(26, 2, 11), ORDER, length=960)
refused("26-in-a-room-that-is-longer", mistyped, no(26, 2, 11), ORDER, length=1100)
refused("25-before-23", sheet(delega(regioni=[(MOST, 0), (1, 0)])), no(25, 0, 0), ORDER, length=959)
many = sheet(*[delega(erario=[(1, 0)], inps=[(1, 0)], regioni=[(1, 0)], imu=[(1, 0)])] * 49, delega(erario=[(1, 0)] * 2))
assert len(many.flow.records) == 547
refused("25-before-1", many, no(25, 0, 0), "02: then 25; a room of 65,520 bytes is too short for 547 records", length=65520)
refused("1-of-547-records", many, no(1, 0, 0), "Decision: 1 shows where the room is larger than 65,520 bytes", length=65640)
none = sheet(*[delega()] * 181)
assert len(none.flow.records) == 545 and len(bytes(none)) == 67213
refused("longest-sheet", none, no(4, 4, 2), "Decision: a delega without lines is 4 at its 50-01; 545 records are no 1", length=65400)
wrong = sheet(*[delega(**{name: [(0, 0)] for name in SECTIONS})] * 42).put("F4", 2, "ff").put("F4", 1, "\0").put("F4", 20, "/")
assert len(wrong.flow.records) == 548
refused("1-before-26", sheet(*[delega(**{name: [(1, 0)] for name in SECTIONS})] * 42).put("10", 11, WRONG_CODE), no(1, 0, 0), ORDER, length=MOST_ROOM)
refused("1-before-the-records", wrong, no(1, 0, 0), ORDER, length=MOST_ROOM)
