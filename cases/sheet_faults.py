"""Sheets whose records to be written have a fault: 3, 4 by the slot and by the order, 6, 7, 9, 14, 16, 17 and 26, then 23; and their order.
Record numbers are those of the flow to be written, balance records included."""

from case import no, yes
from common import FIRM, PERSON, WRONG_CODE
from flow import SECTIONS, delega
from sheet import refused, sheet, written
from sheets import LINE, MOST, every, plain

AT = {name: (at_debit, at_credit) for name, (_, _, at_debit, at_credit, *_) in SECTIONS.items()}
SUBTYPE = {name: line for name, (line, *_) in SECTIONS.items()}


def least(section="regioni", lines=((1, 0),)):
    """One delega with one section. Records to be written: 1 F4, 2 10, 3 20, 4 the first line; with one line 5 its balance record, 6 50-01, 7 EF."""
    return sheet(delega(**{section: list(lines)}))


LEAST = yes(1, 7, 1, 1, regioni=(1, 0))
# Slot and record of each record of `least`.
RECORDS = (("F4", 1), ("10", 2), ("20", 3), ("regioni", 4), ("50-01", 6), ("EF", 7))

# --- 3 ----------------------------------------------------------------------------------------------------------------
CHARACTERS = "01, Refusals: 3, a byte outside 32 to 126, at the first such byte; records count in the flow to be written"
for slot, number in RECORDS:
    refused("3-first-%s" % slot.lower(), least().put(slot, 1, "\n"), no(3, number, 1), CHARACTERS)
    refused("3-last-%s" % slot.lower(), least().put(slot, 120, b"\xff"), no(3, number, 120), CHARACTERS)
for value in (0, 9, 31, 127, 128, 160, 255):
    refused("3-byte-%d" % value, least().put("20", 60, bytes([value])), no(3, 3, 60), CHARACTERS)
refused("3-first-of-two", least().put("20", 90, "\t").put("20", 60, "\r"), no(3, 3, 60), CHARACTERS)
refused("3-in-the-type", least().put("10", 2, "\x011"), no(3, 2, 2), "Decision: 4 by the slot is tried after 3")
refused("3-in-the-subtype", least().put("regioni", 11, "0\x05"), no(3, 4, 12), "Decision: 4 by the slot is tried after 3")
refused("3-in-an-amount", least().put("regioni", 30, "\0"), no(3, 4, 30), "01, Refusals: in the order of their numbers, 3 before 7")
refused("3-after-balances", every().put("ident", 100, "\n", delega=2), no(3, 15, 100), "Decision: balance records are counted")
BESIDE = "Decision: what is filled is taken as right, 3 included; what stands beside it is not"
for slot, number, positions in (("10", 2, (3, 11)), ("20", 3, (3, 11)), ("regioni", 4, (3, 11)), ("50-01", 6, (3, 11, 35, 51)),
                                ("EF", 7, (4, 10, 19, 40, 45, 68, 82, 90))):
    for position in positions:
        refused("3-beside-%s-%d" % (slot.lower(), position), least().key("\n").put(slot, position, "\n"), no(3, number, position), BESIDE)
refused("3-behind-what-is-filled", least().put("50-01", 4, b"\0" * 7).put("50-01", 40, b"\0").put("50-01", 77, b"\0"), no(3, 6, 77), BESIDE)
refused("3-head-4-to-10", least().put("F4", 4, "\n"), no(3, 1, 4), "Decision: what is filled goes by the slot; the head has nothing filled")
refused("3-head-name", least().put("F4", 39, "\n"), no(3, 1, 39), "Decision: what is filled goes by the slot; the head has nothing filled")
refused("3-head-46", least().put("F4", 46, "\n"), no(3, 1, 46), "Decision: what is filled goes by the slot; the head has nothing filled")
refused("3-tail-4", least().put("EF", 4, "\n"), no(3, 7, 4), "Decision: the tail has no delega number")
refused("3-line-behind-its-amounts", least().put("regioni", 60, "\n"), no(3, 4, 60), CHARACTERS)
refused("3-by-the-slot", least().record("20", bytes(least().at("50-01").data)).put("20", 36, "\n" * 15), no(3, 3, 36),
        "Decision: what is filled goes by the slot, whatever record stands in it: a 50-01 in the slot of 20 has no final balance filled")
refused("4-by-the-slot-of-50-01", least().record("50-01", bytes(least().at("20").data)).put("50-01", 36, "\n" * 15), no(4, 6, 2),
        "Decision: what is filled goes by the slot, whatever record stands in it: a 20 in the slot of 50-01 is not looked at in 36-50")
refused("4-by-the-slot-of-ef", least().record("EF", bytes(least().at("F4").data)).put("EF", 20, "\n" * 20), no(4, 7, 2),
        "Decision: what is filled goes by the slot, whatever record stands in it: an F4 in the slot of EF is not looked at in 20-39")

# --- 4 by the slot ----------------------------------------------------------------------------------------------------
KIND = "02: 4 for a record not of its slot's kind; Decision: at 2 where its type is not the slot's"
for slot, number in RECORDS:
    for kind in ("F4", "10", "20", "40", "50", "EF", "  ", "f4", "4 "):
        own = {"regioni": "40", "50-01": "50"}.get(slot, slot)
        if kind != own and (slot in ("10", "regioni", "EF") or kind in ("10", "40", "EF")):
            name = {"  ": "blank", "f4": "small", "4 ": "half"}.get(kind, kind.lower())
            refused("4-%s-in-%s" % (name, slot.lower()), least().put(slot, 2, kind), no(4, number, 2), KIND)
SUB = "02: 4 for a record not of its slot's kind; Decision: at 11 where its type is the slot's"
for name in SECTIONS:
    other = "03" if name != "inps" else "05"
    refused("4-subtype-in-%s" % name, least(name).put(name, 11, other), no(4, 4, 11), SUB)
    refused("4-balance-in-%s" % name, least(name).put(name, 11, "%02d" % (int(SUBTYPE[name]) + 1)), no(4, 4, 11), SUB)
for word, text in (("00", "00"), ("blank", "  "), ("unknown", "09"), ("letters", "O5"), ("one-digit", " 5")):
    refused("4-subtype-%s" % word, least().put("regioni", 11, text), no(4, 4, 11), SUB)
for text in ("02", "03", "00", "  "):
    refused("4-50-%s" % (text.strip() or "blank"), least().put("50-01", 11, text), no(4, 6, 11), SUB)
refused("4-second-line", plain().put("regioni", 11, "07", place=2), no(4, 5, 11), SUB)
refused("4-lines-exchanged", every().exchange(("erario", 1, 1), ("imu", 1, 1)), no(4, 4, 11), SUB)
refused("4-10-and-20-exchanged", least().exchange(("10", 1, 1), ("20", 1, 1)), no(4, 2, 2), KIND)
refused("4-head-and-tail-exchanged", least().exchange(("F4", 0, 1), ("EF", 0, 1)), no(4, 1, 2), KIND)
refused("4-line-and-50-01-exchanged", least().exchange(("regioni", 1, 1), ("50-01", 1, 1)), no(4, 4, 2), KIND)
ALLOWED = "Decision: 4 by the slot is tried before the order's own 4: this record might stand here in a flow"
refused("4-next-section-in-the-slot", sheet(delega(erario=[(1, 0), (2, 0)], inps=[(3, 0)])).record(
    "erario", bytes(least("inps").at("inps").data), place=1), no(4, 4, 11), ALLOWED)
refused("4-balance-in-the-slot", sheet(delega(erario=[(1, 0), (2, 0)])).put("erario", 11, "02", place=2), no(4, 5, 11), ALLOWED)
refused("4-tail-for-10", sheet(delega(regioni=[(1, 0)]), delega(regioni=[(2, 0)])).record("10", bytes(least().at("EF").data), delega=2),
        no(4, 7, 2), ALLOWED)
refused("4-10-for-tail", least().record("EF", bytes(least().at("10").data)), no(4, 7, 2), ALLOWED)
refused("4-receipt-for-10", sheet(delega(regioni=[(1, 0)]), delega(regioni=[(2, 0)])).put("10", 2, "50", delega=2).put("10", 11, "02", delega=2),
        no(4, 7, 2), ALLOWED)
refused("4-10-for-tail-of-none", sheet().record("EF", bytes(least().at("10").data)), no(4, 2, 2), ALLOWED)
refused("4-line-for-50-01", sheet(delega()).record("50-01", bytes(least().at("regioni").data)), no(4, 4, 2), ALLOWED)
BEFORE = "Decision: 4 by the slot is tried before the order's own 4, which is at another place"
refused("4-slot-before-order-at-2", sheet(delega(imu=[(1, 0)], ident=[(2, 0)])).put("ident", 11, "05"), no(4, 6, 11), BEFORE)
refused("4-slot-before-order-at-11", sheet(delega(erario=[(1, 0)], ident=[(2, 0)])).put("ident", 2, "50"), no(4, 6, 2), BEFORE)
refused("4-slot-before-order-at-50-01", sheet(delega()).put("50-01", 11, "02"), no(4, 4, 11), BEFORE)

# --- 4 by the order ---------------------------------------------------------------------------------------------------
HELD = "Decision: a record of its slot's kind is held to 01's order"
refused("4-no-deleghe", sheet(), no(4, 2, 2), "01, Examples: F4 then EF gives 4 at record 2, position 2")
refused("4-no-deleghe-room-longer", sheet(), no(4, 2, 2), "01, Examples: F4 then EF gives 4 at record 2, position 2", length=400)
refused("4-no-lines", sheet(delega()), no(4, 4, 2), "01, Order: one or more sections; " + HELD)
refused("4-no-lines-second-delega", sheet(delega(regioni=[(1, 0)]), delega()), no(4, 9, 2), "01, Order: one or more sections; " + HELD)
ALONE = "01, Order: section 17 alone or any of the other four; " + HELD
for name, position in (("erario", 11), ("inps", 11), ("regioni", 11), ("imu", 2)):
    refused("4-17-after-%s" % name, sheet(delega(**{name: [(1, 0)], "ident": [(2, 0)]})), no(4, 6, position), ALONE)
refused("4-17-after-two-lines", sheet(delega(inps=[(1, 0), (1, 0)], ident=[(2, 0)])), no(4, 7, 11), ALONE)
refused("4-17-after-erario-and-imu", sheet(delega(erario=[(1, 0)], imu=[(1, 0)], ident=[(2, 0)])), no(4, 8, 2), ALONE)
refused("4-17-after-all-four", sheet(delega(erario=[(1, 0)], inps=[(1, 0)], regioni=[(1, 0)], imu=[(1, 0)], ident=[(2, 0)])), no(4, 12, 2), ALONE)
refused("4-17-in-the-second-delega", sheet(delega(ident=[(1, 0)]), delega(regioni=[(1, 0)], ident=[(2, 0)])), no(4, 11, 11), ALONE)
refused("4-order-before-6", sheet(delega(regioni=[(1, 0)], ident=[(2, 0)] * 29)), no(4, 6, 11), "01, Refusals: in the order of their numbers")
refused("4-order-before-7", sheet(delega(imu=[(1, 0)], ident=[(2, 0)])).put("ident", 41, " "), no(4, 6, 2),
        "01, Refusals: in the order of their numbers")
refused("4-order-before-14", sheet(delega(regioni=[(0, 1)], ident=[(1, 0)])), no(4, 6, 11), "01, Refusals: record by record")
refused("3-before-4-by-the-order", sheet().put("EF", 5, "\n"), no(3, 2, 5), "01, Refusals: in the order of their numbers")

# --- 6 ----------------------------------------------------------------------------------------------------------------
MORE = "Decision: a count above the most gives 6 at the first line beyond"
for name, most in LINE:
    refused("6-%s" % name, least(name, [(1, 0)] * (most + 1)), no(6, 3 + most + 1, 11), MORE)
refused("6-two-beyond", least("inps", [(1, 0)] * 6), no(6, 8, 11), MORE)
refused("6-of-99", least("regioni", [(1, 0)] * 99), no(6, 8, 11), MORE)
refused("6-second-section", sheet(delega(erario=[(1, 0)] * 6, imu=[(1, 0)] * 5)), no(6, 15, 11), MORE)
FIVE = [(1, 0)] * 5
refused("3-before-6", least("imu", FIVE).put("imu", 99, "\n", place=5), no(3, 8, 99), "01, Refusals: in the order of their numbers")
refused("4-before-6", least("imu", FIVE).put("imu", 11, "05", place=5), no(4, 8, 11), "01, Refusals: in the order of their numbers")
refused("4-before-6-at-2", least("imu", FIVE).put("imu", 2, "50", place=5), no(4, 8, 2), "01, Refusals: in the order of their numbers")
refused("6-before-7", least("imu", FIVE).put("imu", 31, "x", place=5), no(6, 8, 11), "01, Refusals: in the order of their numbers")
refused("6-before-9", least("imu", [*FIVE[:4], (0, 0)]), no(6, 8, 11), "01, Refusals: in the order of their numbers")
refused("7-in-a-line-before-6", least("imu", FIVE).put("imu", 31, "x", place=4), no(7, 7, 31), "01, Refusals: record by record")
refused("6-before-23", least("erario", [(MOST, 0)] * 7), no(6, 10, 11), "02: then 01's first fault, then 23")

# --- 7 ----------------------------------------------------------------------------------------------------------------
BLANK = "01: a numeric field holds digits only: blank is not zero"
OWN = "02, Ask 5: 7 names the first non-digit's own position, in the sheets of Ask 1 too"
for name, (debit, credit) in AT.items():
    refused("7-debit-%s" % name, least(name).put(name, debit + 14, " "), no(7, 4, debit + 14), OWN)
    refused("7-credit-%s" % name, least(name).put(name, credit, " " * 15), no(7, 4, credit), BLANK)
    refused("7-credit-end-%s" % name, least(name).put(name, credit + 14, "x"), no(7, 4, credit + 14), OWN)
    refused("7-two-in-%s" % name, least(name).put(name, debit + 7, "x").put(name, debit + 9, "y").put(name, credit, "z"), no(7, 4, debit + 7), OWN)
for position in range(44, 59):
    refused("7-credit-at-%d" % position, plain().put("regioni", position, ".", place=2), no(7, 5, position), OWN)
refused("7-printed-example", plain().put("regioni", 29, "00000000000750 "), no(7, 4, 43),
        "02, Ask 5: the run case of 01 (debit 00000000000750 and a blank) becomes 7 at 43")
refused("7-debit-before-credit", least().put("regioni", 44, "x").put("regioni", 43, "x"), no(7, 4, 43), OWN)
refused("7-before-9", least("regioni", [(0, 0)]).put("regioni", 44, "-"), no(7, 4, 44), "01, Refusals: in the order of their numbers")
refused("7-second-line", plain().put("regioni", 44, "/", place=2), no(7, 5, 44), BLANK)
for word, text in (("blank", " "), ("slash", "/"), ("colon", ":")):
    refused("7-date-%s" % word, least().put("F4", 19, text), no(7, 1, 19), OWN)
for position in range(14, 20):
    refused("7-date-at-%d" % position, least().put("F4", position, "O"), no(7, 1, position), OWN)
written("7-never-in-what-is-filled", least().key("x"), LEAST, "Decision: what is filled is taken as right, 7 included")
refused("7-behind-what-is-filled", least().key("x").put("regioni", 31, "x"), no(7, 4, 31), "Decision: what is filled is taken as right, 7 included; " + OWN)

# --- 9 ----------------------------------------------------------------------------------------------------------------
RULE = "01, Lines: the debit must be above zero if the credit is zero"
for name, (debit, credit) in AT.items():
    refused("9-%s" % name, least(name, [(0, 0)]), no(9, 4, debit), RULE)
refused("9-ident-credit", least("ident", [(0, 5)]), no(9, 4, 56), "01, Examples: line (0, 5) in 40-17 gives 9 at 56")
refused("9-ident-both", least("ident", [(100, 1)]), no(9, 4, 56), "01, Lines: in section 17 the credit must be zero")
refused("9-second-line", plain().put("regioni", 44, "0" * 15, place=2), no(9, 5, 29), RULE)
refused("9-before-14", least("regioni", [(0, 5), (0, 0)]), no(9, 5, 29), "01, Refusals: record by record")

# --- 14 ---------------------------------------------------------------------------------------------------------------
BELOW = "01, Delega: zero is allowed, negative is not; Decision: 14 at 50-01"
refused("14-by-one", sheet(delega(erario=[(7499, 0)], regioni=[(2500, 0), (0, 10000)])), no(14, 9, 2), "01, Examples: Erario debit 7499 gives 14")
for name in ("erario", "inps", "regioni", "imu"):
    refused("14-%s" % name, least(name, [(0, 1)]), no(14, 6, 2), BELOW)
refused("14-second-delega", sheet(delega(regioni=[(100, 0)]), delega(regioni=[(1, 2)])), no(14, 11, 2),
        "01, Delega: sums start at zero for every delega")
refused("14-whatever-is-keyed", least("imu", [(1, 3)]).put("50-01", 36, "000000000000002"), no(14, 6, 2),
        "Decision: what is filled is taken as right")
refused("14-after-3", least("imu", [(1, 3)]).put("50-01", 120, "\n"), no(3, 6, 120), "01, Refusals: in the order of their numbers")
refused("14-after-4", least("imu", [(1, 3)]).put("50-01", 11, "02"), no(4, 6, 11), "01, Refusals: in the order of their numbers")
refused("14-before-the-tail", least("imu", [(1, 3)]).put("EF", 2, "ef").put("EF", 1, "\n"), no(14, 6, 2), "01, Refusals: record by record")
refused("14-before-23", sheet(delega(erario=[(MOST, 0), (1, 0)]), delega(imu=[(0, 1)])), no(14, 12, 2), "02: then 01's first fault, then 23")
refused("14-of-what-does-not-fit", sheet(delega(erario=[(1, 0)], imu=[(0, MOST), (0, 2)])), no(14, 9, 2), "02: then 01's first fault, then 23")

# --- 16 and 17 --------------------------------------------------------------------------------------------------------
NAME = 'Decision: the head\'s name may give 16: no "/" and no ":" in it'
for word, position, text in (("slash-first", 20, "/"), ("slash-last", 39, "/"), ("colon-first", 20, ":"), ("colon-last", 39, ":"),
                             ("both", 25, ":/")):
    refused("16-" + word, least().put("F4", position, text), no(16, 1, 20), NAME)
refused("16-although-the-tail-agrees", least().put("F4", 25, "/").put("EF", 20, "F24-2/250610-001    "), no(16, 1, 20), NAME)
for word, text in (("day-00", "000625"), ("day-32", "320125"), ("month-00", "100025"), ("month-13", "101325")):
    refused("17-" + word, least().put("F4", 14, text), no(17, 1, 14), "01, F4, and 02, ask 4: no month has such a day, no year such a month")
DAY = "02, ask 4: valid only if the day exists in that month; a leap year each fourth"
for text in ("310215", "310416", "290215", "290218", "300216", "310925"):
    refused("17-no-such-day-" + text, least().put("F4", 14, text), no(17, 1, 14), DAY)
for text in ("290216", "290200", "310116", "300425", "280299"):
    last_day = least().put("F4", 14, text)
    last_day.flow.put(1, 14, text)
    written("date-" + text, last_day, LEAST, DAY)
refused("16-before-17", least().put("F4", 14, "009925").put("F4", 39, ":"), no(16, 1, 20), "01, Refusals: in the order of their numbers")
refused("16-before-17-no-such-day", least().put("F4", 14, "310215").put("F4", 39, ":"), no(16, 1, 20), "02, ask 4: its number and place stay")
refused("7-before-16", least().put("F4", 14, "0099 5").put("F4", 39, ":"), no(7, 1, 18), "01, Refusals: in the order of their numbers")
refused("4-before-17", least().put("F4", 14, "009925").put("F4", 2, "EF"), no(4, 1, 2), "01, Refusals: in the order of their numbers")
tail_date = least().put("EF", 14, "9/9:99")
tail_date.flow.put(7, 14, "9/9:99")
written("tail-date-is-carried", tail_date, LEAST, "Decision: EF's own date is not read and not filled")

# --- 26 ---------------------------------------------------------------------------------------------------------------
KEYED = "02, ask 2: the taxpayer's code must be checked; Decision: in a sheet it is as it is keyed, since of record 10 only 4-10 is filled"
for word, code in (("printed-in-02", WRONG_CODE), ("blank", " " * 16), ("lower-case", PERSON.lower()), ("last-lower", "RSSMRA85T10A562s"), ("o-for-0", "RSSMRA85T1OA562S"),
                   ("exchanged", "RSSMRA58T10A562S"), ("place-rule", "RSSMRA85T1A0562S"), ("as-a-digit", "RSSMRA85T10A56NS"), ("fifteen", "RSSMRA85T10A562 "),
                   ("firm", "03417520546     "), ("firm-to-the-right", "     03417520545"), ("no-leading-zero", "3417520545      "), ("sixteen-digits", "0341752054500000"),
                   ("firm-and-a-letter", "03417520545    A"), ("country-before", "IT03417520545   ")):
    refused("26-" + word, least().put("10", 11, code), no(26, 2, 11), KEYED)
for name in SECTIONS:
    refused("26-beside-" + name, least(name).put("10", 11, WRONG_CODE), no(26, 2, 11), KEYED)
IN_THE_FLOW = "02, ask 2: 26 at the field's start; Decision: balance records are counted"
refused("26-second-delega", sheet(delega(regioni=[(1, 0)]), delega(regioni=[(2, 0)])).put("10", 11, WRONG_CODE, delega=2), no(26, 7, 11), IN_THE_FLOW)
refused("26-second-delega-of-every", every().put("10", 11, WRONG_CODE, delega=2), no(26, 13, 11), IN_THE_FLOW)
refused("26-third-delega", sheet(*[delega(erario=[(1, 0)], imu=[(1, 0)])] * 3).put("10", 11, " " * 16, delega=3), no(26, 16, 11), IN_THE_FLOW)
refused("26-first-of-two", every().put("10", 11, WRONG_CODE).put("10", 11, WRONG_CODE, delega=2), no(26, 2, 11), "01: the first blocking fault ends the judgement")
refused("26-codes-mixed", sheet(delega(regioni=[(1, 0)], payer={"tax_code": PERSON}), delega(regioni=[(2, 0)], payer={"tax_code": FIRM})).put(
    "10", 11, "03417520545A562S").put("10", 11, "RSSMRA85T10     ", delega=2), no(26, 2, 11), KEYED)
TURN = "02, ask 2: 26 after 8 in the same record; 01: within a record in the order of the numbers"
for position in (11, 12, 18, 25, 26):
    refused("3-in-the-code-at-%d" % position, least().put("10", position, b"\xe8"), no(3, 2, position), TURN + ": 3 before 26")
refused("3-beside-a-wrong-code", least().put("10", 11, WRONG_CODE).put("10", 120, "\t"), no(3, 2, 120), TURN + ": 3 before 26")
refused("4-before-26", least().put("10", 11, WRONG_CODE).put("10", 2, "20"), no(4, 2, 2), TURN + ": 4 by the slot before 26")
refused("4-a-20-in-the-slot-of-10", least().record("10", bytes(least().at("20").data)), no(4, 2, 2), TURN + ": 4 by the slot before 26")
refused("4-10-with-a-wrong-code-in-20", least().record("20", bytes(least().put("10", 11, WRONG_CODE).at("10").data)), no(4, 3, 2), TURN + ": 4 by the slot before 26")
for word, text in (("letters", "x"), ("control-bytes", "\n"), ("sevens", "7")):
    refused("26-behind-keyed-" + word, least().key(text).put("10", 11, WRONG_CODE), no(26, 2, 11), "Decision: what is filled is taken as right, 3, 7 and 8 included; 26 is not about it")
    written("code-behind-keyed-" + word, least().key(text), LEAST, "Decision: what is filled is taken as right, 3, 7 and 8 included")
BEHIND = "01: records are judged in order, and the first blocking fault ends the judgement; 26 belongs to record 2"
bare = lambda: least().put("10", 11, WRONG_CODE)
refused("26-behind-3", bare().put("F4", 120, "\n"), no(3, 1, 120), BEHIND)
refused("26-behind-4", bare().put("F4", 2, "EF"), no(4, 1, 2), BEHIND)
refused("26-behind-7", bare().put("F4", 14, " "), no(7, 1, 14), BEHIND)
refused("26-behind-16", bare().put("F4", 20, "/"), no(16, 1, 20), BEHIND)
refused("26-behind-17", bare().put("F4", 14, "310215"), no(17, 1, 14), BEHIND)
refused("26-behind-14-of-the-first", sheet(delega(imu=[(0, 1)]), delega(imu=[(1, 0)])).put("10", 11, WRONG_CODE, delega=2), no(14, 6, 2), BEHIND)
refused("26-before-3", bare().put("20", 1, "\n"), no(26, 2, 11), BEHIND)
refused("26-before-4-by-the-slot", bare().put("20", 2, "10"), no(26, 2, 11), BEHIND)
refused("26-before-4-by-the-order", sheet(delega()).put("10", 11, WRONG_CODE), no(26, 2, 11), BEHIND)
refused("26-before-6", least("imu", FIVE).put("10", 11, WRONG_CODE), no(26, 2, 11), BEHIND)
refused("26-before-7", bare().put("regioni", 29, " "), no(26, 2, 11), BEHIND)
refused("26-before-9", least("regioni", [(0, 0)]).put("10", 11, WRONG_CODE), no(26, 2, 11), BEHIND)
refused("26-before-14", least("regioni", [(0, 1)]).put("10", 11, WRONG_CODE), no(26, 2, 11), BEHIND)
refused("26-before-the-tail", bare().put("EF", 2, "ef"), no(26, 2, 11), BEHIND)
COLUMNS = "02, ask 2: in the columns 000 gives, which are 11-26 of record 10"
refused("26-one-column-late", least().put("10", 11, " " * 17).put("10", 12, PERSON), no(26, 2, 11), COLUMNS)
refused("26-one-column-early", least().put("10", 10, PERSON + " "), no(26, 2, 11), COLUMNS + "; 10 is filled, so that what stands there is neither 7 nor 8")
refused("26-firm-one-column-early", least().put("10", 10, FIRM + " "), no(26, 2, 11), COLUMNS + "; 10 is filled, so that what stands there is neither 7 nor 8")
refused("26-right-in-50-01-alone", least().put("10", 11, WRONG_CODE).put("50-01", 54, PERSON), no(26, 2, 11), COLUMNS)

# --- 23, after every fault of every record ----------------------------------------------------------------------------
FITS = "02: then 23; 01, Refusals: a total, balance or sum that has more digits than its field"
refused("23-total-debit", least("regioni", [(MOST, 0), (1, 0)]), no(23, 0, 0), FITS)
refused("23-total-credit", sheet(delega(erario=[(2, 0)], regioni=[(MOST, MOST), (0, 1)])), no(23, 0, 0), FITS)
for name in ("erario", "inps", "imu"):
    refused("23-both-totals-%s" % name, least(name, [(MOST, MOST), (1, 1)]), no(23, 0, 0), FITS)
refused("23-totals-that-differ-by-one", least("imu", [(MOST, MOST), (2, 1)]), no(23, 0, 0), FITS)
refused("23-ident-balance", least("ident", [(MOST, 0), (1, 0)]), no(23, 0, 0), "02: then 23; 01: 40-18 has a balance and no totals")
refused("23-ident-of-28", least("ident", [(MOST, 0)] * 28), no(23, 0, 0), FITS)
refused("23-section-balance-n", sheet(delega(erario=[(MOST, 0)], inps=[(MOST, 0)], imu=[(0, MOST), (0, 1)])), no(23, 0, 0), FITS)
refused("23-final-balance", sheet(delega(erario=[(MOST, 0)], imu=[(1, 0)])), no(23, 0, 0), FITS)
refused("23-tail-sum", sheet(delega(erario=[(MOST, 0)]), delega(ident=[(1, 0)])), no(23, 0, 0), FITS)
refused("23-first-of-two-deleghe", sheet(delega(inps=[(MOST, MOST), (7, 7)]), delega(inps=[(7, 0)])), no(23, 0, 0), FITS)
written("fits-by-a-credit", sheet(delega(erario=[(MOST, 0)], imu=[(1, 1)])), yes(1, 9, MOST, 2, erario=(MOST, 0), imu=(1, 1)), FITS)
LAST = "Decision: sums that don't fit are 23, after every fault of every record"
TOO = [(MOST, 0), (1, 0)]
refused("3-in-the-tail-before-23", least("regioni", TOO).put("EF", 120, "\n"), no(3, 8, 120), LAST)
refused("4-in-the-tail-before-23", least("regioni", TOO).put("EF", 2, "eF"), no(4, 8, 2), LAST)
refused("4-at-50-01-before-23", least("regioni", TOO).put("50-01", 11, "03"), no(4, 7, 11), LAST)
refused("9-before-23", least("ident", [*TOO, (0, 0)]), no(9, 6, 41), LAST)
refused("7-before-23", sheet(delega(ident=TOO), delega(inps=[(1, 0)])).put("inps", 60, "y", delega=2), no(7, 10, 60), LAST)
refused("4-by-the-order-before-23", sheet(delega(erario=TOO), delega()), no(4, 10, 2), LAST)
refused("26-before-23", least("erario", TOO).put("10", 11, WRONG_CODE), no(26, 2, 11), LAST)
refused("26-of-a-later-delega-before-23", sheet(delega(erario=TOO), delega(inps=[(1, 0)])).put("10", 11, WRONG_CODE, delega=2), no(26, 8, 11), LAST)
refused("17-before-23", least("erario", TOO).put("F4", 14, "320101"), no(17, 1, 14), LAST)
refused("24-before-23", least("erario", TOO).add(b" "), no(24, 0, 0), LAST)

# --- Several faults: the first record decides -------------------------------------------------------------------------
FIRST = "01: records are judged in order, and the first blocking fault ends the judgement"
refused("two-faults-10-and-line", least().put("10", 2, "20").put("regioni", 2, "50"), no(4, 2, 2), FIRST)
refused("two-faults-line-and-20", least("regioni", [(0, 0)]).put("20", 119, "\x1f"), no(3, 3, 119), FIRST)
refused("two-faults-17-and-3", least().put("F4", 14, "001225").put("10", 1, "\x7f"), no(17, 1, 14), FIRST)
refused("two-faults-14-and-9", sheet(delega(imu=[(0, 1)]), delega(imu=[(0, 0)])), no(14, 6, 2), FIRST)
refused("two-faults-9-and-4", sheet(delega(erario=[(0, 0)], ident=[(1, 0)])), no(9, 4, 27), FIRST)
refused("two-faults-in-one-line", least("ident", [(5, 5)]).put("ident", 11, "18").put("ident", 41, "x"), no(4, 4, 11), FIRST)
