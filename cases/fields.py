"""Refusals 7 and 8, and those of head and tail: 16 to 20."""

from case import case, no
from common import full, plain
from flow import delega, flow

# --- 7: non-digits ----------------------------------------------------------------------------------------------------
# Every numeric field of every kind of record: (record of the full flow, kind, [(first, last)]).
NUMERIC = [
    (1, "f4", [(14, 19)]),
    (2, "10", [(4, 10)]),
    (3, "20", [(4, 10)]),
    (4, "40-01", [(4, 10), (27, 41), (42, 56)]),
    (5, "40-02", [(4, 10), (13, 27), (28, 42), (44, 58)]),
    (6, "40-03", [(4, 10), (52, 66), (67, 81)]),
    (7, "40-04", [(4, 10), (13, 27), (28, 42), (44, 58)]),
    (8, "40-05", [(4, 10), (29, 43), (44, 58)]),
    (9, "40-06", [(4, 10), (15, 29), (30, 44), (46, 60)]),
    (10, "40-07", [(4, 10), (31, 45), (46, 60)]),
    (11, "40-08", [(4, 10), (17, 31), (32, 46), (48, 62)]),
    (12, "50-01", [(4, 10), (36, 50)]),
    (13, "50-02", [(4, 10)]),
    (14, "50-03", [(4, 10)]),
    (17, "40-17", [(4, 10), (41, 55), (56, 70)]),
    (18, "40-18", [(4, 10), (44, 58)]),
    (20, "ef", [(46, 52), (53, 67), (83, 89)]),
]
OWN = "02, Ask 5: 7 names the first non-digit's own position, in every kind of record"
for number, kind, fields in NUMERIC:
    for first, last in fields:
        middle = first + 3
        case("digit-%s-%d-first" % (kind, first), no(7, number, first), full().put(number, first, "/"), OWN)
        case("digit-%s-%d-middle" % (kind, first), no(7, number, middle), full().put(number, middle, " "), OWN)
        case("digit-%s-%d-last" % (kind, first), no(7, number, last), full().put(number, last, ":"), OWN)
        case("digit-%s-%d-two" % (kind, first), no(7, number, first + 1), full().put(number, first + 1, "x").put(number, last, "y"), OWN)

case("digit-blank-end", no(7, 4, 43), plain().put(4, 29, "00000000000750 "),
     "02, Ask 5: the run case of 01 (debit '00000000000750 ') becomes 7 at 43")
for word, text, position in (
        ("blanks", " " * 15, 29), ("lead-blanks", "          10000", 29), ("one-blank-inside", "00000000 010000", 37),
        ("minus", "-00000000010000", 29), ("plus", "+00000000010000", 29), ("comma", "000000000100,00", 41),
        ("letter-o", "00000000001OOOO", 40), ("exponent", "0000000000001E4", 42), ("hexadecimal", "0x0000000002710", 30),
        ("all-letters", "DIECIMILACENTES", 29), ("tilde", "~~~~~~~~~~~~~~~", 29), ("trailing-blanks", "10000          ", 34)):
    case("digit-" + word, no(7, 4, position), plain().put(4, 29, text), "01: a numeric field holds digits only; " + OWN)
for position in range(29, 44):
    case("digit-debit-at-%d" % position, no(7, 5, position), plain().put(5, position, "-"), OWN)
case("blank-credit", no(7, 4, 44), plain().put(4, 44, " " * 15),
     "01, Errors that would look right: taking a blank amount as zero")
case("blank-debit", no(7, 5, 29), plain().put(5, 29, " " * 15),
     "01, Errors that would look right: taking a blank amount as zero")
case("blank-total-credit", no(7, 5, 30), flow(delega(regioni=[(5, 0)])).put(5, 30, " " * 15), "01: blank is not zero")
case("blank-zero-balance", no(7, 5, 46), flow(delega(regioni=[(5, 5)])).put(5, 46, " " * 15), "01: blank is not zero")
case("blank-zero-final", no(7, 6, 36), flow(delega(regioni=[(5, 5)])).put(6, 36, " " * 15), "01: blank is not zero")
case("blank-zero-tail-sum", no(7, 7, 53), flow(delega(regioni=[(5, 5)])).put(7, 53, " " * 15), "01: blank is not zero")
case("blank-credit-ident", no(7, 4, 56), flow(delega(ident=[(5, 0)])).put(4, 56, " " * 15),
     "01: blank is not zero, in section 17 too")
case("signed-balance", no(7, 8, 46), flow(delega(erario=[(7500, 0)], regioni=[(2500, 0), (0, 10000)])).put(8, 46, "-00000000007500"),
     "01, Errors that would look right: storing the signed difference")
case("number-blank-10", no(7, 2, 4), plain().put(2, 4, "      1"), "01: leading zeros, digits only")
case("number-wrong-before-the-letter", no(7, 4, 10), plain().put(4, 4, "000099x"), "01: 7 before 8; " + OWN)
case("number-blank-50-02", no(7, 13, 4), full().put(13, 4, " " * 7), "Decision: 7 within 4-10 also in 50-02")
case("number-blank-50-03", no(7, 14, 4), full().put(14, 4, " " * 7), "Decision: 7 within 4-10 also in 50-03")
case("date-blank", no(7, 1, 14), plain(date="      "), "01: the creation date is a numeric field")
case("date-iso", no(7, 1, 16), plain(date="25-6-1"), "01: the creation date is a numeric field; " + OWN)

# The first such field goes by position.
case("digit-two-in-line", no(7, 4, 29), plain().put(4, 29, " " * 30), "01, refusal 7: the first such field")
case("digit-number-and-credit", no(7, 4, 4), plain().put(4, 4, "A").put(4, 58, "A"),
     "01, refusal 7: the first such field")
case("digit-total-and-balance", no(7, 6, 30), plain().put(6, 30, "A").put(6, 46, "A"),
     "01, refusal 7: the first such field")
case("digit-all-in-balance", no(7, 6, 15), plain().put(6, 15, " " * 30).put(6, 46, " " * 15),
     "01, refusal 7: the first such field")
case("digit-ef-53-and-83", no(7, 8, 53), plain().put(8, 53, "A").put(8, 83, "A"), "Decision: by position 46, 53, 83")
case("digit-ef-46-and-83", no(7, 8, 46), plain().put(8, 46, "A").put(8, 83, "A"), "Decision: by position 46, 53, 83")
case("digit-ef-all", no(7, 8, 46), plain().put(8, 46, " " * 44), "Decision: by position 46, 53, 83")

# So a field that goes wrong at its end comes before one that goes wrong at its start.
LATE = "02, Ask 5: the first non-digit of the first such field, which goes by position"
case("digit-number-end-and-debit", no(7, 4, 10), plain().put(4, 10, "A").put(4, 29, "A"), LATE)
case("digit-debit-end-and-credit", no(7, 4, 43), plain().put(4, 43, "A").put(4, 44, "A"), LATE)
case("digit-total-end-and-credit", no(7, 6, 29), plain().put(6, 29, "A").put(6, 30, "A").put(6, 46, "A"), LATE)
case("digit-total-credit-end-and-sign", no(7, 6, 44), plain().put(6, 44, "-").put(6, 45, "-").put(6, 46, "-"), LATE)
case("digit-ef-46-end-and-53", no(7, 8, 52), plain().put(8, 52, "A").put(8, 53, "A"), LATE)
case("digit-ef-53-end-and-83", no(7, 8, 67), plain().put(8, 67, "A").put(8, 83, "A"), LATE)
case("digit-ef-83-beside-68", no(7, 8, 84), plain().put(8, 68, " " * 15).put(8, 84, "A"), "01: other fields are not read; " + OWN)

# --- 8: delega numbers ------------------------------------------------------------------------------------------------
for number, kind, wrong in [(2, "10", "0000002"), (3, "20", "0000002"), (4, "40-01", "0000002"), (5, "40-02", "0000002"),
                            (6, "40-03", "0000002"), (7, "40-04", "0000000"), (8, "40-05", "0000000"), (9, "40-06", "0000010"),
                            (10, "40-07", "1000001"), (11, "40-08", "0000011"), (12, "50-01", "0000002"), (13, "50-02", "0000002"),
                            (14, "50-03", "0000002"), (15, "second-10", "0000001"), (16, "second-20", "0000001"),
                            (17, "40-17", "0000001"), (18, "40-18", "0000003"), (19, "second-50-01", "0000001")]:
    case("number-wrong-" + kind, no(8, number, 4), full().put(number, 4, wrong),
         "01, Numbers: all records of a delega carry its number")
case("number-first-0", no(8, 2, 4), plain().put(2, 4, "0000000"), "01, Numbers: the first delega is 1")
case("number-second-skips", no(8, 15, 4), full().put(15, 4, "0000003"), "01, Numbers: each next one is one more")
two_alike = flow(delega(regioni=[(5, 0)]), delega(regioni=[(5, 0)]))
for number in range(7, 12):
    two_alike.put(number, 4, "0000001")
case("number-second-is-1-throughout", no(8, 7, 4), two_alike,
     "01, Numbers: each next one is one more; a wrong number is 8, never 4")
from_two = plain()
for number in range(2, 8):
    from_two.put(number, 4, "0000002")
case("number-first-is-2-throughout", no(8, 2, 4), from_two, "01, Numbers: the first delega is 1")

# --- 16 and 17: the head ----------------------------------------------------------------------------------------------
for word, place, mark in (("slash-first", 0, "/"), ("slash-last", 19, "/"), ("slash-inside", 7, "/"),
                          ("colon-first", 0, ":"), ("colon-last", 19, ":"), ("colon-inside", 7, ":")):
    name = ("COOPERATIVA-0001" + " " * 4)
    case("name-" + word, no(16, 1, 20), plain(name=name[:place] + mark + name[place + 1:]),
         "01, Name: no / and no : in it, at the start of the name")
for date in ("000625", "320625", "990625", "100025", "101325", "109925", "000000", "999999", "311300", "320100", "400125", "012025"):
    case("bad-date-" + date, no(17, 1, 14), plain(date=date), "01, F4, and 02, ask 4: no month has such a day, no year such a month")
for date in ("310215", "320116", "300216", "310216", "320316", "310416", "320516", "310616", "320716", "320816", "310916", "321016", "311116",
             "321216", "310226", "300200"):
    case("no-such-day-" + date, no(17, 1, 14), plain(date=date), "02, ask 4: valid only if the day exists in that month")
for date in ("290215", "290201", "290202", "290203", "290214", "290218", "290298", "290299", "290210", "290222"):
    case("no-leap-day-" + date, no(17, 1, 14), plain(date=date), "02, ask 4: a leap year each fourth, and no other")
case("date-year-first", no(17, 1, 14), plain(date="991231"), "01, F4: day, month, two-digit year")
case("date-us-order", no(17, 1, 14), plain(date="063125"), "01, F4: day, month, two-digit year")
case("head-7-before-16", no(7, 1, 15), plain(date="1O0625", name="A/B"), "01: 7 before 16")
case("head-16-before-17", no(16, 1, 20), plain(date="320625", name="A/B"),
     "01: 16 before 17, although the date stands first")
case("head-7-before-17", no(7, 1, 16), plain(date="32 625"), "01: 7 before 17")
case("head-16-before-17-no-such-day", no(16, 1, 20), plain(date="310215", name="A/B"), "02, ask 4: its number and place stay")
case("head-7-before-17-no-such-day", no(7, 1, 19), plain(date="31021S"), "02, ask 4: its number and place stay")

# --- 16, 18, 19, 20: the tail -----------------------------------------------------------------------------------------
case("tail-name-first", no(16, 8, 20), plain().put(8, 20, "X"), "01, Name: the tail's equals the head's")
case("tail-name-last", no(16, 8, 20), plain().put(8, 39, "X"), "01, Name: all twenty characters")
case("tail-name-blank", no(16, 8, 20), plain().put(8, 20, " " * 20), "01, Name: the tail's equals the head's")
case("tail-name-lower", no(16, 8, 20), plain().put(8, 20, "f"), "01, Name: equal, not alike")
case("tail-name-slash", no(16, 8, 20), plain().put(8, 24, "/"), "01, Name: the tail's equals the head's")
case("tail-name-moved", no(16, 8, 20), plain().put(8, 20, " F24-20250610-001   "), "01, Name: equal, not alike")
case("head-and-tail-name-slash", no(16, 1, 20), plain(name="2025/06/10"), "01: the first fault by record")
for word, text in (("more", "0000003"), ("fewer", "0000001"), ("zero", "0000000"), ("far-off", "1000002")):
    case("tail-deleghe-" + word, no(18, 20, 46), full().put(20, 46, text), "01, refusal 18")
for word, text in (("more", "0000021"), ("fewer", "0000019"), ("without-head-and-tail", "0000018"), ("zero", "0000000"),
                   ("far-off", "1000020")):
    case("tail-records-" + word, no(19, 20, 83), full().put(20, 83, text), "01, refusal 19: records with head and tail")
for word, text in (("more", "000000000146001"), ("fewer", "000000000145999"), ("first-only", "000000000086000"),
                   ("last-only", "000000000060000"), ("debits", "000000000160000"), ("zero", "000000000000000"),
                   ("far-off", "100000000146000")):
    case("tail-sum-" + word, no(20, 20, 53), full().put(20, 53, text), "01, refusal 20: the sum of all final balances")
case("tail-name-before-counts", no(16, 8, 20), plain().put(8, 20, "X").put(8, 46, "0000009").put(8, 53, "9" * 15).put(8, 83, "0000009"),
     "01: 16 before 18, 19, 20")
case("tail-18-before-19-and-20", no(18, 8, 46), plain().put(8, 46, "0000009").put(8, 53, "9" * 15).put(8, 83, "0000009"),
     "01: 18 before 19 and 20")
case("tail-18-before-20", no(18, 8, 46), plain().put(8, 46, "0000009").put(8, 53, "9" * 15), "01: 18 before 20")
case("tail-19-before-20", no(19, 8, 83), plain().put(8, 53, "9" * 15).put(8, 83, "0000009"),
     "01: 19 before 20, although 53 stands before 83")
case("tail-7-before-16", no(7, 8, 83), plain().put(8, 20, "X").put(8, 83, "      8"), "01: 7 before 16")
case("tail-7-before-18", no(7, 8, 83), plain().put(8, 46, "0000009").put(8, 83, "      8"),
     "Decision: all fields are tested before any is compared")
case("tail-counts-a-record-behind", no(19, 8, 83), plain().put(8, 83, "0000009").add(bytearray(b" " * 120)),
     "Decision: the tail's count is compared with EF's own record number, not with the length")
case("tail-right-and-a-record-behind", no(4, 9, 2), plain().add(bytearray(b" " * 120)), "01: the tail passes, then 4")
case("tail-sum-of-sixteen-digits-cut", no(20, 12, 53), flow(delega(erario=[(999999999999999, 0)]), delega(imu=[(1, 0)])),
     "Decision: a sum of 10^15 cannot equal its field; the field holds zeros here")
case("tail-sum-of-sixteen-digits-head", no(20, 12, 53),
     flow(delega(erario=[(999999999999999, 0)]), delega(imu=[(1, 0)])).put(12, 53, "100000000000000"),
     "Decision: a sum of 10^15 cannot equal its field; the field holds its first fifteen digits here")
case("tail-sum-of-sixteen-digits-nines", no(20, 12, 53),
     flow(delega(erario=[(999999999999999, 0)]), delega(imu=[(1, 0)])).put(12, 53, "9" * 15),
     "Decision: nothing is held at the largest amount either")
