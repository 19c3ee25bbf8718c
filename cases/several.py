"""Several faults at once: first by record, then by number; and never the last, nor the least number over the flow."""

from case import case, no
from common import full, plain
from flow import delega, flow, record

FIRST = "01: records are judged in order; the first blocking fault ends the judgement"
WITHIN = "01: within a record the checks in the order of their numbers"

# --- First by record --------------------------------------------------------------------------------------------------
case("first-20-is-last", no(7, 4, 29), plain().put(4, 29, " ").put(8, 53, "9" * 15), FIRST)
case("first-17-of-all", no(17, 1, 14), plain(date="320625").put(4, 1, b"\x00").put(5, 2, "99").put(6, 45, "N"), FIRST)
case("first-16-of-all", no(16, 1, 20), plain(name="A:B").put(2, 4, "0000002").put(8, 46, "0000002"), FIRST)
case("first-10-before-a-late-3", no(10, 6, 15), plain().put(6, 15, "9" * 15).put(7, 1, b"\x00"), FIRST)
case("first-13-before-a-late-4", no(13, 6, 46), plain().put(6, 46, "9" * 15).put(7, 2, "99"), FIRST)
case("first-15-before-a-late-7", no(15, 7, 36), plain().put(7, 36, "9" * 15).put(8, 46, " "), FIRST)
case("first-12-before-a-late-9", no(12, 5, 43),
     flow(delega(erario=[(5, 0)], inps=[(0, 0)])).put(5, 43, "N"), FIRST)
case("first-9-before-a-late-8", no(9, 4, 29), flow(delega(regioni=[(0, 0), (5, 0)])).put(5, 4, "0000007"), FIRST)
case("first-8-before-a-late-6", no(8, 4, 4), flow(delega(regioni=[(5, 0)] * 5)).put(4, 4, "0000002"), FIRST)
case("first-14-before-a-late-4", no(14, 6, 2), flow(delega(imu=[(0, 5)])).add(record("EF", {})), FIRST)
case("first-20-before-a-late-3", no(20, 8, 53), plain().put(8, 53, "9" * 15).add(bytearray(b"\0" * 120)), FIRST)
case("first-18-before-a-late-4", no(18, 8, 46), plain().put(8, 46, "0000002").add(*plain().records), FIRST)
case("first-3-of-two", no(3, 2, 120), plain().put(2, 120, b"\x80").put(5, 1, b"\x80"), FIRST)
case("first-4-of-two", no(4, 5, 11), plain().put(5, 11, "07").put(7, 2, "99"), FIRST)
case("first-7-of-two", no(7, 5, 44), plain().put(5, 44, "X").put(6, 15, "X"), FIRST)
case("first-8-of-two", no(8, 3, 4), plain().put(3, 4, "0000002").put(7, 4, "0000002"), FIRST)
case("first-15-in-first-delega", no(15, 12, 36), full().put(12, 36, "9" * 15).put(19, 36, "9" * 15).put(20, 53, "9" * 15),
     FIRST)
case("first-in-second-delega", no(9, 17, 41), full().put(17, 41, "0" * 15).put(18, 44, "0" * 15).put(20, 83, "0000000"),
     FIRST)
case("first-10-before-12-of-next-section", no(10, 5, 13),
     full().put(5, 13, "9" * 15).put(7, 43, "N").put(9, 45, "N").put(11, 47, "N"),
     FIRST)
every = full().put(20, 1, b"\x00").put(19, 2, "99").put(18, 44, " ").put(17, 4, "0000009").put(15, 4, "0000009").put(12, 36, "9" * 15)
case("first-of-many-late", no(15, 12, 36), every, FIRST)
case("last-fault-is-5", no(11, 6, 30), plain().put(6, 30, "9" * 15).keep(7), FIRST)

# --- Within a record, by number ---------------------------------------------------------------------------------------
case("within-line-3-4", no(3, 4, 11), plain().put(4, 11, b"\x01\x01").put(4, 29, " " * 15), WITHIN)
case("within-line-4-7", no(4, 4, 11), plain().put(4, 11, "06").put(4, 29, " " * 15), WITHIN)
case("within-line-4-8", no(4, 4, 2), plain().put(4, 2, "50").put(4, 4, "0000009"), WITHIN)
case("within-line-7-8", no(7, 4, 44), plain().put(4, 4, "0000009").put(4, 44, " " * 15), WITHIN)
case("within-line-8-9", no(8, 4, 4), flow(delega(regioni=[(0, 0)])).put(4, 4, "0000009"), WITHIN)
case("within-line-7-9", no(7, 4, 70), flow(delega(ident=[(0, 5)])).put(4, 70, "x"), WITHIN)
case("within-balance-7-8", no(7, 6, 60), plain().put(6, 4, "0000009").put(6, 60, " "), WITHIN)
case("within-balance-7-10", no(7, 6, 46), plain().put(6, 15, "9" * 15).put(6, 46, " "), WITHIN)
case("within-balance-8-10", no(8, 6, 4), plain().put(6, 4, "0000009").put(6, 15, "9" * 15), WITHIN)
case("within-balance-8-12", no(8, 6, 4), plain().put(6, 4, "0000009").put(6, 45, " "), WITHIN)
case("within-balance-7-12", no(7, 6, 46), plain().put(6, 45, " ").put(6, 46, " "), WITHIN)
case("within-balance-10-13", no(10, 6, 15), plain().put(6, 15, "9" * 15).put(6, 46, "9" * 15), WITHIN)
case("within-balance-11-12", no(11, 6, 30), plain().put(6, 30, "9" * 15).put(6, 45, "N"), WITHIN)
case("within-40-18-7-12", no(7, 18, 44), full().put(18, 43, "N ").put(18, 4, "0000009"), WITHIN)
case("within-40-18-8-12", no(8, 18, 4), full().put(18, 43, "N").put(18, 4, "0000009"), WITHIN)
case("within-50-01-7-8", no(7, 7, 50), plain().put(7, 4, "0000009").put(7, 50, " "), WITHIN)
case("within-50-01-8-15", no(8, 7, 4), plain().put(7, 4, "0000009").put(7, 36, "9" * 15), WITHIN)
case("within-50-01-4-7", no(4, 7, 11), plain().put(7, 11, "03").put(7, 36, " " * 15), WITHIN)
case("within-ef-3-16", no(3, 8, 20), plain().put(8, 20, b"\xc0"), WITHIN)
case("within-ef-4-7", no(4, 8, 2), plain().put(8, 2, "Ef").put(8, 46, " " * 44), WITHIN)
case("within-ef-3-7-late-byte", no(3, 8, 120), plain().put(8, 46, " " * 44).put(8, 120, b"\n"), WITHIN)
case("within-10-4-7", no(4, 2, 2), plain().put(2, 2, "1O").put(2, 4, " " * 7), WITHIN)
case("within-10-3-8", no(3, 2, 118), plain().put(2, 4, "0000000").put(2, 118, b"\r\n"), WITHIN)
