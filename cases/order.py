"""Refusals 1 to 6: lengths, characters, the order of the records, their end, the most lines."""

from case import case, no
from common import FULL, full, plain
from flow import delega, flow, record

# --- 1 and 2: lengths -------------------------------------------------------------------------------------------------
most = lambda: flow(*[delega(ident=[(10000, 0)] * 28)] * 17)            # 546 records, sound
case("length-65521", no(1, 0, 0), most().bytes_after(b" "),
     "01, Examples: 65,521 give 1; it is no multiple of 120 either")
case("length-65640", no(1, 0, 0), flow(*[delega(ident=[(10000, 0)] * 28)] * 16, delega(ident=[(10000, 0)] * 28, after=1)),
     "01, refusal 1: 547 sound records are too many")
case("length-0", no(2, 0, 0), b"", "01, Examples: none gives 2; not 5")
case("length-1", no(2, 0, 0), b" ", "01, refusal 2")
case("length-119", no(2, 0, 0), bytes(plain())[:119], "01, Examples: 119 give 2")
case("length-121", no(2, 0, 0), bytes(plain())[:121], "01, refusal 2")
case("length-959", no(2, 0, 0), bytes(plain())[:959], "01, refusal 2: the last byte of a sound flow is missing")
case("length-961", no(2, 0, 0), plain().bytes_after(b"\n"), "01, refusal 2: a line end behind a sound flow")
case("length-119-bad-bytes", no(2, 0, 0), b"\0" * 119, "01: refusals 1 and 2 come first")
case("line-ends", no(2, 0, 0), b"".join(bytes(r) + b"\n" for r in plain().records),
     "01: records follow one another with no line ends")
sixty = flow(*[delega(ident=[(100, 0)] * 25)] * 2)                      # 60 records: 60 * 122 is a multiple of 120
case("line-ends-of-a-fit-length", no(3, 2, 1), b"".join(bytes(r) + b"\r\n" for r in sixty.records),
     "01: records follow one another with no line ends; the second begins with CR")

# --- 3: characters ----------------------------------------------------------------------------------------------------
for byte in (0, 9, 10, 13, 31, 127, 128, 160, 200, 255):
    case("byte-%d" % byte, no(3, 3, 40), plain().put(3, 40, bytes([byte])), "01, refusal 3: a byte outside 32 to 126")
for number, kind in enumerate(FULL, 1):
    position, byte = (1, b"\x7f") if number % 2 else (120, b"\x1f")
    case("byte-in-record-%d-%s" % (number, kind.lower()), no(3, number, position), full().put(number, position, byte),
         "01, refusal 3: in each kind of record, filler included")
case("byte-two-in-record", no(3, 3, 39), plain().put(3, 39, b"\xe0").put(3, 110, b"\x00"),
     "01, refusal 3: first such byte")
case("byte-in-type", no(3, 4, 2), plain().put(4, 2, b"\xff"), "Decision: 3 comes before 4 even at position 2")
case("byte-in-subtype", no(3, 4, 12), plain().put(4, 12, b"\x00"),
     "01: within a record in the order of the numbers, 3 before 4")
case("byte-in-amount", no(3, 4, 43), plain().put(4, 43, b"\x80"),
     "01: within a record in the order of the numbers, 3 before 7")
case("byte-in-name", no(3, 1, 25), plain().put(1, 20, "//////").put(1, 25, b"\x09"), "01: 3 before 16")
case("byte-in-first-type", no(3, 1, 3), plain().put(1, 3, b"\x04"), "01: 3 before 4")
case("byte-in-wrong-record", no(3, 4, 100), plain().put(4, 2, "99").put(4, 100, b"\x01"), "01: 3 before 4")
case("byte-behind-a-fault", no(4, 3, 2), plain().put(3, 2, "99").put(4, 1, b"\x00"),
     "Decision: 3 is judged record by record, not over the whole flow first")
case("byte-behind-ef", no(3, 9, 1), plain().add(bytearray(b"\0" * 120)),
     "01: 3 before 4, also in a record that may not stand")

# --- 4: what may stand where ------------------------------------------------------------------------------------------
# Rows: the record before ("start" is none). Columns: the record that comes.
# "." it may stand; "2" nothing of its type may stand here; "s" its type may stand, so the position is 11.
TABLE = """
              F4 EF 10 20 40-01 40-02 40-03 40-04 40-05 40-06 40-07 40-08 40-17 40-18 40-09 50-01 50-02 50-03 50-04 70
start         .  2  2  2    2     2     2     2     2     2     2     2     2     2     2     2     2     2     2   2
F4            2  2  .  2    2     2     2     2     2     2     2     2     2     2     2     2     2     2     2   2
10            2  2  2  .    2     2     2     2     2     2     2     2     2     2     2     2     2     2     2   2
20            2  2  2  2    .     s     .     s     .     s     .     s     .     s     s     2     2     2     2   2
40-01         2  2  2  2    .     .     s     s     s     s     s     s     s     s     s     2     2     2     2   2
40-02         2  2  2  2    s     s     .     s     .     s     .     s     s     s     s     .     s     s     s   2
40-03         2  2  2  2    s     s     .     .     s     s     s     s     s     s     s     2     2     2     2   2
40-04         2  2  2  2    s     s     s     s     .     s     .     s     s     s     s     .     s     s     s   2
40-05         2  2  2  2    s     s     s     s     .     .     s     s     s     s     s     2     2     2     2   2
40-06         2  2  2  2    s     s     s     s     s     s     .     s     s     s     s     .     s     s     s   2
40-07         2  2  2  2    s     s     s     s     s     s     .     .     s     s     s     2     2     2     2   2
40-08         2  2  2  2    2     2     2     2     2     2     2     2     2     2     2     .     s     s     s   2
40-17         2  2  2  2    s     s     s     s     s     s     s     s     .     .     s     2     2     2     2   2
40-18         2  2  2  2    2     2     2     2     2     2     2     2     2     2     2     .     s     s     s   2
50-01         2  .  .  2    2     2     2     2     2     2     2     2     2     2     2     s     .     s     s   2
50-02         2  .  .  2    2     2     2     2     2     2     2     2     2     2     2     s     s     .     s   2
50-03         2  .  .  2    2     2     2     2     2     2     2     2     2     2     2     2     2     2     2   2
EF            2  2  2  2    2     2     2     2     2     2     2     2     2     2     2     2     2     2     2   2
"""
BEGINNINGS = {      # a sound beginning of a flow that ends with this record: (section, records kept)
    "start": ("regioni", 0), "F4": ("regioni", 1), "10": ("regioni", 2), "20": ("regioni", 3),
    "40-01": ("erario", 4), "40-02": ("erario", 5), "40-03": ("inps", 4), "40-04": ("inps", 5),
    "40-05": ("regioni", 4), "40-06": ("regioni", 5), "40-07": ("imu", 4), "40-08": ("imu", 5),
    "40-17": ("ident", 4), "40-18": ("ident", 5), "50-01": ("regioni", 6), "50-02": ("regioni", 7), "50-03": ("regioni", 8),
    "EF": ("regioni", 9),
}


def bare(kind):
    """A record with type, number and subtype, blank elsewhere: 4 comes before every check of its fields."""
    kind, _, subtype = kind.partition("-")
    return record(kind, {} if kind in ("F4", "EF") else {4: "0000001", 11: subtype})


head, *rows = TABLE.strip("\n").split("\n")
for row in rows:
    before, *marks = row.split()
    section, kept = BEGINNINGS[before]
    for kind, mark in zip(head.split(), marks, strict=True):
        if mark != ".":
            case("after-%s-comes-%s" % (before.lower(), kind.lower()), no(4, kept + 1, {"2": 2, "s": 11}[mark]),
                 flow(delega(**{section: [(100, 0)]}, after=2)).keep(kept).add(bare(kind)),
                 "01, refusal 4 and Order of the records; docs/DECISIONS.md for what may stand")

case("f4-then-ef", no(4, 2, 2), flow(), "01, Examples: F4 then EF gives 4 at record 2, position 2")
case("no-f4", no(4, 1, 2), plain().drop(1), "01, Order: F4 first")
case("no-10", no(4, 2, 2), plain().drop(2), "01, Order: a delega is one record 10 ...")
case("no-20", no(4, 3, 2), plain().drop(3), "01, Order: ... one record 20 (always) ...")
case("no-section", no(4, 4, 2), plain().drop(4, 3), "01, Order: ... one or more sections ...")
case("no-line", no(4, 4, 11), plain().drop(4, 2),
     "01, Order: a section is one or more lines and then its balance record")
case("no-balance", no(4, 6, 2), plain().drop(6),
     "01, Order: a section is one or more lines and then its balance record")
case("no-50-01", no(4, 7, 2), plain().drop(7), "01, Order: ... one record 50-01")
case("f4-twice", no(4, 2, 2), plain().insert(2, plain().records[0]), "01, Order: F4 once")
case("ef-twice", no(4, 9, 2), plain().add(plain().records[7]), "01, Order: nothing after EF")
case("flow-twice", no(4, 9, 2), plain().add(*plain().records), "01, Order: nothing after EF")
case("blank-behind-ef", no(4, 9, 2), plain().add(bytearray(b" " * 120)), "01, Order: nothing after EF")
case("delega-behind-ef", no(4, 9, 2), plain().add(*plain().records[1:7]), "01, Order: nothing after EF")
case("all-blank", no(4, 1, 2), b" " * 120, "01, refusal 4")
case("all-zero-digits", no(4, 1, 2), b"0" * 240, "01, refusal 4")
case("10-twice", no(4, 3, 2), plain().insert(3, plain().records[1]), "01, Order: one record 10")
case("20-twice", no(4, 4, 2), plain().insert(4, plain().records[2]), "01, Order: one record 20")
case("balance-twice", no(4, 7, 11), plain().insert(7, plain().records[5]),
     "01, Order: a section has one balance record")
case("50-01-twice", no(4, 8, 11), plain().insert(8, plain().records[6]), "Decision: a second 50-01 is at 11")
case("50-03-without-50-02", no(4, 7, 11), flow(delega(erario=[(5, 0)], after=2)).drop(7),
     "01, Order: 50-03 after a 50-02 only")
case("50-02-twice", no(4, 8, 11), flow(delega(erario=[(5, 0)], after=1)).insert(8, bare("50-02")),
     "01, Order: at most one 50-02")
case("50-03-twice", no(4, 9, 2), flow(delega(erario=[(5, 0)], after=2)).insert(9, bare("50-03")),
     "Decision: a second 50-03 is at 2")
case("type-lower-case", no(4, 1, 2), plain().put(1, 2, "f4"), "01: type at 2-3")
case("type-one-place-early", no(4, 1, 2), plain().put(1, 1, "F4 "), "01: type at 2-3")
case("type-one-place-late", no(4, 8, 2), plain().put(8, 2, " EF"), "01: type at 2-3")
case("subtype-blank", no(4, 4, 11), plain().put(4, 11, "  "), "Decision: an unknown subtype is no case of its own")
case("subtype-5-blank", no(4, 4, 11), plain().put(4, 11, "5 "), "Decision: an unknown subtype is no case of its own")
case("subtype-99", no(4, 5, 11), plain().put(5, 11, "99"), "Decision: an unknown subtype is no case of its own")
case("subtype-50-blank", no(4, 7, 11), plain().put(7, 11, "  "), "Decision: an unknown subtype is no case of its own")
case("subtype-letters-late", no(4, 6, 2), flow(delega(imu=[(5, 0)])).insert(6, bare("40-XX")),
     "Decision: an unknown 40 after 40-08 is at 2")
case("section-regioni-then-erario", no(4, 6, 11), flow(delega(erario=[(5, 0)], regioni=[(5, 0)], order=["regioni", "erario"])),
     "01, Order: sections stand in the order of the table")
case("section-imu-then-inps", no(4, 6, 2), flow(delega(inps=[(5, 0)], imu=[(5, 0)], order=["imu", "inps"])),
     "01, Order: sections stand in the order of the table; after 40-08 no 40 may stand")
for name, position in (("erario", 11), ("inps", 11), ("regioni", 11), ("imu", 2), ("ident", 2)):
    case("section-%s-twice" % name, no(4, 6, position), flow(delega(**{name: [(5, 0)]}, order=[name, name])),
         "01, Order: each section at most once")
for name, position in (("erario", 11), ("inps", 11), ("regioni", 11), ("imu", 2)):
    case("section-%s-then-ident" % name, no(4, 6, position), flow(delega(**{name: [(5, 0)]}, ident=[(5, 0)])),
         "01, Order: section 17 alone")
    case("section-ident-then-%s" % name, no(4, 6, 2), flow(delega(**{name: [(5, 0)]}, ident=[(5, 0)], order=["ident", name])),
         "01, Order: section 17 alone")
case("line-of-next-section", no(4, 5, 11), flow(delega(erario=[(5, 0)], inps=[(6, 0)])).drop(5),
     "01, Order: a section ends with its balance record")
case("ident-in-second-delega", no(4, 11, 11), flow(delega(ident=[(5, 0)]), delega(erario=[(5, 0)], ident=[(5, 0)])),
     "01, Order: what one delega holds does not open the next")

# --- 5: the end -------------------------------------------------------------------------------------------------------
for kept, kind in enumerate(FULL[:-1], 1):
    case("ends-at-%d-%s" % (kept, kind.lower()), no(5, kept + 1, 0), full().keep(kept),
         "01, refusal 5: records end before EF, after each kind of record")
case("f4-alone", no(5, 2, 0), plain().keep(1), "Decision: F4 alone is 5 at record 2")
case("f4-alone-bad-date", no(17, 1, 14), plain(date="320625").keep(1),
     "01: refusal 5 comes after all records have passed")
case("no-ef-and-a-fault", no(15, 7, 36), plain().put(7, 36, "000000000007501").keep(7),
     "01: refusal 5 comes after all records have passed")
case("no-ef-at-546", no(5, 547, 0), flow(*[delega(ident=[(10000, 0)] * 28)] * 18).keep(546),
     "01, refusal 5: number of records plus 1; 546 records are judged")

# --- 6: the most lines ------------------------------------------------------------------------------------------------
TOO_MANY = [("erario", 6, 10), ("inps", 4, 8), ("regioni", 4, 8), ("imu", 4, 8), ("ident", 28, 32)]
for name, lines, at in TOO_MANY:        # section, most lines, record of the line beyond them
    case("too-many-%s" % name, no(6, at, 11), flow(delega(**{name: [(5, 0)] * (lines + 1)})),
         "01, refusal 6 and table of sections")
    case("too-many-%s-in-second" % name, no(6, 5 + at, 11), flow(delega(regioni=[(5, 0)]), delega(**{name: [(5, 0)] * (lines + 2)})),
         "01, refusal 6: the lines are counted anew in each delega")
case("too-many-twice-over", no(6, 8, 11), flow(delega(regioni=[(5, 0)] * 8)), "01: the first fault by record")
case("too-many-before-7", no(6, 8, 11), flow(delega(regioni=[(5, 0)] * 5)).put(8, 29, " " * 30), "01: 6 before 7")
case("too-many-before-8", no(6, 8, 11), flow(delega(regioni=[(5, 0)] * 5)).put(8, 4, "0000009"), "01: 6 before 8")
case("too-many-before-9", no(6, 8, 11), flow(delega(regioni=[(5, 0)] * 4 + [(0, 0)])), "01: 6 before 9")
case("too-many-after-3", no(3, 8, 60), flow(delega(regioni=[(5, 0)] * 5)).put(8, 60, b"\x07"), "01: 3 before 6")
case("other-line-after-the-most", no(4, 8, 11), flow(delega(regioni=[(5, 0)] * 4)).insert(8, bare("40-07")),
     "01, refusal 4: a line of another section may not stand, whatever the count")
