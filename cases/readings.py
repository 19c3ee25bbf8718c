"""The calls that read: one delega, one line, a step of a walk. Every answer is written by hand; the bytes of a record that is shown are
those that the builder wrote."""

from case import OneDelega, no, one
from common import FIRM, PERSON, WRONG_CODE, fill_unread, full, plain
from flow import delega, flow

CALLS = []          # (name, five numbers, bytes, expected lines, why)

DELEGA, LINE, STEP = 1, 2, 3
LARGEST = 2 ** 64 - 1


def shown(built, record):
    """The bytes of a record, counted from 1."""
    return bytes(built)[(record - 1) * 120:record * 120].decode("ascii")


def call(name, which, numbers, built, lines, why):
    if isinstance(lines, OneDelega):
        assert [lines.number] == numbers, name
        lines.compare(name, built)
        lines = lines.printed
    CALLS.append((name, (which, *numbers, *[0] * (4 - len(numbers))), bytes(built), lines, why))


def changed(built, record, position, text):
    """The flow with other characters at a position of a record."""
    data, at = bytearray(bytes(built)), (record - 1) * 120 + position - 1
    data[at:at + len(text)] = text
    return bytes(data)


two = full()            # 20 records, deleghe of 86000 and 60000
alike = flow(delega(regioni=[(1, 0), (2, 0), (3, 0)]), delega(regioni=[(4, 0), (5, 0)], imu=[(6, 1)]))
bad = changed(plain(), 6, 45, b"N")         # 40-06 says N for a positive balance
comma = plain().put(4, 29, "000000000100,00")
no_such_day = plain(date="290215")
mistyped = plain().put(2, 11, WRONG_CODE)
mistyped_later = full().put(15, 11, WRONG_CODE)         # in the second delega
coded = flow(delega(regioni=[(4, 1)], payer={"tax_code": PERSON}), delega(imu=[(6, 0)], payer={"tax_code": FIRM}))
CODE = "01: every call on a flow judges it first; 02, ask 2: 26 at the field's start"
PASSES = "02, ask 2: a code that passes is no fault"
DAY = "01: every call on a flow judges it first; 02, ask 4: valid only if the day exists in that month"
SEVEN = "01: every call on a flow judges it first; 02, Ask 5: 7 names the first non-digit's own position"

# --- One delega ---------------------------------------------------------------------------------------------------------
call("delega-first", DELEGA, [1], two, one(1, 86000, 4, 15, 4, erario=(10000, 2000), inps=(20000, 3000), regioni=(30000, 4000), imu=(40000, 5000)),
     "01: for one delega its final balance and its ten section sums are given")
call("delega-last", DELEGA, [2], two, one(2, 60000, 1, 16, 1, ident=(60000, 0)), "01: its own sums, and not the flow's")
call("delega-of-two-alike", DELEGA, [2], alike, one(2, 14, 3, 12, 2, regioni=(9, 0), imu=(6, 1)), "01: sums start at zero for every delega")
call("delega-zero-balance", DELEGA, [1], flow(delega(erario=[(7500, 0)], regioni=[(10000, 0), (0, 17500)])),
     one(1, 0, 3, 5, 2, erario=(7500, 0), regioni=(10000, 17500)), "01: zero is allowed")
call("delega-zero", DELEGA, [0], two, ["REFUSED 21 0 0"], "01: a number that is 0 is refused 21")
call("delega-above", DELEGA, [3], two, ["REFUSED 21 0 0"], "01: a number above the count is refused 21")
call("delega-largest", DELEGA, [LARGEST], two, ["REFUSED 21 0 0"], "01: numbers of every size are taken")
call("delega-of-a-flow-refused-7", DELEGA, [1], comma, ["REFUSED 7 4 41"], SEVEN)
call("delega-of-a-flow-refused-17", DELEGA, [1], no_such_day, ["REFUSED 17 1 14"], DAY)
call("delega-of-a-flow-refused-26", DELEGA, [1], mistyped, ["REFUSED 26 2 11"], CODE)
call("delega-0-of-a-flow-refused-26", DELEGA, [0], mistyped, ["REFUSED 26 2 11"], CODE)
call("delega-1-where-2-is-refused-26", DELEGA, [1], mistyped_later, ["REFUSED 26 15 11"], CODE)
call("delega-of-a-person", DELEGA, [1], coded, one(1, 3, 1, 4, 1, regioni=(4, 1)), PASSES)
call("delega-of-a-firm", DELEGA, [2], coded, one(2, 6, 1, 8, 1, imu=(6, 0)), PASSES)
call("delega-of-a-refused-flow", DELEGA, [0], bad, ["REFUSED 12 6 45"], "01: every call on a flow judges it first")
call("delega-of-nothing", DELEGA, [1], b"", ["REFUSED 2 0 0"], "01: every call on a flow judges it first")
call("delega-of-a-flow-too-long", DELEGA, [1], b" " * 65521, ["REFUSED 1 0 0"], "01: every call on a flow judges it first")

# --- One delega: its lines, the set of its sections, how many they are ----------------------------------------------------
SET = "02, ask 9: a delega's set of sections as one number, 1, 2, 4, 8, 16 added in 01's order (Erario, INPS, Regioni, IMU, identifying elements), and its size"
COUNT = "02, ask 9: the summary of one delega gains the line count"
call("delega-printed-whole", DELEGA, [1], plain(), one(1, 7500, 2, 4, 1, regioni=(10000, 2500)), COUNT + "; 01's printed case: two lines in one section")
# Erario three lines, INPS one, Regioni two, IMU four; balances 27, 180, 1800, 18000.
E, I, R, L = {"erario": [(10, 1)] * 3}, {"inps": [(200, 20)]}, {"regioni": [(1000, 100)] * 2}, {"imu": [(5000, 500)] * 4}
SUMS = {"erario": (30, 3), "inps": (200, 20), "regioni": (2000, 200), "imu": (20000, 2000)}
for sections, balance, lines, used, size in [
        ([E], 27, 3, 1, 1), ([I], 180, 1, 2, 1), ([E, I], 207, 4, 3, 2), ([R], 1800, 2, 4, 1), ([E, R], 1827, 5, 5, 2), ([I, R], 1980, 3, 6, 2),
        ([E, I, R], 2007, 6, 7, 3), ([L], 18000, 4, 8, 1), ([E, L], 18027, 7, 9, 2), ([I, L], 18180, 5, 10, 2), ([E, I, L], 18207, 8, 11, 3),
        ([R, L], 19800, 6, 12, 2), ([E, R, L], 19827, 9, 13, 3), ([I, R, L], 19980, 7, 14, 3), ([E, I, R, L], 20007, 10, 15, 4)]:
    told = {name: x for s in sections for name, x in s.items()}
    call("delega-set-%02d" % used, DELEGA, [1], flow(delega(**told)), one(1, balance, lines, used, size, **{name: SUMS[name] for name in told}), SET)
call("delega-set-16", DELEGA, [1], flow(delega(ident=[(7, 0)] * 5)), one(1, 35, 5, 16, 1, ident=(35, 0)), SET + "; 01, Order: section 17 alone")
for name, balance, lines, used in (("erario", 60, 6, 1), ("inps", 40, 4, 2), ("regioni", 40, 4, 4), ("imu", 40, 4, 8), ("ident", 280, 28, 16)):
    call("delega-most-" + name, DELEGA, [1], flow(delega(**{name: [(10, 0)] * lines})), one(1, balance, lines, used, 1, **{name: (balance, 0)}),
         COUNT + "; 01, table of sections: the most lines, in one section")
call("delega-most-in-all-four", DELEGA, [1], flow(delega(erario=[(10, 1)] * 6, inps=[(20, 2)] * 4, regioni=[(30, 3)] * 4, imu=[(40, 4)] * 4)),
     one(1, 378, 18, 15, 4, erario=(60, 6), inps=(80, 8), regioni=(120, 12), imu=(160, 16)), COUNT + "; 01, table of sections: the most lines in each of the four")

# One delega after another: (sections, final balance, lines, set, size, sums).
PAIRED = {
    "rich": (dict(erario=[(10, 1)] * 2, inps=[(20, 2)], regioni=[(30, 3)], imu=[(40, 4)] * 3), (171, 7, 15, 4),
             dict(erario=(20, 2), inps=(20, 2), regioni=(30, 3), imu=(120, 12))),
    "poor": (dict(regioni=[(5, 1)]), (4, 1, 4, 1), dict(regioni=(5, 1))),
    "ident": (dict(ident=[(6, 0), (7, 0)]), (13, 2, 16, 1), dict(ident=(13, 0))),
    "set-5": (dict(erario=[(8, 0)], regioni=[(9, 0)] * 3), (35, 4, 5, 2), dict(erario=(8, 0), regioni=(27, 0))),
    "set-10": (dict(inps=[(3, 0)] * 2, imu=[(4, 2)]), (8, 3, 10, 2), dict(inps=(6, 0), imu=(4, 2))),
}
ANEW = SET + ", for each delega its own; 01, Delega: sums start at zero for every delega"
for first, second in (("rich", "poor"), ("poor", "rich"), ("rich", "ident"), ("ident", "rich"), ("set-5", "set-10"),
                      ("set-10", "set-5"), ("rich", "rich")):
    pair = flow(delega(**PAIRED[first][0]), delega(**PAIRED[second][0]))
    for number, place, name in ((1, "%s-before-%s" % (first, second), first), (2, "%s-after-%s" % (second, first), second)):
        call("delega-" + place, DELEGA, [number], pair, one(number, *PAIRED[name][1], **PAIRED[name][2]), ANEW)
rising = flow(*[delega(ident=[(k, 0)] * k) for k in (1, 2, 3, 4, 5, 6)])
for k in (1, 2, 3, 4, 5, 6):
    call("delega-%d-of-%d-lines" % (k, k), DELEGA, [k], rising, one(k, k * k, k, 16, 1, ident=(k * k, 0)), COUNT + ", its own and not those up to it")
call("delega-108-of-546-records", DELEGA, [108], flow(*[delega(erario=[(1, 0)])] * 107, delega(erario=[(1, 0), (2, 0)], imu=[(3, 0), (4, 1)])),
     one(108, 9, 4, 9, 2, erario=(3, 0), imu=(7, 1)), ANEW + "; the last of the most deleghe that 65,520 bytes hold")

# What counts, and what doesn't.
HAS = SET + ": a section counts by its lines, whatever they come to"
for name, used in (("erario", 1), ("inps", 2), ("regioni", 4), ("imu", 8)):
    call("delega-zero-balance-" + name, DELEGA, [1], flow(delega(**{name: [(5, 5)]})), one(1, 0, 1, used, 1, **{name: (5, 5)}), HAS)
call("delega-zero-balance-in-all-four", DELEGA, [1], flow(delega(erario=[(5, 5)], inps=[(6, 6)], regioni=[(7, 7)], imu=[(8, 8)])),
     one(1, 0, 4, 15, 4, erario=(5, 5), inps=(6, 6), regioni=(7, 7), imu=(8, 8)), HAS)
call("delega-zero-balance-by-two-lines", DELEGA, [1], flow(delega(imu=[(5, 0), (0, 5)])), one(1, 0, 2, 8, 1, imu=(5, 5)), HAS)
call("delega-zero-balance-between", DELEGA, [1], flow(delega(erario=[(7, 0)], regioni=[(5, 5)], imu=[(9, 0)])),
     one(1, 16, 3, 13, 3, erario=(7, 0), regioni=(5, 5), imu=(9, 0)), HAS)
call("delega-of-credits-in-a-section", DELEGA, [1], flow(delega(erario=[(0, 9)], imu=[(10, 0)])), one(1, 1, 2, 9, 2, erario=(0, 9), imu=(10, 0)), HAS)
call("delega-of-credits-in-three-sections", DELEGA, [1], flow(delega(erario=[(9, 0)], inps=[(0, 1), (0, 2)], regioni=[(0, 3)], imu=[(0, 3)])),
     one(1, 0, 5, 15, 4, erario=(9, 0), inps=(0, 3), regioni=(0, 3), imu=(0, 3)), HAS)
call("delega-with-50-02-and-50-03", DELEGA, [1], flow(delega(regioni=[(5, 0)], after=2), delega(imu=[(6, 0)], after=1)),
     one(1, 5, 1, 4, 1, regioni=(5, 0)), COUNT + "; 01, Order: a 50-02 and a 50-03 are no lines")
for number, answer in ((1, one(1, 86000, 4, 15, 4, erario=(10000, 2000), inps=(20000, 3000), regioni=(30000, 4000), imu=(40000, 5000))),
                       (2, one(2, 60000, 1, 16, 1, ident=(60000, 0)))):
    call("delega-%d-unread-all-seven" % number, DELEGA, [number], fill_unread(full(), "7"), answer, "01: fillers and other fields are not read")

# A refusal stays one line.
ONE_LINE = "01: a refusal prints one line; every call on a flow judges it first"
call("delega-above-of-six", DELEGA, [7], rising, no(21, 0, 0), "01: a number above the count is refused 21, in one line")
call("delega-0-of-six", DELEGA, [0], rising, no(21, 0, 0), "01: a number that is 0 is refused 21, in one line")
call("delega-with-a-line-of-zeros", DELEGA, [1], flow(delega(erario=[(5, 0)], regioni=[(0, 0)])), no(9, 6, 29),
     ONE_LINE + "; Lines: not both zero, so that no section of a delega comes to nothing on both sides")
call("delega-with-a-line-too-many", DELEGA, [1], flow(delega(erario=[(5, 0)] * 7)), no(6, 10, 11), ONE_LINE)
call("delega-of-17-beside-erario", DELEGA, [1], flow(delega(erario=[(5, 0)], ident=[(5, 0)])), no(4, 6, 11), ONE_LINE + "; Order: section 17 alone, so that no set is 17")
call("delega-of-17-beside-all-four", DELEGA, [1], flow(delega(erario=[(5, 0)], inps=[(5, 0)], regioni=[(5, 0)], imu=[(5, 0)], ident=[(5, 0)])), no(4, 12, 2),
     ONE_LINE + "; Order: section 17 alone, so that no set is 31")
call("delega-of-a-section-twice", DELEGA, [1], flow(delega(erario=[(5, 0)], order=["erario", "erario"])), no(4, 6, 11), ONE_LINE + "; Order: each at most once")
call("delega-of-a-balance-without-lines", DELEGA, [1], flow(delega(regioni=[(5, 0)], imu=[(6, 0)])).drop(6), no(4, 6, 11),
     ONE_LINE + "; Order: a section is one or more lines and then its balance record, so that there are as many balance records as sections")
call("delega-without-sections", DELEGA, [1], flow(delega()), no(4, 4, 2), ONE_LINE + "; Order: one or more sections, so that no set is 0")
call("delega-1-of-a-wrong-tail", DELEGA, [1], full().put(20, 83, "0000021"), no(19, 20, 83), ONE_LINE)

# --- One line -----------------------------------------------------------------------------------------------------------
for subtype, number, record in [(1, 1, 4), (3, 1, 6), (5, 1, 8), (7, 1, 10), (17, 2, 17)]:
    call("line-%02d" % subtype, LINE, [number, subtype, 1], two, ["LINE %d" % record, shown(two, record)],
         "01: a line is named by delega number, line subtype and its place in the section")
for place, record in [(1, 4), (2, 5), (3, 6)]:
    call("line-place-%d" % place, LINE, [1, 5, place], alike, ["LINE %d" % record, shown(alike, record)], "01: its place in the section, counted from 1")
call("line-of-the-second-delega", LINE, [2, 5, 1], alike, ["LINE 11", shown(alike, 11)], "01: places are counted anew in each delega")
call("line-last", LINE, [2, 7, 1], alike, ["LINE 14", shown(alike, 14)], "01: the last line of the last delega")
for name, numbers in [("no-delega", (3, 5, 1)), ("delega-zero", (0, 5, 1)), ("absent-section", (1, 7, 1)), ("place-zero", (1, 5, 0)), ("place-beyond", (1, 5, 4)),
                      ("balance-subtype", (1, 6, 1)), ("no-subtype", (1, 9, 1)), ("subtype-zero", (1, 0, 1)), ("largest", (LARGEST, LARGEST, LARGEST))]:
    call("line-" + name, LINE, list(numbers), alike, ["REFUSED 21 0 0"], "01: 21, no such delega, section or line")
call("line-of-a-flow-refused-7", LINE, [1, 5, 1], comma, ["REFUSED 7 4 41"], SEVEN)
call("line-of-a-flow-refused-17", LINE, [1, 5, 1], no_such_day, ["REFUSED 17 1 14"], DAY)
call("line-of-a-flow-refused-26", LINE, [1, 5, 1], mistyped, ["REFUSED 26 2 11"], CODE)
call("line-none-of-a-flow-refused-26", LINE, [1, 5, 9], mistyped, ["REFUSED 26 2 11"], CODE)
call("line-1-where-delega-2-is-refused-26", LINE, [1, 1, 1], mistyped_later, ["REFUSED 26 15 11"], CODE)
call("line-of-a-firm", LINE, [2, 7, 1], coded, ["LINE 9", shown(coded, 9)], PASSES)
call("line-of-a-refused-flow", LINE, [9, 9, 9], bad, ["REFUSED 12 6 45"], "01: every call on a flow judges it first")
call("line-of-119-bytes", LINE, [1, 5, 1], bytes(plain())[:119], ["REFUSED 2 0 0"], "01: every call on a flow judges it first")

# --- A step of a walk -----------------------------------------------------------------------------------------------------
for place in range(8):
    call("step-%d" % (place + 1), STEP, [place], plain(), ["%d %s" % (place + 1, shown(plain(), place + 1)), "PLACE %d" % (place + 1)],
         "01, the walk: the k-th step from the start hands back the k-th record")
call("step-at-the-end", STEP, [8], plain(), ["NO MORE", "PLACE 8"], "01, the walk: at EF's end there is no more, and the place stays")
call("step-beyond-the-end", STEP, [9], plain(), ["NO MORE", "PLACE 9"], "01, the walk: at a place beyond it too")
call("step-from-the-largest-place", STEP, [LARGEST], plain(), ["NO MORE", "PLACE %d" % LARGEST], "01, the walk: at a place beyond it too")
call("step-of-a-flow-refused-7", STEP, [3], comma, ["REFUSED 7 4 41", "PLACE 3"], SEVEN)
call("step-of-a-flow-refused-17", STEP, [3], no_such_day, ["REFUSED 17 1 14", "PLACE 3"], DAY)
call("step-of-a-flow-refused-26", STEP, [0], mistyped, ["REFUSED 26 2 11", "PLACE 0"], CODE)
call("step-of-a-flow-refused-26-later", STEP, [3], mistyped, ["REFUSED 26 2 11", "PLACE 3"], CODE)
call("step-before-a-delega-refused-26", STEP, [1], mistyped_later, ["REFUSED 26 15 11", "PLACE 1"], CODE)
call("step-beyond-of-a-flow-refused-26", STEP, [99], mistyped, ["REFUSED 26 2 11", "PLACE 99"], CODE)
call("step-to-a-persons-code", STEP, [1], coded, ["2 " + shown(coded, 2), "PLACE 2"], PASSES)
call("step-to-a-firms-code", STEP, [6], coded, ["7 " + shown(coded, 7), "PLACE 7"], PASSES)
call("step-of-a-refused-flow", STEP, [0], bad, ["REFUSED 12 6 45", "PLACE 0"], "01, the walk: a refused step does the same with its refusal")
call("step-of-a-refused-flow-later", STEP, [5], bad, ["REFUSED 12 6 45", "PLACE 5"], "01, the walk: the place stays")
call("step-of-nothing", STEP, [0], b"", ["REFUSED 2 0 0", "PLACE 0"], "01, the walk: a refused step does the same with its refusal")
