"""Dropping cancelled deleghe: which are dropped and in which order they are named, what is left of the flow, 21 and 28, their order, and what is refused first."""

from case import no, yes
from common import FIRM, PERSON, READ, WRONG_CODE, full
from flow import delega, flow
from samples import SAMPLES, three_deleghe

CALLS = []          # (name, numbers of the list, bytes before, bytes expected, expected lines, why)

MOST = 999999999999999          # fifteen nines
LAST = 18446744073709551615     # the largest number of 64 bits
LONGEST = 600                   # the longest list that the program lends


def call(name, numbers, before, after, lines, why):
    assert len(numbers) <= LONGEST and all(0 <= n <= LAST for n in numbers), name
    assert len(before) == len(after), name
    CALLS.append((name, tuple(numbers), before, after, lines, why))


def closed_up(name, numbers, before, after, answer, why):
    """`before` becomes `after` and spaces, both as the builder makes them of a description; `answer` is that of the flow afterwards, in numbers written in the
    case, and the length that is answered is its number of records times 120."""
    answer.compare(name, after)
    before, after = bytes(before), bytes(after)
    length = 120 * answer.numbers[1]
    assert len(after) == length <= len(before), name
    call(name, numbers, before, after + b" " * (len(before) - length), ["DROPPED %d" % length, "SAME", *answer.printed], why)


def marked(built, marks):
    """Writes a character into every column that the judgement does not read: the first of `marks` in F4, the last in EF, those between by delega."""
    number = 0
    for r in built.records:
        kind = r[1:3].decode("ascii")
        number += kind == "10"
        mark = {"F4": marks[0], "EF": marks[-1]}.get(kind, marks[number])
        kind += "-" + r[10:12].decode("ascii") if kind in ("40", "50") else ""
        read = {p for first, last in READ[kind] for p in range(first, last + 1)}
        for position in set(range(1, 121)) - read:
            r[position - 1] = ord(mark)
    return built


def dropped(name, deleghe, numbers, kept, answer, why, /, marks=None, tail=(), **ends):
    """The deleghe of a list are dropped. `kept` has the numbers of the others, in their order; it is written in the case as the list is. `marks` as in `marked`;
    `tail` has texts for EF, (position, text). Gives the descriptions that are left."""
    assert sorted([*numbers, *kept]) == list(range(1, len(deleghe) + 1)) and list(kept) == sorted(kept), name
    before = flow(*deleghe, **ends)
    after = before.without(numbers)
    if marks:
        marked(before, marks)
        marked(after, marks[0] + "".join(marks[n] for n in kept) + marks[-1])
    for position, text in tail:
        before.put(len(before.records), position, text)
        after.put(len(after.records), position, text)
    closed_up(name, numbers, before, after, answer, why)
    return after.deleghe


def refused(name, built, numbers, answer, why):
    """Nothing is written: the bytes stay. `why` names the sentence of document 01 or 02 that decides."""
    data = bytes(built)
    call(name, numbers, data, data, [*answer, "SAME"], why)


# --- One, two and none of three ---------------------------------------------------------------------------------------
# 1 F4; 2 10, 3 20, 4 40-05, 5 40-06, 6 50-01; 7 10, 8 20, 9 40-05, 10 40-06, 11 50-01, 12 50-02; 13 10, 14 20, 15 40-05, 16 40-05, 17 40-06, 18 50-01, 19 50-02,
# 20 50-03; 21 EF. Final balances 50, 150 and 402.
THREE = [delega(regioni=[(100, 50)]), delega(regioni=[(200, 50)], after=1), delega(regioni=[(400, 0), (3, 1)], after=2)]
CLOSE = "02, ask 8: close the flow up over them, renumber the rest from 1, and set the tail"
ANY = "02, ask 8: a list of delega numbers, those of the flow as it is; no order is asked for"
NOTHING = "02, ask 8: an empty list changes nothing; the old length is answered"
ONLY_1, ONLY_2, ONLY_3 = yes(1, 7, 50, 1, regioni=(100, 50)), yes(1, 8, 150, 1, regioni=(200, 50)), yes(1, 10, 402, 2, regioni=(403, 1))
dropped("first-of-three", THREE, [1], [2, 3], yes(2, 16, 552, 3, regioni=(603, 51)), CLOSE)
dropped("middle-of-three", THREE, [2], [1, 3], yes(2, 15, 452, 3, regioni=(503, 51)), CLOSE)
dropped("last-of-three", THREE, [3], [1, 2], yes(2, 13, 200, 2, regioni=(300, 100)), CLOSE)
dropped("first-and-middle", THREE, [1, 2], [3], ONLY_3, CLOSE)
dropped("middle-and-first", THREE, [2, 1], [3], ONLY_3, ANY)
dropped("first-and-last", THREE, [1, 3], [2], ONLY_2, CLOSE)
dropped("last-and-first", THREE, [3, 1], [2], ONLY_2, ANY)
dropped("middle-and-last", THREE, [2, 3], [1], ONLY_1, CLOSE)
dropped("last-and-middle", THREE, [3, 2], [1], ONLY_1, ANY)
dropped("none-of-three", THREE, [], [1, 2, 3], yes(3, 21, 602, 4, regioni=(703, 101)), NOTHING)
dropped("none-of-one", [delega(regioni=[(10000, 0), (0, 2500)])], [], [1], yes(1, 8, 7500, 2, regioni=(10000, 2500)), NOTHING)
TWINS = [delega(imu=[(7, 3)], after=1)] * 2
dropped("first-of-twins", TWINS, [1], [2], yes(1, 8, 4, 1, imu=(7, 3)), CLOSE)
dropped("second-of-twins", TWINS, [2], [1], yes(1, 8, 4, 1, imu=(7, 3)), CLOSE)

# --- Every kind of record ---------------------------------------------------------------------------------------------
# full(): a delega of the four sections with 50-02 and 50-03, 13 records and 86000; one of section 17, 5 records and 60000.
EVERY = [delega(erario=[(10000, 2000)], inps=[(20000, 3000)], regioni=[(30000, 4000)], imu=[(40000, 5000)], after=2), delega(ident=[(60000, 0)])]
assert bytes(flow(*EVERY)) == bytes(full())
FOUR_LEFT = yes(1, 15, 86000, 4, erario=(10000, 2000), inps=(20000, 3000), regioni=(30000, 4000), imu=(40000, 5000))
SECTION_17_LEFT = yes(1, 7, 60000, 1, ident=(60000, 0))
ALL_LEFT = yes(2, 20, 146000, 5, erario=(10000, 2000), inps=(20000, 3000), regioni=(30000, 4000), imu=(40000, 5000), ident=(60000, 0))
SUMS = "02, ask 8: the sum of final balances before equals that after plus those dropped, and so for each section's sums"
dropped("four-sections", EVERY, [1], [2], SECTION_17_LEFT, SUMS)
dropped("section-17", EVERY, [2], [1], FOUR_LEFT, SUMS)
dropped("none-of-every-record", EVERY, [], [1, 2], ALL_LEFT, NOTHING)
dropped("section-17-first-of-two", EVERY[::-1], [1], [2], FOUR_LEFT, SUMS)
dropped("four-sections-behind-17", EVERY[::-1], [2], [1], SECTION_17_LEFT, SUMS)
AMONG = [delega(erario=[(1, 0)]), delega(ident=[(2, 0), (3, 0)], after=2), delega(erario=[(4, 0)], imu=[(8, 1)])]
dropped("section-17-between", AMONG, [2], [1, 3], yes(2, 14, 12, 3, erario=(5, 0), imu=(8, 1)), SUMS)
dropped("section-17-kept-between", AMONG, [1, 3], [2], yes(1, 10, 5, 2, ident=(5, 0)), SUMS)
dropped("section-17-all-28-lines", [delega(ident=[(10, 0)] * 28), delega(ident=[(1, 0)] * 28, after=1)], [1], [2], yes(1, 35, 28, 28, ident=(28, 0)), SUMS)
dropped("most-lines-of-each-section", [delega(erario=[(6, 1)] * 6, inps=[(5, 1)] * 4, regioni=[(4, 1)] * 4, imu=[(3, 1)] * 4), delega(regioni=[(9, 2)])], [2], [1],
        yes(1, 27, 66, 18, erario=(36, 6), inps=(20, 4), regioni=(16, 4), imu=(12, 4)), SUMS)

# --- A section in each of five ----------------------------------------------------------------------------------------
# Records 5, 6, 7, 6 and 7, with head and tail 33; final balances 900, 1800, 2700, 3600 and 5000, together 14000. Each has a taxpayer of its own.
FIVE = [delega(erario=[(1000, 100)], payer={"name": "ALFA", "tax_code": FIRM}), delega(inps=[(2000, 200)], after=1, payer={"name": "BRAVO", "tax_code": PERSON}),
        delega(regioni=[(3000, 300)], after=2, payer={"name": "CHARLIE"}), delega(imu=[(4000, 400)], after=1, payer={"name": "DELTA", "tax_code": FIRM}),
        delega(ident=[(5000, 0)], after=2, payer={"name": "ECO", "tax_code": PERSON})]
E, I, R, M, X = {"erario": (1000, 100)}, {"inps": (2000, 200)}, {"regioni": (3000, 300)}, {"imu": (4000, 400)}, {"ident": (5000, 0)}
dropped("five-but-the-first", FIVE, [1], [2, 3, 4, 5], yes(4, 28, 13100, 4, **I, **R, **M, **X), SUMS)
dropped("five-but-the-second", FIVE, [2], [1, 3, 4, 5], yes(4, 27, 12200, 4, **E, **R, **M, **X), SUMS)
dropped("five-but-the-third", FIVE, [3], [1, 2, 4, 5], yes(4, 26, 11300, 4, **E, **I, **M, **X), SUMS)
dropped("five-but-the-fourth", FIVE, [4], [1, 2, 3, 5], yes(4, 27, 10400, 4, **E, **I, **R, **X), SUMS)
dropped("five-but-the-fifth", FIVE, [5], [1, 2, 3, 4], yes(4, 26, 9000, 4, **E, **I, **R, **M), SUMS)
BUT_ONE = "02, ask 8: then 28 when none would be left; here one is"
dropped("all-but-the-first-of-five", FIVE, [2, 3, 4, 5], [1], yes(1, 7, 900, 1, **E), BUT_ONE)
dropped("all-but-the-second-of-five", FIVE, [5, 4, 3, 1], [2], yes(1, 8, 1800, 1, **I), BUT_ONE)
dropped("all-but-the-third-of-five", FIVE, [4, 1, 5, 2], [3], yes(1, 9, 2700, 1, **R), BUT_ONE)
dropped("all-but-the-fourth-of-five", FIVE, [2, 5, 1, 3], [4], yes(1, 8, 3600, 1, **M), BUT_ONE)
dropped("all-but-the-fifth-of-five", FIVE, [3, 1, 4, 2], [5], yes(1, 9, 5000, 1, **X), BUT_ONE)
TWO_LEFT = yes(2, 14, 5400, 2, **I, **M)
for word, numbers in (("rising", [1, 3, 5]), ("mixed", [3, 5, 1])):
    together = dropped("three-of-five-" + word, FIVE, numbers, [2, 4], TWO_LEFT, ANY)
dropped("first-two-of-five", FIVE, [2, 1], [3, 4, 5], yes(3, 22, 11300, 3, **R, **M, **X), CLOSE)
dropped("neighbours-in-the-middle", FIVE, [2, 3], [1, 4, 5], yes(3, 20, 9500, 3, **E, **M, **X), CLOSE)
dropped("last-two-of-five", FIVE, [4, 5], [1, 2, 3], yes(3, 20, 5400, 3, **E, **I, **R), CLOSE)
dropped("both-ends-of-five", FIVE, [5, 1], [2, 3, 4], yes(3, 21, 8100, 3, **I, **R, **M), CLOSE)

# --- One by one, with numbers that move up ----------------------------------------------------------------------------
MOVES = "02, ask 8: renumber the rest from 1: so a number above the one just dropped is one less afterwards, and one by one ends as together"
step = dropped("first-3-then-1-then-5-a", FIVE, [3], [1, 2, 4, 5], yes(4, 26, 11300, 4, **E, **I, **M, **X), MOVES)
step = dropped("first-3-then-1-then-5-b", step, [1], [2, 3, 4], yes(3, 21, 10400, 3, **I, **M, **X), MOVES)
step = dropped("first-3-then-1-then-5-c", step, [3], [1, 2], TWO_LEFT, MOVES)
assert bytes(flow(*step)) == bytes(flow(*together))
step = dropped("first-1-then-3-then-5-a", FIVE, [1], [2, 3, 4, 5], yes(4, 28, 13100, 4, **I, **R, **M, **X), MOVES)
step = dropped("first-1-then-3-then-5-b", step, [2], [1, 3, 4], yes(3, 21, 10400, 3, **I, **M, **X), MOVES)
step = dropped("first-1-then-3-then-5-c", step, [3], [1, 2], TWO_LEFT, MOVES)
assert bytes(flow(*step)) == bytes(flow(*together))
step = dropped("first-5-then-3-then-1-a", FIVE, [5], [1, 2, 3, 4], yes(4, 26, 9000, 4, **E, **I, **R, **M), MOVES)
step = dropped("first-5-then-3-then-1-b", step, [3], [1, 2, 4], yes(3, 19, 6300, 3, **E, **I, **M), MOVES)
step = dropped("first-5-then-3-then-1-c", step, [1], [2, 3], TWO_LEFT, MOVES)
assert bytes(flow(*step)) == bytes(flow(*together))
refused("one-by-one-to-the-last", flow(together[1]), [1], no(28, 0, 0), "02, ask 8: 28 when none would be left, however few there are by then")
refused("a-number-that-moved-up", flow(*together), [5], no(21, 0, 0), "02, ask 8: 21 for a number not in the flow: the fifth is the third by now")
SHORTER = "02, ask 8: the new length is answered: a later call is lent that much. The spaces behind are no record that may stand there"
refused("spaces-behind-the-tail", flow(THREE[0], THREE[2]).bytes_after(b" " * 720), [1], no(4, 16, 2), SHORTER)
refused("spaces-behind-the-tail-empty-list", flow(THREE[0], THREE[2]).bytes_after(b" " * 120), [], no(4, 16, 2), SHORTER)

# --- 50-02 and 50-03, dropped and kept --------------------------------------------------------------------------------
RECEIPTS = "01, Order: then at most one 50-02 and at most one 50-03; they are records of their delega, and go or stay with it"
for first, second, third in ((0, 0, 0), (0, 1, 2), (0, 2, 1), (1, 0, 1), (1, 1, 0), (1, 2, 2), (2, 0, 2), (2, 1, 1), (2, 2, 0)):
    dropped("receipts-%d-%d-%d" % (first, second, third), [delega(erario=[(1, 0)], after=first), delega(erario=[(2, 0)], after=second), delega(erario=[(4, 0)], after=third)],
            [2], [1, 3], yes(2, 12 + first + third, 5, 2, erario=(5, 0)), RECEIPTS)

# --- Numbers of two and three digits, and the most deleghe ------------------------------------------------------------
TWELVE = [delega(erario=[(n, 0)]) for n in range(1, 13)]       # final balances 1 to 12, together 78
SEVEN_DIGITS = "01, Numbers: each next one is one more: 9 follows 8 where 10 did"
dropped("first-of-twelve", TWELVE, [1], range(2, 13), yes(11, 57, 77, 11, erario=(77, 0)), SEVEN_DIGITS)
dropped("tenth-of-twelve", TWELVE, [10], [1, 2, 3, 4, 5, 6, 7, 8, 9, 11, 12], yes(11, 57, 68, 11, erario=(68, 0)), SEVEN_DIGITS)
dropped("first-nine-of-twelve", TWELVE, [9, 8, 7, 6, 5, 4, 3, 2, 1], [10, 11, 12], yes(3, 17, 33, 3, erario=(33, 0)), SEVEN_DIGITS)
# 108 deleghe of at least five records: 546 with the four that have 50-02 and the head and the tail. Final balances 1 to 108. Every third is kept: 3, 6 and so on
# to 108, which make 3 times 666; 36 deleghe of five records, one of which has a 50-02, with head and tail 183.
MANY = [delega(erario=[(n, 0)], after=int(n <= 4)) for n in range(1, 109)]
dropped("two-of-each-three-of-108-falling", MANY, [n for n in range(108, 0, -1) if n % 3], range(3, 109, 3), yes(36, 183, 1998, 36, erario=(1998, 0)),
        "01: at most 546 records, that is 65,520 bytes: 108 deleghe are the most that there can be; " + ANY)

# --- Amounts ----------------------------------------------------------------------------------------------------------
NINES = "01: amounts have fifteen digits; 999,999,999,999,999 is the largest"
dropped("largest-kept", [delega(erario=[(MOST, 0)]), delega(imu=[(5, 5)])], [2], [1], yes(1, 7, MOST, 1, erario=(MOST, 0)), NINES)
dropped("largest-dropped", [delega(erario=[(MOST, 0)]), delega(imu=[(5, 5)])], [1], [2], yes(1, 7, 0, 1, imu=(5, 5)), NINES + "; a tail sum of zero is accepted")
dropped("largest-tail-sum-before", [delega(regioni=[(999999999999998, 0)]), delega(regioni=[(1, 0)])], [1], [2], yes(1, 7, 1, 1, regioni=(1, 0)), NINES)
dropped("one-less-than-the-largest-tail-sum", [delega(regioni=[(1, 0)]), delega(ident=[(999999999999998, 0)])], [1], [2], yes(1, 7, 999999999999998, 1, ident=(999999999999998, 0)), NINES)
SIXTEEN = "Decision: a flow's section sums may need more than fifteen digits; no record stores them"
BOTH_SIDES = [delega(erario=[(MOST, MOST)]), delega(erario=[(MOST, MOST)], after=2), delega(erario=[(MOST, MOST)])]
dropped("section-sums-of-sixteen-digits-stay", BOTH_SIDES, [2], [1, 3], yes(2, 12, 0, 2, erario=(1999999999999998, 1999999999999998)), SIXTEEN)
dropped("section-sums-that-fit-only-after", BOTH_SIDES, [1, 2], [3], yes(1, 7, 0, 1, erario=(MOST, MOST)), SIXTEEN)
TOO_MUCH = flow(delega(erario=[(MOST, 0)]), delega(ident=[(1, 0)]))
for word, numbers in (("", [2]), ("-empty-list", []), ("-before-21", [3]), ("-before-28", [1, 2])):
    refused("20-a-sum-that-fits-only-after" + word, TOO_MUCH, numbers, no(20, 12, 53),
            "02, ask 8: given an accepted flow: it is judged as it is. A sum of sixteen digits can't equal its field")
dropped("balances-of-zero", [delega(regioni=[(2500, 2500)]), delega(regioni=[(7, 0)]), delega(imu=[(3, 3)])], [2], [1, 3], yes(2, 12, 0, 2, regioni=(2500, 2500), imu=(3, 3)),
        "01, Delega: zero is allowed")
LESS = [delega(erario=[(1, 2)], inps=[(1, 3)], regioni=[(1, 4)], imu=[(1000, 1)]), delega(erario=[(50, 0)], inps=[(0, 20)])]
dropped("signs-n-kept", LESS, [2], [1], yes(1, 13, 993, 4, erario=(1, 2), inps=(1, 3), regioni=(1, 4), imu=(1000, 1)), SUMS + "; a section's balance may be N")
dropped("signs-n-dropped", LESS, [1], [2], yes(1, 9, 30, 2, erario=(50, 0), inps=(0, 20)), SUMS + "; a section's balance may be N")

# --- What is never written --------------------------------------------------------------------------------------------
ONLY = "02, ask 8: kept deleghe differ only in their number; fillers and other fields are not read"
LEFT_2_OF_3 = yes(2, 16, 552, 3, regioni=(603, 51))
dropped("unread-letters", THREE, [1], [2, 3], LEFT_2_OF_3, ONLY + ": each delega has a letter of its own, so have head and tail", marks="HABCT")
dropped("unread-digits-of-the-number", THREE, [1], [2, 3], LEFT_2_OF_3, ONLY + ": digits in every other column, which are the old number's, 1 2 3", marks="01234")
dropped("unread-tildes-and-blanks", THREE, [2], [1, 3], yes(2, 15, 452, 3, regioni=(503, 51)), ONLY, marks="~ ~ ~")
dropped("unread-letters-none-dropped", THREE, [], [1, 2, 3], yes(3, 21, 602, 4, regioni=(703, 101)), NOTHING, marks="HABCT")
dropped("unread-letters-of-four-sections", EVERY, [2], [1], FOUR_LEFT, ONLY, marks="HABT")
dropped("unread-letters-of-section-17", EVERY, [1], [2], SECTION_17_LEFT, ONLY, marks="HABT")
dropped("unread-letters-of-five", FIVE, [4, 1], [2, 3, 5], yes(3, 22, 9500, 3, **I, **R, **X), ONLY, marks="HABCDET")
PROTOCOL = ONLY + ": record 10's 107-113 has a number of its own, which stays"
OTHER = [delega(regioni=[(5, 0)], protocol="0000007"), delega(regioni=[(6, 0)], protocol="0000002"), delega(regioni=[(7, 0)], protocol="9999999")]
dropped("protocol-numbers-stay", OTHER, [1], [2, 3], yes(2, 12, 13, 2, regioni=(13, 0)), PROTOCOL)
dropped("protocol-is-not-the-number-asked-for", OTHER, [2], [1, 3], yes(2, 12, 12, 2, regioni=(12, 0)), PROTOCOL)
refused("21-a-protocol-number", flow(*OTHER), [7], no(21, 0, 0), "02, ask 8: 21 for a number not in the flow; a delega's number is at 4-10")
TEXT = [delega(erario=[(3, 0)], payer={"town": "0000001 2 3", "street": "VIA 0000002", "name": "0000003"}),
        delega(erario=[(4, 0)], after=2, payer={"town": "0000002", "street": "0000003", "name": "0000002", "client": "0000002", "zip": "00002"}),
        delega(erario=[(5, 0)], payer={"town": "0000003", "name": "0000003"})]
dropped("numbers-in-names-and-streets", TEXT, [1], [2, 3], yes(2, 14, 9, 2, erario=(9, 0)), ONLY)
TAIL = "02, ask 8: set the tail, that is its counts and its sum; every other byte of it stays"
dropped("tail-other-sum-stays", THREE, [3], [1, 2], yes(2, 13, 200, 2, regioni=(300, 100)), TAIL + ": EF's 68-82, between its sum and its records", tail=[(68, "NEGATIVE AMOUNT")])
dropped("tail-date-stays", THREE, [3], [1, 2], yes(2, 13, 200, 2, regioni=(300, 100)), TAIL + ": EF's own date", tail=[(14, "NODATE")])
dropped("tail-all-else-stays", THREE, [2, 1], [3], ONLY_3, TAIL, tail=[(1, "X"), (4, "X" * 16), (40, "X" * 6), (68, "9" * 15), (90, "X" * 31)])
NAMED = "01, Name: the tail's equals the head's; both stay"
dropped("a-blank-name", THREE, [1, 2], [3], ONLY_3, NAMED, name=" " * 20)
dropped("a-name-of-signs", THREE, [1, 2], [3], ONLY_3, NAMED, name="~!\"#$%&'()*+,-.;<=>?")
dropped("a-name-of-numbers", THREE, [2], [1, 3], yes(2, 15, 452, 3, regioni=(503, 51)), NAMED, name="00000030000021000002")
dropped("a-leap-day", THREE, [2], [1, 3], yes(2, 15, 452, 3, regioni=(503, 51)), "02, ask 4: 290216 passes; the head stays as it is", date="290216")

# --- The samples ------------------------------------------------------------------------------------------------------
STORY = "02, ask 8: members withdraw a payment before sending"
closed_up("sample-three-deleghe", [2], SAMPLES["three-deleghe.f24"], three_deleghe(2), yes(2, 18, 1141066, 5, erario=(482316, 120050), inps=(615400, 0), imu=(163400, 0)), STORY)
closed_up("sample-three-deleghe-without-others", [3, 1], SAMPLES["three-deleghe.f24"], three_deleghe(1, 3), yes(1, 9, 28912, 2, regioni=(30412, 1500)), STORY)
refused("sample-three-deleghe-all", SAMPLES["three-deleghe.f24"], [3, 1, 2], no(28, 0, 0), "02, ask 8: 28 when none would be left")
refused("sample-three-deleghe-a-fourth", SAMPLES["three-deleghe.f24"], [4], no(21, 0, 0), "02, ask 8: 21 for a number not in the flow")
refused("sample-regioni", SAMPLES["regioni.f24"], [1], no(28, 0, 0), "02, ask 8: 28 when none would be left")
refused("sample-wrong-balance", SAMPLES["wrong-balance.f24"], [1], no(13, 6, 46), "02, ask 8: refusals after 01's")
refused("sample-wrong-code", SAMPLES["wrong-code.f24"], [2], no(26, 2, 11), "02, ask 8: refusals after 01's, as ask 2 amends them")
refused("sample-raised-line", SAMPLES["raised-line.f24"], [], no(10, 6, 15), "02, ask 8: refusals after 01's; an empty list is one of an accepted flow")

# --- 21 ---------------------------------------------------------------------------------------------------------------
ABSENT = "02, ask 8: 21 for a number not in the flow"
TWICE = "02, ask 8: 21 for a number named twice"
three, two, single = flow(*TWELVE[:3]), flow(*TWELVE[:2]), flow(TWELVE[0])          # 17, 12 and 7 records
for word, number in (("0", 0), ("above-the-count", 3), ("far-above", 546), ("of-eight-digits", 10000001), ("1-and-2-to-the-8", 257), ("2-and-2-to-the-16", 65538),
                     ("1-and-2-to-the-32", 4294967297), ("2-and-2-to-the-63", 9223372036854775810), ("64-above", 65), ("of-64-bits", LAST)):
    refused("21-" + word, two, [number], no(21, 0, 0), ABSENT)
for word, built, numbers in (
        ("first-in-the-list", three, [0, 1, 2]), ("in-the-middle", three, [1, 4, 2]), ("last-in-the-list", three, [1, 2, 4]), ("0-last-in-the-list", two, [2, 0]),
        ("of-64-bits-in-the-middle", three, [3, LAST, 1]), ("two-bad-ones", two, [9, 0]), ("above-the-count-of-three", three, [4]),
        ("above-the-count-of-one", single, [2]), ("0-of-one", single, [0]), ("no-number-in-the-flow", two, [3, 4, 5]), ("the-number-of-records", two, [12])):
    refused("21-" + word, built, numbers, no(21, 0, 0), ABSENT)
for word, built, numbers in (
        ("twice", three, [2, 2]), ("first-twice", three, [1, 1]), ("last-twice", three, [3, 3]), ("twice-with-another-between", three, [1, 2, 1]), ("twice-behind-another", three, [3, 1, 1]),
        ("three-times", three, [3, 3, 3]), ("twice-in-a-flow-of-two", two, [1, 1]), ("second-twice-in-a-flow-of-two", two, [2, 2]), ("all-and-one-twice", two, [1, 2, 1]),
        ("twice-in-a-flow-of-one", single, [1, 1]), ("three-times-in-a-flow-of-one", single, [1, 1, 1]), ("largest-twice", two, [LAST, LAST]), ("0-twice", two, [0, 0]),
        ("twice-far-apart", flow(*TWELVE), [12, *range(1, 11), 12])):
    refused("21-" + word, built, numbers, no(21, 0, 0), TWICE)

# --- 21 before 28 -----------------------------------------------------------------------------------------------------
FIRST = "02, ask 8: 21, then 28: the whole list is looked at for 21 first"
for word, built, numbers in (
        ("all-and-a-fourth", three, [1, 2, 3, 4]), ("all-and-0", two, [1, 2, 0]), ("0-and-all", two, [0, 1, 2]), ("all-falling-behind-a-third", two, [3, 2, 1]),
        ("all-with-64-bits-between", two, [1, LAST, 2]), ("all-and-the-last-again", three, [1, 2, 3, 3]), ("all-and-the-first-again", three, [1, 2, 3, 1]),
        ("all-twice", three, [1, 2, 3, 1, 2, 3]), ("as-many-as-there-are", three, [1, 2, 2]), ("as-many-as-there-are-with-0", three, [0, 1, 2]), ("one-and-another", single, [1, 2]),
        ("one-and-0", single, [1, 0]), ("two-and-the-second-again", two, [1, 2, 2])):
    refused("21-before-28-" + word, built, numbers, no(21, 0, 0), FIRST)

# --- 21: lists longer than the count ----------------------------------------------------------------------------------
LONGER = "02, ask 8: a list longer than the number of deleghe has a number not in the flow or one named twice"
refused("21-list-of-600-rising", two, range(1, 601), no(21, 0, 0), LONGER)
refused("21-list-of-600-times-1", single, [1] * 600, no(21, 0, 0), LONGER)
refused("21-list-of-600-largest-numbers", single, range(LAST - 599, LAST + 1), no(21, 0, 0), LONGER)
refused("21-list-of-600-1-and-2-again-and-again", two, [1, 2] * 300, no(21, 0, 0), LONGER)

# --- 28 ---------------------------------------------------------------------------------------------------------------
NONE_LEFT = "02, ask 8: then 28 when none would be left"
for word, built, numbers in (
        ("one-of-one", single, [1]), ("both-of-two", two, [1, 2]), ("both-of-two-falling", two, [2, 1]), ("all-of-three", three, [1, 2, 3]), ("all-of-three-falling", three, [3, 2, 1]),
        ("all-of-three-mixed", three, [2, 3, 1]), ("all-of-every-record", flow(*EVERY), [2, 1]), ("all-of-five", flow(*FIVE), [4, 2, 5, 1, 3]),
        ("section-17-alone", flow(EVERY[1]), [1])):
    refused("28-" + word, built, numbers, no(28, 0, 0), NONE_LEFT)

# --- The judgement first ----------------------------------------------------------------------------------------------
# 1 F4; 2 10, 3 20, 4 40-05, 5 40-06, 6 50-01 of 7500; 7 10, 8 20, 9 40-01, 10 40-02, 11 50-01 of 500; 12 EF. Most faults are in the
# second delega, or are a count or a sum of the tail that fits the flow without it: one that is dropped without a judgement would leave a flow that is accepted.
JUDGED = "01: every call on a flow judges it first; 02, ask 8: refusals after 01's"


def pair(lines=((600, 100),)):
    return flow(delega(regioni=[(10000, 2500)]), delega(erario=lines))


FAULTS = (
    (2, pair().bytes_after(b" "), (2, 0, 0)),
    (3, pair().put(8, 60, b"\xe8"), (3, 8, 60)),
    (4, pair().put(10, 11, "08"), (4, 10, 11)),
    (5, pair().keep(11), (5, 12, 0)),
    (6, pair([(1, 0)] * 7), (6, 15, 11)),
    (7, pair().put(9, 27, "00000000000060 "), (7, 9, 41)),
    (8, pair().put(11, 4, "0000001"), (8, 11, 4)),
    (9, pair().put(9, 27, "0" * 30), (9, 9, 27)),
    (10, pair().put(10, 13, "000000000000601"), (10, 10, 13)),
    (11, pair().put(10, 28, "000000000000101"), (11, 10, 28)),
    (12, pair().put(10, 43, "N"), (12, 10, 43)),
    (13, pair().put(10, 44, "000000000000501"), (13, 10, 44)),
    (14, pair([(600, 601)]), (14, 11, 2)),
    (15, pair().put(11, 36, "000000000000501"), (15, 11, 36)),
    (16, pair().put(12, 39, "X"), (16, 12, 20)),
    (17, pair().put(1, 14, "310215"), (17, 1, 14)),
    (18, pair().put(12, 46, "0000001"), (18, 12, 46)),
    (19, pair().put(12, 83, "0000007"), (19, 12, 83)),
    (20, pair().put(12, 53, "000000000007500"), (20, 12, 53)),
    (26, pair().put(7, 11, WRONG_CODE), (26, 7, 11)),
)
for number, built, answer in FAULTS:
    refused("own-%d-with-a-good-list" % number, built, [2], no(*answer), JUDGED + ", also where the dropping would take the fault out")
    refused("own-%d-before-21" % number, built, [0] if number % 2 else [2, 2], no(*answer), JUDGED)
    refused("own-%d-before-28" % number, built, [2, 1], no(*answer), JUDGED)
for number, built, answer in FAULTS[::6]:
    refused("own-%d-with-an-empty-list" % number, built, [], no(*answer), JUDGED + "; an empty list is one of an accepted flow")
TOO_LONG = flow(*MANY).bytes_after(b" ")
refused("own-1-with-a-good-list", TOO_LONG, [108], no(1, 0, 0), JUDGED)
refused("own-1-before-21", TOO_LONG, [109], no(1, 0, 0), JUDGED)
for word, numbers in (("good-list", [1]), ("list-of-600", [1] * 600), ("empty-list", [])):
    refused("own-2-of-no-bytes-%s" % word, b"", numbers, no(2, 0, 0), JUDGED + "; no bytes are 2")
refused("own-2-of-119-bytes", bytes(single)[:119], [1], no(2, 0, 0), JUDGED)
refused("own-4-no-delega", pair().drop(2, 10), [1], no(4, 2, 2), JUDGED + ": a head and a tail alone")
refused("own-5-a-head-alone", pair().keep(1), [], no(5, 2, 0), JUDGED)
refused("own-8-numbers-not-from-1", pair().put(2, 4, "0000002"), [1], no(8, 2, 4), JUDGED)
refused("own-16-slash", pair().put(1, 20, "F24/"), [2], no(16, 1, 20), JUDGED)
refused("own-26-in-a-kept-delega", pair().put(2, 11, WRONG_CODE), [2], no(26, 2, 11), JUDGED)
refused("own-13-in-a-kept-delega", pair().put(5, 46, "000000000012500"), [2], no(13, 5, 46), JUDGED)
