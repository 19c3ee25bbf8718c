"""A flow by portions: five calls in a row on one flow, the first from the state stored in the case, each next from the state handed back. Every answer and every
state is written by hand, from document 02's ask 7 and docs/PORTIONS.md; nothing here judges a flow."""

from case import yes
from common import WRONG_CODE, full, plain
from flow import NAME, delega, flow

CALLS = []          # (name, five portions, bytes, the stored state, expected lines, why)

LARGEST = 2 ** 64 - 1
AMOUNT = 999999999999999            # the largest amount: fifteen digits

# --- A state: 53 numbers, as docs/PORTIONS.md lists them --------------------------------------------------------------------
GOING, ACCEPTED, REFUSED = 1, 2, 3
F4, TEN, TWENTY, LINE, BALANCE, FIFTY_1, FIFTY_2, FIFTY_3, EF = range(1, 10)          # what the last record was; 0 where there was none
ERARIO, INPS, REGIONI, IMU, IDENT = range(5)


def state(stands=GOING, refusal=(0, 0, 0), passed=0, others=0, deleghe=0, last=0, section=0, lines=0, balances=0, opened=(0, 0), opened_by={}, flow_by={}, name=""):
    """The numbers of a state. `others` are the records that are no lines, `lines` those of the section so far, `opened` the debits and credits of the open delega;
    `opened_by` and `flow_by` are the same for each section of the open delega and of the flow: {section: (debit, credit)}."""
    both = [number for by in (opened_by, flow_by) for s in range(5) for number in by.get(s, (0, 0))]
    name = list(name if isinstance(name, bytes) else name.encode("ascii")) or [0] * 20
    numbers = [stands, *refusal, passed, others, deleghe, last, section, lines, balances, *opened, *both, *name]
    assert len(numbers) == 53
    return numbers


def but(numbers, changes):
    """The state with other numbers: {place in the state: number}."""
    numbers = list(numbers)
    for at, number in changes.items():
        numbers[at] = number
    return numbers


def ended(numbers, *refusal):
    """The state, ended: with this refusal, or with acceptance where none is given."""
    return but(numbers, dict(enumerate((REFUSED, *refusal) if refusal else (ACCEPTED, 0, 0, 0))))


START = state()

# --- An answer ----------------------------------------------------------------------------------------------------------------
FOREIGN = "102 0"


def going(examined):
    """It has not ended."""
    return "101 %d" % examined


def no(number, examined, record, position):
    return "%d %d %d %d" % (number, examined, record, position)


def accepted(deleghe, records, total, lines, **sums):
    """Accepted: all records are examined. The numbers are in the order in which the judgement gives them."""
    return yes(deleghe, records, total, lines, **sums)


def printed(answer):
    if isinstance(answer, str):
        return answer
    deleghe, records, total, lines, sums = answer.numbers
    return " ".join(map(str, (0, records, deleghe, records, total, lines, *(n for both in sums for n in both))))


def case(name, portions, built, stored, answers, after, why):
    """`answers` are those of the five calls, `after` is the state behind the last. `why` names the sentence of document 02 or of docs/PORTIONS.md that decides."""
    assert len(portions) == len(answers) == 5 and len(stored) == len(after) == 53, name
    for answer in answers:
        # A slip of the pen: what is accepted from the start on has the numbers that the builder was told.
        if not isinstance(answer, str) and stored == START:
            answer.compare(name, built)
    lines = [printed(answer) for answer in answers] + ["STATE " + " ".join(map(str, after))]
    CALLS.append((name, portions, bytes(built), stored, lines, why))


def foreign(name, built, stored, why, portions=(0, 1, 3, 546, LARGEST)):
    """Five times foreign, whatever the portion is, and the state comes back as it was."""
    case(name, portions, built, stored, [FOREIGN] * 5, stored, why)


def again(name, built, stored, answer, why, portions=(0, 1, 3, 546, LARGEST)):
    """An ended state gives its answer five times, whatever the portion is, and stays."""
    case(name, portions, built, stored, [answer] * 5, stored, why)


# --- The flow of 01's printed case: 1 F4, 2 10, 3 20, 4 40-05 (10000, 0), 5 40-05 (0, 2500), 6 40-06, 7 50-01, 8 EF -----------------
ONE, BOTH = {REGIONI: (10000, 0)}, {REGIONI: (10000, 2500)}
AFTER = {           # the state after so many of its records
    1: state(passed=1, others=1, last=F4, name=NAME),
    2: state(passed=2, others=2, deleghe=1, last=TEN, name=NAME),
    3: state(passed=3, others=3, deleghe=1, last=TWENTY, name=NAME),
    4: state(passed=4, others=3, deleghe=1, last=LINE, section=REGIONI, lines=1, opened=(10000, 0), opened_by=ONE, flow_by=ONE, name=NAME),
    5: state(passed=5, others=3, deleghe=1, last=LINE, section=REGIONI, lines=2, opened=(10000, 2500), opened_by=BOTH, flow_by=BOTH, name=NAME),
    6: state(passed=6, others=4, deleghe=1, last=BALANCE, section=REGIONI, opened=(10000, 2500), opened_by=BOTH, flow_by=BOTH, name=NAME),
    7: state(passed=7, others=5, deleghe=1, last=FIFTY_1, balances=7500, flow_by=BOTH, name=NAME),
    8: state(ACCEPTED, passed=8, others=6, deleghe=1, last=EF, balances=7500, flow_by=BOTH, name=NAME),
}
SOUND = accepted(1, 8, 7500, 2, regioni=(10000, 2500))

END = "02, ask 7: any portions above zero end in 01's answer, given by the call that examines the last record needed"
ZERO = "02, ask 7: a portion of zero examines nothing; PORTIONS: it has not ended, and the state is the one given"
SO_FAR = "02, ask 7: the answer says how many records have been examined so far; PORTIONS: the numbers of a state"
AGAIN = "02, ask 7: an ended state gives its answer again"

case("sample-by-ones", (1, 1, 1, 1, 1), plain(), START, [going(1), going(2), going(3), going(4), going(5)], AFTER[5], SO_FAR)
case("sample-by-ones-to-the-end", (1, 1, 1, 1, 1), plain(), AFTER[4], [going(5), going(6), going(7), SOUND, SOUND], AFTER[8], END)
case("sample-by-twos", (2, 2, 2, 2, 2), plain(), START, [going(2), going(4), going(6), SOUND, SOUND], AFTER[8], END)
case("sample-by-threes", (3, 3, 3, 3, 3), plain(), START, [going(3), going(6), SOUND, SOUND, SOUND], AFTER[8], END)
case("sample-at-once", (8, 8, 8, 8, 8), plain(), START, [SOUND] * 5, AFTER[8], END)
case("sample-by-more-than-it-has", (9, 546, 0, 1, LARGEST), plain(), START, [SOUND] * 5, AFTER[8], END + "; an ended state gives its answer again")
case("sample-by-the-largest-portion", (LARGEST, LARGEST, 0, 1, 8), plain(), START, [SOUND] * 5, AFTER[8], "02, ask 7: a larger portion never alters an answer given")
case("sample-the-largest-after-three", (3, LARGEST, LARGEST, 0, 1), plain(), START, [going(3), SOUND, SOUND, SOUND, SOUND], AFTER[8],
     "02, ask 7: a larger portion never alters an answer given, also where three records are seen before it")
case("sample-with-zeros-between", (0, 3, 0, 5, 0), plain(), START, [going(0), going(3), going(3), SOUND, SOUND], AFTER[8], ZERO)
case("sample-by-zeros", (0, 0, 0, 0, 0), plain(), START, [going(0)] * 5, START, ZERO)
case("sample-zeros-at-the-last-but-one", (7, 0, 0, 0, 0), plain(), START, [going(7)] * 5, AFTER[7], ZERO + ", also where one record is left")
case("sample-its-last-record-alone", (7, 0, 1, 0, 1), plain(), START, [going(7), going(7), SOUND, SOUND, SOUND], AFTER[8], END)
for passed, portions in [(1, (1, 0, 0, 0, 0)), (2, (0, 2, 0, 0, 0)), (3, (1, 2, 0, 0, 0)), (4, (3, 1, 0, 0, 0)), (6, (4, 2, 0, 0, 0))]:
    so_far = [sum(portions[:k]) for k in range(1, 6)]
    case("sample-after-%d" % passed, portions, plain(), START, [going(examined) for examined in so_far], AFTER[passed], SO_FAR)

# --- A flow with every kind of record: FULL of common.py. Final balances 86000 and 60000 -------------------------------------------
UP_TO_IMU = {ERARIO: (10000, 2000), INPS: (20000, 3000), REGIONI: (30000, 4000), IMU: (40000, 5000)}
WITH_IDENT = {**UP_TO_IMU, IDENT: (60000, 0)}
FULL_AFTER = {
    4: state(passed=4, others=3, deleghe=1, last=LINE, section=ERARIO, lines=1, opened=(10000, 2000), opened_by={ERARIO: (10000, 2000)},
             flow_by={ERARIO: (10000, 2000)}, name=NAME),
    5: state(passed=5, others=4, deleghe=1, last=BALANCE, section=ERARIO, opened=(10000, 2000), opened_by={ERARIO: (10000, 2000)},
             flow_by={ERARIO: (10000, 2000)}, name=NAME),
    6: state(passed=6, others=4, deleghe=1, last=LINE, section=INPS, lines=1, opened=(30000, 5000), opened_by={ERARIO: (10000, 2000), INPS: (20000, 3000)},
             flow_by={ERARIO: (10000, 2000), INPS: (20000, 3000)}, name=NAME),
    10: state(passed=10, others=6, deleghe=1, last=LINE, section=IMU, lines=1, opened=(100000, 14000), opened_by=UP_TO_IMU, flow_by=UP_TO_IMU, name=NAME),
    11: state(passed=11, others=7, deleghe=1, last=BALANCE, section=IMU, opened=(100000, 14000), opened_by=UP_TO_IMU, flow_by=UP_TO_IMU, name=NAME),
    12: state(passed=12, others=8, deleghe=1, last=FIFTY_1, balances=86000, flow_by=UP_TO_IMU, name=NAME),
    13: state(passed=13, others=9, deleghe=1, last=FIFTY_2, balances=86000, flow_by=UP_TO_IMU, name=NAME),
    14: state(passed=14, others=10, deleghe=1, last=FIFTY_3, balances=86000, flow_by=UP_TO_IMU, name=NAME),
    15: state(passed=15, others=11, deleghe=2, last=TEN, balances=86000, flow_by=UP_TO_IMU, name=NAME),
    17: state(passed=17, others=12, deleghe=2, last=LINE, section=IDENT, lines=1, balances=86000, opened=(60000, 0), opened_by={IDENT: (60000, 0)},
              flow_by=WITH_IDENT, name=NAME),
    18: state(passed=18, others=13, deleghe=2, last=BALANCE, section=IDENT, balances=86000, opened=(60000, 0), opened_by={IDENT: (60000, 0)},
              flow_by=WITH_IDENT, name=NAME),
    19: state(passed=19, others=14, deleghe=2, last=FIFTY_1, balances=146000, flow_by=WITH_IDENT, name=NAME),
    20: state(ACCEPTED, passed=20, others=15, deleghe=2, last=EF, balances=146000, flow_by=WITH_IDENT, name=NAME),
}
ALL = accepted(2, 20, 146000, 5, erario=(10000, 2000), inps=(20000, 3000), regioni=(30000, 4000), imu=(40000, 5000), ident=(60000, 0))
case("every-kind-by-fours", (4, 4, 4, 4, 4), full(), START, [going(4), going(8), going(12), going(16), ALL], FULL_AFTER[20], END)
case("every-kind-by-sevens", (7, 7, 7, 7, 7), full(), START, [going(7), going(14), ALL, ALL, ALL], FULL_AFTER[20], END)
for passed, portions in [(4, (4, 0, 0, 0, 0)), (5, (1, 1, 1, 1, 1)), (6, (6, 0, 0, 0, 0)), (10, (2, 2, 2, 2, 2)), (11, (10, 1, 0, 0, 0)), (12, (5, 7, 0, 0, 0)),
                         (13, (12, 1, 0, 0, 0)), (14, (13, 0, 1, 0, 0)), (15, (3, 3, 3, 3, 3)), (17, (9, 8, 0, 0, 0)), (18, (17, 1, 0, 0, 0)), (19, (15, 1, 1, 1, 1))]:
    so_far = [sum(portions[:k]) for k in range(1, 6)]
    case("every-kind-after-%d" % passed, portions, full(), START, [going(examined) for examined in so_far], FULL_AFTER[passed], SO_FAR)
# 28 lines (1, 0) of identifying elements behind F4, 10 and 20
case("the-most-lines-of-a-section", (3, 27, 1, 0, 0), flow(delega(ident=[(1, 0)] * 28)), START, [going(3), going(30), going(31), going(31), going(31)],
     state(passed=31, others=3, deleghe=1, last=LINE, section=IDENT, lines=28, opened=(28, 0), opened_by={IDENT: (28, 0)}, flow_by={IDENT: (28, 0)}, name=NAME), SO_FAR)
# the sixth line of Erario is record 9, a seventh record 10
case("a-line-too-many-after-the-most", (9, 0, 1, 1, 0), flow(delega(erario=[(5, 0)] * 7)), START, [going(9), going(9), *[no(6, 10, 10, 11)] * 3],
     ended(state(passed=9, others=3, deleghe=1, last=LINE, section=ERARIO, lines=6, opened=(30, 0), opened_by={ERARIO: (30, 0)}, flow_by={ERARIO: (30, 0)}, name=NAME), 6, 10, 11),
     END + "; how many lines have passed is in the state")

# 546 records: 108 deleghe of (100, 0), four of which have a line (1, 0) more. No lines are F4 and EF and four of each delega, 434; lines are 112
most = flow(*[delega(regioni=[(100, 0), (1, 0)])] * 4, *[delega(regioni=[(100, 0)])] * 104)
MOST = accepted(108, 546, 10804, 112, regioni=(10804, 0))
MOST_AFTER = state(ACCEPTED, passed=546, others=434, deleghe=108, last=EF, balances=10804, flow_by={REGIONI: (10804, 0)}, name=NAME)
case("the-most-records", (200, 200, 146, 1, 0), most, START, [going(200), going(400), MOST, MOST, MOST], MOST_AFTER, END)
case("the-most-records-but-one", (545, 0, 546, 1, 0), most, START, [going(545), going(545), MOST, MOST, MOST], MOST_AFTER, "02, ask 7: never more than 546")

# --- Refusals -----------------------------------------------------------------------------------------------------------------
MIDDLE = "02, ask 7: the number of the refusing record; PORTIONS: a refusal leaves the counts and sums as they were before that record"
wrong_balance = plain().put(6, 46, "000000000007501")
WRONG = no(13, 6, 6, 46)
case("refused-in-the-middle-of-a-portion", (4, 4, 4, 0, 1), wrong_balance, START, [going(4), WRONG, WRONG, WRONG, WRONG], ended(AFTER[5], 13, 6, 46), MIDDLE)
case("refused-at-the-end-of-a-portion", (3, 3, 3, 0, LARGEST), wrong_balance, START, [going(3), WRONG, WRONG, WRONG, WRONG], ended(AFTER[5], 13, 6, 46), MIDDLE)
case("refused-at-once", (8, 0, 1, 8, LARGEST), wrong_balance, START, [WRONG] * 5, ended(AFTER[5], 13, 6, 46), MIDDLE + "; asked again, it is the same")
case("not-refused-before-it-is-examined", (5, 0, 0, 1, 0), wrong_balance, START, [going(5), going(5), going(5), WRONG, WRONG], ended(AFTER[5], 13, 6, 46),
     END + "; a portion of zero examines nothing")
case("refused-in-the-last-record", (7, 1, 0, 1, 8), plain().put(8, 46, "0000002"), START, [going(7), *[no(18, 8, 8, 46)] * 4], ended(AFTER[7], 18, 8, 46), MIDDLE)
case("refused-26", (1, 0, 1, 1, 0), plain().put(2, 11, WRONG_CODE), START, [going(1), going(1), *[no(26, 2, 2, 11)] * 3], ended(AFTER[1], 26, 2, 11), MIDDLE)
case("refused-in-the-second-delega", (14, 3, 3, 3, 3), full().put(18, 44, "000000000060001"), START, [going(14), going(17), *[no(13, 18, 18, 44)] * 3],
     ended(FULL_AFTER[17], 13, 18, 44), MIDDLE)
FIRST = "PORTIONS: the name, as record 1 has it, from the call that examines it on, also where it is refused"
case("refused-a-slash-in-the-name", (0, 1, 0, 1, 8), plain(name="F24/20250610-001    "), START, [going(0), *[no(16, 1, 1, 20)] * 4],
     ended(state(name="F24/20250610-001    "), 16, 1, 20), FIRST)
case("refused-a-date", (3, 0, 1, 3, 8), plain(date="310215"), START, [no(17, 1, 1, 14)] * 5, ended(state(name=NAME), 17, 1, 14), FIRST)
case("refused-a-character-of-the-name", (1, 1, 0, 1, 1), plain().put(1, 23, b"\xe8"), START, [no(3, 1, 1, 23)] * 5,
     ended(state(name=b"F24\xe820250610-001    "), 3, 1, 23), FIRST)
# record 10 has 01H501U, the end of its tax code, at 20-26 and ROSSI at 27
case("refused-the-first-is-no-head", (1, 1, 0, 1, 1), plain().drop(1), START, [no(4, 1, 1, 2)] * 5, ended(state(name="01H501UROSSI        "), 4, 1, 2), FIRST)

FIVE = "02, ask 7: all records for acceptance or refusal 5, by the call that examines the last record needed; 01: 5 at the number of records plus 1"
no_tail = plain().keep(7)
case("refused-5-by-threes", (3, 3, 3, 3, 0), no_tail, START, [going(3), going(6), *[no(5, 7, 8, 0)] * 3], ended(AFTER[7], 5, 8, 0), FIVE)
case("refused-5-by-the-last-record-alone", (6, 0, 1, 0, 1), no_tail, START, [going(6), going(6), *[no(5, 7, 8, 0)] * 3], ended(AFTER[7], 5, 8, 0), FIVE)
case("refused-5-at-once", (7, 8, 0, 1, LARGEST), no_tail, START, [no(5, 7, 8, 0)] * 5, ended(AFTER[7], 5, 8, 0), FIVE)
case("refused-5-by-more-than-it-has", (8, 7, 0, 1, LARGEST), no_tail, START, [no(5, 7, 8, 0)] * 5, ended(AFTER[7], 5, 8, 0), FIVE)
case("refused-5-within-a-section", (4, 1, 1, 1, 1), plain().keep(5), START, [going(4), *[no(5, 5, 6, 0)] * 4], ended(AFTER[5], 5, 6, 0), FIVE)
head_alone = plain().keep(1)
case("refused-5-a-head-alone", (0, 1, 0, 1, 2), head_alone, START, [going(0), *[no(5, 1, 2, 0)] * 4], ended(AFTER[1], 5, 2, 0), FIVE)
# a head and 109 deleghe of five records
case("refused-5-the-most-records", (300, 245, 0, 1, 1), flow(*[delega(regioni=[(100, 0)])] * 109).keep(546), START,
     [going(300), going(545), going(545), no(5, 546, 547, 0), no(5, 546, 547, 0)],
     state(REFUSED, (5, 547, 0), passed=546, others=437, deleghe=109, last=FIFTY_1, balances=10900, flow_by={REGIONI: (10900, 0)}, name=NAME), FIVE + "; never more than 546")

# --- 1 and 2 ------------------------------------------------------------------------------------------------------------------
LENGTH = "02, ask 7: a portion of zero examines nothing, though 1 and 2 are still given; none examined for 1 or 2"
GIVEN = "PORTIONS: 1 and 2 come before the records seen; the state is then the one given, ended with that refusal"
too_long = b" " * 65521
case("empty-by-zero", (0, 0, 1, 8, LARGEST), b"", START, [no(2, 0, 0, 0)] * 5, ended(START, 2, 0, 0), LENGTH)
case("empty-by-one", (1, 0, 1, 546, LARGEST), b"", START, [no(2, 0, 0, 0)] * 5, ended(START, 2, 0, 0), LENGTH)
case("ragged-by-zero", (0, 0, 1, 8, LARGEST), bytes(plain())[:959], START, [no(2, 0, 0, 0)] * 5, ended(START, 2, 0, 0), LENGTH)
case("ragged-by-threes", (3, 3, 3, 3, 3), plain().bytes_after(b"\n"), START, [no(2, 0, 0, 0)] * 5, ended(START, 2, 0, 0), LENGTH + "; they come before every record")
case("a-byte-short-of-a-record", (0, 1, 0, 1, 2), b" " * 119, START, [no(2, 0, 0, 0)] * 5, ended(START, 2, 0, 0), LENGTH)
case("too-long-by-zero", (0, 0, 1, 546, LARGEST), too_long, START, [no(1, 0, 0, 0)] * 5, ended(START, 1, 0, 0), LENGTH)
case("empty-from-a-state-on-its-way", (0, 1, 3, 0, LARGEST), b"", AFTER[5], [no(2, 0, 0, 0)] * 5, ended(AFTER[5], 2, 0, 0), GIVEN)
case("too-long-from-a-state-of-546", (0, 1, 3, 0, LARGEST), too_long, state(passed=546, name=NAME), [no(1, 0, 0, 0)] * 5, state(REFUSED, (1, 0, 0), passed=546, name=NAME), GIVEN)

# --- What a call looks at ---------------------------------------------------------------------------------------------------------
LOOKS = "PORTIONS: a call looks at the length of the flow and at the records that it examines, and at no other byte: the head's support name is in the state"
OTHER = "F24-20250610-002    "
case("tail-against-the-name-in-the-state", (3, 3, 3, 0, 1), plain(), but(AFTER[1], {48: ord("2")}), [going(4), going(7), *[no(16, 8, 8, 20)] * 3],
     ended(but(AFTER[7], {48: ord("2")}), 16, 8, 20), LOOKS + "; 01: 16, the tail's equals the head's")
case("tail-with-the-name-in-the-state", (3, 3, 3, 0, 1), plain().put(8, 20, OTHER), but(AFTER[1], {48: ord("2")}), [going(4), going(7), SOUND, SOUND, SOUND],
     but(AFTER[8], {48: ord("2")}), LOOKS + ", and not in record 1, which has another")
case("tail-against-the-last-of-the-name", (1, 0, 1, 1, 0), plain(), but(AFTER[7], {52: ord("x")}), [no(16, 8, 8, 20)] * 5, ended(but(AFTER[7], {52: ord("x")}), 16, 8, 20), LOOKS)
case("tail-against-the-first-of-the-name", (0, 1, 1, 1, 0), plain(), but(AFTER[7], {33: 255}), [going(7), *[no(16, 8, 8, 20)] * 4], ended(but(AFTER[7], {33: 255}), 16, 8, 20),
     LOOKS + "; 255 is no name of a head, and not foreign")
case("tail-against-no-name", (1, 0, 1, 1, 0), plain(), but(AFTER[7], {at: 0 for at in range(33, 53)}), [no(16, 8, 8, 20)] * 5,
     ended(but(AFTER[7], {at: 0 for at in range(33, 53)}), 16, 8, 20), LOOKS)
case("records-seen-are-not-looked-at", (0, 2, 2, 1, 0), b"\xff" * 360 + bytes(plain())[360:], AFTER[3], [going(3), going(5), going(7), SOUND, SOUND], AFTER[8],
     LOOKS + "; the first three records are nothing")
case("records-to-come-are-not-looked-at", (3, 0, 0, 1, 1), bytes(plain())[:360] + b"\xff" * 600, START, [going(3), going(3), going(3), no(3, 4, 4, 1), no(3, 4, 4, 1)],
     ended(AFTER[3], 3, 4, 1), LOOKS + "; the fourth record is nothing")

case("a-name-before-the-head", (0, 1, 6, 1, 0), plain(), but(START, {at: ord("X") for at in range(33, 53)}), [going(0), going(1), going(7), SOUND, SOUND], AFTER[8],
     "PORTIONS: the name, as record 1 has it, from the call that examines it on")
WHILE = "PORTIONS: the name is that of the record which a call examines while [4] is 0"
case("a-name-though-no-head-may-stand", (0, 1, 0, 1, 8), plain(), but(START, {7: TWENTY}), [going(0), *[no(4, 1, 1, 2)] * 4],
     ended(state(last=TWENTY, name=NAME), 4, 1, 2), WHILE + ", whatever [7] is, also where it is refused")
# a head twice: what is said to be none is followed by the second, which is the last
case("no-name-from-a-head-that-is-not-first", (0, 1, 0, 1, 2), bytes(plain())[:120] * 2, but(AFTER[1], {7: 0, 33: ord("X")}), [going(1), *[no(5, 2, 3, 0)] * 4],
     ended(but(AFTER[1], {4: 2, 5: 2, 33: ord("X")}), 5, 3, 0), WHILE + "; here it is 1")

# A state that is not this flow's, and is gone on from.
ON = "PORTIONS: a state that is none of these is gone on from"
case("sums-of-another-flow", (0, 1, 1, 1, 1), plain(), but(AFTER[5], {17: 10001}), [going(5), *[no(10, 6, 6, 15)] * 4], ended(but(AFTER[5], {17: 10001}), 10, 6, 15),
     ON + "; 40-06 has 10000, and the lines of the section are said to come to 10001")
case("a-delega-of-another-flow", (0, 1, 1, 1, 1), plain(), but(AFTER[2], {6: 2}), [going(2), *[no(8, 3, 3, 4)] * 4], ended(but(AFTER[2], {6: 2}), 8, 3, 4),
     ON + "; two deleghe are said to be opened, and the next record is of the first")
case("a-balance-of-another-flow", (0, 1, 1, 1, 1), plain(), but(AFTER[7], {10: 7499}), [going(7), *[no(20, 8, 8, 53)] * 4], ended(but(AFTER[7], {10: 7499}), 20, 8, 53),
     ON + "; EF has 7500, and the final balances are said to come to 7499")
case("a-place-of-another-flow", (0, 1, 1, 1, 1), plain(), but(AFTER[3], {7: FIFTY_1}), [going(3), *[no(4, 4, 4, 2)] * 4], ended(but(AFTER[3], {7: FIFTY_1}), 4, 4, 2),
     ON + "; a line may not stand after what is said to be a 50-01")
case("final-balance-by-the-delega-s-debits", (0, 1, 1, 1, 1), plain(), but(AFTER[6], {11: 10001}), [going(6), *[no(15, 7, 7, 36)] * 4],
     ended(but(AFTER[6], {11: 10001}), 15, 7, 36), ON + "; the final balance goes by [11] and [12], which come to 7501")
case("negative-by-the-delega-s-credits", (0, 1, 1, 1, 1), plain(), but(AFTER[6], {12: 10001}), [going(6), *[no(14, 7, 7, 2)] * 4],
     ended(but(AFTER[6], {12: 10001}), 14, 7, 2), ON + "; refusal 14 goes by [11] and [12]: 10000 and 10001")
case("final-balance-not-by-the-sections", (0, 1, 0, 0, 0), plain(), but(AFTER[6], {13: 5, 17: 9999, 18: 10001}), [going(6), *[going(7)] * 4], AFTER[7],
     ON + "; refusal 14 and the final balance go by [11] and [12], not by [13] to [22]; a 50-01 sets all of them to zero")
case("a-10-sets-the-delega-to-zero", (0, 1, 1, 1, 1), plain(), but(AFTER[1], {11: 5, 12: 6, 13: 7, 17: 8, 22: 9}), [going(1), going(2), going(3), going(4), going(5)], AFTER[5],
     "PORTIONS, a state: a 10 sets [11] and [12] to zero, and [13] to [22] the same")

# [9]: a line adds one to it, whatever [7] is. Regioni has four lines at most, INPS too. Records 4 and 5 are the lines.
ADDS = "PORTIONS, a state: [9] is how many lines of that section have passed, after a line; else 0. A line adds one to it, whatever [7] is"
case("lines-counted-after-a-20", (0, 1, 0, 1, 0), plain(), but(AFTER[3], {9: 1}), [going(3), going(4), going(4), going(5), going(5)], but(AFTER[5], {9: 3}), ADDS + ": 1 after the 20, and two lines")
case("lines-counted-after-a-20-at-once", (2, 0, 0, 0, 0), plain(), but(AFTER[3], {9: 1}), [going(5)] * 5, but(AFTER[5], {9: 3}), ADDS)
case("lines-counted-up-to-the-balance", (1, 1, 1, 0, 0), plain(), but(AFTER[3], {9: 2}), [going(4), going(5), *[going(6)] * 3], AFTER[6], ADDS + ": 2, 3, 4 and after the balance 0")
case("lines-counted-after-a-20-with-zero", (0, 0, 0, 0, 0), plain(), but(AFTER[3], {9: 3}), [going(3)] * 5, but(AFTER[3], {9: 3}), ZERO)
case("lines-counted-after-a-20-to-the-most", (1, 0, 0, 0, 0), plain(), but(AFTER[3], {9: 3}), [going(4)] * 5, but(AFTER[4], {9: 4}), ADDS + ": 4 are not too many")
case("lines-counted-after-a-20-too-many", (1, 0, 1, 1, 0), plain(), but(AFTER[3], {9: 3}), [going(4), going(4), *[no(6, 5, 5, 11)] * 3], ended(but(AFTER[4], {9: 4}), 6, 5, 11),
     ADDS + ": the second line would be the fifth")
case("too-many-lines-at-once-after-a-20", (2, 0, 1, 8, LARGEST), plain(), but(AFTER[3], {9: 3}), [no(6, 5, 5, 11)] * 5, ended(but(AFTER[4], {9: 4}), 6, 5, 11),
     ADDS + "; cut in another way the records give the same")
case("a-line-too-many-after-a-20", (0, 1, 0, 1, 8), plain(), but(AFTER[4], {7: TWENTY, 8: 0, 9: 4}), [going(4), *[no(6, 5, 5, 11)] * 4], ended(but(AFTER[4], {7: TWENTY, 8: 0, 9: 4}), 6, 5, 11),
     ADDS + "; refusal 6 goes by it: the line would be the fifth, and what is said to be the last record is a 20")
case("lines-counted-after-a-balance", (0, 1, 0, 0, 0), full(), but(FULL_AFTER[5], {9: 3}), [going(5), *[going(6)] * 4], but(FULL_AFTER[6], {9: 4}), ADDS + ": 3 after the balance of Erario, then a line of INPS")
case("a-line-too-many-after-a-balance", (0, 1, 0, 1, 8), full(), but(FULL_AFTER[5], {9: 4}), [going(5), *[no(6, 6, 6, 11)] * 4], ended(but(FULL_AFTER[5], {9: 4}), 6, 6, 11),
     ADDS + ": the first line of INPS would be the fifth")
NO_LINE = "PORTIONS, a state: [8] is the section of a line or balance, else 0; [9] is how many lines have passed, after a line; else 0"
case("no-lines-after-a-10", (1, 0, 0, 0, 0), plain(), but(AFTER[1], {8: 4, 9: 1}), [going(2)] * 5, AFTER[2], NO_LINE)
case("no-lines-after-a-20", (1, 0, 0, 0, 0), plain(), but(AFTER[2], {8: 4, 9: 2}), [going(3)] * 5, AFTER[3], NO_LINE)
case("a-line-behind-a-20-in-one-portion", (2, 0, 0, 0, 0), plain(), but(AFTER[2], {8: 4, 9: 2}), [going(4)] * 5, AFTER[4], NO_LINE + ": 2, after the 20 0, after the line 1")
case("no-lines-after-a-50-01", (1, 0, 0, 0, 0), plain(), but(AFTER[6], {9: 6}), [going(7)] * 5, AFTER[7], NO_LINE)
case("no-lines-after-ef", (1, 0, 0, 0, 0), plain(), but(AFTER[7], {8: 3, 9: 7}), [SOUND] * 5, AFTER[8], NO_LINE)
case("a-section-of-no-section", (0, 1, 0, 0, 0), plain(), but(AFTER[3], {8: IDENT}), [going(3), *[going(4)] * 4], AFTER[4], NO_LINE + "; after a 20 a line of any section may stand")

# [1] to [3] unless [0] is 3.
UNREAD = "PORTIONS: not looked at unless [0] is 3, and every call that hands a state back writes zeros there"
case("a-refusal-in-a-state-on-its-way", (3, 1, 0, 1, 0), plain(), but(AFTER[3], {1: 13, 2: 6, 3: 46}), [going(6), going(7), going(7), SOUND, SOUND], AFTER[8], UNREAD)
case("no-refusal-in-a-state-on-its-way", (1, 0, 1, 0, 0), plain(), but(START, {1: LARGEST, 2: LARGEST, 3: LARGEST}), [going(1), going(1), *[going(2)] * 3], AFTER[2], UNREAD)
case("a-refusal-in-a-state-with-zero", (0, 0, 0, 0, 0), plain(), but(AFTER[3], {1: 13, 2: 4, 3: 46}), [going(3)] * 5, AFTER[3], UNREAD + ", with a portion of zero too")
case("no-refusal-in-the-start-with-zero", (0, 0, 0, 0, 0), plain(), but(START, {1: LARGEST, 2: LARGEST, 3: LARGEST}), [going(0)] * 5, START, UNREAD + ", with a portion of zero too")
case("a-refusal-in-an-accepted-state", (0, 1, 3, 546, LARGEST), plain(), but(AFTER[8], {1: 13, 2: 9, 3: 46}), [SOUND] * 5, AFTER[8], UNREAD + "; it has ended with acceptance")
case("no-refusal-in-an-accepted-state", (LARGEST, 0, 1, 3, 8), b"", but(AFTER[8], {1: LARGEST, 2: LARGEST, 3: LARGEST}), [SOUND] * 5, AFTER[8], UNREAD + "; it has ended with acceptance")
case("a-refusal-in-a-state-refused-2", (0, 1, 3, 0, LARGEST), b"", but(AFTER[3], {1: 13, 2: 4, 3: 46}), [no(2, 0, 0, 0)] * 5, ended(AFTER[3], 2, 0, 0), UNREAD + "; then they are those of 2")
case("a-refusal-in-a-state-refused-1", (1, 0, 3, 0, LARGEST), too_long, but(AFTER[3], {1: LARGEST, 2: LARGEST, 3: LARGEST}), [no(1, 0, 0, 0)] * 5, ended(AFTER[3], 1, 0, 0),
     UNREAD + "; then they are those of 1")
case("a-refusal-in-a-state-refused-5", (0, 1, 0, 1, 8), no_tail, but(AFTER[6], {1: 13, 2: 7, 3: 46}), [going(6), *[no(5, 7, 8, 0)] * 4], ended(AFTER[7], 5, 8, 0), UNREAD + "; then they are those of 5")
case("a-refusal-in-a-state-refused-13", (1, 0, 1, 8, LARGEST), wrong_balance, but(AFTER[5], {1: LARGEST, 2: LARGEST, 3: LARGEST}), [WRONG] * 5, ended(AFTER[5], 13, 6, 46),
     UNREAD + "; then they are those of 13")

# --- Ended states ---------------------------------------------------------------------------------------------------------------
again("accepted-again-of-another-flow", head_alone, AFTER[8], SOUND, AGAIN + "; PORTIONS: whatever the flow and the portion are")
again("accepted-again-of-no-flow", b"", AFTER[8], SOUND, AGAIN + "; PORTIONS: ended comes before 1 and 2")
again("refused-again-of-a-sound-flow", plain(), ended(AFTER[5], 13, 6, 46), WRONG, AGAIN + "; PORTIONS: whatever the flow and the portion are")
again("refused-again-of-a-ragged-flow", b" " * 119, ended(AFTER[5], 13, 6, 46), WRONG, AGAIN + "; PORTIONS: ended comes before 1 and 2")
again("refused-1-again-of-a-sound-flow", plain(), ended(START, 1, 0, 0), no(1, 0, 0, 0), AGAIN + "; PORTIONS: whatever the flow and the portion are")
again("refused-5-again-of-a-sound-flow", plain(), ended(AFTER[7], 5, 8, 0), no(5, 7, 8, 0), AGAIN + "; PORTIONS: whatever the flow and the portion are")
again("refused-5-again-of-too-long-a-flow", too_long, ended(AFTER[7], 5, 8, 0), no(5, 7, 8, 0), AGAIN + "; PORTIONS: ended comes before 1 and 2")

# --- Foreign to this flow: it has not ended and has seen as many records as the flow has, or more -----------------------------------
SEEN = "PORTIONS: a state that has seen as many records as the flow has, or more, is foreign; with a portion of zero too"
foreign("seen-as-many-as-the-flow-has", plain(), but(AFTER[8], {0: GOING}), SEEN)
foreign("seen-one-more-than-the-flow-has", plain(), but(AFTER[8], {0: GOING, 4: 9}), SEEN)
foreign("seen-546-of-eight", plain(), but(AFTER[8], {0: GOING, 4: 546}), SEEN)
foreign("seen-the-head-of-a-head-alone", head_alone, AFTER[1], SEEN)
foreign("seen-as-many-with-a-refusal", plain(), but(AFTER[8], {0: GOING, 1: 13, 2: 6, 3: 46}), SEEN + "; it comes back as it was")

# --- Foreign by itself ------------------------------------------------------------------------------------------------------------
# Two states in which every number is the largest that it may be. One has ended with acceptance, so that its answer is told by its numbers: 546 deleghe, 546 records,
# the balances, no lines since 546 are none, the ten sums. The other goes on after three records of the flow, and asks for delega 3 where the flow has delega 1.
EDGE = 546 * AMOUNT
full_ended = state(ACCEPTED, passed=546, others=546, deleghe=546, last=9, section=4, lines=546, balances=EDGE - 5, opened=(5, EDGE), opened_by={s: (EDGE, EDGE) for s in range(5)},
                   flow_by={s: (EDGE, EDGE) for s in range(5)}, name=b"\xff" * 20)
again("every-number-at-its-most-ended", head_alone, full_ended,
      accepted(546, 546, 545999999999999449, 0, **{s: (545999999999999454, 545999999999999454) for s in ("erario", "inps", "regioni", "imu", "ident")}),
      "PORTIONS, foreign states: what is not above its bound is not foreign; 546 times 999,999,999,999,999 is 545,999,999,999,999,454")
full_going = state(passed=3, others=3, deleghe=3, last=TWENTY, section=4, lines=3, balances=3 * AMOUNT, opened=(0, 3 * AMOUNT), opened_by={s: (3 * AMOUNT, 3 * AMOUNT) for s in range(5)},
                   flow_by={s: (3 * AMOUNT, 3 * AMOUNT) for s in range(5)}, name=b"\xff" * 20)
case("every-number-at-its-most-going", (0, 0, 1, 1, 0), plain(), full_going, [going(3), going(3), *[no(8, 4, 4, 4)] * 3], ended(full_going, 8, 4, 4),
     "PORTIONS, foreign states: what is not above its bound is not foreign")
ABOVE = [           # one more than the most, by its place in the state
    (5, "others", "[5] above [4]"), (6, "deleghe", "[6] above [4]"), (7, "last", "[7] above 9"), (8, "section", "[8] above 4"), (9, "lines", "[9] above [4]"),
    (10, "balances", "[10] and [11] together"), (11, "open-debits", "[10] and [11] together"), (12, "open-credits", "[12]"), (13, "open-erario-debits", "any of [12] to [32]"),
    (18, "open-regioni-credits", "any of [12] to [32]"), (22, "open-ident-credits", "any of [12] to [32]"), (23, "erario-debits", "any of [12] to [32]"),
    (28, "regioni-credits", "any of [12] to [32]"), (32, "ident-credits", "[32]"), (33, "name-first", "any of [33] to [52] above 255"), (52, "name-last", "[52] above 255"),
]
foreign("ended-above-passed", head_alone, but(full_ended, {4: 547}), "PORTIONS, foreign states: [4] above 546")
for at, what, why in ABOVE:
    foreign("ended-above-" + what, head_alone, but(full_ended, {at: full_ended[at] + 1}), "PORTIONS, foreign states: " + why)
    if at != 7:
        foreign("going-above-" + what, plain(), but(full_going, {at: full_going[at] + 1}), "PORTIONS, foreign states: " + why)
foreign("going-above-last", plain(), but(full_going, {7: 10}), "PORTIONS, foreign states: [7] above 9")
case("going-last-at-its-most", (0, 1, 1, 0, 1), plain(), but(AFTER[3], {7: EF}), [going(3), *[no(4, 4, 4, 2)] * 4], ended(but(AFTER[3], {7: EF}), 4, 4, 2),
     "PORTIONS, foreign states: [7] is not above 9; 01: nothing after EF")
for at, what in [(5, "others"), (6, "deleghe"), (9, "lines"), (10, "balances"), (11, "open-debits"), (12, "open-credits"), (32, "ident-credits")]:
    foreign("start-with-" + what, plain(), but(START, {at: 1}), "PORTIONS, foreign states: above [4], or above [4] times the largest amount, which is 0")
# Numbers that come round to small ones where they are cut or added without care.
foreign("passed-the-largest", plain(), but(AFTER[3], {4: LARGEST}), "PORTIONS, foreign states: [4] above 546")
foreign("ended-passed-the-largest", plain(), but(ended(AFTER[5], 13, 0, 46), {4: LARGEST}), "PORTIONS, foreign states: [4] above 546, also where [4] + 1 comes round to the record 0")
foreign("balances-and-debits-the-largest", plain(), but(AFTER[3], {10: LARGEST, 11: LARGEST}), "PORTIONS, foreign states: [10] and [11] together")
foreign("balances-and-debits-come-round-to-0", plain(), but(AFTER[3], {10: LARGEST, 11: 1}), "PORTIONS, foreign states: [10] and [11] together, which are 2 to the 64th")
foreign("balances-and-debits-halves", plain(), but(AFTER[3], {10: 2 ** 63, 11: 2 ** 63}), "PORTIONS, foreign states: [10] and [11] together, which are 2 to the 64th")
foreign("last-259", plain(), but(AFTER[3], {7: 256 + TWENTY}), "PORTIONS, foreign states: [7] above 9")
foreign("section-258", plain(), but(AFTER[5], {8: 256 + REGIONI}), "PORTIONS, foreign states: [8] above 4")
foreign("name-beyond-32-bits", plain(), but(AFTER[3], {40: 2 ** 32 + ord("5")}), "PORTIONS, foreign states: any of [33] to [52] above 255")
for stands, what in [(0, "0"), (4, "4"), (256 + GOING, "257"), (2 ** 32 + ACCEPTED, "2-to-the-32nd-and-2"), (LARGEST, "the-largest")]:
    foreign("stands-" + what, plain(), but(AFTER[3], {0: stands}), "PORTIONS, foreign states: [0] is none of 1, 2, 3")
foreign("all-zeros", plain(), [0] * 53, "PORTIONS, foreign states: [0] is none of 1, 2, 3")

# The refusal of an ended state. AFTER[5] has five records behind it.
NUMBER = "PORTIONS, foreign states: the number is one of 1 to 20 or 26"
PLACE = "PORTIONS, foreign states: with 1 and 2 the record and the position are 0; with 5 the record is [4] + 1 and the position 0; with any other the record is [4] + 1 and at most 546, and the position is any"
for refusal, examined, why in [
        ((1, 0, 0), 0, NUMBER), ((2, 0, 0), 0, NUMBER), ((3, 6, 1), 6, NUMBER), ((4, 6, 11), 6, NUMBER), ((6, 6, 11), 6, NUMBER), ((20, 6, 53), 6, NUMBER), ((26, 6, 11), 6, NUMBER),
        ((5, 6, 0), 5, PLACE), ((13, 6, 0), 6, PLACE), ((13, 6, 120), 6, PLACE), ((13, 6, 121), 6, PLACE), ((13, 6, 2 ** 32 + 46), 6, PLACE), ((13, 6, LARGEST), 6, PLACE),
        ((3, 6, LARGEST), 6, PLACE), ((4, 6, 121), 6, PLACE), ((20, 6, LARGEST), 6, PLACE), ((26, 6, 121), 6, PLACE), ((26, 6, LARGEST), 6, PLACE)]:
    again("ended-%d-%d-%d" % refusal, plain(), ended(AFTER[5], *refusal), no(refusal[0], examined, *refusal[1:]), why)
for refusal, why in [
        ((0, 0, 0), NUMBER), ((0, 6, 46), NUMBER), ((21, 0, 0), NUMBER), ((21, 6, 46), NUMBER), ((22, 6, 46), NUMBER), ((25, 6, 46), NUMBER), ((27, 6, 46), NUMBER), ((2 ** 32 + 13, 6, 46), NUMBER),
        ((LARGEST, 6, 46), NUMBER), ((1, 1, 0), PLACE), ((1, 0, 1), PLACE), ((1, 6, 0), PLACE), ((2, 1, 0), PLACE), ((2, 0, 1), PLACE), ((5, 5, 0), PLACE), ((5, 7, 0), PLACE), ((5, 6, 1), PLACE),
        ((5, 0, 0), PLACE), ((5, 6, LARGEST), PLACE), ((1, 0, LARGEST), PLACE), ((2, 0, LARGEST), PLACE), ((13, 5, 46), PLACE), ((13, 7, 46), PLACE), ((13, 0, 0), PLACE),
        ((13, 5, 121), PLACE), ((13, 7, LARGEST), PLACE), ((13, 2 ** 32 + 6, 46), PLACE), ((13, LARGEST, 46), PLACE), ((20, 7, 53), PLACE)]:
    foreign("ended-%d-%d-%d" % refusal, plain(), ended(AFTER[5], *refusal), why)
again("ended-13-546-120", plain(), but(ended(AFTER[5], 13, 546, 120), {4: 545}), no(13, 546, 546, 120), PLACE)
again("ended-13-546-the-largest", plain(), but(ended(AFTER[5], 13, 546, LARGEST), {4: 545}), no(13, 546, 546, LARGEST), PLACE)
foreign("ended-13-547-120", plain(), but(ended(AFTER[5], 13, 547, 120), {4: 546}), PLACE)
again("ended-5-547-0", plain(), but(ended(AFTER[5], 5, 547, 0), {4: 546}), no(5, 546, 547, 0), PLACE + "; 547 with 5")
foreign("ended-5-548-0", plain(), but(ended(AFTER[5], 5, 548, 0), {4: 547}), "PORTIONS, foreign states: [4] above 546")
foreign("ended-refused-above-a-sum", plain(), but(ended(AFTER[5], 13, 6, 46), {32: 5 * AMOUNT + 1}), "PORTIONS, foreign states: any of [12] to [32], also of a state that has ended with a refusal")
again("ended-refused-at-a-sum", plain(), but(ended(AFTER[5], 13, 6, 46), {32: 5 * AMOUNT}), WRONG, "PORTIONS, foreign states: what is not above its bound is not foreign")

# --- The order of the tests -----------------------------------------------------------------------------------------------------------
ORDER = "PORTIONS: tried in this order: the state by itself, ended, 1 and 2, the records seen"
foreign("foreign-before-ended", plain(), but(AFTER[8], {7: 10}), ORDER)
foreign("foreign-before-2", b"", but(AFTER[3], {8: 5}), ORDER)
foreign("foreign-before-2-of-a-ragged-flow", b" " * 119, but(AFTER[3], {0: 0}), ORDER)
foreign("foreign-before-1", too_long, but(AFTER[3], {52: 256}), ORDER)
foreign("foreign-with-a-refusal-in-it", plain(), but(AFTER[3], {1: 13, 2: 6, 3: 46, 7: 10}), "PORTIONS: a foreign state comes back as it was, with numbers that are not looked at too")
case("2-before-the-records-seen", (0, 1, 3, 546, LARGEST), b" " * 121, AFTER[3], [no(2, 0, 0, 0)] * 5, ended(AFTER[3], 2, 0, 0), ORDER + "; 121 bytes hold one record, and three are seen")
