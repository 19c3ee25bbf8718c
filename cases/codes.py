"""Refusal 26: the taxpayer's code in record 10, 11-26 (02, ask 2).

The check characters of the codes that pass were not worked out here: they are those of an outside voice, Debian's python3-stdnum
(`stdnum.it.codicefiscale.calc_check_digit` and `stdnum.luhn.calc_check_digit`), and outside.py compares every one of them. All persons and
firms are invented, those apart that stdnum itself prints. Three worked out by hand, as 02 has it:

RSSMRA85T10A562S. Places 1, 3, .. 15 are odd, 2, 4, .. 14 even.
    odd    R 8   S 12   R 8   8 as I 19   T 14   0 as A 1   5 as F 13   2 as C 5      8 + 12 + 8 + 19 + 14 + 1 + 13 + 5 = 80
    even   S 18   M 12   A 0   5   1   A 0   6                                        18 + 12 + 0 + 5 + 1 + 0 + 6 = 42
    80 + 42 = 122 = 4 * 26 + 18, and 18 is S (A is 0).
RSSMRA85T10A56NH, the same with N for the digit 2 at place 15. N counts as the letter it is: odd, 20 where the 2 counted 5.
    122 - 5 + 20 = 137 = 5 * 26 + 7, and 7 is H.
03417520545, a firm. Even places are doubled, less 9 if above 9.
    odd    0  4  7  2  5  5                                                           0 + 4 + 7 + 2 + 5 + 5 = 23
    even   3 -> 6   1 -> 2   5 -> 10 -> 1   0 -> 0   4 -> 8                           6 + 2 + 1 + 0 + 8 = 17
    23 + 17 = 40, a multiple of ten.
"""

from string import ascii_lowercase, ascii_uppercase, digits

from case import case, no, yes
from common import FIRM, PERSON, WRONG_CODE as WRONG, full, plain
from flow import delega, flow

PRINTED = "02, ask 2: RSSMRA85T10A562S passes; ending in T it doesn't"
SUM = "02, ask 2: the values of the first fifteen, summed modulo 26, give the last letter (A is 0)"
VALUES = "02, ask 2: in even places a digit counts itself and a letter its place from A as 0; in odd places A to Z count 1 0 5 .. 23, 0 to 9 as A to J"
PLACES = "02, ask 2: places 7, 8, 10, 11 and 13 to 15 hold digits, or L M N P Q R S T U V for 0 to 9; the others capital letters"
AS_LETTERS = "02, ask 2: L M N P Q R S T U V for 0 to 9; Decision: they count as the letters they are"
ELEVEN = "02, ask 2: eleven digits and five spaces: with even places doubled, less 9 if above 9, all eleven sum to a multiple of ten"
EITHER = "02, ask 2: sixteen characters, or eleven digits and five spaces; Decision: anything else is 26"
CAPITALS = "02, ask 2: capital letters; Decision: lower case is 26"
NO_MORE = "Decision: nothing is asked of a code beyond 02's words"
START = "02, ask 2: 26 at the field's start"
AFTER_8 = "02, ask 2: 26 after 8 in the same record; 01: within a record in the order of the numbers"
COLUMNS = "02, ask 2: in the columns 000 gives, which are 11-26 of record 10 (docs/COLUMNS.md)"
FIRST = "01: records are judged in order; the first blocking fault ends the judgement"

LETTER_PLACES, DIGIT_PLACES = (1, 2, 3, 4, 5, 6, 9, 12), (7, 8, 10, 11, 13, 14, 15)
FOR_DIGITS = "LMNPQRSTUV"                   # for 0 to 9
NOT_FOR_DIGITS = "ABCDEFGHIJKOWXYZ"

PLAIN = yes(1, 8, 7500, 2, regioni=(10000, 2500))


def coded(code):
    """01's printed case with this code in its record 10, which is record 2. The code in its 50-01 stays another."""
    assert len(code) == 16, code
    return plain().put(2, 11, code)


def short(code):
    """F4 and the record 10 alone. A code that passes leads to 5 behind it, at record 3: 5 comes after all records have passed."""
    return coded(code).keep(2)


def many(codes):
    """A delega for each code, of five records, one line and one cent. The record 10 of the k-th is record 5k - 3."""
    return flow(*[delega(regioni=[(1, 0)], payer={"tax_code": code}) for code in codes])


def at(code, place, character):
    """The code with another character at a place, counted from 1."""
    return code[:place - 1] + character + code[place:]


# What some damages need: a last character that the sum makes right, so that only the rule of the places is broken. No expectation rests on these
# functions. A character outside the rows counts as though the row of digits or of letters went on to it: "/" one before 0, "[" one behind Z.
def index(c):
    return ord(c) - (48 if c <= ":" else 65)


def odd(c):
    return (1, 0, 5, 7, 9, 13, 15, 17, 19, 21, 2, 4, 18, 20, 11, 3, 6, 8, 12, 14, 16, 10, 22, 25, 24, 23)[index(c) % 26]


def mended(code):
    """Sixteen characters with the last made right."""
    return code[:15] + ascii_uppercase[sum(odd(c) if place % 2 else index(c) for place, c in enumerate(code[:15], 1)) % 26]


def mended_number(code):
    """Eleven characters with the last made right."""
    doubled = lambda n: 2 * n - 9 if 2 * n > 9 else 2 * n
    return code[:10] + digits[-sum(index(c) if place % 2 else doubled(index(c)) for place, c in enumerate(code[:10], 1)) % 10]


# --- Sixteen characters that pass -------------------------------------------------------------------------------------
PERSONS = [
    ("printed-in-02", "RSSMRA85T10A562S", PRINTED),
    ("of-the-builder", "RSSMRA80A01H501U", SUM),
    ("of-the-samples", "BNCLRA75D52G478N", SUM),
    ("printed-by-stdnum", "RCCMNL83S18D969H", SUM),
    ("turin", "FRRGNN62B14L219M", SUM),
    ("como", "QNTZRA91M70C573N", SUM),
    ("born-in-germany", "WBRHNS58E03Z112O", SUM),
    ("born-in-china", "XNGJJN90H15Z210Y", SUM),
    ("last-z", "YLMKRM77P41Z243Z", "02, ask 2: the last letter; 25 is Z"),
    ("spoleto", "KHNDVD04L22I921O", SUM),
    ("foligno", "ZPPBNC66R65D653M", SUM),
    ("born-in-england", "JCKPTR49C30Z114D", SUM),
    ("siena", "DLLCST88S11E256U", SUM),
    ("perugia", "GRGFNC70H20G478W", SUM),
    ("terni", "LBNTMS95T05I726T", SUM),
    ("assisi", "MRNLCU01D29A475W", SUM),
    ("brindisi", "NTLSFN99M58B180N", SUM),
    ("naples", "PCCVNT83A12F839R", SUM),
    ("rome", "TMSDNL74C07H501F", SUM),
    ("last-a", "CHVXVR64E21Z131A", "02, ask 2: the last letter; A is 0"),
    ("last-z-again", "SPSSFO51P68L117Z", "02, ask 2: the last letter; 25 is Z"),
    ("short-surname", "FOXLCU70A01G478R", SUM),
    ("vowels", "UBOIVO33L16H857I", SUM),
    ("rare-letters", "HGXWKY47B19Z404V", SUM),
    ("last-a-again", "OEXAIU86D43A944A", "02, ask 2: the last letter; A is 0"),
    ("more-rare-letters", "BQZYOH36R27M208B", SUM),
    ("no-town", "ELVFGP52S04K100I", NO_MORE),
    ("first-of-all-rows", "AAAAAA00A00A000I", NO_MORE + ": day 00 and month A"),
    ("last-of-all-rows", "ZZZZZZ99Z99Z999R", NO_MORE + ": day 99 and month Z"),
    ("letters-alone", "LLLLLLLLLLLLLLLF", AS_LETTERS),
    ("letters-alone-v", "VVVVVVVVVVVVVVVT", AS_LETTERS),
    ("month-y", "QZXJKW19Y87X365O", NO_MORE + ": any capital at place 9"),
    ("month-f", "RSSMRA85F10A562R", NO_MORE + ": any capital at place 9"),
    ("month-o", "RSSMRA85O10A562P", NO_MORE + ": any capital at place 9"),
    ("name-of-vowels", "AEIOUA85T10A562O", NO_MORE + ": any capitals at places 1 to 6"),
    ("day-00", "RSSMRA85T00A562R", NO_MORE + ": no day"),
    ("day-40", "RSSMRA85T40A562V", NO_MORE + ": no day of a woman's"),
    ("day-72", "RSSMRA85T72A562C", NO_MORE + ": no day of a woman's"),
    ("day-99", "RSSMRA85T99A562U", NO_MORE + ": no day"),
    ("town-000", "RSSMRA85T10A000W", NO_MORE + ": no such town"),
    ("town-999", "RSSMRA85T10Z999S", NO_MORE + ": no such country"),
    # Letters for digits, as the Agency writes them where two persons would have one code: one at a time, three, two, all seven.
    ("u-for-8-at-07", "RSSMRAU5T10A562P", AS_LETTERS),
    ("r-for-5-at-08", "RSSMRA8RT10A562E", AS_LETTERS),
    ("m-for-1-at-10", "RSSMRA85TM0A562D", AS_LETTERS),
    ("l-for-0-at-11", "RSSMRA85T1LA562V", AS_LETTERS),
    ("r-for-5-at-13", "RSSMRA85T10AR62N", AS_LETTERS),
    ("s-for-6-at-14", "RSSMRA85T10A5S2E", AS_LETTERS),
    ("n-for-2-at-15", "RSSMRA85T10A56NH", AS_LETTERS),
    ("rsn-for-562", "RSSMRA85T10ARSNO", AS_LETTERS),
    ("tr-for-75", "BNCLRATRD52G478W", AS_LETTERS),
    ("letters-for-all-seven", "RSSMRAURTMLARSNL", AS_LETTERS),
    # W and Y count 22 and 24 in odd places and in even ones: exchanged, they are the one pair of neighbours of the first fifteen that is not found.
    ("w-before-y", "XNGJWY90H15Z210K", VALUES),
    ("y-before-w", "XNGJYW90H15Z210K", VALUES + "; the same sum"),
]
for word, code, why in PERSONS:
    case("code-" + word, PLAIN, coded(code), why)
assert {c for _, code, _ in PERSONS for c in code[0:15:2]} == set(ascii_uppercase + digits)         # in odd places
assert {c for _, code, _ in PERSONS for c in code[1:15:2]} == set(ascii_uppercase + digits)         # in even places

# RSSMRA85T10A562S with each character that a place may hold. By place: the last letters that go with A to Z, or with 0 to 9 and then L M N P Q R S T U V.
LAST = {
    1: "LKPRTXZBDFMOCEVNQSWYAUGJIH",
    2: "ABCDEFGHIJKLMNOPQRSTUVWXYZ",
    3: "HGLNPTVXZBIKYARJMOSUWQCFED",
    4: "GHIJKLMNOPQRSTUVWXYZABCDEF",
    5: "LKPRTXZBDFMOCEVNQSWYAUGJIH",
    6: "STUVWXYZABCDEFGHIJKLMNOPQR",
    7: "AZEGIMOQSUDRTCFHLNPJ",
    8: "NOPQRSTUVWYZACDEFGHI",
    9: "FEJLNRTVXZGIWYPHKMQSUOADCB",
    10: "RSTUVWXYZACDEGHIJKLM",
    11: "SRWYAEGIKMVJLUXZDFHB",
    12: "STUVWXYZABCDEFGHIJKLMNOPQR",
    13: "GFKMOSUWYAJXZILNRTVP",
    14: "MNOPQRSTUVXYZBCDEFGH",
    15: "ONSUWACEGIRFHQTVZBDX",
}
ALLOWED = {**{place: ascii_uppercase for place in LETTER_PLACES}, **{place: digits + FOR_DIGITS for place in DIGIT_PLACES}}


def each_at(place):
    """The codes of a row of LAST."""
    return [at(PERSON, place, c)[:15] + last for c, last in zip(ALLOWED[place], LAST[place], strict=True)]


for place in LETTER_PLACES:
    case("code-a-to-z-at-%02d" % place, yes(26, 132, 26, 26, regioni=(26, 0)), many(each_at(place)), VALUES)
for place in DIGIT_PLACES:
    case("code-digits-and-letters-at-%02d" % place, yes(20, 102, 20, 20, regioni=(20, 0)), many(each_at(place)), VALUES + "; " + PLACES)
assert {code[15] for place in LAST for code in each_at(place)} == set(ascii_uppercase)
case("code-short-passes", no(5, 3, 0), short(PERSON), "01: refusal 5 comes after all records have passed, and record 2 has; " + PRINTED)
case("code-short-firm-passes", no(5, 3, 0), short(FIRM), "01: refusal 5 comes after all records have passed, and record 2 has; " + ELEVEN)

# --- Eleven digits that pass ------------------------------------------------------------------------------------------
FIRMS = [
    ("of-the-samples", "03417520545", ELEVEN),
    ("of-the-sender", "02765310541", ELEVEN),
    ("printed-by-stdnum", "00743110157", ELEVEN),
    ("last-0", "01472060530", ELEVEN),
    ("last-1", "09000000001", ELEVEN + ": 9 doubled is 18, less 9 is 9"),
    ("last-2", "03128940552", ELEVEN),
    ("last-3", "12345678903", ELEVEN),
    ("last-4", "13417520544", ELEVEN),
    ("last-5", "11111111115", ELEVEN),
    ("last-6", "80012340586", ELEVEN),
    ("last-7", "01234567897", ELEVEN),
    ("last-8", "00695410548", ELEVEN),
    ("last-9", "02589407549", ELEVEN),
    ("zeros", "00000000000", ELEVEN + "; Decision: eleven zeros pass"),
    ("nines", "99999999990", ELEVEN + ": every doubling above 9"),
    ("fives", "55555555550", ELEVEN + ": every doubling just above 9"),
    ("fours", "44444444440", ELEVEN + ": no doubling above 9"),
    ("even-places-alone", "09090909095", ELEVEN),
    ("odd-places-alone", "90909090905", ELEVEN),
    ("1-in-place-1", "10000000009", ELEVEN + ": an odd place is not doubled"),
    ("1-in-place-2", "01000000008", ELEVEN + ": an even place is"),
    ("5-in-place-2", "05000000009", ELEVEN + ": 10 less 9 is 1"),
    ("5-in-place-1", "50000000005", ELEVEN + ": an odd place is not doubled"),
    ("1-in-place-10", "00000000018", ELEVEN + ": an even place is doubled"),
    ("5-in-place-10", "00000000059", ELEVEN + ": 10 less 9 is 1"),
    ("rising", "00405060708", ELEVEN),
    ("rising-in-even-places", "02030405068", ELEVEN),
    ("falling", "09876543217", ELEVEN),
    ("of-an-office", "98007650546", ELEVEN),
    ("double-7", "01803270667", ELEVEN),
    # 0 counts 0 and 9 counts 9, doubled or not: exchanged, they are the one pair of neighbours that is not found.
    ("0-before-9", "03417090549", ELEVEN),
    ("9-before-0", "03417900549", ELEVEN + "; the same sum"),
]
for word, number, why in FIRMS:
    case("code-firm-" + word, PLAIN, coded(number + " " * 5), why)
assert {number[10] for _, number, _ in FIRMS} == set(digits)

# 03417520545 with each digit in each of the first ten places: the last digits that go with 0 to 9.
LAST_DIGIT = {
    1: "5432109876",
    2: "1975308642",
    3: "9876543210",
    4: "7531964208",
    5: "2109876543",
    6: "6420853197",
    7: "7654321098",
    8: "5319742086",
    9: "0987654321",
    10: "3197520864",
}


def each_digit_at(place):
    """The numbers of a row of LAST_DIGIT."""
    return [at(FIRM, place, d)[:10] + last for d, last in zip(digits, LAST_DIGIT[place], strict=True)]


for place in LAST_DIGIT:
    case("code-firm-digits-at-%02d" % place, yes(10, 52, 10, 10, regioni=(10, 0)), many([number + " " * 5 for number in each_digit_at(place)]), ELEVEN)

# --- The last letter, and one character mistyped ----------------------------------------------------------------------
case("code-printed-wrong", no(26, 2, 11), coded(WRONG), PRINTED)
for last in ascii_uppercase:
    if last not in "ST":
        case("code-last-letter-%s" % last.lower(), no(26, 2, 11), coded(at(PERSON, 16, last)), SUM + ": 122 = 4 * 26 + 18, S and no other")
    if last != "L":
        case("code-all-letters-last-%s" % last.lower(), no(26, 2, 11), short(at("RSSMRAURTMLARSNL", 16, last)), SUM + "; " + AS_LETTERS)
for word, code in (("u-at-07", "RSSMRAU5T10A562S"), ("r-at-08", "RSSMRA8RT10A562S"), ("m-at-10", "RSSMRA85TM0A562S"), ("l-at-11", "RSSMRA85T1LA562S"),
                   ("r-at-13", "RSSMRA85T10AR62S"), ("s-at-14", "RSSMRA85T10A5S2S"), ("n-at-15", "RSSMRA85T10A56NS"), ("all-seven", "RSSMRAURTMLARSNS")):
    case("code-as-digit-" + word, no(26, 2, 11), coded(code), AS_LETTERS + ", and not as the digits they stand for")
FOUND = SUM + ": no two characters that a place may hold count the same there, so that one mistyped is found"
for place in range(1, 16):
    for c in ALLOWED[place]:
        if c != PERSON[place - 1]:
            case("code-mistyped-%02d-%s" % (place, c.lower()), no(26, 2, 11), short(at(PERSON, place, c)), FOUND)
for word, code in (("1-2", "SRSMRA85T10A562S"), ("3-4", "RSMSRA85T10A562S"), ("4-5", "RSSRMA85T10A562S"), ("5-6", "RSSMAR85T10A562S"),
                   ("7-8", "RSSMRA58T10A562S"), ("10-11", "RSSMRA85T01A562S"), ("13-14", "RSSMRA85T10A652S"), ("14-15", "RSSMRA85T10A526S")):
    case("code-exchanged-" + word, no(26, 2, 11), coded(code), SUM + ": neighbours count otherwise in each other's place, W and Y apart")
for word, code in (("6-7", "RSSMR8A5T10A562S"), ("8-9", "RSSMRA8T510A562S"), ("9-10", "RSSMRA851T0A562S"), ("11-12", "RSSMRA85T1A0562S"),
                   ("12-13", "RSSMRA85T105A62S"), ("15-16", "RSSMRA85T10A56S2")):
    case("code-exchanged-" + word, no(26, 2, 11), coded(code), PLACES)
# 0 at 11 and A at 12 count 1 and 0, exchanged A 1 and 0 as 0: the sum is the same, and the places alone refuse it.
assert mended("RSSMRA85T1A0562S") == "RSSMRA85T1A0562S"

# --- Characters that a place may not hold, though the sum is right ----------------------------------------------------
for place in DIGIT_PLACES:
    for c in NOT_FOR_DIGITS:
        case("code-no-digit-%02d-%s" % (place, c.lower()), no(26, 2, 11), short(mended(at(PERSON, place, c))), PLACES + "; the last letter is right for the sum")
for place in LETTER_PLACES:
    for d in digits:
        case("code-no-letter-%02d-%s" % (place, d), no(26, 2, 11), short(mended(at(PERSON, place, d))), PLACES + "; the last letter is right for the sum")
for word, c in (("slash", "/"), ("colon", ":"), ("at-sign", "@"), ("bracket", "["), ("grave", "`"), ("brace", "{")):
    for place in range(1, 16):
        case("code-%s-at-%02d" % (word, place), no(26, 2, 11), short(mended(at(PERSON, place, c))),
             PLACES + "; the last letter is right for the sum if the row went on to this character")
    case("code-%s-last" % word, no(26, 2, 11), short(at(PERSON, 16, c)), SUM)
for c in ("@", "["):
    for last in ascii_uppercase:
        case("code-%s-first-last-%s" % ({"@": "at-sign", "[": "bracket"}[c], last.lower()), no(26, 2, 11), short(at(at(PERSON, 1, c), 16, last)),
             PLACES + "; no last letter makes it right")
for d in digits:
    case("code-last-digit-%s" % d, no(26, 2, 11), short(at(PERSON, 16, d)), SUM + "; 9 stands 26 before S among the bytes")
for word, code in (("o-for-0", "RSSMRA85T1OA562S"), ("i-for-1", "RSSMRA85TI0A562S"), ("s-for-5", "RSSMRA8ST10A562S"), ("b-for-8", "RSSMRAB5T10A562S"),
                   ("z-for-2", "RSSMRA85T10A56ZS"), ("0-for-o", "F0XLCU70A01G478R"), ("1-for-i", "UBO1VO33L16H857I"), ("5-for-s", "R5SMRA85T10A562S")):
    case("code-slip-" + word, no(26, 2, 11), coded(code), PLACES + "; " + SUM)
case("code-last-5-for-s", no(26, 2, 11), coded("RSSMRA85T10A5625"), SUM)

# --- Lower case -------------------------------------------------------------------------------------------------------
ALL_LETTERS = "RSSMRAURTMLARSNL"
for place in range(1, 17):
    case("code-lower-at-%02d" % place, no(26, 2, 11), short(at(ALL_LETTERS, place, ALL_LETTERS[place - 1].lower())), CAPITALS)
for place in range(1, 16):
    case("code-lower-mended-at-%02d" % place, no(26, 2, 11), short(mended(at(ALL_LETTERS, place, ALL_LETTERS[place - 1].lower()))), CAPITALS)
for last in ascii_lowercase:
    case("code-last-lower-%s" % last, no(26, 2, 11), short(at(PERSON, 16, last)), CAPITALS + "; m stands 26 behind S among the bytes")
case("code-lower-all", no(26, 2, 11), coded(PERSON.lower()), CAPITALS)
case("code-lower-all-letters", no(26, 2, 11), coded(ALL_LETTERS.lower()), CAPITALS)
case("code-lower-name", no(26, 2, 11), coded("rssmra85T10A562S"), CAPITALS)

# --- Blanks, and other lengths ----------------------------------------------------------------------------------------
for place in range(1, 17):
    case("code-blank-at-%02d" % place, no(26, 2, 11), short(at(PERSON, place, " ")), EITHER)
for word, code in (
        ("all-blank", " " * 16), ("fifteen-behind-a-blank", " RSSMRA85T10A562"), ("eleven-of-sixteen", "RSSMRA85T10     "), ("six-letters", "RSSMRA          "),
        ("eleven-letters", "LLLLLLLLLLL     "), ("sixteen-zeros", "0" * 16), ("sixteen-digits", "1234567890123456"), ("sixteen-digits-of-a-firm", "0341752054500000"),
        ("sixteen-digits-firm-last", "0000003417520545"), ("twelve-digits", "034175205450    "), ("twelve-digits-firm-last", "003417520545    "), ("thirteen-digits", "0341752054500   "),
        ("fifteen-digits", "034175205450000 "), ("ten-digits", "0341752054      "), ("one-zero", "0               "), ("no-leading-zero", "3417520545      "),
        ("country-before", "IT03417520545   "), ("country-for-zero", "IT3417520545    "), ("blank-before-a-firm", " 03417520545    "), ("firm-to-the-right", "     03417520545"),
        ("firm-in-the-middle", "  03417520545   "), ("leading-zero-blank", " 3417520545     "), ("zero-inside-blank", "0341752 545     "), ("o-for-leading-zero", "O3417520545     "),
        ("o-for-inner-zero", "0341752O545     "), ("l-for-0", "L3417520545     "), ("points", "034.175.205.45  "), ("blanks-between", "034 175 205 45  "), ("minus", "-3417520545     "),
        ("plus", "+3417520545     "), ("firm-and-person", "03417520545A562S"), ("points-alone", "." * 16), ("tildes", "~" * 16), ("person-of-points", "RSS.MRA.85T10.A5")):
    case("code-" + word, no(26, 2, 11), coded(code), EITHER)
case("code-ten-digits-whose-next-is-0", no(26, 2, 11), coded("0147206053      "), EITHER + "; with a 0 at place 11 it would pass")
case("code-nothing-but-a-last-blank-0", no(26, 2, 11), coded("0000000000      "), EITHER + "; with a 0 at place 11 it would pass")
for place in range(12, 17):
    for word, c in (("letter", "A"), ("zero", "0"), ("digit", "7"), ("point", "."), ("tilde", "~"), ("bang", "!")):
        case("code-firm-and-%s-at-%02d" % (word, place), no(26, 2, 11), short(at(FIRM, place, c)), ELEVEN + "; five spaces and nothing else")

# --- Eleven digits: one mistyped, and what is no digit ----------------------------------------------------------------
for place in range(1, 12):
    for d in digits:
        if d != FIRM[place - 1]:
            case("code-firm-mistyped-%02d-%s" % (place, d), no(26, 2, 11), short(at(FIRM, place, d)),
                 ELEVEN + ": no two digits count the same, doubled or not, so that one mistyped is found")
for word, number, why in (
        ("odd-places-doubled", "50000000009", "2 * 5 less 9 and 9 would be 10, but places 1 and 11 are odd: 14"), ("nothing-doubled", "01000000009", "2 and 9 are 11"),
        ("less-9-left-out", "05000000000", "10 less 9 is 1"), ("a-multiple-of-five", "50000000000", "5 is no multiple of ten"), ("one", "00000000001", "1 is no multiple of ten"),
        ("eleven", "20000000009", "11 is no multiple of ten"), ("last-two-exchanged", "03417520554", "22 and 10 are 32"), ("first-two-exchanged", "30417520545", "26 and 11 are 37")):
    case("code-firm-" + word, no(26, 2, 11), coded(number + " " * 5), ELEVEN + ": " + why)
for place in range(1, 11):
    for word, c in (("slash", "/"), ("colon", ":")):
        case("code-firm-%s-at-%02d" % (word, place), no(26, 2, 11), short(mended_number(at(FIRM, place, c)) + " " * 5),
             ELEVEN + "; the last digit is right for the sum if the digits went on to this character")
    for c in ("A", "L", "O"):
        case("code-firm-%s-at-%02d" % (c.lower(), place), no(26, 2, 11), short(at(FIRM, place, c)), ELEVEN)
    case("code-firm-blank-at-%02d" % place, no(26, 2, 11), short(at(FIRM, place, " ")), ELEVEN)
case("code-firm-slash-last", no(26, 2, 11), short("0258940754/     "), ELEVEN + "; the slash stands one before 0 among the bytes, where 9 is right")
case("code-firm-colon-last", no(26, 2, 11), short("0147206053:     "), ELEVEN + "; the colon stands ten behind 0 among the bytes, where 0 is right")
for c in ("A", "L", "O"):
    case("code-firm-%s-at-11" % c.lower(), no(26, 2, 11), short(at(FIRM, 11, c)), ELEVEN)

# --- Where it is told -------------------------------------------------------------------------------------------------
case("code-second-delega", no(26, 15, 11), full().put(15, 11, WRONG), START + ", in the record 10 of each delega")
case("code-second-delega-blank", no(26, 7, 11), flow(delega(regioni=[(5, 0)]), delega(regioni=[(5, 0)])).put(7, 11, " " * 16), START)
case("code-second-delega-behind-50-02", no(26, 8, 11), flow(delega(regioni=[(5, 0)], after=1), delega(regioni=[(5, 0)])).put(8, 11, WRONG), START)
case("code-third-delega", no(26, 12, 11), many([PERSON, FIRM, WRONG]), START)
case("code-delega-108", no(26, 537, 11), many([PERSON, FIRM] * 53 + [PERSON, WRONG]), START)
case("code-first-of-two", no(26, 2, 11), full().put(2, 11, WRONG).put(15, 11, WRONG), FIRST)
case("code-second-and-third", no(26, 7, 11), many([FIRM, WRONG, WRONG]), FIRST)
case("code-of-every-person", yes(len(PERSONS), 5 * len(PERSONS) + 2, len(PERSONS), len(PERSONS), regioni=(len(PERSONS), 0)), many([code for _, code, _ in PERSONS]), SUM)
case("code-of-every-firm", yes(len(FIRMS), 5 * len(FIRMS) + 2, len(FIRMS), len(FIRMS), regioni=(len(FIRMS), 0)), many([number + " " * 5 for _, number, _ in FIRMS]), ELEVEN)
case("code-persons-and-firms", yes(108, 542, 108, 108, regioni=(108, 0)), many([PERSON, FIRM] * 54), "02, ask 2: the taxpayer's code, in each delega its own")
case("code-same-twice", yes(2, 12, 2, 2, regioni=(2, 0)), many([FIRM, FIRM]), NO_MORE)

# --- Its turn: after 3, 4, 7 and 8 of its own record ------------------------------------------------------------------
for position in range(11, 27):
    byte = (b"\x00", b"\x7f", b"\xe8", b"\t")[position % 4]
    case("code-3-at-%d" % position, no(3, 2, position), coded(PERSON).put(2, position, byte), AFTER_8 + ": 3 before 26")
case("code-3-in-the-blanks-of-a-firm", no(3, 2, 22), coded(FIRM).put(2, 22, b"\0"), AFTER_8 + ": 3 before 26")
for position in (1, 10, 27, 120):
    case("code-3-beside-at-%d" % position, no(3, 2, position), coded(WRONG).put(2, position, b"\xff"), AFTER_8 + ": 3 before 26")
case("code-4-10-twice", no(4, 3, 2), plain().insert(3, coded(WRONG).records[1]), AFTER_8 + ": 4 before 26")
case("code-4-10-at-the-start", no(4, 1, 2), coded(WRONG).drop(1), AFTER_8 + ": 4 before 26")
case("code-4-10-behind-a-line", no(4, 5, 2), plain().insert(5, coded(WRONG).records[1]), AFTER_8 + ": 4 before 26")
case("code-4-10-behind-ef", no(4, 9, 2), plain().add(coded(WRONG).records[1]), AFTER_8 + ": 4 before 26")
case("code-4-other-type", no(4, 2, 2), coded(WRONG).put(2, 2, "1O"), AFTER_8 + ": 4 before 26")
case("code-7-number", no(7, 2, 10), coded(WRONG).put(2, 4, "000000l"), AFTER_8 + ": 7 before 26")
case("code-7-number-blank", no(7, 2, 4), coded(" " * 16).put(2, 4, " " * 7), AFTER_8 + ": 7 before 26")
case("code-8-number", no(8, 2, 4), coded(WRONG).put(2, 4, "0000002"), AFTER_8)
case("code-8-number-0", no(8, 2, 4), coded(" " * 16).put(2, 4, "0000000"), AFTER_8)
case("code-8-second-delega", no(8, 15, 4), full().put(15, 4, "0000001").put(15, 11, WRONG), AFTER_8)
case("code-7-second-delega", no(7, 15, 6), full().put(15, 6, "-").put(15, 11, WRONG), AFTER_8 + ": 7 before 26")
case("code-8-with-a-code-that-passes", no(8, 2, 4), coded(FIRM).put(2, 4, "0000003"), "01, Numbers: the first delega is 1")

# --- Behind every fault before it, and before every fault of a later record -------------------------------------------
case("code-behind-1", no(1, 0, 0), many([WRONG] * 108).add(*[plain().records[0]] * 5), "01: refusals 1 and 2 come first")
case("code-behind-2", no(2, 0, 0), coded(WRONG).bytes_after(b"\n"), "01: refusals 1 and 2 come first")
case("code-behind-3-of-f4", no(3, 1, 120), coded(WRONG).put(1, 120, b"\n"), FIRST)
case("code-behind-4-of-f4", no(4, 1, 2), coded(WRONG).put(1, 2, "EF"), FIRST)
case("code-behind-7-of-f4", no(7, 1, 14), coded(WRONG).put(1, 14, " "), FIRST)
case("code-behind-16", no(16, 1, 20), coded(WRONG).put(1, 20, "A/B"), FIRST)
case("code-behind-17", no(17, 1, 14), coded(WRONG).put(1, 14, "310215"), FIRST)
case("code-behind-a-fault-of-the-first", no(9, 4, 29), flow(delega(regioni=[(0, 0)]), delega(regioni=[(1, 0)])).put(7, 11, WRONG), FIRST)
case("code-behind-15-of-the-first", no(15, 12, 36), full().put(12, 36, "9" * 15).put(15, 11, WRONG), FIRST)
case("code-behind-4-of-50-02", no(4, 13, 11), full().put(13, 11, "04").put(15, 11, WRONG), FIRST)
case("code-before-3", no(26, 2, 11), coded(WRONG).put(3, 1, b"\0"), FIRST)
case("code-before-4", no(26, 2, 11), coded(WRONG).put(3, 2, "99"), FIRST)
case("code-before-4-without-20", no(26, 2, 11), coded(WRONG).drop(3), FIRST)
case("code-before-5", no(26, 2, 11), coded(WRONG).keep(7), "01: refusal 5 comes after all records have passed")
case("code-before-5-at-once", no(26, 2, 11), coded(WRONG).keep(2), "01: refusal 5 comes after all records have passed")
case("code-before-6", no(26, 2, 11), flow(delega(regioni=[(5, 0)] * 5)).put(2, 11, WRONG), FIRST)
case("code-before-7", no(26, 2, 11), coded(WRONG).put(3, 4, "000000x"), FIRST)
case("code-before-7-of-a-line", no(26, 2, 11), coded(WRONG).put(4, 29, " "), FIRST)
case("code-before-8", no(26, 2, 11), coded(WRONG).put(3, 4, "0000002"), FIRST)
case("code-before-9", no(26, 2, 11), flow(delega(regioni=[(0, 0)])).put(2, 11, WRONG), FIRST)
for number, record, position, text in ((10, 6, 15, "9" * 15), (11, 6, 30, "9" * 15), (12, 6, 45, "N"), (13, 6, 46, "9" * 15), (15, 7, 36, "9" * 15), (16, 8, 20, "X"),
                                       (18, 8, 46, "0000002"), (19, 8, 83, "0000009"), (20, 8, 53, "9" * 15)):
    case("code-before-%d" % number, no(26, 2, 11), coded(WRONG).put(record, position, text), FIRST)
case("code-before-14", no(26, 2, 11), flow(delega(regioni=[(0, 1)])).put(2, 11, WRONG), FIRST)
case("code-before-a-record-behind-ef", no(26, 2, 11), coded(WRONG).add(bytearray(b" " * 120)), FIRST)
case("code-before-8-of-the-second", no(26, 2, 11), full().put(2, 11, WRONG).put(15, 4, "0000009"), FIRST)

# --- The columns ------------------------------------------------------------------------------------------------------
for word, c in (("blank", " "), ("letter", "S"), ("digit", "0"), ("tilde", "~"), ("lower", "x")):
    case("code-person-27-" + word, PLAIN, coded(PERSON).put(2, 27, c), COLUMNS + ": 27 is no part of it")
    case("code-firm-27-" + word, PLAIN, coded(FIRM).put(2, 27, c), COLUMNS + ": 27 is no part of it")
case("code-wrong-and-right-letter-at-27", no(26, 2, 11), coded(WRONG).put(2, 27, "S"), COLUMNS)
case("code-person-one-column-late", no(26, 2, 11), coded(" " * 16).put(2, 12, PERSON), COLUMNS)
case("code-firm-one-column-late", no(26, 2, 11), coded(" " * 16).put(2, 12, FIRM), COLUMNS)
case("code-person-one-column-early", no(7, 2, 10), coded(" " * 16).put(2, 10, PERSON), COLUMNS + "; 10 is the last of the delega number")
case("code-firm-one-column-early", no(8, 2, 4), coded(" " * 16).put(2, 10, FIRM), COLUMNS + "; 10 is the last of the delega number, and a 0 there makes it 0")
case("code-firm-of-1-one-column-early", no(26, 2, 11), coded(" " * 16).put(2, 10, "13417520544     "),
     COLUMNS + "; 10 is the last of the delega number, and the 1 there is right: ten digits are left for 11-26")
case("code-person-in-the-name", no(26, 2, 11), coded(" " * 16).put(2, 27, PERSON), COLUMNS)
for word, code in (("wrong", WRONG), ("blank", " " * 16), ("lower", PERSON.lower()), ("digits", "9" * 16)):
    case("code-of-20-" + word, PLAIN, plain().put(3, 82, code), "02, ask 2: the taxpayer's code; the one in record 20 (82-97) is not read")
    case("code-of-50-01-" + word, PLAIN, plain().put(7, 54, code), "02, ask 2: the taxpayer's code; the one in 50-01 (54-69) is not read")
    case("code-of-50-02-" + word, yes(1, 9, 7500, 2, regioni=(10000, 2500)), flow(delega(regioni=[(10000, 0), (0, 2500)], after=1)).put(8, 13, code),
         "02, ask 2: the taxpayer's code; the sender's in 50-02 (13-28) is not read")
case("code-right-in-50-01-alone", no(26, 2, 11), coded(WRONG).put(7, 54, PERSON), COLUMNS)
case("code-right-in-20-alone", no(26, 2, 11), coded(WRONG).put(3, 82, PERSON), COLUMNS)
case("code-of-another-sex-and-birthday", PLAIN, coded(PERSON).put(2, 71, "F").put(2, 99, "19000230"), NO_MORE)
case("code-of-a-firm-for-a-person", PLAIN, coded(FIRM).put(2, 71, "M"), NO_MORE)
case("code-of-a-person-without-a-name", PLAIN, coded(PERSON).put(2, 27, " " * 94), NO_MORE)
