"""The sample flows and sheets, in the columns that 000 gives for each record, and the sample forms F24 EP, in those of 001. All persons, firms, consortia and
accounts are invented; the check characters of the tax codes and of the accounts are right, but for the tax code of wrong-code.f24."""

import ep_form
from case import case, no, yes
from ep_form import form, m, row, v
from flow import delega, flow
from sheet import refused, sheet, written

COOPERATIVE = {     # a farm cooperative: a firm's tax code has 11 digits, then blanks
    "tax_code": "03417520545     ", "name": "COOPERATIVA AGRICOLA VAL", "name2": "NERINA SOC. COOP.", "sex": " ",
    "born_in": "", "born_province": "", "born": "00000000",
    "town": "SPOLETO", "province": "PG", "street": "STRADA DELLE OLIVETE 48",
    "cab": "21800", "account": "000010047732", "cin": "O", "iban_check": "55", "zip": "06049", "client": "COOPVALNERINA",
}
ROASTERY = {        # a coffee roaster in her own name: a person's tax code has 16 characters
    "tax_code": "BNCLRA75D52G478N", "name": "BIANCHI", "name2": "LAURA", "sex": "F",
    "born_in": "PERUGIA", "born_province": "PG", "born": "19750412",
    "town": "FOLIGNO", "province": "PG", "street": "VIA DEI TORREFATTORI 7",
    "cab": "21700", "account": "000000558120", "cin": "T", "iban_check": "89", "zip": "06034", "client": "TORREFAZIONEBIANCHI",
}
# Two consortia that pay on the F24 EP form: what each of their records M carries, and each of their records V. A public body's account is with the Banca d'Italia.
BONIFICA = {
    "tax_code": "80007340542", "number": "00000001", "user_model": "MANDATO 2025/418", "name": "CONSORZIO DI BONIFICA VAL NERINA", "holder_code": "80007340542",
    "iban_check": "95", "cin": "M", "account": "440300000147", "mail": "ragioneria@bonifica-valnerina.example", "paid": "16-06-2025",
}
IRRIGUO = {
    "tax_code": "84002190555", "number": "00000002", "user_model": "MANDATO 2025/97", "name": "CONSORZIO IRRIGUO PIANO DELLE TORRI", "holder_code": "84002190555",
    "iban_check": "12", "cin": "T", "account": "441300000268", "mail": "segreteria@irriguo-piantorri.example", "paid": "16-06-2025",
}
ACCOUNTANT = {"sender": "B4T7Q", "sender_tax_code": "02765310541     ", "bank": "09990", "paid": "20250616"}


def erario(code, reference, debit, credit):
    return debit, credit, {13: "##", 15: code, 19: reference, 60: "0" * 11}


def inps(office, cause, number, month, debit, credit):
    return debit, credit, {13: "##", 15: office, 19: cause, 23: number, 40: month, 46: "000000"}


def regioni(region, code, reference, debit, credit):
    return debit, credit, {13: region, 15: "##", 17: code, 21: reference}


def imu(town, code, year, buildings, debit, credit):
    return debit, credit, {13: town, 17: "##", 19: code, 23: "0000" + year, 61: "0010", 65: "%03d" % buildings, 68: "0" * 15}


def ident(kind, element, code, year, office, debit):
    return debit, 0, {13: "##", 15: kind, 16: element, 33: code, 37: year, 71: office, 74: "0" * 11}


def regional_tax(build=flow, debit=10000):
    """01's printed whole case: Regioni lines (10000, 0) and (0, 2500)."""
    return build(delega(regioni=[regioni("19", "3802", "00052025", debit, 0), regioni("19", "3796", "00002024", 0, 2500)],
                        payer=ROASTERY), name="F24-TORREFAZIONE-003", head=ACCOUNTANT)


def all_sections():
    """A cooperative with the four sections and its receipt's address, then a roaster's payment with identifying elements."""
    return flow(
        delega(erario=[erario("1001", "00052025", 482316, 0), erario("1040", "00052025", 36000, 0),
                       erario("6099", "00002024", 0, 120050)],
               inps=[inps("5800", "DM10", "5801234567", "052025", 615400, 0),
                     inps("5800", "C10", "06049SPOLETO", "052025", 41275, 0)],
               regioni=[regioni("19", "3800", "01012024", 208890, 0), regioni("19", "3802", "00052025", 30412, 1500)],
               imu=[imu("I921", "3918", "2025", 2, 154600, 0), imu("I921", "3914", "2025", 0, 8800, 0)],
               after=2, payer=COOPERATIVE),
        delega(ident=[ident("A", "WV1ZZZ7HZ8H004217", "6205", "2025", "", 517000),
                      ident("F", "TK325T000418000SE", "1501", "2025", "TK3", 18400)],
               after=1, payer=ROASTERY),
        name="F24-STUDIO-VERDI-017", head=ACCOUNTANT)


def three_deleghe(*withdrawn):
    """A cooperative's payment with its receipt's address, a roaster's, and a second one of the cooperative; without those that are withdrawn, by their numbers.
    Final balances 977666, 28912 and 163400. Records: 1 F4, 2 to 11, 12 to 18, 19 to 24, 25 EF."""
    deleghe = [
        delega(erario=[erario("1001", "00052025", 482316, 0), erario("6099", "00002024", 0, 120050)],
               inps=[inps("5800", "DM10", "5801234567", "052025", 615400, 0)], after=2, payer=COOPERATIVE, protocol="0000001"),
        delega(regioni=[regioni("19", "3802", "00052025", 30412, 0), regioni("19", "3796", "00002024", 0, 1500)], after=1, payer=ROASTERY, protocol="0000002"),
        delega(imu=[imu("I921", "3918", "2025", 2, 154600, 0), imu("I921", "3914", "2025", 0, 8800, 0)], payer=COOPERATIVE, protocol="0000003"),
    ]
    return flow(*[d for number, d in enumerate(deleghe, 1) if number not in withdrawn], name="F24-STUDIO-VERDI-019", head=ACCOUNTANT)


def wrong_balance():
    """As regional_tax, but the balance of 40-06 is stored as the sum of debit and credit."""
    return regional_tax().put(6, 46, "000000000012500")


def raised_line():
    """As regional_tax, but its first line was raised from 10000 to 12000 after balancing, and all below left as it was."""
    return regional_tax().put(4, 29, "000000000012000")


def wrong_code():
    """As regional_tax, but two neighbours in the tax code are exchanged, 57 for the year 75. L would be its last letter."""
    return regional_tax().put(2, 11, "BNCLRA57D52G478N")


def two_deleghe():
    """A sheet: a cooperative with three sections, then a roaster's payment with identifying elements."""
    return sheet(
        delega(erario=[erario("1001", "00052025", 482316, 0), erario("6099", "00002024", 0, 120050)],
               inps=[inps("5800", "DM10", "5801234567", "052025", 615400, 0)],
               imu=[imu("I921", "3918", "2025", 2, 154600, 0), imu("I921", "3914", "2025", 0, 8800, 0)], payer=COOPERATIVE),
        delega(ident=[ident("A", "WV1ZZZ7HZ8H004217", "6205", "2025", "", 517000)], payer=ROASTERY),
        name="F24-STUDIO-VERDI-018", head=ACCOUNTANT)


def bad_count():
    """As the sheet of regional_tax, but the count of its Regioni lines is keyed as a digit and a blank."""
    return regional_tax(sheet).count("regioni", "2 ")


def payment(body, *rows):
    """A record V of a consortium."""
    return v(rows, tax_code=body["tax_code"], number=body["number"], user_model=body["user_model"])


def consortium(second="1.528,00"):
    """Two payments on the form F24 EP, each with its total: the first has two records V, the second one. Records: 1 M, 2 V, 3 V, 4 M, 5 V."""
    return form(
        m("31.046,98", **BONIFICA),
        # 1482316 + 36000 + 208890 + 30412 + 18805 + 615400 + 41275 is 2433098
        payment(BONIFICA, row("F", 1482316, "100E", a="0005", b="2025"), row("F", 36000, "104E", a="0005", b="2025"), row("R", 208890, "380E", "19", a="0005", b="2025"),
                row("R", 30412, "381E", "19", a="0005", b="2024"), row("S", 18805, "384E", "I921", a="0005", b="2024"),
                row("I", 615400, "DM10", "5800", "5801234567", "052025", "052025"), row("N", 41275, "902025", "33600", "01234567800", "P")),
        # 517000 + 154600 is 671600, and with the V before it 3104698
        payment(BONIFICA, row("F", 517000, "620E", a="0005", b="2025"), row("G", 154600, "3918", "I921", a="ANN002", b="2025")),
        m(second, **IRRIGUO),
        # 98015 + 14520 + 40265 is 152800
        payment(IRRIGUO, row("F", 98015, "100E", a="0005", b="2025"), row("R", 14520, "380E", "19", a="0005", b="2025"),
                row("I", 40265, "DM10", "5800", "5807654321", "052025", "052025")))


def wrong_total():
    """As consortium, but two digits of the second total are exchanged: 1.582,00 for 1.528,00."""
    return consortium("1.582,00")


SAMPLES = {"regioni.f24": regional_tax(), "all-sections.f24": all_sections(), "wrong-balance.f24": wrong_balance(),
           "wrong-code.f24": wrong_code(), "raised-line.f24": raised_line(), "three-deleghe.f24": three_deleghe()}

case("sample-regioni", yes(1, 8, 7500, 2, regioni=(10000, 2500)), SAMPLES["regioni.f24"],
     "01, Examples: the answer printed whole")
case("sample-all-sections", yes(2, 27, 1991543, 11, erario=(518316, 120050), inps=(656675, 0), regioni=(239302, 1500), imu=(163400, 0),
                                ident=(535400, 0)), SAMPLES["all-sections.f24"], "01, Order: all five sections")
case("sample-three-deleghe", yes(3, 25, 1169978, 7, erario=(482316, 120050), inps=(615400, 0), regioni=(30412, 1500), imu=(163400, 0)),
     SAMPLES["three-deleghe.f24"], "01, Numbers: the first delega is 1, each next one is one more")
case("sample-wrong-balance", no(13, 6, 46), SAMPLES["wrong-balance.f24"], "01, Sections: the balance is the difference")
case("sample-wrong-code", no(26, 2, 11), SAMPLES["wrong-code.f24"], "02, ask 2: the values of the first fifteen, summed modulo 26, give the last letter")

SHEETS = {"regioni.sheet": regional_tax(sheet), "two-deleghe.sheet": two_deleghe(), "bad-count.sheet": bad_count()}

written("sample-regioni", SHEETS["regioni.sheet"], yes(1, 8, 7500, 2, regioni=(10000, 2500)),
        "02: what is written is the sample flow, samples/regioni.f24")
assert bytes(SHEETS["regioni.sheet"].flow) == bytes(SAMPLES["regioni.f24"])
written("sample-two-deleghe", SHEETS["two-deleghe.sheet"], yes(2, 18, 1658066, 6, erario=(482316, 120050), inps=(615400, 0), imu=(163400, 0),
                                                               ident=(517000, 0)), "02: the five sections in 01's order")
refused("sample-bad-count", SHEETS["bad-count.sheet"], no(24, 0, 0), "02: 24 when a count isn't digits")

FORMS = {"consortium.ep": consortium(), "wrong-total.ep": wrong_total()}

# 3104698 + 152800
ep_form.case("sample-consortium", ep_form.yes(2, 3257498), FORMS["consortium.ep"], "02, ask 11: acceptance answers the count of M and the sum of their totals")
ep_form.case("sample-wrong-total", no(33, 4, 0), FORMS["wrong-total.ep"], "02, ask 11: it equals the sum over the V records that follow, under the M's number")
