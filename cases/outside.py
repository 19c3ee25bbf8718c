"""Compares the check characters of the codes that pass in codes.py with those of Debian's python3-stdnum. Writes nothing, and make.py does not need it.
Where the package is installed: /usr/bin/python3 cases/outside.py"""

import sys

sys.dont_write_bytecode = True

from stdnum.it.codicefiscale import calc_check_digit as last_letter
from stdnum.luhn import calc_check_digit as last_digit

import codes
import samples
from flow import PLAIN_HEAD, PLAIN_PAYER

taken = [p["tax_code"] for p in (PLAIN_PAYER, samples.COOPERATIVE, samples.ROASTERY, samples.BONIFICA, samples.IRRIGUO)]
taken += [head["sender_tax_code"] for head in (PLAIN_HEAD, samples.ACCOUNTANT)]
taken += [code for _, code, _ in codes.PERSONS] + [number for _, number, _ in codes.FIRMS]
taken += [code for place in codes.LAST for code in codes.each_at(place)]
taken += [number for place in codes.LAST_DIGIT for number in codes.each_digit_at(place)]
for code in taken:
    code = code.rstrip()
    assert len(code) in (16, 11), code
    assert code[-1] == (last_letter if len(code) == 16 else last_digit)(code[:-1]), code
print("%d codes have stdnum's check character" % len(taken))
