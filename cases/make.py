"""Writes the run cases of the judgement, of flows and of the form F24 EP, and the samples. Run from anywhere: python3 cases/make.py"""

import re
import sys
from pathlib import Path

sys.dont_write_bytecode = True

import sound, order, fields, amounts, codes, several, samples      # each adds its cases to the list
import dates
import ep       # adds its cases to the list of ep_form, behind those of the samples
import ep_form
from case import CASES

ROOT = Path(__file__).resolve().parent.parent


def written(crate, file, cases, vectors):
    """The data and the expected output of a crate that judges. Behind its own answers are those for data/vectors, from a file of this folder."""
    names = [name for name, *_ in cases]
    assert len(set(names)) == len(names), sorted(n for n in names if names.count(n) > 1)
    assert all(re.fullmatch(r"[a-z0-9]+(-[a-z0-9]+)*", n) and len(n) <= 40 for n in names), names
    built, stdout = bytearray(), []
    for name, expected, data, why in cases:
        assert why and expected and len(data) <= 100000, name
        built += b"%-40s %06d\n" % (name.encode(), len(data)) + data + b"\n"
        stdout += [name, *expected]
    stdout += (ROOT / "cases" / vectors).read_text(encoding="ascii").splitlines()
    data_dir = ROOT / "crates" / crate / "data"
    data_dir.mkdir(parents=True, exist_ok=True)
    (data_dir / file).write_bytes(built)
    (data_dir.parent / "stdout").write_text("".join(line + "\n" for line in stdout), encoding="ascii", newline="\n")
    accepted = sum(expected[0].startswith("ACCEPTED") for _, expected, *_ in cases)
    print("%s: %d cases, %d accepted, %d refused; data/%s %d bytes" % (crate, len(cases), accepted, len(cases) - accepted, file, len(built)))


written("judge_cases", "flows", CASES, "vectors.answers")

date_dir = ROOT / "crates" / "date_cases"
(date_dir / "data").mkdir(parents=True, exist_ok=True)
(date_dir / "data" / "flow").write_bytes(dates.FLOW)
(date_dir / "stdout").write_text("".join(line + "\n" for line in dates.answers()), encoding="ascii", newline="\n")

(ROOT / "samples").mkdir(exist_ok=True)
for file, built in [*samples.SAMPLES.items(), *samples.SHEETS.items(), *samples.FORMS.items()]:
    (ROOT / "samples" / file).write_bytes(bytes(built))

written("ep_cases", "records", ep_form.CASES, "ep_vectors.answers")
