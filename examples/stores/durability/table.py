#!/usr/bin/env python3
"""Writes stripes lost a year against the time of a repair, for both codes, as CSV.

Usage: table.py SIMULATE [YEARS [REPAIR ..]], where SIMULATE is simulate.cpp, compiled; by default 25 years, and mean
repairs of 10, 20, 40 and 80 hours

The years are those of a repair of 80 hours. One that takes half as long gets four times as many, since losses are rarer.

`simulated` are the losses a year of one stripe, with `error`, the standard error, from twenty parts of the run. `chain` and
`first_order` are what closed_form.py has for independent failures."""
import csv
import subprocess
import sys
from math import sqrt

sys.dont_write_bytecode = True
import closed_form

STRIPES, PARTS = 100, 20  # as in simulate.cpp
LIFETIME = 1000  # hours: far too short for a real disk, so that losses can be counted
COLUMNS = ("code", "lifetime", "repair", "years", "failures", "repairs", "lost", "simulated", "error", "chain",
           "first_order")


def row(simulate, code, repair, years, seed=1, workers=0):
    """A row of the table, by the names of its columns."""
    words = [simulate, code, LIFETIME, repair, workers, years, seed]
    ran = subprocess.run(list(map(str, words)), capture_output=True, text=True, check=True)
    *losses, failures, repairs = map(int, ran.stdout.split())
    lost, mean = sum(losses), sum(losses) / PARTS
    variance = sum((part - mean) ** 2 for part in losses) / (PARTS - 1)
    stripe_years = STRIPES * years
    return {"code": code, "lifetime": LIFETIME, "repair": repair, "years": years, "failures": failures, "repairs": repairs,
            "lost": lost, "simulated": lost / stripe_years, "error": sqrt(variance * PARTS) / stripe_years,
            "chain": closed_form.by_chain(code, LIFETIME, repair),
            "first_order": closed_form.by_first_order(code, LIFETIME, repair)}


def main(simulate, years="25", *repairs):
    table = csv.DictWriter(sys.stdout, COLUMNS, lineterminator="\n")
    table.writeheader()
    for code in closed_form.SIZES:
        for repair in map(int, repairs or ("10", "20", "40", "80")):
            cells = row(simulate, code, repair, int(years) * 80**2 // repair**2)
            table.writerow({name: f"{cell:.4g}" if isinstance(cell, float) else cell for name, cell in cells.items()})


if __name__ == "__main__":
    if len(sys.argv) < 2:
        sys.exit(__doc__)
    main(*sys.argv[1:])
