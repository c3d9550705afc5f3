"""Stripes lost by simulation, beside the closed form for independent failures; and the picture of the table."""
import csv
import io
import os
import sys
from itertools import combinations
from xml.etree import ElementTree

from tests import harness
from tests.model import rules
from tests.stores.store_requests import STORES, check_other_version, compile_store, next_version

FOLDER = os.path.join(STORES, "durability")
closed_form, picture, table = (harness.loaded(f"{FOLDER}/{name}.py") for name in ("closed_form", "picture", "table"))

CODES = {"wide": rules.WIDE, "narrow": rules.NARROW}
# A simulation counts enough if its standard error is at most this part of the closed form. Then it has to be as near to that
# as so many standard errors.
MOST_ERROR, NEAR = 0.1, 4
# Mean repairs in hours, each with the years that are simulated.
SHORT = {"wide": {80: 6, 40: 16}, "narrow": {80: 30, 40: 100}}
LONG = {"wide": {80: 30, 40: 80, 20: 400}, "narrow": {80: 100, 40: 400, 20: 2000}}


def test_closed_form(count):
    """The closed form has the sets of the rules, and comes to the first order where repairs are short."""
    for name, code in CODES.items():
        by_missing = {}
        for missing in range(code.all + 1):
            groups = tuple((missing & group).bit_count() for group in code.classes)
            by_missing.setdefault((groups, rules.is_recoverable(code, missing)), 0)
        wrong = [f"{name}: {groups}" for groups, is_good in by_missing if closed_form.is_recoverable(groups) != is_good]
        count.add(len(by_missing) - len(wrong), wrong)
        fours = sum(not rules.is_recoverable(code, rules.set_of(four)) for four in combinations(code.fragments, 4))
        found = closed_form.lost_fours(name)
        count.check(f"{name}: {found} sets of four are lost, and not {fours}", found == fours)
        for repair, most in ((1, 0.02), ("0.001", 0.0001)):
            share = closed_form.by_chain(name, 1000, repair) / closed_form.by_first_order(name, 1000, float(repair))
            count.check(f"{name}: the chain is {share} of the first order", abs(share - 1) < most)


def test_simulation(count, simulate, settings):
    """What is lost by simulation is near the closed form."""
    rows = []
    for code in CODES:
        for repair, years in settings[code].items():
            rows.append(row := table.row(simulate, code, repair, years))
            simulated, error, chain = row["simulated"], row["error"], row["chain"]
            print(f"durability: {code}, repairs of {repair} hours, {years} years: {row['lost']} lost, {simulated:.4g}"
                  f" +- {error:.2g} a stripe and year, {chain:.4g} by the closed form")
            count.check(f"{code} {repair}: the simulation counts enough", error <= MOST_ERROR * chain)
            count.check(f"{code} {repair}: the simulation is near", abs(simulated - chain) <= NEAR * error)
    return rows


def test_table(count, simulate):
    """The table and the picture come out of the scripts as the README runs them."""
    text = count.run("table", sys.executable, f"{FOLDER}/table.py", simulate, "1", "40", "80")
    rows = list(csv.DictReader(io.StringIO(text or "")))
    settings = [(code, repair) for code in CODES for repair in ("40", "80")]
    count.check("table: its rows", [(row["code"], row["repair"]) for row in rows] == settings)
    check_picture(count, picture_of(count, text), rows)
    kept, drawn = (harness.read(f"{FOLDER}/lost.{kind}").decode() for kind in ("csv", "svg"))
    count.check("picture: lost.svg is that of lost.csv", picture_of(count, kept) == drawn)
    for row in csv.DictReader(io.StringIO(kept)):
        chain = closed_form.by_chain(row["code"], row["lifetime"], row["repair"])
        is_near = abs(float(row["simulated"]) - chain) <= NEAR * float(row["error"])
        count.check(f"lost.csv: {row}", row["chain"] == f"{chain:.4g}" and is_near)


def picture_of(count, text):
    return count.run("picture", sys.executable, f"{FOLDER}/picture.py", input=text)


def check_picture(count, text, rows):
    """A picture is well-formed, has a line for each code, and a mark inside its frame for each row with losses."""
    parts = list(ElementTree.fromstring(text).iter())
    marks = {"wide": [part for part in parts if part.tag.endswith("circle")],
             "narrow": [part for part in parts if part.tag.endswith("rect") and part.get("class") == "narrow"]}
    count.check("picture: two lines", sum(part.tag.endswith("polyline") for part in parts) == 2)
    for code, found in marks.items():
        wanted = sum(row["code"] == code and row["lost"] != "0" for row in rows)
        count.check(f"picture: {len(found)} marks of the {code} code, and not {wanted}", len(found) == wanted)
    heights = [float(part.get("cy") or part.get("y")) for found in marks.values() for part in found]
    bottom = picture.HEIGHT - picture.BOTTOM
    count.check("picture: the marks are in the frame", all(picture.TOP - 4 <= y <= bottom for y in heights))


def test(count, folder, room, is_long):
    test_closed_form(count)
    simulate = compile_store(count, "durability/simulate.cpp", folder, f"{room}/simulate")
    if simulate is not None:
        links = next_version(count, room).links
        other = compile_store(count, "durability/simulate.cpp", folder, f"{room}/simulate-other", *links)
        check_other_version(count, "durability", [other, "wide", 1000, 80, 0, 1, 1])
        test_simulation(count, simulate, LONG if is_long else SHORT)
        test_table(count, simulate)
