"""A release for programs: the JSON by its schema, JUnit's XML, and what has changed since an older report."""
import copy
import json
import re
import shutil
import subprocess
import tempfile
from datetime import datetime
from pathlib import Path
from xml.etree import ElementTree

from checks import ROOT, check, make_pair
from desk import Desk, digests_of, record_of
from explanation.formatting import visible
from pages import rows_of
from release.fields import field_name
from release_tool import GOOD, KINDS, Z
from schema import faults

SCHEMA = json.loads((ROOT / "docs" / "release.schema.json").read_text())
JUNIT = Path(__file__).with_name("junit.xsd")
ESCAPE, ODD = "red \x1b[31m", "<refused> & \"odd\""
OTHER = "C,1,1,1,1|int,0,0|1|0,0,|"  # accepted too


def json_of(desk, name):
    """A report, which is of its form."""
    given = json.loads((desk.scratch / name).read_text())
    check(f"{name}, by its schema", faults(given, SCHEMA, SCHEMA), [])
    return given


def check_json(desk, binary):
    release = desk.scratch / "served"
    for name, kind in [(ESCAPE, GOOD), (ODD, KINDS[3]), ("unread", KINDS[6])]:
        make_pair(release / name, *kind[:2])
    done = desk.run("--json", "out.json", "--junit", "out.xml", "served", "report", RACECHECK=binary)
    check("for servers: status", done.returncode, 2)
    given, report = json_of(desk, "out.json"), (desk.scratch / "report").read_text()
    check("JSON: answers", {pair["name"]: pair["answer"] for pair in given["pairs"]}, {
        visible(ESCAPE): "ACCEPT", ODD: "REFUSE,14,2,0,0", "unread": "UNREAD"})
    refused = next(pair for pair in given["pairs"] if pair["name"] == ODD)
    check("JSON: a refusal in numbers", [refused[field] for field in ("number", "line", "condition", "location")], [14, 2, 0, 0])
    check("JSON: record", given["record"], {field_name(what): value for what, value in record_of(report).items()})
    check("JSON: the date is read", datetime.fromisoformat(given["record"]["date"]).utcoffset() is not None, True)
    check("JSON: counts", list(given["counts"].items()), [
        ("DISAGREEMENT", 0), ("ACCEPT", 1), ("REFUSE", 1), ("REFUSE,14", 1), ("UNREAD", 1), ("FAILED", 0)])
    digests = [f"{digest}  {pair['name']}/{sheet}" for pair in given["pairs"] for sheet, digest in pair["sha256"].items()]
    check("JSON: digests", [line for line in digests if "\\x" not in line], digests_of(report))
    check_schema(given)
    done = desk.run("--json", "served/unread/x", "served", "unwritten", RACECHECK=binary)
    check("JSON in a pair's folder", (done.returncode, "pair's folder" in done.stderr), (2, True))


def check_schema(given):
    """The schema is a guard: a report that is spoiled anywhere is not of its form."""
    for what, spoil in [
        ("a field less", lambda one: one["pairs"][0].pop("seconds")), ("a field more", lambda one: one["pairs"][0].update(more=1)),
        ("an answer", lambda one: one["pairs"][0].update(answer="YES")), ("a number", lambda one: one["pairs"][0].update(number="33")),
        ("a digest", lambda one: one["pairs"][0]["sha256"].update({"split.txt": "0"})), ("no pairs", lambda one: one.pop("pairs")),
        ("a date", lambda one: one["record"].update(date="2026-01-01T00:00:00+0000")),
        ("a count", lambda one: one["counts"].update(REFUSE=-1)),
        ("a manifest", lambda one: one.update(manifest={})), ("a form", lambda one: one.update(format=2)),
        ("a decision", lambda one: one["pairs"][0].update(decision={"kind": "races"})),
    ]:
        spoiled = copy.deepcopy(given)
        spoil(spoiled)
        check(f"the schema does not take {what}", bool(faults(spoiled, SCHEMA, SCHEMA)), True)


def check_told():
    """docs/RELEASES.md tells every field in the schema's words."""
    page = (ROOT / "docs" / "RELEASES.md").read_text()
    for name in ("the report", "record", "pair", "decision", "manifest", "against"):
        form = SCHEMA["definitions"].get(name, SCHEMA)
        wanted = [[f"`{field}`", one["description"]] for field, one in form["properties"].items() if "description" in one]
        check(f"RELEASES.md, the fields of {name}", rows_of(page, f"| field of {name} |"), wanted)


def check_junit(desk):
    """What build servers take: by the usual schema's parts that are used here, if xmllint is there, and by hand."""
    path = desk.scratch / "out.xml"
    suite = ElementTree.parse(path).getroot()
    check("JUnit: counts", [suite.get(what) for what in ("tests", "failures", "errors", "skipped")], ["3", "1", "1", "0"])
    check("JUnit: when", datetime.fromisoformat(suite.get("timestamp")).utcoffset() is not None, True)
    check("JUnit: how long", float(suite.get("time")) >= 0, True)
    cases = list(suite.iter("testcase"))
    check("JUnit: pairs", {case.get("name"): [child.tag for child in case] for case in cases}, {
        visible(ESCAPE): [], ODD: ["failure"], "unread": ["error"]})
    check("JUnit: the class does not change with the folder", {case.get("classname") for case in cases}, {"racecheck.release"})
    check("JUnit: times", all(re.fullmatch(r"\d+\.\d{3}", case.get("time")) for case in cases), True)
    failure = suite.find(".//failure")
    check("JUnit: a message in words", failure.get("message"), "REFUSE,14,2,0,0: A variable is used where it is not bound.")
    check("JUnit: what is wrong", "variable 0 is bound by no line" in failure.text, True)
    if shutil.which("xmllint") is None:
        print("users: no xmllint here, so that the XML is of the usual form is not tried")
        return
    for spoiled, wanted in ((False, 0), (True, 3)):
        text = path.read_text()
        path.write_text(re.sub(r"\+(\d\d):(\d\d)\"", r'+\1\2"', text, count=0) if spoiled else text)
        done = subprocess.run(["xmllint", "--noout", "--schema", JUNIT, path], capture_output=True, text=True)
        check(f"JUnit by its schema, {'spoiled' if spoiled else 'as it is'}", done.returncode, wanted)


# ---- Beside an older report


def check_against(desk, binary):
    release = desk.scratch / "older"
    before = {"same": GOOD, "sheets": GOOD, "worse": GOOD, "better": KINDS[3], "otherwise": KINDS[3], "lost": GOOD, "gone": GOOD}
    for name, kind in before.items():
        make_pair(release / name, *kind[:2])
    desk.run("--json", "old.json", "older", "report", RACECHECK=binary)
    json_of(desk, "old.json")
    done = desk.run("--against", "old.json", "older", "report", RACECHECK=binary)
    check("against itself: status", (done.returncode, "against\tWorse\t0\n" in done.stdout, "against\tUnchanged\t7\n" in done.stdout),
          (0, True, True))
    release = release.rename(desk.scratch / "newer")
    (release / "sheets" / "split.txt").write_text(OTHER.replace("|", "\n"))
    for name, program in [("worse", KINDS[2][0]), ("better", GOOD[0]), ("otherwise", KINDS[2][0])]:
        (release / name / "program.txt").write_text(program.replace("|", "\n"))
    (release / "lost" / "split.txt").unlink()
    shutil.rmtree(release / "gone")
    make_pair(release / "new good", *GOOD[:2])
    make_pair(release / "new bad", "P,1|var,0|", Z)
    done = desk.run("--against", "old.json", "--json", "new.json", "newer", "report", RACECHECK=binary)
    check("against: status", done.returncode, 1)
    refused = "REFUSE,12,2,0,0"
    wanted = {
        "worse": 3, "newly_refused": [("worse", "ACCEPT", refused, True)], "newly_unanswered": [("lost", "ACCEPT", "UNREAD", True)],
        "refused_otherwise": [("otherwise", "REFUSE,14,2,0,0", refused, False)],
        "newly_accepted": [("better", "REFUSE,14,2,0,0", "ACCEPT", False)],
        "new": [("new bad", "", "REFUSE,14,2,0,0", True), ("new good", "", "ACCEPT", False)], "gone": [("gone", "ACCEPT", "", False)],
        "other_sheets": [("sheets", "ACCEPT", "ACCEPT", False)], "unchanged": 1}
    given = json_of(desk, "new.json")["against"]
    told = {kind: one if isinstance(one, int) else [tuple(change.values()) for change in one] for kind, one in given.items()}
    check("against: JSON", told, wanted)
    for text in (done.stdout, (desk.scratch / "report").read_text()):
        check("against: counts", [line for line in text.splitlines() if line.startswith("against\t")], [
            "against\tWorse\t3", "against\tNewly refused\t1", "against\tNewly without an answer that stands\t1",
            "against\tRefused otherwise than before\t1", "against\tNewly accepted\t1", "against\tNew\t2", "against\tGone\t1",
            "against\tOther sheets, the same answer\t1", "against\tUnchanged\t1"])
    check("against: what got worse", f"\nWorse than before: 3\nworse\tACCEPT -> {refused}\tworse\n" in done.stdout, True)
    check_beside_others(desk, binary)


def check_beside_others(desk, binary):
    """Reports that are none, and a checker that lies: nothing got worse is not said of it."""
    odd = '{"pairs":[{"name":1,"answer":"ACCEPT","sha256":{}}]}'
    for what, text in [("no JSON", "P,1\n"), ("a list", "[1]"), ("no pairs", "{}"), ("odd pairs", odd)]:
        (desk.scratch / "odd.json").write_text(text)
        done = desk.run("--against", "odd.json", "newer", "unwritten", RACECHECK=binary)
        check(f"against {what}", (done.returncode, "not a report that check-release --json" in done.stderr), (2, True))
    done = desk.run("--against", "old.json", "--json", "old.json", "newer", "unwritten", RACECHECK=binary)
    check("against what would be written over", (done.returncode, "old.json" in done.stderr), (2, True))
    done = desk.run("--against", "old.json", "newer", "report", RACECHECK=desk.binary("yes", "echo ACCEPT"))
    check("against, with a racecheck that accepts all", done.returncode, 2)
    check("no report after an error", list(desk.scratch.rglob("unwritten")), [])


def check_served(binary):
    check_told()
    with tempfile.TemporaryDirectory() as scratch:
        desk = Desk(Path(scratch).resolve())
        check_json(desk, binary)
        check_junit(desk)
        check_against(desk, binary)
