"""Tests of fleet/grafana, for tests/fleet/test: the sample is what a run writes, dashboard and alerts name only its metrics, and by Prometheus's own
tool each alert fires where it must, and nowhere else."""

import json
import re
import subprocess

from cluster import ROOT, SECONDS
from fleet_verify.metrics import metrics_of
from fleet_verify.summary import Summary

RULES, DASHBOARD, SAMPLE = (ROOT / "fleet/grafana" / name for name in ("alerts.yaml", "dashboard.json", "fleet.prom"))
TABLE, OTHER = "/var/lib/fleet-verify/verdicts.db", "/var/lib/fleet-verify/others.db"
# The run of the sample: 5,000 machines, of which one has no verdict.
RUN = Summary(machines=5000, counts={"match": 4990, "differ": 4, "refused": 3, "unreadable": 2, "failed": 0}, done=4999, oldest_match=11.5,
              status=1, ended="2026-01-01T00:15:00.000+00:00", seconds=12.5)
METRIC = re.compile(r"\bima_fleet_\w+")
# An alert: its name, its severity, its summary and its description.
ALERT = re.compile(r"      - alert: (\w+)\n(?:        .*\n)*?          severity: (\w+)\n        annotations:\n"
                   r"          summary: '(.*)'\n          description: '(.*)'\n")

# Series by the minute of a fleet of 10 machines that all match. What a test asks is what holds after 25 hours (`NOW`).
NOW, MINUTES = 25 * 60, 26 * 60
STATUS, END, AGE = "status", "end_timestamp_seconds", "oldest_match_age_seconds"
MATCH, DIFFER, REFUSED, UNREADABLE, FAILED, NONE = MACHINES = ("match", "differ", "refused", "unreadable", "failed", "none")
SILENT = "_"


def changed(before, after, at=NOW - 30):
    """A series with one value before this minute, and another from then on."""
    parts = ((before, at), (after, MINUTES - at))
    return " ".join(f"{SILENT}x{count}" if value == SILENT else f"{value}+0x{count - 1}" for value, count in parts)


GOOD = {STATUS: changed(0, 0), END: f"0+60x{MINUTES}", AGE: changed(10, 10), MATCH: changed(10, 10),
        **{verdict: changed(0, 0) for verdict in MACHINES if verdict != MATCH}}
ALL_SILENT = dict.fromkeys(GOOD)
# What an alert says of series that are changed so, or are not there: the labels that it has beside the table's, and its value; nothing where it must
# not fire.
CASES = {
    "FleetMachinesDoNotMatch": [
        ({DIFFER: changed(0, 1), MATCH: changed(10, 9), STATUS: changed(0, 1)}, {"verdict": "differ"}, 1),
        ({REFUSED: changed(0, 1), MATCH: changed(10, 9), STATUS: changed(0, 1)}, {"verdict": "refused"}, 1),
        ({UNREADABLE: changed(0, 2), MATCH: changed(10, 8), STATUS: changed(0, 4)}, {"verdict": "unreadable"}, 2),
        ({FAILED: changed(0, 10), MATCH: changed(10, 0), STATUS: changed(0, 4)}, {"verdict": "failed"}, 10),
        ({NONE: changed(0, 10), MATCH: changed(10, 0), STATUS: changed(0, 3)}, {"verdict": "none"}, 10),
        ({MATCH: changed(9, 10), DIFFER: changed(1, 0)}, None, None),
    ],
    "FleetRunFailed": [
        ({STATUS: changed(0, 2), **{verdict: changed(0, SILENT) for verdict in MACHINES}}, {}, 2),
        ({STATUS: changed(0, 3)}, {}, 3),
        ({MATCH: changed(10, 0)}, {}, 0),
        ({MATCH: None}, {}, 0),
        ({STATUS: changed(0, 1), DIFFER: changed(0, 1)}, None, None),
    ],
    "FleetRunOverdue": [
        ({END: changed(0, NOW * 60 - 3601)}, {}, 3601),
        ({END: changed(0, NOW * 60 + 3601)}, {}, 3601),
        ({END: changed(0, 0)}, {}, NOW * 60),
        ({END: changed(0, NOW * 60 - 3600)}, None, None),
        ({END: changed(0, NOW * 60 + 3600)}, None, None),
    ],
    "FleetMatchOld": [
        ({AGE: changed(10, 7201)}, {}, 7201),
        ({AGE: changed(10, "Inf")}, {}, "+Inf"),
        ({AGE: changed(10, 7200)}, None, None),
    ],
    "FleetShrank": [
        ({MATCH: changed(10, 9)}, {}, 9),
        ({MATCH: changed(10, 9, at=NOW - 1430)}, {}, 9),
        ({MATCH: changed(10, 9, at=NOW - 1450)}, None, None),
        ({MATCH: changed(10, 11)}, None, None),
        ({MATCH: changed(10, 9), DIFFER: changed(0, 1)}, None, None),
    ],
    "FleetTableUnheard": [
        ({name: changed(4, SILENT) for name in GOOD}, {}, 4),
        ({name: changed(4, SILENT, at=NOW - 1430) for name in GOOD}, {}, 4),
        ({END: None}, {}, 0),
        ({name: changed(4, SILENT, at=NOW - 3) for name in GOOD}, None, None),
        ({name: changed(4, SILENT, at=NOW - 8) for name in GOOD}, None, None),
        ({name: changed(4, SILENT, at=NOW - 1450) for name in GOOD}, {}, 4),
    ],
    "FleetUnheard": [
        (ALL_SILENT, {}, 1),
        ({STATUS: None}, {}, 1),
        ({name: changed(4, SILENT, at=NOW - 1450) for name in GOOD}, {}, 1),
        ({name: changed(4, SILENT, at=NOW - 8) for name in GOOD}, None, None),
        ({**ALL_SILENT, "other": OTHER}, None, None),
    ],
}
# How many values each panel of the dashboard shows of such a fleet, and of one whose last run ended two hours ago.
OLD = {END: changed(0, NOW * 60 - 7200)}
SHOWN = {
    "Last run": (1, 0), "Machines by verdict": (6, 0), "Since the last run ended": (1, 1), "Oldest match": (1, 1), "Machines": (1, 1),
    "Machines by verdict, over time": (6, 6), "Duration of runs": (0, 0), "Verdicts per second": (0, 0),
}


def series_of(table, lines):
    """Series of a table's metrics, as promtool takes them."""
    for name, values in lines.items():
        metric, label = ("machines", f',verdict="{name}"') if name in MACHINES else (name, "")
        if values is not None:
            yield {"series": f'ima_fleet_{metric}{{table="{table}"{label}}}', "values": values}


def test_of(changes, **asked):
    """A test for promtool of the good fleet with these changes."""
    others = series_of(changes["other"], GOOD) if "other" in changes else ()
    lines = {name: values for name, values in {**GOOD, **changes}.items() if name != "other"}
    return {"interval": "1m", "input_series": [*series_of(TABLE, lines), *others], **asked}


def expected(text, labels, value):
    """The text of an annotation, with labels and value in their places."""
    return re.sub(r"\{\{ \$(?:labels\.)?(\w+) \}\}", lambda found: str({**labels, "value": value}[found[1]]), text)


def alert_test(name, changes, labels, value):
    """A test of one alert, which fires with these labels and this value, or does not where they are None."""
    alarms = []
    if labels is not None:
        _, severity, summary, description = next(found for found in ALERT.findall(RULES.read_text()) if found[0] == name)
        labels = {**labels, "severity": severity, **({} if name == "FleetUnheard" else {"table": TABLE})}
        alarms = [{"exp_labels": labels, "exp_annotations": {
            "summary": expected(summary, labels, value), "description": expected(description, labels, value)}}]
    return test_of(changes, alert_rule_test=[{"eval_time": f"{NOW}m", "alertname": name, "exp_alerts": alarms}])


def promtool(*words, given=None):
    done = subprocess.run(["promtool", *map(str, words)], input=given, capture_output=True, text=True, timeout=SECONDS)
    return done.returncode, done.stdout + done.stderr


def tested(folder, tests, rules=RULES):
    """What promtool says of tests, and None if all pass. (JSON is YAML.)"""
    file = folder / "tests.json"
    file.write_text(json.dumps({"rule_files": [str(rules)], "evaluation_interval": "5m", "tests": tests}))
    status, said = promtool("test", "rules", file)
    return None if status == 0 else said


def panels():
    """The panels of the dashboard: the title and the expression of each, with a pattern for all tables in place of the variable."""
    for panel in json.loads(DASHBOARD.read_text())["panels"]:
        [target] = panel["targets"]
        yield panel["title"], target["expr"].replace("$table", ".*")


def test_grafana(tools):
    """Sample, dashboard and alerts of fleet/grafana"""
    written = metrics_of(RUN, TABLE)
    tools.check("fleet/grafana: the sample is what a run writes", SAMPLE.read_text(), written)
    known = set(METRIC.findall(written))
    for file in (RULES, DASHBOARD):
        named = set(METRIC.findall(file.read_text()))
        tools.check(f"fleet/grafana: {file.name} names metrics", (bool(named), named - known), (True, set()))
    names = [name for name, *_ in ALERT.findall(RULES.read_text())]
    tools.check("fleet/grafana: each alert has its tests", (names, RULES.read_text().count("alert:")), ([*CASES], len(CASES)))
    test_dashboard(tools)
    tools.needs("promtool")
    folder = tools.folder / "grafana"
    folder.mkdir()
    for title, words, given in (("the sample", ("metrics",), written), ("the alerts", ("rules", RULES), None)):
        status, said = promtool("check", *words, given=given)
        tools.check(f"promtool check: {title}", None if status == 0 else said, None)
    test_alerts(tools, folder)
    test_panels(tools, folder)


def test_dashboard(tools):
    """Nothing is green but a success and what is within its bounds, and what is not heard is said to be that."""
    board = json.loads(DASHBOARD.read_text())
    stats = [panel for panel in board["panels"] if panel["type"] == "stat"]
    tools.check("fleet/grafana: the panels", [panel["title"] for panel in board["panels"]], [*SHOWN])
    for panel in stats:
        defaults = panel["fieldConfig"]["defaults"]
        lowest = defaults["thresholds"]["steps"][0]["color"]
        tools.check(f"fleet/grafana: {panel['title']}: nothing heard", (defaults["noValue"], lowest == "green"), ("nothing heard", False))
    [mapping] = stats[0]["fieldConfig"]["defaults"]["mappings"]
    green = [status for status, shown in mapping["options"].items() if shown["color"] == "green"]
    tools.check("fleet/grafana: green is the status of a match", (green, sorted(mapping["options"])), (["0"], ["0", "1", "2", "3", "4"]))


def test_alerts(tools, folder):
    """Each alert on made series, and that none passes without its rule."""
    asked = [{"eval_time": f"{NOW}m", "alertname": name, "exp_alerts": []} for name in CASES]
    tools.check("promtool test: no alert where every machine matches", tested(folder, [test_of({}, alert_rule_test=asked)]), None)
    text = RULES.read_text()
    for name, cases in CASES.items():
        for title, is_firing in (("fires", True), ("does not fire", False)):
            tests = [alert_test(name, *case) for case in cases if (case[1] is not None) == is_firing]
            tools.check(f"promtool test: {name} {title}: {len(tests)} tests", tested(folder, tests) if tests else "no test", None)
        other = folder / "other.yaml"
        other.write_text(text.replace(f"alert: {name}\n", "alert: Another\n"))
        said = tested(folder, [alert_test(name, *cases[0])], other)
        tools.check(f"promtool test: {name} fires by its rule", said is not None and f"alertname: {name}" in said)


def test_panels(tools, folder):
    """Each panel's expression on made series."""
    for number, (title, changes) in enumerate((("a fleet that matches", {}), ("a run that ended two hours ago", OLD))):
        asked = [{"expr": f"count({expression})", "eval_time": f"{NOW}m",
                  "exp_samples": [{"labels": "{}", "value": SHOWN[panel][number]}] if SHOWN[panel][number] else []} for panel, expression in panels()]
        tools.check(f"promtool test: the panels, {title}", tested(folder, [test_of(changes, promql_expr_test=asked)]), None)
