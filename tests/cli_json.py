"""Compares what cartheron prints with --json, for show, site and check, with the independent reader and planner.

    python3 tests/cli_json.py COMMAND.. <ANSWERS

The command, which may be several words, is run over the stored sites and the stored plan that passes. Standard input
has what `cli_texts --json` and `cli_plans --json` print: for each text the text as a string, what site prints, and what
show prints or null; and for each plan that passes the site's text and the plan's as strings, and what check prints.
"""

import json
import subprocess
import sys
from glob import glob

import planning
import reference

SYMBOL_MICROSECONDS = 16


def no_fraction(digits):
    raise AssertionError("a number that is no integer: " + digits)


DECODER = json.JSONDecoder(parse_float=no_fraction, parse_constant=no_fraction)


def tag(site, cluster):
    return site.clusters[cluster].tag_kept().decode("ascii")


def cluster_facts(site, number):
    cluster = site.clusters[number]
    return {"cluster": number, "tag": tag(site, number), "parent": None if number == 0 else cluster.parent,
            "superframe_order": cluster.order, "length": planning.portions(site)[number]}


def flow_facts(site, number):
    flow = site.flows[number]
    return {"flow": number, "source": flow.source, "source_tag": tag(site, flow.source), "sink": flow.sink,
            "sink_tag": tag(site, flow.sink), "period": flow.period, "deadline": flow.deadline}


def site_facts(site):
    return {"symbol_microseconds": SYMBOL_MICROSECONDS, "active": sum(planning.portions(site)),
            "clusters": [cluster_facts(site, number) for number in range(site.cluster_count)],
            "flows": [flow_facts(site, number) for number in range(site.flow_count)]}


def plan_facts(site, plan):
    """What a plan text says, and what follows from it for the flows."""
    header, *lines = [bytes.fromhex(line.decode()) for line in plan.splitlines()]
    interval = planning.interval(header[2])
    active = sum(planning.portions(site))
    starts = {line[1]: int.from_bytes(line[2:6], "big") for line in lines}
    clusters, flows = [], []
    for line in lines:
        facts = cluster_facts(site, line[1]) | {"start": starts[line[1]]}
        assert facts["length"] == int.from_bytes(line[6:10], "big") and facts["tag"] == line[11:].decode()
        clusters.append(facts)
    for number, flow in enumerate(planning.flows(site)):
        flows.append(flow_facts(site, number) | {
            "crossings": planning.crossings(planning.path(site, flow), starts),
            "allowed": planning.allowed(flow.deadline, interval)})
    return {"symbol_microseconds": SYMBOL_MICROSECONDS, "beacon_order": header[2], "interval": interval,
            "active": active, "asleep": interval - active, "clusters": clusters, "flows": flows}


def compare(text, site_answer, plan_answer):
    site = reference.read(text)
    assert site_answer == site_facts(site), (text, site_answer)
    length, room = planning.plan(text, 9673)
    expected = None if length > 65535 else plan_facts(site, room)
    assert plan_answer == expected, (text, plan_answer)
    return expected is not None


def compare_checked(text, plan, answer):
    """What check prints of a plan that passes: its facts, and the order that the planner has for the site."""
    length, room = planning.plan(text, 9673)
    assert length <= 65535, (text, plan)
    expected = plan_facts(reference.read(text), plan) | {"largest_order": bytes.fromhex(room[:8].decode())[2]}
    assert answer == expected, (text, plan, answer)


def contents(path):
    with open(path, "rb") as file:
        return file.read()


def answers(documents):
    """The values that stand one behind the other in a text."""
    at = 0
    while documents[at:].strip():
        while documents[at].isspace():
            at += 1
        value, at = DECODER.raw_decode(documents, at)
        yield value


def printed(command, *arguments):
    """What the command prints as JSON, or None where it refuses."""
    run = subprocess.run([*command, *arguments], capture_output=True, timeout=60)
    assert run.returncode in (0, 1), run
    return DECODER.decode(run.stdout.decode("ascii")) if run.returncode == 0 else None


def main():
    command, texts, planned, checked = sys.argv[1:], 0, 0, 1
    for path in glob("sites/*.site") + glob("bench/sites/*.site"):
        planned += compare(contents(path), printed(command, "site", "--json", path), printed(command, "show", "--json", path))
        texts += 1
    site, plan = "sites/pump-hall.site", "sites/pump-hall-vendor.plan"
    compare_checked(contents(site), contents(plan), printed(command, "check", "--json", site, plan))
    given = list(answers(sys.stdin.read()))
    for text, second, third in zip(given[0::3], given[1::3], given[2::3], strict=True):
        if isinstance(second, str):
            compare_checked(text.encode("ascii"), second.encode("ascii"), third)
            checked += 1
        else:
            planned += compare(text.encode("ascii"), second, third)
            texts += 1
    assert planned > 0 and checked > 1
    print(f"cli_json: {texts} sites as the independent planner has them, {planned} of them planned, and {checked} plans")


main()
