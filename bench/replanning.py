#!/usr/bin/env python3
"""Disturbs realistic days, has `raildesk replan` plan the rest of each, and runs what it prints in the later day.

    replanning.py RAILDESK RAILPLAN

RAILDESK and RAILPLAN are the programs as `rt run` builds them. Each day is planned by `raildesk plan`; then three trips
that have not left are cancelled at NOW, drawn alike in each run. The later day is made here, of the tables without the
rows of the cancelled trips; `railplan simulate` runs in it the plan that is printed. The price, the number of changes
and the units of the trips that have left are counted here too. The replanning.md beside it has the figures.
"""
import csv
import os
import random
import shutil
import subprocess
import sys
import tempfile
import time

import realistic_days

KINDS = ("two", "three", "flat", "rigid", "scarce")
SIZES, PICKS, CANCELLED = (100, 200), 6, 3
NOW, CHANGE = "08:00", 100
OPTIONS = ["--change", str(CHANGE), "--nodes", "0", "--evaluations", "500"]
TABLES = ("types.csv", "stations.csv", "stock.csv", "trips.csv", "links.csv", "weights.csv")


def run(words):
    """What a command writes, and the seconds that it takes."""
    begun = time.monotonic()
    out = subprocess.run(words, stdout=subprocess.PIPE, check=False).stdout
    return out.decode(), time.monotonic() - begun


def rows(folder, name):
    """The records of a table, the header too."""
    with open(os.path.join(folder, name), newline="", encoding="ascii") as file:
        return list(csv.reader(file))


def write(folder, name, records):
    """Writes a table."""
    with open(os.path.join(folder, name), "w", newline="", encoding="ascii") as file:
        csv.writer(file, lineterminator="\n").writerows(records)


def minute(time_of_day):
    """The minute that a time says."""
    hours, minutes = time_of_day.split(":")
    return int(hours) * 60 + int(minutes)


def plan_of(document, trips):
    """The units of each trip, by its name, in the lines `run` of a document."""
    runs = [line.split()[1:] for line in document.splitlines() if line.startswith("run ")]
    return {trips[int(run[0]) + 1][0]: run[1:] for run in runs}


def put_plan(folder, plan):
    """Writes the table of a plan."""
    write(folder, "plan.csv", [["trip", "units"]] + [[trip, " ".join(units)] for trip, units in plan.items()])


def types_of_units(folder):
    """The type of each unit: units are numbered by station, and there by type."""
    stock = {(row[0], row[1]): int(row[2]) for row in rows(folder, "stock.csv")[1:]}
    types = [row[0] for row in rows(folder, "types.csv")[1:]]
    return [kind for station in rows(folder, "stations.csv")[1:] for kind in types
            for _ in range(stock.get((station[0], kind), 0))]


def draw(name, pick, trips, links):
    """Trips that may be cancelled at NOW."""
    leaves = {trip[0]: minute(trip[2]) for trip in trips[1:]}
    now, halves = minute(NOW), {}
    for link in links[1:]:
        if link[0] == "split":
            halves[link[3]], halves[link[4]] = link[4], link[3]
    free = [t for t in leaves if leaves[t] >= now and leaves[halves.get(t, t)] >= now]
    return random.Random(f"{name} {pick}").sample(free, CANCELLED)


def later_day(folder, place, gone):
    """Makes the day without the cancelled trips and the links that name one."""
    shutil.copytree(folder, place)
    write(place, "trips.csv", [trip for trip in rows(folder, "trips.csv") if trip[0] not in gone])
    links = rows(folder, "links.csv")
    write(place, "links.csv", links[:1] + [link for link in links[1:] if not gone & set(link[1:5])])


def check(railplan, folder, document, planned, gone):
    """Asserts that the plan of a document runs in the later day, and that what is said of it is right."""
    trips, head = rows(folder, "trips.csv"), document.split("\n", 1)[0].split()
    plan, unit_type = plan_of(document, trips), types_of_units(folder)
    with tempfile.TemporaryDirectory() as above:
        place = os.path.join(above, "later")
        later_day(folder, place, gone)
        put_plan(place, plan)
        said = run([railplan, "simulate", place])[0].split()
    changes = sum([unit_type[int(u)] for u in planned[t]] != [unit_type[int(u)] for u in plan[t]] for t in plan)
    assert said[0] == "runs" and changes == int(head[-1]), (folder, gone, said)
    price = int(head[2] if head[1] == "optimal" else head[4])
    assert int(said[1]) + CHANGE * changes == price, (folder, gone, said)
    assert all(plan[t[0]] == planned[t[0]] for t in trips[1:] if minute(t[2]) < minute(NOW)), (folder, gone)


def measure(raildesk, railplan, folder, name):
    """Prints the line of a day."""
    document, planning = run([raildesk, "plan", folder, "--nodes", "0"])
    trips, links = rows(folder, "trips.csv"), rows(folder, "links.csv")
    planned = plan_of(document, trips)
    put_plan(folder, planned)
    found = {"optimal": 0, "plan": 0, "infeasible": 0, "neither": 0}
    longest = 0
    for pick in range(1, PICKS + 1):
        gone = draw(name, pick, trips, links)
        write(folder, "cancelled.csv", [["trip"]] + [[trip] for trip in gone])
        document, seconds = run([raildesk, "replan", folder, NOW] + OPTIONS)
        longest = max(longest, seconds)
        head = document.split("\n", 1)[0].split()
        has_plan = "changes" in head
        found[head[1] if head[1] != "bounded" else "plan" if has_plan else "neither"] += 1
        if has_plan:
            check(railplan, folder, document, planned, set(gone))
    print(f"| {name} | {planning:.2f} | {found['optimal']} | {found['plan']} | {found['infeasible']} "
          f"| {found['neither']} | {longest:.2f} |", flush=True)


def main():
    """Measures each day."""
    raildesk, railplan = sys.argv[1:]
    print("| Day | Planned in, s | Optimal | Bounded, with a plan | Infeasible | Bounded, without one | Longest, s |")
    print("|---|---|---|---|---|---|---|")
    with tempfile.TemporaryDirectory() as above:
        for size in SIZES:
            for kind in KINDS:
                name = f"{kind}-{size}"
                folder = os.path.join(above, name)
                realistic_days.make(kind, size, 1, folder)
                measure(raildesk, railplan, folder, name)


if __name__ == "__main__":
    main()
