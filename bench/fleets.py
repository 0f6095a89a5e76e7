#!/usr/bin/env python3
"""Measures `raildesk fleet` on realistic days, and prints the figures as tables.

    fleets.py RAILDESK

RAILDESK is the program as `rt run` builds it. The fleets.md beside it says what is measured.
"""
import itertools
import os
import random
import sys
import tempfile

from planning import KINDS, head, run
from realistic_fleet import make, rows_of, write_rows

# The small days, whose fleets are listed one by one, and those of real size.
SMALL, SMALL_SEEDS = 6, (1,)
LARGE, LARGE_SEEDS = 40, (1, 2, 3)
# A small day has at most so many fleets.
FEW = 300
SPLITS = "200"
WORDS = ("--rounds", "0", "--evaluations", "100", "--splits", SPLITS)
# A plan is near its bound where it costs at most so many times that. A run is ended after so many seconds.
NEAR, LONG = 1.05, 600


def found(text):
    """The word, the bound and the plan of a fleet. Its document begins with a word and the second line of an answer."""
    return head("\n" + text.removeprefix("fleet ") if text else text)


def draw_most(folder, draw):
    """Lets two or three units stand at each place of the stock, and one where there would be too many fleets."""
    header, *rows = rows_of(os.path.join(folder, "stock.csv"))
    fleets, places = 1, []
    for station, name, *_ in rows:
        most = draw.choice((2, 3))
        most = most if fleets * (most + 1) * 2 ** (len(rows) - len(places) - 1) <= FEW else 1
        fleets *= most + 1
        places.append((station, name, most))
    write_rows(os.path.join(folder, "stock.csv"), [header] + [[*place, place[2]] for place in places])
    return header, places


def least_of_all(raildesk, folder, header, places):
    """The least price of a fleet with a plan, by planning the day with each fleet, or None where no fleet has one."""
    price = {name: int(cost) for name, cost in rows_of(os.path.join(folder, "fleet.csv"))[1:]}
    least = None
    for fleet in itertools.product(*(range(most + 1) for _, _, most in places)):
        stock = [[station, name, units, units] for (station, name, _), units in zip(places, fleet)]
        write_rows(os.path.join(folder, "stock.csv"), [header] + stock)
        word, cost, _ = head(run([raildesk, "plan", folder])[0])
        assert word in ("optimal", "infeasible"), folder
        if word == "optimal":
            cost += sum(units * price[name] for (_, name, _), units in zip(places, fleet))
            least = cost if least is None else min(least, cost)
    return least


def small_days(raildesk, folder):
    """What is found on small days, against a list of all fleets."""
    counts = {}
    for kind in KINDS:
        for seed in SMALL_SEEDS:
            place = os.path.join(folder, f"{kind}-{SMALL}-{seed}")
            make(kind, SMALL, seed, place)
            header, places = draw_most(place, random.Random(f"{kind}-{seed}"))
            word, bound, plan = found(run([raildesk, "fleet", place, "--splits", "200"])[0])
            least = least_of_all(raildesk, place, header, places)
            if word == "infeasible":
                assert least is None, place
            elif word == "optimal":
                assert least == plan, place
            else:
                assert least is None or bound <= least and (plan is None or least <= plan), place
            counts[word] = counts.get(word, 0) + 1
    print("| Said | Days |\n|---|---|")
    for word, days in counts.items():
        print(f"| `{word}` | {days} |")


def cells_of(place, text):
    """The most units and those that were found, the splits, the bound and the plan of a fleet, as cells of a table."""
    word, bound, plan = found(text)
    most = sum(int(row[2]) for row in rows_of(os.path.join(place, "stock.csv"))[1:])
    lines = [line.split() for line in text.split("\n")]
    splits = next((line[1] for line in lines if line[:1] == ["splits"]), "")
    units = sum(int(line[3]) for line in lines if line[:1] == ["stock"])
    if plan is None:
        return f"{most} | | {splits} | {word if bound is None else f'{bound:,}'} | |"
    return f"{most} | {units} | {splits} | {bound:,} | {plan:,} | {100 * (plan - bound) / bound:.1f}"


def large_day(raildesk, folder, kind, seed, words):
    """Tells what is found on a day of real size; whether its plan is far from the bound, though splits were left."""
    place = os.path.join(folder, f"{kind}-{LARGE}-{seed}")
    make(kind, LARGE, seed, place)
    text, seconds, _ = run([raildesk, "fleet", place, *words], LONG)
    _, bound, plan = found(text)
    print(f"| {kind}-{LARGE}-{seed} | {cells_of(place, text)} | {seconds:.1f} |", flush=True)
    return plan is not None and plan > NEAR * bound and f"\nsplits {SPLITS}\n" not in text


def large_days(raildesk, folder):
    """Days of real size, without branchings; and with some those that want them."""
    names = "Day", "Most units", "Units", "Splits", "Bound", "Plan", "Over the bound, %", "Seconds"
    heading = "| " + " | ".join(names) + " |\n" + "|---" * len(names) + "|"
    print(f"\n{heading}")
    far = [(kind, seed) for kind in KINDS for seed in LARGE_SEEDS
           if large_day(raildesk, folder, kind, seed, ("--nodes", "0", *WORDS))]
    print(f"\n{heading}")
    for kind, seed in far:
        large_day(raildesk, folder, kind, seed, ("--nodes", "10", *WORDS))


def main():
    raildesk = os.path.abspath(sys.argv[1])
    with tempfile.TemporaryDirectory() as folder:
        small_days(raildesk, folder)
        large_days(raildesk, folder)


if __name__ == "__main__":
    main()
