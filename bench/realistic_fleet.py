#!/usr/bin/env python3
"""Makes a day as `realistic_days.py` makes it, for which a fleet is to be found.

    realistic_fleet.py KIND TRIPS SEED DIR

As many units of each type may stand at each station as the day has there in the morning or in the evening, whichever is
more. A unit costs 300 for each of its carriages.
"""
import csv
import os
import sys

import realistic_days

COST_OF_A_CARRIAGE = 300


def rows_of(path):
    with open(path, newline="", encoding="ascii") as file:
        return list(csv.reader(file))


def write_rows(path, rows):
    with open(path, "w", newline="", encoding="ascii") as file:
        csv.writer(file, lineterminator="\n").writerows(rows)


def make(kind, trips, seed, folder):
    """Writes the tables of a day and its prices into a folder."""
    realistic_days.make(kind, trips, seed, folder)
    stock, types = os.path.join(folder, "stock.csv"), os.path.join(folder, "types.csv")
    header, *rows = rows_of(stock)
    most = [(place, name, max(int(start), int(end))) for place, name, start, end in rows]
    write_rows(stock, [header] + [[place, name, units, units] for place, name, units in most])
    prices = [[name, int(carriages) * COST_OF_A_CARRIAGE] for name, carriages, *_ in rows_of(types)[1:]]
    write_rows(os.path.join(folder, "fleet.csv"), [["type", "cost"]] + prices)


if __name__ == "__main__":
    make(sys.argv[1], int(sys.argv[2]), int(sys.argv[3]), sys.argv[4])
