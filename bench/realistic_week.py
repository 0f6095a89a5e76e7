#!/usr/bin/env python3
"""Makes a week of days as `realistic_days.py` makes them, of which each begins with the units that the day before leaves.

    realistic_week.py KIND TRIPS DAYS DIR

Day D of the week lies in DIR/D and is made by the seed D. The rows of a station that several days have become one: the
longest platform, and the least reallocation time. Units that no plan needs are added where the night asks for them, as
few as there can be, so that the plan which is hidden in each day still runs.
"""
import csv
import os
import subprocess
import sys

HERE = os.path.dirname(os.path.abspath(__file__))


def rows_of(path):
    with open(path, newline="") as file:
        return list(csv.reader(file))


def write_rows(path, rows):
    with open(path, "w", newline="") as file:
        csv.writer(file, lineterminator="\n").writerows(rows)


def stations_of(days):
    """The header, and a row for each station of any day."""
    header, found = None, {}
    for day in days:
        header, *rows = rows_of(f"{day}/stations.csv")
        for name, platform, reallocation in rows:
            old = found.get(name, (0, 600))
            found[name] = max(old[0], int(platform)), min(old[1], int(reallocation))
    return [header] + [[name, *found[name]] for name in sorted(found)]


def stock_of(day):
    """How many units start and end the day, by station and type."""
    return {(station, kind): (int(start), int(end)) for station, kind, start, end in rows_of(f"{day}/stock.csv")[1:]}


def idle_units(stocks, place):
    """How many idle units stand at a place each day, so that each night they make up for the difference."""
    idle = [0]
    for before, day in zip(stocks, stocks[1:]):
        idle.append(idle[-1] + before.get(place, (0, 0))[1] - day.get(place, (0, 0))[0])
    return [units - min(idle) for units in idle]


def main():
    kind, trips, count, folder = sys.argv[1], sys.argv[2], int(sys.argv[3]), sys.argv[4]
    days = [f"{folder}/{number}" for number in range(1, count + 1)]
    for number, day in enumerate(days, 1):
        os.makedirs(folder, exist_ok=True)
        subprocess.run([sys.executable, f"{HERE}/realistic_days.py", kind, trips, str(number), day], check=True)
    stations, types = stations_of(days), rows_of(f"{days[0]}/types.csv")
    stocks = [stock_of(day) for day in days]
    places = sorted(set().union(*stocks))
    idle = {place: idle_units(stocks, place) for place in places}
    for number, day in enumerate(days):
        write_rows(f"{day}/types.csv", types)
        write_rows(f"{day}/stations.csv", stations)
        rows = [["station", "type", "start", "end"]]
        for place in places:
            start, end = stocks[number].get(place, (0, 0))
            rows.append([*place, start + idle[place][number], end + idle[place][number]])
        write_rows(f"{day}/stock.csv", rows)


main()
