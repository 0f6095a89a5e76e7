#!/usr/bin/env python3
"""Measures `railplan simulate` on days that grow, and prints the figures as a table of ratios.

    simulate.py BIN

BIN is the program as `rt run` builds it. It needs valgrind. The simulate.md beside it says what is measured.
"""
import os
import re
import subprocess
import sys
import tempfile

# Trips and units of each day. The first is the one to which the others are compared.
DAYS = ((100, 500), (200, 1000), (400, 2000), (100, 2000), (400, 500))


def clock(minute):
    return f"{minute // 60:02}:{minute % 60:02}"


def write_day(folder, trips, units):
    """A day of groups of four trips: a train of six is split over two trips, and joined again for a fourth."""
    rows, links, plan = [], [], []
    for group in range(trips // 4):
        start = 8 * group
        out, front, rear, back = (f"{name}{group}" for name in "OFRB")
        there = ((out, "X", 0, "Y", 60), (front, "Y", 70, "Z", 120))
        times = (*there, (rear, "Y", 80, "Z", 130), (back, "Z", 150, "X", 210))
        for name, origin, departure, destination, arrival in times:
            rows.append(f"{name},{origin},{clock(start + departure)},{destination},{clock(start + arrival)},10,300")
        links.append(f"split,{out},,{front},{rear},no,none,none")
        links.append(f"join,{rear},{front},{back},,no,none,none")
        first = 6 * group % (units - units % 6)
        train = [str(first + place) for place in range(6)]
        for name, run in ((out, train), (front, train[:4]), (rear, train[4:]), (back, train[4:] + train[:4])):
            plan.append(f"{name},{' '.join(run)}")
    write_tables(folder, {
        "types.csv": ["type,carriages,seats,metres,family", "A,3,200,80,regional"],
        "stations.csv": ["station,platform,reallocation", "X,480,5", "Y,480,5", "Z,480,5"],
        "stock.csv": ["station,type,start,end", f"X,A,{units},{units}"],
        "trips.csv": ["trip,from,departure,to,arrival,km,demand"] + rows,
        "links.csv": ["kind,arriving,arriving2,departing,departing2,reverse,uncouple,couple"] + links,
        "weights.csv": ["carriage,shortage,shunting", "1,1,100"],
        "plan.csv": ["trip,units"] + plan,
    })


def write_tables(folder, tables):
    """Writes tables into a folder, by the names of their files."""
    for name, lines in tables.items():
        with open(os.path.join(folder, name), "w") as table:
            table.write("\n".join(lines) + "\n")


def run(words):
    """What a command writes to its two outputs, where it ends with status 0."""
    ended = subprocess.run(words, stdout=subprocess.PIPE, stderr=subprocess.PIPE, check=True, text=True)
    return ended.stdout, ended.stderr


def instructions_of(words):
    """The instructions that a command executes."""
    told = run(["valgrind", "--tool=callgrind", "--callgrind-out-file=/dev/null"] + words)[1]
    return int(re.search(r"Collected : (\d+)", told).group(1))


def memory_of(words, folder):
    """The most bytes that a command has on its heap and its stack at once."""
    snapshots = os.path.join(folder, "massif")
    run(["valgrind", "--tool=massif", "--stacks=yes", "--peak-inaccuracy=0", f"--massif-out-file={snapshots}"] + words)
    sizes = r"mem_heap_B=(\d+)\nmem_heap_extra_B=(\d+)\nmem_stacks_B=(\d+)"
    with open(snapshots) as told:
        return max(sum(map(int, found)) for found in re.findall(sizes, told.read()))


def measure(program, trips, units):
    """The instructions of a run of a day, and the most bytes that it has at once."""
    with tempfile.TemporaryDirectory() as folder:
        write_day(folder, trips, units)
        words = [program, "simulate", folder]
        assert run(words)[0].startswith("runs ")
        return instructions_of(words), memory_of(words, folder)


def main():
    program = os.path.abspath(sys.argv[1])
    print("| Trips | Units | Instructions | Memory |")
    print("|---|---|---|---|")
    first = None
    for trips, units in DAYS:
        figures = measure(program, trips, units)
        first = first or figures
        ratios = " | ".join(f"{figure / base:.2f}" for figure, base in zip(figures, first))
        print(f"| {trips} | {units:,} | {ratios} |", flush=True)
    print(f"\nThe first day: {first[0]:,} instructions, {first[1]:,} bytes.")


if __name__ == "__main__":
    main()
